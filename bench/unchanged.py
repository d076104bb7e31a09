#!/usr/bin/env python3
"""Tells by reason which jobs of real clients `shrink` lets go as they came, and how many bytes the others take.

    bench/unchanged.py PROGRAM FOLDER [--dpi DPI] [--render RENDER] [--jobs] [--said]

The jobs are those of clients.py, which are made in FOLDER unless they are there, so that two programs can be compared. Each goes through
`shrink --report` at DPI (auto). The first table has a row for each reason, as `--report` says it, with the number of jobs and their
clients; the second has a row for each client: its jobs, those that are refused, that come out as they came, and the bytes of all that are
accepted, before and after. `--jobs` has a line for each job, and `--said` tables of what the jobs say in commands that place no ink, and in
lines of `@PJL`, with their clients. With RENDER, as of oracle/sheets.py, what comes out has to print the same, also by printers whose
panels say another paper, landscape, or other lines or columns; the status is 1 if one doesn't.
"""

import argparse
import collections
import concurrent.futures
import os
import re
import subprocess
import sys

sys.dont_write_bytecode = True
import clients
sys.path.insert(0, os.path.join(os.path.dirname(os.path.realpath(__file__)), "..", "oracle"))
import reference
from sheets import printed

REPORT = re.compile(r"pclmin: ([0-9]+) bytes in, ([0-9]+) out, [0-9]+ pages?, (.*)")
# What a printer's panel says: nothing, and what else jobs may meet.
PANELS = ["", "PAPER=A4", "PAPER=LEGAL", "ORIENTATION=LANDSCAPE", "FORMLINES=40", "PITCH=16.66"]
# Commands that place ink, move the cursor or send data: what they say isn't told.
WORK = re.compile(rb"\*[pbct].*|\*r[ABCST]|&a[HVCR]|&f.|&p.|[()]s?[WX]|&l[E]|[E=9]|%X|[\0-\x1f]")
RESOLUTIONS = {"300": ["300"], "600": ["600"], "auto": ["300", "600"]}

Came = collections.namedtuple("Came", "job sent left how otherwise")


def path_of(folder, job):
    return os.path.join(folder, "jobs", clients.name_of(job).replace("/", "-") + ".pcl")


def make(folder, job, number):
    """Makes a job, unless it is there."""
    path = path_of(folder, job)
    if os.path.exists(path):
        return
    os.makedirs(own := os.path.join(folder, str(number)), exist_ok=True)
    with open(path + ".new", "wb") as out:
        run = subprocess.run(["bash", "-o", "pipefail", "-c", job.command], cwd=own, stdout=out, stderr=subprocess.DEVNULL)
    if run.returncode == 0 and os.path.getsize(path + ".new"):
        os.rename(path + ".new", path)


def otherwise(asked, job, written):
    """At which panels and resolutions a job prints otherwise than what is written of it, in words."""
    found = []
    for dpi in RESOLUTIONS[asked.dpi]:
        pages = subprocess.run([asked.program, "pages", "--dpi", dpi], input=job, capture_output=True)
        for panel in PANELS if pages.returncode == 0 else []:
            before = b"\x1b%%-12345X@PJL DEFAULT %s\r\n" % panel.encode() if panel else b""
            if printed(asked.render, before + job, dpi) != printed(asked.render, before + written, dpi):
                found.append("%s at %s" % (panel or "no panel", dpi))
    return ", ".join(found)


def look(asked, job):
    """How a job comes out."""
    path = path_of(asked.folder, job)
    if not os.path.exists(path):
        return Came(job, 0, 0, "the client fails", "")
    with open(path, "rb") as source:
        content = source.read()
    run = subprocess.run([asked.program, "shrink", "--report", "--dpi", asked.dpi], input=content, capture_output=True)
    said = run.stderr.decode().strip()
    found = REPORT.fullmatch(said)
    if run.returncode != 0 or not found:
        return Came(job, len(content), 0, re.sub(r" at [0-9]+", "", said.replace("pclmin: ", "")), "")
    is_other = asked.render and run.stdout != content
    return Came(job, len(content), len(run.stdout), found.group(3), otherwise(asked, content, run.stdout) if is_other else "")


def main():
    words = argparse.ArgumentParser(description=__doc__.split("\n", 1)[0])
    words.add_argument("program")
    words.add_argument("folder")
    words.add_argument("--dpi", choices=sorted(RESOLUTIONS), default="auto")
    words.add_argument("--render")
    words.add_argument("--jobs", action="store_true")
    words.add_argument("--said", action="store_true")
    words.add_argument("--workers", type=int, default=1)
    asked = words.parse_args()
    jobs = clients.all_jobs()
    if not os.path.exists(os.path.join(asked.folder, "jobs")):
        os.makedirs(os.path.join(asked.folder, "jobs"))
        clients.make_documents(asked.folder)
    with concurrent.futures.ThreadPoolExecutor(asked.workers) as pool:
        list(pool.map(lambda each: make(asked.folder, each[1], each[0]), enumerate(jobs)))
        came = list(pool.map(lambda job: look(asked, job), jobs))
    if asked.jobs:
        for each in came:
            print("%s | %d | %d | %s" % (clients.name_of(each.job), each.sent, each.left, each.how))
    tell(came)
    if asked.said:
        tell_said(asked.folder, jobs)
    return 1 if any(each.otherwise for each in came) else 0


def tell_said(folder, jobs):
    """What the jobs say beside ink: a table of commands with their values, and one of lines of @PJL; and how many don't say something."""
    commands, lines, silent = (collections.defaultdict(collections.Counter) for _ in range(3))
    for job in jobs:
        try:
            with open(path_of(folder, job), "rb") as source:
                read = reference.read(source.read(), reference.Profile.DRIVERS)
        except (OSError, reference.Refused):
            continue
        said = {(each.name.decode("latin-1"), each.value.sign.replace("+", "") + "%g" % (each.value.parts / 10000)) for each in read
                if each.name != reference.TEXT and not WORK.fullmatch(each.name)}
        for each in said:
            commands[each][job.client] += 1
        for line in {line.strip() for each in read if each.name == b"%X" for line in each.data.decode("latin-1").split("\n")} - {""}:
            lines[(line, "")][job.client] += 1
        names = {each.name for each in read}
        for name, is_said in (("no size", b"&lA" in names), ("no orientation", b"&lO" in names),
                              ("no reset or exit at the end", {b"E", b"%X"} & {each.name for each in read[-3:]})):
            if not is_said:
                silent[(name, "")][job.client] += 1
    for title, table in (("Not said", silent), ("Command", commands), ("Line", lines)):
        print()
        clients.row([title, "Value", "Jobs", "Clients"])
        clients.row(["---", "---", "---:", "---"])
        for (name, value), by in sorted(table.items()):
            clients.row([name, value, sum(by.values()), ", ".join("%s %d" % item for item in sorted(by.items()))])


def tell(came):
    """The two tables, and what prints otherwise."""
    reasons = collections.defaultdict(collections.Counter)
    for each in came:
        changed = each.left and each.left < each.sent
        reasons[each.how if not changed else "changed: " + each.how][each.job.client] += 1
    clients.row(["How", "Jobs", "Clients"])
    clients.row(["---", "---:", "---"])
    for how, by in sorted(reasons.items(), key=lambda item: -sum(item[1].values())):
        clients.row([how, sum(by.values()), ", ".join("%s %d" % item for item in sorted(by.items()))])
    print()
    clients.row(["Client", "Jobs", "Refused", "As they came", "As sent", "Left"])
    clients.row(["---"] + ["---:"] * 5)
    groups = collections.defaultdict(list)
    for each in came:
        groups[each.job.client].append(each)
    for client, group in groups.items():
        read = [each for each in group if each.left]
        clients.row([client, len(group), len(group) - len(read), sum(each.left == each.sent for each in read), sum(each.sent
            for each in read),
                     sum(each.left for each in read)])
    for each in came:
        if each.otherwise:
            print("OTHERWISE %s: %s" % (clients.name_of(each.job), each.otherwise))


if __name__ == "__main__":
    sys.exit(main())
