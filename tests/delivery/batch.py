#!/usr/bin/env python3
"""Runs `pclmin batch` over many jobs, as docs/BATCH.md says, and looks at what it reports and leaves.

    tests/delivery/batch.py PCLMIN [JOBS]         1,000 jobs where no number is given

The jobs are made in a temporary folder: pages of text by ghostscript's drivers and copies of the samples, and among them some that
are refused, cut short, empty or not there. A batch over all of them is killed in the middle, run again, and run once more; then the
lines of docs/BATCH.md that use GNU parallel are run as they stand there, over an ssh server on loopback in place of the hosts. Each
time each job has to have one line of the report with the right outcome and digests, and a file in the folder that is whole. The
batch that is killed may leave the two files of the job that it was writing, `NAME.pclmin-partN` with its own number for N, which the next
one takes away. Some
jobs are compared, and some are written with certificates, which are checked. Prints what held, and how many jobs, pages and bytes a
batch does in how many seconds; status 1 if something doesn't hold.

Needs Debian's packages ghostscript, parallel, openssh-client and openssh-server.
"""
import collections
import csv
import hashlib
import json
import os
import pathlib
import random
import re
import shutil
import signal
import socket
import subprocess
import sys
import tempfile
import time
from concurrent.futures import ThreadPoolExecutor

ROOT = pathlib.Path(__file__).resolve().parent.parent.parent
# A kind of job: ghostscript's driver or what it is else, how many of a thousand there are, and the status of a batch for it.
KINDS = [("ljet2p", 380, 0), ("laserjet", 150, 0), ("ljetplus", 80, 0), ("lj4dith", 60, 0), ("fs600", 40, 0), ("sample", 60, 0),
         ("empty", 30, 0), ("ljet4", 80, 0), ("lj5gray", 30, 1), ("cut", 40, 1), ("words", 40, 1), ("missing", 10, 3)]
WORDS = [word for word in (ROOT / "docs" / "LANGUAGE.md").read_text().split() if word.isalpha()]
# How many jobs there are for one that is compared, and for one that is written with a certificate.
COMPARED, CERTIFIED = 20, 50
failed = []


def holds(what, is_so):
    print(f"{'holds' if is_so else 'DOES NOT HOLD'}: {what}", flush=True)
    if not is_so:
        failed.append(what)


# ---- the jobs

def pages(number):
    """Pages of text in PostScript, other ones for each number."""
    choice = random.Random(number)
    font, size = choice.choice(["Times-Roman", "Helvetica", "Courier"]), choice.choice([9, 10, 11, 12])
    text = "%!PS\n"
    for _ in range(choice.choice([1, 1, 1, 1, 2, 2, 3, 5])):
        text += f"/{font} findfont {size} scalefont setfont\n"
        for line in range(choice.randint(8, 50)):
            text += f"60 {740 - line * (size + 2)} moveto ({' '.join(choice.choices(WORDS, k=100 // size))}) show\n"
        text += "showpage\n"
    return text.encode()


def printed(driver, number):
    """A job of ghostscript's."""
    resolution = ["-r300"] if driver.startswith("l") and driver != "lj5gray" else []
    command = ["gs", "-q", "-dNOPAUSE", "-dBATCH", "-dSAFER", "-sPAPERSIZE=letter", f"-sDEVICE={driver}", *resolution]
    return subprocess.run([*command, "-sOutputFile=-", "-"], input=pages(number), stdout=subprocess.PIPE, check=True).stdout


def job(kind, number):
    samples = sorted((ROOT / "examples").glob("*.pcl"))
    if kind == "sample":
        return samples[number % len(samples)].read_bytes()
    if kind == "cut":
        whole = printed("ljet2p", number)
        return whole[:whole.rindex(b"\033*b") + 3]
    plain = {"missing": None, "empty": b"", "words": b"Dear printer, this is page 1.\r\n"}
    return plain[kind] if kind in plain else printed(kind, number)


def make_jobs(folder, count):
    """Makes the jobs below a folder, and gives their names, in the order of a batch, with the status that each is to have."""
    wanted = [(f"{kind}-{number:04}.pcl", kind, status)
              for kind, share, status in KINDS for number in range(max(1, share * count // 1000))]
    random.Random(1).shuffle(wanted)
    with ThreadPoolExecutor(os.cpu_count()) as pool:
        contents = pool.map(lambda it: job(it[1], int(it[0][-8:-4])), wanted)
        for (name, _, _), content in zip(wanted, contents):
            if content is not None:
                (folder / name).write_bytes(content)
    return {f"jobs/{name}": status for name, _, status in wanted}


# ---- batches

def digest(path):
    return hashlib.sha256(path.read_bytes()).hexdigest() if path.exists() else None


def read_report(path, is_json):
    """The rows of a report by job: outcome, status, pages, bytes in and out, and both digests."""
    with open(path) as report:
        if is_json:
            rows = [row for row in map(json.loads, report) if "file" in row]
            none = {"bytes": None, "sha256": None}
            both = [(it, it["input"] or none, it["output"] or none) for it in rows]
            return [(it["file"], it["outcome"], it["status"], it["pages"], came["bytes"], written["bytes"], came["sha256"],
                     written["sha256"]) for it, came, written in both]
        number = lambda text: None if text == "-" else int(text)
        text = lambda it: None if it == "-" else it
        rows = csv.DictReader((line for line in report if not line.startswith("# ")), delimiter="\t", quoting=csv.QUOTE_NONE)
        return [(it["file"], it["outcome"], int(it["status"]), number(it["pages"]), number(it["bytes_in"]), number(it["bytes_out"]),
                 text(it["sha256_in"]), text(it["sha256_out"])) for it in rows]


def look(what, home, wanted, report, folder, outcomes, is_json=False):
    """Looks at a report and the folder: each job has one row, and what is in the folder is what the row says."""
    rows = read_report(report, is_json)
    holds(f"{what}: a line for each of {len(wanted)} jobs", collections.Counter(it[0] for it in rows) == collections.Counter([*wanted]))
    holds(f"{what}: each has its status", all(status == wanted[name] for name, _, status, *_ in rows))
    holds(f"{what}: outcomes are {', '.join(outcomes)}", {outcome for _, outcome, status, *_ in rows if status == 0} <= set(outcomes))
    holds(f"{what}: digests of what came and what is in the folder", all(
        digest(home / name) == came and digest(folder / name[5:]) == written for name, _, _, _, _, _, came, written in rows))
    sums = subprocess.run("cat *.sha256 | sha256sum -c --quiet", shell=True, cwd=folder, stderr=subprocess.DEVNULL)
    done = sum(not status for status in wanted.values())
    holds(f"{what}: {done} files of sums, and all are right", sums.returncode == 0 and len(list(folder.glob("*.sha256"))) == done)
    holds(f"{what}: nothing else is left", len(list(folder.iterdir())) == 2 * done)
    return rows


def batch(pclmin, home, names, report, *words, until=None):
    """Runs a batch with these names on standard input, and gives its status, what it says and the seconds; where it is to end sooner,
    it is killed after this many lines of its report."""
    begun = time.monotonic()
    with open(report, "wb") as out:
        process = subprocess.Popen([pclmin, "batch", *words], cwd=home, stdin=subprocess.PIPE, stdout=out, stderr=subprocess.PIPE)
        process.stdin.write("".join(name + "\n" for name in names).encode())
        process.stdin.close()
        while until and process.poll() is None and report.read_bytes().count(b"\n") < until:
            time.sleep(0.02)
        if until:
            process.send_signal(signal.SIGKILL)
        said = process.stderr.read().decode()
        return process.wait(), said, time.monotonic() - begun


def documented():
    """The lines of docs/BATCH.md that use GNU parallel."""
    return re.findall(r"^find .*parallel.*$", (ROOT / "docs" / "BATCH.md").read_text(), re.M)


def start_hosts(home, folder):
    """Starts an ssh server on loopback for hostA and hostB, and gives it."""
    with socket.create_server(("127.0.0.1", 0)) as free:
        port = free.getsockname()[1]
    for name in ["host", "key"]:
        subprocess.run(["ssh-keygen", "-q", "-t", "ed25519", "-N", "", "-f", folder / name], check=True)
    shutil.copy(folder / "key.pub", folder / "authorized")
    (folder / "config").write_text(f"Host hostA hostB\n  HostName 127.0.0.1\n  Port {port}\n  IdentityFile {folder}/key\n"
                                   "  StrictHostKeyChecking no\n  UserKnownHostsFile /dev/null\n  LogLevel ERROR\n")
    (folder / "sshd").write_text(f"ListenAddress 127.0.0.1:{port}\nHostKey {folder}/host\nAuthorizedKeysFile {folder}/authorized\n"
                                 f"PidFile none\nStrictModes no\nUsePAM no\nMaxStartups 100\nSetEnv PATH={home}/bin:/usr/bin:/bin\n")
    (home / "bin" / "ssh").write_text(f'#!/bin/sh\nexec /usr/bin/ssh -F {folder}/config "$@"\n')
    (home / "bin" / "ssh").chmod(0o755)
    os.makedirs("/run/sshd", exist_ok=True)
    server = subprocess.Popen(["/usr/sbin/sshd", "-D", "-f", folder / "sshd"], stderr=subprocess.DEVNULL)
    time.sleep(1)
    return server


def main(program, count):
    program = os.path.realpath(program)
    with tempfile.TemporaryDirectory() as at:
        home = pathlib.Path(at)
        for name in ["jobs", "bin", "ssh", "smaller", "archive/smaller", "certified", "again", "parallel"]:
            (home / name).mkdir(parents=True)
        (home / "bin" / "pclmin").symlink_to(program)
        wanted = make_jobs(home / "jobs", count)
        names, worst = list(wanted), max(wanted.values())
        bad = sum(status != 0 for status in wanted.values())
        closing = f"pclmin: {bad} of {len(wanted)} jobs failed\n"
        words = ["-o", "again", "--dpi", "auto"]

        status, said, seconds = batch(program, home, names, home / "whole.tsv", "-o", "smaller", "--dpi", "auto")
        rows = look("whole", home, wanted, home / "whole.tsv", home / "smaller", ["written"])
        holds("whole: the status and the closing line", (status, said) == (worst, closing))
        total = [sum(it[part] or 0 for it in rows if it[2] == 0) for part in (3, 4, 5)]
        print(f"{len(rows)} jobs, {len(rows) - bad} of them written, in {seconds:.0f} seconds: {len(rows) / seconds:.1f} jobs and "
              f"{total[0] / seconds:.1f} pages a second; {total[0]} pages, {total[1]} bytes in, {total[2]} out", flush=True)

        batch(program, home, names, home / "killed.tsv", *words, until=len(names) // 2)
        parts = [it for it in (home / "again").iterdir() if it.name.endswith(".pcl")]
        holds("killed: what lies in the folder is whole", all(digest(it) == digest(home / "smaller" / it.name) for it in parts) and parts)
        left = [it for it in (home / "again").iterdir() if re.search(r"\.pclmin-part\d+$", it.name)]
        holds("killed: at most the two files of the job that was being written are left", len(left) <= 2)
        holds("killed: what is left is called after its own number", all(it.name.endswith(f"part{it.stat().st_ino}") for it in left))
        batch(program, home, names, home / "resumed.tsv", *words)
        rows = look("resumed", home, wanted, home / "resumed.tsv", home / "again", ["written", "kept"])
        holds("resumed: what was done is kept", sum(it[1] == "kept" for it in rows) >= len(parts) - 1)
        _, _, seconds = batch(program, home, names, home / "kept.tsv", *words)
        look("once more", home, wanted, home / "kept.tsv", home / "again", ["kept"])
        print(f"nothing is to be done in {seconds:.0f} seconds", flush=True)

        well = [name for name in names if wanted[name] == 0]
        answer = lambda *words: subprocess.run([program, *words], cwd=home, capture_output=True).stdout
        same = [answer("same", "--asked", "--dpi", "auto", name, f"smaller/{name[5:]}") for name in well[::COMPARED]]
        holds(f"{len(same)} of them print the same and ask for the same", set(same) == {b"same\n"})
        # The offsets of ljet4 are refused by `min`.
        some = [name for name in well if "ljet4" not in name][::CERTIFIED]
        batch(program, home, some, home / "certified.tsv", "--min", "--dpi", "auto", "-o", "certified")
        said = [answer("check", "--quiet", "--dpi", "auto", name, f"certified/{name[5:]}", f"certified/{name[5:]}.cert") for name in some]
        holds(f"{len(said)} of them with certificates that prove them", set(said) == {b"proved\n"})

        # at 300 dots per inch, since the lines name no resolution
        given = {name: 1 if "fs600" in name else status for name, status in wanted.items() if (home / name).is_file()}
        environment = {**os.environ, "PATH": f"{home}/bin:{os.environ['PATH']}", "PARALLEL_HOME": f"{home}/parallel"}
        server = start_hosts(home, home / "ssh")
        try:
            for line in documented():
                shutil.rmtree(home / "smaller")
                (home / "smaller").mkdir()
                begun = time.monotonic()
                done = subprocess.run(["bash", "-c", line.replace("/archive", f"{home}/archive")], cwd=home, env=environment,
                                      capture_output=True, text=True)
                seconds = time.monotonic() - begun
                folder = home / ("archive/smaller/jobs" if "/archive" in line else "smaller/jobs")
                what = "over hosts" if "-S" in line else "on all processors"
                look(what, home, given, home / "report.json", folder, ["written"], True)
                said = [int(it[1]) for it in re.finditer(r"pclmin: (\d+) of \d+ jobs failed", done.stderr)]
                holds(f"{what}: each share says how many failed", sum(said) == sum(status != 0 for status in given.values()))
                print(f"{what}: {len(given)} jobs in {seconds:.0f} seconds, {len(given) / seconds:.1f} a second", flush=True)
        finally:
            server.terminate()
            server.wait()
    print("all hold" if not failed else f"{len(failed)} don't hold")
    return 1 if failed else 0


if __name__ == "__main__":
    if len(sys.argv) not in (2, 3):
        sys.exit("usage: tests/delivery/batch.py PCLMIN [JOBS]")
    sys.exit(main(sys.argv[1], int(sys.argv[2]) if len(sys.argv) == 3 else 1000))
