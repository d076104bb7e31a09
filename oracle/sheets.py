#!/usr/bin/env python3
"""Has another interpreter of PCL 5 paint random jobs and what `pclmin shrink` writes of them, sheet by sheet.

    python3 oracle/sheets.py PCLMIN RENDER COUNT SEED [--workers N] [--folder FOLDER]

RENDER is a command in which {dpi}, {job} and {name} stand for a resolution, a job's file and a name: it writes the whole sheets as
NAME-1.pbm, NAME-2.pbm and so on. The jobs are those of shrunk.py, by `--dpi 300`, `--dpi 600` or `--dpi auto`. Of each that gets shorter
the interpreter has to paint the same sheets from both, at each resolution that counts and by which `pclmin` accepts the job. Lines on its
standard error that begin with ASKED say what each page asks for, and have to be the same too. One that differs is kept in FOLDER
(build/fuzz) as sheets-SEED-NUMBER.pcl, with a line on standard output, and the status is then 1.
"""

import argparse
import collections
import concurrent.futures
import hashlib
import os
import random
import shlex
import subprocess
import sys
import tempfile

sys.dont_write_bytecode = True
from shrunk import TRIES, random_job

Printed = collections.namedtuple("Printed", "sheets asked")
# Where sheets are painted: in memory, where the machine has such a folder.
ROOM = "/dev/shm" if os.path.isdir("/dev/shm") else None


def ran(words, job):
    came = subprocess.run(words, input=job, capture_output=True, check=False)
    return came.returncode, came.stdout


def printed(render, job, dpi):
    """The sheets that the interpreter paints of a job, each as a digest of its file, and what each page asks for, if it says so."""
    with tempfile.TemporaryDirectory(dir=ROOM) as room:
        file, name = os.path.join(room, "job.pcl"), os.path.join(room, "sheet")
        with open(file, "wb") as out:
            out.write(job)
        came = subprocess.run([word.format(dpi=dpi, job=file, name=name) for word in shlex.split(render)], check=True, capture_output=True)
        found = []
        while os.path.exists("%s-%d.pbm" % (name, len(found) + 1)):
            with open("%s-%d.pbm" % (name, len(found) + 1), "rb") as sheet:
                found.append(hashlib.blake2b(sheet.read()).digest())
        return Printed(found, [line for line in came.stderr.decode("latin-1").splitlines() if line.startswith("ASKED")])


def look(asked, number):
    """How a job comes out: refused, as it came, shrunk and the same, or shrunk and different at a resolution."""
    draw = random.Random("%d %d sheets" % (asked.seed, number))
    for _ in range(TRIES):
        job, dpi = random_job(draw)
        status, written = ran([asked.pclmin, "shrink", "--dpi", dpi], job)
        if status == 0:
            break
    if status != 0:
        return "refused", None
    if written == job:
        return "as they came", None
    for at in ["300", "600"] if dpi == "auto" else [dpi]:
        if ran([asked.pclmin, "pages", "--dpi", at], job)[0] == 0 and printed(asked.render, job, at) != printed(asked.render, written, at):
            with open(os.path.join(asked.folder, "sheets-%d-%d.pcl" % (asked.seed, number)), "wb") as out:
                out.write(job)
            return "different", "job %d by --dpi %s differs at %s" % (number, dpi, at)
    return "shrunk and the same", None


def main():
    words = argparse.ArgumentParser(description=__doc__.split("\n", 1)[0])
    words.add_argument("pclmin")
    words.add_argument("render")
    words.add_argument("count", type=int)
    words.add_argument("seed", type=int)
    words.add_argument("--workers", type=int, default=1)
    words.add_argument("--folder", default="build/fuzz")
    asked = words.parse_args()
    os.makedirs(asked.folder, exist_ok=True)
    outcomes = collections.Counter()
    with concurrent.futures.ThreadPoolExecutor(asked.workers) as workers:
        for outcome, fault in workers.map(lambda number: look(asked, number), range(asked.count)):
            outcomes[outcome] += 1
            if fault:
                print(fault, flush=True)
    print("%d jobs of the seed %d: %s" % (asked.count, asked.seed, ", ".join("%d %s" % (n, it) for it, n in outcomes.items())))
    return 1 if outcomes["different"] else 0


if __name__ == "__main__":
    sys.exit(main())
