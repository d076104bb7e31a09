#!/usr/bin/env python3
"""Sends random jobs through `pclmin shrink` and back, and has the plain program (plain/) look at all pages of both.

    python3 oracle/shrunk.py PCLMIN PLAIN COUNT SEED [--model] [--workers N] [--folder FOLDER]

The jobs are those of random_jobs.py: one to three that are mostly accepted, joined, or one of any kind, by `--dpi 300`, `--dpi 600` or
`--dpi auto`, which is drawn too; the first of eight that is accepted, or the last. Four of five go by `--profile-only`, two of five by
`--drivers`. What `shrink` writes of an accepted one is no longer, has as many pages, each the same by the plain program, and is the same
by `same --asked`; by `--dpi auto` it has these pages at each resolution at which the plain program accepts the job. With --model both
also have the same pages by reference.py, and ask the printer for the same. Without `--profile-only` it is the job as it came, or printers
don't read it otherwise. A job that `shrink` refuses is refused by the plain program in the same line. A job that doesn't hold is kept in
FOLDER (build/fuzz) as shrunk-SEED-NUMBER.pcl, with a line on standard output, and the status is then 1. The plain program reads by the
drivers' profile, as `shrink` does, and jobs have what drivers send besides. The number of workers is 1 if it isn't given; the jobs don't
depend on it.
"""

import argparse
import collections
import concurrent.futures
import os
import random
import sys

sys.dont_write_bytecode = True
import programs
import reference
from random_jobs import job_of, right_job

# How many jobs are drawn for one that is accepted.
TRIES = 8


def random_job(draw):
    """A job, and what is asked for its resolution."""
    count = draw.choice([1, 1, 2, 3]) if draw.random() < 0.9 else 0
    dpi = draw.choice(["300", "600", "auto"])
    most = 300 if dpi == "300" else 600
    jobs = [right_job(draw, drivers_dpi=most) for _ in range(count)] or [job_of(draw, drivers_dpi=most)]
    return draw.choice([b"\f", b"", b"\x1bE"]).join(jobs), dpi


class Looker:
    """Asks both programs."""

    def __init__(self, asked):
        self.pclmin, self.plain = programs.Program(asked.pclmin, asked.folder), programs.Plain(asked.plain)
        self.seed, self.folder, self.has_model = asked.seed, asked.folder, asked.model

    def pages(self, job, dpi):
        """The images of all pages by the plain program at a resolution, or the line of its refusal."""
        at = ["--drivers", "--dpi", dpi]
        (first, count), = self.plain.answers([(["pbm", "--page", "1"] + at, job)])
        if first[0] != 0:
            return [] if first[2].startswith(b"pclmin: no page") else first[2]
        more = self.plain.answers([(["pbm", "--page", str(page)] + at, job) for page in range(2, count + 1)])
        return [first] + [answer for answer, _ in more]

    def is_doubted(self, job, dpi):
        """Whether printers may read a job otherwise, by what `shrink` reports."""
        return b"since printers read otherwise" in self.pclmin.run(["shrink", "--report", "--dpi", dpi], job)[2]

    def look(self, number):
        """What doesn't hold of a job, none where all does; and how it came out."""
        draw = random.Random("%d %d shrunk" % (self.seed, number))
        for _ in range(TRIES):
            job, dpi = random_job(draw)
            readers = ["--profile-only"] if draw.random() < 0.8 else []
            profiles = ["--drivers"] if draw.random() < 0.4 else []
            status, written, said = self.pclmin.run(["shrink", "--dpi", dpi] + readers + profiles, job)
            if status == 0:
                break
        fault, outcome = self.fault_of(job, dpi, status, written, said)
        if not fault and not readers and written != job and self.is_doubted(written, dpi):
            fault = "what is written may be read otherwise"
        if fault:
            with open(os.path.join(self.folder, "shrunk-%d-%d.pcl" % (self.seed, number)), "wb") as out:
                out.write(job)
            fault = "job %d at %s: %s" % (number, dpi, fault)
        return fault, outcome

    def fault_of(self, job, dpi, status, written, said):
        """What doesn't hold of a job and what `shrink` answered, and how it came out."""
        came = {at: self.pages(job, at) for at in (["300", "600"] if dpi == "auto" else [dpi])}
        accepted = [at for at, pages in came.items() if isinstance(pages, list)]
        if status == 1:
            first = next(iter(came.values()))
            plain = "%d pages" % len(first) if isinstance(first, list) else first
            return (None if first == said and not accepted else "refused with %r, by the plain program %r" % (said, plain)), "refused"
        if status != 0:
            return "status %d, %r" % (status, said), "failed"
        if not accepted:
            return "accepted, and refused by the plain program", "accepted"
        if len(written) > len(job):
            return "%d bytes in place of %d" % (len(written), len(job)), "longer"
        if any(self.pages(written, at) != came[at] for at in accepted):
            return "other pages", "others"
        if self.pclmin.same(job, written, dpi, "--asked")[:2] != (0, b"same\n"):
            return "not the same by same --asked", "others"
        if self.has_model and any(not reference.asks_the_same(job, written, int(at), counts_last=True) for at in accepted):
            return "asks for other things by the model", "others"
        return None, "shorter" if len(written) < len(job) else "as it came"


def begin(asked):
    global looker
    looker = Looker(asked)


def look(number):
    return looker.look(number)


def main():
    parser = argparse.ArgumentParser()
    for name, kind in (("pclmin", str), ("plain", str), ("count", int), ("seed", int)):
        parser.add_argument(name, type=kind)
    parser.add_argument("--model", action="store_true")
    parser.add_argument("--workers", type=int, default=1)
    parser.add_argument("--folder", default="build/fuzz")
    asked = parser.parse_args()
    os.makedirs(asked.folder, exist_ok=True)
    outcomes, faults = collections.Counter(), 0
    with concurrent.futures.ProcessPoolExecutor(asked.workers, initializer=begin, initargs=[asked]) as pool:
        for fault, outcome in pool.map(look, range(asked.count), chunksize=20):
            outcomes[outcome] += 1
            if fault:
                faults += 1
                print(fault, flush=True)
    print("%d jobs of the seed %d through shrink: %s" % (asked.count, asked.seed, ", ".join("%d %s" % (n, it) for it, n in outcomes.items())))
    sys.exit(1 if faults else 0)


if __name__ == "__main__":
    main()
