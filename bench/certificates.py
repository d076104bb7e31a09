#!/usr/bin/env python3
"""Writes each job again without a certificate and with one of each format, checks both, and prints a table.

    python3 bench/certificates.py PCLMIN FOLDER

FOLDER holds the jobs that make_jobs.py makes. A time is the median of 11 runs, the five ways in turn, from the start
of the process to its end, with all bytes in files; a ratio is that to the time of writing the job alone. A peak is what
GNU time tells of one more run. It fails where the job that is written beside a certificate isn't the one that is written
alone, or where a check doesn't answer `proved`.
"""

import filecmp
import os
import statistics
import sys

from measure import JOBS, peak, run

RUNS = 11
FORMATS = ["1", "2"]


def measure(pclmin, folder, name, dpi):
    job = os.path.join(folder, name + ".pcl")
    plain = [pclmin, "min", "--dpi", str(dpi)]
    certificates = [os.path.join(folder, "%s-%s.cert" % (name, format)) for format in FORMATS]
    with_one = [plain + ["--cert", path, "--format", format] for path, format in zip(certificates, FORMATS)]
    commands = [plain] + with_one
    outputs = [os.path.join(folder, "%s-written-%d" % (name, which)) for which in range(3)]
    checks = [[pclmin, "check", "--dpi", str(dpi), job, outputs[0], path] for path in certificates]
    commands += checks
    outputs += [os.path.join(folder, "%s-checked-%s" % (name, format)) for format in FORMATS]
    seconds = [[] for _ in commands]
    for _ in range(RUNS):
        for which, command in enumerate(commands):
            seconds[which].append(run(command, job, outputs[which]))
    for output in outputs[1:3]:
        if not filecmp.cmp(outputs[0], output, shallow=False):
            sys.exit("%s: the job beside a certificate is another one" % name)
    for output in outputs[3:]:
        with open(output, "rb") as answer:
            if answer.read() != b"proved\n":
                sys.exit("%s: not proved" % name)
    times = [statistics.median(runs) for runs in seconds]
    row = [name, "{:,}".format(os.path.getsize(outputs[0]))]
    row += ["{:,}".format(os.path.getsize(path)) for path in certificates]
    row += ["%.4f" % times[0]] + ["%.2f" % (time / times[0]) for time in times[1:]]
    row += ["%.1f" % (peak(command, job) / 1e6) for command in commands]
    print("| " + " | ".join(row) + " |", flush=True)


def main(arguments):
    if len(arguments) != 2:
        sys.exit(__doc__)
    pclmin, folder = arguments
    columns = ["Job", "Written", "Format 1", "Format 2", "min, s", "with 1", "with 2", "check 1", "check 2"]
    columns += ["min, MB", "with 1", "with 2", "check 1", "check 2"]
    print("| " + " | ".join(columns) + " |")
    print("|---|" + "---:|" * (len(columns) - 1), flush=True)
    for name, _, dpi in JOBS:
        measure(pclmin, folder, name, dpi)


main(sys.argv[1:])
