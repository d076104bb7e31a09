#!/usr/bin/env python3
"""Previews each job by two programs in turn, writes it again, and prints a table of their times and peak memory.

    python3 bench/measure.py PCLMIN PLAIN FOLDER

FOLDER holds the jobs that make_jobs.py makes. A time is the median of 21 runs, from the start of the process to
its end, with the input and the output in files. A peak is what GNU time tells of one more run. It fails where the
two programs write different bytes.
"""

import filecmp
import os
import statistics
import subprocess
import sys
import time

RUNS = 21
# each job with the page that is previewed, one of the middle, and the resolution
JOBS = [
    ("dense-300", 1, 300),
    ("dense-600", 1, 600),
    ("runs-300", 1, 300),
    ("packed-300", 1, 300),
    ("delta-300", 1, 300),
    ("scaled-75", 1, 300),
    ("text-64", 32, 300),
    ("fonts-64", 32, 300),
]


def run(command, job, page):
    """Runs a command on a job, and gives the seconds that it took."""
    source = os.open(job, os.O_RDONLY)
    target = os.open(page, os.O_WRONLY | os.O_CREAT | os.O_TRUNC, 0o644)
    streams = [(os.POSIX_SPAWN_DUP2, source, 0), (os.POSIX_SPAWN_DUP2, target, 1)]
    begin = time.perf_counter()
    child = os.posix_spawnp(command[0], command, os.environ, file_actions=streams)
    status = os.waitpid(child, 0)[1]
    seconds = time.perf_counter() - begin
    os.close(source)
    os.close(target)
    if status != 0:
        sys.exit("%s failed on %s" % (command[0], job))
    return seconds


def peak(command, job):
    """The most memory that a command holds while it works on a job, in bytes."""
    with open(job, "rb") as source:
        timed = ["/usr/bin/time", "-f", "%M"] + command
        result = subprocess.run(timed, stdin=source, stdout=subprocess.DEVNULL, stderr=subprocess.PIPE, check=True)
    return 1024 * int(result.stderr.split()[-1])


def compare(programs, folder, name, words):
    job = os.path.join(folder, name + ".pcl")
    outputs = [os.path.join(folder, "%s-%s-%d" % (name, words[0], which)) for which in range(2)]
    commands = [[program] + words for program in programs]
    seconds = [[], []]
    for _ in range(RUNS):
        for which in range(2):
            seconds[which].append(run(commands[which], job, outputs[which]))
    if not filecmp.cmp(*outputs, shallow=False):
        sys.exit("%s: the programs write different bytes" % name)
    times = [statistics.median(runs) for runs in seconds]
    peaks = [peak(command, job) for command in commands]
    row = [words[0], name] + ["{:,}".format(os.path.getsize(path)) for path in (job, outputs[0])]
    row += ["%.4f" % times[0], "%.4f" % times[1], "%.2f" % (times[0] / times[1])]
    row += ["%.1f" % (peaks[0] / 1e6), "%.1f" % (peaks[1] / 1e6), "%.2f" % (peaks[0] / peaks[1])]
    print("| " + " | ".join(row) + " |", flush=True)


def main(arguments):
    if len(arguments) != 3:
        sys.exit(__doc__)
    programs, folder = arguments[:2], arguments[2]
    print("| | Job | Bytes read | written | pclmin, s | plain, s | Ratio | pclmin, MB | plain, MB | Ratio |")
    print("|---|---|---:|---:|---:|---:|---:|---:|---:|---:|", flush=True)
    for name, page, dpi in JOBS:
        compare(programs, folder, name, ["pbm", "--page", str(page), "--dpi", str(dpi)])
    for name, page, dpi in JOBS:
        compare(programs, folder, name, ["min", "--dpi", str(dpi)])


if __name__ == "__main__":
    main(sys.argv[1:])
