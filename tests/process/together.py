#!/usr/bin/env python3
"""Runs two of some commands at once over what an earlier one wrote, each call that changes a name made late (failing.c), of the
first later than of the second, which so overtakes it somewhere.

    tests/process/together.py PROGRAM

The second begins a little later each time. Whatever comes of two `min --cert` of two jobs, the certificate that is there is that of the
job that is there; and what two batches with other options leave are files that the digests beside them name. A run that ends with
status 0 is the last that wrote, or has written what the other one then wrote over: so one of the two at least ends so, and no name of a
file that was begun is left. Prints how many pairs held; status 1 if one didn't. Needs a C compiler.
"""
import os
import pathlib
import subprocess
import sys
import tempfile
import time

sys.dont_write_bytecode = True
from failing import HERE, Failing

EXAMPLES = HERE.parent.parent / "examples"
# Microseconds before each call of the first run and of the second, and how much later that begins each time, in seconds.
SLOW, FAST, LATER, TIMES = 120_000, 20_000, 0.06, 32


def start(failing, words, delay):
    """Begins a run, each call of which is so late."""
    environment = dict(os.environ, LD_PRELOAD=str(failing.shim), FAIL_COUNT=os.devnull, FAIL_WHAT="none", FAIL_DELAY=str(delay))
    return subprocess.Popen(words, cwd=failing.folder, env=environment, stdin=subprocess.DEVNULL, stdout=subprocess.PIPE,
                            stderr=subprocess.PIPE)


def run(failing, words):
    return subprocess.run(words, cwd=failing.folder, stdin=subprocess.DEVNULL, capture_output=True, timeout=60, check=False)


def both(failing, one, other, later):
    """The statuses of two runs, the second of which begins so much later, and the lines that they say."""
    first = start(failing, one, SLOW)
    time.sleep(later)
    second = start(failing, other, FAST)
    said = [it.communicate(timeout=60) for it in (first, second)]
    return [first.returncode, second.returncode], said


def is_proved(failing, program):
    """Whether the certificate is of the job beside it."""
    jobs = ("dot.pcl", "other.pcl")
    return any(run(failing, [program, "check", job, "o", "c"]).stdout == b"proved\n" for job in jobs)


def are_named(folder):
    """Whether the digests in a folder are those of the files beside them."""
    return subprocess.run("sha256sum -c --quiet *.sha256", shell=True, cwd=folder, capture_output=True, check=False).returncode == 0


def main():
    program = pathlib.Path(sys.argv[1]).resolve()
    count, wrong = 0, []
    with tempfile.TemporaryDirectory() as name:
        folder = pathlib.Path(name)
        failing = Failing(folder)
        dot = (EXAMPLES / "dot.pcl").read_bytes()
        (folder / "dot.pcl").write_bytes(dot)
        (folder / "other.pcl").write_bytes(dot.replace(b"\x80", b"\x40"))
        certify = [[program, "min", "--cert", "c", "-o", "o", job] for job in ("dot.pcl", "other.pcl")]
        batches = [[program, "batch", "-o", "small", *words, "dot.pcl"] for words in (["--stated"], ["--drivers"])]
        for time_of in range(TIMES):
            for before in ((), ("c", "o")):
                for it in ("c", "o"):
                    (folder / it).unlink(missing_ok=True)
                if before:
                    run(failing, certify[0])
                for it in {"c", "o"} - set(before):
                    (folder / it).unlink(missing_ok=True)
                statuses, said = both(failing, *certify, time_of * LATER)
                left = [it.name for it in folder.iterdir() if "-part" in it.name]
                count += 1
                if 0 not in statuses or not is_proved(failing, program) or left:
                    wrong.append(f"certificates over {before}, {time_of * LATER:.2f} s apart: {statuses} {said} {left}")
            run(failing, [program, "batch", "-o", "small", "dot.pcl"])
            statuses, said = both(failing, *batches, time_of * LATER)
            left = [it.name for it in (folder / "small").iterdir() if "-part" in it.name]
            count += 1
            if 0 not in statuses or not are_named(folder / "small") or left:
                wrong.append(f"batches, {time_of * LATER:.2f} s apart: {statuses} {said} {left}")
    for it in wrong:
        print(it)
    print(f"{count - len(wrong)} of {count} pairs held")
    sys.exit(1 if wrong else 0)


main()
