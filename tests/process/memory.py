#!/usr/bin/env python3
"""Makes each allocation of some runs fail in turn, the first, the second, and so on until a run asks for no more.

    tests/process/memory.py PROGRAM CASES EXPECTED

PROGRAM is a built pclmin: each of its runs either does what it does with ample memory, or says `pclmin: out of memory` with status 3
and has written nothing; and files are as they were. A batch of three jobs goes on after one that ran out of memory, which its report
names as failed, or says so and ends: either by status 3, and each file that is there then is whole, a job only with its digests, and
only a job that has them is called written. CASES is the built program of crates/memory_cases, which makes each call once more where
memory ran out: it always prints what the file EXPECTED has. Needs a C compiler.
"""

import pathlib
import shutil
import sys
import tempfile

sys.dont_write_bytecode = True
from failing import AS_IT_WAS, HERE, Failing

EXAMPLES = HERE.parent.parent / "examples"
LINE = b"pclmin: out of memory\n"
RUNS = ["pbm --page 1 dot.pcl", "min dot.pcl", "min --cert cert --format 2 dot.pcl",
        "min --cert kept.cert -o kept dot.pcl", "same --image image dot.pcl other.pcl", "shrink dot.pcl", "pages dot.pcl",
        "pages --json dot.pcl", "explain dot.pcl", "explain NoFont", "check dot.pcl dot.min dot.cert", "same dot.pcl dot.min",
        "same --asked dot.pcl dot.min", "shrink -o kept dot.pcl", "min --dpi auto dot.pcl"]
# Batches of three jobs, the second or the first of which is refused.
BATCHES = ["batch -o out dot.pcl bad.pcl other.pcl", "batch --min -o out bad.pcl dot.pcl other.pcl"]

# Status and reason of a job that fails there.
REASONS = (("3", "out of memory"), ("1", "refused: Truncated at 0 -"))


def main():
    program, cases, expected = map(pathlib.Path.resolve, map(pathlib.Path, sys.argv[1:]))
    with tempfile.TemporaryDirectory() as name:
        folder = pathlib.Path(name)
        failing = Failing(folder)
        for file in EXAMPLES.glob("dot*"):
            (folder / file.name).write_bytes(file.read_bytes())
        (folder / "other.pcl").write_bytes((folder / "dot.pcl").read_bytes().replace(b"\x80", b"\x40"))
        wanted = expected.read_bytes()
        fail_each(failing, "memory_cases", [cases], lambda ran: (ran.returncode, ran.stdout) == (0, wanted))
        for run in RUNS:
            words = [program, *run.split()]
            ample = failing.run(words, what="none")
            files = failing.made()

            def holds(ran):
                left = failing.made()
                done = (ran.returncode, ran.stdout, left) == (ample.returncode, ample.stdout, files)
                return done or (ran.returncode, ran.stdout, ran.stderr, left) == (3, b"", LINE, AS_IT_WAS)

            fail_each(failing, "pclmin " + run, words, holds)
        (folder / "bad.pcl").write_bytes(b"\x1b")
        for run in BATCHES:
            try_batch(failing, program, run)


def try_batch(failing, program, run):
    """Each allocation of a batch fails in turn."""
    words = [program, *run.split()]
    ample = failing.run(words, what="none")
    files = taken_files(failing.folder / "out")
    if ample.returncode != 1 or ample.stdout.count(b"\twritten\t") != 2 or len(files) != (6 if "--min" in words else 4):
        sys.exit("pclmin %s with ample memory: status %d, %r" % (run, ample.returncode, ample.stdout))

    def holds(ran):
        left = taken_files(failing.folder / "out")
        if (ran.returncode, ran.stderr) == (ample.returncode, ample.stderr):
            return left == files and ran.stdout == ample.stdout
        return ran.returncode == 3 and is_right_batch(ran, left, ample) and all(files.get(name) == left[name] for name in left)

    fail_each(failing, "pclmin " + run, words, holds)


def is_right_batch(ran, left, ample):
    """Whether the report of a batch that ran out of memory says so, and says of no job that it is written which isn't all there. What it
    says of a job that is written is what it says with ample memory."""
    lines = [line.split("\t") for line in ran.stdout.decode().splitlines() if "\t" in line][1:]
    wanted = [line.split("\t") for line in ample.stdout.decode().splitlines()]
    written = [line[0] for line in lines if line[1] == "written"]
    failed = [line for line in lines if line[1] == "failed"]
    told = b"pclmin: %d of 3 jobs failed\n" % len(failed) if b"\n# jobs 3: " in ran.stdout else LINE
    return (all({name, name + ".sha256"} <= left.keys() for name in written)
            and all(line in wanted for line in lines if line[1] == "written")
            and all(name.removesuffix(".cert") + ".sha256" in left for name in left if not name.endswith(".sha256"))
            and all((line[2], line[9]) in REASONS for line in failed)
            and ran.stderr in (told, LINE))


def taken_files(folder):
    """What the files of a folder hold, which is removed."""
    if not folder.exists():
        return {}
    files = {path.name: path.read_bytes() for path in folder.iterdir()}
    shutil.rmtree(folder)
    return files


def fail_each(failing, name, words, holds):
    """Makes each allocation of a run fail in turn. Where none is seen nothing was tried, so there has to be one."""
    found = failing.each(words, holds)
    if found == 0:
        sys.exit("%s: no allocation was seen" % name)
    print("%s: %d allocations, each failed in turn" % (name, found), flush=True)


if __name__ == "__main__":
    main()
