#!/usr/bin/env python3
"""Makes each call of the system that some runs make fail in turn, and reads and writes short.

    tests/process/calls.py PROGRAM

PROGRAM is a built pclmin. A run in which a read fails, interrupted ones too, says `pclmin: cannot read`; one in which a write, a
rename or a sync fails says `pclmin: cannot write`; both end with status 3. One in which a file can't be opened says either. Where
something else of the system fails, a run says one of these or does what it does else; where a file can't be removed, one that is called
after its own number may be left. Standard output then has a prefix of what it has
else, or nothing where a job is read no further; the files of -o and --cert are as they were, both, and so is that of --image or it is
whole; none is left beside them. Where each read gives and each write takes one byte, all is as ever.

Batches of three jobs, one of which is refused, go into a folder that is not there, into one with files of somebody else, and into one
of an earlier batch with a job that is cut. Whatever fails, each file of the folder is then as it was or whole, none is gone, and a job
that the report calls written or kept is there, with all that belongs to it. Needs a C compiler.
"""

import errno
import pathlib
import re
import shutil
import sys
import tempfile

sys.dont_write_bytecode = True
from failing import AS_IT_WAS, HERE, Failing, tidy

EXAMPLES = HERE.parent.parent / "examples"
READ, WRITE = rb"pclmin: cannot read[^\n]*\n", rb"pclmin: cannot write[^\n]*\n"
RUNS = ["pbm dot.pcl", "min dot.pcl", "min --cert cert dot.pcl", "min --cert cert --format 2 dot.pcl",
        "min --cert kept.cert -o kept dot.pcl", "min --cert cert -o kept dot.pcl", "shrink dot.pcl", "shrink -o kept dot.pcl",
        "pages dot.pcl", "explain dot.pcl", "check dot.pcl dot.min dot.cert", "same dot.pcl dot.min",
        "same --image image dot.pcl other.pcl"]
# Batches, and what belongs to each job.
BATCHES = {"batch -o out dot.pcl bad.pcl other.pcl": ("", ".sha256"),
           "batch --min -o out dot.pcl bad.pcl other.pcl": ("", ".sha256", ".cert")}
THEIRS = {name: b"theirs" for name in ("dot.pcl", "other.pcl", "other.pcl.sha256")}
LINES = {"read": [READ], "write": [WRITE], "rename": [WRITE], "fsync": [WRITE], "open": [READ, WRITE]}
OTHERS = ["link", "flock", "realpath", "statx", "fchmod", "fcntl", "unlink"]
ERRORS = [errno.EIO, errno.EINTR]


def main():
    program = pathlib.Path(sys.argv[1]).resolve()
    with tempfile.TemporaryDirectory() as name:
        folder = pathlib.Path(name)
        failing = Failing(folder)
        for file in EXAMPLES.glob("dot*"):
            (folder / file.name).write_bytes(file.read_bytes())
        (folder / "other.pcl").write_bytes((folder / "dot.pcl").read_bytes().replace(b"\x80", b"\x40"))
        (folder / "bad.pcl").write_bytes(b"\x1b")
        for run in RUNS:
            try_run(failing, [program, *run.split()])
        for run, parts in BATCHES.items():
            words = [program, *run.split()]
            whole = try_batch(failing, words, parts, "into no folder", {})
            try_batch(failing, words, parts, "beside others", THEIRS)
            try_batch(failing, words, parts, "once more", {**whole, "other.pcl": whole["other.pcl"][:-1]})


def try_run(failing, words):
    """Each call of a run fails in turn."""
    ample = failing.run(words, what="none")
    files = failing.made()

    def is_done(ran):
        return (ran.returncode, ran.stdout, ran.stderr, failing.made()) == (ample.returncode, ample.stdout, ample.stderr, files)

    def has_failed(ran, lines):
        left = failing.made()
        # an image is placed before the line that names its dot
        is_as_it_was = left == AS_IT_WAS or left == files and "--image" in words
        is_said = any(re.fullmatch(line, ran.stderr) for line in lines)
        return ran.returncode == 3 and is_said and ample.stdout.startswith(ran.stdout) and is_as_it_was

    counts = []
    for what in [*LINES, *OTHERS]:
        for error in ERRORS:
            lines = LINES.get(what, [READ, WRITE])

            def holds(ran):
                if what == "unlink":
                    tidy(failing.folder)
                # the run in which no call has that number is the last
                ended = int(failing.count.read_text()) < holds.number
                holds.number += 1
                if ended or what in OTHERS or error == errno.EINTR and what != "read":
                    return is_done(ran) or not ended and has_failed(ran, lines)
                return has_failed(ran, lines)

            holds.number = 1
            counts.append(failing.each(words, holds, what=what, error=error))
    if not is_done(failing.run(words, what="none", short=1)):
        sys.exit("%s isn't as ever byte by byte" % " ".join(map(str, words)))
    print("pclmin %s: %d calls, each failed in turn" % (" ".join(words[1:]), sum(counts)), flush=True)


def try_batch(failing, words, parts, how, before):
    """Each call of a batch into a folder with these files fails in turn; what the folder has where none fails."""
    out = failing.folder / "out"

    def run(**settings):
        shutil.rmtree(out, ignore_errors=True)
        for name, content in before.items():
            out.mkdir(exist_ok=True)
            (out / name).write_bytes(content)
        ran = failing.run(words, **settings)
        if settings.get("what") == "unlink" and out.exists():
            tidy(out)
        return ran, {path.name: path.read_bytes() for path in out.iterdir()} if out.exists() else {}

    def rows_of(ran):
        """The lines of its report on jobs."""
        return [line.split("\t") for line in ran.stdout.decode().splitlines() if "\t" in line][1:]

    ample, whole = run(what="none")
    done = {row[0] for row in rows_of(ample) if row[1] != "failed"}

    def is_true(row):
        """Whether what a line says is so."""
        name, outcome = row[:2]
        return outcome == "failed" or name in done and all(left.get(name + part) == whole[name + part] for part in parts)

    count = 0
    for what in [*LINES, *OTHERS]:
        for error in ERRORS:
            number = 1
            while True:
                failing.count.write_text("0")
                ran, left = run(at=number, what=what, error=error)
                if int(failing.count.read_text()) < number:
                    break
                rows = rows_of(ran)
                is_kept = before.keys() <= left.keys() and all(left[name] in (before.get(name), whole.get(name)) for name in left)
                if not is_kept or not all(map(is_true, rows)) or ran.returncode not in (1, 2, 3):
                    sys.exit("%s %d of %s, %s: status %d, %r, %r" % (what, number, words[1:], how, ran.returncode, rows, [*left]))
                number += 1
            count += number - 1
    print("pclmin %s, %s: %d calls, each failed in turn" % (" ".join(words[1:]), how, count), flush=True)
    return whole


main()
