#!/usr/bin/env python3
"""Runs all tests and tables over what `make build` left, once it has proved what that didn't: the crates of tests, and what has changed
since. Of a clone in which nothing was built it runs the kit's whole gate, `rt ci`, which proves every crate from nothing.

    tools/test.py

The program is the one that the user has, build/pclmin. A program of crates/ is run on its `stdin`, with the words of `args`, where the
files of `data` lie, and has to write what `stdout` has and to end with `status` (0); each has 120 seconds, and a test 60. Ends with a
line 'N passed, M failed' of crates, programs and tests of crates; the status is 1 where one failed. LANES bounds how many processors are
taken.
"""

import concurrent.futures
import os
import pathlib
import shutil
import subprocess
import sys
import tempfile

sys.dont_write_bytecode = True
import build
from crates import KIT, ROOT, crates, tests

PROGRAM = "pclmin"
SECONDS, SECONDS_OF_TEST = 120, 60
NOBODY = ["setpriv", "--reuid=65534", "--regid=65534", "--clear-groups", "--no-new-privs"]


class Failed(Exception):
    """What a program did that it shouldn't have."""


def given(crate, name):
    """What a file beside a program's src/ has, nothing where there is none."""
    file = crate.folder / name
    return file.read_bytes() if file.is_file() else b""


def as_nobody(room):
    """The words that start a program as nobody, who then owns a folder, where this is root."""
    if os.geteuid():
        return []
    for place in [room, *room.rglob("*")]:
        os.chown(place, 65534, 65534)
    return NOBODY


def ran(crate, words, room, seconds):
    """Runs a program in a folder, and gives its status, what it wrote and what it said."""
    environment = {"PATH": "/usr/local/bin:/usr/bin:/bin", "HOME": str(room), "TMPDIR": str(room), "LANG": "C.UTF-8"}
    try:
        run = subprocess.run([*as_nobody(room), *words], cwd=room, env=environment, input=given(crate, "stdin"), capture_output=True,
                             timeout=seconds, check=False)
    except subprocess.TimeoutExpired as fault:
        raise Failed(f"it had not ended after {seconds} seconds") from fault
    return run.returncode, run.stdout, run.stderr


def difference(wrote, wanted):
    """Where the bytes of a program begin to differ from those that are wanted."""
    at = next((at for at, (one, other) in enumerate(zip(wrote, wanted)) if one != other), min(len(wrote), len(wanted)))
    line = wanted[:at].count(b"\n") + 1
    return f"what it wrote differs from stdout first at byte {at + 1}, line {line}"


def run_program(crate, program, room):
    """Runs a program of crates/ on what stands beside it."""
    if (crate.folder / "data").is_dir():
        shutil.copytree(crate.folder / "data", room, dirs_exist_ok=True)
    words = given(crate, "args").decode(errors="surrogateescape").splitlines()
    wanted = int(given(crate, "status") or 0)
    status, wrote, said = ran(crate, [program, *words], room, SECONDS)
    if status != wanted:
        raise Failed(f"it ended with status {status}, and not {wanted}; it said: {said.decode(errors='replace')[-600:]}")
    if wrote != given(crate, "stdout"):
        raise Failed(difference(wrote, given(crate, "stdout")))


def run_tests(crate, program, room):
    """Runs the tests of a crate."""
    status, wrote, _ = ran(crate, [KIT / "bin" / "rattle-test", "--seconds", str(SECONDS_OF_TEST), program], room, None)
    if status:
        raise Failed(wrote.decode(errors="replace"))


def run(crate):
    """Whether a program, or the tests of a crate, end as they have to; says so."""
    with tempfile.TemporaryDirectory(prefix="pclmin-test-") as folder:
        os.chmod(folder, 0o755)
        program, room = pathlib.Path(folder) / crate.name, pathlib.Path(folder) / "data"
        shutil.copy(crate.made, program)
        room.mkdir()
        try:
            (run_tests if crate.of_tests else run_program)(crate, program, room)
        except Failed as fault:
            print(f"{crate.name} FAILED: {fault}", flush=True)
            return False
    print(f"{crate.name} {'passed' if crate.of_tests else 'ran, and wrote what its stdout has'}", flush=True)
    return True


def main():
    known = crates()
    if not known[PROGRAM].stamp_file.is_file():
        print("nothing of this clone is built, so every crate is proved from nothing; after `make build` this takes ten minutes", flush=True)
        os.chdir(ROOT)
        os.execvp("rt", ["rt", "ci"])
    goals = [*known.values(), *tests(known)]
    unbuilt = build.build(goals)
    runs = [it for it in goals if it.is_program and it not in unbuilt]
    with concurrent.futures.ThreadPoolExecutor(build.processors()) as pool:
        failed = len(unbuilt) + [*pool.map(run, runs)].count(False)
    print(f"{len(goals) + len(runs) - failed} passed, {failed} failed")
    return 1 if failed else 0


if __name__ == "__main__":
    sys.exit(main())
