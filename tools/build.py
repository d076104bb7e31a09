#!/usr/bin/env python3
"""Proves and builds crates of crates.txt and all that they stand on, side by side, each as soon as those are done that it stands on,
and those first that most work waits for:

    tools/build.py pclmin

Each is proved from nothing by the kit's `rattle`, as `rt ci` does it: over what the crates below state, without their proofs, so that a
crate high up reads a tenth of what `rt check` has it read. What is stated is kept outside of this clone (tools/crates.py), what was said
in NAME.log beside it, and a crate is built again once a file of it, or of a crate below, the kit, or what was kept has changed. A program
is left in build/NAME, a static library in build/libNAME.a.

There are as many jobs as processors. The crate that most work waits for has two of them, and the others one, since two take a third
more of the processors, unless there are fewer crates to build than processors; and all but the first are nice. LANES bounds how many
processors are taken.

    tools/build.py --check pcl_tool [FLAG..]

builds what a crate stands on, and then proves the crate over what earlier calls kept, with these flags of `rattle check`
(`--only pcl_tool::filter`, `--allow-holes`).

    tools/build.py --where
    tools/build.py --clean

tells where all that is kept of this clone is, and removes it.
"""

import contextlib
import fcntl
import os
import pathlib
import shutil
import signal
import subprocess
import sys
import time

sys.dont_write_bytecode = True
from crates import CACHE, crates

FIRST_JOB = 3_000_000_000  # bytes that a large check may take with one job
FURTHER_JOB = 1_000_000_000  # bytes of each further job
FIRST_JOBS = 2  # of the crate that most work waits for
MOST_JOBS = 4  # of a crate


def processors():
    """How many processors may be taken."""
    return int(os.environ.get("LANES") or len(os.sched_getaffinity(0)))


def free_memory():
    for line in pathlib.Path("/proc/meminfo").read_text().splitlines():
        if line.startswith("MemAvailable:"):
            return int(line.split()[1]) * 1024
    return FIRST_JOB


class Build:
    """A crate that is being built."""

    def __init__(self, crate, jobs, is_first):
        self.crate, self.jobs, self.began = crate, jobs, time.monotonic()
        crate.forget()
        command = crate.command(jobs)
        with open(crate.log, "wb") as log:
            self.process = subprocess.Popen(command if is_first else ["nice", *command], cwd=crate.folder, stdin=subprocess.DEVNULL,
                                            stdout=log, stderr=subprocess.STDOUT, start_new_session=True)

    def stop(self):
        with contextlib.suppress(ProcessLookupError):
            os.killpg(self.process.pid, signal.SIGTERM)
        self.process.wait()

    def has_ended(self):
        """Whether its command has ended; if so, what processors spent on it is known."""
        pid, status, usage = os.wait4(self.process.pid, os.WNOHANG)
        if pid:
            self.process.returncode = os.waitstatus_to_exitcode(status)
            self.spent = usage.ru_utime + usage.ru_stime
        return bool(pid)

    def end(self):
        """Whether it is proved and built; says so, or shows the log's last lines."""
        crate = self.crate
        with open(crate.log, "ab") as log:
            is_built = self.process.returncode == 0 and (not crate.is_program or crate.link(log))
        if is_built:
            crate.keep()
            taken = time.monotonic() - self.began
            print(f"{crate.name} is proved and built after {taken:.0f} seconds, {self.spent:.0f} of a processor", flush=True)
            return True
        sys.stdout.writelines(crate.log.read_text(errors="replace").splitlines(keepends=True)[-20:])
        print(f"{crate.name} isn't built: see {crate.log}", flush=True)
        return False


def chains(wanted):
    """For each crate about how long the longest chain of crates takes that begins with it, upwards."""
    longest = dict.fromkeys(wanted, 0)
    for crate in reversed(wanted):
        longest[crate] += crate.work
        for it in longest.keys() & crate.uses:
            longest[it] = max(longest[it], longest[crate])
    return longest


def within_memory(jobs):
    """As many of these jobs as memory allows, but one at least."""
    return max(1, min(jobs, 1 + (free_memory() - FIRST_JOB) // FURTHER_JOB))


@contextlib.contextmanager
def alone():
    """Of two runs over what is kept one waits for the other."""
    CACHE.mkdir(parents=True, exist_ok=True)
    with open(CACHE / "lock", "w") as lock:
        fcntl.flock(lock, fcntl.LOCK_EX)
        yield


def build(goals, at_once=None):
    """Builds crates and all below them that aren't kept, and gives those that aren't built, so none where all is well. It ends with the
    first that fails. Where all is kept it waits for no other run."""
    if not unkept(goals):
        return []
    with alone():
        return build_alone(goals, at_once or processors())


def reached(goals):
    """Crates and all below them, lowest first."""
    return dict.fromkeys(it for goal in goals for it in [*goal.below, goal])


def unkept(goals):
    """Of crates and all below them those that aren't kept, or that stand on such a one, lowest first. One that stands on others may be
    found to be kept once these are built again."""
    wanted = {}
    for crate in reached(goals):
        if not wanted.keys().isdisjoint(crate.uses) or not crate.is_kept():
            wanted[crate] = None
    return list(wanted)


def build_alone(goals, at_once):
    for crate in reached(goals):
        crate.look_again()
    wanted = unkept(goals)
    chain = chains(wanted)
    left = sorted(wanted, key=lambda it: -chain[it])
    running = []
    signal.signal(signal.SIGTERM, lambda *_: sys.exit(143))
    try:
        while left or running:
            awaited = {*left, *(it.crate for it in running)}
            ready = [it for it in left if awaited.isdisjoint(it.uses)]
            for crate in [it for it in ready if it.is_kept()]:
                ready.remove(crate)
                left.remove(crate)
            for at, crate in enumerate(ready):
                idle = at_once - sum(it.jobs for it in running)
                if idle > 0 and (not running or free_memory() > FIRST_JOB):
                    left.remove(crate)
                    is_first = all(chain[crate] >= chain[it.crate] for it in running)
                    jobs = min(idle, MOST_JOBS, max(idle // (len(ready) - at), FIRST_JOBS if is_first else 1))
                    running.append(Build(crate, within_memory(jobs), is_first))
            time.sleep(0.1)
            for it in [it for it in running if it.has_ended()]:
                running.remove(it)
                if not it.end():
                    return [it.crate, *(other.crate for other in running), *left]
        return []
    finally:
        for it in running:
            it.stop()


def check(crate, flags):
    """Proves a crate over what earlier checks kept; the status is 1 where it or one below it isn't proved."""
    if build(crate.uses):
        return 1
    return subprocess.run(crate.check(flags), cwd=crate.folder, stdin=subprocess.DEVNULL, check=False).returncode


def main(words):
    if words == ["--where"]:
        print(CACHE)
        return 0
    if words == ["--clean"]:
        shutil.rmtree(CACHE, ignore_errors=True)
        return 0
    known = crates()
    named = words[1:2] if words[:1] == ["--check"] else words
    for name in named:
        if name not in known:
            sys.exit(f"build.py: crates.txt has no crate {name}")
    if not named:
        sys.exit(__doc__)
    if words[0] == "--check":
        return check(known[named[0]], words[2:])
    return 1 if build([known[it] for it in named]) else 0


if __name__ == "__main__":
    sys.exit(main(sys.argv[1:]))
