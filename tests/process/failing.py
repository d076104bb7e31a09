"""Runs of a program in which one call fails, the first, the second, and so on (failing.c). Needs a C compiler."""

import os
import pathlib
import subprocess
import sys

HERE = pathlib.Path(__file__).resolve().parent
# Files that are there before each run, and those that a run makes.
KEPT, MADE = ("kept", "kept.cert"), ("cert", "image")
AS_IT_WAS = {name: b"kept" for name in KEPT}


def tidy(folder):
    """Removes what a run couldn't remove: it is called after its own number."""
    for path in list(folder.iterdir()):
        if path.name.endswith(f".pclmin-part{path.stat().st_ino}"):
            path.unlink()


class Failing:
    """Runs in a folder, where files `kept` and `kept.cert` are put before each, and what a run makes else is removed."""

    def __init__(self, folder):
        self.folder = folder
        self.shim = folder / "failing.so"
        self.count = folder / "count"
        subprocess.run(["cc", "-O1", "-shared", "-fPIC", "-o", self.shim, HERE / "failing.c", "-ldl"], check=True)

    def made(self):
        """What files hold that a run makes or replaces."""
        names = (*KEPT, *MADE)
        return {path.name: path.read_bytes() for path in self.folder.iterdir() if path.name in names or "-part" in path.name}

    def run(self, words, **settings):
        """What one run did; settings are those of failing.c, without FAIL_."""
        for name in KEPT:
            (self.folder / name).write_bytes(b"kept")
        for name in MADE:
            (self.folder / name).unlink(missing_ok=True)
        added = {"FAIL_" + name.upper(): str(value) for name, value in settings.items()}
        environment = dict(os.environ, LD_PRELOAD=str(self.shim), FAIL_COUNT=str(self.count), **added)
        return subprocess.run(words, cwd=self.folder, env=environment, stdin=subprocess.DEVNULL, capture_output=True, timeout=60,
                              check=False)

    def each(self, words, holds, **settings):
        """Runs words with each call failing in turn, and gives how many there are. What each run did has to hold."""
        number = 1
        while True:
            self.count.write_text("0")
            ran = self.run(words, at=number, **settings)
            if not holds(ran):
                sys.exit("call %d of %s, %s: status %d, %r, %r" % (number, " ".join(map(str, words)), settings, ran.returncode,
                                                                  ran.stdout[:200], ran.stderr[:200]))
            if int(self.count.read_text()) < number:
                return number - 1
            number += 1
