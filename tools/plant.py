#!/usr/bin/env python3
"""Runs `rt plant` in a crate, over what is kept of the crates below (tools/build.py), so that none of these is proved again:

    tools/plant.py CRATE [FLAG..]

takes the flags of `rt plant`, and ends with its status.
"""

import importlib.machinery
import os
import sys
import types

sys.dont_write_bytecode = True
import build
from crates import CACHE, KIT, crates


def load(name):
    """A program of the kit as a module."""
    module = types.ModuleType(name)
    module.__file__ = str(KIT / "bin" / name)
    importlib.machinery.SourceFileLoader(name, module.__file__).exec_module(module)
    return module


def main(words):
    known = crates()
    if words[:1] == [] or words[0] not in known:
        sys.exit(__doc__)
    crate = known[words[0]]
    if build.build(crate.uses):
        return 1
    plant = load("rt-plant")

    class Kept(plant.rt.Crate):
        """A crate whose library is the one that is kept."""

        def __init__(self, *given, **named):
            super().__init__(*given, **named)
            if self.name != crate.name:
                self.rlib = str(CACHE / f"{self.name}.rlib")

        def is_built(self):
            return self.name != crate.name or super().is_built()

    plant.rt.Crate = Kept
    os.chdir(crate.folder)
    return plant.main(*words[1:])


if __name__ == "__main__":
    sys.exit(main(sys.argv[1:]))
