#!/usr/bin/env python3
"""Prints which functions of a crate took longest to prove: those whose proof was kept last after the one before it.

    tools/proof_times.py CRATE.. [--most N]

It looks at what a first check with one job (`rt lib --jobs 1`) kept in out/incremental, file by file in the order in which they were
written. With several jobs, or after a second check, the times say little. A function that owns many values and leaves early in many
places comes first as a rule: see "Proving" in CONTRIBUTING.md.
"""

import argparse
import os
import pathlib
import re

CRATES = pathlib.Path(__file__).resolve().parent.parent / "crates"
PROOF = re.compile(r"Rattle-\w+-proofs\.(.+)\.(?:Lts|Tie|Proof|Kinds)(?:\.decls)?\.oantt")


def times_of(crate):
    """How long each function of a crate took, in seconds, and all of them."""
    files = []
    for folder, _, names in os.walk(CRATES / crate / "out" / "incremental"):
        files += [(os.stat(os.path.join(folder, name)).st_mtime, name) for name in names if name.endswith(".oantt")]
    files.sort()
    times = {}
    for (before, _), (after, name) in zip(files, files[1:]):
        if match := PROOF.fullmatch(name):
            times[match[1]] = times.get(match[1], 0) + after - before
    return times, files[-1][0] - files[0][0] if files else 0


def main():
    parser = argparse.ArgumentParser(description=__doc__.split("\n")[0])
    parser.add_argument("crates", nargs="+", metavar="CRATE")
    parser.add_argument("--most", type=int, default=10, metavar="N", help="functions of each crate, 10 where none is given")
    words = parser.parse_args()
    for crate in words.crates:
        times, whole = times_of(crate)
        print(f"{crate}: {whole:.0f} seconds")
        for name, seconds in sorted(times.items(), key=lambda it: -it[1])[: words.most]:
            print(f"{seconds:8.1f} {name}")


main()
