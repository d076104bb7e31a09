#!/usr/bin/env python3
"""Paints the rows of a raster as pbmtolj means them, which isn't always what the job says.

    python3 bench/meant.py JOB BITMAP > MEANT

JOB is what pbmtolj sends of BITMAP, and both bitmaps are raw PBM. pbmtolj sends a white row without data, whatever the
method, and leaves the seed row as it is. By the rules a row of method 3 without data is the row above once more, and a
white row becomes the seed row. Commands and row data are read by oracle/reference.py.
"""

import os
import sys

sys.dont_write_bytecode = True
sys.path.insert(0, os.path.join(os.path.dirname(os.path.realpath(__file__)), "..", "oracle"))
import pbm
import reference


def meant(job, bitmap):
    width, height, rows = bitmap
    method, seed, decoded = 0, bytes(pbm.row_bytes(width)), []
    for command in reference.read(job, reference.Profile.STATED):
        if command.name == b"*bM":
            method = command.value.whole()
        elif command.name == b"*bW" and not command.data and rows[len(decoded)] == 0:
            decoded.append(0)
        elif command.name == b"*bW":
            seed = reference.decoded(method, seed, command.data)
            decoded.append(int.from_bytes(seed, "big") >> -width % 8)
    return width, height, decoded


def main(job_path, bitmap_path):
    with open(job_path, "rb") as source:
        job = source.read()
    pbm.write("/dev/stdout", meant(job, pbm.read(bitmap_path)))


if len(sys.argv) != 3:
    sys.exit(__doc__)
main(*sys.argv[1:])
