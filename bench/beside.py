#!/usr/bin/env python3
"""Compares the preview of a page with what another program paints of the same document.

    python3 bench/beside.py PREVIEW OTHER X Y REACH [PICTURE.png]

PREVIEW and OTHER are raw PBM, and (X, Y) is the dot of OTHER that dot (0, 0) of the preview lies on. Two programs place
the same characters a dot apart where they round otherwise: each black dot of one has to have a black dot of the other
within REACH dots along and across. Ends with status 1 where one hasn't, and with a line of how many are black in each
and how many of them in both. PICTURE is the inked part of both, the preview on the left, at half its size.
"""

import os
import struct
import sys
import zlib

sys.dont_write_bytecode = True
import pbm


def placed(bitmap, x, y, width, height):
    """The rows of a bitmap whose dot (0, 0) lies on dot (x, y) of a sheet."""
    own_width, _, rows = bitmap
    past = x + own_width - width
    sheet = [0] * height
    for place, row in enumerate(rows, y):
        if row and 0 <= place < height:
            sheet[place] = row >> past if past > 0 else row << -past
    return sheet


def grown(rows, reach):
    """Each dot, and all dots near it."""
    wide = [0] * len(rows)
    for place, row in enumerate(rows):
        for shift in range(reach + 1):
            wide[place] |= row << shift | row >> shift
    near = range(-reach, reach + 1)
    grown_rows = [0] * len(rows)
    for place in range(len(rows)):
        for step in near:
            if 0 <= place + step < len(rows):
                grown_rows[place] |= wide[place + step]
    return grown_rows


def count(rows):
    return sum(bin(row).count("1") for row in rows)


def far(rows, others, reach):
    return count([row & ~other for row, other in zip(rows, grown(others, reach))])


def half_size(rows, width, edges):
    """Lines of greys, each of two by two dots."""
    left, right, top, bottom = edges
    lines = []
    for above, below in zip(rows[top:bottom:2], rows[top + 1:bottom:2]):
        digits = [format(row, "0%db" % width)[left:right] for row in (above, below)]
        pairs = [sum(line[x:x + 2].count("1") for line in digits) for x in range(0, right - left, 2)]
        lines.append(bytes(255 - 255 * black // 4 for black in pairs))
    return lines


def inked(rows, width):
    """The part of the sheet from its upper inked row to the last one that goes on without a gap of 300 rows, and its columns."""
    top = next(place for place, row in enumerate(rows) if row)
    bottom = top
    while any(rows[bottom + 1:bottom + 300]):
        bottom = max(place for place in range(bottom + 1, min(bottom + 300, len(rows))) if rows[place])
    columns = 0
    for row in rows[top:bottom + 1]:
        columns |= row
    left, right = width - columns.bit_length(), width - ((columns & -columns).bit_length() - 1)
    return max(left - 20, 0), right + 20, max(top - 20, 0), bottom + 20


def png(lines):
    def chunk(kind, data):
        return struct.pack(">I", len(data)) + kind + data + struct.pack(">I", zlib.crc32(kind + data))

    header = struct.pack(">IIBBBBB", len(lines[0]), len(lines), 8, 0, 0, 0, 0)
    data = zlib.compress(b"".join(b"\0" + line for line in lines), 9)
    return b"\x89PNG\r\n\x1a\n" + chunk(b"IHDR", header) + chunk(b"IDAT", data) + chunk(b"IEND", b"")


def main(preview_path, other_path, x, y, reach, picture=None):
    width, height, others = pbm.read(other_path)
    rows = placed(pbm.read(preview_path), x, y, width, height)
    if picture:
        edges = inked(others, width)
        sides = zip(half_size(rows, width, edges), half_size(others, width, edges))
        with open(picture, "wb") as out:
            out.write(png([left + b"\x60" + right for left, right in sides]))
    both = count([row & other for row, other in zip(rows, others)])
    print("%d dots of the preview, %d of the other, %d of both" % (count(rows), count(others), both))
    strays = far(rows, others, reach) + far(others, rows, reach)
    if strays:
        sys.exit("%d dots have none of the other page near them" % strays)


if len(sys.argv) not in (6, 7):
    sys.exit(__doc__)
main(*sys.argv[1:3], *map(int, sys.argv[3:6]), *sys.argv[6:])
