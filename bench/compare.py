#!/usr/bin/env python3
"""Compares a bitmap with the preview of a page on which it was printed.

    python3 bench/compare.py BITMAP PREVIEW X Y SCALE [within]

Both are raw PBM. Each dot of the bitmap has to be a square of SCALE dots of the preview, the upper left one at (X, Y),
and all else white. What lies past the right or the lower edge of the page is left out. With `within`, dots of the
bitmap may be missing, and all else has to be white. Prints the first dot that is wrong, and ends with status 1; prints
nothing where none is.
"""

import sys

sys.dont_write_bytecode = True
import pbm


def spread(row, width, scale):
    return int("".join(digit * scale for digit in format(row, "0%db" % width)), 2) if scale > 1 else row


def expected_rows(bitmap, page_width, page_height, x, y, scale):
    width, height, rows = bitmap
    past = x + width * scale - page_width
    expected = [0] * page_height
    for place, row in enumerate(rows):
        dots = spread(row, width, scale)
        for line in range(y + place * scale, min(y + (place + 1) * scale, page_height)):
            expected[line] = dots >> past if past > 0 else dots << -past
    return expected


def main(bitmap_path, preview_path, x, y, scale, may_miss):
    width, height, rows = pbm.read(preview_path)
    expected = expected_rows(pbm.read(bitmap_path), width, height, x, y, scale)
    for line in range(height):
        wrong = rows[line] & ~expected[line] if may_miss else rows[line] ^ expected[line]
        if wrong:
            sys.exit("%s: dot (%d, %d) of the page is wrong" % (bitmap_path, width - wrong.bit_length(), line))


if len(sys.argv) not in (6, 7) or sys.argv[6:] not in ([], ["within"]):
    sys.exit(__doc__)
main(*sys.argv[1:3], *map(int, sys.argv[3:6]), len(sys.argv) == 7)
