#!/usr/bin/env python3
"""Makes bitmaps for a client to print.

    python3 bench/bitmaps.py FOLDER

dither.pbm   1003 by 517 dots: a ramp from white to black, by an ordered dither; its width is no multiple of eight
page.pbm     2400 by 3263 dots: rings as fine as three dots, all that fits on a Letter page below row 36
corner.pbm   13 by 7 dots: white but for the two dots at the ends of one diagonal
strips.pbm   400 by 297 dots: strips of rings whose rows stand three times each, with white rows between the strips
"""

import os
import sys

sys.dont_write_bytecode = True
import pbm

# the order in which the dots of four by four are inked as the tone grows
DITHER = [[0, 8, 2, 10], [12, 4, 14, 6], [3, 11, 1, 9], [15, 7, 13, 5]]


def dither(x, y):
    return 16 * x > 1003 * (15 - DITHER[y % 4][x % 4])


def rings(x, y):
    return (x * x + y * y) // 9000 % 2 == 0


def corner(x, y):
    return (x, y) in ((0, 0), (12, 6))


def strips(x, y):
    return y % 31 < 19 and (x * x + (y - y % 3) ** 2) // 1500 % 2 == 0


def draw(folder, name, width, height, is_inked):
    rows = [int("".join("01"[is_inked(x, y)] for x in range(width)), 2) for y in range(height)]
    pbm.write(os.path.join(folder, name), (width, height, rows))


def main(folder):
    draw(folder, "dither.pbm", 1003, 517, dither)
    draw(folder, "page.pbm", 2400, 3263, rings)
    draw(folder, "corner.pbm", 13, 7, corner)
    draw(folder, "strips.pbm", 400, 297, strips)


if len(sys.argv) != 2:
    sys.exit(__doc__)
main(sys.argv[1])
