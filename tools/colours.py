#!/usr/bin/env python3
"""Draws a page of a job in colours that tell how its dots are sent, and tells what the job's bytes are for.

    tools/colours.py JOB PICTURE [--page N] [--dpi 300|600] [--scale N]

PICTURE is a PNG by netpbm's pnmtopng, made smaller by N (4): letters of fonts are blue, those of macros green, rectangles red, and
rasters black. The job is mostly what `pclmin shrink` wrote; it is read by oracle/reference.py, by the drivers' profile. Needs Python 3
and netpbm. The page of web/ shows the same.
"""

import argparse
import collections
import functools
import json
import os
import subprocess
import sys

sys.dont_write_bytecode = True
sys.path.insert(0, os.path.join(os.path.dirname(os.path.realpath(__file__)), "..", "oracle"))
import reference

FONTS, MACROS, RECTANGLES, RASTERS, MOVES, REST = (
    "letters of fonts", "letters of macros", "rectangles", "rasters", "moves", "the rest")
COLOURS = {FONTS: (0, 80, 200), MACROS: (0, 130, 60), RECTANGLES: (200, 40, 40), RASTERS: (0, 0, 0)}
# What a command outside of definitions is for, and as which part of it, by its name.
NAMES = {
    (FONTS, "patterns"): (b")sW", b"(sW", b"*cD", b"*cE", b"*cF"),
    (FONTS, "codes"): (reference.TEXT, b"&pX", b"(X", b")X", b"\x0e", b"\x0f"),
    (MACROS, "calls"): (b"&fX", b"&fY"),
    (RECTANGLES, ""): (b"*cA", b"*cB", b"*cG", b"*cH", b"*cV", b"*cP"),
    (MOVES, ""): (b"*pX", b"*pY", b"&aC", b"&aR", b"&aH", b"&aV", b"&aL", b"&kG", b"&kH", b"&lC", b"&lD", b"\r", b"\n", b"\t"),
}
LISTED = (*list(NAMES)[:2], (MACROS, "patterns"), (MACROS, "calls"), (RECTANGLES, ""), (RASTERS, ""), (MOVES, ""), (REST, ""))
PURPOSES = {name: purpose for purpose, names in NAMES.items() for name in names}
MIRRORED = bytes(int(f"{byte:08b}"[::-1], 2) for byte in range(256))


class Ejected(Exception):
    """The page that is traced has ended."""


class NoPage(Exception):
    """The job has fewer pages."""


class Tracer(reference.Performer):
    """Performs a job to the end of one page, and keeps the rows of its dots that were sent in each way. A dot counts where it was first
    inked. No page before is inked."""

    def __init__(self, dpi, number):
        self.number, self.way, self.traced = number, None, collections.defaultdict(dict)
        super().__init__(dpi, reference.Profile.DRIVERS)

    def is_traced(self):
        """Whether this is the page."""
        return len(self.pages) + 1 == self.number

    def eject(self, command):
        super().eject(command)
        if len(self.pages) == self.number:
            raise Ejected

    def ink(self, line, top, count, is_black):
        if not self.is_traced():
            return
        rows = range(top, min(top + count, self.height // self.dot))
        before = [self.rows.get(y, 0) for y in rows]
        super().ink(line, top, count, is_black)
        for y, old in zip(rows, before):
            changed = self.rows[y] ^ old
            if changed:
                for drawn in self.traced.values():
                    drawn[y] = drawn.get(y, 0) & ~changed
                if is_black:
                    self.traced[self.way][y] = self.traced[self.way].get(y, 0) | changed

    def row(self, command):
        self.way = MACROS if self.running else RASTERS
        if self.is_traced():
            super().row(command)
            return
        if not self.raster:
            self.start_raster(0)
        self.marked = True
        self.raster.skip(1)

    def fill(self, is_black):
        self.way = RECTANGLES
        super().fill(is_black)

    def ink_character(self, character, scale):
        """The dots of the model, row by row."""
        self.way = FONTS
        if not self.is_traced():
            return
        left, top = self.x // self.dot + scale * character.left, self.y // self.dot - scale * character.top
        for row, line in lines_of(character, scale):
            first = max(top + scale * row, 0)
            self.ink(line << left if left >= 0 else line >> -left, first, top + scale * (row + 1) - first, True)


@functools.lru_cache(maxsize=1 << 12)
def lines_of(character, scale):
    """The rows of a character that have ink: each with the dots that it inks from the character's left edge on."""
    lines = collections.Counter()
    for column, row in character.bits:
        lines[row] |= (1 << scale) - 1 << scale * column
    return list(lines.items())


def traced_page(job, dpi, number):
    """The size of a page, and its rows of dots by the way in which they were sent."""
    tracer = Tracer(dpi, number)
    try:
        for command in reference.read(job, reference.Profile.DRIVERS):
            tracer.perform(command)
        reference.reset(tracer, reference.Command(len(job), b""))
    except Ejected:
        return tracer.pages[-1].size, tracer.traced
    raise NoPage("no page %d" % number)


def dots_of(size, dpi, rows):
    """Rows of dots on a page of a size, as a PBM image."""
    _, width, height = (side * dpi // 300 for side in reference.SIZES[size])
    data = (rows.get(y, 0).to_bytes((width + 7) // 8, "little").translate(MIRRORED) for y in range(height))
    return b"P4\n%d %d\n" % (width, height) + b"".join(data)


def page_in_colours(job, dpi, number):
    """A line that lists the ways in which the dots of a page were sent, and an image of the dots of each."""
    size, ways = traced_page(job, dpi, number)
    listed = [{"purpose": way, "colour": COLOURS[way]} for way in ways]
    return json.dumps(listed).encode() + b"\n" + b"".join(dots_of(size, dpi, rows) for rows in ways.values())


def purposes_listed(job):
    """A line that lists what the bytes of a job are for."""
    counts = purposes(job)
    listed = [{"purpose": purpose, "part": part, "bytes": counts[purpose, part], "colour": COLOURS.get(purpose)}
              for purpose, part in LISTED]
    return json.dumps(listed).encode() + b"\n"


def picture(size, dpi, ways, scale):
    """The page as a PPM image, each pixel the mean of a square of dots."""
    _, width, height = reference.SIZES[size]
    across, down = (-(-side * dpi // 300 // scale) for side in (width, height))
    pixels = bytearray()
    for top in range(0, down * scale, scale):
        sums = [[255.0 * scale * scale] * 3 for _ in range(across)]
        for way, rows in ways.items():
            for y in range(top, top + scale):
                row = rows.get(y, 0)
                column = 0
                while row:
                    dots = bin(row & (1 << scale) - 1).count("1")
                    if dots and column < across:
                        for part in range(3):
                            sums[column][part] -= dots * (255 - COLOURS[way][part])
                    row >>= scale
                    column += 1
        for pixel in sums:
            pixels += bytes(round(value / scale / scale) for value in pixel)
    return b"P6\n%d %d\n255\n" % (across, down) + pixels


def purpose_of(command, is_defining):
    """What a command is for, and as which part of it."""
    if is_defining:
        return MACROS, "patterns"
    if command.name[:2] in (b"*b", b"*r", b"*t"):
        return RASTERS, ""
    return PURPOSES.get(command.name, (REST, ""))


def purposes(job):
    """How many bytes of a job are for what, and as which part of it."""
    commands, count, is_defining = reference.read(job, reference.Profile.DRIVERS), collections.Counter(), False
    ends = [command.at for command in commands[1:]] + [len(job)]
    for command, end in zip(commands, ends):
        controls, what = command.name == b"&fX", command.value.whole()
        count[purpose_of(command, is_defining or controls and what == 0)] += end - command.at
        is_defining = controls and what == 0 or is_defining and not (controls and what == 1)
    if commands:
        count[REST, ""] += commands[0].at
    return count


def main():
    words = argparse.ArgumentParser(description=__doc__.split("\n", 1)[0])
    words.add_argument("job")
    words.add_argument("picture")
    words.add_argument("--page", type=int, default=1)
    words.add_argument("--dpi", type=int, choices=(300, 600), default=300)
    words.add_argument("--scale", type=int, default=4)
    asked = words.parse_args()
    with open(asked.job, "rb") as file:
        job = file.read()
    try:
        size, ways = traced_page(job, asked.dpi, asked.page)
        counts = purposes(job)
    except reference.Refused as refusal:
        sys.exit("refused: %s" % (refusal,))
    except NoPage as fault:
        sys.exit(str(fault))
    image = picture(size, asked.dpi, ways, asked.scale)
    with open(asked.picture, "wb") as out:
        subprocess.run(["pnmtopng", "-quiet", "-compression", "9"], input=image, stdout=out, check=True)
    for (purpose, part), count in counts.most_common():
        print("%8d %s" % (count, ", ".join(filter(None, (purpose, part)))))


if __name__ == "__main__":
    main()
