#!/usr/bin/env python3
"""Makes small jobs that ask for much work, and times programs on them.

    python3 bench/hostile.py FOLDER [PCLMIN PLAIN]
    python3 bench/hostile.py --shrink FOLDER PCLMIN [PAGES]
    python3 bench/hostile.py --commands FOLDER PCLMIN

glyph.pcl       the largest character, printed 2,000 times at one place by a run of text, from the page's left edge on
shifted.pcl     the same one dot further right, so that it begins within a byte
turns.pcl       as shifted.pcl, with two such characters in turn
controls.pcl    a row of 65,535 controls 128 in method 2, sent 10,000 times by macros
elements.pcl    a row of 32,767 elements of method 3, far more than it has bytes, in the same way
rectangles.pcl  100,000 black rectangles of the whole page
rows.pcl        the same with a raster row of one dot between every two of 20,000
macros.pcl      32,767 permanent macros, and then the temporary ones are deleted 200,000 times
fonts.pcl       the same with fonts, 30,000 times
renewed_macros.pcl, renewed_fonts.pcl   the same with a temporary one before each deletion
sizes.pcl       10,000 times the sizes Executive and Legal in turn, on a page that nothing is painted on
blank_text.pcl  the same with a blank printed on each
noise.pcl       256 Letter pages of random dots, 210 rows that a macro sends fifteen times on each: a certificate of the second format
                has some 2 GB

Without programs it only makes the jobs. PCLMIN is the program of this repository and PLAIN that of oracle/plain: each previews page
1 of each job at 300 and at 600 dots per inch, and both have to write the same bytes. A time is that of one run, in seconds.

With --commands it makes jobs of one kind of command each, the dearest that are known, and prints the processor's seconds that `pbm` and
`min` take for 1 MB of these commands: of those that take longest for 20 KB, in proportion.

With --shrink it makes jobs of 256 pages by macros, or of PAGES, for 300 and for 600 dots per inch, and prints what `min` and `shrink` take
of each, without options and by the drivers' profile: the processor's seconds, the median of as many runs as take two seconds, the peak
memory that GNU time tells, and the bytes that are written. The status is 1 where `shrink` takes more than FACTORS times what `min` does.

checkerboard    black and white dots in turn
random_dots     1,000 rows of random dots, again and again
thin            the same with one dot in eight black
squares         random squares of four dots
unlike          48 large shapes on each page, each with a dot that no other has there
small           shapes of twelve rows by the ten thousands, which hang together in none but small groups
cells           as many of them apart from each other, each whole
few_cells       a third of these, few enough for letters
touching        cells with the same edges, alone and two that touch
stripes         a stripe of four dots for each eight, down the page
dots            a single dot for each eight dots of each second row
letters         two letters on each page
"""

import os
import random
import subprocess
import sys
import time
from pathlib import Path
from statistics import median

# A fixed font of all codes and a pitch of 0, so that text doesn't move the cursor.
HEADER = bytes([0, 64, 0, 2] + 60 * [0])
FONT = b"\x1b)s64W" + HEADER
TOP_LEFT = b"\x1b&l0E\x1b*p0x0Y"
PAGE = b"\x0c"


def character(code):
    rows = bytes((7 * i * i + 3 * i) % 256 for i in range(255 * 256))
    size = (2040).to_bytes(2, "big") + (256).to_bytes(2, "big")
    data = bytes([4, 0, 14, 1, 0, 0, 0, 0, 0, 0]) + size + bytes(2) + rows
    return b"\x1b*c%dE\x1b(s%dW" % (code, len(data)) + data


def printed(dot, codes):
    characters = b"".join(character(code) for code in sorted(set(codes)))
    return FONT + characters + b"\x1b(0X" + TOP_LEFT + b"\x1b*p%dX" % dot + codes


def glyph():
    return printed(0, 2000 * b"A")


def shifted():
    return printed(1, 2000 * b"A")


def turns():
    return printed(1, 1000 * b"AB")


def sent_by_macros(row):
    once = b"\x1b&f1y0X" + row + b"\x1b&f1X"
    hundred = b"\x1b&f2y0X\x1b&f1y" + 99 * b"2x" + b"2X\x1b&f1X"
    return TOP_LEFT + once + hundred + b"\x1b&f2y" + 99 * b"3x" + b"3X"


def controls():
    return sent_by_macros(b"\x1b*b2m65535W" + 65535 * b"\x80")


def elements():
    return sent_by_macros(b"\x1b*b3m65534W" + 32767 * b"\x00\x81")


def rectangles():
    return TOP_LEFT + b"\x1b*c2400a3300b" + 99_999 * b"p" + b"P"


def rows():
    return TOP_LEFT + b"\x1b*c2400a3300B" + 20_000 * b"\x1b*cP\x1b*b1W\x80\x1b*rB\x1b*p0Y"


def permanent_macros():
    return b"".join(b"\x1b&f%dy0x1x10X" % number for number in range(1, 32_768))


def permanent_fonts():
    one = b"\x1b&f0X" + FONT + b"\x1b*c5F\x1b&f1X"
    return one + b"".join(b"\x1b*c%dD\x1b&f2X" % number for number in range(1, 32_768))


def macros():
    return permanent_macros() + b"\x1b&f" + 199_999 * b"7x" + b"7X" + PAGE


def fonts():
    return permanent_fonts() + b"\x1b*c" + 29_999 * b"1f" + b"1F" + PAGE


def renewed_macros():
    return permanent_macros() + b"\x1b&f0y" + 199_999 * b"0x1x7x" + b"0x1x7X" + PAGE


def renewed_fonts():
    send = b"\x1b*c0D\x1b&f3y0X" + FONT + b"\x1b*c1F\x1b&f1X"
    return permanent_fonts() + send + b"\x1b&f3y" + 29_999 * b"2x" + b"2X" + PAGE


def sizes():
    return b"\x1b&l" + 9_999 * b"1a3a" + b"1a3A" + PAGE


def blank_text():
    return FONT + b"\x1b(0X" + 10_000 * b"\x1b&l1A \x1b&l3A " + PAGE


def noise():
    state, rows = 1, b""
    for _ in range(210):
        row = bytearray()
        for _ in range(300):
            state = (1_664_525 * state + 1_013_904_223) % 2**32
            row.append(state >> 24)
        rows += b"\x1b*b300W" + row
    begin = b"\x1b*p0x0Y\x1b*t300R\x1b*r0F\x1b*r1A\x1b&f1y"
    page = b"\x1b&f2y0X" + begin + 14 * b"2x" + b"2X" + b"\x1b*rC\x0c\x1b&f1X"
    return b"\x1b&l0E\x1b&f1y0X" + rows + b"\x1b&f1X" + page + b"\x1b&f2y" + 255 * b"3x" + b"3X"


JOBS = [glyph, shifted, turns, controls, elements, rectangles, rows, macros, fonts, renewed_macros, renewed_fonts, sizes, blank_text, noise]


# ---- jobs of one kind of command: what comes before, and what comes again and again

MEGABYTE = 1_000_000


def again(command, count=MEGABYTE):
    return count // len(command) * command


def kinds(dpi):
    """Names, what comes before, and the commands: 20 KB of those that take longest, and of the others 1 MB."""
    raster = b"\x1b*p0x0Y\x1b*t75R\x1b*r1A\x1b*b0m75W" + 75 * b"\xff" + b"\x1b*b3M\x1b*b" + 823 * b"w" + b"W\x1b*rB"
    text = FONT + character(65) + character(66) + b"\x1b(0X" + TOP_LEFT + b"\x1b*p1X"
    page = b"\x1b*c%da%dB" % (8 * dpi, 11 * dpi)
    return [
        ("rectangles, black and white in turn", TOP_LEFT + page, b"\x1b*c" + again(b"p1p", 20_000) + b"P"),
        ("text, two characters in turn at one place", text, again(b"AB", 20_000)),
        ("text, one character at one place", text, again(b"A")),
        ("rows of a raster, each once more", TOP_LEFT, again(raster)),
        ("rows of a raster, white", TOP_LEFT + b"\x1b*r1A", b"\x1b*b" + again(b"w") + b"W"),
        ("rasters of one row", TOP_LEFT, again(b"\x1b*b1W\x80\x1b*rB\x1b*p0Y")),
        ("sizes in turn", b"", b"\x1b&l" + again(b"1a3a") + b"1A"),
        ("sizes in turn, with a blank on each", FONT + b"\x1b(0X", again(b"\x1b&l1A \x1b&l3A ")),
        ("deletions of temporary macros", permanent_macros(), b"\x1b&f" + again(b"7x") + b"7X"),
        ("the same, each with a new one before", permanent_macros() + b"\x1b&f0Y", b"\x1b&f" + again(b"0x1x7x") + b"7X"),
        ("deletions of temporary fonts", permanent_fonts(), b"\x1b*c" + again(b"1f") + b"1F"),
        ("runs of an empty macro", defined(1, b""), b"\x1b&f1y" + again(b"2x") + b"2X"),
        ("resets", b"", again(b"\x1bE")),
        ("universal exits", b"", again(b"\x1b%-12345X")),
        ("moves of the cursor", b"", b"\x1b*p" + again(b"x") + b"X"),
        ("carriage returns", b"", again(b"\r")),
    ]


# ---- pages by macros

def defined(number, body):
    return b"\x1b&f%dy0X" % number + body + b"\x1b&f1X"


def pages(dpi, rows, times, count):
    """That many pages that each send some rows so often."""
    start = b"\x1b*p0x0Y\x1b*t%dR\x1b*r0F\x1b*r1A\x1b&f1y" % dpi
    page = defined(2, start + (times - 1) * b"2x" + b"2X\x1b*rC\x0c")
    return b"\x1b&l0E" + defined(1, rows) + page + b"\x1b&f2y" + (count - 1) * b"3x" + b"3X"


def equal_bytes(byte, count):
    """A row of equal bytes, by method 2."""
    runs = [min(127, count - start) for start in range(0, count, 127)]
    return b"\x1b*b2m%dW" % (2 * len(runs)) + b"".join(bytes([(257 - run) % 256, byte]) for run in runs)


def plain_rows(rows):
    return b"".join(b"\x1b*b%dW" % len(row) + bytes(row) for row in rows)


def checkerboard(dpi, count):
    return pages(dpi, 33 * (equal_bytes(0xAA, dpi) + equal_bytes(0x55, dpi)), dpi // 6, count)


def random_dots(dpi, count):
    source = random.Random(1)
    return pages(dpi, plain_rows(source.randbytes(dpi) for _ in range(1000)), dpi // 100, count)


def thin(dpi, count):
    source = random.Random(1)
    draws = (zip(source.randbytes(dpi), source.randbytes(dpi), source.randbytes(dpi)) for _ in range(1000))
    return pages(dpi, plain_rows(bytes(one & two & three for one, two, three in row) for row in draws), dpi // 100, count)


def squares(dpi, count):
    source, row_of = random.Random(9), {0: 0x00, 1: 0x0F, 2: 0xF0, 3: 0xFF}
    rows = (plain_rows([bytes(row_of[source.randrange(4)] for _ in range(dpi))]) for _ in range(250))
    return pages(dpi, b"".join(row + 3 * b"\x1b*b3m0W" + b"\x1b*b0M" for row in rows), dpi // 100, count)


def unlike(dpi, count):
    source, scale = random.Random(5), dpi // 300
    side = 380 * scale
    bars = 44 * (b"\x1b*p+%dY\x1b*c%da2b0P" % (8 * scale, side))
    frame = b"\x1b&f0S\x1b*c4a%db0P\x1b*c%da2b0P" % (side, side) + bars + b"\x1b&f1S"
    job = b"\x1b&l0E" + defined(1, frame) + b"\x1b&u%dD" % dpi
    for place in range(count * 48):
        corner = place % 6 * 400 * scale, place // 6 % 8 * 400 * scale
        spot = source.randrange(10, side - 4), source.randrange(4, side - 4)
        job += b"\x1b*p%dx%dY\x1b&f1y2X\x1b*p+%dx+%dY\x1b*c3a3b0P" % (corner + spot)
        job += b"\x0c" if place % 48 == 47 else b""
    return job


def small(dpi, count):
    source, rows = random.Random(3), []
    for place in range(900):
        row = bytearray(dpi)
        if place % 15 < 12:
            row[::2] = bytes(source.getrandbits(8) | 0x18 for _ in range(dpi // 2))
        rows.append(row)
    return pages(dpi, plain_rows(rows), 11 * dpi // 900 + 1, count)


def cell_row(source):
    """A row of a cell: a run of dots around the two in its middle."""
    return 0xFF >> source.randrange(4) & 0xFF << source.randrange(4) & 0xFF


def cells(dpi, count, share=1.0):
    """Cells of twelve rows and a byte in each second byte, or in a share of these."""
    source, rows = random.Random(3), []
    for _ in range(60):
        used = [place for place in range(0, dpi, 2) if source.random() < share]
        band = [bytearray(dpi) for _ in range(15)]
        for row in band[:12]:
            for place in used:
                row[place] = cell_row(source)
        rows += band
    return pages(dpi, plain_rows(rows), 11 * dpi // 900 + 1, count)


def few_cells(dpi, count):
    return cells(dpi, count, 1 / 3)


def touching(dpi, count):
    source, rows = random.Random(3), []
    kinds = [[0xFF] + [source.choice((0x81, 0xFF)) for _ in range(11)] for _ in range(64)]
    for _ in range(60):
        band = [bytearray(dpi) for _ in range(15)]
        for place in range(0, dpi - 4, 2 * dpi // 25):
            for used in (place, place + 2, place + 3):
                for row, byte in zip(band, source.choice(kinds)):
                    row[used] = byte
        rows += band
    return pages(dpi, plain_rows(rows), 11 * dpi // 900 + 1, count)


def stripes(dpi, count):
    return pages(dpi, equal_bytes(0xF0, dpi) + b"\x1b*b3M\x1b*b" + 98 * b"w" + b"W", 11 * dpi // 100, count)


def dots(dpi, count):
    return pages(dpi, 50 * (equal_bytes(0x80, dpi) + b"\x1b*bW"), 11 * dpi // 100, count)


def letters(dpi, count):
    letter = b"\x1b*t%dR\x1b*r1A" % dpi + plain_rows([63, 8 * row % 256] for row in range(24)) + b"\x1b*rC"
    page = b"\x1b*p300x3000Y" + letter + b"\x1b*p600x300Y" + letter + b"\x0c"
    return b"\x1b&l0E" + defined(1, page) + b"\x1b&f1y" + (count - 1) * b"3x" + b"3X"


PAGES = [checkerboard, random_dots, thin, squares, unlike, small, cells, few_cells, touching, stripes, dots, letters]
FACTORS = 4, 2


def taken(program, how, path, dpi, *options):
    """The processor's seconds and the bytes of memory of a run, and the bytes that it writes: the median time of as many runs as take two
    seconds, since a processor may be twice as fast for some milliseconds. The memory is what GNU time tells, since what a child held before
    it was the program counts for this script."""
    out, runs = path.with_suffix("." + how), []
    command = ["/usr/bin/time", "-f", "%M", program, how, *options, "--dpi", str(dpi), "-o", out, path]
    while not runs or sum(seconds for seconds, _ in runs) < 2 and len(runs) < 20:
        process = subprocess.Popen(command, stderr=subprocess.PIPE, text=True)
        told = process.stderr.read().splitlines()
        _, status, usage = os.wait4(process.pid, 0)
        if status != 0:
            sys.exit(f"{how} of {path.name} ends with status {os.waitstatus_to_exitcode(status)}")
        runs.append((usage.ru_utime + usage.ru_stime, 1024 * int(told[-1])))
    written = out.stat().st_size
    out.unlink()
    return median(seconds for seconds, _ in runs), max(memory for _, memory in runs), written


# What printers read otherwise is shrunk too.
WAYS = {"": ["--profile-only"], "--drivers": ["--profile-only", "--drivers"]}


def shrunk(folder, program, count=256):
    """Prints the table of `min` and `shrink`, and gives the status."""
    status = 0
    print("| Job | dpi | Bytes | `min`, s | MB | bytes | `shrink` | s | MB | bytes | Time | Memory |\n|---|" + 11 * "---:|")
    for make in PAGES:
        for dpi in (300, 600):
            path = folder / f"{make.__name__}-{dpi}.pcl"
            path.write_bytes(make(dpi, int(count)))
            least = taken(program, "min", path, dpi)
            for name, options in WAYS.items():
                best = taken(program, "shrink", path, dpi, *options)
                factors = best[0] / max(least[0], 0.001), best[1] / least[1]
                status |= factors[0] > FACTORS[0] or factors[1] > FACTORS[1]
                figures = [f"{seconds:.3f} | {memory / 1e6:.0f} | {written:,}" for seconds, memory, written in (least, best)]
                sizes = f"{path.stat().st_size:,} | {figures[0]} | {name} | {figures[1]}"
                print(f"| `{make.__name__}` | {dpi} | {sizes} | {factors[0]:.1f} | {factors[1]:.1f} |", flush=True)
    return int(status)


def by_command(folder, program):
    """Prints what 1 MB of each kind of command takes."""
    print("| Commands | 300: `pbm`, s | `min`, s | 600: `pbm`, s | `min`, s |\n|---|" + 4 * "---:|")
    path = folder / "commands.pcl"
    for at_300, at_600 in zip(kinds(300), kinds(600)):
        seconds = []
        for dpi, (_, before, commands) in ((300, at_300), (600, at_600)):
            path.write_bytes(before + commands + PAGE)
            seconds += [taken(program, how, path, dpi)[0] * MEGABYTE / len(commands) for how in ("pbm", "min")]
        print(f"| {at_300[0]} | {' | '.join(f'{it:.1f}' for it in seconds)} |", flush=True)


def preview(program, path, dpi):
    start = time.perf_counter()
    done = subprocess.run([program, "pbm", "--page", "1", "--dpi", str(dpi)], stdin=path.open("rb"), stdout=subprocess.PIPE, check=False)
    return time.perf_counter() - start, done.stdout


def main():
    modes = {"--shrink": shrunk, "--commands": by_command}
    mode = modes.get(sys.argv[1])
    folder, *programs = sys.argv[2:] if mode else sys.argv[1:]
    folder = Path(folder)
    folder.mkdir(parents=True, exist_ok=True)
    if mode:
        sys.exit(mode(folder, *programs))
    for make in JOBS:
        (folder / f"{make.__name__}.pcl").write_bytes(make())
    if not programs:
        return
    print("| Job | Bytes | dpi | pclmin, s | plain, s |\n|---|---:|---:|---:|---:|")
    for make in JOBS:
        path = folder / f"{make.__name__}.pcl"
        for dpi in (300, 600):
            runs = [preview(program, path, dpi) for program in programs]
            if any(output != runs[0][1] for _, output in runs):
                sys.exit(f"{path.name} at {dpi}: the programs write other bytes")
            times = " | ".join(f"{seconds:.2f}" for seconds, _ in runs)
            print(f"| {make.__name__} | {path.stat().st_size:,} | {dpi} | {times} |", flush=True)


if __name__ == "__main__":
    main()
