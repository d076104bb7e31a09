#!/usr/bin/env python3
"""Random jobs of the PCL 5 manual's commands through `pclmin shrink`, which another interpreter of PCL 5 then prints before and after.

    python3 oracle/manual_jobs.py PCLMIN RENDER COUNT SEED [--changed N] [--workers N] [--least] [--alone] [--odd CHANCE]
                                  [--folder FOLDER] [--only NUMBER]

The jobs are made of what the PCL 5 manual has, not of docs/LANGUAGE.md: each of its commands with ordinary values and odd ones, `@PJL`
lines of real printers, several jobs in one stream, sides, macros, soft fonts, rasters by methods 0 to 3. Most of a job is what drivers
send, and something odd stands in few places, so that `shrink` takes most of them. RENDER is what sheets.py takes. What a printer was told
at its panel before a job, and another job after it, are drawn too, and go to the interpreter with both, but with `--alone`.

Job NUMBER of a SEED goes through `shrink` at 300, 600 and auto. What comes out otherwise than it came has to print the same, at each
resolution that counts and by which PCLMIN accepts the job: the same sheets, and for each page the same size, copies, sides and source. One
that doesn't is kept in FOLDER (build/manual) as SEED-NUMBER.pcl, with what stood before and after it, and told in a line; with `--least`
what it doesn't need is taken away first, and the lines then have the job in the notation of the tables. At the end they are counted by the
commands that are left in them. `--odd` says how often something odd stands beside or in a part of a job (0.2). With `--changed` no more
jobs are made after so many that came out otherwise. `--only` tries one number. The status is 1 if a job differs.
"""

import argparse
import collections
import concurrent.futures
import os
import random
import re
import sys
import tempfile

sys.dont_write_bytecode = True
from programs import Program
from random_jobs import ESC, compressed_character, with_data
from sheets import printed

RESOLUTIONS = {"300": ["300"], "600": ["600"], "auto": ["300", "600"]}
# How often something odd stands beside or in a part of a job that may have it.
CHANCE_ODD = 0.2
# Source 0 leaves the source as it is, which the interpreter may tell as a source: then sources aren't compared.
SOURCE_0, SOURCE = re.compile(rb"\x1b&l[^\x1b@-Z]*[a-z+-]?0*[hH]"), re.compile(r" source=[0-9]+")


def said(text, *values):
    """A sequence: what stands after its ESC."""
    return ESC + (text % values).encode("latin-1")


# ---- values: what is mostly said, and what is seldom

# The manual's commands: what stands after ESC, # for a value; the values that are mostly said; those that are seldom said. "" is no value.
# A heading has how often a command of its part is drawn; one that most filters refuse has ! before it, and stands in few jobs.
COMMANDS = """
== Job control 4
 &l#X    1 1 2 3 | 0 99 100 -1 1.5 32767
 &l#S    0 1 2 | 3 -1 1.0
 &a#G    0 1 2 | 3 -1 ""
 &l#T    1 | 0 2
 &l#U    0 36 -180 72 | 12.5 1.2 -0.5 9000
 &l#Z    0 36 -180 72 | 12.5 1.2 -0.5 9000
 &l#H    0 1 2 4 7 | 3 5 6 8 20 -1
 &l#G    1 2 | 0 3 255
 &u#D    300 600 | 96 1200 7200 200 0 97
 #       E | %0A %-12345X
 &l#M    0 1 | 2 4
 *o#M    0 -1 1 | 2
 *r#Q    0 1 | 2
 *o#Q    0 | 1 2
 *o#D    1 | 2 3
 &k#W    0 1 | 2 5 6
!&b#M    5 | 0
!&r#F    1 | 0
== Page control 6
 &l#A    2 2 26 1 3 | 0 6 27 80 81 90 91 100 101 25 999
 &l#P    66 60 70 84 | 0 1 5 200 66.5
 &l#O    0 | 1 2 3 4
 &a#P    0 | 90 180 270 45
 &a#L    0 5 10 | 80 200 -3 2.7
 &a#M    79 80 72 | 10 40 0 200 2
 9       "" | ""
 &l#E    0 0 3 6 | 1 66 200 2.5 -2
 &l#F    60 66 54 | 1 0 200 30.5
 &l#L    0 1 | 2 -1
 &k#H    12 10 6 | 0 7.2 0.4 255 12.345
 &l#C    8 6 12 | 0 7.5 0.16 336 600 8.3333
 &l#D    6 8 12 | 0 1 48 5 16
 &s#C    1 0 | 2 ""
 &k#G    0 1 2 3 | 4 -1
!&k#S    0 | 2 4
== Cursor 5
 &a#C    0 5 10 40 | +3 -2 2.5 500 80
 &a#H    0 720 1440 +72 | -72 10.5 20000 7201
 *p#X    0 300 900 +30 | -30 2390 2400 5000 10.5
 &a#R    0 5 20 | +3 -2 2.5 70 +200
 &a#V    0 720 1440 +72 | -72 10.5 20000 7201
 *p#Y    0 300 900 +30 | -30 3290 3300 5000 10.5
 =       "" | ""
 &f#S    0 1 | 2 -1
== Fonts 5
 (#X     1 | 2 5 0 32767
 )#X     1 | 2 5
 (s#P    0 1 | 2
 (s#H    10 12 | 16.67 0
 (s#V    12 10 | 8.5 0
 (s#S    0 | 1 32
 (s#B    0 | 3 -3
 (s#T    3 4099 | 0 4148 16602
 (#      0N 8U 10U 0U | 1U 19U 7J 0D
 )#      0N 8U | 10U
 (#@     3 | 0 1 2
 )#@     3 | 1
 )s#B    0 | 3
 &d#@    "" | 0
!&d#D    0 | 3
 *c#D    1 | 2 5 32767
 *c#E    65 | 32 255 256
 *c#F    4 5 | 0 1 2 3 6
!*c#R    1 | 0
!*c#S    4 | 1 2
== Macros 1
 &f#Y    1 2 | 0 5 32767
 &f#X    2 3 | 4 5 6 7 8 9 10
== Areas and patterns 4
 *c#A    40 300 | 0 2500 10.5 -30
 *c#B    4 30 | 0 3500 10.5 -30
 *c#H    72 720 | 7.5 0 123
 *c#V    72 24 | 7.5 0 123
 *c#P    0 | 1 2 3 4 5
 *c#G    100 50 | 0 1 2 10 200
!*v#N    0 | 1 2
 *v#O    0 | 1 2
!*v#T    0 | 1 2 3 5
!*p#R    0 | 1
!*c#Q    0 | 2
!*l#O    252 | 0 160
!*l#R    0 | 1
== Rasters 3
 *t#R    300 150 75 100 | 200 600 120 0
 *r#S    160 800 2400 | 0 1 5000 7
 *r#T    20 100 3000 | 0 1
 *r#F    0 3 | 1 2
 *r#A    0 1 | 2 3
 *r#B    "" 0 | 1
 *r#C    "" 0 | 1
 *b#M    0 2 3 | 1 4 5 9
 *b#Y    1 5 30 | 0 3000 5000
 *b#S    0 | 1
!*r#U    1 | -1 3 -3
!*b#V    0 | ""
== Others 0.3
 #       Y Z | z
!*s#T    3 | 7
!*s#M    1 | 2
!*s#X    7 | 9
!&t#P    0 1 | 31
!&c#T    0 | 1 -1
"""

# Lines of @PJL as drivers of real printers send them, and those that matter to no page.
LINES = """
SET COPIES=1
SET COPIES=2
SET QTY=1
SET DUPLEX=ON
SET DUPLEX=OFF
SET BINDING=LONGEDGE
SET BINDING=SHORTEDGE
SET PAPER=LETTER
SET PAPER=A4
SET PAPER=LEGAL
SET PAPER=EXECUTIVE
SET RESOLUTION=600
SET RESOLUTION=300
SET RET=MEDIUM
SET ECONOMODE=OFF
SET ECONOMODE=ON
SET DENSITY=3
SET ORIENTATION=PORTRAIT
SET ORIENTATION=LANDSCAPE
SET FORMLINES=60
SET PITCH=16.66
SET PITCH=10.00
SET PTSIZE=12.00
SET FONTNUMBER=0
SET FONTNUMBER=4
SET FONTSOURCE=I
SET SYMSET=PC8
SET SYMSET=ROMAN8
SET MANUALFEED=OFF
SET MEDIATYPE=PLAIN
SET OUTBIN=UPPER
SET PAGEPROTECT=AUTO
SET JOBNAME="report.doc"
SET USERNAME="anna"
SET HOLD=OFF
SET JOBATTR="JobAcct1=anna"
SET TIMEOUT=30
SET PERSONALITY=PCL
SET LPARM:PCL PITCH=12
SET LPARM:PCL FONTNUMBER=2
SET LPARM:PCL SYMSET=PC8
SET WIDEA4=YES
SET EDGETOEDGE=YES
SET PAPERWIDTH=5950
SET TRAY1=LETTER
SET PROCESSINGACTION=APPEND
SET STRINGCODESET=UTF8
SET IMAGEADAPT=AUTO
SET SMOOTHING=ON
SET BITSPERPIXEL=1
SET RENDERMODE=GRAYSCALE
SET FINISH=NONE
SET INTRAY1=LETTER
SET MIRROR=OFF
SET STAPLE=OFF
COMMENT a word
JOB NAME="report"
JOB
EOJ
EOJ NAME="report"
INFO STATUS
INQUIRE PAPER
ECHO 1
RESET
INITIALIZE
USTATUSOFF
USTATUS JOB=ON
OPMSG DISPLAY=""
RDYMSG DISPLAY="ready"
DEFAULT PAPER=A4
DEFAULT COPIES=2
DEFAULT LPARM:PCL PITCH=12
DMINFO ASCIIHEX="040006020501010301040106"
""".split("\n")[1:-1] + [""]
PLAIN_LINES = """
SET RESOLUTION=600
SET RET=MEDIUM
SET ECONOMODE=OFF
SET DENSITY=3
JOB NAME="report"
COMMENT a word
SET PAGEPROTECT=AUTO
SET USERNAME="anna"
SET COPIES=1
SET DUPLEX=OFF
SET JOBATTR="JobAcct1=anna"
""".split("\n")[1:-1] + [""]
PANELS = ["PAPER=A4", "PAPER=LEGAL", "PAPER=EXECUTIVE", "ORIENTATION=LANDSCAPE", "PITCH=16.66", "FORMLINES=40", "COPIES=2", "DUPLEX=ON",
          "FONTNUMBER=4"]

def families(table):
    """The parts of the table of commands: how often each is drawn, and its commands, which are forms with two lists of values."""
    found = []
    for line in table.strip().split("\n"):
        if line.startswith("=="):
            found.append((float(line.split()[-1]), []))
            continue
        form, values = line[1:].split(maxsplit=1)
        common, seldom = ([value.replace('""', "") for value in part.split()] for part in values.split("|"))
        found[-1][1].append((form, common, seldom, line[0] == "!"))
    return found


FAMILIES = families(COMMANDS)



def command(draw, odd):
    """A command of the manual, with an ordinary value or an odd one."""
    family = draw.choices([family for _, family in FAMILIES], [weight for weight, _ in FAMILIES])[0]
    form, common, seldom, is_rare = draw.choice(family)
    if is_rare and draw.random() < 0.9:
        return command(draw, odd)
    return ESC + form.replace("#", draw.choice(seldom if odd and draw.random() < 0.6 else common)).encode()


# ---- parts: some commands that belong together, as drivers send them

def row_data(draw, method, length, above_is_set):
    """The data of a row of so many bytes at most, by a method, each element whole; now and then one that isn't."""
    content, left = b"", length
    if method == 0:
        return bytes(draw.choices([0, 255, 0x81, 0x3C, draw.randrange(256)], k=draw.randint(0, length)))
    while left > 0 and draw.random() < 0.85:
        if method == 3:
            offset, count = draw.choice([0, 0, 1, 2, 5, 30, 31, 32, 40]), draw.randint(1, 8)
            if offset + count > left:
                break
            content += bytes([32 * (count - 1) + min(offset, 31)]) + (bytes([offset - 31]) if offset >= 31 else b"") + draw.randbytes(count)
            left -= offset + count
        else:
            count = min(draw.choice([1, 2, 3, 8, 20, 100]), left)
            if method == 1:
                content += bytes([count - 1, draw.choice([0, 255, 0x55])])
            elif count > 1 and draw.random() < 0.5:
                content += bytes([257 - count, draw.choice([0, 255, 0x55])])
            else:
                content += bytes([count - 1]) + draw.randbytes(count)
            left -= count
    if draw.random() < 0.0004:
        content += draw.choice([b"\xff", b"\x1f", b"\x1f\xff", b"\x05", b"\x80"])
    return content


def raster(draw, odd):
    """A raster at a place, or where the cursor is."""
    scale = draw.choice([1, 1, 1, 2, 4, 3])
    resolution = 300 // scale
    x, y = draw.choice([0, 0, draw.randint(0, 1200)]), draw.choice([0, draw.randint(0, 2400)])
    length = draw.choice([1, 4, 20, 60, 100]) // scale + 1
    count = draw.choice([1, 3, 16, 40])
    parts = [] if odd and draw.random() < 0.3 else [said("*p%dx%dY", x, y)]
    parts += [said("*t%dR", resolution)]
    if draw.random() < 0.2:
        parts.append(said("*r%dF", draw.choice([0, 3])))
    if draw.random() < 0.25:
        parts.append(said("*r%dS", draw.choice([length * 8, length * 4 + 3, 2400])))
    if draw.random() < 0.15:
        parts.append(said("*r%dT", draw.choice([count, count, count + 9, 1]) if odd else count))
    start = draw.choice([b"0A", b"1A", b"1A"])
    parts.append(ESC + b"*r" + start)
    first = method = draw.choice([0, 0, 2, 3])
    rows = []
    for _ in range(count):
        if draw.random() < 0.08:
            method = draw.choice([0, 1, 2, 3])
            rows.append(said("*b%dM", method))
        rows.append(with_data(b"*b", b"W", row_data(draw, method, length, True)))
        if draw.random() < 0.06:
            rows.append(said("*b%dY", draw.choice([1, 2, 7, 40]) if not odd else draw.choice([0, 1, 3000])))
    parts += [said("*b%dM", first)] if not odd or draw.random() < 0.7 else []
    return b"".join(parts) + b"".join(rows) + draw.choice([b"\x1b*rB", b"\x1b*rC", b"\x1b*rC", b"" if odd else b"\x1b*rB"])


def rectangle(draw, odd):
    place = said("*p%dx%dY", draw.randint(0, 1900), draw.randint(0, 2900)) if not odd or draw.random() < 0.5 else b""
    if draw.random() < 0.3:
        place = said("&a%dh%dV", 24 * draw.randint(0, 150), 24 * draw.randint(0, 200))
    size = draw.choice([said("*c%da%dB", draw.randint(1, 300), draw.randint(1, 90)), said("*c%dh%dV", 24 * draw.randint(1, 60),
                                                                                          24 * draw.randint(1, 20))])
    if odd and draw.random() < 0.5:
        size = said("*c%sa%sB", draw.choice(["0", "7.5", "3000"]), draw.choice(["0", "2.5", "4000"]))
    gray = said("*c%dG", draw.choice([100, 50])) if draw.random() < 0.1 else b""
    return place + gray + size + said("*c%dP", draw.choice([0, 0, 0, 0, 1, 5] if not odd else [0, 0, 1, 1, 5, 2]))


CODES = range(65, 71)


def font(draw, odd, number=1):
    """The header of a soft font with all of its fields, its letters, and its selection."""
    resolution = 600 if odd and draw.random() < 0.2 else 300
    pitch = draw.choice([60, 80, 80, 100, 120]) if not odd else draw.choice([61, 80, 0, 83])
    spacing = draw.choice([0, 1, 1])
    head = bytearray(68 if resolution == 600 or draw.random() < 0.2 else 64)
    head[1], head[2], head[3] = len(head), 20 if len(head) == 68 else 0, draw.choice([0, 1, 1, 2])
    head[7], head[9], head[11] = 16, 20, 20
    head[13], head[14:16], head[16:18], head[18:20] = spacing, (277).to_bytes(2, "big"), pitch.to_bytes(2, "big"), (100).to_bytes(2, "big")
    if len(head) == 68:
        head[64:68] = resolution.to_bytes(2, "big") * 2
    letters = []
    for code in CODES:
        width, height = draw.randint(3, 20), draw.randint(3, 20)
        bits = bytes(draw.choices([0xFF, 0x81, 0x18, 0x3C, 0], k=(width + 7) // 8 * height))
        fields = [draw.choice([0, 0, 1, 2, -1]) if odd else draw.choice([0, 1, 2]), draw.choice([height, height - 4, height]), width,
                  height, draw.choice([4 * (width + 2), 80, pitch])]
        content = bytes([4, 0, 14, 1, 0, 0]) + b"".join(field.to_bytes(2, "big", signed=True) for field in fields) + bits
        if odd and draw.random() < 0.1:
            content = compressed_character(draw)
        letters.append(said("*c%dE", code) + with_data(b"(s", b"W", content))
    return said("*c%dD", number) + with_data(b")s", b"W", bytes(head)) + b"".join(letters)


def words(draw):
    return bytes(draw.choices(list(CODES) * 4 + [32, 32, 32], k=draw.randint(3, 30)))


def text(draw, odd):
    """Lines of text at a place."""
    lines = [words(draw) for _ in range(draw.choice([1, 2, 5, 12]))]
    between = draw.choice([b"\r\n", b"\r\n", b"\r\x1b&a+120V", b"\r\x1b*p+50Y"])
    place = said("*p%dx%dY", draw.choice([0, 150, 300]), draw.choice([150, 300, 900, 1800])) if not odd or draw.random() < 0.6 else b""
    choose = draw.choice([b"", b"\x1b(1X", b"\x1b(1X"])
    return choose + place + between.join(lines) + draw.choice([b"", b"\r\n"])


def moves(draw, odd):
    """A cursor that is moved in some ways, and a mark there."""
    ways = [b"\r\n", b"\r", b"\n", b"\t", b"   ", said("*p+%dX", draw.randint(1, 90)), said("*p+%dY", draw.randint(1, 90)), said("&a+%dH",
        24 * draw.randint(1, 30)), b"\x1b=",
            said("&a+%dV", 24 * draw.randint(1, 30)), said("&a%dC", draw.randint(0, 40)), said("&a%dR", draw.randint(0,
                30)), b"\x1b&f0S", b"\x1b&f1S", b"\x1b&f0S"]
    begin = said("*p%dx%dY", draw.choice([0, 300, 900]), draw.choice([0, 300, 900, 2000]))
    size = said("*c%da%dB", draw.randint(4, 40), draw.randint(4, 40))
    steps = b"".join(draw.choice(ways) for _ in range(draw.randint(1, 4)))
    if odd:
        steps = draw.choice([b"\x0e" + steps + b"\x0f", steps * 20, b"\n" * 70 + steps, b" " * 90 + steps, b"\t" * 12, command(draw, True)
                             + steps])
    return begin + size + steps + b"\x1b*c0P"


def macro(draw, odd):
    """A macro, and some uses of it."""
    number = draw.choice([1, 1, 2])
    inside = b"".join(draw.choice([rectangle, rectangle, raster, moves])(draw, odd and draw.random() < 0.3) for _ in range(draw.randint(1,
        2)))
    if odd:
        inside = draw.choice([inside + command(draw, True), command(draw, True) + inside, inside + b"\f", command(draw, True)])
    use = b"".join(said("*p%dx%dY", draw.randint(0, 1500), draw.randint(0, 2500)) + said("&f%dy%dX", number, draw.choice([2, 3]))
                   for _ in range(draw.randint(1, 3)))
    return said("&f%dy0X", number) + inside + b"\x1b&f1X" + use + draw.choice([b"", b"\x1b&f%dy8X" % number if odd else b""])


def picture_of(draw, odd):
    """What has something to win: rows that repeat, without compression."""
    row = bytes(draw.choices([0, 0, 255, 0x99], k=draw.randint(10, 60)))
    return (said("*p%dx%dY", draw.randint(0, 900), draw.randint(300, 2200)) + b"\x1b*t300R\x1b*r1A" + with_data(b"*b", b"W",
        row) * draw.randint(10, 60)
            + draw.choice([b"\x1b*rB", b"\x1b*rC"]))


PARTS = [(raster, 3), (rectangle, 3), (text, 3), (moves, 2), (macro, 1), (picture_of, 5)]


# ---- pages and jobs: lists of chunks, each of which may be taken away

def settings(draw, odds):
    """What stands before the first page."""
    chunks = []
    if draw.random() < 0.6:
        chunks.append(said("&l%dA", draw.choice([2, 2, 2, 26, 1, 3])))
    if draw.random() < 0.5:
        chunks.append(said("&l%s", draw.choice(["0O", "0o0E", "0E", "0L", "6D", "1X", "0o6d0E", "1x0o0E", "3E", "6d60F"])))
    if draw.random() < 0.25:
        chunks.append(said("&l%dS", draw.choice([0, 1, 1, 2])))
    if draw.random() < 0.1:
        chunks.append(said("&l%dH", draw.choice([1, 2, 4])))
    if draw.random() < 0.15:
        chunks.append(b"\x1b(0N" + draw.choice([b"", b"\x1b(s0p10h12v0s0b3T"]))
    if draw.random() < 0.07:
        chunks.append(said("&u%dD", draw.choice([300, 600])))
    if draw.random() < 0.1:
        chunks.append(said("&k%dG", draw.choice([0, 2])))
    return chunks + [command(draw, True) for _ in range(odds)]


def page(draw, has_font, odd_chance):
    """The chunks of a page."""
    kinds = [(kind, weight) for kind, weight in PARTS if has_font or kind is not text]
    chosen = draw.choices([kind for kind, _ in kinds], [weight for _, weight in kinds], k=draw.choice([1, 2, 3, 5]))
    chunks = []
    for kind in chosen:
        if draw.random() < odd_chance:
            chunks.append(command(draw, True))
        chunks.append(kind(draw, draw.random() < odd_chance))
    return chunks


def lines_of(draw, odd):
    chosen = draw.choices(LINES if odd else PLAIN_LINES, k=draw.randint(0, 3))
    end = draw.choice([b"\r\n", b"\n"])
    enter = b"@PJL ENTER LANGUAGE=PCL" + end if draw.random() < 0.8 else b""
    return b"\x1b%-12345X" + b"".join(b"@PJL" + (b" " if line else b"") + line.encode() + end for line in chosen) + enter


def one_job(draw, odd, odd_chance):
    """The chunks of a job with an end of its own, with something odd as often as said, if at all."""
    chunks = []
    odd_chance = odd_chance if odd else 0
    if draw.random() < 0.4:
        chunks.append(lines_of(draw, draw.random() < 0.4 * odd))
    if draw.random() < 0.8:
        chunks.append(b"\x1bE")
    chunks += settings(draw, int(odd and draw.random() < 0.4))
    has_font = draw.random() < 0.5
    if has_font:
        chunks += [font(draw, draw.random() < odd_chance), b"\x1b(1X"]
        if draw.random() < 0.2:
            chunks += [font(draw, draw.random() < odd_chance, 2), b"\x1b)2X"]
    pages = draw.choice([1, 1, 1, 2, 3, 4])
    for number in range(pages):
        if number:
            again = [said("&l%dA", 2), said("&l%dS", 1), said("&a%dG", draw.randint(0, 2)), said("&l%dH", draw.choice([0, 1])),
                     b"\x1b&l0o0E", b"\x1bE", said("&l%dX", draw.choice([1, 2])),
                     said("&l%dU", draw.choice([36, -36])), said("&l%dZ", draw.choice([36, -36]))]
            chunks.append(b"\f" if draw.random() < 0.9 else b"")
            if odd and draw.random() < 0.3:
                chunks.append(draw.choice(again))
        chunks += page(draw, has_font, odd_chance)
    chunks.append(draw.choice([b"\f", b"", b"\f"]))
    chunks.append(draw.choice([b"\x1bE", b"\x1bE", b"\x1bE", b"" if odd else b"\x1bE", b"\x1b%-12345X", b"\x1bE\x1b%-12345X",
                               b"\x1b&l0H\x1bE", b"\x1bE\x1b%-12345X@PJL EOJ\r\n\x1b%-12345X" if odd else b"\x1bE"]))
    if odd and draw.random() < 0.05:
        chunks.append(command(draw, True))
    return chunks


Made = collections.namedtuple("Made", "before chunks after")


def made(seed, number, odd_chance=CHANCE_ODD):
    """A job as chunks, and what stands before and after it in the stream to the printer."""
    draw = random.Random("%d %d manual" % (seed, number))
    odd = draw.random() < 0.85
    chunks = one_job(draw, odd, odd_chance)
    if draw.random() < 0.12:
        chunks += one_job(draw, odd, odd_chance)
    if draw.random() < 0.03:
        chunks = lines_of_empty_job(draw) + chunks
    before = b"\x1b%%-12345X@PJL DEFAULT %s\r\n" % draw.choice(PANELS).encode() if draw.random() < 0.15 else b""
    after = b"".join([rectangle(draw, False), b"\f", rectangle(draw, False), b"\f\x1bE"]) if draw.random() < 0.3 else b""
    return Made(before, [chunk for chunk in chunks if chunk], after)


def lines_of_empty_job(draw):
    """An exit with lines, and a reset, before a job that begins with an exit."""
    return [lines_of(draw, True), draw.choice([b"\x1bE", b"", b"\x1b&l2A\x1bE"]), lines_of(draw, False)]


# ---- what comes of a job

def difference(asked, before, job, after):
    """The first resolution at which a job is changed and prints otherwise, with what differs; whether it was changed; whether refused."""
    changed, refused, known = False, True, {}

    def painted(content, at):
        if (content, at) not in known:
            known[content, at] = printed(asked.words.render, before + content + after, at)
        return known[content, at]

    for dpi, resolutions in RESOLUTIONS.items():
        status, written, _ = asked.program.run(["shrink", "--dpi", dpi], job)
        if status not in (0, 1):
            return "status %d at %s" % (status, dpi), True, False
        refused = refused and status == 1
        if status == 1 or written == job:
            continue
        changed = True
        for at in resolutions:
            if len(resolutions) > 1 and asked.program.run(["pages", "--dpi", at], job)[0] != 0:
                continue
            came, comes = painted(job, at), painted(written, at)
            if came.sheets != comes.sheets:
                return "%s: %s at %s" % (dpi, "sheets %d and %d" % (len(came.sheets), len(comes.sheets))
                                         if len(came.sheets) != len(comes.sheets) else
                                         "sheet %d" % next(n for n, pair in enumerate(zip(came.sheets, comes.sheets), 1)
                                                           if pair[0] != pair[1]), at), True, False
            asks = [[line if not SOURCE_0.search(job) else SOURCE.sub("", line) for line in each.asked] for each in (came, comes)]
            if asks[0] != asks[1]:
                number, pair = next(each for each in enumerate(zip(*asks), 1) if each[1][0] != each[1][1])
                return "%s: page %d asks %s, then %s" % (dpi, number, *pair), True, False
    return None, changed, refused


SEQUENCE = re.compile(rb"\x1b(?:[0-~]|[!-/][`-~]?(?:[-+]?[0-9.]*[`-~])*[-+]?[0-9.]*[@-^])", re.S)


def split(chunk):
    """The commands of some bytes, each with its data, and text by its bytes."""
    parts, at = [], 0
    while at < len(chunk):
        match = SEQUENCE.match(chunk, at)
        if not match:
            parts.append(chunk[at:at + 1])
            at += 1
            continue
        end = match.end()
        count = re.fullmatch(rb"\x1b(?:\*b|\)s|\(s|&p)(?:[^W]*[a-z])?([0-9]+)[WX]", match.group())
        if count:
            end += int(count.group(1))
        if match.group().endswith(b"%-12345X"):
            while chunk[end:end + 4] == b"@PJL":
                end = chunk.find(b"\n", end) + 1 or len(chunk)
        parts.append(chunk[at:end])
        at = end
    return parts


def lessened(fails, parts, tries):
    """The parts that are needed for the job to fail still: some are taken away, ever fewer, as long as there are tries."""
    size = max(1, len(parts) // 2)
    while size and tries:
        at, taken = 0, False
        while at < len(parts) and tries:
            less = parts[:at] + parts[at + size:]
            tries -= 1
            if fails(less):
                parts, taken = less, True
            else:
                at += size
        size = size if taken and size == 1 else size // 2 if size > 1 else 0
    return parts, tries


def least(asked, job):
    """A smaller job that fails too, with as little as it needs before and after it."""
    def fails(parts):
        return difference(asked, job.before, b"".join(parts), job.after)[0] is not None
    for less in (job._replace(before=b""), job._replace(after=b"")):
        if difference(asked, less.before, b"".join(less.chunks), less.after)[0] is not None:
            job = less
    parts, tries = lessened(fails, job.chunks, 60)
    parts, tries = lessened(fails, [each for part in parts for each in split(part)], 250)
    return job._replace(chunks=parts)


def notation(job):
    """Some bytes in the notation of the tables, with what repeats written once."""
    words_of_it = []
    for part in split(job):
        if part[:1] == b"\x1b":
            match = SEQUENCE.match(part)
            begin, content = (part[:match.end()], part[match.end():]) if match else (part[:1], part[1:])
            words_of_it.append("ESC" + begin[1:].decode("latin-1"))
            if content.startswith(b"@PJL"):
                words_of_it[-1] += "".join("{%s}[%s]" % (line.rstrip(b"\r\n").decode("latin-1"), "0D 0A"
                                                         if line.endswith(b"\r\n") else "0A") for line in content.splitlines(True))
            elif content:
                words_of_it[-1] += "[%s]" % brief(content)
        elif part in b"\t\n\f\r\x0e\x0f" or not 33 <= part[0] < 127 or part in b"[]{}<>*":
            words_of_it.append("[%02X]" % part[0])
        else:
            words_of_it.append(part.decode("latin-1"))
    out, at = [], 0
    while at < len(words_of_it):
        end = at
        while end < len(words_of_it) and words_of_it[end] == words_of_it[at]:
            end += 1
        word = words_of_it[at]
        out.append(word if end - at < 3 or len(word) < 3 else "%d*<%s>" % (end - at, word))
        out += [word] * (end - at - 1) if end - at < 3 or len(word) < 3 else []
        at = end
    return re.sub(r"(?<=\b\w) (?=\w\b)", "", " ".join(out))


def brief(content):
    """Bytes in hexadecimal, with runs written once."""
    found = [match.group() for match in re.finditer(rb"(.)\1*", content, re.S)]
    return " ".join("%d*%02X" % (len(run), run[0]) if len(run) > 2 else " ".join("%02X" % byte for byte in run) for run in found)


def names(job):
    """The names of the commands of a job, for the count at the end: with small numbers' values, without places and data."""
    found = set()
    for part in split(job):
        match = SEQUENCE.match(part)
        if not match:
            found.add("text" if part[0] > 32 else {12: "FF", 10: "LF", 13: "CR", 9: "HT", 32: "space"}.get(part[0], "%02X" % part[0]))
            continue
        if match.group().endswith(b"%-12345X"):
            found.add("exit")
            found.update(re.sub(r"\s*=.*", "=", line.decode("latin-1").strip()) for line in part[match.end():].splitlines()
                         if b"ENTER" not in line)
            continue
        body = match.group()[1:].decode("latin-1")
        prefix = re.match(r"[!-/][`-~]?", body)
        prefix = prefix.group() if prefix else ""
        for value, letter in re.findall(r"([-+]?[0-9.]*)([@-^`-~])", body[len(prefix):]) if prefix else [("", body)]:
            found.add(prefix + letter.upper())
    return found - {"*pX", "*pY", "*tR", "*rA", "*bW", "*rB", "*rC", "*cA", "*cB", "*cP"}


class Asked:
    """What was asked for, with a program of this process."""

    def __init__(self, asked):
        self.words = asked
        self.program = Program(asked.pclmin, tempfile.gettempdir())


def begin(words_of_line):
    global asking
    asking = Asked(words_of_line)


def look(number):
    """How a job comes out, and a line for one that differs, with its commands."""
    job = made(asking.words.seed, number, asking.words.odd)
    if asking.words.alone:
        job = job._replace(before=b"", after=b"")
    whole = b"".join(job.chunks)
    fault, changed, refused = difference(asking, job.before, whole, job.after)
    if fault is None:
        return "refused" if refused else "changed" if changed else "as it came", None, None
    if asking.words.least:
        job = least(asking, job)
        whole = b"".join(job.chunks)
        fault = difference(asking, job.before, whole, job.after)[0] or fault
    name = os.path.join(asking.words.folder, "%d-%d" % (asking.words.seed, number))
    for end, content in (("", whole), (".before", job.before), (".after", job.after)):
        if content:
            with open(name + end + ".pcl", "wb") as out:
                out.write(content)
    line = "job %d: %s" % (number, fault)
    if asking.words.least:
        around = ["%s %s" % (word, notation(content)) for word, content in (("before", job.before), ("after", job.after)) if content]
        line += "\n    job %s" % "\n    ".join([notation(whole)] + around)
    left = names(whole) | {"panel " + re.sub(rb".*DEFAULT |=.*|\s", b"", job.before, flags=re.S).decode() for _ in [0]
                           if job.before} | {"next job" for _ in [0] if job.after}
    return "different", line, " ".join(sorted(left))


def main():
    parser = argparse.ArgumentParser(description=__doc__.split("\n", 1)[0])
    parser.add_argument("pclmin")
    parser.add_argument("render")
    parser.add_argument("count", type=int)
    parser.add_argument("seed", type=int)
    parser.add_argument("--changed", type=int, default=0)
    parser.add_argument("--workers", type=int, default=1)
    parser.add_argument("--least", action="store_true")
    parser.add_argument("--alone", action="store_true")
    parser.add_argument("--odd", type=float, default=CHANCE_ODD)
    parser.add_argument("--folder", default="build/manual")
    parser.add_argument("--only", type=int, action="append")
    asked = parser.parse_args()
    os.makedirs(asked.folder, exist_ok=True)
    outcomes, classes = collections.Counter(), collections.Counter()
    numbers = iter(asked.only or range(asked.count))
    with concurrent.futures.ProcessPoolExecutor(asked.workers, initializer=begin, initargs=[asked]) as pool:
        while True:
            batch = [number for _, number in zip(range(50 * asked.workers), numbers)]
            if not batch or asked.changed and outcomes["changed"] + outcomes["different"] >= asked.changed:
                break
            for outcome, line, left in pool.map(look, batch):
                outcomes[outcome] += 1
                if line:
                    classes[left] += 1
                    print(line, flush=True)
    for left, times in classes.most_common():
        print("%5d with %s" % (times, left))
    print("%d jobs of the seed %d: %s" % (sum(outcomes.values()), asked.seed, ", ".join("%d %s" % (n, it) for it,
                                                                                        n in outcomes.most_common())))
    return 1 if outcomes["different"] else 0


if __name__ == "__main__":
    sys.exit(main())
