#!/usr/bin/env python3
"""Small jobs that printers read otherwise than docs/LANGUAGE.md at first sight, and whether `pclmin shrink` lets them be.

    python3 oracle/printers.py PCLMIN RENDER [WORD..] [--dpi DPI] [--all] [--keep FOLDER] [--workers N]

RENDER is a command in which {dpi}, {job} and {name} stand for a resolution, a job's file and a name, as for sheets.py. A case is a job,
what the printer got before it and what it gets after it. Each job goes through `shrink` at 300, 600 and auto, and then

- where the case says `pass`, it has to come out as it came: printers may differ, or it is for a job that isn't known;
- where it says `print`, the interpreter has to print the same of all three together as without `shrink`: the same sheets, at each
  resolution that counts, and on each the same size, copies, sides and source. It also says a size, copies, a length and a source nowhere
  where the job doesn't: on no more pages, and on no back.

What fails is told in a line each: the case, the resolution, how many bytes came and went, and what prints otherwise. With WORDs only cases
whose names or rows have all of these are tried. `--all` tells of each case, `--keep` writes what was sent to the interpreter into a folder.
The pairs of PAIRS have to be different by `same --asked`. The status is 1 if something fails.
"""

import argparse
import collections
import concurrent.futures
import os
import sys
import tempfile

sys.dont_write_bytecode = True
import reference
from programs import Program
from sheets import printed

Case = collections.namedtuple("Case", "row name must job before after", defaults=("", ""))

# What a site's printer is told at its panel, and how a job that a driver sends begins.
PANEL = "ESC%%-12345X{@PJL DEFAULT %s}[0D 0A]"
SET = "ESC%%-12345X{@PJL SET %s}[0D 0A]{@PJL ENTER LANGUAGE=PCL}[0D 0A]"
# A raster that `shrink` writes in fewer bytes, so that it has something to win, within what all sizes share.
LONG = "ESC*t300R ESC*p600x600Y ESC*r1A 20*<ESC*b20W[10*<FF 81>]> ESC*rC "
BOX = "ESC*c40a20b0P "
# A soft font of 20 dots a letter, proportional or fixed, of the symbol set 8U, and its A, of 16 dots by 16.
HEADER = "ESC)s64W[00 40 00 01 00 00 00 10 00 14 00 14 00 %s 01 15 00 %s 00 50 44*00] "
FONT, WIDE, FIXED, WIDE_FIXED = (HEADER % (spacing, pitch) for spacing in ("01", "00") for pitch in ("50", "C8"))
LETTER = "ESC*c65E ESC(s48W[04 00 0E 01 00 00 00 00 00 0F 00 10 00 10 00 50 8*<FF FF 81 81>] "
SOFT = "ESC*c1D " + FONT + LETTER + "ESC(1X "
# A page of its own, which shows what the job before it left: the place of the cursor, sides, copies, the size.
NEXT = "ESC*p300x300Y " + BOX + "[0C] ESC*p300x300Y " + BOX + "[0C] ESCE"

CASES = []


def row(name):
    """What says a case of this row: its name, `pass` or `print`, the job, and what comes before and after."""
    return lambda *case: CASES.append(Case(name, *case))


add = row("a soft font by ID, then a characteristic of fonts")
for said in ("(s3B", "(s0p10h12v0s0b3T", "(0N", "(8U", "(3@", "(10U", "(s1P", "(s16.66H", "(s1S", "(s4099T"):
    add("text after " + said, "pass", SOFT + "ESC" + said + " ESC*p300x300Y {AAAA} " + LONG)
add("text after )s3B, which is of the other font", "print", SOFT + "ESC)s3B ESC*p300x300Y {AAAA} " + LONG)
add("text after )s3B and SO", "pass", SOFT + "ESC)1X ESC)s3B [0E] ESC*p300x300Y {AAAA} " + LONG)
add("characteristics before the font", "print", "ESC(0N ESC(s0p10h12v0s0b3T " + SOFT + "ESC*p300x300Y {AAAA} " + LONG)
add("characteristics, and the font again", "print", SOFT + "ESC(s3B ESC(1X ESC*p300x300Y {AAAA} " + LONG)
for said in ("(s1P", "(s16.66H", "(s0p16.66h8.5v0s0b0T", "(s20V", "(s0p10h12v0s0b3T", "(0N", "(8U"):
    add("a column after %s, without a font of the job" % said, "print", "ESC%s ESC&a9C ESC*p300Y " % said + BOX + LONG)
    add("spaces after %s, without a font of the job" % said, "print", "ESC%s ESC*p0x300Y 9*[20] " % said + BOX + LONG)
    add("a place after %s, without a font of the job" % said, "print", "ESC%s ESC*p300x300Y " % said + BOX + LONG)
add("characteristics in a job without text", "print", "ESC(0N ESC(s0p10h12v0s0b3T ESC*p300x300Y " + BOX + LONG)
add("a space after characteristics", "pass", SOFT + "ESC(s3B ESC*p300x300Y {    } " + BOX + LONG)
add("columns after a symbol set", "pass", SOFT + "ESC(0D ESC&a9C ESC*p300Y " + BOX + LONG)
add("columns after characteristics", "pass", SOFT + "ESC(s3B ESC&a9C ESC*p300Y " + BOX + LONG)

add = row("a right margin, and an end-of-line wrap")
add("a line past &a10M", "print", SOFT + "ESC&a10M ESC*p0x300Y 40*[41] " + LONG)
add("a line past &a40M", "print", SOFT + "ESC&a40M ESC*p0x300Y 75*[41] " + LONG)
add("a line up to &a40M", "print", SOFT + "ESC&a40M ESC*p0x300Y 5*[41] " + LONG)
add("a rectangle right of &a10M", "print", "ESC&a10M ESC*p900x300Y " + BOX + LONG)
add("a cursor right of &a10M, which is set then", "print", "ESC*p900x300Y ESC&a10M " + BOX + LONG)
add("spaces past &a10M, and a rectangle", "print", "ESC&a10M ESC*p0x300Y 20*[20] " + BOX + LONG)
add("a tab past &a10M, and a rectangle", "print", "ESC&a10M ESC*p0x300Y 3*[09] " + BOX + LONG)
add("&a0M, and a cursor right of it", "print", "ESC&a0M ESC*p900x300Y " + BOX + LONG)
add("a line past &a0M", "print", SOFT + "ESC&a0M ESC*p0x300Y {AA} " + LONG)
add("&a10M said after a line", "print", SOFT + "ESC*p0x300Y 40*[41] ESC&a10M ESC*p0x400Y {AA} " + LONG)
add("&a10M, and a line past it after 9", "print", SOFT + "ESC&a10M ESC9 ESC*p0x300Y 40*[41] " + LONG)
add("&a10M, and a line past it after a reset", "print", "ESC&a10M ESCE " + SOFT + "ESC*p0x300Y 40*[41] " + LONG)
add("&a10M, and a line past it after a size", "print", SOFT + "ESC&a10M ESC&l2A ESC*p0x300Y 40*[41] " + LONG)
add("&a10M, and a character over it", "print", SOFT + "ESC&a10M ESC*p295x300Y A ESC*p900x300Y A " + LONG)
add("&a10M, and a raster over it", "print", "ESC&a10M ESC*p0x300Y ESC*t300R ESC*r1A ESC*b60W[60*F0] ESC*rC " + LONG)
add("&a80M, and a line past it", "print", SOFT + "ESC&a80M ESC*p2300x300Y {AAAA} " + LONG)
add("&a79M, as drivers send it, and a line", "print", SOFT + "ESC&a0l79M ESC*p300x300Y {AAAA} " + LONG)
add("text past the right edge with wrap", "print", SOFT + "ESC&s0C ESC*p2300x300Y 12*[41] " + LONG)
add("spaces past the right edge with wrap", "print", SOFT + "ESC&s0C ESC*p2300x300Y 12*[20] " + BOX + LONG)
add("spaces without a font past the right edge with wrap", "print", "ESC&s0C ESC*p2300x300Y 12*[20] " + BOX + LONG)
add("spaces past the right edge with wrap, and a carriage return", "print", "ESC&s0C ESC*p2300x300Y 12*[20] [0D] " + BOX + LONG)
add("spaces past the right edge without wrap, and a carriage return", "print", "ESC&s1C ESC*p2300x300Y 12*[20] [0D] " + BOX + LONG)
add("wrap said, and no line up to the edge", "print", SOFT + "ESC&s0C ESC*p300x300Y {AAAA} " + LONG)
add("no wrap said, and a line of text", "print", SOFT + "ESC&s1C ESC*p300x300Y {AAAA} " + LONG)

add = row("fonts and macros of the printer's")
KEPT = "ESC*c5D " + WIDE_FIXED + LETTER.replace("8*<FF FF 81 81>", "32*55") + "ESC*c5F "
add("(5X of a font that the job hasn't", "print", SOFT + "ESC(5X ESC*p300x300Y {AAAA} " + LONG, KEPT)
add("(5X, which the job hasn't, and spaces", "print", "ESC(5X ESC*p300x300Y {    } " + BOX + LONG, KEPT)
add("(5X, which the job hasn't, and a column", "print", "ESC(5X ESC&a9C ESC*p300Y " + BOX + LONG, KEPT)
add("(s#W in a font that the job hasn't", "print", "ESC*c5D " + LETTER + "ESC*p300x300Y " + BOX + LONG, KEPT, "ESC(5X "
    + "ESC*p300x300Y AA ESCE")
add(")s#W over a font of the printer's", "print", "ESC*c5D " + FONT + LETTER + "ESC(5X ESC*p300x300Y {AAAA} " + LONG + "ESCE", KEPT,
    "ESC(5X ESC*p300x300Y {AAAA} ESCE")
MACRO = "ESC&f5y0X ESC*c200a9b0P ESC&f1X "
add("&f0X over a macro of the printer's", "print", "ESC&f5y0X " + BOX + "ESC&f1X ESC*p300x300Y ESC&f5y3X " + LONG + "ESCE", MACRO
    + "ESC&f10X ",
    "ESC*p300x300Y ESC&f5y3X ESCE")
add("&f2X of a macro that the job hasn't", "print", "ESC*p300x300Y ESC&f5y2X " + LONG, MACRO + "ESC&f10X ")

add = row("paper that the job doesn't say")
MOVED = "ESC*p300x3000Y 20*[0A] " + BOX
PAPERS = ("A4", "LEGAL", "A3", "EXECUTIVE", "LEDGER")
for paper in PAPERS:
    said = SET % ("PAPER=" + paper)
    add("set to %s, and ink low on it" % paper, "print", said + "ESC&l0E ESC*p300x3400Y " + BOX + LONG)
    add("set to %s, and line feeds past an edge" % paper, "print", said + MOVED + LONG)
    add("set to %s, and a cursor that an edge stops" % paper, "print", said + "ESC*p9000x300Y ESC*p-300X " + BOX + LONG)
    add("set to %s, and ink that all share" % paper, "print", said + "ESC*p300x300Y " + BOX + LONG)
    add("%s at the panel, and ink low on it" % paper, "print", "ESC&l0E ESC*p300x3400Y " + BOX + LONG, PANEL % ("PAPER=" + paper))
    add("%s at the panel, and line feeds past an edge" % paper, "print", MOVED + LONG, PANEL % ("PAPER=" + paper))
    add("%s at the panel, and ink that all share" % paper, "print", "ESCE ESC*p300x300Y " + BOX + LONG + "ESCE", PANEL % ("PAPER=" + paper))
    add("%s at the panel, and two such pages" % paper, "print", "ESC*p300x300Y " + BOX + LONG + "[0C] ESC*p300x300Y " + BOX + LONG + "[0C]",
        PANEL % ("PAPER=" + paper))
    add("%s at the panel, and a size that the job says" % paper, "print", "ESCE ESC&l2A ESC*p300x300Y " + BOX + LONG + "ESCE",
        PANEL % ("PAPER=" + paper))
add("default PAPER=A4 in the job, and ink low on it", "print", PANEL % "PAPER=A4" + "ESCE ESC&l0E ESC*p300x3400Y " + BOX + LONG)
add("A4 at the panel, and line feeds within what all share", "print", "ESC*p300x300Y 20*[0A] " + BOX + LONG, PANEL % "PAPER=A4")
add("PAPERWIDTH and PAPERLENGTH, and ink right on it", "print", SET % "PAPERWIDTH=3600}[0D 0A]{@PJL SET PAPERLENGTH=7200"
    + "ESC*p1300x300Y " + BOX + LONG)
add("a reset after the size, and line feeds", "print", "ESC&l2A ESC*p300x300Y " + BOX + "ESCE " + MOVED + LONG, PANEL % "PAPER=A4")
add = row("the default font by @PJL")
for said in ("PITCH=16.66", "PITCH=20", "FONTNUMBER=4", "PTSIZE=20", "LPARM:PCL PITCH=16.66", "SYMSET=PC8"):
    for what, moves in (("spaces", "9*[20]"), ("a tab", "[09]"), ("a column", "ESC&a9C ESC*p300Y"), ("a left margin", "ESC&a9L ESC*p300Y")):
        add("%s, and %s" % (said, what), "pass" if said == "PTSIZE=20" else "print", SET % said + "ESC*p0x300Y " + moves + " " + BOX + LONG)
add("default PITCH=12 in the job, and spaces", "print", PANEL % "LPARM:PCL PITCH=12" + "ESCE ESC*p0x300Y 9*[20] " + BOX + LONG)
add("FORMLINES=40, and line feeds", "print", SET % "FORMLINES=40" + "ESC*p300x300Y 9*[0A] " + BOX + LONG)
add("PITCH=16.66, and no column", "print", SET % "PITCH=16.66" + "ESC*p300x300Y " + BOX + LONG)
add = row("sizes in duplex")
FRONT, BACK = "ESC*p300x300Y " + BOX + LONG, "ESC*p500x500Y " + BOX + LONG
add("a size on fronts alone", "print", "ESC&l1S ESC&l2A " + FRONT + "[0C] " + BACK + "[0C] ESC&l2A " + FRONT + "[0C] " + BACK + "[0C] ESCE")
add("a size on fronts alone, A4", "print", "ESC&l1S ESC&l26A " + FRONT + "[0C] " + BACK + "[0C] ESC&l26A " + FRONT + "[0C] " + BACK
    + "[0C] ESCE")
add("a size and a source on fronts alone", "print", ("ESC&l1S " + "ESC&l2a1H " + FRONT + "[0C] " + BACK + "[0C] ") * 3 + "ESCE")
add("a size once, and four pages", "print", "ESC&l1S ESC&l2A " + (FRONT + "[0C] " + BACK + "[0C] ") * 2 + "ESCE")
add("a size once, and three pages without duplex", "print", "ESC&l2A " + (FRONT + "[0C] ") * 3 + "ESCE")
add("copies once, and three pages", "print", "ESC&l2x2A " + (FRONT + "[0C] ") * 3 + "ESCE")
add("a page length once, and four pages", "print", "ESC&l1S ESC&l66P ESC&l0E " + (FRONT + "[0C] " + BACK + "[0C] ") * 2 + "ESCE")
for said in ("1S", "2S", "0S"):
    add("sides said again before page 2, &l" + said, "print", "ESC&l%s " % said + FRONT + "[0C] ESC&l%s " % said + BACK + "[0C] " + FRONT
        + "ESCE")
add("sides said again on an unmarked first page", "print", "ESC&l1S ESC&l1S " + FRONT + "[0C] " + BACK + "[0C] ESCE")
add("sides said again after a reset", "print", "ESC&l1S " + FRONT + "[0C] " + BACK + "ESCE ESC&l1S " + FRONT + "[0C] " + BACK + "ESCE")
add("&a1G that ejects a marked page", "print", "ESC&l1S " + FRONT + "ESC&a1G " + BACK + "[0C] " + FRONT + "[0C] ESCE")
add("&a2G that ejects a marked page", "print", "ESC&l1S " + FRONT + "ESC&a2G " + BACK + "[0C] " + FRONT + "[0C] ESCE")
add("&a0G that ejects a marked page", "print", "ESC&l1S " + FRONT + "ESC&a0G " + BACK + "[0C] " + FRONT + "[0C] ESCE")
add("&a1G after a form feed", "print", "ESC&l1S " + FRONT + "[0C] ESC&a1G " + BACK + "[0C] " + FRONT + "[0C] ESCE")
add("&a2G after a form feed", "print", "ESC&l1S " + FRONT + "[0C] ESC&a2G " + BACK + "[0C] " + FRONT + "[0C] ESCE")
add("&l0H that ejects a marked page", "print", "ESC&l1S " + FRONT + "ESC&l0H " + BACK + "[0C] " + FRONT + "[0C] ESCE")
add("&l0H that ejects the last page", "print", "ESC&l2A " + FRONT + "[0C] " + BACK + "ESC&l0H ESCE")
add("&a1G that ejects a marked page, and an offset after it", "print", "ESC&l1S " + FRONT + "ESC&a1G ESC&l36U " + BACK + "[0C] " + FRONT
    + "[0C] ESCE")
add("&l0H that ejects a marked page, and an offset after it", "print", "ESC&l1S " + FRONT + "ESC&l0H ESC&l36U " + BACK + "[0C] " + FRONT
    + "[0C] ESCE")
add("&l1H that ejects a marked page, and an offset after it", "print", "ESC&l1S " + FRONT + "ESC&l1H ESC&l36U " + BACK + "[0C] " + FRONT
    + "[0C] ESCE")
add("FF in a called macro", "print", "ESC&f1y0X [0C] ESC&f1X ESC&l1S " + FRONT + "ESC&f3X " + BACK + "[0C] " + FRONT + "[0C] ESCE")
add("FF in an executed macro", "print", "ESC&f1y0X [0C] ESC&f1X ESC&l1S " + FRONT + "ESC&f2X " + BACK + "[0C] " + FRONT + "[0C] ESCE")
add("DUPLEX by @PJL, and a size once", "print", SET % "DUPLEX=ON" + "ESCE ESC&l2A " + (FRONT + "[0C] " + BACK + "[0C] ") * 2 + "ESCE")
add("DUPLEX by @PJL, and FF in a called macro", "print", SET % "DUPLEX=ON" + "ESC&f1y0X [0C] ESC&f1X " + FRONT + "ESC&f3X " + BACK
    + "[0C] " + FRONT + "ESCE")
add("DUPLEX by @PJL, and &a1G that ejects a marked page", "print", SET % "DUPLEX=ON" + FRONT + "ESC&a1G " + BACK + "[0C] " + FRONT + "ESCE")

add = row("an orientation that is said")
LANDSCAPE = PANEL % "ORIENTATION=LANDSCAPE"
add("&l0O at a panel of landscape", "print", "ESC&l0O ESC*p300x300Y " + BOX + LONG + "ESCE", LANDSCAPE)
add("a reset and &l0O at a panel of landscape", "print", "ESCE ESC&l2a0o0E ESC*p300x300Y " + BOX + LONG + "ESCE", LANDSCAPE)
add("&l0O on each of two pages", "print", "ESCE ESC&l0O " + FRONT + "[0C] ESC&l0O " + BACK + "[0C] ESCE", LANDSCAPE)
add("&l0O said after ink", "print", "ESC*p300x300Y " + BOX + "ESC&l0O " + LONG + "ESCE", LANDSCAPE)
add("&a0P", "print", "ESC&a0P ESC*p300x300Y " + BOX + LONG)


add = row("what else a panel says")
add("no orientation said at a panel of landscape", "print", "ESCE ESC*p300x300Y " + BOX + LONG + "ESCE", LANDSCAPE)
add("FORMLINES at the panel, and line feeds", "print", "ESCE ESC*p300x300Y 9*[0A] " + BOX + LONG, PANEL % "FORMLINES=40")
add("FORMLINES at the panel, and the first line", "print", "ESCE ESC*p300X " + BOX + LONG, PANEL % "FORMLINES=40")
add("PITCH=16.66 at the panel, and spaces", "print", "ESCE ESC*p0x300Y 9*[20] " + BOX + LONG, PANEL % "PITCH=16.66")
add("COPIES=2 at the panel", "print", "ESCE " + FRONT + "ESCE", PANEL % "COPIES=2")
add("DUPLEX=ON at the panel", "print", "ESCE " + FRONT + "[0C] " + BACK + "ESCE", PANEL % "DUPLEX=ON")

add = row("jobs in turn")
ENTER = "ESC%-12345X{@PJL}[0D 0A]{@PJL ENTER LANGUAGE=PCL}[0D 0A]"
for said in ("COPIES=2", "DUPLEX=ON", "PAPER=A4"):
    add("an empty job of %s before another" % said, "print", SET % said + "ESCE " + ENTER + FRONT + "[0C] " + BACK
        + "[0C] ESCE ESC%-12345X")
    add("an empty job of %s with two resets" % said, "print", SET % said + "ESCE ESCE " + ENTER + FRONT + "[0C] " + BACK
        + "[0C] ESCE ESC%-12345X")
    add("an empty job of %s without a reset" % said, "print", SET % said + ENTER + FRONT + "[0C] " + BACK + "[0C] ESCE ESC%-12345X")
    add("a job of %s, and another" % said, "print", SET % said + "ESCE " + FRONT + "ESCE " + ENTER + FRONT + "[0C] " + BACK
        + "ESCE ESC%-12345X")
    add("a job of %s, and another, without resets" % said, "print", SET % said + FRONT + ENTER + FRONT + "[0C] " + BACK + "ESC%-12345X")
add("a reset between two exits before the first page", "print", "ESC%-12345X{@PJL SET COPIES=2}[0A]ESCE ESC%-12345X " + FRONT)
for said in ("&l1S", "&l26A", "&l2X", "&l1H", "&l3E", "&u600D", "&l8D", "&k2G", "&a9L", "&l36Z", "&l1O", "*t300R", "&a40M", "&s0C"):
    if said != "&l1O":
        add("ESC%s alone" % said, "pass", "ESC" + said, "", NEXT)
        add("a page, and ESC%s without a reset" % said, "print", FRONT + "[0C] ESC" + said, "", "[20 20 0D 0A] " + BOX + NEXT)
add("a page without a reset after it", "print", "ESC&l1S " + FRONT + "[0C]", "", NEXT)
add("a page that the end of the job doesn't eject", "print", "ESCE " + FRONT, "", BOX + "[0C]")
add("a page with a reset before it and after it", "print", "ESCE ESC&l1S " + FRONT + "[0C] ESCE", "", NEXT)
add("a page between exits", "print", ENTER + "ESC&l1S " + FRONT + "[0C] ESC%-12345X", "", NEXT)
add("a macro that the next job runs", "pass", MACRO, "", "ESC*p300x300Y ESC&f5y3X ESCE")
add("a font that the next job selects", "pass", "ESC*c5D " + FONT + LETTER, "", "ESC(5X ESC*p300x300Y {AAAA} ESCE")
add("a page, and a macro that the next job runs", "print", FRONT + "[0C] " + MACRO, "", "ESC*p300x300Y ESC&f5y3X ESCE")
add("a page, and a macro that a reset deletes", "print", MACRO + FRONT + "[0C] ESCE", "", "ESC*p300x300Y ESC&f5y3X ESCE")
add("a job of resets alone", "print", "ESCE ESCE ESCE", "ESC&l1S " + FRONT)
add("no page, copies by @PJL", "pass", SET % "COPIES=2" + "ESCE", "", FRONT)

add = row("margins and lines")
for said in ("&l5E", "&l30F", "&l5e30F"):
    add("&l0C, then " + said, "print", "ESC&l0C ESC%s ESC&a300H " % said + BOX + "ESC&l6D 60*[0A] " + BOX + LONG)
add("&l0C, then &l5E, and a place", "print", "ESC&l0C ESC&l5E ESC*p300x300Y " + BOX + LONG)
add("&l0C, then &l0E, and a place", "print", "ESC&l0C ESC&l0E ESC*p300x300Y " + BOX + LONG)
add("&l0C, then &l30F, and lines of another spacing", "print", "ESC&l0C ESC&l30F ESC&l6D ESC*p300x300Y 9*[0A] " + BOX + LONG)
add("&l0C, and no margin", "print", "ESC&l0C ESC*p300x300Y 9*[0A] " + BOX + LONG)
add("&l0L, and line feeds past the lower edge", "print", "ESC&l0L ESC*p300x3000Y 10*[0A] " + BOX + LONG)
add("&l0L and a top margin, and line feeds past the lower edge", "print", "ESC&l0L ESC&l6E ESC*p300x2900Y 10*[0A] " + BOX + LONG)
add("&l0L, and line feeds above the lower edge", "print", "ESC&l0L ESC*p300x300Y 10*[0A] " + BOX + LONG)
add("&l1L, and line feeds past the text", "print", "ESC&l2a1L ESC*p300x3000Y 10*[0A] " + BOX + LONG)
for size in (1, 3, 26):
    called = "ESC&f1y0X ESC&l%dA ESC&f1X " % size
    add("&l%dA in a called macro" % size, "print", called + "ESC&f1y3X " + FRONT + "[0C] " + BACK + "ESCE")
    add("&l%dA in a called macro, after another size" % size, "print", called + "ESC&l2A ESC&f1y3X " + FRONT + "[0C] " + BACK + "ESCE")
    add("&l%dA in an executed macro" % size, "print", called + "ESC&f1y2X " + FRONT + "[0C] " + BACK + "ESCE")

add = row("a selected font that goes, or comes anew")
for what in (0, 1, 2):
    deleted = "ESC*c%dF " % what
    add("*c%dF of the selected font, and spaces" % what, "print", SOFT + "ESC*p300x200Y AA ESC*c1D " + deleted + "ESC*p300x300Y {    } "
        + BOX + LONG)
    add("*c%dF of the selected font, and a column" % what, "print", SOFT + "ESC*p300x200Y AA ESC*c1D " + deleted + "ESC&a9C ESC*p300Y "
        + BOX + LONG)
add("*c3F of the selected font, and text", "print", SOFT + "ESC*p300x200Y AA ESC*c1d65e3F ESC*p300x300Y {AAAA} " + BOX + LONG)
add("*c2F of the selected font, and text in another", "print", SOFT + "ESC*p300x200Y AA ESC*c1d2F ESC*c2D " + FONT + LETTER
    + "ESC(2X ESC*p300x300Y {AAAA} "
    + BOX + LONG)
add("a header with another spacing", "print", SOFT + "ESC*p300x200Y AA ESC*c1D " + FIXED + LETTER + "ESC*p300x300Y {AA AA} " + BOX + LONG)
add("a header with another spacing, and text without spaces", "print", SOFT + "ESC*p300x200Y AA ESC*c1D " + FIXED + LETTER
    + "ESC*p300x300Y {AAAA} " + BOX + LONG)
add("a header with another spacing, and text on another line", "print", SOFT + "ESC*p300x200Y AA ESC*c1D " + WIDE_FIXED + LETTER
    + "ESC*p300x300Y {AAAA} " + LONG)
add("a header with another pitch, and text without spaces", "print", SOFT + "ESC*p300x200Y AA ESC*c1D " + WIDE + LETTER
    + "ESC*p300x300Y {AAAA} " + BOX + LONG)
add("a header with the same spacing and pitch", "print", SOFT + "ESC*p300x200Y AA ESC*c1D " + FONT + LETTER + "ESC*p300x300Y {AA AA} "
    + BOX + LONG)
add("a header with another pitch, and spaces", "print", SOFT + "ESC*p300x200Y AA ESC*c1D " + WIDE + LETTER + "ESC*p300x300Y {AA AA} "
    + BOX + LONG)
add("a header with another pitch, and a column", "print", SOFT + "ESC*p300x200Y AA ESC*c1D " + WIDE + LETTER + "ESC&a9C ESC*p300Y " + BOX
    + LONG)
add("a header with another pitch, selected again", "print", SOFT + "ESC*p300x200Y AA ESC*c1D " + WIDE + LETTER
    + "ESC(1X ESC*p300x300Y {AA AA} " + BOX + LONG)
add("a header of another fixed pitch, and text", "print", SOFT.replace(FONT, FIXED) + "ESC*p300x200Y AA ESC*c1D " + WIDE_FIXED + LETTER
    + "ESC*p300x300Y {AAAA} " + BOX + LONG)

add = row("rows")
START = "ESC*t300R ESC*p300x300Y ESC*r1A "
for data in ("FF", "1F", "1F FF", "FF FF", "1F FF FF"):
    add("method 3 that ends in an offset of 31, [%s]" % data, "pass", START
        + "ESC*b4W[FF 00 FF 00] ESC*b3M ESC*b%dW[%s] ESC*rC " % (len(data.split()), data) + LONG)
    add("method 3 that ends in an offset of 31, [00 AA %s]" % data, "pass",
        START + "ESC*b4W[FF 00 FF 00] ESC*b3M ESC*b%dW[00 AA %s] ESC*b1W[00] ESC*rC " % (2 + len(data.split()), data) + LONG)
add("method 3 that ends in an offset", "print", START + "ESC*b4W[FF 00 FF 00] ESC*b3M ESC*b1W[05] ESC*rC " + LONG)
add("method 3 with fewer new bytes than it says", "print", START + "ESC*b4W[FF 00 FF 00] ESC*b3M ESC*b3W[E0 AA BB] ESC*rC " + LONG)
add("method 2 with fewer bytes than it says", "print", START + "ESC*b2m3W[05 AA BB] ESC*rC " + LONG)
add("method 1 that ends in a count", "print", START + "ESC*b1m3W[05 AA 02] ESC*rC " + LONG)
add("rows skipped past the height, and a rectangle", "print", "ESC*p300x300Y ESC*t300R ESC*r1t1A ESC*b2Y ESC*rC " + BOX + LONG)
add("rows and rows skipped past the height, and a rectangle", "print", "ESC*p300x300Y ESC*t300R ESC*r4t1A ESC*b1W[80] ESC*b9Y ESC*rC "
    + BOX + LONG)
add("rows past the height, and a rectangle", "print", "ESC*p300x300Y ESC*t300R ESC*r1t1A 3*<ESC*b1W[FF]> ESC*rC " + BOX + LONG)
add("rows past the height, and a move", "print", "ESC*p300x300Y ESC*t300R ESC*r1t1A 3*<ESC*b1W[FF]> ESC*rC ESC*p900x900Y " + BOX + LONG)
add("rows skipped past the lower edge, and a rectangle", "print",
    "ESC&l0E ESC*p300x3290Y ESC*t300R ESC*r1A ESC*b1W[80] ESC*b20Y ESC*rC ESC*p-5Y " + BOX + LONG)
add("a raster of 300 whose last row is half below the edge", "print", "ESCE ESC*t300R ESC*r0A ESC*b3112Y ESC*b4W[FF FF FF FF] ESC*rB "
    + LONG + "ESCE")
add("a raster of 300 from the first line to the last row but one", "print",
    "ESCE ESC*t300R ESC*r0A ESC*b3111Y ESC*b4W[FF FF FF FF] ESC*rB " + LONG + "ESCE")
add("rows of a raster by pbmtolj", "print", "ESCE ESC*t300R ESC*r0A 3113*<ESC*b2W[FF FF]> ESC*rB ESCE")

add = row("parts of units")
for said in ("7.5V", "7.5H", "72.3v7.5H"):
    add("*c" + said, "print", "ESC*p300x300Y ESC*c72h72V ESC*c%s ESC*c0P " % said + LONG)
add("*c7.50v, whole", "print", "ESC*p300x300Y ESC*c72h72V ESC*c7.0V ESC*c0P " + LONG)
for said in ("&l180Z", "&l36Z", "&l-180Z", "&l12u24Z"):
    for what in (BOX, "ESC*c41a21b0P "):
        add("%s, and a rectangle of %s" % (said, what[5:11]), "print", "ESC%s ESC*p301x301Y " % said + what + LONG)
add("&l180Z, and a rectangle at the first line", "print", "ESC&l180Z ESC*p300X " + BOX + LONG)
add("&l1.2Z, and a rectangle", "print", "ESC&l1.2Z ESC*p301x301Y " + BOX + LONG)

add = row("values that printers may not know")
TWO = "ESC*p300x300Y " + BOX + "20*[0A] " + BOX + "ESC&a9c9R " + BOX + FRONT + "[0C] " + BACK + "ESCE"
for known, unknown in (("&l1S", ("&l3S", "&l-1S", "&l1.9S", "&l255S")), ("&l2S", ("&l3S", "&l-2S")), ("&l1H", ("&l20H", "&l9H", "&l-4H")),
                       ("&l2X", ("&l3.7X",)), ("&l26A", ("&l2.9A",)), ("&l66P", ("&l0P", "&l300P", "&l-60P")), ("&l36Z", ("&l-0Z",)),
                       ("&l2G", ("&l9G", "&l-1G")), ("&l1M", ("&l9M", "&l-1M")), ("&l6E", ("&l3.9E",)), ("&l60F", ("&l9.9F",)),
                       ("&a9L", ("&a3.9L",)), ("&k0G", ("&k2.9G",))):
    for said in unknown:
        add("%s after %s" % (said, known), "print", "ESC%s ESC%s " % (known, said) + TWO)
for said in ("&l3S", "&l-1S", "&l255H", "&l9G", "&l0P"):
    add("%s alone" % said, "print", "ESC%s " % said + TWO)

# Jobs that print otherwise somewhere, of which `same --asked` has to say so.
PAIRS = [
    ("a setting after the last page", FRONT + "[0C] ESC&l1S", FRONT + "[0C]"),
    ("a setting alone", "ESC&l1S", "ESCE"),
    ("a setting without a reset", "ESC&l1S " + FRONT + "[0C]", "ESC&l1S " + FRONT + "[0C] ESCE"),
    ("a font that the job hasn't", SOFT + "ESC(5X ESC*p300x300Y AA", SOFT + "ESC*p300x300Y AA"),
    ("a character of a font that the job hasn't", "ESC*c5D " + LETTER + FRONT, FRONT),
    ("a macro that stays", MACRO + FRONT + "[0C]", FRONT + "[0C]"),
    ("sides again", "ESC&l1S " + FRONT + "[0C] ESC&l1S " + BACK + "ESCE", "ESC&l1S " + FRONT + "[0C] " + BACK + "ESCE"),
    ("a size again", "ESC&l1S ESC&l2A " + FRONT + "[0C] ESC&l2A " + BACK + "ESCE", "ESC&l1S ESC&l2A " + FRONT + "[0C] " + BACK + "ESCE"),
    ("a source again", "ESC&l1S ESC&l1H " + FRONT + "[0C] ESC&l1H " + BACK + "ESCE", "ESC&l1S ESC&l1H " + FRONT + "[0C] " + BACK + "ESCE"),
    ("a size said or not", "ESC&l2A " + FRONT + "ESCE", FRONT + "ESCE"),
    ("an orientation said or not", "ESC&l0O " + FRONT + "ESCE", FRONT + "ESCE"),
    ("a reset between exits", SET % "COPIES=2" + "ESCE " + ENTER + FRONT + "ESCE", SET % "COPIES=2" + ENTER + FRONT + "ESCE"),
    ("&a1G that ejects, or FF before it", "ESC&l1S " + FRONT + "ESC&a1G " + BACK + "ESCE", "ESC&l1S " + FRONT + "[0C] ESC&a1G " + BACK
     + "ESCE"),
]


def performed(commands, macros, depth=0):
    """The commands that are performed, in order, those of macros in place of what runs them."""
    inside, number = None, 0
    for command in commands:
        value = command.value.whole()
        if command.name == b"&fX" and inside is not None and value == 1:
            macros[number], inside = inside, None
        elif inside is not None:
            inside.append(command)
        elif command.name == b"&fX" and value == 0:
            inside = []
        elif command.name == b"&fX" and value in (2, 3) and depth < 3:
            yield from performed(macros.get(number, []), macros, depth + 1)
        else:
            number = value if command.name == b"&fY" else number
            yield command


def sayings(job):
    """How often a size, copies, a page length and a source are said in a job; one that isn't read says nothing."""
    try:
        commands = reference.read(job, reference.Profile.DRIVERS)
    except reference.Refused:
        return collections.Counter()
    return collections.Counter(command.name for command in performed(commands, {}) if command.name in (b"&lA", b"&lX", b"&lP", b"&lH"))


def others(asked, case, job, written, dpi):
    """What prints otherwise at a resolution, in words, or nothing."""
    before, after = reference.bytes_of(case.before), reference.bytes_of(case.after)
    came, comes = (printed(asked.render, before + each + after, dpi) for each in (job, written))
    if asked.keep:
        for each, end in ((job, "came"), (written, "went")):
            with open(os.path.join(asked.keep, "%s %s %s.pcl" % (case.name.replace("/", "-"), dpi, end)), "wb") as out:
                out.write(before + each + after)
    if came.sheets != comes.sheets:
        return "sheets at %s: %d and %d, %s" % (dpi, len(came.sheets), len(comes.sheets), [number for number, pair in enumerate(
            zip(came.sheets, comes.sheets), 1) if pair[0] != pair[1]])
    if came.asked != comes.asked:
        number, pair = next(each for each in enumerate(zip(came.asked, comes.asked), 1) if each[1][0] != each[1][1])
        return "page %d at %s asks %s, then %s" % (number, dpi, *pair)
    return ""


def faults_of(asked, case):
    """What fails of a case, a line for each resolution, and how it came out at each."""
    job, faults, outcomes = reference.bytes_of(case.job), [], []
    for dpi in asked.dpi:
        status, written, said = asked.program.run(["shrink", "--dpi", dpi], job)
        if status != 0:
            outcomes.append("%s refused" % dpi)
            if status != 1:
                faults.append("%s: status %d, %s" % (dpi, status, said.decode().strip()))
            continue
        if written == job:
            outcomes.append("%s as it came" % dpi)
            continue
        outcomes.append("%s %d to %d" % (dpi, len(job), len(written)))
        found = [fault for fault in (others(asked, case, job, written, at) for at in (["300", "600"] if dpi == "auto" else [dpi])) if fault]
        more = {name.decode(): "%d and %d" % (sayings(job)[name], times) for name, times in sayings(written).items()
                if times > sayings(job)[name]}
        if more and case.must == "print":
            found.append("says more: %s" % more)
        if case.must == "pass" and not found:
            found.append("changed, and prints the same here")
        if found:
            faults.append("%s: %d bytes to %d; %s" % (dpi, len(job), len(written), "; ".join(found)))
    return faults, outcomes


def begin(asked):
    global asking
    asking = asked
    asking.program = Program(asked.pclmin, tempfile.gettempdir())


def look(case):
    return faults_of(asking, case)


def wrong_pairs(asked):
    """Tells which of the pairs are the same by `same --asked`."""
    program, wrong = Program(asked.pclmin, tempfile.gettempdir()), 0
    for name, first, second in PAIRS:
        status, *came = program.asked_same(reference.bytes_of(first), reference.bytes_of(second), "300")
        if status != 1:
            wrong += 1
            print("pair | %s | %s" % (name, b"".join(came).decode().strip()))
    print("%d of %d pairs are the same" % (wrong, len(PAIRS)))
    return wrong


def main():
    words = argparse.ArgumentParser(description=__doc__.split("\n", 1)[0])
    words.add_argument("pclmin")
    words.add_argument("render")
    words.add_argument("words", nargs="*")
    words.add_argument("--dpi", action="append", choices=["300", "600", "auto"])
    words.add_argument("--all", action="store_true")
    words.add_argument("--keep")
    words.add_argument("--workers", type=int, default=1)
    asked = words.parse_args()
    asked.dpi = asked.dpi or ["300", "600", "auto"]
    failed, cases = 0, [case for case in CASES if all(word in case.row + " " + case.name for word in asked.words)]
    with concurrent.futures.ProcessPoolExecutor(asked.workers, initializer=begin, initargs=[asked]) as pool:
        for case, (faults, outcomes) in zip(cases, pool.map(look, cases)):
            failed += bool(faults)
            if faults or asked.all:
                print("%s | %s | %s | %s" % (case.row, case.name, case.must, ", ".join(outcomes)), flush=True)
            for fault in faults:
                print("    " + fault, flush=True)
    print("%d of %d cases fail" % (failed, len(cases)))
    wrong = 0 if asked.words else wrong_pairs(asked)
    return 1 if failed or wrong else 0


if __name__ == "__main__":
    sys.exit(main())
