#!/usr/bin/env python3
"""Writes a bitmap as filters of print jobs take it, as one Letter page.

    python3 bench/rasters.py cups|gray|pwg|ps BITMAP DPI [METHOD] > PAGE

The bitmap is a raw PBM.

cups    CUPS raster of version 3, 1 bit a dot, as wide and as high as the bitmap; METHOD is what the page asks for as its
        compression, 0 if not said: rastertohp takes it as the method of row data
gray    the same, 8 bits a dot, 0 black, as large as what Gutenprint can print of the page, 8 by 10 2/3 inches; METHOD is
        what Gutenprint's PPD sets for a resolution
pwg     PWG raster of the whole sheet, 8 bits a dot, 0 black, in runs
ps      PostScript that paints the bitmap an inch from the left and from the upper edge

In the two of a fixed size the bitmap stands in the upper left corner, and what lies outside is left out.
"""

import struct
import sys

sys.dont_write_bytecode = True
import pbm

# color spaces of CUPS: K, where 0 is white, and W and SW, where 0 is black
K, W, SW = 3, 0, 18
LETTER = (612, 792)  # in points
INCH = 72
BYTES = 1796


class Header:
    """A page header of CUPS raster: numbers of four bytes, the highest byte first, at their places."""

    def __init__(self):
        self.bytes = bytearray(BYTES)

    def put(self, place, *numbers):
        struct.pack_into(">%dI" % len(numbers), self.bytes, place, *numbers)

    def put_floats(self, place, *numbers):
        struct.pack_into(">%df" % len(numbers), self.bytes, place, *numbers)

    def put_text(self, place, text):
        self.bytes[place:place + len(text)] = text


def header(width, height, bits, space, dpi, method=0):
    page = Header()
    page.put(276, dpi, dpi)
    page.put(284, 0, 0, *LETTER)  # what can be printed
    page.put(340, 1)  # copies
    page.put(352, *LETTER)
    page.put(372, width, height)
    page.put(384, bits, bits, (width * bits + 7) // 8)
    page.put(400, space, method)
    page.put(420, 1)  # colors
    page.put_floats(428, *LETTER)
    page.put_floats(436, 0, 0, *LETTER)
    page.put_text(1732, b"Letter")
    return page


def grays(bitmap, wide, high):
    """The bitmap in the upper left corner of a white page, a byte a dot."""
    width, height, rows = bitmap
    for y in range(high):
        bits = format(rows[y], "0%db" % width)[:wide] if y < height else ""
        yield bits.translate({48: 255, 49: 0}).encode("latin-1").ljust(wide, b"\xff")


def cups(bitmap, dpi, method):
    width, height, rows = bitmap
    return b"RaS3" + bytes(header(width, height, 1, K, dpi, method).bytes) + b"".join(pbm.packed(bitmap))


def gray(bitmap, dpi, method):
    width, height = 8 * dpi, 32 * dpi // 3
    return b"RaS3" + bytes(header(width, height, 8, W, dpi, method).bytes) + b"".join(grays(bitmap, width, height))


def runs(dots):
    """A row of gray dots: each run is its length less one and its dot, 128 dots at most."""
    place = 0
    while place < len(dots):
        end = place + 1
        while end < len(dots) and end < place + 128 and dots[end] == dots[place]:
            end += 1
        yield bytes((end - place - 1, dots[place]))
        place = end


def pwg(bitmap, dpi, method):
    width, height = 17 * dpi // 2, 11 * dpi
    page = header(width, height, 8, SW, dpi)
    page.put_text(0, b"PwgRaster")
    page.put(452, 1)  # pages
    lines = [b"\0" + b"".join(runs(dots)) for dots in grays(bitmap, width, height)]  # each line stands once
    return b"RaS2" + bytes(page.bytes) + b"".join(lines)


def ps(bitmap, dpi, method):
    width, height, rows = bitmap
    dots = b"".join(pbm.packed(bitmap)).hex()
    lines = ["%!PS", "<< /PageSize [%d %d] >> setpagedevice" % LETTER]
    lines += ["%d %d translate %d %d div dup neg scale" % (INCH, LETTER[1] - INCH, INCH, dpi)]
    lines += ["/row %d string def" % pbm.row_bytes(width)]
    lines += ["%d %d true [1 0 0 1 0 0] { currentfile row readhexstring pop } imagemask" % (width, height)]
    lines += [dots, "showpage", ""]
    return "\n".join(lines).encode()


KINDS = {"cups": cups, "gray": gray, "pwg": pwg, "ps": ps}

if len(sys.argv) not in (4, 5) or sys.argv[1] not in KINDS:
    sys.exit(__doc__)
page = KINDS[sys.argv[1]](pbm.read(sys.argv[2]), int(sys.argv[3]), int((sys.argv + ["0"])[4]))
sys.stdout.buffer.write(page)
