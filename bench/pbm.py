"""Raw PBM images, as the scripts of this folder read and write them. Read by them; nothing to run."""

import sys


def row_bytes(width):
    return (width + 7) // 8


def read(path):
    """The width, the height, and each row as a number whose highest bit is the left dot."""
    with open(path, "rb") as source:
        magic, size, dots = source.read().split(b"\n", 2)
    width, height = map(int, size.split())
    count = row_bytes(width)
    if magic != b"P4" or len(dots) != count * height:
        sys.exit("%s: no raw PBM" % path)
    pads = 8 * count - width
    rows = [int.from_bytes(dots[y * count:(y + 1) * count], "big") >> pads for y in range(height)]
    return width, height, rows


def packed(bitmap):
    """The rows as bytes, the left dot in the highest bit, the bits past the width clear."""
    width, height, rows = bitmap
    count = row_bytes(width)
    return [(row << (8 * count - width)).to_bytes(count, "big") for row in rows]


def write(path, bitmap):
    with open(path, "wb") as out:
        out.write(b"P4\n%d %d\n" % bitmap[:2])
        out.writelines(packed(bitmap))
