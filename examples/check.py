#!/usr/bin/env python3
"""Checks a written job by a certificate of format 2, beside images of its pages: python3 check.py OUT CERT PAGE.pbm..

The images are of the pages of the input in order, as raw PBM, from whatever renderer you trust; the resolution is theirs.
Written from docs/OUTPUT.md, docs/CERTIFICATE.md and "Row data" of docs/LANGUAGE.md alone, plainly: a page of text takes a
minute. Prints `proved`, and the copies of each page, which no image shows; or `not proved: ` and why, with status 1.
"""
import re
import struct
import sys

SIZES = {1: (2025, 3150), 2: (2400, 3300), 3: (2400, 4200), 26: (2338, 3507)}
IMAGE = re.compile(rb"P4\s+(?:#.*\s+)*([0-9]+)\s+([0-9]+)\s((?s:.*))")
START = re.compile(rb"\x1b&l([1-9][0-9]?)x(1|2|3|26)a0E\x1b\*p0x0Y\x1b\*t(300|600)R\x1b\*r([1-9][0-9]*)s0A")
PARAMETER = re.compile(rb"(\x1b\*b)?0*([0-9]{0,5})([mMyYW])")
END, RESET = b"\x1b*rC\x0c", b"\x1bE"

def need(holds, why="the text isn't of the grammar"):
    if not holds:
        sys.exit("not proved: " + why)

def take(file, form):
    return struct.unpack(form, file.read(struct.calcsize(form)))

def decode(method, seed, data):
    """What row data make over a seed row, which may be too long. Where the data are cut `next` raises StopIteration."""
    row, data = b"", iter(data)
    for first in data:
        offset, last = (first & 31, first | 224) if method == 3 else (0, 0)
        while last == 255:
            last = next(data)
            offset += last
        if method == 0:
            new = [first]
        elif method == 1 or method == 2 and first > 128:
            new = [next(data)] * (first + 1 if method == 1 else 257 - first)
        else:
            new = [next(data) for _ in range((first >> 5) + 1 if method == 3 else (first + 1) % 129)]
        row += seed[len(row):len(row) + offset] + bytes(new)
    return row + seed[len(row):]

def read_text(text):
    """The copies, the width, the rows, and the length of the body of a page text."""
    start, end = START.match(text), len(text) - len(END)
    need(start and text[start.end():].endswith(END))
    copies, size, dpi, width = map(int, start.groups())
    height, white = SIZES[size][1] * dpi // 300, bytes((width + 7) // 8)
    need(width == SIZES[size][0] * dpi // 300)
    rows, method, inside, at = [], 0, False, start.end()
    while inside or at < end:
        parameter = PARAMETER.match(text, at, end)
        need(parameter and bool(parameter[1]) != inside)
        number, letter, inside, at = int(parameter[2] or 0), parameter[3].lower(), parameter[3].islower(), parameter.end()
        if letter == b"m":
            need(number < 4)
            method = number
        elif letter == b"y":
            need(0 < number <= height - len(rows))
            rows += [white] * number
        else:
            need(number < 65536 and at + number <= end and len(rows) < height)
            rows.append(decode(method, rows[-1] if rows and method == 3 else white, text[at:at + number]))
            need(len(rows[-1]) == len(white) and rows[-1][-1] % (1 << -width % 8) == 0)  # no bit past the width
            at += number
    return copies, width, rows + [white] * (height - len(rows)), end - start.end()

def check_places(method, row, seed, numbers, where):
    """No number of a place is above the cost of an element that agrees with the row, and the number where that stops."""
    # The most new bytes of an element, as they come and of one byte repeated, and its first byte, if any; offsets from 31 on have more.
    most, repeated, head = [(1, 0, 0), (0, 256, 1), (128, 128, 1), (8, 0, 1)][method]
    after = numbers + (0,) * (len(row) + 1 - len(numbers))
    for place, number in enumerate(numbers):
        rest, old = row[place:], seed[place:]
        run = len(rest) - len(rest.lstrip(rest[:1]))
        same = next((k for k in range(len(rest)) if rest[k] != old[k]), 0) if method == 3 else 0
        steps = [2 + stop for stop in after[place + 1:place + 1 + min(run, repeated)]]
        for start in range(place, place + same + 1):
            steps += [head + (start - place + 224) // 255 + count + stop for count, stop in enumerate(after[start + 1:start + 1 + most], 1)]
        need(number <= (0 if rest == old else min(steps)), "Place %s place %d" % (where, place))

def check_page(rows, nodes, lists):
    """No number of a node or of a place is above the cost of a step, and the number where that leads."""
    height, white, run, outside, inside = len(rows), bytes(len(rows[0])), 0, nodes[::2], nodes[1::2]
    either = list(map(min, outside, inside))
    for r in range(height, -1, -1):
        run = run + 1 if r < height and rows[r] == white else 0
        for method, at in enumerate(range(4 * r, 4 * r + 4)):
            where = "row %d method %d" % (r, method)
            steps = [(2 if new else 1) + either[4 * r + new] for new in range(4)]
            for digits in range(1, 5):
                steps.append(digits + 1 + min(either[at + 4:at + 4 * min(run, 10 ** digits - 1) + 1:4], default=inside[at]))
            if r < height:
                check_places(method, rows[r], rows[r - 1] if r and method == 3 else white, lists[at], where)
                sent = lists[at][0] if lists[at] else 0
                steps.append(len(str(sent or "")) + 1 + sent + outside[at + 4])
            need(outside[at] <= (3 + inside[at] if r + run < height else 0), "Edge " + where + " closed")
            need(inside[at] <= min(steps), "Edge " + where + " open")

def main(output, certificate, *images):
    job, cert, copies = open(output, "rb"), open(certificate, "rb"), []
    need(take(cert, ">8sI") == (b"PCLCERT2", len(images)) and job.read(2) == RESET, "frame, or no format 2 for as many pages")
    for page, path in enumerate(images, 1):
        length, height = take(cert, ">IH")
        nodes = take(cert, ">%dI" % (8 * height + 8))
        lists = [take(cert, ">%dH" % take(cert, ">H")) for _ in range(4 * height)]
        count, width, rows, body = read_text(job.read(length))
        image = IMAGE.fullmatch(open(path, "rb").read())
        need(image and [width, len(rows), b"".join(rows)] == [int(image[1]), int(image[2]), image[3]], "page %d: OtherPage" % page)
        need(height == len(rows) and all(numbers[-1:] != (0,) for numbers in lists), "page %d: Rows, or Places" % page)
        check_page(rows, nodes, lists)
        need(body == nodes[0], "page %d: Length" % page)
        copies.append(count)
    need(job.read() == RESET and not cert.read(), "frame, or bytes after the certificate")
    print("proved; copies of each page:", *copies)

if __name__ == "__main__":
    try:
        main(*sys.argv[1:])
    except (struct.error, StopIteration):
        sys.exit("not proved: the certificate, or the data of a row, is cut")
