#!/usr/bin/env python3
"""Makes the jobs of the speed comparison.

    python3 bench/make_jobs.py FOLDER

dense-300.pcl   one Letter page of 3300 rows of 300 bytes at 300 dots per inch
dense-600.pcl   one Letter page of 6600 rows of 600 bytes at 600 dots per inch
runs-300.pcl    as dense-300, in method 1: each row is runs of 1 to 8 bytes
packed-300.pcl  as dense-300, in method 2: the same rows, in literals of the runs of one byte and repeats of the others
delta-300.pcl   as dense-300, in method 3: each row changes 1 to 8 bytes at each of some forty places of the row above
scaled-75.pcl   one Letter page of 825 rows of 75 bytes at 75 dots per inch, each dot a square of four by four
text-64.pcl     64 pages at 300 dots per inch that look like pages of text: lines of short inked spans, each row
                sent up to its last inked byte, with blank rows sent as rows of no bytes between and below them
fonts-64.pcl    64 pages of text in six soft fonts, as TeX's dvilj sends it: each character is sent where it comes first,
                words are runs of its codes with moves between them, and a page has some rules

All bytes follow from one number: state = (1664525 * state + 1013904223) mod 2^32, from 1 on, of which each draw
takes the highest bits. Each file begins with the state 1.
"""

import os
import sys


class Numbers:
    """Numbers that look random: the same ones in each run."""

    def __init__(self):
        self.state = 1

    def below(self, limit):
        self.state = (1664525 * self.state + 1013904223) % 2**32
        return self.state * limit >> 32

    def row(self, count):
        return bytes(self.below(256) for _ in range(count))


def head(resolution):
    return b"\x1bE\x1b&l0E\x1b*t%dR" % resolution


PAGE_START = b"\x1b*p0x0Y\x1b*r0A"
PAGE_END = b"\x1b*rC\x0c"
BLANK_ROW = b"\x1b*b0W"


def sent(row):
    return b"\x1b*b%dW" % len(row) + row


def dense(resolution):
    """Random rows over a whole page, at any resolution."""
    numbers = Numbers()
    rows = b"".join(sent(numbers.row(resolution)) for _ in range(11 * resolution))
    return head(resolution) + PAGE_START + rows + PAGE_END + b"\x1bE"


def runs(numbers):
    """The runs of a row of 300 bytes: lengths and bytes."""
    left = 300
    while left > 0:
        length = min(1 + numbers.below(8), left)
        left -= length
        yield length, numbers.below(256)


def in_runs(numbers):
    return b"".join(bytes((length - 1, byte)) for length, byte in runs(numbers))


def packed(numbers):
    data, literal = b"", b""
    for length, byte in runs(numbers):
        if length == 1:
            literal += bytes([byte])
        else:
            data += literal_of(literal) + bytes((257 - length, byte))
            literal = b""
    return data + literal_of(literal)


def literal_of(literal):
    return bytes([len(literal) - 1]) + literal if literal else b""


def delta(numbers):
    data, left = b"", 300
    while left > 0:
        offset, length = numbers.below(7), 1 + numbers.below(8)
        if offset + length > left:
            break
        data += bytes([32 * (length - 1) + offset]) + numbers.row(length)
        left -= offset + length
    return data


def coded(method, row_data):
    """A dense page at 300 dots per inch by one method."""
    numbers = Numbers()
    rows = b"".join(sent(row_data(numbers)) for _ in range(3300))
    return head(300) + PAGE_START + b"\x1b*b%dM" % method + rows + PAGE_END + b"\x1bE"


def text_line(numbers):
    """24 rows of words: each word has a few columns of ink, which most of its rows cross."""
    columns = [0] * 30
    for _ in range(4 + numbers.below(8)):
        columns += [1 + numbers.below(255) for _ in range(3 + numbers.below(12))] + [0, 0]
    for _ in range(24):
        row = bytes(column & numbers.below(256) for column in columns[:300])
        yield sent(row.rstrip(b"\0"))


def text_page(numbers):
    """48 lines, 50 rows apart, and a blank line between paragraphs."""
    rows = [BLANK_ROW] * 300
    while len(rows) < 2700:
        rows += text_line(numbers)
        rows += [BLANK_ROW] * (26 if numbers.below(6) else 76)
    rows += [BLANK_ROW] * (3300 - len(rows))
    return PAGE_START + b"".join(rows) + PAGE_END


def text(pages):
    numbers = Numbers()
    return head(300) + b"".join(text_page(numbers) for _ in range(pages)) + b"\x1bE"


FONTS = 6
ROMAN = range(97, 123)
HEADER = bytes((0, 64, 0, 2, 0, 0, 0, 36, 0, 56, 0, 49, 0, 1, 1, 21, 4)).ljust(48, b"\0") + b" " * 16


class Soft:
    """Soft fonts, and what of them was sent."""

    def __init__(self, numbers):
        self.numbers, self.sent, self.selected = numbers, {}, None

    def select(self, font):
        if font == self.selected:
            return b""
        new = font not in [known for known, _ in self.sent]
        self.selected = font
        return (b"\x1b*c%dD\x1b)s64W%s\x1b*c4F" % (font, HEADER) if new else b"") + b"\x1b(%dX" % font

    def character(self, code):
        """What sends a character, and its advance in dots."""
        if (self.selected, code) in self.sent:
            return b"", self.sent[self.selected, code]
        below = self.numbers.below
        width, height = 14 + below(24), 20 + below(16)
        self.sent[self.selected, code] = width + 2
        numbers = (1, height - below(10), width, height, 4 * (width + 2))
        rows = b"".join(self.numbers.row((width + 7) // 8) for _ in range(height))
        data = bytes((4, 0, 14, 1, 0, 0)) + b"".join(number.to_bytes(2, "big") for number in numbers) + rows
        return b"\x1b*c%dD\x1b*c%dE\x1b(s%dW" % (self.selected, code, len(data)) + data, self.sent[self.selected, code]

    def word(self, font):
        """What sends a word and prints it, and how wide it is."""
        text, head, wide = b"", self.select(font), 0
        for _ in range(2 + self.numbers.below(9)):
            code = ROMAN[self.numbers.below(len(ROMAN))]
            definition, advance = self.character(code)
            head, text, wide = head + definition, text + bytes([code]), wide + advance
        return head + text, wide


def font_page(numbers, fonts):
    """54 lines of words, 55 rows apart, most of a paragraph in one font, and a rule in one line of ten."""
    page = b""
    for line in range(54):
        y, x, font = 150 + 55 * line, 150, 0
        page += b"\x1b*p%dY" % y
        if not numbers.below(10):
            page += b"\x1b*p%dX\x1b*c1900A\x1b*c%dB\x1b*cP" % (x, 1 + numbers.below(4))
            continue
        while x < 2000:
            if not numbers.below(8):
                font = numbers.below(FONTS)
            word, wide = fonts.word(font)
            page += b"\x1b*p%dX" % x + word
            x += wide + 12 + numbers.below(6)
    return page + b"\x0c"


def in_fonts(pages):
    numbers = Numbers()
    fonts = Soft(numbers)
    return b"\x1bE\x1b&l0E\x1b&a0L" + b"".join(font_page(numbers, fonts) for _ in range(pages)) + b"\x1bE"


def jobs():
    yield "dense-300", dense(300)
    yield "dense-600", dense(600)
    yield "runs-300", coded(1, in_runs)
    yield "packed-300", coded(2, packed)
    yield "delta-300", coded(3, delta)
    yield "scaled-75", dense(75)
    yield "text-64", text(64)
    yield "fonts-64", in_fonts(64)


def main(folder):
    os.makedirs(folder, exist_ok=True)
    for name, job in jobs():
        with open(os.path.join(folder, name + ".pcl"), "wb") as out:
            out.write(job)


if len(sys.argv) != 2:
    sys.exit(__doc__)
main(sys.argv[1])
