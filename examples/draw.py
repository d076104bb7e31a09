#!/usr/bin/env python3
"""Draws the sample picture: a boat on a lake at sunrise, as an engraver would, with ink or no ink on each dot.

    python3 examples/draw.py PICTURE.pbm [SMALL.png]

writes the picture as a raw PBM of 1200 by 900 dots, which is four by three inches at 300 dots per inch,
and a half-size grey PNG of it. Python 3.8 or later, and nothing else.

The picture is a list of layers, the front one first. A layer covers a set of places and gives each place that
it covers a tone, from 0 (white) to 1 (black), and a screen: the distance along which engraved lines follow one
another. A place is inked where it lies on a line, and lines are as thick as the tone asks.
"""

import math
import struct
import sys
import zlib

WIDTH, HEIGHT = 1200, 900
MARGIN = 30  # of white paper
LINES = 10.0  # dots from one engraved line to the next
HORIZON = 520
SHORE = 760  # the lower edge of the scene; lettering and ruler stand below
SUN = (790.0, 330.0, 92.0)  # centre and radius


# ---- geometry

def in_polygon(points, x, y):
    """Whether a place lies inside a polygon: a ray to the right crosses its edges an odd number of times."""
    inside = False
    for (ax, ay), (bx, by) in zip(points, points[1:] + points[:1]):
        if (ay > y) != (by > y) and x < ax + (y - ay) * (bx - ax) / (by - ay):
            inside = not inside
    return inside


def to_segment(ax, ay, bx, by, x, y):
    """The distance of a place from a straight stroke."""
    dx, dy = bx - ax, by - ay
    along = max(0.0, min(1.0, ((x - ax) * dx + (y - ay) * dy) / (dx * dx + dy * dy)))
    return math.hypot(x - ax - along * dx, y - ay - along * dy)


def to_arc(cx, cy, radius, start, end, x, y):
    """The distance of a place from a stroke along a circle, between two angles in degrees, clockwise from the right."""
    angle = math.degrees(math.atan2(y - cy, x - cx)) % 360
    if (angle - start) % 360 <= end - start:
        return abs(math.hypot(x - cx, y - cy) - radius)
    ends = [(cx + radius * math.cos(math.radians(a)), cy + radius * math.sin(math.radians(a))) for a in (start, end)]
    return min(math.hypot(x - ex, y - ey) for ex, ey in ends)


# ---- lettering: letters are strokes in a square of side 1 above the line, with stems of height 2

STROKES = {
    "p": [("line", 0, -0.8, 0, 1), ("arc", 0.5, 0.5, 0.5, 0, 359.9)],
    "c": [("arc", 0.5, 0.5, 0.5, 45, 315)],
    "l": [("line", 0, 0, 0, 1.8)],
    "m": [("line", 0, 0, 0, 1), ("arc", 0.32, 0.68, 0.32, 180, 360), ("line", 0.64, 0, 0.64, 0.68),
          ("arc", 0.96, 0.68, 0.32, 180, 360), ("line", 1.28, 0, 1.28, 0.68)],
    "i": [("line", 0, 0, 0, 1), ("line", 0, 1.45, 0, 1.46)],
    "n": [("line", 0, 0, 0, 1), ("arc", 0.4, 0.6, 0.4, 180, 360), ("line", 0.8, 0, 0.8, 0.6)],
    "1": [("line", 0.5, 0, 0.5, 1.6), ("line", 0.5, 1.6, 0.15, 1.25)],
    "2": [("arc", 0.45, 1.15, 0.45, 180, 400), ("line", 0.795, 0.86, 0, 0), ("line", 0, 0, 0.95, 0)],
    "3": [("arc", 0.42, 1.2, 0.4, 190, 450), ("arc", 0.42, 0.4, 0.4, 270, 530)],
}
ADVANCE = {"p": 1.45, "c": 1.3, "l": 0.48, "m": 1.75, "i": 0.48, "n": 1.2, "1": 1.0, "2": 1.3, "3": 1.2}


def lettering(text, left, base, size, pen):
    """Straight and round strokes of a text, in dots, each with the box outside which it inks nothing."""
    strokes = []
    for letter in text:
        for kind, *numbers in STROKES[letter]:
            if kind == "line":
                ax, ay, bx, by = numbers
                shape = (left + ax * size, base - ay * size, left + bx * size, base - by * size)
                box = (min(shape[0], shape[2]), min(shape[1], shape[3]), max(shape[0], shape[2]), max(shape[1], shape[3]))
                strokes.append((box, pen, to_segment, shape))
            else:
                cx, cy, radius, start, end = numbers
                shape = (left + cx * size, base - cy * size, radius * size, start, end)
                box = (shape[0] - shape[2], shape[1] - shape[2], shape[0] + shape[2], shape[1] + shape[2])
                strokes.append((box, pen, to_arc, shape))
        left += ADVANCE[letter] * size
    return strokes


def on_strokes(strokes, x, y):
    return any(
        box[0] - pen <= x <= box[2] + pen and box[1] - pen <= y <= box[3] + pen and distance(*shape, x, y) <= pen
        for box, pen, distance, shape in strokes
    )


WORD = lettering("pclmin", 60, 838, 40, 5.5)
NUMERALS = [stroke for inch in (1, 2, 3) for stroke in lettering(str(inch), 300 * inch + 10, 884, 12, 1.6)]


# ---- the scene: each layer answers None where it covers nothing, else its tone and its screen

def mast_and_hull(x, y):
    if 470 <= x <= 474 and 262 <= y <= 556:
        return 1.0, y
    if in_polygon([(352, 548), (604, 548), (566, 588), (388, 588)], x, y):
        return (0.0 if 556 <= y <= 560 else 1.0), y
    return None


def sails(x, y):
    main = [(480, 270), (480, 534), (600, 534), (560, 440), (520, 350)]
    jib = [(464, 290), (464, 534), (362, 534), (420, 410)]
    for sail, lit in ((main, 0.06), (jib, 0.3)):
        if in_polygon(sail, x, y):
            seam = (y - 270) % 66 < 2
            edge = any(to_segment(*a, *b, x, y) < 2.4 for a, b in zip(sail, sail[1:] + sail[:1]))
            return (1.0 if edge or seam else lit), 0.35 * x + y
    return None


def gulls(x, y):
    for cx, cy, span in ((250, 210, 26), (318, 176, 20), (214, 268, 16), (640, 152, 18)):
        for side in (-1, 1):
            if abs(x - cx) < 2.2 * span and abs(y - cy) < span and to_arc(cx + side * span * 0.8, cy + span * 0.5, span * 0.9, 215, 325, x, y) < 2.2:
                return 1.0, y
    return None


def pines(x, y):
    for foot, base, tall in ((1010, 586, 190), (1068, 596, 240), (1120, 590, 170), (958, 580, 110), (1150, 600, 210)):
        if abs(x - foot) < 5 and base - 20 <= y <= base + 6:
            return 1.0, y
        up = (base - 14 - y) / tall
        if 0 <= up <= 1:
            bough = 1 - (up * 6) % 1  # each of six boughs is widest at its lower end
            if abs(x - foot) <= tall * 0.25 * (1 - up) * (0.45 + 0.55 * bough) + 2:
                return (0.35 if x < foot - tall * 0.1 * (1 - up) else 0.95), x + 0.5 * y
    return None


def bank(x, y):
    if x < 850:
        return None
    rise = math.sqrt((x - 850) / 350)
    top = 622 - 44 * rise + 4 * rise * math.sin(x / 37)
    if top <= y <= 622 + 24 * rise + 7 * rise * math.sin(x / 29):
        return 0.8, y - top + 30 * math.sin(x / 90)
    return None


def near_hills(x, y):
    ridge = 430 + 62 * math.sin(x / 173 + 0.6) + 26 * math.sin(x / 67 + 2.0) + 7 * math.sin(x / 21)
    if ridge <= y < HORIZON:
        return min(0.92, 0.42 + (y - ridge) / 160), (y - ridge) * 0.7 + 0.55 * x
    return None


def far_hills(x, y):
    ridge = 372 + 48 * math.sin(x / 131 + 3.5) + 17 * math.sin(x / 43) + 5 * math.sin(x / 13 + 1)
    if ridge <= y < HORIZON:
        return 0.2 + (y - ridge) / 700, (y - ridge) * 0.9 - 0.4 * x
    return None


def sun(x, y):
    away = math.hypot(x - SUN[0], y - SUN[1])
    if away <= SUN[2]:
        return (1.0 if away > SUN[2] - 3 else 0.0), y
    return None


def sky(x, y):
    if y >= HORIZON:
        return None
    away = math.hypot(x - SUN[0], y - SUN[1])
    ray = 0.5 + 0.5 * math.cos(24 * math.atan2(y - SUN[1], x - SUN[0]))
    return 0.1 + (away / 1000) * (0.16 + 0.5 * ray), away


def lake(x, y):
    if not HORIZON <= y < SHORE:
        return None
    deep = (y - HORIZON) / (SHORE - HORIZON)
    ripple = (1.5 + 3.5 * deep) * math.sin(x / (20 + 40 * deep) + 9 * deep) + 2 * deep * math.sin(x / 31 - 5 * deep)
    tone = 0.42 + 0.2 * math.sin(x / 83 + y / 11) * math.sin(x / 47 - y / 23) + 0.08 * deep
    row = math.floor((y + ripple) / LINES)  # what glitters and what is mirrored is broken up line by line
    if abs(x - SUN[0] - 14 * math.sin(2.3 * row)) < 40 + 110 * deep + 26 * math.sin(5.1 * row):
        tone = 0.14
    elif 588 <= y < 706 and abs(x - 477 - 10 * math.sin(1.9 * row)) < 92 - 62 * (y - 588) / 118 + 12 * math.sin(4.3 * row):
        tone = 0.88
    return tone, y + ripple


LAYERS = [mast_and_hull, sails, gulls, pines, bank, near_hills, far_hills, sun, sky, lake]


def in_scene(x, y):
    for layer in LAYERS:
        covered = layer(x, y)
        if covered is not None:
            tone, screen = covered
            return abs(screen % LINES - LINES / 2) < tone * LINES / 2
    return False


def on_ruler(x, y):
    """A ruler of four inches along the lower edge of the paper, a tick each eighth of an inch."""
    if y >= HEIGHT - 3:
        return True
    tick = (x * 8 // 300) % 8 if x * 8 % 300 < 24 else None
    if tick is None:
        return False
    return y >= HEIGHT - {0: 34, 4: 22}.get(tick, 12 if tick % 2 else 16)


def is_inked(x, y):
    left, right, top = MARGIN, WIDTH - MARGIN, MARGIN
    if left <= x < right and top <= y < SHORE:
        if x < left + 3 or x >= right - 3 or y < top + 3 or y >= SHORE - 3:
            return True
        if x < left + 8 or x >= right - 8 or y < top + 8 or y >= SHORE - 8:
            return False
        return in_scene(x, y)
    if y < SHORE:
        return False
    return on_ruler(x, y) or on_strokes(NUMERALS, x, y) or on_strokes(WORD, x, y)


# ---- files

def pbm(rows):
    """A raw PBM: eight dots to a byte, the left one in the highest bit, 1 is black."""
    packed = bytearray()
    for row in rows:
        for start in range(0, WIDTH, 8):
            packed.append(sum(128 >> bit for bit, inked in enumerate(row[start:start + 8]) if inked))
    return b"P4\n%d %d\n" % (WIDTH, HEIGHT) + packed


def half_size_png(rows):
    """A grey PNG in which each dot stands for two by two of the picture's."""
    lines = bytearray()
    for above, below in zip(rows[::2], rows[1::2]):
        lines.append(0)  # no filter
        for x in range(0, WIDTH, 2):
            lines.append(255 - 255 * (above[x] + above[x + 1] + below[x] + below[x + 1]) // 4)

    def chunk(kind, data):
        return struct.pack(">I", len(data)) + kind + data + struct.pack(">I", zlib.crc32(kind + data))

    header = struct.pack(">IIBBBBB", WIDTH // 2, HEIGHT // 2, 8, 0, 0, 0, 0)
    return b"\x89PNG\r\n\x1a\n" + chunk(b"IHDR", header) + chunk(b"IDAT", zlib.compress(bytes(lines), 9)) + chunk(b"IEND", b"")


def main(paths):
    if len(paths) not in (1, 2):
        sys.exit(__doc__)
    rows = [[is_inked(x, y) for x in range(WIDTH)] for y in range(HEIGHT)]
    with open(paths[0], "wb") as out:
        out.write(pbm(rows))
    if len(paths) == 2:
        with open(paths[1], "wb") as out:
            out.write(half_size_png(rows))


main(sys.argv[1:])
