#!/usr/bin/env python3
"""Checks the tables of whole jobs against a second program that says what a job means.

    python3 oracle/reference.py [--drivers] TABLE..            checks each case
    python3 oracle/reference.py [--drivers] --fill TABLE..     prints the tables with what is expected written into the cases
                                                              that say nothing of it
    python3 oracle/reference.py --pairs TABLE..                checks tables of pairs of jobs (pairs.txt of crates/shrink_cases/data)

With --drivers jobs are read by the drivers' profile, else by the stated one. Of a pair it is checked whether both ask for the same.

The tables are those of crates/job_cases/data; src/table.rt there and crates/case_tables/src/notation.rt tell how
they are written. What a job means is worked out here from docs/LANGUAGE.md, rule by rule, plain and slow, and shares no
line with the product; the bodies that are written are those of least.py. A case that fails is printed with what this program has in place of what is expected,
and the status is then 1.
"""

import enum
import functools
import re
import sys

from least import least_body

ESC = 0x1B

# Size: its number, and its width and height in dots at 300 per inch.
SIZES = {"Executive": (1, 2025, 3150), "Letter": (2, 2400, 3300), "Legal": (3, 2400, 4200), "A4": (26, 2338, 3507)}
SIZE_NAMES = {number: name for name, (number, _, _) in SIZES.items()}

UNITS_OF_MEASURE = {96, 100, 120, 144, 150, 160, 180, 200, 225, 240, 288, 300, 360, 400, 450, 480, 600, 720, 800, 900,
                    1200, 1440, 1800, 2400, 3600, 7200}
LINES_PER_INCH = {1, 2, 3, 4, 6, 8, 12, 16, 24, 48}

WITHOUT_EFFECT = {b"%A", b"&aM", b"&sC", b"&d@", b"*vO", b"*cG"} | {
    bytes([side]) + b"s" + bytes([letter]) for side in b"()" for letter in b"PHVSBT"}

NAMES = WITHOUT_EFFECT | {
    b"E", b"9", b"=", b"%X", b"&lA", b"&lX", b"&lC", b"&lD", b"&lE", b"&lF", b"&lL", b"&lO", b"&lU", b"&lZ", b"&lS", b"&lG", b"&lM", b"&lP", b"&aP", b"&lH",
    b"&aG", b"&uD", b"&kH", b"&kG", b"&aL", b"*pX", b"*pY", b"&aH", b"&aV", b"&aC", b"&aR", b"&fS", b"&fY", b"&fX", b"*cA", b"*cB", b"*cH",
    b"*cV", b"*cP", b"*cD", b"*cE", b"*cF", b")sW", b"(sW", b"(X", b")X", b"&pX", b"*vN", b"*vT", b"*tR", b"*rS", b"*rT", b"*rF", b"*rA", b"*rB", b"*rC", b"*bM", b"*bY", b"*bW"}

# What the drivers' profile has besides: commands that ask the printer, and the seed row source.
DRIVERS_ASKS = {b"&kW", b"*oM", b"*oQ", b"*oD", b"*rQ"}
DRIVERS_NAMES = DRIVERS_ASKS | {b"&lT", b"*bS"}

# Commands with as many bytes of data after them as their values say.
WITH_DATA = {b"*bW", b")sW", b"(sW", b"&pX"}

TEXT = b" "

CONTROL_CODES = {8: "BS", 9: "HT", 10: "LF", 12: "FF", 13: "CR", 14: "SO", 15: "SI"}
MOST_COMMANDS = 100_000_000
MOST_PAGES = 256
MOST_MACROS = 3


class Refused(Exception):
    """A refusal: its kind, its place, and the name of its command."""

    def __str__(self):
        kind, at, name = self.args
        if len(name) == 1 and name[0] in CONTROL_CODES:
            text = CONTROL_CODES[name[0]]
        elif name == TEXT:
            text = "text"
        else:
            text = name.decode("ascii") or "-"
        return "%s at %d %s" % (kind, at, text)


# Reading


class Value:
    """The value of a command: its sign, and its magnitude in ten-thousandths."""

    def __init__(self, sign="", parts=0):
        self.sign, self.parts = sign, parts

    def whole(self):
        return -(self.parts // 10000) if self.sign == "-" else self.parts // 10000

    def times(self, unit):
        return self.parts * unit // 10000


class Command:
    """A command: its place, its name, its value, and its data."""

    def __init__(self, at, name, value=None, data=b""):
        self.at, self.name, self.value, self.data = at, name, value or Value(), data


class Profile(enum.Enum):
    """Which commands there are, and what those of the printer take: the drivers' profile has more names, fonts of format 20, and
    offsets of the page."""

    STATED = enum.auto()
    DRIVERS = enum.auto()


def is_known(name, profile):
    """Whether a name stands in a table of a profile."""
    return (name in NAMES or name in DRIVERS_NAMES and profile is Profile.DRIVERS
            or len(name) == 2 and name[0] in b"()" and 64 <= name[1] <= 94)


def read(job, profile):
    """The commands of a job, or its first fault."""
    commands, at = [], 0
    while at < len(job):
        byte = job[at]
        if byte in (0, 7, 11):
            at += 1
        elif byte == ESC:
            more, at = read_sequence(job, at, profile)
            commands += more
        elif byte in CONTROL_CODES and byte != 8:
            commands.append(Command(at, bytes([byte])))
            at += 1
        elif byte == 8:
            raise Refused("UnsupportedCommand", at, bytes([byte]))
        else:
            end = at
            while end < len(job) and job[end] not in (0, 7, 11, ESC) and job[end] not in CONTROL_CODES:
                end += 1
            commands.append(Command(at, TEXT, data=job[at:end]))
            at = end
    return commands


def read_sequence(job, start, profile):
    """The commands of the sequence at a place, and the place after it."""
    if start + 1 == len(job):
        raise Refused("Truncated", start, b"")
    first = job[start + 1]
    if 48 <= first <= 126:
        if not is_known(bytes([first]), profile):
            raise Refused("UnsupportedCommand", start, bytes([first]))
        return [Command(start, bytes([first]))], start + 2
    if not 33 <= first <= 47:
        raise Refused("BadSequence", start, b"")
    if start + 2 == len(job):
        raise Refused("Truncated", start, bytes([first]))
    if 96 <= job[start + 2] <= 126:
        return read_parameters(job, start, job[start + 1:start + 3], start + 3, profile)
    if first not in b"()%":
        raise Refused("BadSequence", start, bytes([first]))
    return read_parameters(job, start, bytes([first]), start + 2, profile)


def read_parameters(job, start, prefix, at, profile):
    """The commands of the parameters at a place, and the place after the sequence."""
    commands, place = [], start
    while True:
        value, at = read_value(job, at)
        if at == len(job):
            raise Refused("Truncated", place, prefix)
        letter = job[at]
        at += 1
        goes_on = 96 <= letter <= 126 and len(prefix) == 2
        if not goes_on and not 64 <= letter <= 94:
            raise Refused("BadSequence", place, prefix)
        name = prefix + bytes([letter - 32 if goes_on else letter])
        if value.parts > (32767 if value.sign == "-" else 65535) * 10000:
            raise Refused("ValueRange", place, name)
        if not is_known(name, profile):
            raise Refused("UnsupportedCommand", place, name)
        command = Command(place, name, value)
        if name in WITH_DATA:
            at = read_data(job, command, goes_on, at)
        elif name == b"%X" and value.whole() == -12345:
            start_of_lines, at = at, read_lines(job, at)
            command.data = job[start_of_lines:at]
        commands.append(command)
        if not goes_on:
            return commands, at
        place = at


def read_value(job, at):
    """The value field at a place, and the place after it."""
    field = re.compile(rb"([+-]?)([0-9]*)(?:\.([0-9]*))?").match(job, at)
    sign, digits, decimals = field.group(1).decode(), field.group(2), field.group(3) or b""
    return Value(sign, int(digits or b"0") * 10000 + int((decimals + b"0000")[:4])), field.end()


def read_data(job, command, goes_on, at):
    """Gives a command its data; the place after them."""
    count = command.value.whole()
    if count < 0:
        raise Refused("ValueRange", command.at, command.name)
    if goes_on and count > 0:
        raise Refused("BadSequence", command.at, command.name)
    if at + count > len(job):
        raise Refused("Truncated", command.at, command.name)
    command.data = job[at:at + count]
    return at + count


def read_lines(job, at):
    """The place after the lines of a universal exit."""
    while job[at:at + 4] == b"@PJL":
        end = job.find(b"\n", at) + 1 or len(job)
        line = bytes(byte for byte in job[at:end] if byte not in b" \t\r\n").upper()
        if line.startswith(b"@PJLENTERLANGUAGE="):
            if line != b"@PJLENTERLANGUAGE=PCL":
                raise Refused("NotPcl", at, b"%X")
            return end
        at = end
    return at


# Performing


class Page:
    """A page: its size, its copies, and its rows that aren't white, as numbers whose lowest bit is the left dot; and what it is asked
    with beside these."""

    def __init__(self, size, copies, rows, asked=None):
        self.size, self.copies, self.rows = size, copies, {y: row for y, row in rows.items() if row}
        self.asked = asked

    def __eq__(self, other):
        return (self.size, self.copies, self.rows) == (other.size, other.copies, other.rows)


class Raster:
    """A raster that has begun: its corner in dots, its width and height in raster dots, and how far it is."""

    def __init__(self, left, top, width, height, scale):
        self.left, self.top, self.width, self.height, self.scale = left, top, width, height, scale
        self.done, self.seed = 0, bytes((width + 7) // 8)

    def skip(self, count):
        self.done += count
        if self.height is not None:
            self.done = min(self.done, self.height)


class Font:
    """A font: which codes it has, its dots to an inch, its pitch in quarters of them, and its characters by code."""

    def __init__(self, kind, resolution, pitch, is_fixed):
        self.kind, self.resolution, self.pitch, self.is_fixed = kind, resolution, pitch, is_fixed
        self.is_permanent, self.characters = False, {}

    def units(self, quarters):
        """Quarter dots of the font in units."""
        return quarters * (7200 // self.resolution) // 4

    def has(self, code):
        seven = 32 <= code <= 127
        return (seven, seven or code >= 160, True)[self.kind]


class Character:
    """A character: the place of its pattern at the cursor, its advance in quarter dots, and its set bits."""

    def __init__(self, left, top, delta, bits):
        self.left, self.top, self.delta, self.bits = left, top, delta, bits


def font_of(data, dpi, profile):
    """The font that a header defines; None where the data are no header."""
    has_resolution = profile is Profile.DRIVERS and data[2:3] == b"\x14"
    least = 68 if has_resolution else 64
    if len(data) < least:
        return None
    size, pitch, across, down = (int.from_bytes(data[at:at + 2], "big") for at in (0, 16, 64, 66))
    if not has_resolution:
        across = down = 300
    if not least <= size <= len(data) or data[2] != 0 and not has_resolution or data[3] > 2 or data[12] != 0 or data[13] > 1:
        return None
    if across != down or across not in {300, dpi}:
        return None
    return Font(data[3], across, pitch, data[13] == 0)


def plain_bits(data, width, height):
    """The set bits of a pattern whose rows are the data; None where these are too few."""
    in_row = -(-width // 8)
    if len(data) < in_row * height:
        return None
    return [(column, row) for row in range(height) for column in range(width) if data[row * in_row + column // 8] & 0x80 >> column % 8]


def compressed_bits(data, width, height):
    """The set bits of a pattern whose rows are given by runs; None where they aren't all there, go too far or are too many bytes."""
    if -(-width // 8) * height > 65536:
        return None
    values, bits, row = iter(data), [], 0
    while row < height:
        repeats = next(values, None)
        ends = [0]
        while ends[-1] < width:
            run = next(values, None)
            if run is None:
                return None
            ends.append(ends[-1] + run)
        if repeats is None or ends[-1] > width or row + 1 + repeats > height:
            return None
        black = [column for start, end in zip(ends[1::2], ends[2::2]) for column in range(start, end)]
        bits += [(column, row + copy) for copy in range(1 + repeats) for column in black]
        row += 1 + repeats
    return bits


def character_of(data, profile):
    """The character that data define; None where they are none that the profile takes."""
    if len(data) < 16 or (*data[:3], data[4]) != (4, 0, 14, 0):
        return None
    left, top, delta = (int.from_bytes(data[at:at + 2], "big", signed=True) for at in (6, 8, 14))
    width, height = (int.from_bytes(data[at:at + 2], "big") for at in (10, 12))
    if data[3] == 1:
        bits = plain_bits(data[16:], width, height)
    elif data[3] == 2 and profile is Profile.DRIVERS:
        bits = compressed_bits(data[16:], width, height)
    else:
        bits = None
    return None if bits is None else Character(left, top, delta, bits)


class Performer:
    """Performs the commands of a job."""

    def __init__(self, dpi, profile):
        self.dpi, self.dot, self.profile = dpi, 7200 // dpi, profile
        self.pages, self.performed = [], 0
        self.fonts = {}
        # Macros by ID: their commands, and whether they are permanent. The definition that is open: an ID and its commands.
        # How many macros run.
        self.macros, self.definition, self.running = {}, None, 0
        # The universal exits: how many pages were ejected before each, whether a reset stands between the page or the exit before it and
        # itself, and its lines. Whether the job changes what stays in the printer, counts on it, or asks for something on a marked page.
        self.exits, self.counts_whole = [], False
        self.is_reset = False
        # The job separation that was said: once, after the last page.
        self.separation = None
        self.begin()

    def begin(self):
        """The start of a job, and what a reset sets."""
        self.copies, self.pcl_unit, self.hmi, self.vmi = 1, 24, 720, 1200
        self.skips, self.termination = True, 0
        self.stack = []
        self.rectangle = {"width": 0, "height": 0}
        self.offsets = {"left": 0, "top": 0}
        self.resolution, self.raster_width, self.raster_height, self.method = 75, 0, 0, 0
        self.raster = None
        self.font_id, self.code = 0, 0
        self.selected, self.in_use = {"primary": None, "secondary": None}, "primary"
        self.fonts = {number: font for number, font in self.fonts.items() if font.is_permanent}
        self.macro_id = 0
        self.macros = {number: macro for number, macro in self.macros.items() if macro[1]}
        # What was said to the printer, by the command that says it; the side of the sheet, for the next page alone; whether that begins one.
        self.said, self.sheet_side, self.begins_sheet = {}, None, True
        # The size, sides and source that were said since the page before, by their commands; nothing for a page that begins a sheet.
        self.since = {}
        self.set_size("Letter")

    def set_size(self, size):
        self.size = size
        _, width, height = SIZES[size]
        self.width, self.height = 24 * width, 24 * height
        self.top, self.bottom, self.left = 3600, self.height - 3600, 0
        self.x = 0
        self.rows, self.marked = {}, False
        self.to_first_line()

    def to_first_line(self):
        self.move_to(self.x, self.top + 3 * self.vmi // 4)

    def move_to(self, x, y):
        """The cursor goes to a place, held on the page."""
        self.x, self.y = min(max(x, 0), self.width), min(max(y, 0), self.height)

    def eject(self, command):
        if len(self.pages) == MOST_PAGES:
            raise Refused("TooManyPages", command.at, command.name)
        self.counts_whole |= self.separation is not None
        asked = dict(self.said, side=self.sheet_side, begins_sheet=self.begins_sheet, since=self.since)
        self.pages.append(Page(self.size, self.copies, self.rows, asked))
        self.rows, self.marked, self.sheet_side, self.begins_sheet = {}, False, None, False
        self.since, self.is_reset = {}, False
        self.to_first_line()

    def eject_marked(self, command):
        if self.marked:
            self.eject(command)

    def say_between(self, name, value):
        """Keeps what is said between two pages."""
        if not self.begins_sheet:
            self.since[name] = value

    def keep(self, command):
        """Keeps a command for the definition that is open, unless it ends the definition: then it answers True."""
        if command.name in (b"E", b"%X"):
            raise Refused("MacroOpen", command.at, command.name)
        if command.name == b"&fX":
            if command.value.whole() == 1:
                return True
            if command.value.whole() not in (2, 3):
                raise Refused("MacroControl", command.at, command.name)
        self.definition[1].append(command)
        return False

    def run_macro(self, command):
        """Runs the macro of the ID, where it is there: a call puts back what was set before."""
        if self.macro_id not in self.macros:
            self.counts_whole = True
            return
        if self.running == MOST_MACROS:
            raise Refused("MacroDepth", command.at, command.name)
        is_call = command.value.whole() == 3
        saved = {field: getattr(self, field) for field in CALL_RESTORES} if is_call else {}
        saved = {field: dict(value) if isinstance(value, dict) else value for field, value in saved.items()}
        self.running += 1
        for kept in self.macros[self.macro_id][0]:
            self.perform(kept)
        self.running -= 1
        if is_call:
            if self.raster:
                self.end_raster()
            # What was said of the size stays, as the size does.
            for said in ("&lA", "&lP"):
                saved["said"].pop(said, None)
                if said in self.said:
                    saved["said"][said] = self.said[said]
            self.counts_whole |= self.marked and saved["offsets"] != self.offsets
            for field, value in saved.items():
                setattr(self, field, value)

    def perform(self, command):
        if self.definition and not self.keep(command):
            return
        self.performed += 1
        if self.performed > MOST_COMMANDS:
            raise Refused("TooManyCommands", command.at, command.name)
        name = command.name
        if self.raster and name in (b"*tR", b"*rF", b"*rS", b"*rT", b"*rA"):
            return
        if self.raster and name not in (b"*bM", b"*bS", b"*bY", b"*bW"):
            self.end_raster()
        if name in PERFORM:
            PERFORM[name](self, command)

    def end_raster(self):
        raster = self.raster
        self.raster = None
        self.move_to(raster.left * self.dot, (raster.top + raster.done * raster.scale) * self.dot)

    def start_raster(self, left):
        scale = self.dpi // self.resolution
        page_width = self.width // self.dot
        width = self.raster_width or -(-(page_width - left) // scale)
        self.raster = Raster(left, self.y // self.dot, width, self.raster_height or None, scale)

    def row(self, command):
        if not self.raster:
            self.start_raster(0)
        raster = self.raster
        row = bytearray(decoded(self.method, raster.seed, command.data))
        if raster.width % 8:
            row[-1] &= 0xFF00 >> raster.width % 8
        if raster.height is None or raster.done < raster.height:
            top = raster.top + raster.done * raster.scale
            self.ink(line_of(bytes(row), raster.width, raster.scale) << raster.left, top, raster.scale, True)
        self.marked = True
        raster.seed = bytes(row)
        raster.skip(1)

    def fill(self, is_black):
        width, height = (-(-self.rectangle[side] // self.dot) for side in ("width", "height"))
        self.ink((1 << width) - 1 << self.x // self.dot, self.y // self.dot, height, is_black)
        self.marked = True

    def ink(self, line, top, count, is_black):
        """Gives the dots of a line their ink in this many rows, but for what lies off the page."""
        line &= (1 << self.width // self.dot) - 1
        for y in range(top, min(top + count, self.height // self.dot)):
            row = self.rows.get(y, 0)
            self.rows[y] = row | line if is_black else row & ~line

    def print_text(self, command):
        font = self.fonts.get(self.selected[self.in_use])
        for code in command.data:
            if font and font.has(code) and code in font.characters:
                character = font.characters[code]
                self.ink_character(character, self.dpi // font.resolution)
                self.marked = True
                self.move_to(self.x + (self.hmi if font.is_fixed else font.units(character.delta)), self.y)
            elif code == 32:
                self.move_to(self.x + self.hmi, self.y)
            elif not font and code > 32:
                raise Refused("NoFont", command.at, command.name)

    def ink_character(self, character, scale):
        """Inks a square of this many dots for each set bit, where the page has them."""
        for column, row in character.bits:
            for y in range(scale):
                for x in range(scale):
                    at_x = self.x // self.dot + scale * (character.left + column) + x
                    at_y = self.y // self.dot + scale * (row - character.top) + y
                    if at_x >= 0 and at_y >= 0:
                        self.ink(1 << at_x, at_y, 1, True)

    def feed(self, command, units):
        limit = min(self.bottom, self.height) if self.skips else self.height
        if self.y + units > limit:
            self.eject(command)
        else:
            self.move_to(self.x, self.y + units)

    def return_to_margin(self):
        self.move_to(self.left, self.y)

    def tab(self):
        if self.x < self.left:
            self.move_to(self.left, self.y)
        elif self.hmi > 0:
            stop = 8 * self.hmi
            self.move_to(self.left + ((self.x - self.left) // stop + 1) * stop, self.y)

    def move(self, command, axis, unit, first=0):
        """A move by an amount from the cursor, or to a place that counts from `first`."""
        amount = command.value.times(unit)
        x, y = self.x, self.y
        here = x if axis == "x" else y
        there = {"": first + amount, "+": here + amount, "-": here - amount}[command.value.sign]
        self.move_to(*((there, y) if axis == "x" else (x, there)))


@functools.lru_cache(maxsize=64)
def line_of(row, width, scale):
    """The dots that the set bits of a row ink, from the raster's left edge on."""
    line = 0
    for bit in range(width):
        if row[bit // 8] & 0x80 >> bit % 8:
            line |= (1 << scale) - 1 << bit * scale
    return line


def decoded(method, seed, data):
    """The bytes of a row from its data."""
    row = bytearray(seed if method == 3 else len(seed))
    place, at = 0, 0

    def put(new):
        nonlocal place
        for byte in new:
            if place < len(row):
                row[place] = byte
            place += 1

    while at < len(data):
        control = data[at]
        at += 1
        if method == 0:
            put([control])
        elif method == 1:
            put(data[at:at + 1] * (control + 1))
            at += 1
        elif method == 2 and control < 128:
            put(data[at:at + control + 1])
            at += control + 1
        elif method == 2 and control > 128:
            put(data[at:at + 1] * (257 - control))
            at += 1
        elif method == 3:
            place += control & 31
            more = control & 31 == 31
            while more and at < len(data):
                place += data[at]
                more = data[at] == 255
                at += 1
            put(data[at:at + (control >> 5) + 1])
            at += (control >> 5) + 1
    return bytes(row)


def refuse(command):
    raise Refused("UnsupportedValue", command.at, command.name)


def taking(values, act):
    """Does something with the whole part of the value, which has to be one of some."""
    def perform(performer, command):
        whole = command.value.whole()
        if whole not in values:
            refuse(command)
        act(performer, whole)
    return perform


def setting(field, values):
    """Sets a field to the whole part of the value."""
    return taking(values, lambda performer, whole: setattr(performer, field, whole))


def from_zero(act):
    """Does something with the value, whose whole part has to be 0 or more."""
    def perform(performer, command):
        if command.value.whole() < 0:
            refuse(command)
        act(performer, command.value)
    return perform


def nothing(performer, whole):
    pass


def page_size(performer, command):
    size = SIZE_NAMES.get(command.value.whole())
    if size is None:
        refuse(command)
    performer.eject_marked(command)
    performer.set_size(size)
    performer.said.pop("&lP", None)
    performer.said["&lA"] = size
    performer.say_between("&lA", size)


def offset(side):
    """Sets an offset, in ten-thousandths of a decipoint. A marked page keeps its own."""
    def perform(performer, command):
        value = command.value
        said = 0 if value.whole() == 0 else -value.parts if value.sign == "-" else value.parts
        if performer.profile is Profile.STATED:
            is_taken = said == 0
        else:
            is_taken = not performer.marked or said == performer.offsets[side]
        if not is_taken:
            refuse(command)
        performer.offsets[side] = performer.said[command.name.decode()] = said
    return perform


def asking(performer, command):
    """Says something to the printer."""
    performer.counts_whole |= performer.marked and command.name != b"&lG"
    performer.said[command.name.decode()] = command.value.whole()
    if command.name == b"&lS":
        performer.say_between("&lS", command.value.whole())


def orientation(performer, command):
    if command.value.whole() != 0:
        refuse(command)
    asking(performer, command)


def job_separation(performer, command):
    """Separates the job from the next one, where a page stands between it and a reset before it, and none after it."""
    performer.counts_whole |= performer.marked or performer.begins_sheet or performer.separation is not None
    performer.separation = command.value.whole()


def page_length(performer, command):
    performer.said["&lP"] = command.value.whole() * performer.vmi


def copies(performer, whole):
    performer.copies = performer.said["&lX"] = whole


def paper_source(performer, command):
    performer.eject_marked(command)
    if command.value.whole() != 0:
        performer.said["&lH"] = command.value.whole()
        performer.say_between("&lH", command.value.whole())


def side_of_sheet(performer, command):
    performer.eject_marked(command)
    performer.sheet_side = command.value.whole()


def reset(performer, command):
    if command.name == b"%X" and command.value.whole() != -12345:
        refuse(command)
    performer.eject_marked(command)
    if command.name == b"%X":
        performer.exits.append((len(performer.pages), performer.is_reset, command.data))
    performer.is_reset = command.name == b"E"
    performer.begin()


def top_margin(performer, value):
    top = value.whole() * performer.vmi
    if top > performer.height:
        return
    performer.top, performer.bottom = top, performer.height - 3600
    if not performer.marked:
        performer.to_first_line()


def text_length(performer, command):
    if command.value.whole() < 1:
        refuse(command)
    bottom = performer.top + command.value.whole() * performer.vmi
    if bottom <= performer.height:
        performer.bottom = bottom


def left_margin(performer, value):
    left = value.whole() * performer.hmi
    if left < performer.width:
        performer.left = left
        performer.move_to(max(performer.x, left), performer.y)


def cursor_stack(performer, whole):
    if whole == 0 and len(performer.stack) < 20:
        performer.stack.append((performer.x, performer.y))
    elif whole == 1 and performer.stack:
        performer.move_to(*performer.stack.pop())


def resolution(performer, command):
    taken = (75, 100, 150, 300) if performer.dpi == 300 else (75, 100, 150, 200, 300, 600)
    if command.value.whole() not in taken:
        refuse(command)
    performer.resolution = command.value.whole()


def start(performer, whole):
    performer.start_raster(performer.x // performer.dot if whole == 1 else 0)


def skip_rows(performer, value):
    if performer.raster:
        performer.raster.skip(value.whole())
        performer.raster.seed = bytes(len(performer.raster.seed))


def side(name, unit):
    """Sets a side of the rectangle in a unit."""
    return from_zero(lambda p, value: p.rectangle.__setitem__(name, value.times(unit(p))))


def font_control(performer, what):
    fonts, number = performer.fonts, performer.font_id
    performer.counts_whole |= what == 0 or what > 1 and number not in fonts
    if what == 0:
        fonts.clear()
    elif what == 1:
        performer.fonts = {one: font for one, font in fonts.items() if font.is_permanent}
    elif what == 2:
        fonts.pop(number, None)
    elif number in fonts and what == 3:
        fonts[number].characters.pop(performer.code, None)
    elif number in fonts:
        fonts[number].is_permanent = what == 5


def macro_control(performer, command):
    what, number, macros = command.value.whole(), performer.macro_id, performer.macros
    if what not in (0, 1, 2, 3, 6, 7, 8, 9, 10):
        refuse(command)
    performer.counts_whole |= what == 6 or what > 7 and number not in macros
    if what == 0:
        performer.definition = (number, [])
    elif what == 1:
        if not performer.definition:
            raise Refused("MacroControl", command.at, command.name)
        macros[performer.definition[0]] = (performer.definition[1], False)
        performer.definition = None
    elif what in (2, 3):
        performer.run_macro(command)
    elif what == 6:
        macros.clear()
    elif what == 7:
        performer.macros = {one: macro for one, macro in macros.items() if macro[1]}
    elif what == 8:
        macros.pop(number, None)
    elif number in macros:
        macros[number] = (macros[number][0], what == 10)


def download_font(performer, command):
    if command.data:
        font = font_of(command.data, performer.dpi, performer.profile)
        if not font:
            raise Refused("FontHeader", command.at, command.name)
        performer.fonts[performer.font_id] = font


def download_character(performer, command):
    if command.data and performer.font_id in performer.fonts:
        character = character_of(command.data, performer.profile)
        if not character:
            raise Refused("CharacterData", command.at, command.name)
        performer.fonts[performer.font_id].characters[performer.code] = character


def select_font(which):
    """Selects a font by its ID, where it is there."""
    def perform(performer, value):
        if value.whole() in performer.fonts:
            performer.selected[which] = value.whole()
            font = performer.fonts[value.whole()]
            performer.hmi = font.units(font.pitch)
    return from_zero(perform)


def carriage_return(performer, command):
    performer.return_to_margin()
    if performer.termination in (1, 3):
        performer.feed(command, performer.vmi)


def line_feed(performer, command):
    if performer.termination in (2, 3):
        performer.return_to_margin()
    performer.feed(command, performer.vmi)


def form_feed(performer, command):
    if performer.termination in (2, 3):
        performer.return_to_margin()
    performer.eject(command)


def end_raster(performer, command):
    if command.name == b"*rC":
        performer.method = 0


ANY_FROM_ZERO = range(65536)

# All that is set, but for the page size, the cursor and its stack; of what was said the page size and the page length stay.
CALL_RESTORES = ("copies", "pcl_unit", "hmi", "vmi", "top", "bottom", "left", "skips", "termination", "macro_id", "font_id", "code",
                 "selected", "in_use", "rectangle", "offsets", "said", "resolution", "raster_width", "raster_height", "method")

PERFORM = {
    b"E": reset, b"%X": reset,
    b"9": lambda p, c: setattr(p, "left", 0),
    b"=": lambda p, c: p.feed(c, p.vmi // 2),
    b"\t": lambda p, c: p.tab(),
    b"\n": line_feed, b"\f": form_feed, b"\r": carriage_return,
    b"\x0e": lambda p, c: setattr(p, "in_use", "secondary"), b"\x0f": lambda p, c: setattr(p, "in_use", "primary"),
    TEXT: Performer.print_text, b"&pX": Performer.print_text,
    b"*cD": setting("font_id", range(32768)), b"*cE": setting("code", range(256)),
    b"*cF": taking(range(6), font_control),
    b")sW": download_font, b"(sW": download_character,
    b"(X": select_font("primary"), b")X": select_font("secondary"),
    b"&lA": page_size,
    b"&lX": taking(range(1, 100), copies),
    b"&lC": from_zero(lambda p, value: setattr(p, "vmi", value.times(150))),
    b"&lD": taking(LINES_PER_INCH, lambda p, whole: setattr(p, "vmi", 7200 // whole)),
    b"&lE": from_zero(top_margin),
    b"&lF": text_length,
    b"&lL": taking({0, 1}, lambda p, whole: setattr(p, "skips", whole == 1)),
    b"&lO": orientation, b"&aP": taking({0}, nothing),
    b"&lU": offset("left"), b"&lZ": offset("top"),
    b"&lH": paper_source, b"&aG": side_of_sheet, b"&lP": page_length,
    **{name: asking for name in DRIVERS_ASKS | {b"&lS", b"&lG", b"&lM"}}, b"&lT": job_separation,
    b"&uD": taking(UNITS_OF_MEASURE, lambda p, whole: setattr(p, "pcl_unit", 7200 // whole)),
    b"&kH": from_zero(lambda p, value: setattr(p, "hmi", value.times(60))),
    b"&kG": setting("termination", range(4)),
    b"&aL": from_zero(left_margin),
    b"*pX": lambda p, c: p.move(c, "x", p.pcl_unit),
    b"*pY": lambda p, c: p.move(c, "y", p.pcl_unit, p.top),
    b"&aH": lambda p, c: p.move(c, "x", 10),
    b"&aV": lambda p, c: p.move(c, "y", 10, p.top),
    b"&aC": lambda p, c: p.move(c, "x", p.hmi),
    b"&aR": lambda p, c: p.move(c, "y", p.vmi, p.top + 3 * p.vmi // 4),
    b"&fS": taking({0, 1}, cursor_stack),
    b"&fY": setting("macro_id", range(32768)), b"&fX": macro_control,
    b"*cA": side("width", lambda p: p.pcl_unit), b"*cB": side("height", lambda p: p.pcl_unit),
    b"*cH": side("width", lambda p: 10), b"*cV": side("height", lambda p: 10),
    b"*cP": taking({0, 1, 5}, lambda p, whole: p.fill(whole != 1)),
    b"*vN": taking({0}, nothing), b"*vT": taking({0}, nothing),
    b"*tR": resolution,
    b"*rS": setting("raster_width", ANY_FROM_ZERO), b"*rT": setting("raster_height", ANY_FROM_ZERO),
    b"*rF": taking({0, 3}, nothing),
    b"*rA": taking({0, 1}, start),
    b"*rB": end_raster, b"*rC": end_raster,
    b"*bM": setting("method", range(4)),
    b"*bS": taking({0}, nothing),
    b"*bY": from_zero(skip_rows),
    b"*bW": lambda p, c: p.row(c),
}


def performed(job, dpi, profile=Profile.STATED):
    """The performer at the end of a job, or its refusal."""
    performer = Performer(dpi, profile)
    for command in read(job, profile):
        performer.perform(command)
    if performer.definition:
        raise Refused("MacroOpen", len(job), b"")
    reset(performer, Command(len(job), b""))
    performer.counts_whole |= bool(performer.fonts or performer.macros)
    return performer


def pages_of(job, dpi, profile=Profile.STATED):
    """The pages of a job, or its refusal."""
    return performed(job, dpi, profile).pages


def exits_of(performer, counts_last):
    """The universal exits that count: a last one after all pages and without lines ends the job, where it doesn't count as any other."""
    ends = not counts_last and [(pages, lines) for pages, _, lines in performer.exits[-1:]] == [(len(performer.pages), b"")]
    return performer.exits[:-1] if ends else performer.exits


def asks_the_same(first, second, dpi, counts_last=False):
    """Whether two jobs have the same pages by the drivers' profile and ask the printer for the same; none where either is refused."""
    try:
        one, other = (performed(job, dpi, Profile.DRIVERS) for job in (first, second))
    except Refused:
        return None
    if first == second:
        return True
    return (not one.counts_whole and not other.counts_whole
            and exits_of(one, counts_last) == exits_of(other, counts_last)
            and (one.separation, one.pages) == (other.separation, other.pages)
            and [page.asked for page in one.pages] == [page.asked for page in other.pages])


# Tables


class Case:
    """A case of a table: its lines, its job, by which profile it is read, and what is expected of it."""

    def __init__(self, name, line, profile):
        self.name, self.line, self.profile = name, line, profile
        self.dpi, self.notation = 300, ""
        self.pages, self.refusal, self.no_page, self.length = [], None, False, None
        self.bodies, self.end = [], line

    def says_nothing(self):
        return not (self.pages or self.refusal or self.no_page)

    def job(self):
        return bytes_of(self.notation)


def bytes_of(notation, in_hex=False):
    """The bytes that a notation stands for."""
    out, open_counts, at = bytearray(), [], 0

    def close(closer):
        count, start, expected = open_counts.pop()
        assert expected == closer, "a repetition isn't closed: %s" % notation
        out.extend(bytes(out[start:]) * (count - 1) if count else b"")
        if not count:
            del out[start:]

    while at < len(notation):
        times = re.compile(r"([0-9]+)\*(?=[<0-9A-F])" if in_hex else r"([0-9]+)\*(?=[<\[])").match(notation, at)
        letter = notation[at]
        if letter == " ":
            at += 1
        elif times:
            opener = notation[times.end()]
            open_counts.append((int(times.group(1)), len(out), {"<": ">", "[": "]"}.get(opener, "")))
            at = times.end() + (opener == "<")
        elif letter == ">":
            close(">")
            at += 1
        elif in_hex and letter == "]":
            in_hex = False
            at += 1
            if open_counts and open_counts[-1][2] == "]":
                close("]")
        elif in_hex:
            out.append(int(notation[at:at + 2], 16))
            at += 2
            if open_counts and open_counts[-1][2] == "":
                close("")
        elif letter == "[":
            in_hex = True
            at += 1
        elif letter == "{":
            end = notation.index("}", at)
            out.extend(notation[at + 1:end].encode("latin-1"))
            at = end + 1
        elif notation.startswith("ESC", at):
            out.append(ESC)
            at += 3
        else:
            out.extend(letter.encode("latin-1"))
            at += 1
    assert not open_counts, "a repetition isn't closed: %s" % notation
    return bytes(out)


def row_of(text):
    """The number of a row from what a table says of it; its lowest bit is the left dot."""
    row = 0
    if text.startswith("dots"):
        for span in text.split()[1:]:
            first, _, last = span.partition("-")
            row |= (1 << int(last or first) + 1) - (1 << int(first))
        return row
    for start, bytes_text in re.findall(r"(?:@([0-9]+))?([^@]*)", text):
        for place, byte in enumerate(bytes_of(bytes_text, in_hex=True), int(start or 0)):
            row |= int("{:08b}".format(byte)[::-1], 2) << 8 * place
    return row


def cases_of(lines, profile=Profile.STATED):
    """The cases of a table."""
    cases, page = [], None
    for number, line in enumerate(lines, 1):
        line = line.strip()
        if not line or line.startswith("#"):
            continue
        word, _, rest = line.partition(" ")
        rest = rest.strip()
        page_line = re.fullmatch(r"(?:([0-9]+)\* )?page (\w+)(?:, ([0-9]+) copies)?", line)
        row_line = re.fullmatch(r"([0-9]+)(?:-([0-9]+))?(?: by ([0-9]+))?: (.*)", line)
        if word == "case":
            cases.append(Case(rest, number, profile))
            page = None
        elif word == "dpi":
            cases[-1].dpi = int(rest)
        elif word == "job":
            cases[-1].notation += rest + " "
        elif word == "refused":
            cases[-1].refusal = rest
        elif line == "no page":
            cases[-1].no_page = True
        elif word == "length":
            cases[-1].length = int(rest)
        elif word == "written":
            cases[-1].bodies += [bytes_of(rest)] * times
        elif page_line:
            times = int(page_line.group(1) or 1)
            page = Page(page_line.group(2), int(page_line.group(3) or 1), {})
            cases[-1].pages += [page] * times
        elif row_line:
            first, last, step, text = row_line.groups()
            row = row_of(text)
            assert row and not row >> SIZES[page.size][1] * cases[-1].dpi // 300, "line %d: a row is off its page" % number
            for y in range(int(first), int(last or first) + 1, int(step or 1)):
                page.rows[y] = row
        else:
            sys.exit("line %d: %s" % (number, line))
        cases[-1].end = number
    return cases


def outcome(case):
    """What a job is here: its refusal, or its pages."""
    try:
        return pages_of(case.job(), case.dpi, case.profile)
    except Refused as refusal:
        return str(refusal)


def page_text(case, page, body):
    code, width, _ = SIZES[page.size]
    head = "ESC&l%dx%da0E ESC*p0x0Y ESC*t%dR ESC*r%ds0A" % (page.copies, code, case.dpi, width * case.dpi // 300)
    return bytes_of(head) + body + bytes_of("ESC*rC [0C]")


@functools.cache
def least_of(rows, count, width):
    return least_body(dict(rows), count, width)


def body_of(page, dpi):
    """The least body of a page, by least.py."""
    _, width, height = SIZES[page.size]
    scale = dpi // 300
    rows = tuple((y, bytes(int("{:08b}".format(byte)[::-1], 2) for byte in row.to_bytes((row.bit_length() + 7) // 8, "little")))
                 for y, row in sorted(page.rows.items()))
    return least_of(rows, height * scale, (width * scale + 7) // 8)


def notation_of(body):
    """A body as a table has it: sequences that follow each other and are equal are one."""
    sequences, at = [], 0
    while at < len(body):
        text, at = "ESC*b", at + 3
        while True:
            number = re.compile(rb"[0-9]*").match(body, at)
            letter = chr(body[number.end()])
            text, at = text + number.group().decode() + letter, number.end() + 1
            if letter.isupper():
                break
        if letter == "W" and number.group():
            data, at = body[at:at + int(number.group())], at + int(number.group())
            groups = [(found.group()[0], len(found.group())) for found in re.finditer(rb"(?s)(.)\1*", data)]
            text += " [%s]" % " ".join(bytes_said(byte, count) for byte, count in groups)
        sequences.append(text)
    return " ".join(" ".join([text] * count) if count < 3 else "%d*<%s>" % (count, text) for text, count in counted(sequences))


def bytes_said(byte, count):
    """Bytes of one value; two of them are written out."""
    return " ".join(["%02X" % byte] * count) if count < 3 else "%d*%02X" % (count, byte)


def counted(items):
    """Items that follow each other and are equal, with how many they are."""
    groups = []
    for item in items:
        if groups and groups[-1][0] == item:
            groups[-1][1] += 1
        else:
            groups.append([item, 1])
    return groups


def written_fault(case, pages):
    """What is wrong with the bodies and the length that a case wants to be written."""
    if not case.bodies:
        return None
    if len(case.bodies) != len(pages):
        return "%d bodies for %d pages" % (len(case.bodies), len(pages))
    texts = [page_text(case, page, body) for page, body in zip(pages, case.bodies)]
    written = bytes_of("ESC E") + b"".join(texts) + bytes_of("ESC E")
    if case.length not in (None, len(written)):
        return "the written job has %d bytes" % len(written)
    least = [body_of(page, case.dpi) for page in pages]
    if case.bodies != least:
        return "\n".join("written " + notation_of(body) for body in least)
    if pages_of(written, case.dpi) != pages:
        return "the written job has other pages"
    return None


def fault(case):
    """What is wrong with a case, if anything."""
    came = outcome(case)
    if isinstance(came, str):
        return None if case.refusal == came else "refused " + came
    if case.refusal or came != case.pages or not (came or case.no_page):
        return "\n".join(lines_of(came, case.dpi))
    return written_fault(case, came)


def bytes_text(row):
    """A row as a table has it: as dots where these are few, else as bytes."""
    runs = [(found.start(), found.end() - 1) for found in re.finditer("1+", bin(row)[:1:-1])]
    if len(runs) <= 4:
        return "dots " + " ".join("%d" % first if first == last else "%d-%d" % (first, last) for first, last in runs)
    data = bytes(int("{:08b}".format(byte)[::-1], 2) for byte in row.to_bytes((row.bit_length() + 7) // 8, "little"))
    groups = [(found.group()[0], len(found.group())) for found in re.finditer(rb"(?s)(.)\1*", data)]
    return " ".join("%02X" % byte if count == 1 else "%d*%02X" % (count, byte) for byte, count in groups)


def lines_of(came, dpi):
    """What came of a job, as a table has it."""
    if isinstance(came, str):
        return ["refused " + came]
    lines, at = [], 0
    while at < len(came):
        page = came[at]
        count = next((k for k, other in enumerate(came[at:]) if other != page), len(came) - at)
        copies = "" if page.copies == 1 else ", %d copies" % page.copies
        lines.append("%spage %s%s" % ("%d* " % count if count > 1 else "", page.size, copies))
        lines += row_lines(page)
        at += count
    return lines or ["no page"]


def row_lines(page):
    """The rows of a page; equal ones that follow each other are one line."""
    lines, rows = [], sorted(page.rows)
    while rows:
        first = last = rows.pop(0)
        while rows and rows[0] == last + 1 and page.rows[rows[0]] == page.rows[first]:
            last = rows.pop(0)
        place = "%d" % first if first == last else "%d-%d" % (first, last)
        lines.append("  %s: %s" % (place, bytes_text(page.rows[first])))
    return lines


def filled(lines, profile):
    """A table with what is expected written into the cases that say nothing of it."""
    lines = list(lines)
    for case in reversed(cases_of(lines, profile)):
        if case.says_nothing():
            lines[case.end:case.end] = ["  " + line for line in lines_of(outcome(case), case.dpi)]
    return lines


def failing_pairs(lines):
    """The pairs of a table that ask for the same, or don't, where the model says otherwise, and how many pairs there are."""
    failing, count = [], 0
    for line in lines:
        word, _, rest = line.strip().partition(" ")
        if word == "case":
            name, dpi, jobs = rest, 300, {}
        elif word == "dpi":
            dpi = int(rest)
        elif word in ("first", "second"):
            jobs[word] = bytes_of(rest)
        elif word == "answer":
            count += 1
            wanted = None if rest.startswith(("first ", "second ")) else rest == "same"
            came = asks_the_same(jobs["first"], jobs["second"], dpi)
            if came != wanted:
                failing.append("%s: %s, where the model has %s" % (name, rest, came))
    return failing, count


def main(words):
    profile = Profile.DRIVERS if "--drivers" in words else Profile.STATED
    fills = "--fill" in words
    seen, failed = set(), 0
    for path in (word for word in words if not word.startswith("--")):
        with open(path, encoding="latin-1") as source:
            lines = source.read().split("\n")
        if "--pairs" in words:
            failing, count = failing_pairs(lines)
            failed += len(failing)
            print("".join("%s: %s\n" % (path, line) for line in failing) + "%s: %d pairs" % (path, count))
            continue
        if fills:
            print("\n".join(filled(lines, profile)), end="")
            continue
        cases = cases_of(lines, profile)
        for case in cases:
            wrong = "the name stands twice" if case.name in seen else fault(case)
            seen.add(case.name)
            if wrong:
                failed += 1
                print("%s:%d: %s\n  job %s\n  %s" % (path, case.line, case.name, case.notation, wrong.replace("\n", "\n  ")))
        print("%s: %d cases" % (path, len(cases)))
    return 1 if failed else 0


if __name__ == "__main__":
    sys.exit(main(sys.argv[1:]))
