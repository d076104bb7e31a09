"""Random print jobs of every part of docs/LANGUAGE.md, with values at and near their bounds.

Each is drawn from a `random.Random`: `job_of` gives a job of any kind, `right_job` one that is mostly accepted, and `long_job` one that
performs as many commands as a job may, or one more. With `drivers_dpi` a job has what the drivers' profile takes besides at this
resolution: offsets of the page, what else a page is asked with, the seed row source, and fonts with a resolution of their own, whose
characters may be compressed.
"""

ESC = b"\x1b"
MOST_COMMANDS = 100_000_000
# The number of a page size, and its width and height in dots at 300 per inch.
SIZES = [(1, 2025, 3150), (2, 2400, 3300), (3, 2400, 4200), (26, 2338, 3507)]

# What stands after ESC, by the part of the language; %s is a value.
FORMS = {
    "settings": [b"&l%sA", b"&l%sX", b"&l%sC", b"&l%sD", b"&l%sE", b"&l%sF", b"&l%sL", b"&u%sD", b"&k%sH", b"&k%sG", b"&a%sL", b"9"],
    "moves": [b"*p%sX", b"*p%sY", b"&a%sH", b"&a%sV", b"&a%sC", b"&a%sR", b"=", b"&f%sS"],
    "rasters": [b"*t%sR", b"*r%sT", b"*r%sS", b"*r%sA", b"*b%sM", b"*b%sY", b"*rB", b"*rC", b"*r%sF"],
    "rectangles": [b"*c%sA", b"*c%sB", b"*c%sH", b"*c%sV", b"*c%sP", b"*c0P"],
    "fonts": [b"*c%sD", b"*c%sE", b"*c%sF", b"(%sX", b")%sX"],
    "macros": [b"&f%sY"] * 6 + [b"&f2X", b"&f3X"] * 2 + [b"&f%sX"] * 4 + [b"&f0X", b"&f1X"],
    "ends": [b"E", b"%%-12345X", b"&l%sH", b"&a%sG"],
    "others": [b"&l%sO", b"&l%sU", b"&l%sZ", b"&a%sP", b"*v%sN", b"*v%sT", b"%%%sA", b"&l%sS", b"&l%sG", b"&l%sM", b"&l%sP", b"&a%sM",
               b"&s%sC", b"&d%s@", b"*v%sO", b"*c%sG"],
    "attributes": [side + b"s%s" + bytes([letter]) for side in (b"(", b")") for letter in b"PHVSBT"],
    "symbols": [side + b"%s" + bytes([letter]) for side in (b"(", b")") for letter in range(64, 95) if letter != ord("X")],
    "unknown": [b"e", b"Y", b"z", b"&q%sQ", b"*q%sX", b"*b%sL", b"*r%sU", b"%%%sX", b"%%a%sX", b"&f%sZ", b"(s%sX", b"!a%sA", b"*%sE"],
}
# The parts whose commands are also put together into one sequence, and what such sequences begin with.
COMBINED = ["settings", "moves", "rasters", "rectangles", "fonts", "macros"]
PREFIXES = [b"*p", b"&a", b"&l", b"&f", b"*r", b"*b", b"*c"]

# What a value mostly is. Where many stand for one, the others are refused.
ONLY_ZERO = ["0"] * 20 + ["1"]
VALUES = {
    b"&l%sA": ["1", "2", "3", "26"] * 8 + ["5"], b"&l%sX": ["1", "2", "3", "99"] * 8 + ["100", "0"], b"&l%sL": ["0", "1"] * 8 + ["2"],
    b"&l%sD": ["6", "8", "1", "48"] * 8 + ["5", "0"], b"&u%sD": ["300", "600", "96", "7200", "1200", "225"] * 6 + ["97", "0"],
    b"&k%sG": ["0", "1", "2", "3"] * 8 + ["4"], b"&f%sS": ["0", "1"] * 10 + ["2"],
    b"*t%sR": ["75", "100", "150", "300"] * 6 + ["200", "600"], b"*b%sM": ["0", "1", "2", "3"] * 12 + ["4", "9"],
    b"*b%sY": ["0", "1", "2", "30"], b"*r%sA": ["0", "1"] * 20 + ["2", "3"], b"*r%sF": ["0", "3"] * 8 + ["1"],
    b"*r%sT": ["0", "1", "5", "40"], b"*r%sS": ["0", "1", "4", "9", "2400", "40"],
    b"*c%sP": ["0", "1"] * 20 + ["2", "5"], b"*c%sF": ["0", "1", "2", "3", "4", "5"] * 8 + ["6"],
    b"*c%sD": ["0", "1", "2"] * 8 + ["32767", "32768"], b"*c%sE": ["32", "65", "66", "200"] * 8 + ["255", "256"],
    b"(%sX": ["0", "1", "2"], b")%sX": ["0", "1", "2"], b"&f%sY": ["0", "1", "2", "3"] * 8 + ["32767", "32768"],
    b"&f%sX": ["2", "3", "2", "3", "6", "7", "8", "9", "10"] * 6 + ["0", "1", "4", "11", "-0.5"],
    b"&l%sO": ONLY_ZERO, b"&l%sU": ONLY_ZERO, b"&l%sZ": ONLY_ZERO, b"&a%sP": ONLY_ZERO, b"*v%sN": ONLY_ZERO, b"*v%sT": ONLY_ZERO,
}
LINES = [b"@PJL SET X=1\r\n", b"@PJL\n", b"@PJL COMMENT \x1bE\n", b"@PJL ENTER LANGUAGE = PCL\r\n", b"@PJL enter language=pcl\n",
         b"@PJLENTER\tLANGUAGE=PCL"]
WRONG_LINES = [b"@PJL ENTER LANGUAGE=PCLXL\n", b"@PJL ENTER LANGUAGE=\n", b"@pjl x\n", b" @PJL\n"]
PARTS = (["settings"] * 3 + ["moves"] * 4 + ["rasters"] * 3 + ["rows"] * 4 + ["rectangles"] * 3 + ["fonts"] * 2
         + ["header", "character"] * 2 + ["text"] * 2 + ["transparent"] + ["codes"] * 2 + ["body"] * 3 + ["macros"] * 3
         + ["parameters"] * 2 + ["ends", "others", "attributes", "symbols", "chain", "chain", "kept", "stack", "steps", "mark"]
         + ["show"] * 4)
BODY_PARTS = ["settings", "moves", "rasters", "rectangles", "rows", "codes", "fonts", "macros", "runs", "runs", "text", "transparent",
              "parameters", "character", "others", "show", "show"]
# What shows where the cursor and the settings are.
SHOWS = [ESC + b"*cP", ESC + b"*c3a2b0P", ESC + b"*r1A" + ESC + b"*b2W\xff\x81", ESC + b"*b1W\x80", b"\n" + ESC + b"*c2a2b0P",
         b"\t" + ESC + b"*c1a1b0P", ESC + b"*c1P"]


def number(draw):
    """A value, small or at a bound, with any sign and decimals."""
    size = draw.choice([1, 3, 10, 100, 720, 2400, 3300, 7200, 32767, 65535])
    text = str(draw.randint(0, size)) if draw.random() < 0.9 else draw.choice(["0", "", "32767", "007", "1", "2"])
    if draw.random() < 0.005:
        text = draw.choice(["32768", "65535", "65536"])
    if draw.random() < 0.1:
        text += "." + draw.choice(["5", "25", "0416", "99999", ""])
    return draw.choice(["", "", "", "+", "-"]) + text


def value(draw, form):
    return (draw.choice(VALUES[form]) if form in VALUES and draw.random() < 0.97 else number(draw)).encode()


def data(draw, most):
    """Bytes as row data have them: runs, counts and bits."""
    count = draw.randint(0, most)
    if draw.random() < 0.5:
        return draw.randbytes(count)
    return bytes(draw.choices([0, 1, 2, 31, 32, 127, 128, 129, 254, 255, 0x80, 0x81], k=count))


def header(draw):
    size = draw.choice([64] * 20 + [65, 63])
    head = bytearray(size)
    head[:2] = draw.choice([64] * 30 + [size, 63, 70]).to_bytes(2, "big")
    head[3], head[13] = draw.choice([0, 1, 2] * 10 + [3]), draw.choice([0, 1] * 15 + [2])
    head[16:18] = draw.choice([0, 8, 50, 120, 400, 65535]).to_bytes(2, "big")
    return bytes(head)


def character(draw):
    width, height = draw.randint(0, 19), draw.randint(0, 9)
    fields = [draw.randint(-20, 20), draw.randint(-20, 20), width, height, draw.choice([-9, 0, 12, 80, 400])]
    bits = draw.randbytes((width + 7) // 8 * height)
    head = bytes([4, 0, 14, 1, 0, draw.choice([0, 0, 7])]) + b"".join(field.to_bytes(2, "big", signed=True) for field in fields)
    if draw.random() < 0.01:
        head = head[:draw.randint(0, 16)]
    return head + bits[:len(bits) - (draw.random() < 0.01)]


def runs_of(draw, width):
    """Runs of bits that make a row of a width: mostly right, or with one too few or one too long."""
    left, runs = width, []
    while left:
        runs.append(min(draw.choice([0, 1, 2, 3, 8, 9, 255, 255, left]), left, 255))
        left -= runs[-1]
    if runs and draw.random() < 0.01:
        runs[-1] = draw.choice([min(runs[-1] + 1, 255), 255])
    return bytes(runs[:len(runs) - (draw.random() < 0.005)])


def compressed_character(draw):
    """A character whose rows are given by runs of bits."""
    width, height = draw.choice([(draw.randint(0, 19), draw.randint(0, 9)), (draw.randint(240, 600), draw.randint(0, 4))])
    fields = [draw.randint(-20, 20), draw.randint(-20, 20), width, height, draw.choice([-9, 0, 12, 80, 400])]
    head = bytes([4, 0, 14, 2, 0, draw.choice([0, 0, 7])]) + b"".join(field.to_bytes(2, "big", signed=True) for field in fields)
    groups, left = [], height
    while left:
        repeats = min(draw.choice([0, 0, 1, 2, 9]), left - 1) if draw.random() < 0.99 else draw.randint(left, 255)
        groups.append(bytes([repeats]) + runs_of(draw, width))
        left = max(0, left - 1 - repeats)
    rows = b"".join(groups) + draw.choice([b"", b"", b"", b"\0\xff"])
    return head + rows[:len(rows) - (draw.random() < 0.01)]


def with_data(prefix, letter, content):
    return ESC + prefix + str(len(content)).encode() + letter + content


def spelled(draw, form):
    """A command of a form."""
    command = ESC + (form % value(draw, form) if b"%s" in form else form.replace(b"%%", b"%"))
    if form != b"%%-12345X" or draw.random() < 0.5:
        return command
    lines = [draw.choice(LINES if draw.random() < 0.98 else WRONG_LINES) for _ in range(draw.randint(0, 3))]
    return command + b"".join(lines)


def parameters(draw):
    """Some parameters of one sequence."""
    prefix = draw.choice(PREFIXES)
    forms = [form for part in COMBINED for form in FORMS[part] if form[:2] == prefix]
    chosen = [draw.choice(forms) for _ in range(draw.randint(2, 4))]
    said = [form[2:] % value(draw, form) if b"%s" in form else form[2:] for form in chosen]
    return ESC + prefix + b"".join(said[:-1]).lower() + said[-1]


def codes(draw, has_font):
    """The codes of a run of text, and of control codes in it."""
    common = [32, 65, 66, 200, 33, 9, 10, 13] if has_font else [32, 1, 9, 10, 13]
    if draw.random() < 0.02:
        common = common + [65]
    return bytes(draw.choices(common, k=draw.randint(1, 8)))


def body(draw, has_font):
    """The definition of a macro, mostly without what definitions refuse."""
    parts = b"".join(part_of(draw, draw.choice(BODY_PARTS), has_font) for _ in range(draw.randint(0, 5)))
    if draw.random() < 0.95:
        parts = parts.replace(b"&f0X", b"&f2X").replace(b"&f1X", b"&f3X")
    begin = draw.choice([b"&f%dy0X", b"&f%dY\x1b&fX", b"&f%dy0x2X"])
    return ESC + begin % draw.randint(0, 3) + parts + ESC + draw.choice([b"&f1X"] * 20 + [b"&f1x2X", b"&f1x3X", b"E"])


def parts_of(draw, most, has_font):
    """What stands in a macro and is seldom refused."""
    kinds = ["moves", "moves", "rasters", "rows", "show", "show", "rectangles", "settings"]
    return b"".join(part_of(draw, draw.choice(kinds), has_font) for _ in range(draw.randint(0, most)))


def macro_of(number, content):
    return ESC + b"&f%dy0X" % number + content + ESC + b"&f1X"


def chain(draw, has_font):
    """Macros each of which runs the next one, and the first is run."""
    macros = []
    last = draw.choice([1, 2, 2, 2, 2, 3])
    for number in range(last + 1):
        runs = ESC + b"&f%dy%dX" % (number + 1, draw.randint(2, 3)) if number < last else b""
        macros.append(macro_of(number, parts_of(draw, 2, has_font) + runs + parts_of(draw, 2, has_font)))
    draw.shuffle(macros)
    return b"".join(macros) + parts_of(draw, 2, has_font) + ESC + b"&f0y%dX" % draw.randint(2, 3) + draw.choice(SHOWS)


def kept(draw, has_font):
    """Macros that are temporary or permanent, deleted or not, and then run."""
    definitions = b"".join(macro_of(number, parts_of(draw, 1, has_font) + draw.choice(SHOWS)) + draw.choice([b"", ESC + b"&f10X"])
                           for number in range(2))
    ends = [ESC + b"E", ESC + b"%-12345X", ESC + b"&f7X", ESC + b"&f8X", ESC + b"&f6X", ESC + b"&f9X" + ESC + b"E"]
    return definitions + draw.choice(ends) + b"".join(ESC + b"&f%dy%dX" % (number, draw.randint(2, 3)) for number in range(2))


def far_stack(draw):
    """A position that is pushed on a large page, popped on a smaller one, where it is held, and moved back from."""
    begin = ESC + b"&l3A" + ESC + b"*p%dx%dY" % (draw.randint(1900, 2500), draw.randint(2800, 4300)) + ESC + b"&f0S"
    size = ESC + b"&l%dA" % draw.choice([1, 1, 2, 26])
    return begin + size + ESC + b"&f1S" + ESC + b"*p-%dx-%dY" % (draw.randint(0, 500), draw.randint(0, 1200)) + draw.choice(SHOWS)


def steps(draw):
    """A step so small and made so often that what is rounded adds up to dots."""
    part = b"%d.%d" % (draw.randint(0, 1), draw.randint(1, 99))
    unit = draw.choice([ESC + b"&l%sC" % part, ESC + b"&k%sH" % part, ESC + b"&u%dD" % draw.choice([96, 144, 225, 1440, 7200])])
    step = draw.choice([ESC + b"=", b"\n", b" ", ESC + b"*p+%sX" % part, ESC + b"*p+%sY" % part, ESC + b"&a+%sC" % part,
                        ESC + b"&a+%sR" % part, ESC + b"&a+%sH" % part, ESC + b"&a+%sV" % part])
    return unit + step * draw.choice([7, 24, 25, 50]) + draw.choice(SHOWS)


def stack(draw):
    """Positions that are pushed and popped."""
    if draw.random() < 0.4:
        return far_stack(draw)
    pushes = b"".join(ESC + b"*p+%dx+%dY" % (draw.randint(0, 90), draw.randint(0, 90)) + ESC + b"&f0S"
                      for _ in range(draw.choice([1, 3, 19, 20, 21])))
    size = ESC + b"&l%dA" % draw.choice([1, 2, 3, 26]) if draw.random() < 0.5 else b""
    return pushes + size + (ESC + b"&f1S" + draw.choice(SHOWS)) * draw.choice([1, 3, 20, 22])


def part_of(draw, part, has_font):
    """One command, or some that belong together."""
    if part == "rows":
        rows = [data(draw, draw.choice([2, 5, 40, 300])) for _ in range(draw.randint(1, 4))]
        return b"".join(with_data(b"*b", b"W", row) for row in rows)
    if part == "text":
        return codes(draw, has_font)
    if part == "transparent":
        return with_data(b"&p", b"X", codes(draw, has_font))
    if part == "codes":
        return bytes([draw.choice([7, 0, 9, 10, 11, 12, 13, 14, 15, 26] * 12 + [8])])
    if part == "header":
        return with_data(b")s", b"W", header(draw))
    if part == "character":
        return with_data(b"(s", b"W", character(draw))
    if part == "body":
        return body(draw, has_font)
    if part == "show":
        return draw.choice(SHOWS)
    if part == "chain":
        return chain(draw, has_font)
    if part == "kept":
        return kept(draw, has_font)
    if part == "stack":
        return stack(draw)
    if part == "steps":
        return steps(draw)
    if part == "mark":
        return mark(draw)
    if part == "runs":
        return ESC + b"&f%dy%dX" % (draw.randint(0, 3), draw.randint(2, 3))
    if part == "parameters":
        return parameters(draw)
    return spelled(draw, draw.choice(FORMS[part]))


def picture_row(draw, above, length):
    """A row of this many bytes: runs and bytes about as long as an element can be, or the row above it but for some bytes."""
    if above and draw.random() < 0.5:
        row = bytearray(above)
        for _ in range(draw.choice([0, 1, 1, 2, 3])):
            at = draw.choice([draw.randrange(length), min(draw.choice([0, 29, 30, 31, 32, 285, 286, 287, 541, 542]), length - 1)])
            count = draw.choice([1, 2, 7, 8, 9, 17])
            row[at:at + count] = draw.randbytes(count)
        return bytes(row[:length])
    row = b""
    while len(row) < length and draw.random() < 0.85:
        count = draw.choice([1, 2, 3, 8, 9, 30, 31, 127, 128, 129, 255, 256, 257, draw.randint(1, length)])
        row += draw.choice([bytes([draw.choice([0, 255, 129])]) * count, bytes(count), draw.randbytes(count)])
    return row[:length].ljust(length, b"\0") if draw.random() < 0.5 else row[:length]


def picture(draw, dpi):
    """A page of rows at its own resolution, at heights about which the digits of a skip change."""
    number, width, _ = draw.choice(SIZES)
    length = (width * dpi // 300 + 7) // 8
    rows, row = [], b""
    for _ in range(draw.choice([1, 2, 4, 8])):
        skipped = draw.choice([0, 0, 0, 1, 2, 8, 9, 10, 11, 98, 99, 100, 998, 999, 1000])
        rows.append(ESC + b"*b%dY" % skipped if skipped else b"")
        row = picture_row(draw, row.ljust(length, b"\0") if row and not skipped else b"", length)
        rows += [with_data(b"*b", b"W", row)] * draw.choice([1, 1, 1, 2, 3, 20])
    return ESC + b"&l%da0e%dX" % (number, draw.choice([1, 1, 2, 9, 10, 99])) + ESC + b"*p0x0Y" + ESC + b"*t%dR" % dpi + b"".join(rows)


FONT = (ESC + b"*c0D" + with_data(b")s", b"W", bytes([0, 64, 0, 2]) + bytes(13) + b"\x30" + bytes(46))
        + ESC + b"*c65E" + with_data(b"(s", b"W", bytes([4, 0, 14, 1, 0, 0, 0, 1, 0, 2, 0, 9, 0, 3, 0, 40]) + bytes([0x81, 0x80] * 3))
        + ESC + b"(0X")


def mark(draw):
    """What may be all that marks a page, and an end that ejects only a marked one."""
    width, height = draw.choice([(0, 0), (0, 3), (9, 0), (1, 1)])
    empty = bytes([4, 0, 14, 1, 0, 0, 0, 1, 0, 2, 0, width, 0, height, 0, 40]) + bytes((width + 7) // 8 * height)
    ways = [FONT + ESC + b"*c66E" + with_data(b"(s", b"W", empty) + draw.choice([b"B", b"C", b" "]), ESC + b"*b0W", ESC + b"*c0a0b0P",
            ESC + b"*p32767x32767Y" + draw.choice(SHOWS), ESC + b"*r1A" + ESC + b"*b3Y" + ESC + b"*rB"]
    ends = [ESC + b"E", ESC + b"%-12345X", ESC + b"&l1H", ESC + b"&a1G", ESC + b"&l2A"]
    return draw.choice(ends) + draw.choice(ways) + draw.choice(ends)


def offset(draw, side=None):
    """An offset of the page: one of few that are spelled in several ways, or at a bound."""
    few = ["-180", "-180", "-180.0", "-180.00004", "-0180", "36", "+36", "36.", "0", "-0", "", "0.9999", "-0.5", "1", "1.0000", "-1", "1.5"]
    bounds = ["0.99999", "1.9999", "-1.0001", "32767", "-32767", "65535", "65535.00009", "-32767.0001", "65536"]
    said = draw.choice(few if draw.random() < 0.95 else bounds)
    return ESC + b"&l" + said.encode() + (side or draw.choice([b"U", b"Z"]))


def offsets(draw, has_font):
    """Offsets before marks, after them, again after other commands, and in macros."""
    side = draw.choice([b"U", b"Z"])
    said = offset(draw, side)
    again = draw.choice([said, said, said, offset(draw, side), offset(draw)])
    show = draw.choice(SHOWS)
    fresh = draw.choice([b"\f", b"\f", ESC + b"E", ESC + b"%-12345X", ESC + b"&l2A", ESC + b"&l1H", ESC + b"&a1G", b""])
    way = draw.randint(0, 6)
    if way == 0:
        return fresh + draw.choice([said + offset(draw), ESC + b"&l-180u36Z", ESC + b"&l0e0u2x1.5Z", ESC + b"&l36z0oU"]) + show
    if way == 1:
        keeps = draw.choice([b"", b"", ESC + b"&l2A", b"\f", ESC + b"&l1H"])
        return fresh + said + keeps + show + parts_of(draw, 1, has_font) + again + show
    if way == 2:
        return fresh + said + show + draw.choice([b"\f", ESC + b"E", ESC + b"&l2A", b"\n" * 60]) + again + show
    if way == 3:
        return fresh + ESC + b"*r1A" + draw.choice([b"", ESC + b"*b3Y", ESC + b"*b1W\x80"]) + said + show
    number, run = draw.randint(0, 3), draw.choice([b"&f2X", b"&f3X", b"&f3X"])
    content = [said, said + show, show + said, said + b"\f", show + b"\f" + said, b"\f" + said + show + again][draw.randint(0, 5)]
    begin = draw.choice([b"", again, again + show, ESC + b"*r1A" + ESC + b"*b0W"])
    return macro_of(number, content) + fresh + begin + ESC + b"&f%dY" % number + ESC + run + draw.choice([b"", again, b"\f" + again]) + show


# What a page is asked with, and the forms of other commands that stand in one sequence with it.
ASKS = {b"&l%sT": [b"2X", b"0E", b"1L", b"0O"], b"&k%sW": [b"0G", b"12H", b"2G"], b"*o%sM": [b"%sQ", b"%sD"], b"*o%sQ": [b"%sM", b"%sD"],
        b"*o%sD": [b"%sM", b"%sQ"], b"*r%sQ": [b"1A", b"0F", b"B", b"9S", b"C"]}


def ask(draw, form=None):
    """What a page is asked with: a small number that is spelled in several ways, or one at a bound."""
    few = ["0", "1", "1", "2", "-1", "+1", "01", "1.0", "1.9999", "-0", "", "-", "0.9999", "-0.5", "-1.5", ".", "3"]
    bounds = ["32767", "32768", "-32767", "65535", "65535.00009"]
    wrong = ["65536", "65535.0001", "-32768", "-32767.0001"]
    form = form or draw.choice(sorted(ASKS))
    said = [draw.choice(few if draw.random() < 0.9 else bounds if draw.random() < 0.9 else wrong).encode() for _ in range(2)]
    if draw.random() < 0.7:
        return ESC + form % said[0]
    pair = [form[2:] % said[0], draw.choice(ASKS[form]).replace(b"%s", said[1])]
    draw.shuffle(pair)
    return ESC + form[:2] + pair[0].lower() + pair[1]


def seed_row_source(draw):
    """The seed row source, alone or with other commands of a raster in one sequence."""
    wrong = [b"1", b"-1", b"1.0", b"2", b"65535", b"65536"]
    said = draw.choice([b"0", b"0", b"0", b"", b"-0", b"+0", b"0.9999", b"-0.5"] if draw.random() < 0.95 else wrong)
    way = draw.choice([b"*b%sS"] * 4 + [b"*b0m%sS", b"*b%ss3M", b"*b%ss0Y", b"*b1y%sS", b"*b2m%ss0W", b"*b%ss%sS"])
    return ESC + way.replace(b"%s", said)


def asks(draw, has_font):
    """What a page is asked with: before marks and after them, in rasters, again after other commands, and in macros."""
    form = draw.choice(sorted(ASKS))
    said = ask(draw, form)
    again = draw.choice([said, ask(draw, form), ask(draw)])
    show = draw.choice(SHOWS)
    fresh = draw.choice([b"\f", b"\f", ESC + b"E", ESC + b"%-12345X", ESC + b"&l2A", ESC + b"&l1H", ESC + b"&a1G", b""])
    way = draw.randint(0, 7)
    if way == 0:
        return fresh + said + draw.choice([b"", again, ask(draw)]) + show
    if way == 1:
        return fresh + show + said + draw.choice([b"", again]) + show
    if way == 2:
        return fresh + said + show + draw.choice([b"\f", ESC + b"E", ESC + b"&l2A", ESC + b"%-12345X"]) + draw.choice([b"", again]) + show
    if 3 <= way <= 5:
        row, after = (with_data(b"*b", b"W", data(draw, 5)) for _ in range(2))
        # All of it shows where a raster goes on: its left edge, its height, and its seed row.
        begin = draw.choice([b"", ESC + b"*p%dx40Y" % draw.randint(1, 99), ESC + b"*r%dT" % draw.randint(1, 3), ESC + b"*b3M"])
        rows = draw.choice([b"", row, row, row + ESC + b"*b3Y"])
        return fresh + begin + ESC + draw.choice([b"*r0A", b"*r1A", b"*r1A"]) + rows + said + draw.choice([after, after, show])
    number, run = draw.randint(0, 3), draw.choice([b"&f2X", b"&f3X", b"&f3X"])
    content = draw.choice([said, said + show, show + said, said + b"\f", ESC + b"*b1W\x80" + said, b"\f" + said + show + again])
    begin = draw.choice([b"", again, again + show, ESC + b"*r1A" + ESC + b"*b0W"])
    return macro_of(number, content) + fresh + begin + ESC + b"&f%dY" % number + ESC + run + draw.choice([b"", again, b"\f" + again]) + show


def seed_rows(draw):
    """Rows of any method with the seed row source before, between and after them, and what shows whether a raster went on."""
    row = [with_data(b"*b", b"W", data(draw, 5)) for _ in range(3)]
    sources = [seed_row_source(draw) for _ in range(3)]
    method = ESC + b"*b%dM" % draw.choice([0, 2, 3, 3, 3])
    begin = draw.choice([b"", ESC + b"*r1A", ESC + b"*p9x9Y" + ESC + b"*r1A", ESC + b"*r9s2t1A"])
    parts = draw.choice([[begin, sources[0], row[0], method, row[1]], [begin, row[0], method, sources[0], row[1], sources[1], row[2]],
                         [begin, method, sources[0]], [method, row[0], sources[0], ESC + b"*p7x40Y", row[1]],
                         [begin, row[0], ESC + b"*b2Y", sources[0], row[1]], [begin, row[0], sources[0], ESC + b"*r0A", row[1]],
                         [ESC + b"*p%dx9Y" % draw.randint(1, 99), sources[0]], [sources[0], ESC + b"*t%dR" % draw.choice([75, 300]), row[0]]])
    number = draw.randint(0, 3)
    if draw.random() < 0.2:
        parts = [macro_of(number, sources[2] + draw.choice([b"", row[0]])), *parts, ESC + b"&f%dy%dX" % (number, draw.randint(2, 3)), row[2]]
    return b"".join(parts) + draw.choice([b"", ESC + b"*rB", ESC + b"*rC"]) + draw.choice(SHOWS)


# Fields of a header of format 20: where they are, and what else they may wrongly have.
WRONG_FIELDS = [(0, 1), (0, 255), (1, 64), (1, 67), (1, 69), (2, 0), (2, 16), (2, 19), (2, 21), (3, 3), (12, 1), (13, 2), (64, 0), (64, 2),
                (65, 43), (65, 45), (66, 0), (66, 2), (67, 43), (67, 0), (67, 88), (65, 88)]


def header_with_resolution(draw, dpi):
    """The header of a font with a resolution of its own: mostly right, or with one field that may be wrong."""
    count = draw.choice([68] * 40 + [69, 90, 90, 67, 64])
    head = bytearray(count)
    head[:4] = 0, draw.choice([68] * 40 + [count, 67, 64, 70]), 20, draw.choice([0, 1, 2, 2])
    head[13] = draw.choice([0, 1])
    head[16:18] = draw.choice([0, 1, 7, 8, 50, 120, 400, 65535]).to_bytes(2, "big")
    resolution = draw.choice([300, dpi] if draw.random() < 0.95 else [0, 75, 150, 299, 301, 600, 601, 1200])
    head[64:68] = (resolution.to_bytes(2, "big") * 2)[:max(0, count - 64)]
    if draw.random() < 0.06:
        at, wrong = draw.choice(WRONG_FIELDS)
        if at < len(head):
            head[at] = wrong
    for at in (4, 14, 18, 30, 63):
        head[at] = draw.choice([0, 0, 1, 255])
    return bytes(head)


def font_with_resolution(draw, dpi):
    """A font with a resolution of its own, its characters, and text in it; another of the same ID may come before it or after it."""
    number = draw.randint(0, 2)
    heads = [header_with_resolution(draw, dpi)]
    if draw.random() < 0.25:
        heads.insert(draw.randint(0, 1), draw.choice([header(draw), header_with_resolution(draw, dpi)]))
    letters = b"".join(ESC + b"*c%dE" % code + with_data(b"(s", b"W", draw.choice([character, compressed_character])(draw))
                       for code in draw.choice([[65], [65, 66], [65, 200]]))
    select = ESC + draw.choice([b"(%dX", b"(%dX", b")%dX"]) % number
    place = draw.choice([b"", ESC + b"*p%dx%dY" % (draw.randint(0, 2400), draw.randint(0, 3300)), ESC + b"&u600D" + ESC + b"*p51x51Y"])
    use = draw.choice([b"\x0f", b"\x0f", b"\x0e"]) if b")" in select else b""
    text = draw.choice([b"A", b"AB A", b"A A", b" A", b"\tA", b"A\xc8"])
    parts = [ESC + b"*c%dD" % number, *(with_data(b")s", b"W", head) for head in heads), letters, select]
    if draw.random() < 0.2:
        parts.insert(draw.randint(0, len(parts) - 1), ESC + b"*c%dF" % draw.choice([2, 3, 4, 5]))
    if draw.random() < 0.15:
        parts = [macro_of(3, b"".join(parts)), ESC + b"&f3y%dX" % draw.randint(2, 3)]
    stays = ESC + b"*c5F" + ESC + b"E" + select + use + text
    return b"".join(parts) + place + use + text + draw.choice([b"", stays, draw.choice(SHOWS), draw.choice(SHOWS)])


def drivers_part(draw, has_font, dpi):
    """What the drivers' profile takes besides, of one kind."""
    kind = draw.randint(0, 3)
    if kind == 0:
        return offsets(draw, has_font)
    if kind == 1:
        return asks(draw, has_font)
    return seed_rows(draw) if kind == 2 else font_with_resolution(draw, dpi)


# What else asks the printer for something, or forgets it.
OTHER_ASKS = [b"&l1S", b"&l2S", b"&l3G", b"&l2M", b"&l60P", b"&l0H", b"&l2H", b"&a1G", b"&l2X", b"&l1X", b"&l2A", b"&l26A", b"&l-180U", b"&l36Z",
              b"E", b"E", b"%-12345X", b"%-12345X@PJL SET X=1\r\n"]


def asking_job(draw):
    """A short job that asks for much, and seldom what only the same job asks for."""
    parts = []
    for _ in range(draw.randint(1, 6)):
        number, content = draw.randint(0, 2), b"".join(ask(draw) for _ in range(draw.randint(1, 2)))
        parts.append(draw.choice([ask(draw), ask(draw), ESC + draw.choice(OTHER_ASKS), draw.choice(SHOWS) + b"\f", b"\f", draw.choice(SHOWS),
                                  macro_of(number, content + draw.choice([b"", b"\f"])) + ESC + b"&f%dX" % draw.randint(2, 3)]))
    return b"".join(parts)


def asking_pair(draw, job, places):
    """Two jobs that ask for the same or not: one job with a command that asks put in at some of these places."""
    form = draw.choice(sorted(ASKS))
    at = draw.randrange(len(places))
    near = places[min(max(at + draw.choice([-2, -1, 1, 1, 2, 5]), 0), len(places) - 1)]
    first, at = ask(draw, form), places[at]
    second, then = [(ask(draw, form), at), (first, near), (ask(draw, form) + first, at), (first + ask(draw), at), (b"", at),
                    (ask(draw), at)][draw.choice([0, 0, 1, 1, 1, 2, 3, 4, 5])]
    pair = [job[:at] + first + job[at:], job[:then] + second + job[then:]]
    draw.shuffle(pair)
    return pair


def right_job(draw, drivers_dpi=None):
    """A job that is mostly accepted."""
    begin = draw.choice([b"", ESC + b"E", ESC + b"&l0E", ESC + b"&l0E" + ESC + b"*p0x0Y" + ESC + b"*t300R"])
    has_font = draw.random() < 0.5
    parts = [part_of(draw, draw.choice(PARTS), has_font) for _ in range(draw.randint(1, draw.choice([4, 12, 30])))]
    if draw.random() < 0.03:
        parts.insert(draw.randint(0, len(parts)), spelled(draw, draw.choice(FORMS["unknown"])))
    if draw.random() < 0.004:
        parts.insert(draw.randint(0, len(parts)), b"\f" * draw.choice([254, 255, 256, 257]))
    if draw.random() < 0.04:
        parts.insert(draw.randint(0, len(parts)), picture(draw, 300) + ESC + b"*rC")
    if drivers_dpi:
        for _ in range(draw.choice([0, 1, 1, 2, 4])):
            parts.insert(draw.randint(0, len(parts)), drivers_part(draw, has_font, drivers_dpi))
    if draw.random() < 0.6:
        parts.append(draw.choice(SHOWS))
    return begin + (FONT if has_font else b"") + b"".join(parts)


def mutated(draw, job):
    job = bytearray(job)
    for _ in range(draw.randint(1, 4)):
        way = draw.randint(0, 3)
        at = draw.randint(0, len(job))
        if way == 0 and at < len(job):
            job[at] = draw.choice([draw.randint(0, 255), 27, 48 + draw.randint(0, 9), 65 + draw.randint(0, 25)])
        elif way == 1:
            del job[at:at + draw.randint(1, 5)]
        elif way == 2:
            job[at:at] = bytes([draw.randint(0, 255)])
        else:
            del job[at:]
    return bytes(job)


def job_of(draw, drivers_dpi=None):
    job = right_job(draw, drivers_dpi)
    if draw.random() < 0.25:
        job = mutated(draw, job if draw.random() < 0.7 else job + right_job(draw, drivers_dpi))
    return job


def long_job(draw):
    """Macros that run each other, by which a job performs as many commands as it may, or one more."""
    cheap = [ESC + b"9", ESC + b"&k0G", ESC + b"*p1X", ESC + b"&l0L", b"\x0f"]
    commands, runs = draw.randint(900, 2000), draw.randint(900, 2000)
    inner = b"".join(draw.choice(cheap) for _ in range(commands))
    outer = ESC + b"&f0y" + draw.choice([b"2x", b"3x"]) * (runs - 1) + b"2X"
    # The definitions count three each, the IDs below three together, and what runs a macro counts beside what it runs.
    in_outer = 2 + runs * (1 + commands)
    left = MOST_COMMANDS + draw.randint(0, 1) - 6 - 3
    times = left // in_outer
    more, singles = divmod(left - times * in_outer, 1 + commands)
    # A call puts back the ID, which the outer macro sets.
    last = ESC + b"&f1y" + b"3x" * times + b"0y" + b"2x" * more + b"0Y" + (ESC + b"9") * singles
    return macro_of(0, inner) + macro_of(1, outer) + last
