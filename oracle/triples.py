"""Changes of triples: a job, what it is written as, and a certificate of that, of which some are changed.

`changed` takes a triple that is proved, with another one, and gives a triple that mostly isn't. Most changes keep the form of what they
change (docs/OUTPUT.md, docs/CERTIFICATE.md), so that each test of the check gets its turn: a number, a list, a row's data, the spelling
of a parameter, pages in another order. Others cut, join or spoil bytes.
"""

import re
import struct

from random_jobs import SIZES

RESET, OPEN = b"\x1bE", b"\x1b*b"
MOST_CHANGES = 3
# As many bytes of a row are left as an element can have, or about as many.
LEFT = [2, 3, 7, 8, 9, 30, 31, 32, 127, 128, 129, 255, 256, 257]
HEAD_BYTES, PAGE_HEAD_BYTES, BAD_MAGICS = 12, 6, [b"PCLCERT3", b"pclcert1", b"PCLCERT"]
HEIGHTS = [height for _, _, height in SIZES]
ROW_BYTES = {height * scale: (width * scale + 7) // 8 for _, width, height in SIZES for scale in (1, 2)}
START = re.compile(rb"(\x1b&l)([0-9]+)(x)([0-9]+)(a0E\x1b\*p0x0Y\x1b\*t)([0-9]+)(R\x1b\*r)([0-9]+)(s0A)")
END = b"\x1b*rC\x0c"
PARAMETER = re.compile(rb"(\x1b\*b)?([0-9]*)([mMyYW])")
EMPTY_LISTS = re.compile(rb"(?:\0\0)+")


def number_at(content, place, size):
    return int.from_bytes(content[place:place + size], "big")


class Triple:
    """A job, its output and its certificate at a resolution."""

    def __init__(self, job, output, certificate, dpi):
        self.job, self.output, self.certificate, self.dpi = job, output, certificate, dpi

    def copy(self):
        return Triple(self.job, self.output, self.certificate, self.dpi)

    def is_same(self, other):
        return vars(self) == vars(other)


class Page:
    """Where a page stands in a certificate that is one, and its text in the output."""

    def __init__(self, certificate, at, text_at):
        self.at, self.text_at = at, text_at
        self.length, self.rows = number_at(certificate, at, 4), number_at(certificate, at + 4, 2)
        self.nodes = at + PAGE_HEAD_BYTES
        self.lists = self.end = self.nodes + 32 * (self.rows + 1)
        self.row_bytes = ROW_BYTES[self.rows]
        # Lists by where they stand: their numbers' count, and runs of empty ones.
        self.full, self.empty = [], []
        if certificate[:8] == b"PCLCERT2":
            self.see_lists(certificate)

    def see_lists(self, certificate):
        left = 4 * self.rows
        while left:
            found = EMPTY_LISTS.match(certificate, self.end)
            if found:
                count = min(len(found.group()) // 2, left)
                self.empty.append((self.end, count))
                self.end += 2 * count
            else:
                count = 1
                numbers = number_at(certificate, self.end, 2)
                self.full.append((self.end, numbers))
                self.end += 2 + 2 * numbers
            left -= count


def pages_of(triple):
    pages, at, text_at = [], HEAD_BYTES, len(RESET)
    for _ in range(number_at(triple.certificate, 8, 4)):
        page = Page(triple.certificate, at, text_at)
        pages.append(page)
        at, text_at = page.end, text_at + page.length
    return pages


def put(content, place, new, old_length=None):
    """Bytes in place of as many, or of another number."""
    return content[:place] + new + content[place + (len(new) if old_length is None else old_length):]


def near(draw, old, size):
    """A number of this many bytes beside another one, or anywhere."""
    most = 256 ** size - 1
    new = draw.choice([old + 1] * 4 + [old - 1] * 3 + [old + 2, old - 2, old + 255, 0, 0, 1, most, draw.randint(0, most)])
    return min(max(new, 0), most).to_bytes(size, "big")


def moved(content, first, last, form, by):
    """Numbers of a form of struct that are greater by so much, or less, and not beyond what they can have."""
    most = 256 ** struct.calcsize(form) - 1
    numbers = struct.unpack(">%d%s" % ((last - first) // struct.calcsize(form), form), content[first:last])
    return put(content, first, struct.pack(">%d%s" % (len(numbers), form), *[min(max(number + by, 0), most) for number in numbers]))


# Changes of the certificate: each takes the triple and its pages, one of which is drawn.


def sent_rows(triple, page):
    """The rows of a page that its text sends."""
    rows, row = [], 0
    for _, digits, letter, _ in parameters_of(text_of(triple, page))[1]:
        if letter == b"W":
            rows.append(row)
        if letter not in b"mM":
            row += int(digits) if letter in b"yY" else 1
    return rows


def drawn_row(draw, triple, page):
    """A number of printed rows, often about where something is sent, or as many rows above that a skip has another digit."""
    rows = sent_rows(triple, page) or [0]
    row = draw.choice([rows[0], rows[-1], rows[-1] + 1, draw.choice(rows), draw.choice(rows), draw.randint(0, page.rows), page.rows])
    above = draw.choice([0, 0, 0, 1, 8, 9, 10, 98, 99, 100, 998, 999, 1000, draw.randint(0, page.rows)])
    return max(row - above, 0) if draw.random() < 0.6 else row


def change_node(draw, triple, page):
    place = page.nodes + 32 * drawn_row(draw, triple, page) + 4 * draw.randrange(8)
    triple.certificate = put(triple.certificate, place, near(draw, number_at(triple.certificate, place, 4), 4))


def lower_nodes(draw, triple, page):
    """Numbers from a row on, or those of a row, of which one or all are smaller."""
    row = drawn_row(draw, triple, page)
    first = page.nodes + 32 * row + 4 * draw.randint(0, 7)
    last = draw.choice([first + 4, page.nodes + 32 * row + 32, page.lists])
    triple.certificate = moved(triple.certificate, first, last, "I", -draw.choice([1, 1, 2, 1000, 1 << 32]))


def raise_nodes(draw, triple, page):
    """All numbers up to a row are greater by one, which no single edge but the last shows."""
    last = page.nodes + 32 * drawn_row(draw, triple, page)
    triple.certificate = moved(triple.certificate, page.nodes, last, "I", 1)


def change_place(draw, triple, page):
    """A number of a list, or all numbers of it."""
    if page.full:
        at, count = draw.choice(page.full)
        if draw.random() < 0.2:
            triple.certificate = moved(triple.certificate, at + 2, at + 2 + 2 * count, "H", draw.choice([-1, 1]))
        else:
            place = at + 2 + 2 * draw.choice([0, draw.randrange(count), count - 1, max(count - draw.choice(LEFT), 0)])
            triple.certificate = put(triple.certificate, place, near(draw, number_at(triple.certificate, place, 2), 2))


def change_list(draw, triple, page):
    """A list that gets a number more, loses some, or has another count than numbers."""
    if page.full:
        at, count = draw.choice(page.full)
        keeps = draw.choice([count, count - 1, 0, draw.randint(0, count)])
        numbers = triple.certificate[at + 2:at + 2 + 2 * keeps]
        if keeps == count:
            numbers += near(draw, draw.choice([0, 1, 2]), 2) * draw.choice([1, 1, 1, 2, page.row_bytes - count, page.row_bytes - count + 1])
        said = draw.choice([len(numbers) // 2] * 8 + [count + 1, 65535, page.row_bytes + 1, page.row_bytes])
        triple.certificate = put(triple.certificate, at, said.to_bytes(2, "big") + numbers, 2 + 2 * count)


def fill_list(draw, triple, page):
    """A list that has no number gets some."""
    if page.empty:
        at, count = draw.choice([page.empty[0], page.empty[-1], draw.choice(page.empty)])
        at += 2 * draw.choice([0, draw.randrange(count), count - 1])
        numbers = bytes(2 * draw.choice([0, 0, 0, 1, 40])) + near(draw, 1, 2)
        triple.certificate = put(triple.certificate, at, (len(numbers) // 2).to_bytes(2, "big") + numbers, 2)


def empty_lists(draw, triple, page):
    """All lists without a number: zeros bound any data, and nodes don't."""
    if page.end > page.lists:
        triple.certificate = put(triple.certificate, page.lists, bytes(8 * page.rows), page.end - page.lists)


def change_length(draw, triple, page):
    triple.certificate = put(triple.certificate, page.at, near(draw, page.length, 4))


def change_rows(draw, triple, page):
    """The rows of another page size, mostly with as many numbers, or of none."""
    scale = triple.dpi // 300
    rows = draw.choice([height * scale for height in HEIGHTS] * 4 + [page.rows + 1, 0, 65535, page.rows * (3 - scale) // scale])
    content = triple.certificate
    nodes, lists = content[page.nodes:page.lists], content[page.lists:page.end]
    if draw.random() < 0.9:
        nodes = nodes[:32 * (rows + 1)].ljust(32 * (rows + 1), b"\0")
        if lists:
            has_all = page.empty and page.empty[-1][0] + 2 * page.empty[-1][1] == page.end and rows > page.rows
            lists = lists + bytes(8 * (rows - page.rows)) if has_all else bytes(8 * rows)
    triple.certificate = put(content, page.at + 4, rows.to_bytes(2, "big") + nodes + lists, page.end - page.at - 4)


def change_page_count(draw, triple, page):
    """A page of the certificate is said of twice, or not at all, or only the count is another one."""
    content = triple.certificate
    count = number_at(content, 8, 4)
    way = draw.randrange(3)
    if way == 0:
        content = put(content, page.end, content[page.at:page.end], 0)
        count += 1
    elif way == 1:
        content = put(content, page.at, b"", page.end - page.at)
        count -= 1
    else:
        count = int.from_bytes(near(draw, count, 4), "big")
    triple.certificate = put(content, 8, count.to_bytes(4, "big"))


def change_magic(draw, triple, page):
    magic = draw.choice(BAD_MAGICS + [b"PCLCERT1", b"PCLCERT2"])
    triple.certificate = put(triple.certificate, 0, magic)[:None if len(magic) == 8 else draw.choice([None, 7])]


def spoil_certificate(draw, triple, page):
    triple.certificate = spoiled(draw, triple.certificate)


def spoiled(draw, content):
    """Bytes cut, changed, put in or appended."""
    at = draw.choice([draw.randint(0, len(content)), draw.randint(0, min(60, len(content))), len(content) - 1 if content else 0])
    way = draw.randrange(5)
    if way == 0:
        return content[:at]
    if way == 1:
        return content + draw.choice([b"\0", RESET, draw.randbytes(3)])
    if way == 2:
        return put(content, at, draw.randbytes(draw.randint(1, 3)), 0)
    if way == 3:
        return put(content, at, b"", draw.randint(1, 4))
    return put(content, at, bytes([draw.choice([draw.randrange(256), content[at] ^ 1 if at < len(content) else 0])]), 1)


# Changes of the output. Most say the new length of the text in the certificate too.


def text_of(triple, page):
    return triple.output[page.text_at:page.text_at + page.length]


def set_text(draw, triple, page, text):
    triple.output = put(triple.output, page.text_at, text, page.length)
    if draw.random() < 0.95:
        triple.certificate = put(triple.certificate, page.at, len(text).to_bytes(4, "big"))


def parameters_of(text):
    """The start of a page text, its parameters as lists (what opens the sequence, digits, letter, data), and its end."""
    start = START.match(text).end()
    parameters, at = [], start
    while True:
        found = PARAMETER.match(text, at)
        if not found:
            return text[:start], parameters, text[at:]
        opens, digits, letter = found.groups()
        at = found.end() + (int(digits or 0) if letter == b"W" else 0)
        parameters.append([opens or b"", digits, letter, text[found.end():at]])


def change_start(draw, triple, page):
    """Another number of copies, size, resolution or width."""
    text = text_of(triple, page)
    groups = list(START.match(text).groups())
    place = draw.choice([1, 1, 3, 3, 5, 7])
    others = {1: [b"1", b"2", b"99", b"100", b"0", b"01", b""], 3: [b"1", b"2", b"3", b"26", b"4", b"02"], 5: [b"300", b"600", b"75"],
              7: [b"2025", b"2400", b"2338", b"4050", b"4800", b"4676", b"2401", b"02400"]}
    groups[place] = draw.choice(others[place])
    if place == 3 and draw.random() < 0.5:
        groups[7] = b"%d" % ({b"%d" % size: width for size, width, _ in SIZES}.get(groups[3], 2400) * triple.dpi // 300)
    set_text(draw, triple, page, b"".join(groups) + text[START.match(text).end():])


def longer_data(draw, method, data):
    """Data of a method that make the same bytes and are longer, where that is easy."""
    if method == b"0":
        return data + b"\0"
    if method == b"1":
        for at in range(0, len(data), 2):
            if data[at]:
                return put(data, at, bytes([0, data[at + 1], data[at] - 1, data[at + 1]]), 2)
    return data + b"\x80" if method == b"2" else data


def repacked(data):
    """Data of method 1 as as many bytes of method 2; none where a run is too long."""
    pairs = [data[at:at + 2] for at in range(0, len(data), 2)]
    if any(len(pair) < 2 or pair[0] > 127 for pair in pairs):
        return None
    return b"".join(bytes([256 - pair[0] if pair[0] else 0, pair[1]]) for pair in pairs)


def repack(draw, triple, page):
    """Rows of method 1 are sent by method 2, as far as they go: where no run is long the text is as short."""
    start, parameters, end = parameters_of(text_of(triple, page))
    switches = [place for place, parameter in enumerate(parameters) if parameter[2] in b"mM" and parameter[1] == b"1"]
    if switches:
        place = draw.choice(switches)
        parameters[place][1] = b"2"
        for parameter in parameters[place + 1:]:
            if parameter[2] in b"mM":
                break
            if parameter[2] == b"W":
                parameter[3] = (repacked(parameter[3]) or parameter[3]) + draw.choice([b""] * 9 + [b"\x80"])
                parameter[1] = b"%d" % len(parameter[3]) if parameter[3] else b""
        set_text(draw, triple, page, start + b"".join(map(b"".join, parameters)) + end)


def respell(draw, triple, page):
    """A parameter of a page text is changed, moved, said twice or left out."""
    start, parameters, end = parameters_of(text_of(triple, page))
    if parameters:
        place = draw.randrange(len(parameters))
        method = b"0"
        for parameter in parameters[:place]:
            method = (parameter[1].lstrip(b"0") or b"0") if parameter[2] in b"mM" else method
        draw.choice(SPELLINGS)(draw, parameters, place, method)
        set_text(draw, triple, page, start + b"".join(map(b"".join, parameters)) + end)


def bytes_made(method, data):
    """How many bytes of a row whole data go over."""
    made = at = 0
    while at < len(data):
        first, at = data[at], at + 1
        if method == b"0":
            made += 1
        elif method == b"1" or method == b"2" and first > 128:
            made, at = made + (first + 1 if method == b"1" else 257 - first), at + 1
        elif method == b"2":
            made, at = made + (first + 1) % 129, at + (first + 1) % 129
        else:
            made, last = made + first % 32, 255 if first % 32 == 31 else 0
            while last == 255:
                last, at = data[at], at + 1
                made += last
            made, at = made + (first >> 5) + 1, at + (first >> 5) + 1
    return made


def data_further(method, count, byte):
    """Data that go this many bytes further, over white ones or those of the row above, and end with a byte."""
    white = count - 1
    if method == b"0":
        return bytes(white) + bytes([byte])
    if method == b"3":
        more = white - 31
        return bytes([min(white, 31)] + ([255] * (more // 255) + [more % 255] if more >= 0 else []) + [byte])
    most = 256 if method == b"1" else 128
    runs = [most] * (white // most) + ([white % most] if white % most else [])
    return b"".join(bytes([run - 1 if method == b"1" or run == 1 else 257 - run, 0]) for run in runs) + bytes([0, byte])


def reach_edge(draw, triple, page):
    """The data of a row go on to its last byte, or one further."""
    start, parameters, end = parameters_of(text_of(triple, page))
    method, sent = b"0", []
    for parameter in parameters:
        method = (parameter[1].lstrip(b"0") or b"0") if parameter[2] in b"mM" else method
        if parameter[2] == b"W":
            sent.append((parameter, method))
    if sent:
        parameter, method = draw.choice(sent)
        count = page.row_bytes - bytes_made(method, parameter[3]) + draw.choice([0, 0, 0, 1])
        if count:
            parameter[3] += data_further(method, count, draw.choice([0, 1 << draw.randrange(8), 1 << draw.randrange(8), 255]))
            parameter[1] = b"%d" % len(parameter[3])
            set_text(draw, triple, page, start + b"".join(map(b"".join, parameters)) + end)


def last_rows(draw, triple, page):
    """The rest of the page, or a row more, is skipped or sent."""
    start, parameters, end = parameters_of(text_of(triple, page))
    rows = sent_rows(triple, page)
    left = page.rows - (rows[-1] + 1 if rows else 0)
    more = draw.choice([[[OPEN, b"%d" % left, b"Y", b""]], [[OPEN, b"%d" % (left + 1), b"Y", b""]],
                        [[OPEN, b"%d" % (left - 1), b"y", b""], [b"", b"", b"W", b""]],
                        [[OPEN, b"%d" % left, b"y", b""], [b"", b"", b"W", b""]]])
    set_text(draw, triple, page, start + b"".join(map(b"".join, parameters + more)) + end)


def zeros_before(draw, parameters, place, method):
    parameters[place][1] = b"0" * draw.choice([1, 2, 30]) + parameters[place][1]


def other_number(draw, parameters, place, method):
    old = int(parameters[place][1] or 0)
    new = draw.choice([old + 1, old + 1, max(old - 1, 0), 0, 1, 3, 4, 65535, 65536, 3300, 10 ** 10])
    parameters[place][1] = draw.choice([b"%d" % new, b"%d" % new, b""])


def other_letter(draw, parameters, place, method):
    letter = parameters[place][2]
    parameters[place][2] = draw.choice([letter.swapcase(), letter.swapcase(), bytes([draw.choice(b"mMyYwWvVX")])])


def other_byte(draw, parameters, place, method):
    data = parameters[place][3]
    if data:
        at = draw.randrange(len(data))
        parameters[place][3] = put(data, at, bytes([draw.choice([data[at] ^ 1 << draw.randrange(8), draw.randrange(256)])]))


def other_data(draw, parameters, place, method):
    """More data or less, as the number says."""
    if parameters[place][2] == b"W":
        data = parameters[place][3]
        ways = [longer_data(draw, method, data)] * 3 + [data[:-1], data + b"\0", data + bytes([draw.randrange(256)] * 2), data * 2]
        ways += [data + more for more in {b"0": [b"\0\0"], b"1": [b"\xff\0", b"\xff\0" * 3], b"2": [b"\x81\0" * 5, b"\x80\x80", b"\x81"],
                                          b"3": [b"\x1f", b"\x1f\xff", b"\x3f\xff\xff\0\0\0", b"\0"]}[method]]
        parameters[place][3] = draw.choice(ways)
        parameters[place][1] = b"%d" % len(parameters[place][3]) if parameters[place][3] else draw.choice([b"", b"0"])


def one_more(draw, parameters, place, method):
    """A parameter that is there already, or one that a body may have."""
    new = draw.choice([list(parameters[place]), [b"", method, b"m", b""], [b"", b"", b"m", b""], [b"", b"1", b"y", b""],
                       [OPEN, b"", b"W", b""], [OPEN, method, b"M", b""]])
    if not new[0] and parameters[place][0]:
        new[0], parameters[place][0] = OPEN, b""
    parameters.insert(place, new)


def one_less(draw, parameters, place, method):
    opens = parameters.pop(place)[0]
    if opens and place < len(parameters):
        parameters[place][0] = OPEN


def two_swapped(draw, parameters, place, method):
    if place + 1 < len(parameters):
        parameters[place], parameters[place + 1] = parameters[place + 1], parameters[place]


def sequence_ended(draw, parameters, place, method):
    """A sequence ends after a parameter that isn't its last, and another begins."""
    if parameters[place][2].islower() and place + 1 < len(parameters):
        parameters[place][2] = parameters[place][2].upper()
        parameters[place + 1][0] = OPEN


def sequence_joined(draw, parameters, place, method):
    """A sequence goes on after what was its last parameter."""
    if place + 1 < len(parameters) and parameters[place + 1][0]:
        parameters[place][2] = parameters[place][2].lower()
        parameters[place + 1][0] = b""


def skip_split(draw, parameters, place, method):
    opens, digits, letter, _ = parameters[place]
    if letter in b"yY" and int(digits or 0) > 1:
        first = draw.randint(1, int(digits) - 1)
        parameters[place:place + 1] = [[opens, b"%d" % first, b"y", b""], [b"", b"%d" % (int(digits) - first), letter, b""]]


SPELLINGS = [zeros_before, other_number, other_letter, other_byte, other_byte, other_data, other_data, one_more, one_less, two_swapped,
             sequence_ended, sequence_joined, skip_split]


def change_order(draw, triple, page):
    """The text of a page stands at the begin or at the end too, or there alone, or in the place of another one's."""
    text, pages = text_of(triple, page), pages_of(triple)
    if len(pages) > 1 and draw.random() < 0.5:
        other = draw.choice(pages)
        first, last = sorted([page, other], key=lambda page: page.at)
        for which, text in ((last, text_of(triple, first)), (first, text_of(triple, last))):
            triple.output = put(triple.output, which.text_at, text, which.length)
            triple.certificate = put(triple.certificate, which.at, len(text).to_bytes(4, "big"))
        return
    place = draw.choice([len(RESET), len(triple.output) - len(RESET)])
    triple.output = put(triple.output, place, text, 0)
    if draw.random() < 0.7:
        triple.output = put(triple.output, page.text_at + (len(text) if place == len(RESET) else 0), b"", len(text))


def move_border(draw, triple, page):
    """A byte or more of a text are said to be another one's."""
    count = number_at(triple.certificate, 8, 4)
    if count > 1:
        bytes_moved = draw.choice([1, 2, len(END)])
        others = [other for other in pages_of(triple) if other.at != page.at]
        other = draw.choice(others)
        for which, more in ((page, bytes_moved), (other, -bytes_moved)):
            length = max(number_at(triple.certificate, which.at, 4) + more, 0)
            triple.certificate = put(triple.certificate, which.at, length.to_bytes(4, "big"))


def spoil_output(draw, triple, page):
    triple.output = spoiled(draw, triple.output)


def spoil_text(draw, triple, page):
    set_text(draw, triple, page, spoiled(draw, text_of(triple, page)))


OF_NODES = [change_node] * 8 + [lower_nodes] * 4 + [raise_nodes]
OF_PLACES = [change_place] * 6 + [change_list] * 3 + [fill_list] * 2 + [empty_lists]
OF_FIELDS = [change_length] * 2 + [change_rows] * 3 + [change_page_count] * 2 + [change_magic, spoil_certificate, spoil_certificate]
OF_TEXTS = [respell] * 8 + [repack] * 3 + [change_start, last_rows, reach_edge, spoil_text] * 2 + [change_order, move_border, spoil_output]
GROUPS = [OF_NODES, OF_PLACES, OF_PLACES, OF_FIELDS, OF_TEXTS, OF_TEXTS]
# What leaves a certificate of as many pages and lists, so that it can be changed again.
KEEPING = [change_node, lower_nodes, raise_nodes, change_place, fill_list, empty_lists]


def exchanged(draw, triple, other):
    """One or two of the three are another job's."""
    for part in draw.sample(["job", "output", "certificate"], draw.choice([1, 1, 2])):
        setattr(triple, part, getattr(other, part))


def change(draw, triple, other):
    chance = draw.random()
    if chance < 0.04:
        exchanged(draw, triple, other())
        return
    if chance < 0.06:
        triple.job = spoiled(draw, triple.job)
        return
    for _ in range(draw.choice([1] * 6 + list(range(1, MOST_CHANGES + 1)))):
        pages = pages_of(triple)
        way = draw.choice(draw.choice(GROUPS)) if pages else draw.choice([spoil_output, spoil_certificate, change_magic])
        way(draw, triple, draw.choice(pages) if pages else None)
        if way not in KEEPING:
            return


def changed(draw, triple, other):
    """A triple that is changed in one way or some; `other` gives another one that is proved."""
    new = triple.copy()
    while new.is_same(triple):
        change(draw, new, other)
    return new
