"""The shortest body that prints a page's rows, by trying every element at every place and every parameter at every
node: a second, plain and slow statement of docs/OUTPUT.md, which shares no line with the product. reference.py asks it
for the bodies of written jobs; run by itself it checks bodies that were worked out by hand.

A row is bytes without pad bits set. `least_body(rows, width)` takes the rows that aren't white by their numbers, the
number of all rows and their bytes, and gives the body as bytes.
"""

import sys

PLAIN, RUNS, PACKED, DELTA = range(4)


def digits(number):
    return str(number).encode() if number else b""


def run_length(row, place, most):
    end = place + 1
    while end < len(row) and row[end] == row[place] and end - place < most:
        end += 1
    return end - place


def elements(method, row, seed, place):
    """The elements that agree with the row from a place on: how far each goes, and its bytes; the preferred first."""
    if method == PLAIN:
        yield 1, row[place:place + 1]
    elif method == RUNS:
        for length in range(run_length(row, place, 256), 0, -1):
            yield length, bytes([length - 1, row[place]])
    elif method == PACKED:
        repeats = run_length(row, place, 128)
        for length in range(min(128, len(row) - place), 0, -1):
            if 2 <= length <= repeats:
                yield length, bytes([257 - length, row[place]])
            yield length, bytes([length - 1]) + row[place:place + length]
    else:
        same = 0
        while place + same < len(row) and row[place + same] == seed[place + same]:
            same += 1
        for offset in range(min(same, len(row) - place - 1), -1, -1):
            if offset < 31:
                head, further = offset, b""
            else:
                more = offset - 31
                head, further = 31, b"\xff" * (more // 255) + bytes([more % 255])
            for length in range(1, min(8, len(row) - place - offset) + 1):
                new = row[place + offset:place + offset + length]
                yield offset + length, bytes([32 * (length - 1) + head]) + further + new


def least_data(method, row, seed):
    """The data of a row over its seed row: the shortest, and among those the preferred elements from the left on."""
    needed = len(row)
    base = seed if method == DELTA else bytes(len(row))
    while needed and row[needed - 1] == base[needed - 1]:
        needed -= 1
    numbers = [0] * (len(row) + 1)
    best = [b""] * (len(row) + 1)
    for place in range(needed - 1, -1, -1):
        found = None
        for stop, data in elements(method, row, seed, place):
            cost = len(data) + numbers[place + stop]
            if method == DELTA:
                key = (cost, -(stop - data_length(data)), len(data))
            else:
                key = (cost, -stop, 0 if is_repeat(method, data) else 1)
            if found is None or key < found[0]:
                found = key, data, stop
        numbers[place] = found[0][0]
        best[place] = found[1], found[2]
    data, place = b"", 0
    while numbers[place]:
        element, stop = best[place]
        data, place = data + element, place + stop
    return data


def data_length(element):
    return (element[0] >> 5) + 1


def is_repeat(method, element):
    return method == PACKED and element[0] > 128


def least_body(rows, count, width):
    """The least body for `count` rows of `width` bytes, all white but those in `rows`."""
    white = bytes(width)
    at = [bytes(rows.get(number, white)).ljust(width, b"\0") for number in range(count)]
    is_white = [not any(row) for row in at]
    last = max([number for number in range(count) if not is_white[number]], default=-1) + 1
    least = {}
    data = {}

    def sent(row, method):
        key = at[row], at[row - 1] if row else white, method
        if key not in data:
            data[key] = least_data(method, key[0], key[1])
        return data[key]

    def closed(row, method):
        return 0 if row >= last else 3 + least[row, method]

    def behind(row, method):
        return min(closed(row, method), least[row, method] if row < last else 1)

    def parameters(row, method):
        """What may stand in an open sequence: its cost with all after it, the preferred first, and the parameter."""
        whites = 0
        while row + whites < count and is_white[row + whites]:
            whites += 1
        for skipped in range(min(whites, last - row), 0, -1):
            yield len(digits(skipped)) + 1 + behind(row + skipped, method), ("y", skipped)
        if row < count:
            bytes_sent = sent(row, method)
            yield len(digits(len(bytes_sent))) + 1 + len(bytes_sent) + closed(row + 1, method), ("W", bytes_sent)

    for row in range(last - 1, -1, -1):
        direct = [min(cost for cost, _ in parameters(row, method)) for method in range(4)]
        for method in range(4):
            least[row, method] = min([direct[method]] + [len(digits(other)) + 1 + direct[other] for other in range(4)])

    body, row, method = b"", 0, PLAIN
    while row < last:
        body += b"\x1b*b"
        is_open = True
        while is_open:
            wanted = least[row, method] if row < last else 1
            chosen = next((p for cost, p in parameters(row, method) if cost == wanted), None)
            if chosen is None:
                other = next(o for o in range(4) if len(digits(o)) + 1 + behind(row, o) == wanted)
                method, number, letter = other, digits(other), "m"
            elif chosen[0] == "y":
                row, number, letter = row + chosen[1], digits(chosen[1]), "y"
            else:
                body += digits(len(chosen[1])) + b"W" + chosen[1]
                row, is_open = row + 1, False
                continue
            is_open = row < last
            body += number + (letter if is_open else letter.upper()).encode()
    return body


def main():
    ff = b"\xff"
    worked = [
        ({0: b"\x80"}, 3300, 300, b"\x1b*b1W\x80"),
        ({100: b"\x80"}, 3300, 300, b"\x1b*b100y1W\x80"),
        ({0: ff * 300}, 3300, 300, b"\x1b*b1m4W\xff\xff\x2b\xff"),
        ({0: ff * 292 + b"\xc0"}, 3507, 293, b"\x1b*b1m6W\xff\xff\x23\xff\x00\xc0"),
        ({0: b"\xff\xff", 1: b"\x00\xff", 2: b"\xff\xff"}, 3300, 300, b"\x1b*b2W\xff\xff\x1b*b2W\x00\xff\x1b*b2W\xff\xff"),
        ({3299: bytes(299) + ff}, 3300, 300, b"\x1b*b3299y3m4W\x1f\xff\x0d\xff"),
        ({0: b"\x80", 1: b"\x80"}, 3300, 300, b"\x1b*b1W\x80\x1b*b1W\x80"),
        ({0: b"\x80", 1: b"\x80", 2: b"\x80"}, 3300, 300, b"\x1b*b1W\x80\x1b*b3mW\x1b*bW"),
        ({0: bytes(31) + ff, 1: bytes(31) + ff + bytes(254) + ff}, 3300, 300, b"\x1b*b3m3W\x1f\x00\xff\x1b*b4W\x1f\xff\x00\xff"),
        ({n: b"\xf0" for n in range(4)}, 3300, 300, b"\x1b*b1W\xf0\x1b*b3mW\x1b*bW\x1b*bW"),
        ({0: b"\x3f\xc0\x03\xfc", 1: b"\x20\x40\x02\x04"}, 3300, 300, b"\x1b*b4W\x3f\xc0\x03\xfc\x1b*b4W\x20\x40\x02\x04"),
        ({87: bytes(7) + b"\x08"}, 3300, 300, b"\x1b*b87y3m2W\x07\x08"),
        ({87: b"\x80"}, 3300, 300, b"\x1b*b87y1W\x80"),
        ({n: ff * 300 for n in range(3300)}, 3300, 300, b"\x1b*b1m4W\xff\xff\x2b\xff\x1b*b3mW" + 3298 * b"\x1b*bW"),
        ({0: b"\xc0", 1: b"\xc0"}, 6600, 600, b"\x1b*b1W\xc0\x1b*b1W\xc0"),
        ({n: b"\xe0" for n in range(3)}, 6600, 600, b"\x1b*b1W\xe0\x1b*b3mW\x1b*bW"),
        ({0: ff * 584 + b"\xf0", 1: ff * 584 + b"\xf0"}, 7014, 585, b"\x1b*b1m8W\xff\xff\xff\xff\x47\xff\x00\xf0\x1b*b3mW"),
        ({0: b"\x0f\xff\xf0\x00\x00\x0f\xff\xf0", 1: b"\x0f\xff\xf0\x00\x00\x0f\xff\xf0",
          2: b"\x0c\x00\x30\x00\x00\x0c\x00\x30", 3: b"\x0c\x00\x30\x00\x00\x0c\x00\x30"}, 6600, 600,
         b"\x1b*b8W\x0f\xff\xf0\x00\x00\x0f\xff\xf0\x1b*b3mW\x1b*b8W\x40\x0c\x00\x30\x42\x0c\x00\x30\x1b*bW"),
    ]
    failed = [wanted for rows, count, width, wanted in worked if least_body(rows, count, width) != wanted]
    for wanted in failed:
        print("not the least body here: %r" % wanted)
    print("%d of %d bodies hold" % (len(worked) - len(failed), len(worked)))
    return 1 if failed else 0


if __name__ == "__main__":
    sys.exit(main())
