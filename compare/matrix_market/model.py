"""Matrix Market files and MX records, from the words of Q-12 in document 02, with exact numbers.

`read` and `write` answer what is due: the bytes, or the number of a refusal. `read_into` and `write_into` do the same with an output of a given
length, which is all zeros after a refusal and zeros behind what a success wrote.
"""

import math
import struct

HEADER = b"%%MatrixMarket matrix coordinate real "
KINDS = (b"symmetric", b"general")
MOST_ROWS = 65_536
MOST_ENTRIES = 1_048_576
MOST_DIGITS = 15
MOST_POWER = 22

TOO_LARGE, BAD_OFFSETS, BAD_COLUMNS, SHORT_OUTPUT, BAD_RECORD, BAD_TEXT, BAD_VALUE, NOT_SYMMETRIC = 1, 2, 3, 9, 32, 38, 39, 40


class Refused(Exception):
    """The number of what refuses."""

    def __init__(self, number):
        super().__init__(number)
        self.number = number


# Reading.


def lines_of(text):
    """Lines end at a line feed or at the end; one carriage return before that end is no part of a line."""
    parts = text.split(b"\n")
    if parts[-1] == b"":
        parts.pop()
    for line in parts:
        yield line[:-1] if line.endswith(b"\r") else line


def fields_of(line):
    """Spaces and tabs part fields; no other byte does."""
    return [field for field in line.replace(b"\t", b" ").split(b" ") if field]


def is_digits(field):
    return len(field) > 0 and all(0x30 <= byte <= 0x39 for byte in field)


def whole(digits):
    """Digits of any length as a number: Python's own conversion has a limit."""
    number = 0
    for start in range(0, len(digits), 1000):
        part = digits[start : start + 1000]
        number = number * 10 ** len(part) + int(part)
    return number


def value_of(field):
    """The float of a value, or None where it is outside the form."""
    rest = field
    negative = rest[:1] == b"-"
    if rest[:1] in (b"-", b"+"):
        rest = rest[1:]
    at = next((place for place, byte in enumerate(rest) if byte in b"eE"), None)
    mantissa, power = (rest, b"0") if at is None else (rest[:at], rest[at + 1 :])
    falling = power[:1] == b"-"
    if power[:1] in (b"-", b"+"):
        power = power[1:]
    if mantissa.count(b".") > 1 or not is_digits(mantissa.replace(b".", b"", 1)) or not is_digits(power):
        return None
    before, _, after = mantissa.partition(b".")
    digits = (before + after).lstrip(b"0")
    # After the point is moved to the end of the digits.
    exponent = (-whole(power) if falling else whole(power)) - len(after)
    if len(digits) > MOST_DIGITS or abs(exponent) > MOST_POWER:
        return None
    number = rounded(whole(digits) if digits else 0, exponent)
    return -number if negative else number


TENS = [10**power for power in range(MOST_POWER + 1)]


def rounded(digits, exponent):
    """digits times ten to the exponent, rounded to nearest, ties to even: so Python divides whole numbers, of any size."""
    if exponent < 0:
        return digits / TENS[-exponent]
    return digits * TENS[exponent] / 1


def entries_of(text):
    """Rows, and the entries as a dictionary from (row, column), from 0, to the float; mirrors are among them."""
    lines = lines_of(text)
    first = next(lines, None)
    if first not in [HEADER + kind for kind in KINDS]:
        raise Refused(BAD_TEXT)
    symmetric = first.endswith(b"symmetric")
    lines = (line for line in lines if fields_of(line) and not line.startswith(b"%"))
    sizes = fields_of(next(lines, b""))
    if len(sizes) != 3 or not all(is_digits(size) for size in sizes):
        raise Refused(BAD_TEXT)
    rows, columns, stated = (whole(size) for size in sizes)
    if rows != columns:
        raise Refused(BAD_TEXT)
    if rows > MOST_ROWS or stated > MOST_ENTRIES:
        raise Refused(TOO_LARGE)
    found = {}
    for count, line in enumerate(lines):
        fields = fields_of(line)
        if count >= stated or len(fields) != 3 or not is_digits(fields[0]) or not is_digits(fields[1]):
            raise Refused(BAD_TEXT)
        row, column = whole(fields[0]), whole(fields[1])
        if not 1 <= row <= rows or not 1 <= column <= rows or (symmetric and column > row):
            raise Refused(BAD_TEXT)
        if (row - 1, column - 1) in found:
            raise Refused(BAD_TEXT)
        value = value_of(fields[2])
        if value is None:
            raise Refused(BAD_VALUE)
        found[row - 1, column - 1] = value
    if len(found) != stated:
        raise Refused(BAD_TEXT)
    if symmetric:
        found.update({(column, row): value for (row, column), value in found.items()})
    if len(found) > MOST_ENTRIES:
        raise Refused(TOO_LARGE)
    return rows, found


def record_of(rows, entries):
    """The MX record with its mark."""
    places = sorted(entries)
    offsets = [0] * (rows + 1)
    for row, _ in places:
        offsets[row + 1] += 1
    for row in range(rows):
        offsets[row + 1] += offsets[row]
    count = len(places)
    return b"".join(
        [
            b"MX",
            struct.pack("<2I", rows, count),
            struct.pack(f"<{rows + 1}I", *offsets),
            struct.pack(f"<{count}I", *(column for _, column in places)),
            struct.pack(f"<{count}d", *(entries[place] for place in places)),
        ]
    )


def read(text):
    """The record of a text."""
    return record_of(*entries_of(text))


# Writing.


def arrays_of(record):
    """Rows, offsets, columns and values of a record: 32, then 1 to 3."""
    if record[:2] != b"MX" or len(record) < 10:
        raise Refused(BAD_RECORD)
    rows, count = struct.unpack_from("<2I", record, 2)
    if len(record) != 10 + 4 * (rows + 1) + 12 * count:
        raise Refused(BAD_RECORD)
    if rows > MOST_ROWS or count > MOST_ENTRIES:
        raise Refused(TOO_LARGE)
    offsets = struct.unpack_from(f"<{rows + 1}I", record, 10)
    columns = struct.unpack_from(f"<{count}I", record, 10 + 4 * (rows + 1))
    values = struct.unpack_from(f"<{count}d", record, 10 + 4 * (rows + 1) + 4 * count)
    if offsets[0] != 0 or offsets[-1] != count or any(a > b for a, b in zip(offsets, offsets[1:])):
        raise Refused(BAD_OFFSETS)
    for start, end in zip(offsets, offsets[1:]):
        own = columns[start:end]
        if any(column >= rows for column in own) or any(a >= b for a, b in zip(own, own[1:])):
            raise Refused(BAD_COLUMNS)
    return rows, offsets, columns, values


def possible(size, power):
    """Whole numbers of at most 15 digits that give this size with the power."""
    above, below = size.as_integer_ratio()
    near = above * TENS[-power] // below if power < 0 else above // (below * TENS[power])
    tried = range(max(1, near - 1), min(near + 3, 10**MOST_DIGITS))
    return [digits for digits in tried if rounded(digits, power) == size]


def text_of(value):
    """The text of a float, or None where no number of the form gives it."""
    if value == 0:
        return b"0"
    if not math.isfinite(value):
        return None
    sign = b"-" if value < 0 else b""
    # Of the possible powers the one nearest zero is taken.
    for distance in range(MOST_POWER + 1):
        found = [(digits, power) for power in {-distance, distance} for digits in possible(abs(value), power)]
        if found:
            # There is one such number, and not one on either side of zero.
            assert len(found) == 1, (value, found)
            digits, power = found[0]
            return sign + b"%d" % digits + (b"e%d" % power if power else b"")
    return None


def write(record, kind):
    """The text of a record, symmetric or general."""
    rows, offsets, columns, values = arrays_of(record)
    entries = {}
    for row in range(rows):
        for entry in range(offsets[row], offsets[row + 1]):
            entries[row, columns[entry]] = values[entry]
    symmetric = kind == b"symmetric"
    written = []
    for (row, column), value in entries.items():
        text = text_of(value)
        if text is None:
            raise Refused(BAD_VALUE)
        if symmetric and (column, row) not in entries:
            raise Refused(NOT_SYMMETRIC)
        if symmetric and entries[column, row] != value:
            raise Refused(NOT_SYMMETRIC)
        if not symmetric or column <= row:
            written.append(b"%d %d %s\n" % (row + 1, column + 1, text))
    return b"".join([HEADER + kind + b"\n", b"%d %d %d\n" % (rows, rows, len(written))] + written)


# Outputs of a given length.


def into(make, length):
    """0 and the output, or the number of the refusal and zeros."""
    try:
        made = make()
        if len(made) > length:
            raise Refused(SHORT_OUTPUT)
        return 0, made + bytes(length - len(made))
    except Refused as refused:
        return refused.number, bytes(length)


def read_into(text, length):
    return into(lambda: read(text), length)


def write_into(record, kind, length):
    return into(lambda: write(record, kind), length)


def due(make):
    """The bytes that a program prints."""
    try:
        return make()
    except Refused as refused:
        return b"refused %d\n" % refused.number
