"""Texts and records for the comparison: as they should be, spoiled, and cut."""

import struct

from model import HEADER, record_of

SPOILED_HEADERS = [
    b"%%MatrixMarket matrix coordinate real",
    b"%%MatrixMarket matrix coordinate real ",
    b"%%MatrixMarket matrix coordinate real general ",
    b" %%MatrixMarket matrix coordinate real general",
    b"%%MatrixMarket  matrix coordinate real general",
    b"%%MatrixMarket\tmatrix coordinate real general",
    b"%%matrixmarket matrix coordinate real general",
    b"%%MatrixMarket matrix coordinate real General",
    b"%%MatrixMarket matrix coordinate integer general",
    b"%%MatrixMarket matrix coordinate real skew-symmetric",
    b"%%MatrixMarket matrix array real general",
    b"%MatrixMarket matrix coordinate real general",
    b"%%MatrixMarket matrix coordinate real symmetri",
    b"%%MatrixMarket matrix coordinate real symmetrical",
    b"%%MatrixMarket matrix coordinate real general\r",
    b"",
]

ODD_VALUES = [
    b"5.", b".5", b".", b"+5", b"-5", b"-0", b"+0", b"-0.0", b"0e23", b"0e22", b"0e-22", b"0e-23", b"0.0e23", b"1e22", b"1e23", b"1e-22", b"1e-23",
    b"10e22", b".1e23", b".1e24", b"1.e22", b"1.0e22", b"1.0e-21", b"1.0e-22", b"100000000000000", b"1000000000000000", b"123456789012345",
    b"1234567890123456", b"000000000000000000123456789012345", b"0.000000000000001", b"1.00000000000000", b"1.000000000000000",
    b"0.0000000000000000000001", b"0.00000000000000000000001", b"0000000000000000000000000000", b"0.0000000000000000000000", b"0.00000000000000000000000",
    b"1e+5", b"1E5", b"1E-5", b"1e", b"1e+", b"e5", b"+", b"-", b"+-1", b"1e5.", b"1.2.3", b"..", b"1e0000000000000000000000000000022",
    b"1e-000000000022", b"1e99999999999999999999999999", b"1e-99999999999999999999999999", b"1e18446744073709551616", b"1e4294967296", b"0x10", b"nan",
    b"inf", b"1,5", b"1d5", b"1_000", b"\xb2", b"1\0", b"\r", b"1\r", b"5\x0b", b"999999999999999e22", b"999999999999999e-22", b"1e-0", b"1e+0", b"+.5e-3", b"-5.E+3",
]


def value_text(random):
    """A value as a partner may write it: mostly of the form."""
    choice = random.randrange(12)
    if choice == 0:
        return random.choice(ODD_VALUES)
    if choice == 1:
        return repr(random.uniform(-10, 10)).encode()
    if choice == 2:
        return b"%d" % random.randrange(-100, 100)
    digits = "".join(random.choice("0123456789") for _ in range(random.choice([1, 2, 3, 5, 14, 15, 15, 16])))
    digits = "0" * random.choice([0, 0, 0, 1, 3, 20]) + digits
    if random.randrange(2):
        at = random.randrange(len(digits) + 1)
        digits = digits[:at] + "." + digits[at:]
    text = random.choice(["", "", "-", "+"]) + digits
    if random.randrange(2):
        near = random.choice([random.randrange(-9, 10), random.randrange(-24, 25), random.choice([-22, 22, -8, 8])])
        sign = "-" if near < 0 else random.choice(["", "+"])
        text += random.choice("eE") + sign + "0" * random.choice([0, 0, 1, 4]) + str(abs(near))
    return text.encode()


def plain_value_text(random):
    """Of the form, always."""
    digits = random.randrange(10 ** random.choice([1, 2, 3, 8, 15]))
    power = random.choice([0, 0, 0, -1, -2, random.randrange(-22, 23)])
    text = b"%d" % digits + (b"e%d" % power if power or random.randrange(4) == 0 else b"")
    return (b"-" if random.randrange(2) else b"") + text


def pattern(random, symmetric, most=12):
    """Rows and places, from 0; of a symmetric one those on or below the diagonal."""
    rows = random.choice([0, 1, 1, 2, 2, 3, 4, 6, most])
    density = random.choice([0.0, 0.1, 0.3, 0.6, 1.0])
    places = [(row, column) for row in range(rows) for column in range(row + 1 if symmetric else rows)]
    return rows, [place for place in places if place[0] == place[1] or random.random() < density]


def text(random):
    """Some kind of text, and its bytes."""
    symmetric = random.randrange(2) == 0
    rows, places = pattern(random, symmetric)
    if random.randrange(2):
        random.shuffle(places)
    draw = plain_value_text if random.randrange(4) else value_text
    lines = [b"%d %d %s" % (row + 1, column + 1, draw(random)) for row, column in places]
    lines = [HEADER + (b"symmetric" if symmetric else b"general"), b"%d %d %d" % (rows, rows, len(lines))] + lines
    name = "as-it-should-be" if draw is plain_value_text else "any-values"
    if random.randrange(2) == 0:
        name, spoil = random.choice(TEXT_SPOILS)
        spoil(random, lines)
    if random.randrange(2) == 0:
        lines = dressed(random, lines)
    data = joined(random, lines)
    choice = random.randrange(24)
    if choice == 0:
        return "cut", data[: random.randrange(len(data) + 1)]
    if choice == 1 and data:
        return "bytes-changed", changed(random, data, b"\r\n \t%0123456789.eE+-\0\xff")
    return name, data


def joined(random, lines):
    """The lines with one kind of end, or with any."""
    ends = random.choice([[b"\n"], [b"\n"], [b"\r\n"], [b"\n", b"\r\n"], [b"\n", b"\n", b"\r\r\n", b"\r"]])
    data = b"".join(line + random.choice(ends) for line in lines)
    if random.randrange(4) == 0:
        data = data[:-1]
    return data


def dressed(random, lines):
    """Comments, blank lines, and more space; the header stays as it is."""
    out = lines[:1]
    for line in lines[1:]:
        while random.randrange(4) == 0:
            out.append(random.choice([b"", b" ", b"\t \t", b"%", b"% a comment", b"%%MatrixMarket", b"%\r", b"% 1 1 1"]))
        if random.randrange(3) == 0:
            line = random.choice([b"", b" ", b"\t"]) + line.replace(b" ", random.choice([b"  ", b"\t", b" \t "])) + random.choice([b"", b" ", b"\t"])
        out.append(line)
    return out


def changed(random, data, bytes_):
    data = bytearray(data)
    for _ in range(random.choice([1, 1, 2, 3])):
        at = random.randrange(len(data))
        choice = random.randrange(3)
        if choice == 0:
            data[at] = random.choice(bytes_)
        elif choice == 1:
            data.insert(at, random.choice(bytes_))
        elif len(data) > 1:
            del data[at]
    return bytes(data)


def any_line(random, lines):
    """The place of an entry line, or of the size line where there is none."""
    return random.randrange(2, len(lines)) if len(lines) > 2 else 1


def spoil_header(random, lines):
    lines[0] = random.choice(SPOILED_HEADERS)


def spoil_sizes(random, lines):
    rows, columns, count = lines[1].split()
    big = b"9" * 30
    lines[1] = random.choice(
        [
            b"%s %s" % (rows, count), b"%s %s %s %s" % (rows, columns, count, count), b"%s %d %s" % (rows, int(columns) + 1, count),
            b"%s %s %d" % (rows, columns, int(count) + 1), b"%s %s %d" % (rows, columns, max(0, int(count) - 1)),
            b"%d %d %s" % (int(rows) + 1, int(rows) + 1, count), b"00%s %s 0000%s" % (rows, columns, count), b"+%s %s %s" % (rows, columns, count),
            b"-1 -1 %s" % count, b"%s.0 %s %s" % (rows, columns, count), b"65536 65536 %s" % count, b"65537 65537 %s" % count,
            b"65537 65536 %s" % count, b"%s %s 1048576" % (rows, columns), b"%s %s 1048577" % (rows, columns), b"%s %s %s" % (big, big, count),
            b"%s %s8 %s" % (big, big[:-1], count), b"%s %s %s" % (rows, columns, big), b"4294967296 4294967296 0", b"18446744073709551617 1 0",
            b"1 18446744073709551617 1", b"0%s %s %s" % (big, big, count), b"",
        ]
    )


def spoil_place(random, lines):
    at = any_line(random, lines)
    fields = lines[at].split()
    fields[random.randrange(2)] = random.choice([b"0", b"1", b"2", b"13", b"+1", b"-1", b"1.0", b"01", b"000000000000000000000000000001", b"18446744073709551617", b"4294967297", b"x", b"1e0"])
    lines[at] = b" ".join(fields)


def spoil_fields(random, lines):
    at = any_line(random, lines)
    fields = lines[at].split()
    if random.randrange(2):
        fields.insert(random.randrange(len(fields) + 1), random.choice([b"1", b"%", b"0", b"x"]))
    else:
        fields.pop(random.randrange(len(fields)))
    lines[at] = b" ".join(fields)


def spoil_value(random, lines):
    at = any_line(random, lines)
    lines[at] = b" ".join(lines[at].split()[:2] + [random.choice(ODD_VALUES)])


def spoil_twice(random, lines):
    spoil_value(random, lines)
    random.choice([spoil_value, spoil_repeat, spoil_place, spoil_fields])(random, lines)


def spoil_repeat(random, lines):
    """An entry again, at times with another value, in the place of another or as one more; the count is then right or not."""
    line = lines[any_line(random, lines)]
    if random.randrange(2):
        line = b" ".join(line.split()[:2] + [random.choice([b"1", b"x", b"2e-1"])])
    if random.randrange(2) and len(lines) > 2:
        lines[any_line(random, lines)] = line
        return
    lines.insert(random.randrange(2, len(lines) + 1), line)
    if random.randrange(2):
        sizes = lines[1].split()
        if len(sizes) == 3 and sizes[2].isdigit():
            lines[1] = b"%s %s %d" % (sizes[0], sizes[1], int(sizes[2]) + 1)


def spoil_line_gone(random, lines):
    lines.pop(random.randrange(len(lines)))


def spoil_line_more(random, lines):
    lines.insert(random.randrange(len(lines) + 1), random.choice([b"1 1 1", b"1", b"x", b"\r", b" % no comment", b"1 1 1 1", b"1 1 1e999"]))


def spoil_upper(random, lines):
    at = any_line(random, lines)
    fields = lines[at].split()
    fields[0], fields[1] = fields[1], fields[0]
    lines[at] = b" ".join(fields)


TEXT_SPOILS = [
    ("header", spoil_header),
    ("sizes", spoil_sizes),
    ("place", spoil_place),
    ("fields", spoil_fields),
    ("value", spoil_value),
    ("two-spoiled", spoil_twice),
    ("repeated", spoil_repeat),
    ("line-gone", spoil_line_gone),
    ("line-more", spoil_line_more),
    ("place-swapped", spoil_upper),
]


# Records.

ODD_FLOATS = [
    0.0, -0.0, 0.5, 1e21, 1e22, 1e23, 1e36, 1e37, 2.0**53, 2.0**52, 1 / 3, 1e-22, 1e-23, 5e-324, 1.7976931348623157e308, float("inf"), float("-inf"),
    float("nan"), 999999999999999.0, 1e15, 1e15 + 1, 123456789012345e22, 999999999999999e22, 0.1, 0.3, 1e14, 2.0**-22, 2.0**-23, 1e-7, 99999999999999.9,
]


def float_value(random):
    choice = random.randrange(16)
    if choice == 0:
        return random.choice(ODD_FLOATS)
    if choice == 1:
        return struct.unpack("<d", random.randbytes(8))[0]
    if choice == 2:
        return beside(random, plain_float(random))
    if choice == 3:
        return random.uniform(-1, 1) * 10.0 ** random.randrange(-30, 40)
    return plain_float(random)


def plain_float(random):
    digits = random.randrange(10 ** random.choice([1, 2, 3, 8, 15]))
    power = random.choice([0, 0, -1, -3, random.randrange(-22, 23)])
    value = float(f"{digits}e{power}")
    return -value if random.randrange(2) else value


def beside(random, value):
    """The float next to it."""
    bits = struct.unpack("<q", struct.pack("<d", value))[0]
    return struct.unpack("<d", struct.pack("<Q", (bits + random.choice([-1, 1])) & (2**64 - 1)))[0]


def record(random):
    """Some kind of record, and its bytes."""
    mirrored = random.randrange(3) != 0
    rows, places = pattern(random, mirrored)
    draw = plain_float if random.randrange(3) else float_value
    entries = {place: draw(random) for place in places}
    if mirrored:
        entries.update({(column, row): value for (row, column), value in list(entries.items())})
    name = ("mirrored" if mirrored else "general") + ("" if draw is plain_float else "-any-values")
    if random.randrange(3) == 0 and entries:
        name, spoil = random.choice(ENTRY_SPOILS)
        spoil(random, entries)
    data = record_of(rows, entries)
    if random.randrange(4) == 0:
        name, spoil = random.choice(RECORD_SPOILS)
        data = spoil(random, data)
    return name, data


def spoil_entry_gone(random, entries):
    entries.pop(random.choice(sorted(entries)))


def spoil_entry_value(random, entries):
    entries[random.choice(sorted(entries))] = random.choice(ODD_FLOATS)


def spoil_entry_beside(random, entries):
    place = random.choice(sorted(entries))
    entries[place] = beside(random, entries[place])


def spoil_entry_sign(random, entries):
    place = random.choice(sorted(entries))
    entries[place] = -entries[place]


def spoil_entry_zero(random, entries):
    """Zeros of two signs are equal as numbers."""
    row, column = random.choice(sorted(entries))
    entries[row, column] = 0.0
    if (column, row) in entries:
        entries[column, row] = -0.0


ENTRY_SPOILS = [
    ("entry-gone", spoil_entry_gone),
    ("entry-value", spoil_entry_value),
    ("entry-beside", spoil_entry_beside),
    ("entry-sign", spoil_entry_sign),
    ("entry-zero", spoil_entry_zero),
]


def spoil_word(random, data):
    """A word of sizes, offsets or columns."""
    if len(data) < 14:
        return data
    rows, count = struct.unpack_from("<2I", data, 2)
    words = 2 + rows + 1 + count
    at = 2 + 4 * random.choice([0, 1, random.randrange(words), random.randrange(words)])
    old = struct.unpack_from("<I", data, at)[0]
    word = random.choice([0, 1, rows, count, (old + 1) % 2**32, (old - 1) % 2**32, 65_536, 65_537, 2**32 - 1])
    return data[:at] + struct.pack("<I", word) + data[at + 4 :]


def spoil_columns_swapped(random, data):
    rows, count = struct.unpack_from("<2I", data, 2)
    if count < 2:
        return data
    at = 10 + 4 * (rows + 1) + 4 * random.randrange(count - 1)
    return data[:at] + data[at + 4 : at + 8] + data[at : at + 4] + data[at + 8 :]


RECORD_SPOILS = [
    ("word", spoil_word),
    ("columns-swapped", spoil_columns_swapped),
    ("record-cut", lambda random, data: data[: random.randrange(len(data) + 1)]),
    ("record-longer", lambda random, data: data + random.randbytes(random.choice([1, 4, 8, 12]))),
    ("mark", lambda random, data: random.choice([b"mx", b"XM", b"CO", b"M\0", b"\0X"]) + data[2:]),
    ("record-bytes-changed", lambda random, data: changed(random, data, bytes(range(256)))),
]
