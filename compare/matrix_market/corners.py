"""Texts and records made by hand, each with what is due: the number of a refusal, or the bytes."""

import struct

from model import HEADER, record_of

SYMMETRIC = HEADER + b"symmetric\n"
GENERAL = HEADER + b"general\n"


def entries(*lines):
    """A general text of two rows with these entries."""
    return GENERAL + b"2 2 %d\n" % len(lines) + b"".join(line + b"\n" for line in lines)


def one(value):
    """A text with this one value."""
    return GENERAL + b"1 1 1\n1 1 " + value + b"\n"


def gives(value):
    return record_of(1, {(0, 0): value})


def diagonal(rows, value=b"1"):
    return GENERAL + b"%d %d %d\n" % (rows, rows, rows) + b"".join(b"%d %d %s\n" % (row, row, value) for row in range(1, rows + 1))


P = record_of(2, {(0, 0): 4.0, (0, 1): -2.0, (1, 0): -2.0, (1, 1): 2.0})
EMPTY = record_of(0, {})
BIG = b"9" * 30
NAN = float("nan")
THIRD = 1 / 3

# Name, text, and the record or the number.
READ = [
    ("symmetric", SYMMETRIC + b"2 2 3\n1 1 4\n2 1 -2\n2 2 2\n", P),
    ("general", GENERAL + b"2 2 4\n2 2 2\n1 2 -2\n2 1 -2\n1 1 4\n", P),
    ("no-line-feed-at-the-end", SYMMETRIC + b"2 2 3\n1 1 4\n2 1 -2\n2 2 2", P),
    ("carriage-returns", (SYMMETRIC + b"2 2 3\n1 1 4\n2 1 -2\n2 2 2\n").replace(b"\n", b"\r\n"), P),
    ("carriage-return-at-the-end", SYMMETRIC + b"2 2 3\n1 1 4\n2 1 -2\n2 2 2\r", P),
    ("lone-carriage-returns", (SYMMETRIC + b"2 2 3\n1 1 4\n2 1 -2\n2 2 2\n").replace(b"\n", b"\r"), 38),
    ("two-carriage-returns", SYMMETRIC + b"2 2 3\n1 1 4\r\r\n2 1 -2\n2 2 2\n", 39),
    ("carriage-return-in-a-line", SYMMETRIC + b"2 2 3\n1 1\r4\n2 1 -2\n2 2 2\n", 38),
    ("carriage-return-alone-on-a-line", SYMMETRIC + b"2 2 3\n1 1 4\n\r\n2 1 -2\n2 2 2\n", P),
    ("two-of-them-alone-on-a-line", SYMMETRIC + b"2 2 3\n1 1 4\n\r\r\n2 1 -2\n2 2 2\n", 38),
    ("comments-and-blanks", SYMMETRIC + b"%\n\n \t\n%%x\n2\t2   3 \n1 1 4\n%1 1 1\n\t2 1 -2\n2 2 2\n\n%\n", P),
    ("comment-not-at-the-start", SYMMETRIC + b"2 2 3\n1 1 4\n %\n2 1 -2\n2 2 2\n", 38),
    ("comment-behind-an-entry", SYMMETRIC + b"2 2 3\n1 1 4 %\n2 1 -2\n2 2 2\n", 38),
    ("nothing", b"", 38),
    ("header-alone", SYMMETRIC, 38),
    ("header-without-an-end", SYMMETRIC[:-1], 38),
    ("blank-line-before-the-header", b"\n" + SYMMETRIC + b"0 0 0\n", 38),
    ("header-with-a-space", SYMMETRIC[:-1] + b" \n0 0 0\n", 38),
    ("empty", SYMMETRIC + b"0 0 0\n", EMPTY),
    ("empty-general", GENERAL + b"0 0 0", EMPTY),
    ("empty-with-leading-zeros", GENERAL + b"00 000000000000000000000000 0", EMPTY),
    ("empty-with-an-entry", GENERAL + b"0 0 1\n1 1 1\n", 38),
    ("empty-with-a-surplus-entry", GENERAL + b"0 0 0\n1 1 1\n", 38),
    ("rows-without-entries", GENERAL + b"2 2 0\n", record_of(2, {})),
    ("not-square", GENERAL + b"2 3 0\n", 38),
    ("30-digit-sizes", GENERAL + b"%s %s 0\n" % (BIG, BIG), 1),
    ("30-digit-sizes-not-equal", GENERAL + b"%s %s8 0\n" % (BIG, BIG[:-1]), 38),
    ("30-digit-count", GENERAL + b"1 1 %s\n1 1 x\n" % BIG, 1),
    ("sizes-that-wrap", GENERAL + b"18446744073709551617 1 1\n1 1 1\n", 38),
    ("both-sizes-wrap", GENERAL + b"18446744073709551617 18446744073709551617 1\n1 1 1\n", 1),
    ("count-that-wraps", GENERAL + b"1 1 4294967297\n1 1 1\n", 1),
    ("two-sizes", GENERAL + b"2 2\n1 1 1\n", 38),
    ("signed-size", GENERAL + b"+2 2 0\n", 38),
    ("65536-rows", GENERAL + b"65536 65536 1\n65536 65536 1\n", record_of(65_536, {(65_535, 65_535): 1.0})),
    ("65536-rows-all", diagonal(65_536), record_of(65_536, {(row, row): 1.0 for row in range(65_536)})),
    ("65537-rows", GENERAL + b"65537 65537 1\nx\n", 1),
    ("65537-rows-not-square", GENERAL + b"65537 65536 1\n", 38),
    ("1048577-entries", GENERAL + b"2 2 1048577\n1 1 1\n", 1),
    ("1048576-entries-missing", GENERAL + b"2 2 1048576\n1 1 1\n", 38),
    ("entry-missing", entries(b"1 1 1", b"2 2 1").replace(b"2 2 2\n", b"2 2 3\n", 1), 38),
    ("entry-surplus", entries(b"1 1 1", b"2 2 1").replace(b"2 2 2\n", b"2 2 1\n", 1), 38),
    ("surplus-with-a-bad-value", entries(b"1 1 1", b"2 2 x").replace(b"2 2 2\n", b"2 2 1\n", 1), 38),
    ("bad-value-then-surplus", entries(b"1 1 x", b"2 2 1").replace(b"2 2 2\n", b"2 2 1\n", 1), 39),
    ("bad-value-and-missing", entries(b"1 1 x").replace(b"2 2 1\n", b"2 2 2\n", 1), 39),
    ("repeat-then-bad-value", entries(b"1 1 1", b"1 1 1", b"2 2 x"), 38),
    ("bad-value-then-repeat", entries(b"1 1 1", b"2 2 x", b"1 1 1"), 39),
    ("repeat-with-a-bad-value", entries(b"1 1 1", b"1 1 x"), 38),
    ("repeat-of-a-bad-value", entries(b"1 1 x", b"1 1 1"), 39),
    ("repeat-far-apart", entries(b"2 1 1", b"1 1 1", b"2 2 1", b"2 1 1"), 38),
    ("above-the-diagonal", SYMMETRIC + b"2 2 1\n1 2 1\n", 38),
    ("above-the-diagonal-with-a-bad-value", SYMMETRIC + b"2 2 1\n1 2 x\n", 38),
    ("place-0", entries(b"0 1 1"), 38),
    ("place-3", entries(b"3 1 1"), 38),
    ("place-with-leading-zeros", entries(b"0001 02 1"), record_of(2, {(0, 1): 1.0})),
    ("place-that-wraps", entries(b"4294967297 1 1"), 38),
    ("place-that-wraps-at-64-bits", entries(b"1 18446744073709551617 1"), 38),
    ("place-with-a-sign", entries(b"+1 1 1"), 38),
    ("two-fields", entries(b"1 1"), 38),
    ("four-fields", entries(b"1 1 1 1"), 38),
    ("5.", one(b"5."), gives(5.0)),
    (".5", one(b".5"), gives(0.5)),
    (".", one(b"."), 39),
    ("+5", one(b"+5"), gives(5.0)),
    ("-0", one(b"-0"), gives(-0.0)),
    ("-.0e5", one(b"-.0e5"), gives(-0.0)),
    ("0e22", one(b"0e22"), gives(0.0)),
    ("0e23", one(b"0e23"), 39),
    ("0.0e23", one(b"0.0e23"), gives(0.0)),
    ("0.00e-21", one(b"0.00e-21"), 39),
    ("1e22", one(b"1e22"), gives(1e22)),
    ("1e23", one(b"1e23"), 39),
    (".1e23", one(b".1e23"), gives(1e22)),
    ("10.e22", one(b"10.e22"), gives(1e23)),
    ("999999999999999e22", one(b"999999999999999e22"), gives(999999999999999e22)),
    ("999999999999999e-22", one(b"999999999999999e-22"), gives(999999999999999e-22)),
    ("15-digits", one(b"1.00000000000000"), gives(1.0)),
    ("16-digits-of-trailing-zeros", one(b"1.000000000000000"), 39),
    ("16-digits", one(b"1000000000000000"), 39),
    ("leading-zeros", one(b"0000000000000000000000123456789012345"), gives(123456789012345.0)),
    ("leading-zeros-across-the-point", one(b"00.000000000123456789012"), gives(123456789012e-21)),
    ("long-power", one(b"1e+00000000000000000000000000022"), gives(1e22)),
    ("power-that-wraps", one(b"1e18446744073709551616"), 39),
    ("power-that-wraps-below", one(b"1e-4294967296"), 39),
    ("long-power-beside-digits", one(b"0." + b"0" * 40 + b"1e41"), gives(1.0)),
    ("power-without-digits", one(b"1e"), 39),
    ("power-with-a-point", one(b"1e1.0"), 39),
    ("two-points", one(b"1.0.0"), 39),
    ("nan", one(b"nan"), 39),
    ("other-white-space", one(b"1\x0b"), 39),
    ("nul", one(b"1\0"), 39),
]

LOWER = {(0, 0): 1.0, (1, 0): 2.0, (1, 1): 1.0}


def pair(upper, lower, diagonal=1.0):
    return record_of(2, {(0, 0): diagonal, (0, 1): upper, (1, 0): lower, (1, 1): diagonal})


def single(value):
    return record_of(1, {(0, 0): value})


def text(value, kind=GENERAL):
    return kind + b"1 1 1\n1 1 " + value + b"\n"


def words(rows, count, offsets, columns, values):
    """A record of any numbers."""
    return b"MX" + struct.pack(f"<{2 + len(offsets) + len(columns)}I", rows, count, *offsets, *columns) + struct.pack(f"<{len(values)}d", *values)


# Name, record, kind, and the text or the number.
WRITE = [
    ("symmetric", P, b"symmetric", SYMMETRIC + b"2 2 3\n1 1 4\n2 1 -2\n2 2 2\n"),
    ("general", P, b"general", GENERAL + b"2 2 4\n1 1 4\n1 2 -2\n2 1 -2\n2 2 2\n"),
    ("empty", EMPTY, b"symmetric", SYMMETRIC + b"0 0 0\n"),
    ("empty-general", EMPTY, b"general", GENERAL + b"0 0 0\n"),
    ("no-bytes", b"", b"general", 32),
    ("mark-alone", b"MX", b"general", 32),
    ("another-mark", b"CO" + P[2:], b"general", 32),
    ("one-byte-short", P[:-1], b"general", 32),
    ("one-byte-more", P + b"\0", b"general", 32),
    ("sizes-that-wrap", words(2**32 - 1, 2**32 - 1, [0], [], []), b"general", 32),
    ("65536-rows", record_of(65_536, {}), b"general", GENERAL + b"65536 65536 0\n"),
    ("65537-rows", record_of(65_537, {}), b"general", 1),
    ("65537-rows-one-byte-short", record_of(65_537, {})[:-1], b"general", 32),
    ("1048577-entries", words(1, 1_048_577, [0, 0], [0] * 1_048_577, [NAN] * 1_048_577), b"general", 1),
    ("offset-not-zero", words(1, 1, [1, 1], [0], [1.0]), b"general", 2),
    ("offsets-fall", words(2, 1, [0, 2, 1], [0], [NAN]), b"general", 2),
    ("offsets-end-elsewhere", words(1, 1, [0, 0], [5], [NAN]), b"general", 2),
    ("column-too-large", words(1, 1, [0, 1], [1], [NAN]), b"general", 3),
    ("columns-equal", words(2, 2, [0, 2, 2], [0, 0], [NAN, 1.0]), b"general", 3),
    ("bad-value-before-bad-column", words(2, 2, [0, 1, 2], [0, 7], [NAN, 1.0]), b"general", 3),
    ("one-half", single(0.5), b"general", text(b"5e-1")),
    ("1e21", single(1e21), b"general", text(b"100000000000000e7")),
    ("1e14", single(1e14), b"general", text(b"100000000000000")),
    ("1e15", single(1e15), b"general", text(b"100000000000000e1")),
    ("1e36", single(1e36), b"general", text(b"100000000000000e22")),
    ("1e37", single(1e37), b"general", 39),
    ("1e-22", single(1e-22), b"general", text(b"1e-22")),
    ("1e-23", single(1e-23), b"general", 39),
    ("2-to-the-53", single(2.0**53), b"general", 39),
    ("one-third", single(THIRD), b"general", 39),
    ("minus-zero", single(-0.0), b"symmetric", text(b"0", SYMMETRIC)),
    ("below-zero", single(-2.5), b"symmetric", text(b"-25e-1", SYMMETRIC)),
    ("100", single(100.0), b"general", text(b"100")),
    ("nan", single(NAN), b"symmetric", 39),
    ("infinity", single(float("inf")), b"general", 39),
    ("least", single(5e-324), b"general", 39),
    ("mirror-missing", record_of(2, LOWER), b"symmetric", 40),
    ("mirror-missing-general", record_of(2, LOWER), b"general", GENERAL + b"2 2 3\n1 1 1\n2 1 2\n2 2 1\n"),
    ("mirrors-unequal", pair(1.0, 2.0), b"symmetric", 40),
    ("mirrors-one-unit-apart", pair(1.0, 1.0000000000000002), b"symmetric", 40),
    ("mirrors-with-zeros-of-two-signs", pair(0.0, -0.0), b"symmetric", SYMMETRIC + b"2 2 3\n1 1 1\n2 1 0\n2 2 1\n"),
    ("upper-cannot-be-written", pair(THIRD, 0.5), b"symmetric", 39),
    ("lower-cannot-be-written", pair(0.5, THIRD), b"symmetric", 40),
    ("neither-can-be-written", pair(THIRD, THIRD), b"symmetric", 39),
    ("diagonal-cannot-be-written", pair(1.0, 2.0, THIRD), b"symmetric", 39),
    ("last-diagonal-cannot-be-written", record_of(2, {(0, 0): 1.0, (0, 1): 1.0, (1, 0): 2.0, (1, 1): THIRD}), b"symmetric", 40),
    ("nan-mirrors", pair(NAN, NAN), b"symmetric", 39),
]


def mirrors_too_many():
    """A symmetric text with so many entries that those with their mirrors are one pair too many; and one with as many as there may be."""
    # Each row with its last columns below the diagonal, up to a count.
    def build(wanted):
        lines, count, row = [], 0, 1
        while count < wanted:
            row += 1
            for column in range(max(1, row - 40), row):
                if count == wanted:
                    break
                lines.append(b"%d %d 1\n" % (row, column))
                count += 1
        return SYMMETRIC + b"65536 65536 %d\n" % count + b"".join(lines)

    return build(524_288), build(524_289)
