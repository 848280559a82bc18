"""Matrix Market files: a text to offsets, columns and values, and these to a text."""

import ctypes
import sys
from array import array

from .library import LIBRARY, MOST_ENTRIES, MOST_ROWS, Answer
from .refusals import StoreTooSmall, refusal

_slice = [ctypes.c_void_p, ctypes.c_size_t]
# What stands before the offsets in an MX record: the mark, the rows and the entries.
_HEAD = 10
# The least that an entry takes in a text, and the most: two places of 5 digits, a value of 20 bytes, two spaces and a line feed.
_LEAST_LINE, _MOST_LINE, _MOST_HEAD = 6, 33, 128


class Converted(ctypes.Structure):
    """struct multigrid_converted"""

    _fields_ = [("answer", Answer), ("length", ctypes.c_uint64)]


LIBRARY.multigrid_read_matrix_file.argtypes = [*_slice] * 8
LIBRARY.multigrid_read_matrix_file.restype = Converted
LIBRARY.multigrid_write_matrix_file.argtypes = [ctypes.c_uint64, *_slice, *_slice]
LIBRARY.multigrid_write_matrix_file.restype = Converted


def _numbers(kind, data):
    """Numbers that a record has, their least byte first."""
    numbers = array(kind)
    numbers.frombytes(data)
    if sys.byteorder == "big":
        numbers.byteswap()
    return numbers


def _bytes(numbers):
    if sys.byteorder == "big":
        numbers = numbers[:]
        numbers.byteswap()
    return numbers.tobytes()


def _record(text, most):
    """The MX record of a text, with room for so many entries and their mirrors."""
    words = [(ctypes.c_uint32 * count)() for count in (most, most, MOST_ROWS + 1, most, most)]
    values = (ctypes.c_double * most)()
    out = (ctypes.c_uint8 * (_HEAD + 4 + 4 * MOST_ROWS + 12 * most))()
    rows, columns, starts, order, links = words
    slices = [ctypes.create_string_buffer(text, len(text) or 1)]
    lent = [ctypes.addressof(slices[0]), len(text)]
    for part in (rows, columns, values, starts, order, links, out):
        lent += [ctypes.addressof(part), len(part)]
    converted = LIBRARY.multigrid_read_matrix_file(*lent)
    return converted, bytes(memoryview(out)[: converted.length])


def read_matrix_market(file):
    """Offsets, columns and values, each as an `array`, of a Matrix Market file: its name, a file that is open for bytes, or the bytes themselves. Of a symmetric file both triangles
    are there. The values are those that the file says, correctly rounded.

    >>> text = b"%%MatrixMarket matrix coordinate real symmetric\\n2 2 3\\n1 1 4\\n2 1 -2\\n2 2 2\\n"
    >>> offsets, columns, values = read_matrix_market(text)
    >>> list(offsets), list(columns), list(values)
    ([0, 2, 4], [0, 1, 0, 1], [4.0, -2.0, -2.0, 2.0])
    >>> read_matrix_market(text.replace(b"-2", b"1e99"))
    Traceback (most recent call last):
    hifewugbe.refusals.BadNumber: question 39: a value of a matrix file is no number of at most 15 digits and a power of ten from -22 to 22
    """
    text = _text(file)
    most = min(2 * (len(text) // _LEAST_LINE + 1), 2 * MOST_ENTRIES)
    converted, record = _record(text, most)
    if converted.answer.question == StoreTooSmall.number:
        # It states more entries than it has bytes for; with the most room there is, what is wrong with it is told.
        converted, record = _record(text, 2 * MOST_ENTRIES)
    if converted.answer.question:
        raise refusal(converted.answer.question)
    rows, entries = _numbers("I", record[2:_HEAD])
    columns = _HEAD + 4 * (rows + 1)
    values = columns + 4 * entries
    return _numbers("I", record[_HEAD:columns]), _numbers("I", record[columns:values]), _numbers("d", record[values:])


def write_matrix_market(offsets, columns, values, symmetric=True):
    """The bytes of a Matrix Market file, symmetric, with the triangle on and below the diagonal, or general. A value that no number of 15 digits gives exactly is refused.

    >>> print(write_matrix_market([0, 2, 4], [0, 1, 0, 1], [4.0, -2.0, -2.0, 2.5]).decode(), end="")
    %%MatrixMarket matrix coordinate real symmetric
    2 2 3
    1 1 4
    2 1 -2
    2 2 25e-1
    >>> write_matrix_market([0, 2, 4], [0, 1, 0, 1], [4.0, -2.0, -1.0, 2.5])
    Traceback (most recent call last):
    hifewugbe.refusals.UnequalMirrors: question 40: a matrix to be written as symmetric has an entry whose mirror is missing or unequal
    """
    offsets, columns, values = (array(kind, part) for kind, part in (("I", offsets), ("I", columns), ("d", values)))
    record = b"MX" + _bytes(array("I", [max(len(offsets) - 1, 0), len(columns)])) + _bytes(offsets) + _bytes(columns) + _bytes(values)
    out = (ctypes.c_uint8 * (_MOST_HEAD + _MOST_LINE * len(columns)))()
    lent = ctypes.create_string_buffer(record, len(record))
    converted = LIBRARY.multigrid_write_matrix_file(bool(symmetric), ctypes.addressof(lent), len(record), ctypes.addressof(out), len(out))
    if converted.answer.question:
        raise refusal(converted.answer.question)
    return bytes(memoryview(out)[: converted.length])


def _text(file):
    if isinstance(file, (bytes, bytearray, memoryview)):
        return bytes(file)
    if hasattr(file, "read"):
        return file.read()
    with open(file, "rb") as opened:
        return opened.read()
