"""Numbers as the calls take them: an address and a number of elements, of the caller's own memory where that fits."""

import ctypes
from array import array

# For each kind of number: its type code in `array`, its bytes, and the codes of a buffer that has the same bytes. A signed index has the bytes of an unsigned one;
# below zero it is far above every length, and the calls refuse it.
WORDS = ("I", 4, "iIlL")
FLOATS = ("d", 8, "d")

# What a slice of length zero points to: any address that is not null.
_NOTHING = (ctypes.c_double * 1)()


class Slice:
    """So many elements from an address on, and what keeps them alive while the slice is."""

    __slots__ = ("address", "length", "bytes", "kept")

    def __init__(self, address, length, width, kept):
        self.address, self.length, self.kept = (address, length, kept) if length else (ctypes.addressof(_NOTHING), 0, _NOTHING)
        self.bytes = length * width

    def tobytes(self):
        return ctypes.string_at(self.address, self.bytes)

    def overlaps(self, other):
        return self.bytes and other.bytes and self.address < other.address + other.bytes and other.address < self.address + self.bytes


def _view(values):
    if isinstance(values, (bytes, bytearray)):
        raise TypeError("bytes are no numbers")
    try:
        return memoryview(values)
    except TypeError:
        return None


def _shared(values, view, width, codes):
    """The slice of a buffer as it stands, or None where it is no contiguous, aligned vector of such numbers, or can only be read and has no address to tell."""
    if view.ndim != 1 or view.itemsize != width or view.format.lstrip("@=<") not in codes or not view.c_contiguous:
        return None
    length = view.shape[0]
    if length == 0:
        return Slice(0, 0, width, None)
    if view.readonly:
        told = getattr(values, "__array_interface__", None)
        if told is None:
            return None
        address, kept = told["data"][0], view
    else:
        kept = (ctypes.c_char * view.nbytes).from_buffer(view)
        address = ctypes.addressof(kept)
    return None if address % width else Slice(address, length, width, kept)


def _copied(values, view, kind, name):
    """An `array` of the numbers."""
    code, width, _ = kind
    if view is not None and view.ndim != 1:
        raise ValueError(f"{name} has {view.ndim} dimensions, not one")
    try:
        items = values if view is None or not hasattr(values, "tolist") else values.tolist()
        return array(code, items)
    except OverflowError:
        raise ValueError(f"{name} has a number that is below 0 or does not fit in {8 * width} bits") from None
    except TypeError as error:
        raise TypeError(f"{name}: {error}") from None


def own(numbers):
    """The slice of an `array`."""
    address, length = numbers.buffer_info()
    return Slice(address, length, numbers.itemsize, numbers)


def keep(values, kind, name):
    """The numbers themselves where their own memory has the right form, else a copy, to be lent again and again."""
    view = _view(values)
    return values if view is not None and _shared(values, view, kind[1], kind[2]) else _copied(values, view, kind, name)


def lend(values, kind, name):
    """The slice of some numbers to be read: of their own memory where it has the right form, else of a copy."""
    view = _view(values)
    shared = None if view is None else _shared(values, view, kind[1], kind[2])
    return own(_copied(values, view, kind, name)) if shared is None else shared


def lend_written(values, name):
    """The slice of floats to be written: their own memory, or None for a list, which has none."""
    if isinstance(values, list):
        return None
    view = _view(values)
    shared = None if view is None or view.readonly else _shared(values, view, FLOATS[1], FLOATS[2])
    if shared is None:
        raise TypeError(f"{name} has to be a list, or a vector of 64-bit floats that can be written, such as array('d') or a NumPy array of float64")
    return shared
