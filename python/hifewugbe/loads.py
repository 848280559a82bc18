"""A box of cells from a seed, the same on every machine."""

from array import array

from .buffers import own
from .library import LIBRARY, MOST_ROWS
from .refusals import refusal

# A row has its diagonal and two faces along each axis.
_MOST_IN_A_ROW = 7


def load(seed, width, height, depth=1):
    """Offsets, columns and values of the load of a seed on a box of so many cells, each as an `array`; a depth of 1 is a flat box. Each face takes a conductance of 1 to
    1,024 from the draws of the seed; off the diagonal stands its negative, on it the sum of the cell's faces plus 1.

    >>> offsets, columns, values = load(1, 2, 2)
    >>> for row in range(4):
    ...     print(list(columns[offsets[row] : offsets[row + 1]]), list(values[offsets[row] : offsets[row + 1]]))
    [0, 1, 2] [135.0, -67.0, -67.0]
    [0, 1, 3] [-67.0, 623.0, -555.0]
    [0, 2, 3] [-67.0, 107.0, -39.0]
    [1, 2, 3] [-555.0, -39.0, 595.0]
    >>> from hifewugbe import Multigrid
    >>> Multigrid(*load(7, 30, 20, 10)).rows
    6000
    >>> load(0, 2, 2)
    Traceback (most recent call last):
    hifewugbe.refusals.BadLoad: question 35: a load's seed or an extent is zero, there are more than 65,536 cells, or the slices are too short
    """
    for name, number in (("seed", seed), ("width", width), ("height", height), ("depth", depth)):
        if not 0 <= number < 2**64:
            raise ValueError(f"{name} is not a whole number from 0 to 2**64 - 1")
    cells = width * height * depth
    if cells > MOST_ROWS:
        cells = 0  # no room is made, and the call refuses
    offsets, columns = array("I", bytes(4 * (cells + 1))), array("I", bytes(4 * _MOST_IN_A_ROW * cells))
    values = array("d", bytes(8 * _MOST_IN_A_ROW * cells))
    slices = [own(offsets), own(columns), own(values)]
    lent = [number for part in slices for number in (part.address, part.length)]
    loaded = LIBRARY.multigrid_load(seed, width, height, depth, *lent)
    if loaded.answer.question:
        raise refusal(loaded.answer.question, loaded.answer.level, loaded.answer.row)
    return offsets, columns[: loaded.entries], values[: loaded.entries]
