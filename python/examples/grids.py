"""Grids of finite volumes: each cell exchanges with its neighbours, and the cells at the border with the outside, where the pressure is zero. They are for what a load has not: a wall with a gate
(picture.py), long cells, layers, and permeabilities that differ by powers of ten (bench/controls.py)."""


def neighbours(shape):
    """For each cell of a box its number and, in the order of the columns, the cells beside it along each axis with that axis; outside is -1."""
    strides = [1]
    for side in shape[:0:-1]:
        strides.insert(0, strides[0] * side)
    cells = strides[0] * shape[0]
    axes = list(enumerate(zip(shape, strides)))
    for cell in range(cells):
        below, above = [], []
        for axis, (side, stride) in axes:
            place = cell // stride % side
            below.append((cell - stride if place > 0 else -1, axis))
            above.append((cell + stride if place + 1 < side else -1, axis))
        yield cell, below, above[::-1]


def laplacian(shape, permeability=None, stretch=None):
    """Offsets, columns and values of the pressure equation on a box of so many cells along each axis. A face between two cells lets through the harmonic mean of their
    permeabilities, which are one for each cell, or all 1; a face at the border lets through twice the permeability of its cell. `stretch` is a factor for the faces across
    each axis: cells that are thin along an axis exchange more along it."""
    offsets, columns, values = [0], [], []
    for cell, below, above in neighbours(shape):
        here = permeability[cell] if permeability else 1.0
        diagonal = 0.0
        beside = []
        for other, axis in below + [(cell, 0)] + above:
            if other == cell:
                beside.append((cell, None))
                continue
            there = here if other < 0 else permeability[other] if permeability else 1.0
            through = 2 * here if other < 0 else 2 * here * there / (here + there)
            through *= stretch[axis] if stretch else 1.0
            diagonal += through
            if other >= 0:
                beside.append((other, -through))
        for column, value in beside:
            columns.append(column)
            values.append(diagonal if value is None else value)
        offsets.append(len(columns))
    return offsets, columns, values
