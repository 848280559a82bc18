"""A hierarchy in stores of its own."""

import ctypes
import threading
from array import array

from .buffers import FLOATS, WORDS, keep, lend, lend_written, own
from .hierarchy import LevelStatistics, Report, levels_of
from .library import LIBRARY, MOST_COARSEST_CELLS, MOST_DIRECTIONS, MOST_ENTRIES, MOST_LEVELS, MOST_ROWS, Handle, Record
from .matrix_market import read_matrix_market
from .options import Options
from .refusals import StoreTooSmall, refusal


def _first_room(controls):
    """For how many levels of the finest's size there is room at first: one pairing halves the rows, two of them leave a quarter, so that this is nearly always enough."""
    return 3 if controls.merge_levels == 1 else 2


def _arrays(matrix):
    """Offsets, columns and values of a SciPy matrix: its own where it is in compressed rows."""
    rows = matrix if getattr(matrix, "format", None) == "csr" else matrix.tocsr()
    return rows.indptr, rows.indices, rows.data


def _answered(answer):
    if answer.question:
        raise refusal(answer.question, answer.level, answer.row)


class _Stores:
    """Words, floats and records of statistics, all zero."""

    def __init__(self, charge):
        self.words = (ctypes.c_uint32 * charge.words)()
        self.floats = (ctypes.c_double * charge.floats)()
        self.statistics = (Record * charge.statistics)()

    def slices(self):
        lent = []
        for store in (self.words, self.floats, self.statistics):
            lent += [ctypes.addressof(store), len(store)]
        return lent

    def bytes(self):
        return sum(ctypes.sizeof(store) for store in (self.words, self.floats, self.statistics))


class Multigrid:
    """A hierarchy of levels over a symmetric matrix in compressed rows: built once, updated with new values, solved with.

    `offsets` and `columns` are the pattern, `values` the coefficients, `weights`, if given, a strength for each entry by which cells are joined instead of by the
    absolute values. Each is a list, an `array` or a NumPy array; of 32-bit indices and 64-bit floats nothing is copied. A SciPy matrix may stand in place of the three.

    >>> press = Multigrid([0, 2, 4], [0, 1, 0, 1], [4.0, -2.0, -2.0, 2.0])
    >>> report = press.solve([2.0, 0.0])
    >>> print(report)
    converged after 1 iterations, relative residual 0.0e+00
    >>> list(report.x)
    [1.0, 1.0]
    >>> press
    Multigrid, 2 rows, 4 entries, levels 1
    level   rows  entries  per row  of finest
        0      2        4      2.0     100.0%
    grid complexity 1.000, operator complexity 1.000

    A matrix of no rows has no levels, and a solve of it has converged before the first iteration:

    >>> print(Multigrid([0], [], []).solve([]))
    converged after 0 iterations, relative residual 0.0e+00

    What does not fit is refused, by an exception that says which question failed and where:

    >>> Multigrid([0, 2, 4], [0, 1, 0, 1], [4.0, -2.0, -2.0, -1.0])
    Traceback (most recent call last):
    hifewugbe.refusals.BadDiagonal: question 12: a diagonal is not finite or not above zero (level 0, row 1)

    One object may be used by several threads, one call at a time; several objects work side by side. Arrays that a call reads must not be written while it runs.
    """

    def __init__(self, offsets, columns=None, values=None, weights=None, options=Options()):
        if columns is None:
            offsets, columns, values = _arrays(offsets)
        if values is None:
            raise TypeError("values are missing")
        self.options = options
        self._offsets, self._columns = keep(offsets, WORDS, "offsets"), keep(columns, WORDS, "columns")
        self._lock = threading.Lock()
        self._build(options._controls(), values, weights)
        self._levels = levels_of(self._stores.words, self._handle.levels)

    @classmethod
    def from_matrix_market(cls, file, weights=None, options=Options()):
        """A hierarchy of the matrix in a Matrix Market file: its name, a file that is open for bytes, or the bytes themselves.

        >>> Multigrid.from_matrix_market(b"%%MatrixMarket matrix coordinate real symmetric\\n2 2 3\\n1 1 4\\n2 1 -2\\n2 2 2\\n").entries
        4
        """
        return cls(*read_matrix_market(file), weights=weights, options=options)

    def _build(self, controls, values, weights):
        """Builds in stores that double until question 9 is content, or there is room for as many levels as there may be."""
        offsets, columns = lend(self._offsets, WORDS, "offsets"), lend(self._columns, WORDS, "columns")
        matrix = [offsets, columns, lend(values, FLOATS, "values")]
        call = LIBRARY.multigrid_new
        if weights is not None:
            matrix.append(lend(weights, FLOATS, "weights"))
            call = LIBRARY.multigrid_new_with_face_weights
        rows = max(offsets.length - 1, 0)
        room, most = _first_room(controls), min(controls.max_levels, MOST_LEVELS)
        while True:
            self._stores = None
            self._stores = _Stores(_charge(rows, columns.length, controls, room))
            built = call(rows, *_crossing(*matrix), controls, *self._stores.slices())
            if built.answer.question != StoreTooSmall.number or room >= most:
                break
            room = min(2 * room, most)
        _answered(built.answer)
        self._handle = built.hierarchy

    def update(self, values):
        """New coefficients on the same pattern: a list of them, or a whole SciPy matrix. Refused, everything stays as it was.

        >>> press = Multigrid([0, 2, 4], [0, 1, 0, 1], [4.0, -2.0, -2.0, 2.0])
        >>> press.update([16.0, -8.0, -8.0, 8.0])
        >>> list(press.solve([2.0, 0.0]).x)
        [0.25, 0.25]
        >>> press.update([1.0, 2.0])
        Traceback (most recent call last):
        hifewugbe.refusals.OtherPattern: question 31: offsets or columns are not those of the build, or there are not as many values as columns
        """
        offsets, columns = self._offsets, self._columns
        if hasattr(values, "tocsr"):
            offsets, columns, values = _arrays(values)
        matrix = [lend(offsets, WORDS, "offsets"), lend(columns, WORDS, "columns"), lend(values, FLOATS, "values")]
        with self._lock:
            answer = LIBRARY.multigrid_update_values(self._handle, *_crossing(*matrix), *self._stores.slices())
        _answered(answer)

    def solve(self, rhs, x=None, absolute_tolerance=1e-10, relative_tolerance=1e-8, max_iterations=1000):
        """Solves for the right-hand side, from what `x` holds, or from zero, and leaves the solution in `x`, which the report has too. It ends where the residual is at most
        the greater of the absolute tolerance and the relative one times the first residual, or after so many iterations. Refused, everything stays as it was.

        >>> press = Multigrid([0, 2, 4], [0, 1, 0, 1], [4.0, -2.0, -2.0, 2.0])
        >>> x = [1.0, 1.0]
        >>> press.solve([2.0, 0.0], x).iterations
        0
        >>> press.solve([float("nan"), 0.0])
        Traceback (most recent call last):
        hifewugbe.refusals.BadInput: question 21: the iteration limit is zero, a tolerance is not finite or below zero, or a vector is not finite
        """
        if not 0 <= max_iterations < 2**64:
            raise ValueError("max_iterations is not a whole number from 0 to 2**64 - 1")
        if x is None:
            x = _zeros_like(rhs, self.rows)
        written = lend_written(x, "x")
        copy = None if written else array("d", x)
        target = written or own(copy)
        source = lend(rhs, FLOATS, "rhs")
        if source.overlaps(target):
            source = own(array("d", rhs))
        with self._lock:
            solved = LIBRARY.multigrid_solve(
                self._handle, *self._stores.slices(), *_crossing(source, target), absolute_tolerance, relative_tolerance, int(max_iterations)
            )
        _answered(solved.answer)
        if copy is not None:
            x[:] = copy.tolist()
        return Report(
            bool(solved.converged), solved.iterations, solved.initial_residual, solved.final_residual, solved.relative_residual, x
        )

    def statistics(self):
        """What was done on each level since the build, the finest first.

        >>> press = Multigrid([0, 2, 4], [0, 1, 0, 1], [4.0, -2.0, -2.0, 2.0])
        >>> press.statistics()
        [LevelStatistics(cells=2, visits=0, pre_sweeps=0, post_sweeps=0, coarse_iterations=0)]
        """
        with self._lock:
            count = LIBRARY.multigrid_statistics(self._handle, *self._stores.slices())
            _answered(count.answer)
            records = self._stores.statistics[: count.levels]
            return [LevelStatistics(r.cells, r.visits, r.pre_sweeps, r.post_sweeps, r.coarse_iterations) for r in records]

    @property
    def rows(self):
        """The rows of the finest matrix."""
        return self._handle.rows

    @property
    def entries(self):
        """The entries of the finest matrix."""
        return self._handle.entries

    @property
    def levels(self):
        """The levels with their rows and entries, the grid complexity and the operator complexity."""
        return self._levels

    @property
    def nbytes(self):
        """The bytes of the stores."""
        return self._stores.bytes()

    def __repr__(self):
        return f"Multigrid, {self.rows} rows, {self.entries} entries, levels {len(self.levels)}\n{self.levels}"

    def __getstate__(self):
        """To copy and to save: the handle and the bytes of the stores, as the last call left them."""
        with self._lock:
            stores = [bytes(store) for store in (self._stores.words, self._stores.floats, self._stores.statistics)]
            pattern = [array("I", lend(words, WORDS, "pattern").tobytes()) for words in (self._offsets, self._columns)]
        return {"options": self.options, "handle": bytes(self._handle), "stores": stores, "pattern": pattern}

    def __setstate__(self, state):
        """What is no hierarchy is refused by question 19."""
        self.options = state["options"]
        self._offsets, self._columns = state["pattern"]
        self._lock = threading.Lock()
        self._handle = Handle.from_buffer_copy(state["handle"])
        self._stores = _Stores.__new__(_Stores)
        for name, kind, saved in zip(("words", "floats", "statistics"), (ctypes.c_uint32, ctypes.c_double, Record), state["stores"]):
            setattr(self._stores, name, (kind * (len(saved) // ctypes.sizeof(kind))).from_buffer_copy(saved))
        self.statistics()
        self._levels = levels_of(self._stores.words, self._handle.levels)


def _crossing(*slices):
    """The addresses and lengths of slices, in turn."""
    return [number for lent in slices for number in (lent.address, lent.length)]


def _charge(rows, entries, controls, room):
    """What question 9 asks for so many levels. What is beyond the limits is refused before the stores are looked at, and so need not be paid."""
    payable = type(controls).from_buffer_copy(controls)
    payable.coarsest_cells = min(controls.coarsest_cells, MOST_COARSEST_CELLS)
    payable.krylov_dimension = min(controls.krylov_dimension, MOST_DIRECTIONS)
    payable.max_levels = min(controls.max_levels, MOST_LEVELS)
    return LIBRARY.multigrid_charge(min(rows, MOST_ROWS), min(entries, MOST_ENTRIES), payable, room)


def _zeros_like(rhs, rows):
    """A vector of zeros: of NumPy where the right-hand side is, else an `array`."""
    if type(rhs).__module__ == "numpy":
        import numpy

        return numpy.zeros(rows)
    return array("d", bytes(8 * rows))
