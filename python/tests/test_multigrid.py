"""The package over the proved calls: what it hands over, what it answers, and what it leaves; with NumPy and SciPy where they are installed."""

import copy
import ctypes
import os
import pickle
import random
import struct
import sys
import threading
import unittest
from array import array

sys.path.insert(0, os.path.join(os.path.dirname(os.path.abspath(__file__)), "..", "examples"))

from grids import laplacian  # noqa: E402
from hifewugbe import Multigrid, Options, Refusal, Smoother, refusals  # noqa: E402
from hifewugbe.buffers import FLOATS, WORDS, lend  # noqa: E402
from hifewugbe.library import LIBRARY, Controls, Handle, Record  # noqa: E402

try:
    import numpy
except ImportError:
    numpy = None
try:
    import scipy.sparse
except ImportError:
    scipy = None

PRESS = ([0, 2, 4], [0, 1, 0, 1], [4.0, -2.0, -2.0, 2.0])


def bits(numbers):
    return struct.pack(f"{len(numbers)}d", *numbers)


def product(matrix, x):
    offsets, columns, values = matrix
    return [sum(values[k] * x[columns[k]] for k in range(offsets[row], offsets[row + 1])) for row in range(len(offsets) - 1)]


def star(rows):
    """A star whose weights stand in the row of its centre alone: each level takes one row from the one before."""
    columns, values, weights, offsets = list(range(rows)), [float(rows)] + [-1.0] * (rows - 1), [float(leaf) for leaf in range(rows)], [0, rows]
    for leaf in range(1, rows):
        columns += [0, leaf]
        values += [-1.0, 2.0]
        weights += [0.0, 0.0]
        offsets.append(len(columns))
    return offsets, columns, values, weights


class Builds(unittest.TestCase):
    def test_defaults_are_the_librarys(self):
        ours, due = Options()._controls(), LIBRARY.multigrid_default_options()
        self.assertEqual(bytes(ours), bytes(due))

    def test_levels_are_counted(self):
        grid = Multigrid(*laplacian((32, 32)))
        self.assertEqual([level.cells for level in grid.statistics()], [level.rows for level in grid.levels])
        self.assertEqual((grid.levels[0].rows, grid.levels[0].entries), (1024, 4992))
        self.assertAlmostEqual(grid.levels.operator_complexity, sum(level.entries for level in grid.levels) / 4992)
        self.assertIn("grid complexity 1.33", repr(grid))

    def test_stores_grow_only_as_far_as_they_must(self):
        grid = Multigrid(*laplacian((32, 32)))
        most = LIBRARY.multigrid_charge(1024, 4992, Options()._controls(), 2)
        self.assertEqual(grid.nbytes, 4 * most.words + 8 * most.floats + 40 * most.statistics)
        offsets, columns, values, weights = star(60)
        grown = Multigrid(offsets, columns, values, weights, Options(coarsest_cells=1, merge_levels=1, max_levels=128))
        self.assertEqual([level.rows for level in grown.levels], list(range(60, 0, -1)))

    def test_a_cap_keeps_aggregates_small(self):
        offsets, columns = [0, 6, 8, 10, 12, 14, 16], [0, 1, 2, 3, 4, 5, 0, 1, 0, 2, 0, 3, 0, 4, 0, 5]
        values = [6.0] + 5 * [-1.0] + 5 * [-1.0, 2.0]
        for cap, rows in [(0, [6, 1]), (3, [6, 4, 2, 1]), (65_535, [6, 1])]:
            star = Multigrid(offsets, columns, values, None, Options(coarsest_cells=1, merge_levels=1, max_aggregate_cells=cap))
            self.assertEqual([level.rows for level in star.levels], rows)
        for cap in (1, 65_536):
            with self.assertRaises(refusals.InvalidControls):
                Multigrid(*PRESS, None, Options(max_aggregate_cells=cap))

    def test_refusals_have_names_sentences_and_places(self):
        for number, refused in refusals.REFUSALS.items():
            self.assertEqual((refused.number, issubclass(refused, Refusal)), (number, True))
        with self.assertRaises(refusals.BadDiagonal) as caught:
            Multigrid(PRESS[0], PRESS[1], [4.0, -2.0, -2.0, -1.0])
        self.assertEqual((caught.exception.level, caught.exception.row), (0, 1))
        cases = [
            (refusals.BadOffsets, ([], [], [])),
            (refusals.BadOffsets, ([0, 3, 4], [0, 1, 0, 1], [1.0])),
            (refusals.BadColumns, ([0, 2, 4], [1, 0, 0, 1], [4.0, -2.0, -2.0, 2.0])),
            (refusals.TooLarge, ([0] * 65_538, [], [])),
            (refusals.WeightCount, (*PRESS, [1.0])),
            (refusals.BadWeight, (*PRESS, [-1.0] * 4)),
            (refusals.NotCholesky, (*PRESS, None, Options(coarse_solver=0))),
            (refusals.InvalidControls, (*PRESS, None, Options(smoother=3))),
            (refusals.InvalidControls, (*PRESS, None, Options(**{name: 2**64 - 1 for name in ("coarsest_cells", "max_levels", "krylov_dimension")}))),
        ]
        for refused, given in cases:
            with self.assertRaises(refused):
                Multigrid(*given)

    def test_a_drum_with_nothing_in_it(self):
        for weights in (None, []):
            empty = Multigrid([0], [], [], weights)
            self.assertEqual((empty.rows, empty.entries, len(empty.levels), empty.statistics()), (0, 0, 0, []))
            self.assertIn("grid complexity 0.000", repr(empty))
            empty.update([])
            with self.assertRaises(refusals.OtherPattern):
                empty.update([1.0])
            report = empty.solve([])
            self.assertEqual((report.converged, report.iterations, list(report.x)), (True, 0, []))
            residuals = (report.initial_residual, report.final_residual, report.relative_residual)
            self.assertEqual([struct.pack("d", residual) for residual in residuals], 3 * [struct.pack("d", 0.0)])
            with self.assertRaises(refusals.WrongLength):
                empty.solve([1.0])

    def test_what_cannot_cross_is_said(self):
        for given, error in [
            (([0, -1], [0], [1.0]), ValueError),
            (([0, 1], [0.5], [1.0]), TypeError),
            (([0, 1], [0]), TypeError),
            (([0, 1], [0], b"12345678"), TypeError),
        ]:
            with self.assertRaises(error):
                Multigrid(*given)
        for wrong in [{"pre_sweeps": -1}, {"max_levels": 2**64}, {"post_sweeps": 0.5}]:
            with self.assertRaises(ValueError):
                Options(**wrong)


class Solves(unittest.TestCase):
    def test_a_plane_is_solved(self):
        matrix = laplacian((17, 11), [1 + cell % 7 for cell in range(187)])
        for smoother in Smoother:
            grid = Multigrid(*matrix, options=Options(smoother=smoother))
            rhs = [float(cell % 5) for cell in range(187)]
            report = grid.solve(rhs)
            self.assertTrue(report.converged)
            self.assertLess(max(abs(a - b) for a, b in zip(product(matrix, report.x), rhs)), 1e-5)

    def test_x_is_written_where_it_stands(self):
        press = Multigrid(*PRESS)
        for x in ([0.0, 0.0], array("d", [0, 0])):
            self.assertIs(press.solve([2.0, 0.0], x).x, x)
            self.assertEqual(list(x), [1.0, 1.0])
        same, due = array("d", [2, 0]), press.solve([2.0, 0.0], [2.0, 0.0]).x
        press.solve(same, same)
        self.assertEqual(list(same), due)
        for x in ((0.0, 0.0), array("f", [0, 0]), bytes(16)):
            with self.assertRaises(TypeError):
                press.solve([2.0, 0.0], x)

    def test_the_work_of_a_solve_is_known_from_its_report(self):
        grid = Multigrid(*laplacian((32, 32)), options=Options(pre_sweeps=1, max_sweeps=3))
        times = grid.solve([1.0] * grid.rows).iterations
        levels = grid.statistics()
        for depth, level in enumerate(levels):
            last, extra = depth == len(levels) - 1, max(depth - 1, 0)
            pre = 0 if depth == 0 or last else min(1 + extra, 3)
            post = 0 if last else 1 if depth == 0 else min(2 + extra, 3)
            self.assertEqual(level[1:], (times, times * pre, times * post, 0))

    def test_a_refused_solve_leaves_everything(self):
        press, x = Multigrid(*PRESS), [7.0, 7.0]
        for refused, given in [
            (refusals.WrongLength, ([2.0], x)),
            (refusals.BadInput, ([float("inf"), 0.0], x)),
            (refusals.BadInput, ([2.0, 0.0], x, -1.0)),
            (refusals.BadInput, ([2.0, 0.0], x, 0.0, 0.0, 0)),
        ]:
            with self.assertRaises(refused):
                press.solve(*given)
        self.assertEqual((x, press.statistics()[0].visits), ([7.0, 7.0], 0))

    def test_refreshed_solves_as_fresh_bit_for_bit(self):
        draw = random.Random(1)
        offsets, columns, values = laplacian((9, 8))
        weights = [abs(value) for value in values]
        rhs = [draw.random() for _ in range(72)]
        refreshed = Multigrid(offsets, columns, values, weights)
        for _ in range(20):
            values = laplacian((9, 8), [draw.uniform(0.5, 2) for _ in range(72)])[2]
            refreshed.update(values)
            fresh = Multigrid(offsets, columns, values, weights)
            self.assertEqual(bits(refreshed.solve(rhs).x), bits(fresh.solve(rhs).x))
            with self.assertRaises(refusals.NotSymmetric):
                refreshed.update([*values[:1], values[1] + 1, *values[2:]])

    def test_a_copy_and_a_saved_one_solve_alike(self):
        grid = Multigrid(*laplacian((12, 12)))
        rhs = [1.0] * 144
        due = bits(copy.deepcopy(grid).solve(rhs).x)
        saved = pickle.dumps(grid)
        self.assertEqual(bits(pickle.loads(saved).solve(rhs).x), due)
        state = grid.__getstate__()
        state["stores"][0] = b"\xff" * len(state["stores"][0])
        with self.assertRaises(refusals.UnsoundStores):
            Multigrid.__new__(Multigrid).__setstate__(state)

    def test_threads_with_objects_of_their_own(self):
        matrix, rhs, answers = laplacian((20, 20)), [1.0] * 400, []
        due = bits(Multigrid(*matrix).solve(rhs).x)
        shared = Multigrid(*matrix)

        def work():
            own = Multigrid(*matrix)
            answers.extend(bits(solver.solve(rhs).x) for _ in range(20) for solver in (own, shared))

        threads = [threading.Thread(target=work) for _ in range(4)]
        for thread in threads:
            thread.start()
        for thread in threads:
            thread.join()
        self.assertEqual(set(answers), {due})


    def test_a_pattern_that_is_changed_is_refused(self):
        offsets, columns, values = array("I", PRESS[0]), array("I", PRESS[1]), PRESS[2]
        press = Multigrid(offsets, columns, values)
        press.update(values)
        columns[1] = 0
        with self.assertRaises(refusals.OtherPattern):
            press.update(values)
        listed = list(PRESS[1])
        press = Multigrid(PRESS[0], listed, values)
        listed.clear()
        press.update(values)


class Calls(unittest.TestCase):
    """The calls themselves, with what nobody should hand over."""

    def test_wild_handles_are_refused(self):
        draw, buffer = random.Random(2), (ctypes.c_double * 64)()
        for _ in range(200):
            handle = Handle.from_buffer_copy(bytes(draw.choice((0, 1, 2, 255, draw.randrange(256))) for _ in range(ctypes.sizeof(Handle))))
            stores = (ctypes.addressof(buffer), draw.randrange(64)) * 2 + (ctypes.addressof(buffer), draw.randrange(16))
            self.assertEqual(LIBRARY.multigrid_statistics(handle, *stores).answer.question, 19)

    def test_structs_have_the_sizes_of_the_header(self):
        self.assertEqual([ctypes.sizeof(kind) for kind in (Controls, Handle, Record)], [136, 160, 40])


@unittest.skipIf(numpy is None, "NumPy is not installed")
class NumPy(unittest.TestCase):
    def test_nothing_is_copied_that_fits(self):
        for kind, types in ((WORDS, ("uint32", "int32")), (FLOATS, ("float64",))):
            for name in types:
                numbers = numpy.arange(5, dtype=name)
                self.assertEqual(lend(numbers, kind, name).address, numbers.ctypes.data)
                numbers.flags.writeable = False
                self.assertEqual(lend(numbers, kind, name).address, numbers.ctypes.data)

    def test_other_numbers_are_copied_or_refused(self):
        for numbers in (numpy.arange(6, dtype="float64")[::2], numpy.array([0, 2, 4], dtype="float32"), numpy.array([0, 2, 4], dtype="int64")):
            lent = lend(numbers, FLOATS, "numbers")
            self.assertEqual(struct.unpack("3d", lent.tobytes()), (0, 2, 4))
        with self.assertRaises(ValueError):
            lend(numpy.array([-1]), WORDS, "numbers")
        with self.assertRaises(ValueError):
            lend(numpy.zeros((2, 2)), FLOATS, "numbers")
        negative = numpy.array([0, -2, 4], dtype="int32")
        with self.assertRaises(refusals.BadOffsets):
            Multigrid(negative, *(numpy.array(part) for part in PRESS[1:]))

    def test_the_solution_is_an_array(self):
        press = Multigrid(*(numpy.array(part) for part in PRESS))
        report = press.solve(numpy.array([2.0, 0.0]))
        self.assertIsInstance(report.x, numpy.ndarray)
        self.assertEqual(report.x.tolist(), [1.0, 1.0])
        both = numpy.array([2.0, 0.0, 5.0])
        due = press.solve([2.0, 0.0], [2.0, 0.0]).x
        press.solve(both[:2], both[:2])
        self.assertEqual(both.tolist(), [*due, 5.0])
        for wrong in (numpy.zeros(2, dtype="float32"), numpy.zeros(4)[::2]):
            with self.assertRaises(TypeError):
                press.solve([2.0, 0.0], wrong)


@unittest.skipIf(scipy is None, "SciPy is not installed")
class SciPy(unittest.TestCase):
    def setUp(self):
        offsets, columns, values = laplacian((16, 16))
        self.matrix = scipy.sparse.csr_matrix((values, columns, offsets))

    def test_a_matrix_is_taken_as_it_is(self):
        grid = Multigrid(self.matrix)
        self.assertIs(grid._offsets, self.matrix.indptr)
        report = grid.solve(numpy.ones(256))
        self.assertLess(abs(self.matrix @ report.x - 1).max(), 1e-6)
        self.assertEqual(bits(report.x), bits(Multigrid(self.matrix.tocoo()).solve(numpy.ones(256)).x))

    def test_an_update_by_a_matrix_asks_its_pattern(self):
        grid = Multigrid(self.matrix)
        grid.update(2 * self.matrix)
        self.assertLess(abs(2 * self.matrix @ grid.solve(numpy.ones(256)).x - 1).max(), 1e-6)
        with self.assertRaises(refusals.OtherPattern):
            grid.update(scipy.sparse.identity(256, format="csr"))


if __name__ == "__main__":
    unittest.main()
