"""Loads by the package; compare/ has the call itself beside a model."""

import unittest

from hifewugbe import Multigrid, load, refusals


class Loads(unittest.TestCase):
    def test_every_row_sums_to_one(self):
        offsets, columns, values = load(7, 5, 4, 3)
        self.assertEqual((len(offsets), len(columns), len(values)), (61, offsets[60], offsets[60]))
        self.assertEqual([sum(values[offsets[row] : offsets[row + 1]]) for row in range(60)], [1.0] * 60)
        self.assertTrue(Multigrid(offsets, columns, values).solve([1.0] * 60).converged)

    def test_one_cell_deep_is_flat(self):
        self.assertEqual(load(5, 7, 4), load(5, 7, 4, 1))

    def test_what_is_no_load_is_refused(self):
        for extents in ((0, 2), (2, 0), (2, 2, 0), (257, 256), (65_537, 1), (2**32, 2**32), (2**22, 2**22, 2**22), (2**64 - 1, 2**64 - 1)):
            with self.assertRaises(refusals.BadLoad):
                load(1, *extents)
        with self.assertRaises(refusals.BadLoad):
            load(0, 2, 2)
        with self.assertRaises(ValueError):
            load(2**64, 2, 2)


if __name__ == "__main__":
    unittest.main()
