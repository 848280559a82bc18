"""The levels of a hierarchy, as its words tell them, and what a solve answers."""

from dataclasses import dataclass, field
from typing import NamedTuple


class Level(NamedTuple):
    """A level: rows and entries of its matrix."""

    rows: int
    entries: int


class LevelStatistics(NamedTuple):
    """What was done on a level since its build; sweeps before the correction of a visit and after it."""

    cells: int
    visits: int
    pre_sweeps: int
    post_sweeps: int
    coarse_iterations: int


class Levels(tuple):
    """The levels, the finest first.

    >>> levels = Levels([Level(64, 288), Level(16, 64)])
    >>> levels.grid_complexity, round(levels.operator_complexity, 3)
    (1.25, 1.222)
    >>> print(levels)
    level   rows  entries  per row  of finest
        0     64      288      4.5     100.0%
        1     16       64      4.0      25.0%
    grid complexity 1.250, operator complexity 1.222
    """

    __slots__ = ()

    @property
    def grid_complexity(self):
        """The rows of all levels by those of the finest."""
        return sum(level.rows for level in self) / (self[0].rows if self else 1)

    @property
    def operator_complexity(self):
        """The entries of all levels by those of the finest: what one cycle costs, in products with the finest matrix."""
        return sum(level.entries for level in self) / (self[0].entries if self else 1)

    def __str__(self):
        lines = ["level   rows  entries  per row  of finest"]
        for number, (rows, entries) in enumerate(self):
            lines.append(f"{number:5} {rows:6} {entries:8} {entries / rows:8.1f} {rows / self[0].rows:10.1%}")
        lines.append(f"grid complexity {self.grid_complexity:.3f}, operator complexity {self.operator_complexity:.3f}")
        return "\n".join(lines)


@dataclass(frozen=True)
class Report:
    """What a solve reached. `x` is the solution: what was given, or made, for it.

    >>> print(Report(True, 3, 2.0, 1e-9, 5e-10))
    converged after 3 iterations, relative residual 5.0e-10
    """

    converged: bool
    iterations: int
    initial_residual: float
    final_residual: float
    relative_residual: float
    x: object = field(default=None, repr=False, compare=False)

    def __str__(self):
        ended = "converged" if self.converged else "iterations used up"
        return f"{ended} after {self.iterations} iterations, relative residual {self.relative_residual:.1e}"


def levels_of(words, count):
    """Reads so many levels out of the words of a hierarchy: rows, whether it is the last, coupled rows, offsets, columns, starts, diagonals, three lists of
    faces, links and positions (docs/ARCHITECTURE.md)."""
    levels, place = [], 0
    for _ in range(count):
        rows, last, coupled = words[place], words[place + 1], words[place + 2]
        entries = words[place + 3 + rows]
        starts = place + 4 + rows + entries
        faces = words[starts + rows]
        levels.append(Level(rows, entries))
        place = starts + rows + 1 + rows + 3 * faces + (coupled if last else rows + entries)
    return Levels(levels)
