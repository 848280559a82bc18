"""Hifewugbe: proved aggregation multigrid for symmetric sparse systems, such as the pressure equation on a finite-volume mesh.

>>> from hifewugbe import Multigrid, Options
>>> press = Multigrid([0, 2, 4], [0, 1, 0, 1], [4.0, -2.0, -2.0, 2.0], options=Options(krylov_dimension=8))
>>> print(press.solve([2.0, 0.0]))
converged after 1 iterations, relative residual 0.0e+00
"""

from . import refusals
from .hierarchy import Level, Levels, LevelStatistics, Report
from .loads import load
from .matrix_market import read_matrix_market, write_matrix_market
from .multigrid import Multigrid
from .options import CoarseSolver, Options, ResidualNorm, Smoother
from .refusals import Refusal
from .version import VERSION as __version__

__all__ = [
    "CoarseSolver",
    "Level",
    "LevelStatistics",
    "Levels",
    "Multigrid",
    "Options",
    "Refusal",
    "Report",
    "ResidualNorm",
    "Smoother",
    "load",
    "read_matrix_market",
    "refusals",
    "write_matrix_market",
    "__version__",
]
