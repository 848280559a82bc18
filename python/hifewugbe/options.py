"""The controls of a build, with the names and defaults of the library; docs/CONTROLS.md has each with its range and advice."""

from dataclasses import dataclass, fields
from enum import IntEnum

from .library import Controls


class Smoother(IntEnum):
    """What damps the rough part of an error on each level."""

    GAUSS_SEIDEL = 0
    SYMMETRIC_GAUSS_SEIDEL = 1
    DIC_GAUSS_SEIDEL = 2


class ResidualNorm(IntEnum):
    """How the size of a residual is measured."""

    ABSOLUTE_L2 = 0
    NORMALIZED_L1 = 1


class CoarseSolver(IntEnum):
    """What solves the last level. A build refuses PCG_DIC."""

    PCG_DIC = 0
    CHOLESKY = 1


@dataclass(frozen=True)
class Options:
    """The controls of a build.

    >>> Options(krylov_dimension=8).krylov_dimension
    8
    >>> Options(pre_sweeps=-1)
    Traceback (most recent call last):
    ValueError: pre_sweeps is not a whole number from 0 to 2**64 - 1

    A number that crosses to the library and is outside of its range is refused there:

    >>> from hifewugbe import Multigrid
    >>> Multigrid([0, 1], [0], [2.0], options=Options(max_levels=129))
    Traceback (most recent call last):
    hifewugbe.refusals.InvalidControls: question 6: the controls are outside their ranges
    """

    smoother: int = Smoother.DIC_GAUSS_SEIDEL
    residual_norm: int = ResidualNorm.NORMALIZED_L1
    pre_sweeps: int = 0
    post_sweeps: int = 2
    finest_sweeps: int = 1
    sweep_level_multiplier: int = 1
    max_sweeps: int = 4
    coarsest_cells: int = 10
    max_levels: int = 64
    merge_levels: int = 2
    krylov_dimension: int = 4
    coarse_solver: int = CoarseSolver.CHOLESKY
    coarse_absolute_tolerance: float = 1e-12
    coarse_relative_tolerance: float = 0.01
    coarse_max_iterations: int = 500
    scale_correction: bool = True
    max_aggregate_cells: int = 0

    def __post_init__(self):
        for field in fields(self):
            given = getattr(self, field.name)
            if isinstance(field.default, float):
                float(given)
            elif int(given) != given or not 0 <= given < 2**64:
                raise ValueError(f"{field.name} is not a whole number from 0 to 2**64 - 1")

    def _controls(self):
        """As the calls take them."""
        kind = {field.name: float if isinstance(field.default, float) else int for field in fields(self)}
        return Controls(**{name: kind[name](getattr(self, name)) for name in kind})
