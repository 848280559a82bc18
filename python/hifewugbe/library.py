"""The shared library of the proved calls, with the structs of include/multigrid.h as ctypes knows them."""

import ctypes
import ctypes.util
import os
from pathlib import Path

MOST_ROWS = 65_536
MOST_ENTRIES = 1_048_576
MOST_LEVELS = 128
MOST_COARSEST_CELLS = 256
MOST_DIRECTIONS = 16

# The environment variable that names the file of the shared library, where it is not to be searched.
VARIABLE = "HIFEWUGBE_LIBRARY"

_size, _word, _float = ctypes.c_size_t, ctypes.c_uint64, ctypes.c_double


class Controls(ctypes.Structure):
    """struct multigrid_options"""

    _fields_ = [
        ("smoother", _word),
        ("residual_norm", _word),
        ("pre_sweeps", _word),
        ("post_sweeps", _word),
        ("finest_sweeps", _word),
        ("sweep_level_multiplier", _word),
        ("max_sweeps", _word),
        ("coarsest_cells", _word),
        ("max_levels", _word),
        ("merge_levels", _word),
        ("krylov_dimension", _word),
        ("coarse_solver", _word),
        ("coarse_absolute_tolerance", _float),
        ("coarse_relative_tolerance", _float),
        ("coarse_max_iterations", _word),
        ("scale_correction", _word),
        ("max_aggregate_cells", _word),
    ]


class Answer(ctypes.Structure):
    """struct multigrid_answer"""

    _fields_ = [("question", _word), ("level", _word), ("row", _word)]


class Handle(ctypes.Structure):
    """struct multigrid_hierarchy"""

    _fields_ = [("options", Controls), ("levels", _word), ("rows", _word), ("entries", _word)]


class Built(ctypes.Structure):
    """struct multigrid_built"""

    _fields_ = [("answer", Answer), ("hierarchy", Handle)]


class Solved(ctypes.Structure):
    """struct multigrid_report"""

    _fields_ = [
        ("answer", Answer),
        ("converged", _word),
        ("iterations", _word),
        ("initial_residual", _float),
        ("final_residual", _float),
        ("relative_residual", _float),
    ]


class Count(ctypes.Structure):
    """struct multigrid_count"""

    _fields_ = [("answer", Answer), ("levels", _word)]


class Record(ctypes.Structure):
    """struct multigrid_level_statistics"""

    _fields_ = [("cells", _word), ("visits", _word), ("pre_sweeps", _word), ("post_sweeps", _word), ("coarse_iterations", _word)]


class Charge(ctypes.Structure):
    """struct multigrid_charge"""

    _fields_ = [("words", _word), ("floats", _word), ("statistics", _word)]


class Loaded(ctypes.Structure):
    """struct multigrid_loaded"""

    _fields_ = [("answer", Answer), ("rows", _word), ("entries", _word)]


# A slice crosses as its address and its number of elements.
_slice = [ctypes.c_void_p, _size]
_stores = 3 * _slice
_matrix = 3 * _slice

# The calls: what each takes and answers.
CALLS = {
    "multigrid_default_options": ([], Controls),
    "multigrid_charge": ([_word, _word, Controls, _word], Charge),
    "multigrid_new": ([_size, *_matrix, Controls, *_stores], Built),
    "multigrid_new_with_face_weights": ([_size, *_matrix, *_slice, Controls, *_stores], Built),
    "multigrid_update_values": ([Handle, *_matrix, *_stores], Answer),
    "multigrid_solve": ([Handle, *_stores, *_slice, *_slice, _float, _float, _word], Solved),
    "multigrid_statistics": ([Handle, *_stores], Count),
    "multigrid_load": ([_word, _word, _word, _word, *_matrix], Loaded),
}


def _candidates():
    """Where the library may be: beside the package, as `make install` leaves it; in the repository, as `make` leaves it; where the system keeps libraries."""
    here = Path(__file__).resolve().parent
    yield here / "libmultigrid_c.so"
    yield here.parents[1] / "target" / "lib" / "libmultigrid_c.so"


def _file():
    named = os.environ.get(VARIABLE)
    if named:
        return named
    for candidate in _candidates():
        if candidate.is_file():
            return str(candidate)
    found = ctypes.util.find_library("multigrid_c")
    if found is None:
        raise ImportError(f"there is no libmultigrid_c.so: run `make` in the repository, or name the file in {VARIABLE}")
    return found


def load(file=None):
    """The shared library, its calls declared."""
    library = ctypes.CDLL(file or _file())
    for name, (takes, answers) in CALLS.items():
        call = getattr(library, name)
        call.argtypes, call.restype = takes, answers
    return library


LIBRARY = load()
