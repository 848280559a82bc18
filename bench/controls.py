#!/usr/bin/env python3
"""bench/controls.py [--quick] [--hard] [--only NAME]: what each control does, on five meshes; docs/CONTROLS.md has a run of it. The meshes are not loads: they differ in what the controls are for, long cells,
rough permeabilities and layers.

Each solve goes from zero to 1e-8 of the first residual, at most 200 iterations. Times are the processor's for this thread, the least of three, in milliseconds."""

import os
import random
import sys
import time

ROOT = os.path.join(os.path.dirname(os.path.abspath(__file__)), "..")
sys.path[:0] = [os.path.join(ROOT, "python"), os.path.join(ROOT, "python", "examples")]

from grids import laplacian  # noqa: E402
from hifewugbe import Multigrid, Options, Refusal, ResidualNorm, Smoother  # noqa: E402
from hifewugbe.buffers import FLOATS, WORDS, lend  # noqa: E402

QUICK = "--quick" in sys.argv[1:]
ONLY = sys.argv[sys.argv.index("--only") + 1] if "--only" in sys.argv[1:] else ""
# Of the rough plane: how many powers of ten its permeabilities range over.
DECADES = 6 if "--hard" in sys.argv[1:] else 3
SIDE, DEEP = (32, 10) if QUICK else (160, 32)


def meshes():
    """Name, matrix and right-hand side of each, and last of a long narrow plane of as many cells as the others have, for the cap alone."""
    draw = random.Random(1)
    plane, box = (SIDE, SIDE), (DEEP, DEEP, DEEP)
    rough = [10 ** draw.uniform(-DECADES / 2, DECADES / 2) for _ in range(SIDE * SIDE)]
    layers = [1.0 if height % 8 < 4 else 1e-3 for height in range(DEEP) for _ in range(DEEP * DEEP)]
    for name, matrix in [
        ("plane", laplacian(plane)),
        ("plane, cells 10 : 1", laplacian(plane, None, (100.0, 1.0))),
        ("plane, rough", laplacian(plane, rough)),
        ("box", laplacian(box)),
        ("box, layers", laplacian(box, layers)),
        ("long and narrow", laplacian((16, SIDE * SIDE // 16))),
    ]:
        # As the calls take them, so that no time goes into copies.
        kept = [lend(part, kind, "matrix").kept for part, kind in zip(matrix, (WORDS, WORDS, FLOATS))]
        yield name, kept, lend([draw.uniform(-1, 1) for _ in range(len(kept[0]) - 1)], FLOATS, "rhs").kept


def least(call):
    """The answer of a call and the least time of three."""
    times = []
    for _ in range(3):
        began = time.thread_time()
        answer = call()
        times.append(1000 * (time.thread_time() - began))
    return answer, min(times)


def measured(matrix, rhs, options):
    """Iterations, time of a build, time of a solve, operator complexity; or the question that refuses."""
    try:
        grid, build = least(lambda: Multigrid(*matrix, options=options))
        report, solve = least(lambda: grid.solve(rhs, absolute_tolerance=0.0, max_iterations=200))
    except Refusal as refused:
        return f"refused by {refused.number}"
    iterations = str(report.iterations) if report.converged else f"{report.relative_residual:.0e} after 200"
    return f"{iterations}; {build:.0f} + {solve:.0f} ms; {grid.levels.operator_complexity:.2f}"


def table(title, choices, grids):
    if not title.startswith(ONLY):
        return
    print(f"\n### {title}\n")
    print("| | " + " | ".join(name for name, _, _ in grids) + " |")
    print("|---" * (len(grids) + 1) + "|")
    for name, changed in choices:
        cells = [measured(matrix, rhs, Options(**changed)) for _, matrix, rhs in grids]
        print(f"| {name} | " + " | ".join(cells) + " |", flush=True)


def joined(grids):
    """Cells joined by the coefficients of the build, by weights of the geometry, and by the new coefficients themselves; all are solved with the new ones."""
    (_, even, rhs), (_, thin, _), (_, rough, _) = grids[:3]
    print("\n### by what cells are joined: built from the plane, refreshed with the coefficients of another\n")
    print("| | cells 10 : 1 | rough |\n|---|---|---|")
    rows = {"by the values of the build": [], "by weights: the lengths of the faces": [], "afresh by the new values": []}
    for new in (thin, rough):
        weights = [abs(value) for value in (thin if new is thin else even)[2]]
        for name, grid in zip(rows, (Multigrid(*even), Multigrid(*even, weights), Multigrid(*new))):
            grid.update(new[2])
            report, solve = least(lambda: grid.solve(rhs, absolute_tolerance=0.0, max_iterations=200))
            rows[name].append(f"{report.iterations}; {solve:.0f} ms" if report.converged else f"{report.relative_residual:.0e} after 200")
    for name, cells in rows.items():
        print(f"| {name} | " + " | ".join(cells) + " |", flush=True)


def main():
    *grids, narrow = meshes()
    print(f"planes of {SIDE} by {SIDE} cells, boxes of {DEEP} by {DEEP} by {DEEP}: iterations; build + solve; operator complexity")
    table("smoother", [(smoother.name.lower(), {"smoother": smoother}) for smoother in Smoother], grids)
    table("krylov_dimension", [(str(k), {"krylov_dimension": k}) for k in (0, 1, 2, 4, 8, 16)], grids)
    table("merge_levels", [(str(k), {"merge_levels": k}) for k in (1, 2, 3, 4)], grids)
    table("scale_correction", [("yes", {}), ("no", {"scale_correction": False})], grids)
    table("max_aggregate_cells", [(str(k), {"max_aggregate_cells": k}) for k in (0, 8, 4, 3, 2)], [*grids, narrow])
    sweeps = [(0, 1), (0, 2), (1, 1), (2, 2), (0, 4)]
    table("pre_sweeps, post_sweeps", [(f"{pre}, {post}", {"pre_sweeps": pre, "post_sweeps": post}) for pre, post in sweeps], grids)
    table("finest_sweeps", [(str(k), {"finest_sweeps": k}) for k in (1, 2, 4)], grids)
    sweeps = [(0, 4), (1, 2), (1, 4), (1, 8), (2, 8), (4, 16)]
    table("sweep_level_multiplier, max_sweeps", [(f"{a}, {b}", {"sweep_level_multiplier": a, "max_sweeps": b}) for a, b in sweeps], grids)
    table("coarsest_cells", [(str(k), {"coarsest_cells": k}) for k in (1, 10, 50, 256)], grids)
    capped = [(str(k), {"max_levels": k, "coarsest_cells": 256}) for k in (2, 3, 4, 5, 6, 64)]
    table("max_levels, with 256 coarsest cells", capped, grids)
    together = [{}, {"krylov_dimension": 16, "finest_sweeps": 2}, {"krylov_dimension": 16, "pre_sweeps": 2}, {"krylov_dimension": 16, "merge_levels": 1}]
    table("some together", [(", ".join(f"{name} {value}" for name, value in some.items()) or "defaults", some) for some in together], grids)
    if not ONLY:
        joined(grids)
    table("residual_norm", [(norm.name.lower(), {"residual_norm": norm}) for norm in ResidualNorm], grids)


if __name__ == "__main__":
    main()
