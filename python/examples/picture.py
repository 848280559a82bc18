"""Two pictures of a tank: python3 picture.py [FOLDER] writes FOLDER/pressure.png and FOLDER/refreshes.png.

Water is pushed in on the left of a wall with a gate and drawn out on the right of it. In a hundred steps the gate closes: each step refreshes the hierarchy with new coefficients
and solves from the pressure of the step before. The first picture is the pressure after twenty steps, the second the residual after each refresh, before and after its solve."""

import math
import os
import sys

from canvas import Canvas, colour
from grids import laplacian
from hifewugbe import Multigrid

SIDE = 128
STEPS = 100
SHOWN = 20
TIGHT = 1e-4
GREY, INK, FAINT = (90, 90, 90), (40, 40, 40), (225, 225, 225)


def permeability(step):
    """Of each cell: a wall two cells wide with a gate in it, which lets through ever less."""
    cells = [1.0] * (SIDE * SIDE)
    gate = TIGHT ** (step / STEPS)
    for i in range(SIDE):
        for j in (SIDE // 2 - 1, SIDE // 2):
            cells[i * SIDE + j] = gate if 0.42 * SIDE < i < 0.58 * SIDE else TIGHT
    return cells


def refreshed():
    """The pressure at the step that is shown, and for each step the residual before and after its solve, as absolute norms."""
    offsets, columns, values = laplacian((SIDE, SIDE), permeability(0))
    tank = Multigrid(offsets, columns, values)
    flow = [0.0] * tank.rows
    flow[SIDE // 2 * SIDE + SIDE // 5], flow[SIDE // 3 * SIDE + 4 * SIDE // 5] = 1.0, -1.0
    pressure = list(tank.solve(flow).x)
    shown, residuals, iterations = None, [], 0
    for step in range(1, STEPS + 1):
        tank.update(laplacian((SIDE, SIDE), permeability(step))[2])
        report = tank.solve(flow, pressure, absolute_tolerance=0.0)
        residuals.append((report.initial_residual, report.final_residual))
        iterations += report.iterations
        if step == SHOWN:
            shown = list(pressure)
    print(tank)
    print(f"{STEPS} refreshes, {iterations} iterations, the last: {report}")
    return shown, residuals


def field(pressure, file):
    """The pressure as colours with lines of equal pressure, and its scale beside it."""
    # Near the wells the pressure rises like a logarithm: beyond what one cell in a hundred has, the colour stays.
    ordered = sorted(pressure)
    low, high = ordered[len(ordered) // 100], ordered[-len(ordered) // 100]
    wide, lines, left, top = 4, 16, 16, 44
    canvas = Canvas(left + wide * SIDE + 150, top + wide * SIDE + 16)
    canvas.text(left, 14, f"pressure, {SIDE} by {SIDE} cells, step {SHOWN} of {STEPS}")

    def share(row, column):
        """Between cells the pressure is taken along straight lines."""
        y, x = min(max(row, 0), SIDE - 1), min(max(column, 0), SIDE - 1)
        i, j = min(int(y), SIDE - 2), min(int(x), SIDE - 2)
        a, b, c, d = (pressure[(i + p) * SIDE + j + q] for p in (0, 1) for q in (0, 1))
        u, v = y - i, x - j
        return ((a * (1 - v) + b * v) * (1 - u) + (c * (1 - v) + d * v) * u - low) / (high - low)

    def band(share):
        """Between which lines of equal pressure a share lies."""
        return min(max(math.floor(share * lines), 0), lines - 1)

    shares = [[share((y + 0.5) / wide - 0.5, (x + 0.5) / wide - 0.5) for x in range(wide * SIDE)] for y in range(wide * SIDE)]
    for y, across in enumerate(shares):
        for x, here in enumerate(across):
            edge = any(band(other) != band(here) for other in (across[max(x - 1, 0)], shares[max(y - 1, 0)][x]))
            paint = colour(here)
            canvas.dot(left + x, top + y, tuple(part * 2 // 3 for part in paint) if edge else paint)
    bar = left + wide * SIDE + 20
    for y in range(wide * SIDE):
        canvas.box(bar, top + y, 20, 1, colour(1 - y / (wide * SIDE - 1)))
    for tick in range(5):
        y = top + round((wide * SIDE - 1) * (1 - tick / 4))
        canvas.box(bar + 20, y, 6, 1, INK)
        canvas.text(bar + 32, min(max(y - 7, top), top + wide * SIDE - 14), f"{low + (high - low) * tick / 4:+.3f}")
    canvas.write(file)


def plot(residuals, file):
    """The residual of each step on a scale of powers of ten."""
    numbers = [number for pair in residuals for number in pair]
    low, high = math.floor(math.log10(min(numbers))), math.ceil(math.log10(max(numbers)))
    left, top, width, height = 90, 76, 600, 340
    canvas = Canvas(left + width + 30, top + height + 64)
    canvas.text(16, 14, f"residual after each of {len(residuals)} refreshes")
    canvas.text(16, 40, "before its solve", (200, 80, 30))
    canvas.text(250, 40, "after its solve", (30, 90, 170))

    def place(step, number):
        return left + round(width * step / len(residuals)), top + round(height * (high - math.log10(number)) / (high - low))

    for power in range(low, high + 1):
        y = place(0, 10.0**power)[1]
        canvas.box(left, y, width, 1, FAINT)
        canvas.text(20, y - 7, f"1e{power}" if power else "1")
    for step in range(0, len(residuals) + 1, 20):
        x = place(step, 1.0)[0]
        canvas.box(x, top, 1, height, FAINT)
        canvas.text(x - 6 * len(str(step)), top + height + 10, str(step))
    canvas.text(left + width // 2 - 24, top + height + 36, "step")
    canvas.box(left, top, 2, height + 1, GREY)
    canvas.box(left, top + height, width + 1, 2, GREY)
    for which, paint in ((0, (200, 80, 30)), (1, (30, 90, 170))):
        points = [place(step, pair[which]) for step, pair in enumerate(residuals, 1)]
        for start, end in zip(points, points[1:]):
            canvas.line(start, end, paint, 2)
    canvas.write(file)


def main():
    folder = sys.argv[1] if len(sys.argv) > 1 else "."
    pressure, residuals = refreshed()
    for name, draw, data in (("pressure.png", field, pressure), ("refreshes.png", plot, residuals)):
        draw(data, os.path.join(folder, name))
        print("wrote", os.path.join(folder, name))


if __name__ == "__main__":
    main()
