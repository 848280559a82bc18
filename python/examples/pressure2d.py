"""A drum with nothing in it, and then the pressure in a plate of 96 by 96 cells, the load of seed 1: water is pushed in at one cell and drawn out at another."""

from hifewugbe import Multigrid, load

SIDE = 96


def main():
    print(f"empty: {Multigrid([0], [], []).solve([])}")
    grid = Multigrid(*load(1, SIDE, SIDE))
    print(grid)
    flow = [0.0] * grid.rows
    inlet, outlet = SIDE // 4 * SIDE + SIDE // 4, 3 * SIDE // 4 * SIDE + 2 * SIDE // 3
    flow[inlet], flow[outlet] = 1000.0, -1000.0
    report = grid.solve(flow)
    print(report)
    print(f"pressure {report.x[inlet]:.6f} at the inlet, {report.x[outlet]:.6f} at the outlet")


if __name__ == "__main__":
    main()
