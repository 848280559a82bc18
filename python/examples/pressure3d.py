"""The pressure in a cake of 24 by 24 by 24 cells, the load of seed 1: built once, then solved for ten steps, each from the solution before; water is pushed in at one cell more with every step."""

from hifewugbe import Multigrid, load

SIDE = 24


def main():
    tank = Multigrid(*load(1, SIDE, SIDE, SIDE))
    print(tank)
    flow, pressure = [0.0] * tank.rows, [0.0] * tank.rows
    corner_to_corner = SIDE * SIDE + SIDE + 1
    for step in range(1, 11):
        flow[2 * step * corner_to_corner] = 1000.0
        report = tank.solve(flow, pressure, absolute_tolerance=0.0)
        print(f"step {step:2}: {report}")
    print(f"pressure in the middle {pressure[SIDE // 2 * corner_to_corner]:.6f}")
    for number, level in enumerate(tank.statistics()):
        print(f"level {number}: {level.cells} cells, {level.visits} visits, {level.pre_sweeps} sweeps before and {level.post_sweeps} after a correction")


if __name__ == "__main__":
    main()
