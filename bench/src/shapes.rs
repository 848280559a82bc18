//! Rows on other grids than the squares of `main`: the level below the finest of a square, where rows have unlike numbers of faces; a cube, whose
//! rows have seven entries; and a long narrow grid. And the time of each call by the row, from 256 rows to 65,536.

use crate::grid::Grid;
use crate::measure::{Kernel, measure};
use crate::{SEED, build, kernels, solve, sweeps};

type Made = fn(&Grid) -> Box<dyn Kernel>;

/// A row of the table. None is wanted: what is wanted is asked of the squares.
pub struct Row {
    pub name: &'static str,
    shape: Shape,
    kernel: Made,
}

/// A box of cells, or the level below it.
#[derive(Clone, Copy, PartialEq)]
struct Shape {
    cells: [u64; 3],
    below: bool,
}

const fn flat(width: u64, height: u64) -> Shape {
    Shape {
        cells: [width, height, 1],
        below: false,
    }
}

const fn below(side: u64) -> Shape {
    Shape {
        cells: [side, side, 1],
        below: true,
    }
}

const CUBE: Shape = Shape {
    cells: [40, 40, 40],
    below: false,
};
const NARROW: Shape = flat(4, 16384);

const fn row(name: &'static str, shape: Shape, kernel: Made) -> Row {
    Row {
        name,
        shape,
        kernel,
    }
}

/// Rows of one shape follow one another, so that its grid is made once.
pub const ROWS: &[Row] = &[
    row("level 1: apply", below(64), kernels::apply),
    row("level 1: residual, fused", below(64), kernels::residual),
    row(
        "level 1: Gauss-Seidel sweep",
        below(64),
        sweeps::gauss_seidel,
    ),
    row("level 1: DIC sweep", below(64), sweeps::dic),
    row("level 1: apply", below(256), kernels::apply),
    row("level 1: residual, fused", below(256), kernels::residual),
    row(
        "level 1: Gauss-Seidel sweep",
        below(256),
        sweeps::gauss_seidel,
    ),
    row("level 1: DIC sweep", below(256), sweeps::dic),
    row("refresh and solve", flat(64, 64), solve::refresh_and_solve),
    row(
        "refresh and solve",
        flat(256, 256),
        solve::refresh_and_solve,
    ),
    row("build, face weights", CUBE, build::by_weights),
    row("update", CUBE, solve::update),
    row("solve", CUBE, solve::by_default),
    row("refresh and solve", CUBE, solve::refresh_and_solve),
    row("narrow: build, face weights", NARROW, build::by_weights),
    row("narrow: update", NARROW, solve::update),
    row("narrow: solve", NARROW, solve::by_default),
];

impl Shape {
    fn grid(self) -> Grid {
        let grid = Grid::of_cells(SEED, self.cells);
        if self.below { grid.below() } else { grid }
    }

    fn name(self) -> String {
        match self.cells {
            [width, height, 1] => format!("{width}x{height}"),
            [width, height, depth] => format!("{width}x{height}x{depth}"),
        }
    }
}

/// Measures the rows whose names start so.
pub fn run(rounds: usize, only: &str) {
    let mut made: Option<(Shape, Grid)> = None;
    for row in ROWS.iter().filter(|row| row.name.starts_with(only)) {
        let grid = match made.take() {
            Some((shape, grid)) if shape == row.shape => grid,
            _ => row.shape.grid(),
        };
        let medians = measure((row.kernel)(&grid).as_mut(), rounds);
        crate::print(row.name, &row.shape.name(), &medians, None);
        made = Some((row.shape, grid));
    }
}

/// The grids of the table by the row.
const SCALES: [Shape; 4] = [flat(16, 16), flat(64, 64), flat(256, 256), CUBE];

/// The time of a build, an update and a solve, and of an iteration of the solve, by the row, on grids of more and more rows.
pub fn scaling(rounds: usize) {
    println!(
        "loads of seed {SEED}; medians of {rounds} rounds; nanoseconds of the processor by the row"
    );
    println!(
        "{:<20} {:>9} {:>7} {:>9} {:>9} {:>9}",
        "call", "grid", "rows", "Rust", "ours", "ours/Rust"
    );
    let calls: [(&str, Made); 3] = [
        ("build, face weights", build::by_weights),
        ("update", solve::update),
        ("solve", solve::by_default),
    ];
    let grids = SCALES.map(|shape| (shape, shape.grid()));
    for (name, kernel) in calls {
        for (shape, grid) in &grids {
            let medians = measure(kernel(grid).as_mut(), rounds);
            let rows = grid.matrix.nrows() as f64;
            let by_row = |micro: f64, parts: f64| micro * 1000.0 / rows / parts;
            let tell = |name: &str, parts: f64| {
                println!(
                    "{name:<20} {:>9} {rows:>7} {:>9.1} {:>9.1} {:>9.3}",
                    shape.name(),
                    by_row(medians.rust, parts),
                    by_row(medians.ours, parts),
                    medians.ratio()
                );
            };
            tell(name, 1.0);
            if name == "solve" {
                let made = solve::iterations(grid);
                tell(&format!("  one of {made} rounds"), made as f64);
            }
        }
    }
}
