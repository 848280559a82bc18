//! A drum with nothing in it, which is solved at once; then the pressure on a load of 32 by 32 cells, seed 1: built once, refreshed for ten steps with stronger coupling each time, and solved for what is
//! pushed in at the middle.

use multigrid::{
    load, AlgebraicMultigrid, CsrMatrix, LinearSolverOptions, MultigridOptions, Refusal,
};

const SIDE: usize = 32;
const CELLS: usize = SIDE * SIDE;
const MIDDLE: usize = CELLS / 2 + SIDE / 2;
const STEPS: u32 = 10;

fn main() -> Result<(), Refusal> {
    let nothing = CsrMatrix {
        rows: 0,
        row_offsets: &[0],
        column_indices: &[],
        values: &[],
    };
    let mut empty = AlgebraicMultigrid::new(nothing, &MultigridOptions::default())?;
    empty.update_values(nothing)?;
    let report = empty.solve(&[], &mut [], LinearSolverOptions::default())?;
    println!(
        "empty: {:?} after {} iterations on {} levels",
        report.status,
        report.iterations,
        empty.hierarchy().levels.len()
    );
    let load = load(1, [SIDE as u64, SIDE as u64, 1])?;
    let mut solver = AlgebraicMultigrid::new(load.matrix(), &MultigridOptions::default())?;
    println!("{}", solver.hierarchy());
    for step in 1..=STEPS {
        let strength = 1.0 + 0.5 * f64::from(step);
        let values: Vec<f64> = load.values.iter().map(|value| strength * value).collect();
        solver.update_values(CsrMatrix {
            values: &values,
            ..load.matrix()
        })?;
    }
    let (mut rhs, mut x) = ([0.0; CELLS], [0.0; CELLS]);
    rhs[MIDDLE] = 1000.0;
    let report = solver.solve(&rhs, &mut x, LinearSolverOptions::default())?;
    println!(
        "{:?} after {} iterations, relative residual {:.1e}, pressure in the middle {:.6}",
        report.status, report.iterations, report.relative_residual, x[MIDDLE]
    );
    Ok(())
}
