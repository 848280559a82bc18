//! The library's exports, by the wrapper in rust/.

use super::problem::{Problem, Stores};
use crate::boundary::kernels::Refused;
use multigrid::{MultigridOptions, lent};

/// The number of levels, or the refusal.
pub fn build(problem: &Problem, stores: &mut Stores) -> Result<u64, Refused> {
    handle(problem, stores).map(|handle| handle.levels)
}

/// The handle, or the refusal.
pub fn handle(problem: &Problem, stores: &mut Stores) -> Result<lent::Handle, Refused> {
    let arrays = &problem.arrays;
    let matrix = lent::CsrMatrix {
        rows: arrays.rows,
        row_offsets: &arrays.offsets,
        column_indices: &arrays.columns,
        values: &arrays.values,
    };
    let options = MultigridOptions {
        max_aggregate_cells: problem.cap,
        ..compare::library::options(&problem.options)
    };
    let weights = problem.weights.as_deref();
    let built = lent::build(matrix, weights, &options, stores);
    built.map_err(|refusal| (refusal.number(), refusal.level(), refusal.row()))
}
