//! Stands for the Rust's `compute`: no timers, no threads, no checkpoints that stop, no device.

use crate::{CsrMatrix, LinearAlgebraError, LinearSolveReport, LinearSolverOptions};

pub(crate) enum Stage {
    PreconditionerSetup,
}

pub(crate) struct StageTimer;

impl StageTimer {
    pub fn new(_stage: Stage) -> Self {
        Self
    }
}

pub(crate) struct Timer;

impl Timer {
    pub fn linear() -> Self {
        Self
    }
}

pub(crate) fn parallel_rows(_rows: usize) -> bool {
    false
}

pub(crate) fn checkpoint() -> Result<(), LinearAlgebraError> {
    Ok(())
}

pub(crate) fn try_gpu(
    _matrix: &CsrMatrix,
    _rhs: &[f64],
    _solution: &mut [f64],
    _options: LinearSolverOptions,
) -> Option<Result<LinearSolveReport, LinearAlgebraError>> {
    None
}
