//! What crates/multigrid_c exports, declared for Rust; include/multigrid.h is the same for C. compare/ holds the three
//! texts against one another.

use crate::MultigridLevelStatistics;

/// `struct multigrid_options`
#[repr(C)]
#[derive(Clone, Copy)]
pub struct Options {
    pub smoother: u64,
    pub residual_norm: u64,
    pub pre_sweeps: u64,
    pub post_sweeps: u64,
    pub finest_sweeps: u64,
    pub sweep_level_multiplier: u64,
    pub max_sweeps: u64,
    pub coarsest_cells: u64,
    pub max_levels: u64,
    pub merge_levels: u64,
    pub krylov_dimension: u64,
    pub coarse_solver: u64,
    pub coarse_absolute_tolerance: f64,
    pub coarse_relative_tolerance: f64,
    pub coarse_max_iterations: u64,
    pub scale_correction: u64,
    pub max_aggregate_cells: u64,
}

/// `struct multigrid_answer`
#[repr(C)]
#[derive(Clone, Copy)]
pub struct Answer {
    pub question: u64,
    pub level: u64,
    pub row: u64,
}

/// `struct multigrid_hierarchy`
#[repr(C)]
#[derive(Clone, Copy)]
pub struct Hierarchy {
    pub options: Options,
    pub levels: u64,
    pub rows: u64,
    pub entries: u64,
}

/// `struct multigrid_built`
#[repr(C)]
#[derive(Clone, Copy)]
pub struct Built {
    pub answer: Answer,
    pub hierarchy: Hierarchy,
}

/// `struct multigrid_report`
#[repr(C)]
#[derive(Clone, Copy)]
pub struct Report {
    pub answer: Answer,
    pub converged: u64,
    pub iterations: u64,
    pub initial_residual: f64,
    pub final_residual: f64,
    pub relative_residual: f64,
}

/// `struct multigrid_count`
#[repr(C)]
#[derive(Clone, Copy)]
pub struct Count {
    pub answer: Answer,
    pub levels: u64,
}

/// `struct multigrid_charge`
#[repr(C)]
#[derive(Clone, Copy)]
pub struct Charge {
    pub words: u64,
    pub floats: u64,
    pub statistics: u64,
}

/// `struct multigrid_loaded`
#[repr(C)]
#[derive(Clone, Copy)]
pub struct Loaded {
    pub answer: Answer,
    pub rows: u64,
    pub entries: u64,
}

#[link(name = "multigrid_c", kind = "static")]
extern "C" {
    pub fn multigrid_default_options() -> Options;
    pub fn multigrid_charge(rows: u64, entries: u64, options: Options, levels: u64) -> Charge;
    pub fn multigrid_load(
        seed: u64,
        width: u64,
        height: u64,
        depth: u64,
        offsets: *mut u32,
        offsets_length: usize,
        columns: *mut u32,
        columns_length: usize,
        values: *mut f64,
        values_length: usize,
    ) -> Loaded;
    pub fn multigrid_new(
        rows: usize,
        offsets: *const u32,
        offsets_length: usize,
        columns: *const u32,
        columns_length: usize,
        values: *const f64,
        values_length: usize,
        options: Options,
        words: *mut u32,
        words_length: usize,
        floats: *mut f64,
        floats_length: usize,
        statistics: *mut MultigridLevelStatistics,
        statistics_length: usize,
    ) -> Built;
    pub fn multigrid_new_with_face_weights(
        rows: usize,
        offsets: *const u32,
        offsets_length: usize,
        columns: *const u32,
        columns_length: usize,
        values: *const f64,
        values_length: usize,
        face_weights: *const f64,
        face_weights_length: usize,
        options: Options,
        words: *mut u32,
        words_length: usize,
        floats: *mut f64,
        floats_length: usize,
        statistics: *mut MultigridLevelStatistics,
        statistics_length: usize,
    ) -> Built;
    pub fn multigrid_update_values(
        hierarchy: Hierarchy,
        offsets: *const u32,
        offsets_length: usize,
        columns: *const u32,
        columns_length: usize,
        values: *const f64,
        values_length: usize,
        words: *const u32,
        words_length: usize,
        floats: *mut f64,
        floats_length: usize,
        statistics: *const MultigridLevelStatistics,
        statistics_length: usize,
    ) -> Answer;
    pub fn multigrid_solve(
        hierarchy: Hierarchy,
        words: *const u32,
        words_length: usize,
        floats: *mut f64,
        floats_length: usize,
        statistics: *mut MultigridLevelStatistics,
        statistics_length: usize,
        rhs: *const f64,
        rhs_length: usize,
        x: *mut f64,
        x_length: usize,
        absolute_tolerance: f64,
        relative_tolerance: f64,
        max_iterations: u64,
    ) -> Report;
    pub fn multigrid_statistics(
        hierarchy: Hierarchy,
        words: *const u32,
        words_length: usize,
        floats: *const f64,
        floats_length: usize,
        statistics: *const MultigridLevelStatistics,
        statistics_length: usize,
    ) -> Count;
}
