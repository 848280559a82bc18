//! The steps of the multigrid files, one by one.
//!
//! What they show to their parent only is called here by wrappers that add nothing. `hierarchy`, `matrix` and
//! `smoother` are included into modules of ours, which can call and read what is private there.

include!(concat!(env!("OUT_DIR"), "/mount_parts.rs"));

#[allow(dead_code, clippy::all)]
mod hierarchy {
    include!(concat!(env!("OUT_DIR"), "/linear/multigrid/hierarchy.rs"));

    pub fn restricted(weights: &[f64], entries: &[usize], coarse: &CsrMatrix) -> Vec<f64> {
        restrict_weights(Some(weights), entries, coarse).unwrap_or_default()
    }
}

#[allow(dead_code, clippy::all)]
mod matrix {
    include!(concat!(env!("OUT_DIR"), "/linear/multigrid/matrix.rs"));

    impl SymmetricMatrix {
        pub fn entries(&self) -> [&[usize]; 3] {
            [
                &self.diagonal_entries,
                &self.face_entries,
                &self.transpose_entries,
            ]
        }
    }
}

#[allow(dead_code, clippy::all)]
mod smoother {
    include!(concat!(env!("OUT_DIR"), "/linear/multigrid/smoother.rs"));

    pub fn sweep(
        matrix: &SymmetricMatrix,
        rhs: &[f64],
        x: &mut [f64],
        work: &mut [f64],
        symmetric: bool,
    ) {
        gauss_seidel(matrix, rhs, x, work, symmetric);
    }

    /// Lines 124 to 147 of smoother.rs as they stand there, in the loop of `smooth`.
    pub fn dic_sweep(
        matrix: &SymmetricMatrix,
        inverse_dic: &[f64],
        rhs: &[f64],
        x: &mut [f64],
        correction: &mut [f64],
    ) {
        matrix.residual(x, rhs, correction);
        for row in 0..rhs.len() {
            let value = correction[row] * inverse_dic[row];
            correction[row] = value;
            let range = matrix.offsets[row]..matrix.offsets[row + 1];
            for (&neighbor, &a) in matrix.neighbors[range.clone()]
                .iter()
                .zip(&matrix.coefficients[range])
            {
                correction[neighbor as usize] -= a * value;
            }
        }
        for row in (0..rhs.len()).rev() {
            let mut upper = 0.0;
            let range = matrix.offsets[row]..matrix.offsets[row + 1];
            for (&neighbor, &a) in matrix.neighbors[range.clone()]
                .iter()
                .zip(&matrix.coefficients[range])
            {
                upper += a * correction[neighbor as usize];
            }
            correction[row] -= inverse_dic[row] * upper;
            x[row] += correction[row];
        }
    }
}

use crate::{
    CsrMatrix, LinearAlgebraError, MultigridCoarseSolver, MultigridLevelStatistics,
    MultigridOptions, MultigridSmoother, Preconditioner,
};

type Answer<T> = Result<T, LinearAlgebraError>;

/// `pairs` of aggregation.rs: each row's aggregate, and how many there are.
pub fn pairs(matrix: &CsrMatrix, forward: bool, weights: Option<&[f64]>) -> (Vec<usize>, usize) {
    aggregation::pairs(matrix, forward, weights)
}

/// `galerkin` of aggregation.rs: the coarse matrix, and where each fine entry went.
pub fn galerkin(
    matrix: &CsrMatrix,
    aggregates: &[usize],
    count: usize,
) -> Answer<(CsrMatrix, Vec<usize>)> {
    aggregation::galerkin(matrix, aggregates, count)
}

/// `restrict_weights` of hierarchy.rs.
pub fn restrict_weights(weights: &[f64], entries: &[usize], coarse: &CsrMatrix) -> Vec<f64> {
    hierarchy::restricted(weights, entries, coarse)
}

/// `cholesky` of hierarchy.rs: the lower factor, row by row, zeros above.
pub fn cholesky(matrix: &CsrMatrix) -> Answer<Vec<f64>> {
    hierarchy::cholesky(matrix)
}

/// `solve_factor` of hierarchy.rs.
pub fn solve_factor(lower: &[f64], rhs: &[f64], x: &mut [f64]) {
    hierarchy::solve_factor(lower, rhs, x);
}

/// `SymmetricMatrix` of matrix.rs, with the smoothers over it.
pub struct Kernel(matrix::SymmetricMatrix);

impl Kernel {
    pub fn new(matrix: &CsrMatrix) -> Answer<Self> {
        matrix::SymmetricMatrix::new(matrix).map(Self)
    }

    pub fn update(&mut self, matrix: &CsrMatrix) -> Answer<()> {
        self.0.update(matrix)
    }

    pub fn diagonal(&self) -> &[f64] {
        &self.0.diagonal
    }

    pub fn inverse(&self) -> &[f64] {
        &self.0.inverse
    }

    pub fn offsets(&self) -> &[usize] {
        &self.0.offsets
    }

    pub fn neighbors(&self) -> &[u32] {
        &self.0.neighbors
    }

    pub fn coefficients(&self) -> &[f64] {
        &self.0.coefficients
    }

    /// `diagonal_entries`, `face_entries` and `transpose_entries`.
    pub fn entries(&self) -> [&[usize]; 3] {
        self.0.entries()
    }

    pub fn coupled_rows(&self) -> usize {
        self.0.coupled_rows()
    }

    pub fn is_symmetric(&self, matrix: &CsrMatrix, tolerance: f64) -> bool {
        self.0.is_symmetric(matrix, tolerance)
    }

    pub fn symmetrize_coarse_values(&self, matrix: &mut CsrMatrix) {
        self.0.symmetrize_coarse_values(matrix);
    }

    pub fn apply(&self, x: &[f64], output: &mut [f64]) {
        self.0.apply(x, output);
    }

    pub fn residual(&self, x: &[f64], rhs: &[f64], output: &mut [f64]) {
        self.0.residual(x, rhs, output);
    }

    pub fn row_sums_into(&self, sums: &mut [f64]) {
        self.0.row_sums_into(sums);
    }

    /// `update_dic_diagonal` of smoother.rs: the reciprocals of the pivots.
    pub fn update_dic_diagonal(&self, inverse_dic: &mut [f64]) -> Answer<()> {
        smoother::update_dic_diagonal(&self.0, inverse_dic)
    }

    /// `DicPreconditioner` of smoother.rs.
    pub fn apply_dic(&self, inverse_dic: &[f64], rhs: &[f64], output: &mut [f64]) -> Answer<()> {
        let preconditioner = smoother::DicPreconditioner {
            matrix: &self.0,
            inverse: inverse_dic,
        };
        preconditioner.apply_into(rhs, output)
    }

    /// Any values, also such as `update` refuses.
    pub fn set_values(&mut self, diagonal: &[f64], inverse: &[f64], coefficients: &[f64]) {
        self.0.diagonal.copy_from_slice(diagonal);
        self.0.inverse.copy_from_slice(inverse);
        self.0.coefficients.copy_from_slice(coefficients);
    }

    /// `gauss_seidel` of smoother.rs: one sweep, without the test of its outcome.
    pub fn gauss_seidel(&self, rhs: &[f64], x: &mut [f64], work: &mut [f64], symmetric: bool) {
        smoother::sweep(&self.0, rhs, x, work, symmetric);
    }

    /// One DIC sweep of `smooth` of smoother.rs.
    pub fn dic_sweep(
        &self,
        inverse_dic: &[f64],
        rhs: &[f64],
        x: &mut [f64],
        correction: &mut [f64],
    ) {
        smoother::dic_sweep(&self.0, inverse_dic, rhs, x, correction);
    }

    /// `smooth` of smoother.rs. `inverse_dic` is read under `DicGaussSeidel` only.
    pub fn smooth(
        &self,
        inverse_dic: &[f64],
        kind: MultigridSmoother,
        rhs: &[f64],
        x: &mut [f64],
        sweeps: usize,
    ) -> Answer<()> {
        let (mut work, mut correction) = (vec![0.0; rhs.len()], vec![0.0; rhs.len()]);
        smoother::smooth(
            &self.0,
            inverse_dic,
            kind,
            rhs,
            x,
            &mut work,
            &mut correction,
            sweeps,
        )
    }
}

/// `CoarseSystem` of coarse.rs, with the scratch that its solve takes.
pub struct Terminal {
    system: coarse::CoarseSystem,
    scratch: hierarchy::Scratch,
}

impl Terminal {
    /// None where no row is coupled.
    pub fn new(matrix: &CsrMatrix, options: MultigridOptions) -> Answer<Option<Self>> {
        let system = coarse::CoarseSystem::new(matrix, options)?;
        Ok(system.map(|system| Self {
            scratch: hierarchy::Scratch::new(0, system.len()),
            system,
        }))
    }

    pub fn coupled_rows(&self) -> usize {
        self.system.len()
    }

    pub fn update(&mut self, matrix: &CsrMatrix) -> Answer<()> {
        self.system.update(matrix)
    }

    /// The count of iterations. It leaves the rows of `x` that are not coupled alone.
    pub fn solve(
        &mut self,
        rhs: &[f64],
        x: &mut [f64],
        options: MultigridOptions,
    ) -> Answer<usize> {
        self.system.solve(rhs, x, &mut self.scratch, options)
    }
}

/// `GcrWorkspace` of acceleration.rs.
pub struct Acceleration(acceleration::GcrWorkspace);

impl Acceleration {
    pub fn new(rows: usize, dimension: usize) -> Self {
        Self(acceleration::GcrWorkspace::new(rows, dimension))
    }

    pub fn reset(&mut self) {
        self.0.reset();
    }

    pub fn correct(
        &mut self,
        direction: &mut [f64],
        image: &mut [f64],
        residual: &[f64],
        solution: &mut [f64],
    ) -> Answer<()> {
        self.0.correct(direction, image, residual, solution)
    }
}

/// The levels of hierarchy.rs, with the scratch and the statistics that cycle.rs takes.
pub struct Hierarchy {
    levels: Vec<hierarchy::Level>,
    scratch: Vec<hierarchy::Scratch>,
    statistics: Vec<MultigridLevelStatistics>,
}

/// What one level holds.
pub struct Level<'a> {
    pub matrix: &'a CsrMatrix,
    pub diagonal: &'a [f64],
    pub inverse: &'a [f64],
    pub offsets: &'a [usize],
    pub neighbors: &'a [u32],
    pub coefficients: &'a [f64],
    pub inverse_dic: &'a [f64],
    pub aggregates: Option<&'a [usize]>,
    pub coarse_entries: &'a [usize],
    pub coupled_rows: Option<usize>,
}

impl Hierarchy {
    /// `build` of hierarchy.rs, with question 18 asked of every matrix that it forms.
    pub fn build(
        matrix: &CsrMatrix,
        options: MultigridOptions,
        weights: Option<&[f64]>,
    ) -> Answer<Self> {
        let (levels, scratch) = crate::during_build(|| hierarchy::build(matrix, options, weights))?;
        let statistics = vec![MultigridLevelStatistics::default(); levels.len()];
        Ok(Self {
            levels,
            scratch,
            statistics,
        })
    }

    /// `update` of hierarchy.rs. A refused one leaves the levels part written.
    pub fn update(&mut self, matrix: &CsrMatrix) -> Answer<()> {
        hierarchy::update(&mut self.levels, matrix)
    }

    /// `cycle` of cycle.rs, from the finest level.
    pub fn cycle(&mut self, options: MultigridOptions, rhs: &[f64], x: &mut [f64]) -> Answer<()> {
        cycle::cycle(
            &self.levels,
            &mut self.scratch,
            &mut self.statistics,
            options,
            0,
            rhs,
            x,
        )
    }

    pub fn statistics(&self) -> &[MultigridLevelStatistics] {
        &self.statistics
    }

    pub fn levels(&self) -> impl Iterator<Item = Level<'_>> {
        self.levels.iter().map(|level| Level {
            matrix: &level.matrix,
            diagonal: &level.kernel.diagonal,
            inverse: &level.kernel.inverse,
            offsets: &level.kernel.offsets,
            neighbors: &level.kernel.neighbors,
            coefficients: &level.kernel.coefficients,
            inverse_dic: &level.inverse_dic,
            aggregates: level.aggregates.as_deref(),
            coarse_entries: &level.coarse_entries,
            coupled_rows: level.terminal.as_ref().map(coarse::CoarseSystem::len),
        })
    }
}
