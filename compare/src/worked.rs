//! Document 01's worked examples, answered by the oracle: they show that the Rust compiles to what the
//! document says of it, and that each of its steps can be called alone.

use crate::build::expected::TOLERANCE;
use crate::report::Report;
use oracle::parts::{self, Acceleration, Hierarchy, Kernel, Terminal};
use oracle::{
    AlgebraicMultigrid, CsrMatrix, LinearAlgebraError, LinearSolverOptions, MultigridCoarseSolver,
    MultigridOptions, MultigridResidualNorm, MultigridSmoother, during_build,
};

pub fn compare(report: &mut Report) {
    aggregates(report);
    coarse_matrix(report);
    factors_and_sweeps(report);
    questions(report);
    smallpress(report);
    parts_and_whole(report);
}

fn expect<T: PartialEq + std::fmt::Debug>(report: &mut Report, line: &str, found: T, said: T) {
    let kind = report.kind("oracle/worked-examples");
    report.case(kind, found == said, || {
        format!("{line}: due is {said:?}, the Rust gives {found:?}")
    });
}

fn aggregates(report: &mut Report) {
    let path = path(4, 2.0);
    let up = parts::pairs(&path, true, None);
    expect(report, "path of 4, up", up, (vec![0, 0, 1, 1], 2));
    let down = parts::pairs(&path, false, None);
    expect(report, "path of 4, down", down, (vec![1, 1, 0, 0], 2));
    let three = parts::pairs(&self::path(3, 2.0), true, None);
    expect(report, "path of 3, up", three, (vec![0, 0, 0], 1));
    let faces = [(0, 1, -1.0), (0, 2, -1.0), (2, 3, -1.0)];
    let branched = parts::pairs(&matrix(&[2.0; 4], &faces), true, None);
    expect(
        report,
        "faces 0-1, 0-2, 2-3",
        branched,
        (vec![0, 0, 1, 1], 2),
    );
    let none = parts::pairs(&self::path(3, 2.0), true, Some(&[0.0; 7]));
    expect(report, "all weights zero", none.1, 3);
}

fn coarse_matrix(report: &mut Report) {
    let formed = parts::galerkin(&path(4, 2.0), &[0, 0, 1, 1], 2);
    let values = formed.map(|(coarse, entries)| {
        let weights = parts::restrict_weights(&[1.0; 10], &entries, &coarse);
        expect(
            report,
            "weights of a path",
            weights,
            vec![0.0, 1.0, 1.0, 0.0],
        );
        coarse.values().to_vec()
    });
    expect(
        report,
        "Galerkin product of a path",
        values,
        Ok(vec![2.0, -1.0, -1.0, 2.0]),
    );
}

fn factors_and_sweeps(report: &mut Report) {
    let p = p();
    let factor = parts::cholesky(&p);
    expect(report, "P factors", factor, Ok(vec![2.0, 0.0, -1.0, 1.0]));
    let mut x = [0.0; 2];
    let terminal = Terminal::new(&p, cholesky_controls());
    let solved = terminal.map(|terminal| {
        terminal.map(|mut terminal| terminal.solve(&[2.0, 0.0], &mut x, cholesky_controls()))
    });
    expect(
        report,
        "P solved",
        (solved, x),
        (Ok(Some(Ok(0))), [1.0, 1.0]),
    );
    let mut inverse_dic = vec![0.0; 2];
    let kernel = Kernel::new(&matrix(&[4.0, 2.0], &[(0, 1, 2.0)]));
    let done = kernel.and_then(|kernel| kernel.update_dic_diagonal(&mut inverse_dic));
    expect(
        report,
        "DIC inverses",
        (done, inverse_dic),
        (Ok(()), vec![0.25, 1.0]),
    );
    for (kind, said) in [
        (MultigridSmoother::GaussSeidel, [0.5, 0.5]),
        (MultigridSmoother::SymmetricGaussSeidel, [0.75, 0.5]),
    ] {
        let mut x = [0.0; 2];
        let kernel = Kernel::new(&p);
        let done = kernel.and_then(|kernel| kernel.smooth(&[], kind, &[2.0, 0.0], &mut x, 1));
        expect(report, "one sweep on P", (done, x), (Ok(()), said));
    }
}

/// The container refuses what questions 1 to 3 refuse, and 18 only while a build runs.
fn questions(report: &mut Report) {
    let rows = |rows: usize| CsrMatrix::new(rows, rows, vec![0; rows + 1], vec![], vec![]).is_ok();
    expect(
        report,
        "65,536 rows",
        (rows(65_536), rows(65_537)),
        (true, false),
    );
    let unsorted = CsrMatrix::new(2, 2, vec![0, 2, 2], vec![1, 0], vec![1.0; 2]).is_ok();
    expect(report, "columns that fall", unsorted, false);
    let apart = |difference: f64| {
        let values = vec![1.0, 1.0 + difference];
        let unlike = CsrMatrix::new(2, 2, vec![0, 1, 2], vec![1, 0], values);
        unlike.map(|matrix| matrix.is_symmetric(TOLERANCE))
    };
    expect(
        report,
        "mirrors apart by one bit",
        apart(f64::EPSILON),
        Ok(true),
    );
    expect(report, "mirrors apart by 2e-12", apart(2e-12), Ok(false));
    let huge = path(2, f64::MAX);
    let formed = || parts::galerkin(&huge, &[0, 0], 1).is_ok();
    expect(
        report,
        "a sum overflows",
        (formed(), during_build(formed)),
        (true, false),
    );
}

/// The program `smallpress`, as the Rust answers it.
fn smallpress(report: &mut Report) {
    let controls = MultigridOptions {
        residual_norm: MultigridResidualNorm::AbsoluteL2,
        krylov_dimension: 0,
        ..cholesky_controls()
    };
    let limits = LinearSolverOptions {
        absolute_tolerance: 0.0,
        relative_tolerance: 0.5,
        max_iterations: 5,
    };
    let mut x = [0.0; 2];
    let answer = AlgebraicMultigrid::new(&p(), controls).and_then(|mut multigrid| {
        let report = multigrid.solve(&[2.0, 0.0], &mut x, limits)?;
        let finest = &multigrid.statistics()[0];
        let statistics = (finest.cells, finest.visits, finest.smoothing_sweeps);
        let residuals = (report.initial_residual, report.final_residual);
        Ok((report.converged(), report.iterations, residuals, statistics))
    });
    let said = Ok((true, 1, (2.0, 0.0), (2, 1, 0)));
    expect(report, "smallpress", (answer, x), (said, [1.0, 1.0]));
}

/// One iteration of the public solve is one cycle and one correction, called part by part.
fn parts_and_whole(report: &mut Report) {
    let matrix = path(40, 2.5);
    let rhs: Vec<f64> = (0..40).map(|row| f64::from(row % 7) - 3.0).collect();
    let controls = MultigridOptions {
        krylov_dimension: 1,
        pre_sweeps: 1,
        ..cholesky_controls()
    };
    let limits = LinearSolverOptions {
        max_iterations: 1,
        ..LinearSolverOptions::default()
    };
    let mut whole = vec![0.0; 40];
    let solved = AlgebraicMultigrid::new(&matrix, controls)
        .and_then(|mut multigrid| multigrid.solve(&rhs, &mut whole, limits));
    expect(
        report,
        "a public solve",
        solved.map(|report| report.iterations),
        Ok(1),
    );
    expect(
        report,
        "its parts",
        by_parts(&matrix, &rhs, controls),
        Ok(whole),
    );
}

fn by_parts(
    matrix: &CsrMatrix,
    rhs: &[f64],
    controls: MultigridOptions,
) -> Result<Vec<f64>, LinearAlgebraError> {
    let (mut direction, mut image, mut x) = (vec![0.0; 40], vec![0.0; 40], vec![0.0; 40]);
    Hierarchy::build(matrix, controls, None)?.cycle(controls, rhs, &mut direction)?;
    Kernel::new(matrix)?.apply(&direction, &mut image);
    Acceleration::new(40, 1).correct(&mut direction, &mut image, rhs, &mut x)?;
    Ok(x)
}

fn cholesky_controls() -> MultigridOptions {
    MultigridOptions {
        coarse_solver: MultigridCoarseSolver::Cholesky,
        ..MultigridOptions::default()
    }
}

/// The matrix P: 4, -2; -2, 2.
fn p() -> CsrMatrix {
    matrix(&[4.0, 2.0], &[(0, 1, -2.0)])
}

/// Neighbouring rows with off-diagonal -1.
fn path(rows: usize, diagonal: f64) -> CsrMatrix {
    let faces: Vec<_> = (1..rows).map(|row| (row - 1, row, -1.0)).collect();
    matrix(&vec![diagonal; rows], &faces)
}

/// The symmetric matrix of a diagonal and of faces (row, greater row, value).
fn matrix(diagonal: &[f64], faces: &[(usize, usize, f64)]) -> CsrMatrix {
    let (mut offsets, mut columns, mut values) = (vec![0], Vec::new(), Vec::new());
    for (row, &diagonal) in diagonal.iter().enumerate() {
        let mut entries = vec![(row, diagonal)];
        for &(owner, neighbor, value) in faces {
            if owner == row {
                entries.push((neighbor, value));
            } else if neighbor == row {
                entries.push((owner, value));
            }
        }
        entries.sort_by_key(|entry| entry.0);
        columns.extend(entries.iter().map(|entry| entry.0));
        values.extend(entries.iter().map(|entry| entry.1));
        offsets.push(columns.len());
    }
    let rows = diagonal.len();
    CsrMatrix::new(rows, rows, offsets, columns, values).expect("a worked example is a matrix")
}
