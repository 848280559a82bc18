//! The wrapper over the proved calls; compare/ has the calls themselves.

use multigrid::lent::Charge;
use multigrid::{
    AlgebraicMultigrid, CsrMatrix, MultigridCoarseSolver, MultigridOptions, MultigridSmoother,
    Refusal, Stores,
};

const OFFSETS: [u32; 3] = [0, 2, 4];
const COLUMNS: [u32; 4] = [0, 1, 0, 1];

fn two_rows(values: &[f64]) -> CsrMatrix<'_> {
    CsrMatrix {
        rows: 2,
        row_offsets: &OFFSETS,
        column_indices: &COLUMNS,
        values,
    }
}

fn rows(built: &AlgebraicMultigrid) -> Vec<u64> {
    let statistics = built.statistics();
    statistics.iter().map(|level| level.cells).collect()
}

#[test]
fn two_rows_are_one_level() {
    let values = [4.0, -2.0, -2.0, 2.0];
    let built = AlgebraicMultigrid::new(two_rows(&values), &MultigridOptions::default());
    assert_eq!(built.map(|built| rows(&built)), Ok(vec![2]));
}

#[test]
fn weights_join_rows_or_leave_them_apart() {
    let values = [4.0, -2.0, -2.0, 2.0];
    let options = MultigridOptions {
        coarsest_cells: 1,
        ..MultigridOptions::default()
    };
    let build = |weights: &[f64]| {
        let built = AlgebraicMultigrid::new_with_face_weights(two_rows(&values), weights, &options);
        built.map(|built| rows(&built))
    };
    assert_eq!(build(&[0.0, 1.0, 1.0, 0.0]), Ok(vec![2, 1]));
    assert_eq!(build(&[0.0; 4]), Err(Refusal::TooManyCoupled));
    assert_eq!(build(&[0.0; 3]), Err(Refusal::WeightCount));
}

#[test]
fn a_cap_keeps_aggregates_small() {
    // a star: row 0 and five others, each coupled with it alone
    let columns = [0, 1, 2, 3, 4, 5, 0, 1, 0, 2, 0, 3, 0, 4, 0, 5];
    let mut values = [-1.0; 16];
    values[0] = 6.0;
    for row in 0..5 {
        values[7 + 2 * row] = 2.0;
    }
    let star = CsrMatrix {
        rows: 6,
        row_offsets: &[0, 6, 8, 10, 12, 14, 16],
        column_indices: &columns,
        values: &values,
    };
    let build = |cap| {
        let options = MultigridOptions {
            coarsest_cells: 1,
            merge_levels: 1,
            max_aggregate_cells: cap,
            ..MultigridOptions::default()
        };
        AlgebraicMultigrid::new(star, &options).map(|built| rows(&built))
    };
    assert_eq!(build(0), Ok(vec![6, 1]));
    assert_eq!(build(3), Ok(vec![6, 4, 2, 1]));
    assert_eq!(build(65_535), Ok(vec![6, 1]));
    assert_eq!(build(1), Err(Refusal::InvalidControls));
    assert_eq!(build(65_536), Err(Refusal::InvalidControls));
}

#[test]
fn a_refusal_names_its_place() {
    let values = [4.0, -2.0, -2.0, -1.0];
    let refused = AlgebraicMultigrid::new(two_rows(&values), &MultigridOptions::default()).err();
    assert_eq!(refused, Some(Refusal::BadDiagonal { level: 0, row: 1 }));
    let sentence = refused.map(|refusal| refusal.to_string());
    let said = "question 12: a diagonal is not finite or not above zero (level 0, row 1)";
    assert_eq!(sentence.as_deref(), Some(said));
}

#[test]
fn controls_are_asked_before_anything_is_sized_by_them() {
    let values = [4.0, -2.0, -2.0, 2.0];
    for options in [
        MultigridOptions {
            max_levels: u64::MAX,
            ..MultigridOptions::default()
        },
        MultigridOptions {
            coarsest_cells: u64::MAX,
            ..MultigridOptions::default()
        },
    ] {
        let refused = AlgebraicMultigrid::new(two_rows(&values), &options).err();
        assert_eq!(refused, Some(Refusal::InvalidControls));
    }
    let options = MultigridOptions {
        coarse_solver: MultigridCoarseSolver::PcgDic,
        ..MultigridOptions::default()
    };
    let refused = AlgebraicMultigrid::new(two_rows(&values), &options).err();
    assert_eq!(refused, Some(Refusal::NotCholesky));
}

/// A path of 64 rows and 1,000 rows alone: the levels hardly shrink, and the stores that were enough for two are not.
#[test]
fn stores_grow_with_the_levels() {
    let (mut offsets, mut columns, mut values) = (vec![0], Vec::new(), Vec::new());
    for row in 0..1_064_u32 {
        for column in row.saturating_sub(1)..=row + 1 {
            if column == row || (row < 64 && column < 64) {
                columns.push(column);
                values.push(if column == row { 2.5 } else { -1.0 });
            }
        }
        offsets.push(columns.len() as u32);
    }
    let matrix = CsrMatrix {
        rows: 1_064,
        row_offsets: &offsets,
        column_indices: &columns,
        values: &values,
    };
    let options = MultigridOptions {
        smoother: MultigridSmoother::GaussSeidel,
        coarsest_cells: 1,
        merge_levels: 1,
        ..MultigridOptions::default()
    };
    let built = AlgebraicMultigrid::new(matrix, &options);
    let due = [64, 32, 16, 8, 4, 2, 1].map(|coupled| 1_000 + coupled);
    assert_eq!(built.map(|built| rows(&built)), Ok(due.to_vec()));
}

/// No process has that much: an error, not an abort.
#[test]
fn what_cannot_be_had_is_an_error() {
    let charge = Charge {
        words: usize::MAX / 16,
        floats: 0,
        statistics: 0,
    };
    let refused = Stores::new(charge).err();
    let bytes = charge.bytes();
    assert_eq!(refused, Some(Refusal::OutOfMemory { bytes }));
    let sentence = refused.map(|refusal| format!("{:?}", refusal));
    let said = format!("there is no memory for the stores of {bytes} bytes");
    assert_eq!(sentence, Some(said));
}

/// Two rows have room for two levels, not for the 64 that there may be.
#[test]
fn stores_are_no_larger_than_they_have_to_be() {
    let values = [4.0, -2.0, -2.0, 2.0];
    let options = MultigridOptions::default();
    let built = AlgebraicMultigrid::new(two_rows(&values), &options).expect("it builds");
    let charge = Charge::most(&two_rows(&values), &options, 2);
    assert_eq!(built.stores().bytes(), charge.bytes());
    let printed = format!("{built:?}");
    assert!(printed.contains("Level { rows: 2, entries: 4 }") && printed.len() < 1_500);
}
