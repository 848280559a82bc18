//! The calls as they are: over stores that the caller lends.
//!
//! ```
//! use multigrid::lent::{self, Charge, CsrMatrix, Stores};
//! use multigrid::{LinearSolverOptions, MultigridOptions, Refusal};
//!
//! fn main() -> Result<(), Refusal> {
//!     let matrix = CsrMatrix { rows: 2, row_offsets: &[0, 2, 4], column_indices: &[0, 1, 0, 1], values: &[4.0, -2.0, -2.0, 2.0] };
//!     let options = MultigridOptions::default();
//!     let mut stores = Stores::new(Charge::most(&matrix, &options, 2))?;
//!     let handle = lent::build(matrix, None, &options, &mut stores)?;
//!     let mut x = [0.0; 2];
//!     let report = lent::solve(&handle, &mut stores, &[2.0, 0.0], &mut x, LinearSolverOptions::default())?;
//!     assert!(report.converged());
//!     assert_eq!(lent::statistics(&handle, &stores)?, 1);
//!     Ok(())
//! }
//! ```

use crate::calls::{self, Answer};
use crate::{
    Hierarchy, Level, LinearSolveReport, LinearSolverOptions, LinearSolverStatus,
    MultigridLevelStatistics, MultigridOptions, Refusal,
};
use std::fmt::{Debug, Formatter, Result as Written};
use std::mem::size_of;

/// A matrix in compressed rows: `rows` + 1 offsets, and a column and a value for each entry. Anything may stand in the
/// arrays; a build refuses what is no matrix.
///
/// ```
/// use multigrid::{AlgebraicMultigrid, CsrMatrix, MultigridOptions, Refusal};
///
/// let falling = CsrMatrix { rows: 2, row_offsets: &[0, 2, 4], column_indices: &[1, 0, 0, 1], values: &[-2.0, 4.0, -2.0, 2.0] };
/// let refused = AlgebraicMultigrid::new(falling, &MultigridOptions::default()).err();
/// assert_eq!(refused, Some(Refusal::BadColumns));
/// ```
#[derive(Clone, Copy, Debug)]
pub struct CsrMatrix<'a> {
    /// How many rows it has, and columns.
    pub rows: usize,
    /// Where the entries of each row start, and after the last row the number of entries.
    pub row_offsets: &'a [u32],
    /// The column of each entry, rising in a row.
    pub column_indices: &'a [u32],
    /// The value of each entry.
    pub values: &'a [f64],
}

/// What a build is lent, of any lengths.
///
/// ```
/// use multigrid::lent::{Charge, Stores};
///
/// let stores = Stores::new(Charge { words: 10, floats: 20, statistics: 3 })?;
/// assert_eq!((stores.words.len(), stores.bytes()), (10, 4 * 10 + 8 * 20 + 40 * 3));
/// # Ok::<(), multigrid::Refusal>(())
/// ```
#[derive(Clone, Default)]
pub struct Stores {
    /// The tables of all levels.
    pub words: Vec<u32>,
    /// The numbers of all levels, and scratch.
    pub floats: Vec<f64>,
    /// A record for each level that there may be.
    pub statistics: Vec<MultigridLevelStatistics>,
}

/// So many words, floats and records of statistics.
///
/// ```
/// use multigrid::lent::{Charge, CsrMatrix};
/// use multigrid::MultigridOptions;
///
/// let matrix = CsrMatrix { rows: 2, row_offsets: &[0, 2, 4], column_indices: &[0, 1, 0, 1], values: &[4.0, -2.0, -2.0, 2.0] };
/// let charge = Charge::most(&matrix, &MultigridOptions::default(), 1);
/// assert_eq!(charge, Charge { words: 178, floats: 228, statistics: 64 });
/// ```
#[derive(Clone, Copy, Debug, PartialEq, Eq)]
pub struct Charge {
    /// Of 4 bytes.
    pub words: usize,
    /// Of 8 bytes.
    pub floats: usize,
    /// Of 40 bytes.
    pub statistics: usize,
}

/// The greatest matrix and controls that pass questions 1 and 6: what is greater is refused whatever is lent.
pub(crate) const MOST_ROWS: usize = 65_536;
const MOST_ENTRIES: usize = 1_048_576;
const MOST_CELLS: u64 = 256;
const MOST_LEVELS: u64 = 128;
const MOST_DIRECTIONS: u64 = 16;

impl Charge {
    /// What question 9 asks for at most, for so many levels: none has more rows or entries than the finest.
    pub fn most(matrix: &CsrMatrix<'_>, options: &MultigridOptions, levels: u64) -> Self {
        let payable = MultigridOptions {
            coarsest_cells: options.coarsest_cells.min(MOST_CELLS),
            max_levels: options.max_levels.min(MOST_LEVELS),
            krylov_dimension: options.krylov_dimension.min(MOST_DIRECTIONS),
            ..*options
        };
        let rows = matrix.rows.min(MOST_ROWS) as u64;
        let entries = matrix.column_indices.len().min(MOST_ENTRIES) as u64;
        // SAFETY: numbers alone cross.
        let due = unsafe {
            calls::multigrid_charge(rows, entries, payable.crossing(), levels.min(MOST_LEVELS))
        };
        Self {
            words: due.words as usize,
            floats: due.floats as usize,
            statistics: due.statistics as usize,
        }
    }

    /// The bytes of stores of that size.
    pub fn bytes(&self) -> usize {
        let words = self.words.saturating_mul(size_of::<u32>());
        let floats = self.floats.saturating_mul(size_of::<f64>());
        let record = size_of::<MultigridLevelStatistics>();
        let statistics = self.statistics.saturating_mul(record);
        words.saturating_add(floats).saturating_add(statistics)
    }
}

impl Stores {
    /// Stores of that size, all zero; `Refusal::OutOfMemory` where there is no room for them.
    pub fn new(charge: Charge) -> Result<Self, Refusal> {
        fn zeros<T: Clone + Default>(count: usize, bytes: usize) -> Result<Vec<T>, Refusal> {
            let mut store = Vec::new();
            match store.try_reserve_exact(count) {
                Ok(()) => store.resize(count, T::default()),
                Err(_) => return Err(Refusal::OutOfMemory { bytes }),
            }
            Ok(store)
        }
        let bytes = charge.bytes();
        Ok(Self {
            words: zeros(charge.words, bytes)?,
            floats: zeros(charge.floats, bytes)?,
            statistics: zeros(charge.statistics, bytes)?,
        })
    }

    /// How many bytes they have.
    pub fn bytes(&self) -> usize {
        let charge = Charge {
            words: self.words.len(),
            floats: self.floats.len(),
            statistics: self.statistics.len(),
        };
        charge.bytes()
    }
}

/// Their lengths: they hold millions of numbers.
impl Debug for Stores {
    fn fmt(&self, formatter: &mut Formatter<'_>) -> Written {
        let (words, floats) = (self.words.len(), self.floats.len());
        formatter
            .debug_struct("Stores")
            .field("words", &words)
            .field("floats", &floats)
            .field("statistics", &self.statistics.len())
            .finish()
    }
}

/// A build's answer, which the later calls are given with the stores of that build. Anything may stand in it; a call
/// refuses a handle that does not fit the stores.
///
/// ```
/// use multigrid::lent::{self, Handle, Stores};
/// use multigrid::{MultigridOptions, Refusal};
///
/// let wild = Handle { options: MultigridOptions::default(), levels: 3, rows: u64::MAX, entries: 7 };
/// assert_eq!(lent::statistics(&wild, &Stores::default()), Err(Refusal::UnsoundStores));
/// ```
#[derive(Clone, Copy, Debug, PartialEq)]
pub struct Handle {
    /// Those of the build.
    pub options: MultigridOptions,
    /// How many there are.
    pub levels: u64,
    /// Of the finest matrix.
    pub rows: u64,
    /// Of the finest matrix.
    pub entries: u64,
}

impl Handle {
    fn crossing(&self) -> calls::Hierarchy {
        calls::Hierarchy {
            options: self.options.crossing(),
            levels: self.levels,
            rows: self.rows,
            entries: self.entries,
        }
    }
}

pub(crate) fn answered(answer: Answer) -> Result<(), Refusal> {
    match answer.question {
        0 => Ok(()),
        number => Err(Refusal::of(number, answer.level, answer.row)
            .expect("a call answers by a question's number")),
    }
}

/// Builds a hierarchy in the stores, whatever they held. Refused, every word of them is zero.
pub fn build(
    matrix: CsrMatrix<'_>,
    face_weights: Option<&[f64]>,
    options: &MultigridOptions,
    stores: &mut Stores,
) -> Result<Handle, Refusal> {
    let CsrMatrix {
        rows,
        row_offsets: offsets,
        column_indices: columns,
        values,
    } = matrix;
    let (words, floats) = (&mut stores.words, &mut stores.floats);
    let statistics = &mut stores.statistics;
    // SAFETY: the pointers are slices' own, with their lengths; what is written is borrowed alone.
    let built = unsafe {
        match face_weights {
            Some(weights) => calls::multigrid_new_with_face_weights(
                rows,
                offsets.as_ptr(),
                offsets.len(),
                columns.as_ptr(),
                columns.len(),
                values.as_ptr(),
                values.len(),
                weights.as_ptr(),
                weights.len(),
                options.crossing(),
                words.as_mut_ptr(),
                words.len(),
                floats.as_mut_ptr(),
                floats.len(),
                statistics.as_mut_ptr(),
                statistics.len(),
            ),
            None => calls::multigrid_new(
                rows,
                offsets.as_ptr(),
                offsets.len(),
                columns.as_ptr(),
                columns.len(),
                values.as_ptr(),
                values.len(),
                options.crossing(),
                words.as_mut_ptr(),
                words.len(),
                floats.as_mut_ptr(),
                floats.len(),
                statistics.as_mut_ptr(),
                statistics.len(),
            ),
        }
    };
    answered(built.answer)?;
    Ok(Handle {
        options: *options,
        levels: built.hierarchy.levels,
        rows: built.hierarchy.rows,
        entries: built.hierarchy.entries,
    })
}

/// New values for the hierarchy in the stores. Refused, no word changes but scratch.
pub fn update_values(
    handle: &Handle,
    row_offsets: &[u32],
    column_indices: &[u32],
    values: &[f64],
    stores: &mut Stores,
) -> Result<(), Refusal> {
    let (words, floats, statistics) = (&stores.words, &mut stores.floats, &stores.statistics);
    // SAFETY: the pointers are slices' own, with their lengths; what is written is borrowed alone.
    let answer = unsafe {
        calls::multigrid_update_values(
            handle.crossing(),
            row_offsets.as_ptr(),
            row_offsets.len(),
            column_indices.as_ptr(),
            column_indices.len(),
            values.as_ptr(),
            values.len(),
            words.as_ptr(),
            words.len(),
            floats.as_mut_ptr(),
            floats.len(),
            statistics.as_ptr(),
            statistics.len(),
        )
    };
    answered(answer)
}

/// Solves for the right-hand side, from what `x` holds. Refused, `x`, the statistics and the hierarchy stay as they were.
pub fn solve(
    handle: &Handle,
    stores: &mut Stores,
    rhs: &[f64],
    x: &mut [f64],
    options: LinearSolverOptions,
) -> Result<LinearSolveReport, Refusal> {
    let (words, floats) = (&stores.words, &mut stores.floats);
    let statistics = &mut stores.statistics;
    // SAFETY: the pointers are slices' own, with their lengths; what is written is borrowed alone.
    let report = unsafe {
        calls::multigrid_solve(
            handle.crossing(),
            words.as_ptr(),
            words.len(),
            floats.as_mut_ptr(),
            floats.len(),
            statistics.as_mut_ptr(),
            statistics.len(),
            rhs.as_ptr(),
            rhs.len(),
            x.as_mut_ptr(),
            x.len(),
            options.absolute_tolerance,
            options.relative_tolerance,
            options.max_iterations,
        )
    };
    answered(report.answer)?;
    Ok(LinearSolveReport {
        status: match report.converged {
            0 => LinearSolverStatus::MaxIterations,
            _ => LinearSolverStatus::Converged,
        },
        iterations: report.iterations,
        initial_residual: report.initial_residual,
        final_residual: report.final_residual,
        relative_residual: report.relative_residual,
    })
}

/// How many records at the front of the statistics are those of the levels.
pub fn statistics(handle: &Handle, stores: &Stores) -> Result<usize, Refusal> {
    let (words, floats, statistics) = (&stores.words, &stores.floats, &stores.statistics);
    // SAFETY: the pointers are slices' own, with their lengths; nothing is written.
    let count = unsafe {
        calls::multigrid_statistics(
            handle.crossing(),
            words.as_ptr(),
            words.len(),
            floats.as_ptr(),
            floats.len(),
            statistics.as_ptr(),
            statistics.len(),
        )
    };
    answered(count.answer)?;
    Ok(count.levels as usize)
}

/// The load of a seed on a box of so many cells along its width, height and depth, written over the starts of the three slices, of which the rest
/// stays as it was: its rows and entries. Refused, nothing is written.
///
/// ```
/// use multigrid::{lent, Refusal};
///
/// let (mut offsets, mut columns, mut values) = ([9; 4], [9; 7], [9.0; 8]);
/// assert_eq!(lent::load(1, [3, 1, 1], &mut offsets, &mut columns, &mut values), Ok((3, 7)));
/// assert_eq!((offsets, values[7]), ([0, 2, 5, 7], 9.0));
/// assert_eq!(lent::load(1, [4, 1, 1], &mut offsets, &mut columns, &mut values), Err(Refusal::BadLoad));
/// ```
pub fn load(
    seed: u64,
    extents: [u64; 3],
    offsets: &mut [u32],
    columns: &mut [u32],
    values: &mut [f64],
) -> Result<(usize, usize), Refusal> {
    let [width, height, depth] = extents;
    // SAFETY: the pointers are slices' own, with their lengths; what is written is borrowed alone.
    let loaded = unsafe {
        calls::multigrid_load(
            seed,
            width,
            height,
            depth,
            offsets.as_mut_ptr(),
            offsets.len(),
            columns.as_mut_ptr(),
            columns.len(),
            values.as_mut_ptr(),
            values.len(),
        )
    };
    answered(loaded.answer)?;
    Ok((loaded.rows as usize, loaded.entries as usize))
}

/// The levels of the hierarchy in the stores, read out of the words: of a level its rows, whether it is the last, its coupled rows, offsets, columns, starts,
/// diagonals, three lists of faces, links and positions (docs/ARCHITECTURE.md).
pub fn hierarchy(handle: &Handle, stores: &Stores) -> Result<Hierarchy, Refusal> {
    let count = statistics(handle, stores)?;
    let word = |place: usize| stores.words.get(place).map_or(0, |&word| word as usize);
    let (mut levels, mut place) = (Vec::with_capacity(count), 0);
    for _ in 0..count {
        let (rows, last, coupled) = (word(place), word(place + 1), word(place + 2));
        let entries = word(place + 3 + rows);
        let starts = place + 4 + rows + entries;
        let faces = word(starts + rows);
        levels.push(Level { rows, entries });
        let links = if last == 1 { coupled } else { rows + entries };
        place = starts + 2 * rows + 1 + 3 * faces + links;
    }
    Ok(Hierarchy { levels })
}
