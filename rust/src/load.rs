//! A load in vectors of its own.

use crate::lent::{self, MOST_ROWS};
use crate::{CsrMatrix, Refusal};

/// A box of cells from a seed, as a matrix in compressed rows.
#[derive(Clone, Debug, PartialEq)]
pub struct Load {
    /// How many cells it has, a row for each.
    pub rows: usize,
    /// Where the entries of each row start, and after the last row the number of entries.
    pub row_offsets: Vec<u32>,
    /// The column of each entry, rising in a row.
    pub column_indices: Vec<u32>,
    /// The value of each entry, a whole number.
    pub values: Vec<f64>,
}

impl Load {
    /// What a build and an update take.
    pub fn matrix(&self) -> CsrMatrix<'_> {
        CsrMatrix {
            rows: self.rows,
            row_offsets: &self.row_offsets,
            column_indices: &self.column_indices,
            values: &self.values,
        }
    }
}

/// A row has its diagonal and two faces along each axis.
const MOST_IN_A_ROW: usize = 7;

/// The load of a seed on a box of so many cells along its width, height and depth, the same on every machine; a depth of 1 is a flat box. Each face
/// takes a conductance of 1 to 1,024 from the draws of the seed; off the diagonal stands its negative, on it the sum of the cell's faces plus 1.
///
/// ```
/// use multigrid::{load, AlgebraicMultigrid, MultigridOptions, Refusal};
///
/// let cake = load(1, [2, 2, 1])?;
/// assert_eq!(cake.row_offsets, [0, 3, 6, 9, 12]);
/// assert_eq!(cake.values, [135.0, -67.0, -67.0, -67.0, 623.0, -555.0, -67.0, 107.0, -39.0, -555.0, -39.0, 595.0]);
/// AlgebraicMultigrid::new(cake.matrix(), &MultigridOptions::default())?;
/// assert_eq!(load(0, [2, 2, 1]), Err(Refusal::BadLoad));
/// # Ok::<(), Refusal>(())
/// ```
pub fn load(seed: u64, extents: [u64; 3]) -> Result<Load, Refusal> {
    let product = |cells: u64, &extent: &u64| cells.checked_mul(extent);
    let cells = extents.iter().try_fold(1, product);
    // Where there are too many no room is made, and the call refuses.
    let cells = cells.filter(|&cells| cells <= MOST_ROWS as u64);
    let cells = cells.unwrap_or(0) as usize;
    let mut made = Load {
        rows: cells,
        row_offsets: vec![0; cells + 1],
        column_indices: vec![0; MOST_IN_A_ROW * cells],
        values: vec![0.0; MOST_IN_A_ROW * cells],
    };
    let (offsets, columns) = (&mut made.row_offsets, &mut made.column_indices);
    let (_, entries) = lent::load(seed, extents, offsets, columns, &mut made.values)?;
    made.column_indices.truncate(entries);
    made.values.truncate(entries);
    Ok(made)
}
