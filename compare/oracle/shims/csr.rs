//! A plain container of compressed rows. Document 01's questions 1 to 3 are its validity, question 10
//! is its symmetry test, and while a build runs it asks question 18 of every matrix that is formed.

use super::LinearAlgebraError;

const MOST_ROWS: usize = 65_536;
const MOST_ENTRIES: usize = 1_048_576;

#[derive(Clone, Debug)]
pub struct CsrMatrix {
    columns: usize,
    row_offsets: Vec<usize>,
    column_indices: Vec<usize>,
    values: Vec<f64>,
}

/// Named by the Rust and never called by the twelve files.
pub struct CsrBuilder;
pub(crate) struct CsrPatternCache;

impl CsrMatrix {
    pub fn new(
        rows: usize,
        columns: usize,
        row_offsets: Vec<usize>,
        column_indices: Vec<usize>,
        values: Vec<f64>,
    ) -> Result<Self, LinearAlgebraError> {
        if rows > MOST_ROWS || column_indices.len() > MOST_ENTRIES {
            return Err(refused(1, "too many rows or entries"));
        }
        if !offsets_fit(rows, &row_offsets, column_indices.len())
            || values.len() != column_indices.len()
        {
            return Err(refused(2, "offsets or values do not fit the entries"));
        }
        if !columns_rise(columns, &row_offsets, &column_indices) {
            return Err(refused(3, "columns out of range or not rising"));
        }
        if crate::building::is_running() {
            all_finite(&values)?;
        }
        Ok(Self {
            columns,
            row_offsets,
            column_indices,
            values,
        })
    }

    pub fn nrows(&self) -> usize {
        self.row_offsets.len() - 1
    }

    pub fn ncols(&self) -> usize {
        self.columns
    }

    pub fn nnz(&self) -> usize {
        self.values.len()
    }

    pub fn row_offsets(&self) -> &[usize] {
        &self.row_offsets
    }

    pub fn column_indices(&self) -> &[usize] {
        &self.column_indices
    }

    pub fn values(&self) -> &[f64] {
        &self.values
    }

    pub fn values_mut(&mut self) -> &mut [f64] {
        &mut self.values
    }

    pub fn get(&self, row: usize, column: usize) -> Option<f64> {
        let (start, end) = (self.row_offsets[row], self.row_offsets[row + 1]);
        self.column_indices[start..end]
            .binary_search(&column)
            .ok()
            .map(|position| self.values[start + position])
    }

    /// Question 10, with the tolerance that the Rust hands over.
    pub fn is_symmetric(&self, tolerance: f64) -> bool {
        (0..self.nrows()).all(|row| {
            (self.row_offsets[row]..self.row_offsets[row + 1]).all(|entry| {
                let column = self.column_indices[entry];
                column == row || self.mirrors(row, column, self.values[entry], tolerance)
            })
        })
    }

    fn mirrors(&self, row: usize, column: usize, value: f64, tolerance: f64) -> bool {
        let mirror = self.get(column, row);
        mirror.is_some_and(|mirror| {
            value.is_finite() && mirror.is_finite() && (value - mirror).abs() <= tolerance
        })
    }

    /// Adds each row's products in entry order, from plus zero.
    pub fn spmv_into(&self, input: &[f64], output: &mut [f64]) -> Result<(), LinearAlgebraError> {
        ensure_len(self.columns, input.len())?;
        ensure_len(self.nrows(), output.len())?;
        for (row, sum) in output.iter_mut().enumerate() {
            *sum = 0.0;
            for entry in self.row_offsets[row]..self.row_offsets[row + 1] {
                *sum += self.values[entry] * input[self.column_indices[entry]];
            }
        }
        Ok(())
    }
}

pub(crate) fn ensure_len(expected: usize, actual: usize) -> Result<(), LinearAlgebraError> {
    if expected == actual {
        Ok(())
    } else {
        Err(LinearAlgebraError::DimensionMismatch { expected, actual })
    }
}

fn offsets_fit(rows: usize, offsets: &[usize], entries: usize) -> bool {
    offsets.len() == rows + 1
        && offsets[0] == 0
        && offsets.is_sorted()
        && offsets[rows] == entries
}

fn columns_rise(columns: usize, offsets: &[usize], column_indices: &[usize]) -> bool {
    offsets.windows(2).all(|row| {
        let row = &column_indices[row[0]..row[1]];
        row.iter().all(|&column| column < columns) && row.is_sorted_by(|a, b| a < b)
    })
}

fn all_finite(values: &[f64]) -> Result<(), LinearAlgebraError> {
    match values.iter().position(|value| !value.is_finite()) {
        None => Ok(()),
        Some(index) => Err(LinearAlgebraError::NonFiniteValue {
            context: "Galerkin",
            index,
        }),
    }
}

fn refused(question: u8, what: &str) -> LinearAlgebraError {
    LinearAlgebraError::InvalidCsr {
        message: format!("question {question}: {what}"),
    }
}
