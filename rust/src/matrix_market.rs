//! Matrix Market files: a text to a matrix, and a matrix to a text.

use crate::calls::Answer;
use crate::lent::{answered, MOST_ROWS};
use crate::{CsrMatrix, Refusal};

/// `struct multigrid_converted`
#[repr(C)]
#[derive(Clone, Copy)]
struct Converted {
    answer: Answer,
    length: u64,
}

#[link(name = "matrix_market_c", kind = "static")]
extern "C" {
    fn multigrid_read_matrix_file(
        text: *const u8,
        text_length: usize,
        rows: *mut u32,
        rows_length: usize,
        columns: *mut u32,
        columns_length: usize,
        values: *mut f64,
        values_length: usize,
        starts: *mut u32,
        starts_length: usize,
        order: *mut u32,
        order_length: usize,
        links: *mut u32,
        links_length: usize,
        out: *mut u8,
        out_length: usize,
    ) -> Converted;
    fn multigrid_write_matrix_file(
        symmetric: u64,
        record: *const u8,
        record_length: usize,
        out: *mut u8,
        out_length: usize,
    ) -> Converted;
}

/// The most entries that a file may state; a symmetric one may have twice as many with their mirrors, and is refused then.
const MOST_ENTRIES: usize = 1_048_576;
/// What stands before the offsets in an MX record: the mark, the rows and the entries.
const HEAD: usize = 10;
/// The least bytes that an entry takes in a text, and the most; the most that the rest takes.
const LEAST_LINE: usize = 6;
const MOST_LINE: usize = 33;
const MOST_HEAD: usize = 128;

/// A matrix in compressed rows, read from a Matrix Market file or to be written to one.
#[derive(Clone, Debug, Default, PartialEq)]
pub struct MatrixFile {
    /// Where the entries of each row start, and after the last row the number of entries.
    pub row_offsets: Vec<u32>,
    /// The column of each entry, rising in a row.
    pub column_indices: Vec<u32>,
    /// The value of each entry.
    pub values: Vec<f64>,
}

impl MatrixFile {
    /// The matrix of a text, both triangles of a symmetric one, its values correctly rounded.
    ///
    /// ```
    /// use multigrid::{AlgebraicMultigrid, MatrixFile, MultigridOptions, Refusal};
    ///
    /// let text = b"%%MatrixMarket matrix coordinate real symmetric\n2 2 3\n1 1 4\n2 1 -2\n2 2 2\n";
    /// let file = MatrixFile::read(text)?;
    /// assert_eq!((&file.row_offsets[..], &file.values[..]), (&[0, 2, 4][..], &[4.0, -2.0, -2.0, 2.0][..]));
    /// AlgebraicMultigrid::new(file.matrix(), &MultigridOptions::default())?;
    /// assert_eq!(MatrixFile::read(b"4 -2 -2 2"), Err(Refusal::BadMatrixFile));
    /// # Ok::<(), Refusal>(())
    /// ```
    pub fn read(text: &[u8]) -> Result<Self, Refusal> {
        let most = (2 * (text.len() / LEAST_LINE + 1)).min(2 * MOST_ENTRIES);
        match record_of(text, most) {
            // It states more entries than it has bytes for; with the most room there is, what is wrong with it is told.
            Err(Refusal::StoreTooSmall) => Ok(Self::of_record(&record_of(text, 2 * MOST_ENTRIES)?)),
            record => Ok(Self::of_record(&record?)),
        }
    }

    /// The text, symmetric, with the triangle on and below the diagonal, or general. A value that no number of 15 digits gives exactly is refused.
    ///
    /// ```
    /// use multigrid::{MatrixFile, Refusal};
    ///
    /// let mut file = MatrixFile { row_offsets: vec![0, 2, 4], column_indices: vec![0, 1, 0, 1], values: vec![4.0, -2.0, -2.0, 2.5] };
    /// let text = file.write(true)?;
    /// assert_eq!(text, b"%%MatrixMarket matrix coordinate real symmetric\n2 2 3\n1 1 4\n2 1 -2\n2 2 25e-1\n");
    /// assert_eq!(MatrixFile::read(&text)?, file);
    /// file.values[2] = -1.0;
    /// assert_eq!(file.write(true), Err(Refusal::UnequalMirrors));
    /// # Ok::<(), Refusal>(())
    /// ```
    pub fn write(&self, symmetric: bool) -> Result<Vec<u8>, Refusal> {
        let record = self.record();
        let mut out = vec![0; MOST_HEAD + MOST_LINE * self.column_indices.len()];
        // SAFETY: the pointers are slices' own, with their lengths; what is written is borrowed alone.
        let converted = unsafe {
            multigrid_write_matrix_file(
                symmetric.into(),
                record.as_ptr(),
                record.len(),
                out.as_mut_ptr(),
                out.len(),
            )
        };
        answered(converted.answer)?;
        out.truncate(converted.length as usize);
        Ok(out)
    }

    /// What a build and an update take.
    pub fn matrix(&self) -> CsrMatrix<'_> {
        CsrMatrix {
            rows: self.row_offsets.len().saturating_sub(1),
            row_offsets: &self.row_offsets,
            column_indices: &self.column_indices,
            values: &self.values,
        }
    }

    /// The MX record: its mark, rows and entries, then the three lists.
    fn record(&self) -> Vec<u8> {
        let rows = self.row_offsets.len().saturating_sub(1) as u32;
        let mut record = b"MX".to_vec();
        for number in [rows, self.column_indices.len() as u32] {
            record.extend(number.to_le_bytes());
        }
        for number in self.row_offsets.iter().chain(&self.column_indices) {
            record.extend(number.to_le_bytes());
        }
        for value in &self.values {
            record.extend(value.to_le_bytes());
        }
        record
    }

    fn of_record(record: &[u8]) -> Self {
        let word = |bytes: &[u8]| u32::from_le_bytes([bytes[0], bytes[1], bytes[2], bytes[3]]);
        let (rows, entries) = (word(&record[2..6]) as usize, word(&record[6..10]) as usize);
        let (columns, values) = (HEAD + 4 * (rows + 1), HEAD + 4 * (rows + 1 + entries));
        let float = |bytes: &[u8]| {
            let bits = u64::from(word(bytes)) | u64::from(word(&bytes[4..])) << 32;
            f64::from_bits(bits)
        };
        Self {
            row_offsets: record[HEAD..columns].chunks(4).map(word).collect(),
            column_indices: record[columns..values].chunks(4).map(word).collect(),
            values: record[values..].chunks(8).map(float).collect(),
        }
    }
}

/// The MX record of a text, with room for so many entries with their mirrors.
fn record_of(text: &[u8], most: usize) -> Result<Vec<u8>, Refusal> {
    let (mut rows, mut columns, mut values) = (vec![0; most], vec![0; most], vec![0.0; most]);
    let (mut starts, mut order, mut links) = (vec![0; MOST_ROWS + 1], vec![0; most], vec![0; most]);
    let mut out = vec![0; HEAD + 4 + 4 * MOST_ROWS + 12 * most];
    // SAFETY: the pointers are slices' own, with their lengths; what is written is borrowed alone.
    let converted = unsafe {
        multigrid_read_matrix_file(
            text.as_ptr(),
            text.len(),
            rows.as_mut_ptr(),
            rows.len(),
            columns.as_mut_ptr(),
            columns.len(),
            values.as_mut_ptr(),
            values.len(),
            starts.as_mut_ptr(),
            starts.len(),
            order.as_mut_ptr(),
            order.len(),
            links.as_mut_ptr(),
            links.len(),
            out.as_mut_ptr(),
            out.len(),
        )
    };
    answered(converted.answer)?;
    out.truncate(converted.length as usize);
    Ok(out)
}
