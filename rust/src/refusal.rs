//! Why a call refuses: one case for each question, named as in crates/refusal.

use crate::sentences::SENTENCES;
use std::error::Error;
use std::fmt::{Debug, Display, Formatter, Result as Written};

/// The questions of a build, of a solve and of an update, in order. Level and row say where it failed; the finest level is 0, and a matrix that is
/// formed on the way to a level counts as that level. docs/REFUSALS.md says of each what to do about it.
///
/// It prints as its sentence, also where `main` ends with it.
///
/// ```
/// use multigrid::Refusal;
///
/// let refusal = Refusal::BadDiagonal { level: 0, row: 7 };
/// assert_eq!((refusal.number(), refusal.place()), (12, Some((0, 7))));
/// let said = "question 12: a diagonal is not finite or not above zero (level 0, row 7)";
/// assert_eq!((refusal.to_string(), format!("{refusal:?}")), (said.to_string(), said.to_string()));
/// ```
#[derive(Clone, Copy, PartialEq, Eq)]
#[non_exhaustive]
pub enum Refusal {
    /// There are more than 65,536 rows or 1,048,576 entries.
    TooLarge,
    /// The offsets do not rise from 0 to the number of entries, one more than rows, or there are not as many values as columns.
    BadOffsets,
    /// The columns of a row do not rise, or one is not below the number of rows.
    BadColumns,
    /// There are not as many weights as entries.
    WeightCount,
    /// A weight is not finite or below zero.
    BadWeight,
    /// The controls are outside their ranges.
    InvalidControls,
    /// The coarse solver is not Cholesky.
    NotCholesky,
    /// There is no row.
    NoRows,
    /// The stores or the statistics are too small.
    StoreTooSmall,
    /// An entry off the diagonal has no mirror, differs from it by more than 1e-12, or is not finite.
    NotSymmetric,
    /// A diagonal entry is missing.
    MissingDiagonal {
        /// Of the matrix.
        level: u64,
        /// Of that level.
        row: u64,
    },
    /// A diagonal is not finite or not above zero.
    BadDiagonal {
        /// Of the matrix.
        level: u64,
        /// Of that level.
        row: u64,
    },
    /// The reciprocal of a diagonal is not finite.
    BadReciprocal {
        /// Of the matrix.
        level: u64,
        /// Of that level.
        row: u64,
    },
    /// More rows are coupled on the last level than coarsest_cells allows.
    TooManyCoupled,
    /// A Cholesky pivot is not finite or not above zero.
    BadPivot {
        /// Of the matrix.
        level: u64,
        /// Of that level.
        row: u64,
    },
    /// A DIC pivot is not finite or not above zero.
    BadDicPivot {
        /// Of the matrix.
        level: u64,
        /// Of that level.
        row: u64,
    },
    /// The reciprocal of a DIC pivot is not finite.
    BadDicReciprocal {
        /// Of the matrix.
        level: u64,
        /// Of that level.
        row: u64,
    },
    /// A Galerkin value is not finite.
    BadCoarseValue,
    /// The stores do not hold a hierarchy of this handle.
    UnsoundStores,
    /// The right-hand side or the solution has not as many elements as there are rows.
    WrongLength,
    /// The iteration limit is zero, a tolerance is not finite or below zero, or a vector is not finite.
    BadInput,
    /// The normalization is not finite.
    BadNormalization,
    /// The norm of a residual is not finite.
    BadResidual,
    /// The solution of the last level is not finite.
    BadCoarseSolution,
    /// What the smoother gives is not finite.
    BadSmootherOutput,
    /// A product of a correction is not finite.
    BadCorrectionProduct,
    /// The scale of a correction is not finite.
    BadCorrectionScale,
    /// A dot product of the accelerator is not finite.
    BadDotProduct,
    /// The image of a correction is zero.
    ZeroImage,
    /// A direction of the accelerator is not finite.
    BadDirection,
    /// Offsets or columns are not those of the build, or there are not as many values as columns.
    OtherPattern,
    /// A record of a problem file is unknown, repeated, out of place, out of range, too short, too large or missing.
    BadRecord,
    /// A load's seed or an extent is zero, there are more than 65,536 cells, or the slices are too short.
    BadLoad,
    /// A matrix file has another header, a size line not of three numbers or not square, or an entry that is malformed, repeated, missing or surplus.
    BadMatrixFile,
    /// A value of a matrix file is no number of at most 15 digits and a power of ten from -22 to 22.
    BadNumber,
    /// A matrix to be written as symmetric has an entry whose mirror is missing or unequal.
    UnequalMirrors,
    /// There is no memory for the stores: no question of the library, which allocates nothing, but of this wrapper.
    OutOfMemory {
        /// Of all three stores.
        bytes: usize,
    },
}

impl Refusal {
    /// The refusal of a question's number; None where there is no such question.
    pub fn of(number: u64, level: u64, row: u64) -> Option<Self> {
        Some(match number {
            1 => Self::TooLarge,
            2 => Self::BadOffsets,
            3 => Self::BadColumns,
            4 => Self::WeightCount,
            5 => Self::BadWeight,
            6 => Self::InvalidControls,
            7 => Self::NotCholesky,
            8 => Self::NoRows,
            9 => Self::StoreTooSmall,
            10 => Self::NotSymmetric,
            11 => Self::MissingDiagonal { level, row },
            12 => Self::BadDiagonal { level, row },
            13 => Self::BadReciprocal { level, row },
            14 => Self::TooManyCoupled,
            15 => Self::BadPivot { level, row },
            16 => Self::BadDicPivot { level, row },
            17 => Self::BadDicReciprocal { level, row },
            18 => Self::BadCoarseValue,
            19 => Self::UnsoundStores,
            20 => Self::WrongLength,
            21 => Self::BadInput,
            22 => Self::BadNormalization,
            23 => Self::BadResidual,
            24 => Self::BadCoarseSolution,
            25 => Self::BadSmootherOutput,
            26 => Self::BadCorrectionProduct,
            27 => Self::BadCorrectionScale,
            28 => Self::BadDotProduct,
            29 => Self::ZeroImage,
            30 => Self::BadDirection,
            31 => Self::OtherPattern,
            32 => Self::BadRecord,
            35 => Self::BadLoad,
            38 => Self::BadMatrixFile,
            39 => Self::BadNumber,
            40 => Self::UnequalMirrors,
            _ => return None,
        })
    }

    /// The number of the question; zero for `OutOfMemory`, which is none.
    pub fn number(self) -> u64 {
        match self {
            Self::TooLarge => 1,
            Self::BadOffsets => 2,
            Self::BadColumns => 3,
            Self::WeightCount => 4,
            Self::BadWeight => 5,
            Self::InvalidControls => 6,
            Self::NotCholesky => 7,
            Self::NoRows => 8,
            Self::StoreTooSmall => 9,
            Self::NotSymmetric => 10,
            Self::MissingDiagonal { .. } => 11,
            Self::BadDiagonal { .. } => 12,
            Self::BadReciprocal { .. } => 13,
            Self::TooManyCoupled => 14,
            Self::BadPivot { .. } => 15,
            Self::BadDicPivot { .. } => 16,
            Self::BadDicReciprocal { .. } => 17,
            Self::BadCoarseValue => 18,
            Self::UnsoundStores => 19,
            Self::WrongLength => 20,
            Self::BadInput => 21,
            Self::BadNormalization => 22,
            Self::BadResidual => 23,
            Self::BadCoarseSolution => 24,
            Self::BadSmootherOutput => 25,
            Self::BadCorrectionProduct => 26,
            Self::BadCorrectionScale => 27,
            Self::BadDotProduct => 28,
            Self::ZeroImage => 29,
            Self::BadDirection => 30,
            Self::OtherPattern => 31,
            Self::BadRecord => 32,
            Self::BadLoad => 35,
            Self::BadMatrixFile => 38,
            Self::BadNumber => 39,
            Self::UnequalMirrors => 40,
            Self::OutOfMemory { .. } => 0,
        }
    }

    /// Level and row where it failed, if the question names them.
    pub fn place(self) -> Option<(u64, u64)> {
        match self {
            Self::MissingDiagonal { level, row }
            | Self::BadDiagonal { level, row }
            | Self::BadReciprocal { level, row }
            | Self::BadPivot { level, row }
            | Self::BadDicPivot { level, row }
            | Self::BadDicReciprocal { level, row } => Some((level, row)),
            _ => None,
        }
    }

    /// The level, or zero.
    pub fn level(self) -> u64 {
        self.place().map_or(0, |(level, _)| level)
    }

    /// The row, or zero.
    pub fn row(self) -> u64 {
        self.place().map_or(0, |(_, row)| row)
    }

    /// What is wrong, in words.
    pub fn sentence(self) -> &'static str {
        match self {
            Self::OutOfMemory { .. } => "there is no memory for the stores",
            _ => {
                let number = self.number();
                let found = SENTENCES.iter().find(|(question, _)| *question == number);
                found.map_or("", |(_, sentence)| sentence)
            }
        }
    }
}

impl Display for Refusal {
    fn fmt(&self, formatter: &mut Formatter<'_>) -> Written {
        if let Self::OutOfMemory { bytes } = self {
            return write!(formatter, "{} of {bytes} bytes", self.sentence());
        }
        write!(formatter, "question {}: {}", self.number(), self.sentence())?;
        match self.place() {
            Some((level, row)) => write!(formatter, " (level {level}, row {row})"),
            None => Ok(()),
        }
    }
}

/// The sentence too: it is what `main` prints that ends with a refusal.
impl Debug for Refusal {
    fn fmt(&self, formatter: &mut Formatter<'_>) -> Written {
        Display::fmt(self, formatter)
    }
}

impl Error for Refusal {}
