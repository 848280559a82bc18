//! The levels of a hierarchy, to be printed, and what was done on each.

use std::fmt::{Display, Formatter, Result as Written};

/// Rows and entries of a level's matrix.
///
/// ```
/// use multigrid::Level;
///
/// let level = Level { rows: 4, entries: 10 };
/// assert_eq!(level.entries / level.rows, 2);
/// ```
#[derive(Clone, Copy, Debug, PartialEq, Eq)]
pub struct Level {
    /// One for each cell.
    pub rows: usize,
    /// Stored ones, the diagonal among them.
    pub entries: usize,
}

/// The levels of a hierarchy, the finest first. It prints as a table.
///
/// ```
/// use multigrid::{Hierarchy, Level};
///
/// let levels = vec![Level { rows: 64, entries: 288 }, Level { rows: 16, entries: 64 }];
/// let hierarchy = Hierarchy { levels };
/// assert_eq!(hierarchy.grid_complexity(), 1.25);
/// let table = "level   rows  entries  per row  of finest
///     0     64      288      4.5     100.0%
///     1     16       64      4.0      25.0%
/// grid complexity 1.250, operator complexity 1.222";
/// assert_eq!(hierarchy.to_string(), table);
/// ```
#[derive(Clone, Debug, PartialEq, Eq)]
pub struct Hierarchy {
    /// The finest first.
    pub levels: Vec<Level>,
}

impl Hierarchy {
    /// The rows of all levels by those of the finest.
    pub fn grid_complexity(&self) -> f64 {
        self.of_finest(|level| level.rows)
    }

    /// The entries of all levels by those of the finest: what one cycle costs, in products with the finest matrix.
    pub fn operator_complexity(&self) -> f64 {
        self.of_finest(|level| level.entries)
    }

    fn of_finest(&self, size: impl Fn(&Level) -> usize) -> f64 {
        let all: usize = self.levels.iter().map(&size).sum();
        let finest = self.levels.first().map_or(1, &size);
        all as f64 / finest as f64
    }
}

impl Display for Hierarchy {
    fn fmt(&self, formatter: &mut Formatter<'_>) -> Written {
        writeln!(formatter, "level   rows  entries  per row  of finest")?;
        let finest = self.levels.first().map_or(1, |level| level.rows) as f64;
        for (number, Level { rows, entries }) in self.levels.iter().enumerate() {
            let per_row = *entries as f64 / *rows as f64;
            let share = 100.0 * *rows as f64 / finest;
            writeln!(
                formatter,
                "{number:5} {rows:6} {entries:8} {per_row:8.1} {share:9.1}%"
            )?;
        }
        let (grid, operator) = (self.grid_complexity(), self.operator_complexity());
        write!(
            formatter,
            "grid complexity {grid:.3}, operator complexity {operator:.3}"
        )
    }
}

/// What was done on a level since its build; counters stop at 2^64 - 1.
///
/// ```
/// use multigrid::{AlgebraicMultigrid, CsrMatrix, MultigridLevelStatistics, MultigridOptions};
///
/// let matrix = CsrMatrix { rows: 1, row_offsets: &[0, 1], column_indices: &[0], values: &[2.0] };
/// let solver = AlgebraicMultigrid::new(matrix, &MultigridOptions::default())?;
/// let due = MultigridLevelStatistics { cells: 1, ..MultigridLevelStatistics::default() };
/// assert_eq!(solver.statistics(), [due]);
/// # Ok::<(), multigrid::Refusal>(())
/// ```
#[repr(C)]
#[derive(Clone, Copy, Debug, Default, PartialEq, Eq)]
pub struct MultigridLevelStatistics {
    /// The rows of the level.
    pub cells: u64,
    /// The cycles that came to it.
    pub visits: u64,
    /// The sweeps of its smoother before the correction of a visit; the last level has no correction, and makes none.
    pub pre_sweeps: u64,
    /// Those after it.
    pub post_sweeps: u64,
    /// Of the last level; Cholesky takes none.
    pub coarse_iterations: u64,
}

impl MultigridLevelStatistics {
    /// All sweeps of its smoother, which the source counts in one number.
    ///
    /// ```
    /// let level = multigrid::MultigridLevelStatistics { pre_sweeps: 2, post_sweeps: 3, ..Default::default() };
    /// assert_eq!(level.smoothing_sweeps(), 5);
    /// ```
    pub fn smoothing_sweeps(&self) -> u64 {
        self.pre_sweeps.saturating_add(self.post_sweeps)
    }
}
