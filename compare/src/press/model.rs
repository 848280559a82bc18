//! What the program `press` prints, from the bytes on its standard input: the words of Q-2 in document 02. The numbers come from the Rust, by
//! what a build, an update and a solve are due elsewhere in this comparison.

use crate::build::expected as building;
use crate::build::hierarchy::Hierarchy;
use crate::build::problem::{Lent, Problem};
use crate::csr::Arrays;
use crate::sequence::{self, expected as calling};
use multigrid::{LinearSolverOptions, LinearSolverStatus, MultigridLevelStatistics};
use oracle::{
    AlgebraicMultigrid, MultigridCoarseSolver, MultigridOptions, MultigridResidualNorm,
    MultigridSmoother,
};
use std::fmt::Write;

/// Whether CO, MX and FW come in this order; else CO and MX in either, and FW after MX.
pub const ORDER_FIXED: bool = false;

/// Whether a matrix of no rows is a hierarchy with no levels; else question 8 refuses it.
pub const EMPTY_DRUM: bool = true;

pub const MOST_ROWS: usize = 64;
pub const MOST_ENTRIES: usize = 320;

/// What the program lends.
pub const LENT: Lent = Lent {
    words: 8_192,
    floats: 8_192,
    statistics: 128,
};

/// With a limit above it, a solve that takes as many iterations is not waited for.
const PATIENCE: u64 = 2_000;

/// Why the answer is 32.
#[derive(Clone, Copy)]
pub enum Fault {
    StrayByte,
    UnknownMark,
    RepeatedMark,
    MisplacedMark,
    ByteOutOfRange,
    ShortRecord,
    TooLarge,
    MissingRecord,
}

impl Fault {
    fn name(self) -> &'static str {
        match self {
            Self::StrayByte => "stray-byte",
            Self::UnknownMark => "unknown-mark",
            Self::RepeatedMark => "repeated-mark",
            Self::MisplacedMark => "misplaced-mark",
            Self::ByteOutOfRange => "byte-out-of-range",
            Self::ShortRecord => "short-record",
            Self::TooLarge => "too-large",
            Self::MissingRecord => "missing-record",
        }
    }
}

/// What ends a run before its input does.
enum End {
    Fault(Fault),
    /// The build is refused by this question.
    Refused(u64),
    /// The model has no answer: a solve takes too long, or cycles on levels that the Rust, which has no cap, does not have.
    Unknown,
}

type Run<T> = Result<T, End>;

#[derive(Default)]
pub struct Printed {
    pub text: String,
    /// What happened on the way, by name.
    pub met: Vec<String>,
}

/// What is printed; None where the model cannot tell.
pub fn press(input: &[u8]) -> Option<Printed> {
    let mut press = Press::default();
    match press.run(input) {
        Ok(()) => press.meet("end/accepted"),
        Err(End::Fault(fault)) => {
            press.line("refused 32");
            press.meet(&format!("refused-32/{}", fault.name()));
        }
        Err(End::Refused(number)) => {
            press.line(&format!("refused {number}"));
            press.meet(&format!("build/refused-{number:02}"));
        }
        Err(End::Unknown) => return None,
    }
    Some(press.printed)
}

#[derive(Clone, Copy, PartialEq)]
enum Mark {
    Controls,
    Matrix,
    Weights,
    Update,
    Solve,
}

/// The controls of a CO record.
#[derive(Clone, Copy)]
struct Controls {
    options: MultigridOptions,
    cap: u64,
}

/// The bytes that are not read yet.
struct Bytes<'a>(&'a [u8]);

impl<'a> Bytes<'a> {
    fn take(&mut self, count: usize) -> Run<&'a [u8]> {
        let (own, rest) = self
            .0
            .split_at_checked(count)
            .ok_or(End::Fault(Fault::ShortRecord))?;
        self.0 = rest;
        Ok(own)
    }

    fn array<const N: usize>(&mut self) -> Run<[u8; N]> {
        let mut bytes = [0; N];
        bytes.copy_from_slice(self.take(N)?);
        Ok(bytes)
    }

    fn byte(&mut self) -> Run<u8> {
        Ok(self.array::<1>()?[0])
    }

    fn word(&mut self) -> Run<u32> {
        Ok(u32::from_le_bytes(self.array()?))
    }

    fn count(&mut self) -> Run<u64> {
        Ok(u64::from_le_bytes(self.array()?))
    }

    fn float(&mut self) -> Run<f64> {
        Ok(f64::from_bits(self.count()?))
    }

    fn words(&mut self, count: usize) -> Run<Vec<u32>> {
        (0..count).map(|_| self.word()).collect()
    }

    fn floats(&mut self, count: usize) -> Run<Vec<f64>> {
        (0..count).map(|_| self.float()).collect()
    }

    /// One of the cases, by its number.
    fn case<T: Copy>(&mut self, cases: &[T]) -> Run<T> {
        let number = usize::from(self.byte()?);
        let case = cases.get(number).copied();
        case.ok_or(End::Fault(Fault::ByteOutOfRange))
    }

    fn small(&mut self) -> Run<usize> {
        Ok(self.count()? as usize)
    }
}

/// How many bytes a CO record has behind its mark.
pub const CONTROL_BYTES: usize = 108;

fn controls(bytes: &mut Bytes) -> Run<Controls> {
    // The record is read whole before it is looked at.
    let mut bytes = Bytes(bytes.take(CONTROL_BYTES)?);
    let options = MultigridOptions {
        smoother: bytes.case(&[
            MultigridSmoother::GaussSeidel,
            MultigridSmoother::SymmetricGaussSeidel,
            MultigridSmoother::DicGaussSeidel,
        ])?,
        residual_norm: bytes.case(&[
            MultigridResidualNorm::AbsoluteL2,
            MultigridResidualNorm::NormalizedL1,
        ])?,
        pre_sweeps: bytes.small()?,
        post_sweeps: bytes.small()?,
        finest_sweeps: bytes.small()?,
        sweep_level_multiplier: bytes.small()?,
        max_sweeps: bytes.small()?,
        coarsest_cells: bytes.small()?,
        max_levels: bytes.small()?,
        merge_levels: bytes.small()?,
        krylov_dimension: bytes.small()?,
        coarse_solver: bytes.case(&[
            MultigridCoarseSolver::PcgDic,
            MultigridCoarseSolver::Cholesky,
        ])?,
        coarse_absolute_tolerance: bytes.float()?,
        coarse_relative_tolerance: bytes.float()?,
        coarse_max_iterations: bytes.small()?,
        scale_correction: bytes.case(&[false, true])?,
        profile: false,
    };
    let cap = bytes.count()?;
    Ok(Controls { options, cap })
}

fn matrix(bytes: &mut Bytes) -> Run<Arrays> {
    let (rows, entries) = (bytes.word()? as usize, bytes.word()? as usize);
    if rows > MOST_ROWS || entries > MOST_ENTRIES {
        return Err(End::Fault(Fault::TooLarge));
    }
    Ok(Arrays {
        rows,
        offsets: bytes.words(rows + 1)?,
        columns: bytes.words(entries)?,
        values: bytes.floats(entries)?,
    })
}

/// What a build leaves.
enum Built {
    /// A matrix of no rows.
    Empty,
    Levels(Box<Levels>),
}

struct Levels {
    problem: Problem,
    /// What is due to be held.
    hierarchy: Hierarchy,
    /// The Rust's own without a cap, if it is accepted, and whether it holds the same.
    theirs: Option<AlgebraicMultigrid>,
    same: bool,
    /// The latest accepted values.
    arrays: Arrays,
    statistics: Vec<MultigridLevelStatistics>,
}

#[derive(Default)]
struct Press {
    controls: Option<Controls>,
    matrix: Option<Arrays>,
    weights: Option<Vec<f64>>,
    built: Option<Built>,
    printed: Printed,
}

impl Press {
    fn line(&mut self, line: &str) {
        self.printed.text.push_str(line);
        self.printed.text.push('\n');
    }

    fn meet(&mut self, name: &str) {
        self.printed.met.push(name.to_string());
    }

    fn run(&mut self, input: &[u8]) -> Run<()> {
        let mut bytes = Bytes(input);
        while !bytes.0.is_empty() {
            match self.mark(&mut bytes)? {
                Mark::Controls => self.controls = Some(controls(&mut bytes)?),
                Mark::Matrix => self.matrix = Some(matrix(&mut bytes)?),
                Mark::Weights => {
                    let entries = self.entries();
                    self.weights = Some(bytes.floats(entries)?);
                }
                Mark::Update => {
                    let entries = self.entries();
                    let values = bytes.floats(entries)?;
                    self.build()?;
                    self.update(values);
                }
                Mark::Solve => {
                    let options = LinearSolverOptions {
                        absolute_tolerance: bytes.float()?,
                        relative_tolerance: bytes.float()?,
                        max_iterations: bytes.count()?,
                    };
                    let rows = self.matrix.as_ref().map_or(0, |matrix| matrix.rows);
                    let (rhs, x) = (bytes.floats(rows)?, bytes.floats(rows)?);
                    self.build()?;
                    self.solve(&rhs, &x, options)?;
                }
            }
        }
        self.build()
    }

    fn entries(&self) -> usize {
        let matrix = self.matrix.as_ref();
        matrix.map_or(0, |matrix| matrix.columns.len())
    }

    /// The next mark, judged as it is read.
    fn mark(&self, bytes: &mut Bytes) -> Run<Mark> {
        let fault = |fault| Err(End::Fault(fault));
        if bytes.0.len() == 1 {
            return fault(Fault::StrayByte);
        }
        let mark = match bytes.array()? {
            [b'C', b'O'] => Mark::Controls,
            [b'M', b'X'] => Mark::Matrix,
            [b'F', b'W'] => Mark::Weights,
            [b'U', b'P'] => Mark::Update,
            [b'S', b'O'] => Mark::Solve,
            _ => return fault(Fault::UnknownMark),
        };
        let (controls, matrix) = (self.controls.is_some(), self.matrix.is_some());
        let repeated = match mark {
            Mark::Controls => controls,
            Mark::Matrix => matrix,
            Mark::Weights => self.weights.is_some(),
            Mark::Update | Mark::Solve => false,
        };
        let in_place = match mark {
            Mark::Controls => self.built.is_none(),
            Mark::Matrix => self.built.is_none() && (controls || !ORDER_FIXED),
            Mark::Weights => self.built.is_none() && matrix,
            Mark::Update | Mark::Solve => controls && matrix,
        };
        match (repeated, in_place) {
            (true, _) => fault(Fault::RepeatedMark),
            (_, false) => fault(Fault::MisplacedMark),
            _ => Ok(mark),
        }
    }

    /// At the first update or solve, or at the end of the input.
    fn build(&mut self) -> Run<()> {
        if self.built.is_some() {
            return Ok(());
        }
        let (Some(controls), Some(arrays)) = (self.controls, self.matrix.clone()) else {
            return Err(End::Fault(Fault::MissingRecord));
        };
        let problem = Problem {
            arrays,
            weights: self.weights.clone(),
            options: controls.options,
            cap: controls.cap,
            lent: LENT,
        };
        let built = match building::build(&problem).answer {
            Ok(hierarchy) if hierarchy.levels.is_empty() => self.empty(&problem)?,
            Err((number, ..)) => return Err(End::Refused(number)),
            Ok(hierarchy) => Built::Levels(Box::new(Levels {
                theirs: sequence::theirs(&problem, &problem.arrays),
                same: cap_is_idle(&problem, &hierarchy),
                hierarchy,
                arrays: problem.arrays.clone(),
                statistics: Vec::new(),
                problem,
            })),
        };
        self.built = Some(built);
        if let Some(Built::Levels(levels)) = &mut self.built {
            let records = levels.hierarchy.levels.iter();
            levels.statistics = records
                .map(|level| MultigridLevelStatistics {
                    cells: level.rows() as u64,
                    ..MultigridLevelStatistics::default()
                })
                .collect();
            let count = levels.hierarchy.levels.len();
            if !levels.same {
                self.meet("build/a-cap-counts");
            }
            self.meet(&format!("build/levels-{count:02}"));
        }
        Ok(())
    }

    /// No rows: of question 9 the fixed charge alone is asked.
    fn empty(&mut self, problem: &Problem) -> Run<Built> {
        let fixed = building::Charge::fixed(&problem.options, 0, 0);
        if fixed.words > LENT.words || fixed.floats > LENT.floats {
            return Err(End::Refused(9));
        }
        self.meet("build/levels-00");
        Ok(Built::Empty)
    }

    /// New values on the pattern of the build.
    fn update(&mut self, values: Vec<f64>) {
        let answer = match &mut self.built {
            Some(Built::Levels(levels)) => levels.update(values),
            _ => Ok(()),
        };
        match answer {
            Ok(()) => {
                self.line("updated");
                self.meet("update/accepted");
            }
            Err(number) => {
                self.line(&format!("refused {number}"));
                self.meet(&format!("update/refused-{number:02}"));
            }
        }
    }

    fn solve(&mut self, rhs: &[f64], x: &[f64], options: LinearSolverOptions) -> Run<()> {
        let (text, name) = match &mut self.built {
            Some(Built::Levels(levels)) => levels.solve(rhs, x, options)?,
            _ => nothing_to_solve(options),
        };
        self.printed.text.push_str(&text);
        self.meet(&format!("solve/{name}"));
        Ok(())
    }
}

/// Whether the aggregates are those that there are without a cap.
fn cap_is_idle(problem: &Problem, hierarchy: &Hierarchy) -> bool {
    let links = |hierarchy: &Hierarchy| -> Vec<Vec<u32>> {
        let levels = hierarchy.levels.iter();
        levels.map(|level| level.links.clone()).collect()
    };
    let without = Problem {
        cap: 0,
        ..problem.clone()
    };
    let plain = building::build(&without).answer;
    plain.is_ok_and(|plain| links(&plain) == links(hierarchy))
}

/// A solve of no rows: question 21 is asked, and it converges at once with three plus zeros.
fn nothing_to_solve(options: LinearSolverOptions) -> (String, String) {
    let passes = |tolerance: f64| tolerance.is_finite() && tolerance >= 0.0;
    if options.max_iterations == 0
        || !passes(options.absolute_tolerance)
        || !passes(options.relative_tolerance)
    {
        return ("refused 21\n".to_string(), "refused-21".to_string());
    }
    let zero = "0".repeat(16);
    let text = format!("levels 0 rows 0\nsolve converged 0 {zero} {zero} {zero}\n");
    (text, "nothing-in-it".to_string())
}

impl Levels {
    fn update(&mut self, values: Vec<f64>) -> Result<(), u64> {
        let arrays = Arrays {
            values,
            ..self.arrays.clone()
        };
        let due = calling::update(&self.problem, &self.hierarchy, &self.arrays, &arrays);
        self.hierarchy = due.map_err(|(number, ..)| number)?;
        let matrix = arrays.container()?;
        let theirs = self.theirs.as_mut();
        let taken = theirs.is_some_and(|theirs| theirs.update_values(&matrix).is_ok());
        assert!(
            taken || !self.same,
            "the Rust takes what is due to be taken"
        );
        if !taken {
            self.theirs = None;
        }
        self.arrays = arrays;
        Ok(())
    }

    /// The lines, and the name of the answer.
    fn solve(
        &mut self,
        rhs: &[f64],
        x: &[f64],
        options: LinearSolverOptions,
    ) -> Run<(String, String)> {
        let limit = options.max_iterations;
        let waited = LinearSolverOptions {
            max_iterations: limit.min(PATIENCE),
            ..options
        };
        let (theirs, statistics) = (&mut self.theirs, &mut self.statistics);
        let theirs = theirs.as_mut().ok_or(End::Unknown)?;
        let solved = calling::solve(&self.problem, theirs, rhs, x, waited, statistics);
        // What the first residual decides does not depend on the levels below.
        let by_residual = match &solved.answer {
            Ok(report) => report.iterations == 0,
            Err((number, ..)) => *number < 23,
        };
        if !self.same && !by_residual {
            return Err(End::Unknown);
        }
        let report = match solved.answer {
            Err((number, ..)) => {
                let name = format!("refused-{number:02}");
                return Ok((format!("refused {number}\n"), name));
            }
            Ok(report) => report,
        };
        let status = match (report.status, report.iterations) {
            (LinearSolverStatus::Converged, _) => "converged",
            (LinearSolverStatus::MaxIterations, _) if limit > PATIENCE => return Err(End::Unknown),
            (LinearSolverStatus::MaxIterations, _) => "limit",
        };
        let mut text = String::new();
        self.write(&mut text, status, &report, &solved.x)
            .expect("a string grows");
        let name = match report.iterations {
            0 => "converged-at-once",
            _ => status,
        };
        Ok((text, name.to_string()))
    }

    /// Document 01's lines: levels and rows, the report, the solution, and a line for each level.
    fn write(
        &self,
        text: &mut String,
        status: &str,
        report: &multigrid::LinearSolveReport,
        x: &[f64],
    ) -> std::fmt::Result {
        writeln!(text, "levels {} rows {}", self.statistics.len(), x.len())?;
        let residuals = [
            report.initial_residual,
            report.final_residual,
            report.relative_residual,
        ];
        let [initial, last, relative] = residuals.map(f64::to_bits);
        let iterations = report.iterations;
        writeln!(
            text,
            "solve {status} {iterations} {initial:016x} {last:016x} {relative:016x}"
        )?;
        for (row, value) in x.iter().enumerate() {
            writeln!(text, "x {row} {:016x}", value.to_bits())?;
        }
        for (level, record) in self.statistics.iter().enumerate() {
            let [rows, visits] = [record.cells, record.visits];
            let [pre, post] = [record.pre_sweeps, record.post_sweeps];
            let coarse = record.coarse_iterations;
            writeln!(text, "level {level} {rows} {visits} {pre} {post} {coarse}")?;
        }
        Ok(())
    }
}
