//! The stack that each call takes: it runs on a thread whose stack was painted, and what is left of the paint tells.

use crate::grid::Grid;
use compare::library;
use multigrid::lent::{self, CsrMatrix};
use multigrid::{LinearSolverOptions, MultigridOptions, Stores};
use oracle::MultigridCoarseSolver;
use std::alloc::{Layout, alloc, dealloc};
use std::ffi::{c_int, c_ulong, c_void};
use std::ptr;

/// What a call may take.
const MOST: usize = 64 * 1024;
/// The most levels that controls allow.
const LEVELS: u64 = 128;

const SIZE: usize = 1 << 20;
const PAGE: usize = 4096;
const PAINT: u8 = 0xa5;

/// `pthread_attr_t` of Linux on x86-64.
#[repr(C)]
struct Attributes([u64; 7]);

unsafe extern "C" {
    fn pthread_attr_init(attributes: *mut Attributes) -> c_int;
    fn pthread_attr_setstack(attributes: *mut Attributes, stack: *mut c_void, size: usize)
    -> c_int;
    fn pthread_create(
        thread: *mut c_ulong,
        attributes: *const Attributes,
        start: extern "C" fn(*mut c_void) -> *mut c_void,
        given: *mut c_void,
    ) -> c_int;
    fn pthread_join(thread: c_ulong, answer: *mut *mut c_void) -> c_int;
}

extern "C" fn start(given: *mut c_void) -> *mut c_void {
    // SAFETY: `deepest` gives a pointer to a call, and waits for this thread.
    let call = unsafe { &mut *given.cast::<&mut dyn FnMut()>() };
    call();
    ptr::null_mut()
}

/// How many bytes of a stack of its own a thread has written that makes the call.
fn deepest(mut call: &mut dyn FnMut()) -> usize {
    let layout = Layout::from_size_align(SIZE, PAGE).expect("a size in pages");
    // SAFETY: the memory is this function's until the thread has ended; the thread writes nothing outside it.
    unsafe {
        let stack = alloc(layout);
        assert!(!stack.is_null(), "no memory for a stack");
        stack.write_bytes(PAINT, SIZE);
        let mut attributes = Attributes([0; 7]);
        let mut thread = 0;
        assert_eq!(pthread_attr_init(&mut attributes), 0);
        assert_eq!(
            pthread_attr_setstack(&mut attributes, stack.cast(), SIZE),
            0
        );
        let given = ptr::from_mut(&mut call).cast();
        assert_eq!(pthread_create(&mut thread, &attributes, start, given), 0);
        assert_eq!(pthread_join(thread, ptr::null_mut()), 0);
        let left = (0..SIZE)
            .take_while(|&k| stack.add(k).read() == PAINT)
            .count();
        dealloc(stack, layout);
        SIZE - left
    }
}

/// The bytes that the call takes; a thread that does nothing takes none.
fn bytes(call: &mut dyn FnMut()) -> usize {
    deepest(call) - deepest(&mut || ())
}

/// A matrix of our own, with face weights.
struct Mesh {
    offsets: Vec<u32>,
    columns: Vec<u32>,
    values: Vec<f64>,
    weights: Vec<f64>,
}

impl Mesh {
    fn of(grid: &Grid) -> Self {
        let words = |numbers: &[usize]| numbers.iter().map(|&number| number as u32).collect();
        Self {
            offsets: words(grid.matrix.row_offsets()),
            columns: words(grid.matrix.column_indices()),
            values: grid.matrix.values().to_vec(),
            weights: grid.weights.clone(),
        }
    }

    /// A star, whose weights stand in the row of its centre alone: no other row looks for a partner, so that a level takes one
    /// row from the one before.
    fn star(rows: usize) -> Self {
        let (mut offsets, mut columns) = (vec![0], Vec::new());
        let (mut values, mut weights) = (Vec::new(), Vec::new());
        let mut put = |column: usize, value: f64, weight: f64| {
            columns.push(column as u32);
            values.push(value);
            weights.push(weight);
        };
        put(0, rows as f64, 0.0);
        (1..rows).for_each(|leaf| put(leaf, -1.0, leaf as f64));
        for leaf in 1..rows {
            put(0, -1.0, 0.0);
            put(leaf, 2.0, 0.0);
        }
        offsets.extend((1..=rows).map(|row| (rows + 2 * (row - 1)) as u32));
        Self {
            offsets,
            columns,
            values,
            weights,
        }
    }

    fn lent(&self) -> CsrMatrix<'_> {
        CsrMatrix {
            rows: self.offsets.len() - 1,
            row_offsets: &self.offsets,
            column_indices: &self.columns,
            values: &self.values,
        }
    }
}

/// Default controls but Cholesky.
fn controls() -> MultigridOptions {
    library::options(&oracle::MultigridOptions {
        coarse_solver: MultigridCoarseSolver::Cholesky,
        ..oracle::MultigridOptions::default()
    })
}

/// Some iterations.
const ASKED: LinearSolverOptions = LinearSolverOptions {
    absolute_tolerance: 0.0,
    relative_tolerance: 1e-8,
    max_iterations: 200,
};

/// Every call on a mesh, in stores for so many times its finest level; whether each takes less than the most.
fn calls(name: &str, mesh: &Mesh, options: &MultigridOptions, levels: u64) -> bool {
    let matrix = mesh.lent();
    let charge = lent::Charge::most(&matrix, options, levels);
    let mut stores = Stores::new(charge).expect("there is memory");
    let mut answer = None;
    let build = bytes(&mut || {
        answer = lent::build(matrix, Some(&mesh.weights), options, &mut stores).ok();
    });
    let handle = answer.expect("the mesh has a hierarchy");
    let update = bytes(&mut || {
        lent::update_values(
            &handle,
            &mesh.offsets,
            &mesh.columns,
            &mesh.values,
            &mut stores,
        )
        .expect("an update is accepted");
    });
    let (rhs, mut x) = (vec![1.0; matrix.rows], vec![0.0; matrix.rows]);
    let solve = bytes(&mut || {
        lent::solve(&handle, &mut stores, &rhs, &mut x, ASKED).expect("there is a solution");
    });
    let statistics = bytes(&mut || {
        lent::statistics(&handle, &stores).expect("the stores are sound");
    });
    println!(
        "{name:<20} {:>7} {build:>7} {update:>7} {solve:>7} {statistics:>11}",
        handle.levels
    );
    [build, update, solve, statistics]
        .iter()
        .all(|&bytes| bytes < MOST)
}

/// Whether every call takes less than 64 KiB.
pub fn run() -> bool {
    println!("bytes of stack, the wrapper's included; less than {MOST} wanted");
    println!(
        "{:<20} {:>7} {:>7} {:>7} {:>7} {:>11}",
        "mesh", "levels", "build", "update", "solve", "statistics"
    );
    let grid = Mesh::of(&Grid::new(crate::SEED, [256, 256]));
    let within = calls("grid of 256x256", &grid, &controls(), 3);
    let deepest = MultigridOptions {
        merge_levels: 1,
        max_levels: LEVELS,
        coarsest_cells: 200 - (LEVELS - 1),
        ..controls()
    };
    calls("star of 200 rows", &Mesh::star(200), &deepest, LEVELS) && within
}
