//! What `crates/probe` exports, declared once for Rust; `../probe.h` is the same for C, and
//! `agreement.rs` holds the two against the exports. The proofs cover every call that meets what a function
//! requires, so the wrappers test that first: a comparison that breaks it is wrong and stops.

pub mod aggregation;
pub mod corrections;
pub mod csr;
pub mod galerkin;
pub mod kernels;
pub mod measures;
pub mod smoothing;
pub mod terminals;
pub mod topology;

use oracle::{MultigridCoarseSolver, MultigridOptions, MultigridResidualNorm, MultigridSmoother};

#[link(name = "probe", kind = "static")]
#[link(name = "meshprobe", kind = "static")]
unsafe extern "C" {
    safe fn probe_is_finite(x: f64) -> u8;
    safe fn probe_abs(x: f64) -> f64;
    safe fn probe_max_num(a: f64, b: f64) -> f64;
    safe fn probe_square(x: f64) -> f64;
    safe fn probe_sqrt(x: f64) -> f64;
    safe fn probe_to_bits(x: f64) -> u64;
    safe fn probe_of_bits(bits: u64) -> f64;
    safe fn probe_saturating_add(a: u64, b: u64) -> u64;
    safe fn probe_saturating_mul(a: u64, b: u64) -> u64;
    safe fn probe_validate(
        smoother: u8,
        residual_norm: u8,
        pre_sweeps: u64,
        post_sweeps: u64,
        finest_sweeps: u64,
        sweep_level_multiplier: u64,
        max_sweeps: u64,
        coarsest_cells: u64,
        max_levels: u64,
        merge_levels: u64,
        krylov_dimension: u64,
        coarse_solver: u8,
        coarse_absolute_tolerance: f64,
        coarse_relative_tolerance: f64,
        coarse_max_iterations: u64,
        scale_correction: u8,
        max_aggregate_cells: u64,
    ) -> u8;
    fn probe_dot(
        f: *const f64,
        f_length: usize,
        a: usize,
        b: usize,
        n: usize,
        out: *mut f64,
        out_length: usize,
    ) -> u8;
    fn probe_norm_l2(
        f: *const f64,
        f_length: usize,
        a: usize,
        n: usize,
        out: *mut f64,
        out_length: usize,
    ) -> u8;
    fn probe_all_finite(f: *const f64, f_length: usize, n: usize, x: usize) -> u8;
    fn probe_check_matrix(
        rows: usize,
        offsets: *const u32,
        offsets_length: usize,
        columns: *const u32,
        columns_length: usize,
        values: *const f64,
        values_length: usize,
    ) -> u64;
    fn probe_check_weights(weights: *const f64, weights_length: usize, entries: usize) -> u64;
    fn probe_pairs(
        w: *mut u32,
        w_length: usize,
        f: *const f64,
        f_length: usize,
        rows: usize,
        entries: usize,
        offsets: usize,
        columns: usize,
        map: usize,
        weights: usize,
        absolute: u8,
        forward: u8,
        cap: u64,
    ) -> usize;
    fn probe_coarse_pattern(
        w: *mut u32,
        w_length: usize,
        rows: usize,
        entries: usize,
        count: usize,
        offsets: usize,
        columns: usize,
        map: usize,
        positions: usize,
        coarse_offsets: usize,
        coarse_columns: usize,
        scratch: usize,
    ) -> usize;
    fn probe_compose(w: *mut u32, w_length: usize, n: usize, map: usize, next: usize, count: usize);
    fn probe_sum_entries(
        w: *const u32,
        w_length: usize,
        f: *mut f64,
        f_length: usize,
        m: usize,
        positions: usize,
        values: usize,
        total: usize,
        out: usize,
    );
    fn probe_sum_given(
        w: *const u32,
        w_length: usize,
        given: *const f64,
        given_length: usize,
        f: *mut f64,
        f_length: usize,
        m: usize,
        positions: usize,
        total: usize,
        out: usize,
    );
    fn probe_symmetrize(
        w: *const u32,
        w_length: usize,
        f: *mut f64,
        f_length: usize,
        faces: usize,
        upper: usize,
        lower: usize,
        total: usize,
        values: usize,
    );
    fn probe_restrict_weights(
        w: *const u32,
        w_length: usize,
        f: *mut f64,
        f_length: usize,
        count: usize,
        m: usize,
        positions: usize,
        offsets: usize,
        columns: usize,
        weights: usize,
        total: usize,
        out: usize,
    );
    fn probe_face_offsets(
        w: *mut u32,
        w_length: usize,
        rows: usize,
        entries: usize,
        faces: usize,
        offsets: usize,
        columns: usize,
        starts: usize,
        diagonals: usize,
        neighbors: usize,
        uppers: usize,
        lowers: usize,
    ) -> usize;
    fn probe_fill_faces(
        w: *mut u32,
        w_length: usize,
        rows: usize,
        entries: usize,
        faces: usize,
        offsets: usize,
        columns: usize,
        starts: usize,
        diagonals: usize,
        neighbors: usize,
        uppers: usize,
        lowers: usize,
    );
    fn probe_mirrors(
        w: *mut u32,
        w_length: usize,
        rows: usize,
        entries: usize,
        faces: usize,
        offsets: usize,
        columns: usize,
        starts: usize,
        diagonals: usize,
        neighbors: usize,
        uppers: usize,
        lowers: usize,
    ) -> u8;
    fn probe_diagonals(
        w: *mut u32,
        w_length: usize,
        rows: usize,
        entries: usize,
        faces: usize,
        offsets: usize,
        columns: usize,
        starts: usize,
        diagonals: usize,
        neighbors: usize,
        uppers: usize,
        lowers: usize,
        level: u64,
        place: *mut u64,
        place_length: usize,
    ) -> u64;
    fn probe_coupled_count(
        w: *const u32,
        w_length: usize,
        rows: usize,
        entries: usize,
        faces: usize,
        offsets: usize,
        columns: usize,
        starts: usize,
        diagonals: usize,
        neighbors: usize,
        uppers: usize,
        lowers: usize,
    ) -> usize;
    fn probe_coupled_rows(
        w: *mut u32,
        w_length: usize,
        rows: usize,
        entries: usize,
        faces: usize,
        offsets: usize,
        columns: usize,
        starts: usize,
        diagonals: usize,
        neighbors: usize,
        uppers: usize,
        lowers: usize,
        to: usize,
    );
    fn probe_apply(
        w: *const u32,
        w_length: usize,
        f: *mut f64,
        f_length: usize,
        rows: usize,
        diagonal: usize,
        inverse: usize,
        offsets: usize,
        neighbors: usize,
        coefficients: usize,
        x: usize,
        out: usize,
    );
    fn probe_residual(
        w: *const u32,
        w_length: usize,
        f: *mut f64,
        f_length: usize,
        rows: usize,
        diagonal: usize,
        inverse: usize,
        offsets: usize,
        neighbors: usize,
        coefficients: usize,
        x: usize,
        rhs: usize,
        out: usize,
    );
    fn probe_row_sums_into(
        w: *const u32,
        w_length: usize,
        f: *mut f64,
        f_length: usize,
        rows: usize,
        diagonal: usize,
        inverse: usize,
        offsets: usize,
        neighbors: usize,
        coefficients: usize,
        sums: usize,
    );
    fn probe_update(
        w: *const u32,
        w_length: usize,
        f: *mut f64,
        f_length: usize,
        rows: usize,
        diagonal: usize,
        inverse: usize,
        offsets: usize,
        neighbors: usize,
        coefficients: usize,
        entries: usize,
        diagonals: usize,
        faces: usize,
        values: usize,
        level: u64,
        place: *mut u64,
        place_length: usize,
    ) -> u64;
    fn probe_update_given(
        w: *const u32,
        w_length: usize,
        given: *const f64,
        given_length: usize,
        f: *mut f64,
        f_length: usize,
        rows: usize,
        diagonal: usize,
        inverse: usize,
        offsets: usize,
        neighbors: usize,
        coefficients: usize,
        entries: usize,
        diagonals: usize,
        faces: usize,
        values: usize,
        level: u64,
        place: *mut u64,
        place_length: usize,
    ) -> u64;
    fn probe_mirrors_agree(
        w: *const u32,
        w_length: usize,
        values: *const f64,
        values_length: usize,
        faces: usize,
        upper: usize,
        lower: usize,
    ) -> u8;
    fn probe_take_faces(
        w: *const u32,
        w_length: usize,
        values: *const f64,
        values_length: usize,
        f: *mut f64,
        f_length: usize,
        faces: usize,
        upper: usize,
        lower: usize,
        to: usize,
    ) -> u8;
    fn probe_update_dic_diagonal(
        w: *const u32,
        w_length: usize,
        f: *mut f64,
        f_length: usize,
        rows: usize,
        diagonal: usize,
        inverse: usize,
        offsets: usize,
        neighbors: usize,
        coefficients: usize,
        d: usize,
        level: u64,
        place: *mut u64,
        place_length: usize,
    ) -> u64;
    fn probe_gauss_seidel(
        w: *const u32,
        w_length: usize,
        f: *mut f64,
        f_length: usize,
        rows: usize,
        diagonal: usize,
        inverse: usize,
        offsets: usize,
        neighbors: usize,
        coefficients: usize,
        rhs: usize,
        x: usize,
        work: usize,
        symmetric: u8,
    );
    fn probe_dic_sweep(
        w: *const u32,
        w_length: usize,
        f: *mut f64,
        f_length: usize,
        rows: usize,
        diagonal: usize,
        inverse: usize,
        offsets: usize,
        neighbors: usize,
        coefficients: usize,
        dic: usize,
        rhs: usize,
        x: usize,
        work: usize,
        correction: usize,
    );
    fn probe_smooth(
        w: *const u32,
        w_length: usize,
        f: *mut f64,
        f_length: usize,
        rows: usize,
        diagonal: usize,
        inverse: usize,
        offsets: usize,
        neighbors: usize,
        coefficients: usize,
        dic: usize,
        kind: u8,
        rhs: usize,
        x: usize,
        work: usize,
        correction: usize,
        sweeps: u64,
        place: *mut u64,
        place_length: usize,
    ) -> u64;
    fn probe_cholesky(
        w: *const u32,
        w_length: usize,
        f: *mut f64,
        f_length: usize,
        rows: usize,
        entries: usize,
        offsets: usize,
        columns: usize,
        values: usize,
        size: usize,
        coupled: usize,
        factor: usize,
        level: u64,
        place: *mut u64,
        place_length: usize,
    ) -> u64;
    fn probe_solve_factor(f: *mut f64, f_length: usize, n: usize, l: usize, rhs: usize, x: usize);
    fn probe_solve(
        w: *const u32,
        w_length: usize,
        f: *mut f64,
        f_length: usize,
        rows: usize,
        entries: usize,
        offsets: usize,
        columns: usize,
        values: usize,
        size: usize,
        coupled: usize,
        factor: usize,
        inverse: usize,
        rhs: usize,
        x: usize,
        work: usize,
        place: *mut u64,
        place_length: usize,
    ) -> u64;
    fn probe_measure(
        f: *const f64,
        f_length: usize,
        n: usize,
        residual: usize,
        norm: u8,
        factor: f64,
        out: *mut f64,
        out_length: usize,
    ) -> u8;
    fn probe_normalization(
        f: *const f64,
        f_length: usize,
        n: usize,
        x: usize,
        rhs: usize,
        product: usize,
        rowsums: usize,
        norm: u8,
    ) -> f64;
    safe fn probe_threshold(absolute: f64, relative: f64, initial: f64) -> f64;
    safe fn probe_relative(initial: f64, last: f64) -> f64;
    fn probe_restrict(
        w: *const u32,
        w_length: usize,
        f: *mut f64,
        f_length: usize,
        n: usize,
        count: usize,
        map: usize,
        residual: usize,
        out: usize,
    );
    fn probe_prolong(
        w: *const u32,
        w_length: usize,
        f: *mut f64,
        f_length: usize,
        n: usize,
        count: usize,
        map: usize,
        coarse: usize,
        out: usize,
    );
    fn probe_add_prolonged(
        w: *const u32,
        w_length: usize,
        f: *mut f64,
        f_length: usize,
        n: usize,
        count: usize,
        map: usize,
        coarse: usize,
        x: usize,
    );
    fn probe_subtract(
        f: *mut f64,
        f_length: usize,
        n: usize,
        rhs: usize,
        product: usize,
        out: usize,
    );
    fn probe_correction_factor(
        f: *const f64,
        f_length: usize,
        n: usize,
        correction: usize,
        residual: usize,
        product: usize,
        out: *mut f64,
        out_length: usize,
    ) -> u64;
    fn probe_add_scaled(
        f: *mut f64,
        f_length: usize,
        n: usize,
        factor: f64,
        correction: usize,
        residual: usize,
        product: usize,
        inverse: usize,
        x: usize,
    );
    fn probe_add_plain(f: *mut f64, f_length: usize, n: usize, correction: usize, x: usize);
    fn probe_correct(
        f: *mut f64,
        f_length: usize,
        n: usize,
        krylov: usize,
        used: usize,
        solution: usize,
        directions: usize,
        images: usize,
        residual: usize,
        direction: usize,
        image: usize,
        count: *mut u64,
        count_length: usize,
    ) -> u64;
}

pub fn is_finite(x: f64) -> bool {
    yes(probe_is_finite(x))
}

pub fn abs(x: f64) -> f64 {
    probe_abs(x)
}

pub fn max_num(a: f64, b: f64) -> f64 {
    probe_max_num(a, b)
}

pub fn square(x: f64) -> f64 {
    probe_square(x)
}

pub fn sqrt(x: f64) -> f64 {
    probe_sqrt(x)
}

pub fn to_bits(x: f64) -> u64 {
    probe_to_bits(x)
}

pub fn of_bits(bits: u64) -> f64 {
    probe_of_bits(bits)
}

pub fn saturating_add(a: u64, b: u64) -> u64 {
    probe_saturating_add(a, b)
}

pub fn saturating_mul(a: u64, b: u64) -> u64 {
    probe_saturating_mul(a, b)
}

fn smoother_number(smoother: MultigridSmoother) -> u8 {
    match smoother {
        MultigridSmoother::GaussSeidel => 0,
        MultigridSmoother::SymmetricGaussSeidel => 1,
        MultigridSmoother::DicGaussSeidel => 2,
    }
}

/// Whether the controls with the cap pass `validate`. Enums cross as their number in source order.
pub fn validate(options: &MultigridOptions, cap: u64) -> bool {
    yes(probe_validate(
        smoother_number(options.smoother),
        match options.residual_norm {
            MultigridResidualNorm::AbsoluteL2 => 0,
            MultigridResidualNorm::NormalizedL1 => 1,
        },
        options.pre_sweeps as u64,
        options.post_sweeps as u64,
        options.finest_sweeps as u64,
        options.sweep_level_multiplier as u64,
        options.max_sweeps as u64,
        options.coarsest_cells as u64,
        options.max_levels as u64,
        options.merge_levels as u64,
        options.krylov_dimension as u64,
        match options.coarse_solver {
            MultigridCoarseSolver::PcgDic => 0,
            MultigridCoarseSolver::Cholesky => 1,
        },
        options.coarse_absolute_tolerance,
        options.coarse_relative_tolerance,
        options.coarse_max_iterations as u64,
        u8::from(options.scale_correction),
        cap,
    ))
}

/// The product of the regions of `n` words at `a` and at `b`; None where it is not finite.
pub fn dot(store: &[f64], a: usize, b: usize, n: usize) -> Option<f64> {
    require_region(store.len(), a, n);
    require_region(store.len(), b, n);
    let mut out = [0.0];
    // SAFETY: both pointers are slices' own, with their lengths, and the regions lie inside.
    let finite = unsafe {
        probe_dot(
            store.as_ptr(),
            store.len(),
            a,
            b,
            n,
            out.as_mut_ptr(),
            out.len(),
        )
    };
    yes(finite).then_some(out[0])
}

/// The norm of the region of `n` words at `a`; None where it is not finite.
pub fn norm_l2(store: &[f64], a: usize, n: usize) -> Option<f64> {
    require_region(store.len(), a, n);
    let mut out = [0.0];
    // SAFETY: both pointers are slices' own, with their lengths, and the region lies inside.
    let finite = unsafe {
        probe_norm_l2(
            store.as_ptr(),
            store.len(),
            a,
            n,
            out.as_mut_ptr(),
            out.len(),
        )
    };
    yes(finite).then_some(out[0])
}

/// Whether each of the `n` words at `x` is finite.
pub fn all_finite(store: &[f64], n: usize, x: usize) -> bool {
    require_region(store.len(), x, n);
    // SAFETY: the pointer is the slice's own, with its length, and the region lies inside.
    yes(unsafe { probe_all_finite(store.as_ptr(), store.len(), n, x) })
}

/// The region of `n` words at `start` ends at or before `end`.
fn require_region(end: usize, start: usize, n: usize) {
    assert!(
        start <= end && n <= end - start,
        "a region of {n} words at {start} passes {end}"
    );
}

/// Each of the words is below `bound`.
fn require_below(words: &[u32], bound: usize) {
    for (index, &word) in words.iter().enumerate() {
        assert!(
            (word as usize) < bound,
            "word {index} is {word}, not below {bound}"
        );
    }
}

fn yes(answer: u8) -> bool {
    assert!(answer <= 1, "an export answered {answer} for yes or no");
    answer == 1
}
