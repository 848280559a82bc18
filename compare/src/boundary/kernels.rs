//! The kernel of a level, of `matrix` and `values`.

use super::{
    probe_apply, probe_mirrors_agree, probe_residual, probe_row_sums_into, probe_take_faces,
    probe_update, probe_update_given, require_below, require_region, yes,
};

/// The question that refused, with level and row.
pub type Refused = (u64, u64, u64);

/// What an answer of 0, or of a question's number, stands for.
pub fn verdict(answer: u64, place: [u64; 2]) -> Result<(), Refused> {
    match answer {
        0 => Ok(()),
        number => Err((number, place[0], place[1])),
    }
}

/// Where a kernel stands: offsets and neighbors in the words, the others in the floats.
pub struct SymmetricMatrix {
    pub rows: usize,
    pub diagonal: usize,
    pub inverse: usize,
    pub offsets: usize,
    pub neighbors: usize,
    pub coefficients: usize,
}

/// Where an image stands: values in the floats, the entries of the diagonals and of the faces in the words.
pub struct Entries {
    pub entries: usize,
    pub diagonals: usize,
    pub faces: usize,
    pub values: usize,
}

impl SymmetricMatrix {
    fn faces(&self, w: &[u32]) -> usize {
        require_region(w.len(), self.offsets, self.rows + 1);
        w[self.offsets + self.rows] as usize
    }

    /// `KernelOk` of `matrix`.
    pub fn require(&self, w: &[u32], low: usize) {
        let faces = self.faces(w);
        require_region(w.len(), self.neighbors, faces);
        require_region(low, self.diagonal, self.rows);
        require_region(low, self.inverse, self.rows);
        require_region(low, self.coefficients, faces);
        require_below(&w[self.offsets..][..=self.rows], faces + 1);
        require_below(&w[self.neighbors..][..faces], self.rows);
    }

    /// A x at `out`.
    pub fn apply(&self, w: &[u32], f: &mut [f64], x: usize, out: usize) {
        self.require(w, x);
        require_region(out, x, self.rows);
        require_region(f.len(), out, self.rows);
        // SAFETY: it was tested just now.
        unsafe { self.apply_untested(w, f, x, out) }
    }

    /// # Safety
    ///
    /// What `apply` tests passes.
    pub unsafe fn apply_untested(&self, w: &[u32], f: &mut [f64], x: usize, out: usize) {
        // SAFETY: the pointers are slices' own, with their lengths, and the caller has the rest.
        unsafe {
            probe_apply(
                w.as_ptr(),
                w.len(),
                f.as_mut_ptr(),
                f.len(),
                self.rows,
                self.diagonal,
                self.inverse,
                self.offsets,
                self.neighbors,
                self.coefficients,
                x,
                out,
            );
        }
    }

    /// The fused b - A x at `out`.
    pub fn residual(&self, w: &[u32], f: &mut [f64], x: usize, rhs: usize, out: usize) {
        self.require(w, rhs);
        require_region(x, rhs, self.rows);
        require_region(out, x, self.rows);
        require_region(f.len(), out, self.rows);
        // SAFETY: it was tested just now.
        unsafe { self.residual_untested(w, f, x, rhs, out) }
    }

    /// # Safety
    ///
    /// What `residual` tests passes.
    pub unsafe fn residual_untested(
        &self,
        w: &[u32],
        f: &mut [f64],
        x: usize,
        rhs: usize,
        out: usize,
    ) {
        // SAFETY: the pointers are slices' own, with their lengths, and the caller has the rest.
        unsafe {
            probe_residual(
                w.as_ptr(),
                w.len(),
                f.as_mut_ptr(),
                f.len(),
                self.rows,
                self.diagonal,
                self.inverse,
                self.offsets,
                self.neighbors,
                self.coefficients,
                x,
                rhs,
                out,
            );
        }
    }

    /// The sum of each row of A, at `sums`.
    pub fn row_sums_into(&self, w: &[u32], f: &mut [f64], sums: usize) {
        self.require(w, sums);
        require_region(f.len(), sums, self.rows);
        // SAFETY: the pointers are slices' own, with their lengths, and what is required was tested just now.
        unsafe {
            probe_row_sums_into(
                w.as_ptr(),
                w.len(),
                f.as_mut_ptr(),
                f.len(),
                self.rows,
                self.diagonal,
                self.inverse,
                self.offsets,
                self.neighbors,
                self.coefficients,
                sums,
            );
        }
    }

    /// `UpdateOk` of `values`.
    fn require_image(&self, w: &[u32], f: &[f64], image: &Entries) {
        let (rows, faces) = (self.rows, self.faces(w));
        require_region(w.len(), image.diagonals, rows);
        require_region(w.len(), image.faces, faces);
        require_below(&w[image.diagonals..][..rows], image.entries);
        require_below(&w[image.faces..][..faces], image.entries);
        require_region(self.coefficients, image.values, image.entries);
        require_region(self.diagonal, self.coefficients, faces);
        require_region(self.inverse, self.diagonal, rows);
        require_region(f.len(), self.inverse, rows);
    }

    /// New values from an image.
    pub fn update(
        &self,
        w: &[u32],
        f: &mut [f64],
        image: &Entries,
        level: u64,
    ) -> Result<(), Refused> {
        self.require_image(w, f, image);
        let mut place = [0; 2];
        // SAFETY: the pointers are slices' own, with their lengths, and what is required was tested just now.
        let answer = unsafe {
            probe_update(
                w.as_ptr(),
                w.len(),
                f.as_mut_ptr(),
                f.len(),
                self.rows,
                self.diagonal,
                self.inverse,
                self.offsets,
                self.neighbors,
                self.coefficients,
                image.entries,
                image.diagonals,
                image.faces,
                image.values,
                level,
                place.as_mut_ptr(),
                place.len(),
            )
        };
        verdict(answer, place)
    }

    /// The same, of an image whose values are given in a slice of their own.
    pub fn update_given(
        &self,
        w: &[u32],
        given: &[f64],
        f: &mut [f64],
        image: &Entries,
        level: u64,
    ) -> Result<(), Refused> {
        self.require_image(w, f, image);
        require_region(given.len(), 0, image.entries);
        let mut place = [0; 2];
        // SAFETY: the pointers are slices' own, with their lengths, and what is required was tested just now.
        let answer = unsafe {
            probe_update_given(
                w.as_ptr(),
                w.len(),
                given.as_ptr(),
                given.len(),
                f.as_mut_ptr(),
                f.len(),
                self.rows,
                self.diagonal,
                self.inverse,
                self.offsets,
                self.neighbors,
                self.coefficients,
                image.entries,
                image.diagonals,
                image.faces,
                image.values,
                level,
                place.as_mut_ptr(),
                place.len(),
            )
        };
        verdict(answer, place)
    }
}

/// `MirrorsOk` of `mirrors`.
fn require_faces(w: &[u32], count: usize, faces: usize, upper: usize, lower: usize) {
    for positions in [upper, lower] {
        require_region(w.len(), positions, faces);
        require_below(&w[positions..][..faces], count);
    }
}

/// Whether the values of each face's two entries are finite and equal.
pub fn mirrors_agree(w: &[u32], values: &[f64], faces: usize, upper: usize, lower: usize) -> bool {
    require_faces(w, values.len(), faces, upper, lower);
    // SAFETY: the pointers are slices' own, with their lengths, and what is required was tested just now.
    yes(unsafe {
        probe_mirrors_agree(
            w.as_ptr(),
            w.len(),
            values.as_ptr(),
            values.len(),
            faces,
            upper,
            lower,
        )
    })
}

/// The same, and the value of each face's upper entry at `to`.
pub fn take_faces(
    w: &[u32],
    values: &[f64],
    f: &mut [f64],
    faces: usize,
    upper: usize,
    lower: usize,
    to: usize,
) -> bool {
    require_faces(w, values.len(), faces, upper, lower);
    require_region(f.len(), to, faces);
    // SAFETY: the pointers are slices' own, with their lengths, and what is required was tested just now.
    yes(unsafe {
        probe_take_faces(
            w.as_ptr(),
            w.len(),
            values.as_ptr(),
            values.len(),
            f.as_mut_ptr(),
            f.len(),
            faces,
            upper,
            lower,
            to,
        )
    })
}
