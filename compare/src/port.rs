//! The port, through its Rust binding (bindings/rust), which declares the C
//! interface and has the unsafe code: slices in, a number out. The calls of
//! chained bend files, which the binding does not have, are declared here. A
//! call that the static library lacks is `None`.

pub use piskorlu::calls::{Lent, Report, Tally};

/// The square root.
pub type Sqrt = fn(f64) -> f64;

/// Least norm: a, m, n, b, x, workspace and the place for the rank; 0, or the
/// number of the refusal.
pub type LeastNorm =
    fn(&mut [f64], usize, usize, &mut [f64], &mut [f64], &mut [f64], &mut [u32]) -> u32;

/// A join of two reports into ten counts and a residual; 0, or the number of
/// the refusal.
pub type Join = fn(Report, Report, &mut [u32], &mut [f64]) -> u32;

/// Both joins.
pub struct Joins {
    pub and: Join,
    pub continued: Join,
}

/// The solve; 0, or the number of the refusal.
pub type Solve = fn(Lent) -> u32;

#[cfg(port_solve)]
pub const SOLVE: Option<Solve> = Some(piskorlu::calls::solve);
#[cfg(not(port_solve))]
pub const SOLVE: Option<Solve> = None;

/// The solve of a triangle, which is lent in W's place.
#[cfg(port_triangle)]
pub const TRIANGLE: Option<Solve> = Some(piskorlu::calls::solve_triangle);
#[cfg(not(port_triangle))]
pub const TRIANGLE: Option<Solve> = None;

/// The tallied solve; 0, or the number of the refusal.
pub type Tallied = fn(Tally, Lent) -> u32;

#[cfg(port_tallied)]
pub const TALLIED: Option<Tallied> = Some(piskorlu::calls::tallied);
#[cfg(not(port_tallied))]
pub const TALLIED: Option<Tallied> = None;

/// The tallied solve of a triangle.
#[cfg(port_tallied_triangle)]
pub const TALLIED_TRIANGLE: Option<Tallied> = Some(piskorlu::calls::tallied_triangle);
#[cfg(not(port_tallied_triangle))]
pub const TALLIED_TRIANGLE: Option<Tallied> = None;

#[cfg(port_joins)]
pub const JOINS: Option<Joins> = Some(Joins {
    and: piskorlu::calls::and,
    continued: piskorlu::calls::continued,
});
#[cfg(not(port_joins))]
pub const JOINS: Option<Joins> = None;

#[cfg(port_sqrt)]
pub const SQRT: Option<Sqrt> = Some(piskorlu::calls::sqrt);
#[cfg(not(port_sqrt))]
pub const SQRT: Option<Sqrt> = None;

#[cfg(port_least_norm)]
pub const LEAST_NORM: Option<LeastNorm> = Some(piskorlu::calls::least_norm);
#[cfg(not(port_least_norm))]
pub const LEAST_NORM: Option<LeastNorm> = None;

/// A bend file's output: how many bytes of the buffer it takes.
pub type Bend = fn(&[u8], &mut [u8]) -> usize;

#[cfg(port_bend)]
pub const BEND: Option<Bend> = Some(bend);
#[cfg(not(port_bend))]
pub const BEND: Option<Bend> = None;

#[cfg(port_bend)]
fn bend(file: &[u8], out: &mut [u8]) -> usize {
    piskorlu::calls::bend(file, out)
}

/// Where a chained bend file's steps are: how many there are in the first
/// place, then where they end, newest first; 0, or the number of the refusal.
pub type ChainSteps = fn(&[u8], &mut [usize], &mut [usize]) -> u32;

/// What a step of a chained bend file is read into; its shape is rows and
/// coordinates.
#[cfg_attr(not(port_chain), allow(dead_code))]
pub struct StepLent<'a> {
    pub w: &'a mut [f64],
    pub u_free: &'a mut [f64],
    pub lo: &'a mut [f64],
    pub hi: &'a mut [f64],
    pub scale: &'a mut [f64],
    pub nu: &'a mut [f64],
    pub motion: &'a mut [f64],
    pub shape: &'a mut [usize],
    pub tolerance: &'a mut [f64],
}

/// A step by its number; 0, the number of the refusal, or 0xFFFFFFFF where
/// there is no such step.
pub type ChainStep = fn(&[u8], usize, StepLent) -> u32;

/// Both calls that read a chained bend file.
pub struct Chain {
    pub steps: ChainSteps,
    pub step: ChainStep,
}

/// The writer of chained bend files: rows, coords, counts, values, the output
/// and the place for its length; 0, or the number of the refusal.
pub type ChainWrite = fn(&[usize], &[usize], &[usize], &[f64], &mut [u8], &mut [usize]) -> u32;

#[cfg(port_chain)]
pub const CHAIN: Option<Chain> = Some(Chain {
    steps: chain_steps,
    step: chain_step,
});
#[cfg(not(port_chain))]
pub const CHAIN: Option<Chain> = None;

#[cfg(port_chain_write)]
pub const CHAIN_WRITE: Option<ChainWrite> = Some(chain_write);
#[cfg(not(port_chain_write))]
pub const CHAIN_WRITE: Option<ChainWrite> = None;

#[cfg(port_chain)]
extern "C" {
    fn piskorlu_chain(
        file: *const u8,
        file_len: usize,
        steps: *mut usize,
        steps_len: usize,
        ends: *mut usize,
        ends_len: usize,
    ) -> u32;

    fn piskorlu_chain_step(
        file: *const u8,
        file_len: usize,
        step: usize,
        w: *mut f64,
        w_len: usize,
        u_free: *mut f64,
        u_free_len: usize,
        lo: *mut f64,
        lo_len: usize,
        hi: *mut f64,
        hi_len: usize,
        scale: *mut f64,
        scale_len: usize,
        nu: *mut f64,
        nu_len: usize,
        motion: *mut f64,
        motion_len: usize,
        shape: *mut usize,
        shape_len: usize,
        tolerance: *mut f64,
        tolerance_len: usize,
    ) -> u32;
}

#[cfg(port_chain)]
fn chain_steps(file: &[u8], steps: &mut [usize], ends: &mut [usize]) -> u32 {
    // SAFETY: each pointer goes with the length of its own slice.
    unsafe {
        piskorlu_chain(
            file.as_ptr(),
            file.len(),
            steps.as_mut_ptr(),
            steps.len(),
            ends.as_mut_ptr(),
            ends.len(),
        )
    }
}

#[cfg(port_chain)]
fn chain_step(file: &[u8], step: usize, lent: StepLent) -> u32 {
    // SAFETY: each pointer goes with the length of its own slice.
    unsafe {
        piskorlu_chain_step(
            file.as_ptr(),
            file.len(),
            step,
            lent.w.as_mut_ptr(),
            lent.w.len(),
            lent.u_free.as_mut_ptr(),
            lent.u_free.len(),
            lent.lo.as_mut_ptr(),
            lent.lo.len(),
            lent.hi.as_mut_ptr(),
            lent.hi.len(),
            lent.scale.as_mut_ptr(),
            lent.scale.len(),
            lent.nu.as_mut_ptr(),
            lent.nu.len(),
            lent.motion.as_mut_ptr(),
            lent.motion.len(),
            lent.shape.as_mut_ptr(),
            lent.shape.len(),
            lent.tolerance.as_mut_ptr(),
            lent.tolerance.len(),
        )
    }
}

#[cfg(port_chain_write)]
extern "C" {
    fn piskorlu_chain_write(
        rows: *const usize,
        rows_len: usize,
        coords: *const usize,
        coords_len: usize,
        counts: *const usize,
        counts_len: usize,
        values: *const f64,
        values_len: usize,
        out: *mut u8,
        out_len: usize,
        written: *mut usize,
        written_len: usize,
    ) -> u32;
}

#[cfg(port_chain_write)]
fn chain_write(
    rows: &[usize],
    coords: &[usize],
    counts: &[usize],
    values: &[f64],
    out: &mut [u8],
    written: &mut [usize],
) -> u32 {
    // SAFETY: each pointer goes with the length of its own slice.
    unsafe {
        piskorlu_chain_write(
            rows.as_ptr(),
            rows.len(),
            coords.as_ptr(),
            coords.len(),
            counts.as_ptr(),
            counts.len(),
            values.as_ptr(),
            values.len(),
            out.as_mut_ptr(),
            out.len(),
            written.as_mut_ptr(),
            written.len(),
        )
    }
}

/// A free motion added to lent words and counts; 0, or the number of the
/// refusal.
pub type ExactFree = fn(f64, &mut [u64], &mut [u32]) -> u32;

/// A product added likewise.
pub type ExactProduct = fn(f64, f64, &mut [u64], &mut [u32]) -> u32;

/// A row: free motion, row of W and multipliers, into words and counts.
pub type ExactRow = fn(f64, &[f64], &[f64], &mut [u64], &mut [u32]) -> u32;

/// The sign of the sum that the words hold.
pub type ExactSign = fn(&[u64], &mut [i8]) -> u32;

/// The f64 nearest to it; 0, or the number of the refusal.
pub type ExactNearest = fn(&[u64], &mut [f64]) -> u32;

/// The second accumulator, words and counts, joined to the first, which
/// receives the total; 0, or the number of the refusal.
pub type ExactJoin = fn(&mut [u64], &mut [u32], &[u64], &[u32]) -> u32;

/// The calls that add up a row without rounding.
#[cfg_attr(not(port_exact), allow(dead_code))]
pub struct Exact {
    pub free: ExactFree,
    pub product: ExactProduct,
    pub row: ExactRow,
    pub sign: ExactSign,
}

#[cfg(port_exact)]
pub const EXACT: Option<Exact> = Some(Exact {
    free: piskorlu::calls::exact_free,
    product: piskorlu::calls::exact_product,
    row: piskorlu::calls::exact_row,
    sign: piskorlu::calls::exact_sign,
});
#[cfg(not(port_exact))]
pub const EXACT: Option<Exact> = None;

#[cfg(port_exact_nearest)]
pub const EXACT_NEAREST: Option<ExactNearest> = Some(piskorlu::calls::exact_nearest);
#[cfg(not(port_exact_nearest))]
pub const EXACT_NEAREST: Option<ExactNearest> = None;

#[cfg(port_exact_join)]
pub const EXACT_JOIN: Option<ExactJoin> = Some(piskorlu::calls::exact_join);
#[cfg(not(port_exact_join))]
pub const EXACT_JOIN: Option<ExactJoin> = None;
