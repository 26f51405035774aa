//! The calls of include/piskorlu.h as they are: slices in, a number out, 0 where
//! the call was taken. No length is wrong: a call that cannot be taken gets its
//! number and writes nothing. The crate's own functions are made of these, and
//! they are for callers who lend every buffer themselves.
//!
//! This is the only unsafe code. Each pointer and length is one Rust slice, a
//! writable one borrowed exclusively, which is all that the header asks for; the
//! library is proved to stay within the lengths it is given.

/// What a solve is lent: the problem, and the buffers that it fills. counts are
/// outcome (0 solved, 1 growth, 2 pass, 3 sweep), sweeps, exact passes,
/// converged, exact, Idle rows and rows listed.
pub struct Lent<'a> {
    pub w: &'a [f64],
    pub u_free: &'a [f64],
    pub lo: &'a [f64],
    pub hi: &'a [f64],
    pub scale: &'a [f64],
    pub motion: &'a [f64],
    pub tolerance: f64,
    pub nu: &'a mut [f64],
    pub states: &'a mut [u8],
    pub rows: &'a mut [usize],
    pub workspace: &'a mut [f64],
    pub counts: &'a mut [usize],
    pub residual: &'a mut [f64],
}

/// A report's ten counts, at the places that the header names, and
/// its residual.
pub type Report<'a> = (&'a [u32], f64);

/// A tally: ten counts and the residual, in and out.
pub type Tally<'a> = (&'a mut [u32], &'a mut [f64]);

/// piskorlu_sqrt.
#[inline]
pub fn sqrt(v: f64) -> f64 {
    // SAFETY: the function takes and returns a number and is total.
    unsafe { c::piskorlu_sqrt(v) }
}

/// piskorlu_least_norm: a by rows, m, n, b, x, workspace, and the place for the
/// rank.
#[inline]
pub fn least_norm(
    a: &mut [f64],
    m: usize,
    n: usize,
    b: &mut [f64],
    x: &mut [f64],
    workspace: &mut [f64],
    rank: &mut [u32],
) -> u32 {
    // SAFETY: see the head of the module.
    unsafe {
        c::piskorlu_least_norm(
            a.as_mut_ptr(),
            a.len(),
            m,
            n,
            b.as_mut_ptr(),
            b.len(),
            x.as_mut_ptr(),
            x.len(),
            workspace.as_mut_ptr(),
            workspace.len(),
            rank.as_mut_ptr(),
            rank.len(),
        )
    }
}

/// The two joins have one signature.
macro_rules! join {
    ($name:ident, $call:ident) => {
        #[doc = concat!(stringify!($call), ": two reports into ten counts and a residual.")]
        pub fn $name(a: Report, b: Report, counts: &mut [u32], residual: &mut [f64]) -> u32 {
            // SAFETY: see the head of the module.
            unsafe {
                c::$call(
                    a.0.as_ptr(),
                    a.0.len(),
                    a.1,
                    b.0.as_ptr(),
                    b.0.len(),
                    b.1,
                    counts.as_mut_ptr(),
                    counts.len(),
                    residual.as_mut_ptr(),
                    residual.len(),
                )
            }
        }
    };
}

join!(and, piskorlu_and);
join!(continued, piskorlu_continued);

/// A call with the arguments of a solve after those given.
macro_rules! with_lent {
    ($call:ident, $lent:ident $(, $before:expr)*) => {
        c::$call(
            $($before,)*
            $lent.w.as_ptr(),
            $lent.w.len(),
            $lent.u_free.as_ptr(),
            $lent.u_free.len(),
            $lent.lo.as_ptr(),
            $lent.lo.len(),
            $lent.hi.as_ptr(),
            $lent.hi.len(),
            $lent.scale.as_ptr(),
            $lent.scale.len(),
            $lent.motion.as_ptr(),
            $lent.motion.len(),
            $lent.tolerance,
            $lent.nu.as_mut_ptr(),
            $lent.nu.len(),
            $lent.states.as_mut_ptr(),
            $lent.states.len(),
            $lent.rows.as_mut_ptr(),
            $lent.rows.len(),
            $lent.workspace.as_mut_ptr(),
            $lent.workspace.len(),
            $lent.counts.as_mut_ptr(),
            $lent.counts.len(),
            $lent.residual.as_mut_ptr(),
            $lent.residual.len(),
        )
    };
}

/// piskorlu_solve.
#[inline]
pub fn solve(lent: Lent) -> u32 {
    // SAFETY: see the head of the module.
    unsafe { with_lent!(piskorlu_solve, lent) }
}

/// piskorlu_tallied.
#[inline]
pub fn tallied(tally: Tally, lent: Lent) -> u32 {
    let (counts, residual) = tally;
    // SAFETY: see the head of the module.
    unsafe {
        with_lent!(
            piskorlu_tallied,
            lent,
            counts.as_mut_ptr(),
            counts.len(),
            residual.as_mut_ptr(),
            residual.len()
        )
    }
}

/// piskorlu_solve_triangle: `w` is the lower triangle by rows.
#[inline]
pub fn solve_triangle(lent: Lent) -> u32 {
    // SAFETY: see the head of the module.
    unsafe { with_lent!(piskorlu_solve_triangle, lent) }
}

/// piskorlu_tallied_triangle: `w` is the lower triangle by rows.
#[inline]
pub fn tallied_triangle(tally: Tally, lent: Lent) -> u32 {
    let (counts, residual) = tally;
    // SAFETY: see the head of the module.
    unsafe {
        with_lent!(
            piskorlu_tallied_triangle,
            lent,
            counts.as_mut_ptr(),
            counts.len(),
            residual.as_mut_ptr(),
            residual.len()
        )
    }
}

/// piskorlu_bend: how many bytes of `out` the lines take.
pub fn bend(file: &[u8], out: &mut [u8]) -> usize {
    // SAFETY: see the head of the module.
    unsafe { c::piskorlu_bend(file.as_ptr(), file.len(), out.as_mut_ptr(), out.len()) }
}

/// piskorlu_exact_free: a free motion added to an accumulator's words and counts.
#[inline]
pub fn exact_free(u: f64, words: &mut [u64], counts: &mut [u32]) -> u32 {
    // SAFETY: see the head of the module.
    unsafe {
        c::piskorlu_exact_free(
            u,
            words.as_mut_ptr(),
            words.len(),
            counts.as_mut_ptr(),
            counts.len(),
        )
    }
}

/// piskorlu_exact_product: a product added likewise.
#[inline]
pub fn exact_product(w: f64, nu: f64, words: &mut [u64], counts: &mut [u32]) -> u32 {
    // SAFETY: see the head of the module.
    unsafe {
        c::piskorlu_exact_product(
            w,
            nu,
            words.as_mut_ptr(),
            words.len(),
            counts.as_mut_ptr(),
            counts.len(),
        )
    }
}

/// piskorlu_exact_row: free motion, row of W and multipliers into words and
/// counts.
#[inline]
pub fn exact_row(u: f64, w: &[f64], nu: &[f64], words: &mut [u64], counts: &mut [u32]) -> u32 {
    // SAFETY: see the head of the module.
    unsafe {
        c::piskorlu_exact_row(
            u,
            w.as_ptr(),
            w.len(),
            nu.as_ptr(),
            nu.len(),
            words.as_mut_ptr(),
            words.len(),
            counts.as_mut_ptr(),
            counts.len(),
        )
    }
}

/// piskorlu_exact_join: the second accumulator joined to the first, which
/// receives the total.
#[inline]
pub fn exact_join(
    words: &mut [u64],
    counts: &mut [u32],
    other: &[u64],
    other_counts: &[u32],
) -> u32 {
    // SAFETY: see the head of the module.
    unsafe {
        c::piskorlu_exact_join(
            words.as_mut_ptr(),
            words.len(),
            counts.as_mut_ptr(),
            counts.len(),
            other.as_ptr(),
            other.len(),
            other_counts.as_ptr(),
            other_counts.len(),
        )
    }
}

/// piskorlu_exact_sign: the sign of the sum that the words hold.
#[inline]
pub fn exact_sign(words: &[u64], sign: &mut [i8]) -> u32 {
    // SAFETY: see the head of the module.
    unsafe { c::piskorlu_exact_sign(words.as_ptr(), words.len(), sign.as_mut_ptr(), sign.len()) }
}

/// piskorlu_exact_nearest: the f64 nearest to it.
#[inline]
pub fn exact_nearest(words: &[u64], result: &mut [f64]) -> u32 {
    // SAFETY: see the head of the module.
    unsafe {
        c::piskorlu_exact_nearest(
            words.as_ptr(),
            words.len(),
            result.as_mut_ptr(),
            result.len(),
        )
    }
}

/// The declarations of include/piskorlu.h.
mod c {
    /// The solve and the tallied solve differ in what comes first.
    macro_rules! solves {
        ($($name:ident($($before:ident: $type:ty),*);)*) => {
            extern "C" {
                $(pub fn $name(
                    $($before: $type,)*
                    w: *const f64,
                    w_len: usize,
                    u_free: *const f64,
                    u_free_len: usize,
                    lo: *const f64,
                    lo_len: usize,
                    hi: *const f64,
                    hi_len: usize,
                    scale: *const f64,
                    scale_len: usize,
                    motion: *const f64,
                    motion_len: usize,
                    tolerance: f64,
                    nu: *mut f64,
                    nu_len: usize,
                    states: *mut u8,
                    states_len: usize,
                    rows: *mut usize,
                    rows_len: usize,
                    workspace: *mut f64,
                    workspace_len: usize,
                    counts: *mut usize,
                    counts_len: usize,
                    residual: *mut f64,
                    residual_len: usize,
                ) -> u32;)*
            }
        };
    }

    macro_rules! joins {
        ($($name:ident)*) => {
            extern "C" {
                $(pub fn $name(
                    a: *const u32,
                    a_len: usize,
                    a_residual: f64,
                    b: *const u32,
                    b_len: usize,
                    b_residual: f64,
                    counts: *mut u32,
                    counts_len: usize,
                    residual: *mut f64,
                    residual_len: usize,
                ) -> u32;)*
            }
        };
    }

    solves! {
        piskorlu_solve();
        piskorlu_solve_triangle();
        piskorlu_tallied(tally: *mut u32, tally_len: usize, tally_residual: *mut f64, tally_residual_len: usize);
        piskorlu_tallied_triangle(tally: *mut u32, tally_len: usize, tally_residual: *mut f64, tally_residual_len: usize);
    }

    joins! { piskorlu_and piskorlu_continued }

    extern "C" {
        pub fn piskorlu_sqrt(v: f64) -> f64;

        pub fn piskorlu_least_norm(
            a: *mut f64,
            a_len: usize,
            m: usize,
            n: usize,
            b: *mut f64,
            b_len: usize,
            x: *mut f64,
            x_len: usize,
            workspace: *mut f64,
            workspace_len: usize,
            rank: *mut u32,
            rank_len: usize,
        ) -> u32;

        pub fn piskorlu_bend(
            file: *const u8,
            file_len: usize,
            out: *mut u8,
            out_len: usize,
        ) -> usize;

        pub fn piskorlu_exact_free(
            u: f64,
            words: *mut u64,
            words_len: usize,
            counts: *mut u32,
            counts_len: usize,
        ) -> u32;

        pub fn piskorlu_exact_product(
            w: f64,
            nu: f64,
            words: *mut u64,
            words_len: usize,
            counts: *mut u32,
            counts_len: usize,
        ) -> u32;

        pub fn piskorlu_exact_row(
            u: f64,
            w: *const f64,
            w_len: usize,
            nu: *const f64,
            nu_len: usize,
            words: *mut u64,
            words_len: usize,
            counts: *mut u32,
            counts_len: usize,
        ) -> u32;

        pub fn piskorlu_exact_join(
            words: *mut u64,
            words_len: usize,
            counts: *mut u32,
            counts_len: usize,
            other: *const u64,
            other_len: usize,
            other_counts: *const u32,
            other_counts_len: usize,
        ) -> u32;

        pub fn piskorlu_exact_sign(
            words: *const u64,
            words_len: usize,
            sign: *mut i8,
            sign_len: usize,
        ) -> u32;

        pub fn piskorlu_exact_nearest(
            words: *const u64,
            words_len: usize,
            result: *mut f64,
            result_len: usize,
        ) -> u32;
    }
}
