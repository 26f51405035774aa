//! Box-bounded pad loads: safe Rust over libpiskorlu.a, whose calls are proved.
//! docs/SPECIFICATION.md defines every answer. Nothing is allocated, and no std
//! is needed.
//!
//! ```
//! use piskorlu::{solve, Answer, Problem, SOLVE_WORKSPACE};
//!
//! let problem = Problem {
//!     w: &[2.0, 1.0, 1.0, 2.0],
//!     u_free: &[-3.0, 1.0],
//!     lo: &[0.0, 0.0],
//!     hi: &[f64::INFINITY, f64::INFINITY],
//!     scale: &[1.0, 1.0],
//!     motion: &[],
//!     tolerance: 0.0,
//! };
//! let (mut nu, mut states, mut rows) = ([0.0; 2], [0; 2], [0; 2]);
//! let mut workspace = [0.0; SOLVE_WORKSPACE];
//! match solve(&problem, &mut nu, &mut states, &mut rows, &mut workspace) {
//!     Answer::Solved(report) if report.usable(&nu, 1e-9) => assert_eq!(nu, [1.5, 0.0]),
//!     other => panic!("no loads: {other:?}"),
//! }
//! ```
#![no_std]

#[cfg(not(all(target_arch = "x86_64", target_pointer_width = "64")))]
compile_error!("libpiskorlu.a is for x86-64 alone");

pub mod calls;
mod exact;
mod refusal;
mod report;

pub use exact::{ExactSum, EXACT_WORDS};
pub use refusal::Refusal;
pub use report::{BoxReport, SolveReport};

/// The most rows of a problem.
pub const MOST: usize = 32;
/// The most values of a problem's motion.
pub const MOST_MOTION: usize = 2048;
/// The fewest values of a workspace for a solve.
pub const SOLVE_WORKSPACE: usize = 2304;
/// The fewest values of a workspace for a least-norm call.
pub const LEAST_NORM_WORKSPACE: usize = 1056;
/// The fewest bytes of a buffer for [`bend`].
pub const BEND_ROOM: usize = 2048;

/// A problem of n rows, n being the length of `u_free`.
#[derive(Clone, Copy, Debug)]
pub struct Problem<'a> {
    /// W by rows, n rows of n values: symmetric, positive semidefinite. For
    /// [`solve_triangle`] and [`tallied_triangle`] its lower triangle alone.
    pub w: &'a [f64],
    /// The motion at each row without any load.
    pub u_free: &'a [f64],
    /// Lower bounds, negative infinity where there is none.
    pub lo: &'a [f64],
    /// Upper bounds, infinity where there is none.
    pub hi: &'a [f64],
    /// A usual load's size at each row, finite and above 0.
    pub scale: &'a [f64],
    /// Rows of n values, one for each coordinate that is watched.
    pub motion: &'a [f64],
    /// The sweeps may stop where no watched coordinate moves by more than this.
    pub tolerance: f64,
}

/// How an infeasible answer was found.
#[derive(Clone, Copy, Debug, PartialEq, Eq)]
pub enum Cause {
    /// A multiplier passed a million times its scale. A scale that is far too
    /// small gives this too.
    Growth,
    /// An exact pass found multipliers that grow together without end.
    Pass,
    /// They were found after a sweep.
    Sweep,
}

/// A row's state, a byte of `states`.
#[derive(Clone, Copy, Debug, PartialEq, Eq)]
pub enum State {
    Inside,
    AtLo,
    AtHi,
    Idle,
}

impl State {
    /// The state of a byte; `None` for one that no solve leaves.
    pub fn of(byte: u8) -> Option<Self> {
        match byte {
            0 => Some(State::Inside),
            1 => Some(State::AtLo),
            2 => Some(State::AtHi),
            3 => Some(State::Idle),
            _ => None,
        }
    }
}

/// What a solve answers.
#[derive(Clone, Copy, Debug, PartialEq)]
pub enum Answer<'a> {
    /// Ask [`BoxReport::usable`] before you use the multipliers.
    Solved(BoxReport),
    /// Multipliers and states are where the solver stopped, and are no loads.
    /// `rows` is the filled front of the row list, rising.
    Infeasible {
        cause: Cause,
        rows: &'a [usize],
        report: BoxReport,
    },
    /// The call was not taken, and nothing was written.
    Refused(Refusal),
}

impl BoxReport {
    /// Whether the multipliers `nu` of this solved answer may be used as loads:
    /// it converged, its residual is at most `most_residual` (1e-9, say), and
    /// every multiplier is finite. One NaN in the input gives NaN multipliers in
    /// an answer that is converged and exact with residual 0. Where every row
    /// should act, ask also that `idle` is 0.
    pub fn usable(&self, nu: &[f64], most_residual: f64) -> bool {
        self.converged && self.residual <= most_residual && nu.iter().all(|v| v.is_finite())
    }
}

/// The multipliers for which W nu + u_free is the motion at each row. `nu` has
/// where to start and receives the answer, `states` a byte for each row, `rows`
/// the rows of an infeasible answer.
pub fn solve<'a>(
    problem: &Problem,
    nu: &mut [f64],
    states: &mut [u8],
    rows: &'a mut [usize],
    workspace: &mut [f64],
) -> Answer<'a> {
    answered(problem, nu, states, rows, workspace, calls::solve)
}

/// [`solve`] of the symmetric matrix whose lower triangle by rows is
/// `problem.w`, n(n + 1)/2 values: row i has i + 1, up to its own entry.
pub fn solve_triangle<'a>(
    problem: &Problem,
    nu: &mut [f64],
    states: &mut [u8],
    rows: &'a mut [usize],
    workspace: &mut [f64],
) -> Answer<'a> {
    answered(problem, nu, states, rows, workspace, calls::solve_triangle)
}

/// A solve whose report joins the tally. Begin with [`SolveReport::NOTHING`]; a
/// refused solve joins nothing.
pub fn tallied<'a>(
    tally: &mut SolveReport,
    problem: &Problem,
    nu: &mut [f64],
    states: &mut [u8],
    rows: &'a mut [usize],
    workspace: &mut [f64],
) -> Answer<'a> {
    joined(tally, problem, nu, states, rows, workspace, calls::tallied)
}

/// [`tallied`] with the lower triangle by rows in `problem.w`.
pub fn tallied_triangle<'a>(
    tally: &mut SolveReport,
    problem: &Problem,
    nu: &mut [f64],
    states: &mut [u8],
    rows: &'a mut [usize],
    workspace: &mut [f64],
) -> Answer<'a> {
    let call = calls::tallied_triangle;
    joined(tally, problem, nu, states, rows, workspace, call)
}

fn joined<'a>(
    tally: &mut SolveReport,
    problem: &Problem,
    nu: &mut [f64],
    states: &mut [u8],
    rows: &'a mut [usize],
    workspace: &mut [f64],
    call: fn(calls::Tally, calls::Lent) -> u32,
) -> Answer<'a> {
    let (mut counts, mut residual) = (tally.counts(), [tally.residual]);
    let answer = answered(problem, nu, states, rows, workspace, |lent| {
        call((&mut counts, &mut residual), lent)
    });
    if !matches!(answer, Answer::Refused(_)) {
        *tally = SolveReport::of(&counts, residual[0]);
    }
    answer
}

fn answered<'a>(
    problem: &Problem,
    nu: &mut [f64],
    states: &mut [u8],
    rows: &'a mut [usize],
    workspace: &mut [f64],
    call: impl FnOnce(calls::Lent) -> u32,
) -> Answer<'a> {
    let (mut counts, mut residual) = ([0; 8], [0.0]);
    let number = call(calls::Lent {
        w: problem.w,
        u_free: problem.u_free,
        lo: problem.lo,
        hi: problem.hi,
        scale: problem.scale,
        motion: problem.motion,
        tolerance: problem.tolerance,
        nu,
        states,
        rows,
        workspace,
        counts: &mut counts,
        residual: &mut residual,
    });
    if number != 0 {
        return Answer::Refused(Refusal::of(number));
    }
    let [outcome, sweeps, exact_passes, converged, exact, idle, listed, stopped] = counts;
    let report = BoxReport {
        sweeps: sweeps as u32,
        exact_passes: exact_passes as u32,
        converged: converged != 0,
        exact: exact != 0,
        residual: residual[0],
        idle: idle as u32,
        stopped: stopped as u32,
    };
    let cause = match outcome {
        0 => return Answer::Solved(report),
        1 => Cause::Growth,
        2 => Cause::Pass,
        _ => Cause::Sweep,
    };
    Answer::Infeasible {
        cause,
        rows: &rows[..listed],
        report,
    }
}

/// The x of least norm among those that minimize |A x - b|; its rank. `a` has A
/// by rows, m rows of n values; `a` and `b` are overwritten with what the
/// decomposition leaves.
pub fn least_norm(
    a: &mut [f64],
    m: usize,
    n: usize,
    b: &mut [f64],
    x: &mut [f64],
    workspace: &mut [f64],
) -> Result<u32, Refusal> {
    let mut rank = [0];
    match calls::least_norm(a, m, n, b, x, workspace, &mut rank) {
        0 => Ok(rank[0]),
        number => Err(Refusal::of(number)),
    }
}

/// The square root, rounded to nearest.
pub fn sqrt(v: f64) -> f64 {
    calls::sqrt(v)
}

/// The lines that bendsolve writes for a bend file, at the front of `out`;
/// `None` where `out` has less than [`BEND_ROOM`] bytes. A file that cannot be
/// taken is answered by a line "refused N".
pub fn bend<'a>(file: &[u8], out: &'a mut [u8]) -> Option<&'a [u8]> {
    match calls::bend(file, out) {
        0 => None,
        count => Some(&out[..count]),
    }
}

/// Whether this thread's floating-point operations are those that the proofs are
/// about: rounded to nearest, ties to even, subnormal numbers kept. See
/// include/piskorlu.h.
pub fn float_environment_ok() -> bool {
    use core::hint::black_box;
    let (one, smallest_normal) = (black_box(1.0_f64), black_box(f64::MIN_POSITIVE));
    let tie = black_box(one + black_box(f64::EPSILON / 2.0));
    let above = black_box(one + black_box(f64::EPSILON * 0.75));
    let subnormal = black_box(smallest_normal / black_box(2.0));
    tie == 1.0 && above == 1.0 + f64::EPSILON && subnormal * black_box(2.0) == smallest_normal
}
