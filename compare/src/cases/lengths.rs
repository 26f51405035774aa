//! Lengths at and around each limit, and scales that 8 refuses.

use super::problem::Owned;
use super::random::Rng;
use super::solve::Case;

/// The family's name.
pub const SOLVE: &str = "solve/lengths";

/// A small problem, or one at a limit, with one to three things wrong.
pub fn solve(rng: &mut Rng) -> Case {
    let n = rng.pick(&[0, 1, 2, 3, 31, 32, 33, 40]);
    let mut p = Owned::plain(n);
    for i in 0..n {
        p.set(i, i, 1.0 + (i % 3) as f64);
        p.u_free[i] = rng.lattice(-2, 2);
        p.nu[i] = rng.lattice(-4, 4);
        p.hi[i] = rng.pick(&[1.0, f64::INFINITY]);
    }
    let mut case = Case::of(rng, p);
    let wrongs = rng.pick(&[0, 1, 1, 1, 2, 2, 3]);
    for _ in 0..wrongs {
        spoil(rng, &mut case);
    }
    case
}

/// Scales that 8 refuses, and the smallest that it takes.
const SCALES: [f64; 7] = [
    0.0,
    -0.0,
    -1.0,
    f64::NAN,
    f64::INFINITY,
    f64::NEG_INFINITY,
    f64::from_bits(1),
];

/// Makes one length or scale wrong, or puts it on a limit.
fn spoil(rng: &mut Rng, case: &mut Case) {
    let n = case.problem.n();
    match rng.below(9) {
        0..=5 => spoil_problem(rng, &mut case.problem),
        6 => case.workspace_len = rng.pick(&[0, 1, 2_303, 2_304, 2_305, 2_310, 1_056]),
        7 => case.states_len = near(rng, n),
        _ => case.rows_len = near(rng, n),
    }
}

fn spoil_problem(rng: &mut Rng, p: &mut Owned) {
    let n = p.n();
    match rng.below(6) {
        0 => p.w.resize(near(rng, n * n), 1.0),
        1 => {
            let length = near(rng, n);
            let slice = match rng.below(4) {
                0 => &mut p.lo,
                1 => &mut p.hi,
                2 => &mut p.scale,
                _ => &mut p.nu,
            };
            slice.resize(length, 1.0);
        }
        2 | 3 if !p.scale.is_empty() => {
            let place = rng.below(p.scale.len());
            p.scale[place] = rng.pick(&SCALES);
        }
        4 => {
            let coords = rng.below(4);
            p.motion = vec![0.25; near(rng, coords * n)];
        }
        _ => {
            let whole = 2_048 - 2_048usize.checked_rem(n).unwrap_or(0);
            let past = whole + n.max(1) * 3;
            p.motion = vec![0.25; rng.pick(&[2_047, 2_048, 2_049, whole, whole + n, past])];
        }
    }
}

/// A length next to the right one.
fn near(rng: &mut Rng, length: usize) -> usize {
    let off = rng.pick(&[-1i64, 1, -2, 3, 0]);
    (length as i64 + off).max(0) as usize
}
