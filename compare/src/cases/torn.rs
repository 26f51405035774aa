//! Torn cell wires: a NaN where a cell or a bound is read.

use super::problem::{rows, Owned};
use super::random::Rng;
use super::solve::{self, Case};

/// A solve of any family, or of rows that do not act on each other; a third of
/// them with a NaN in the free motion, a multiplier, the matrix or a bound.
pub fn solve(rng: &mut Rng) -> Option<Case> {
    let mut case = if rng.chance(30) {
        let problem = apart(rng);
        Case::of(rng, problem)
    } else {
        let family = rng.pick(&solve::families());
        solve::case(family, rng)?
    };
    if rng.below(3) == 0 {
        tear(rng, &mut case.problem);
    }
    Some(case)
}

fn tear(rng: &mut Rng, p: &mut Owned) {
    let slice = match rng.below(5) {
        0 => &mut p.u_free,
        1 => &mut p.nu,
        2 => &mut p.w,
        3 => &mut p.lo,
        _ => &mut p.hi,
    };
    if !slice.is_empty() {
        let place = rng.below(slice.len());
        slice[place] = f64::NAN;
    }
}

/// Rows that do not act on each other, some of them Idle. A NaN in one reaches
/// those after it alone, and no Idle one.
fn apart(rng: &mut Rng) -> Owned {
    let n = rows(rng);
    let mut p = Owned::plain(n);
    for i in 0..n {
        let diagonal = rng.pick(&[1.0, 2.0, 0.5, 0.0]);
        p.set(i, i, diagonal);
        p.u_free[i] = rng.lattice(-3, 3);
        p.nu[i] = rng.lattice(-2, 2);
        if rng.chance(30) {
            let lo = rng.lattice(-2, 0);
            p.bounds(i, lo, lo + 1.0);
        }
    }
    p
}
