//! Rows that a sweep stops: the worked examples, and boxes that bind.

use super::problem::{rows, Owned};
use super::random::Rng;
use super::solve::Case;
use super::stop_examples::examples;

/// The family's name.
pub const SOLVE: &str = "solve/stops";

/// A worked example, or a problem whose updates are aimed at their bounds.
pub fn solve(rng: &mut Rng) -> Case {
    if rng.chance(20) {
        let example = &examples().solves[rng.below(examples().solves.len())];
        let mut case = Case::of(rng, example.problem.clone());
        case.example = Some(example.number);
        return case;
    }
    let problem = binding(rng);
    Case::of(rng, problem)
}

/// Rows whose first update would come to a bound, next to it or past it if no
/// other row pulled; some are Idle in a box that their start is clamped to.
fn binding(rng: &mut Rng) -> Owned {
    let n = if rng.chance(20) {
        rng.between(13, 32) as usize
    } else {
        rows(rng)
    };
    let mut p = Owned::plain(n);
    let (past, coupled) = (rng.pick(&[10, 50, 90, 100]), rng.pick(&[0, 0, 20, 60]));
    for i in 0..n {
        let w = rng.pick(&[1.0, 1.0, 2.0, 0.5, if past < 90 { 0.0 } else { 1.0 }]);
        p.set(i, i, w);
        let lo = rng.lattice(-2, 1);
        let hi = lo + rng.pick(&[0.0, 1.0, 2.0, f64::INFINITY]);
        p.bounds(i, lo, hi);
        let low = hi.is_infinite() || rng.chance(50);
        let (bound, outward) = if low { (lo, -1.0) } else { (hi, 1.0) };
        let v = if rng.chance(past) {
            bound + outward * rng.between(1, 3) as f64
        } else {
            let inside = bound - outward;
            let near = rng.nudged(bound, 1);
            rng.pick(&[bound, near, inside])
        };
        p.u_free[i] = -w * v;
        p.nu[i] = rng.lattice(-3, 3);
        for j in 0..i {
            if rng.chance(coupled) {
                let pull = 0.5 * rng.signed();
                p.set(i, j, pull);
                p.set(j, i, rng.pick(&[pull, pull, -pull]));
            }
        }
    }
    p
}
