//! Document 01's marked problems, and those that are known to be easy to get
//! wrong.

use super::problem::Owned;
use super::random::{power_of_two, Rng};
use super::rays::near_fight;

const INF: f64 = f64::INFINITY;

/// How many problems there are.
const COUNT: usize = 22;

/// One of the problems, as it is or with one value moved in its last places.
pub fn marked(rng: &mut Rng) -> Owned {
    let mut p = marked_problem(rng.below(COUNT));
    if rng.chance(50) {
        let slice = match rng.below(5) {
            0 => &mut p.w,
            1 => &mut p.u_free,
            2 => &mut p.lo,
            3 => &mut p.hi,
            _ => &mut p.scale,
        };
        if !slice.is_empty() {
            let place = rng.below(slice.len());
            let most = rng.pick(&[1, 3, 1 << 20]);
            slice[place] = rng.nudged(slice[place], most);
        }
    }
    p
}

/// One of the problems: document 01's cases 1 to 9 are 0 to 8.
pub fn marked_problem(which: usize) -> Owned {
    match which {
        0..=8 => of_document_01(which),
        9..=15 => of_limits(which),
        _ => of_answers(which),
    }
}

fn of_document_01(which: usize) -> Owned {
    let one = |w: f64, u: f64| Owned::of(&[w], &[u]);
    match which {
        0 => Owned::plain(0),
        1 => Owned {
            motion: vec![1.0],
            ..one(2.0, -4.0)
        },
        2 => one(power_of_two(-24), -1.0),
        3 => one(1.0, -1_000_000.0),
        4 => Owned {
            hi: vec![1.0],
            nu: vec![0.5],
            ..one(1.0, 4.0)
        },
        5 => Owned {
            hi: vec![0.0],
            ..one(1.0, -4.0)
        },
        6 => Owned {
            lo: vec![3.0],
            hi: vec![5.0],
            ..one(0.0, 0.0)
        },
        7 => Owned::of(&[1.0; 4], &[-2.0, -2.0]),
        _ => Owned::of(&[1.0, -1.0, -1.0, 1.0], &[-1.0, -1.0]),
    }
}

/// States of an infeasible answer, Idle rows past a million, overflow, a NaN
/// ray, an infinite lower bound, a residual of exactly 1e-9.
fn of_limits(which: usize) -> Owned {
    let tiny = power_of_two(-24);
    match which {
        9 => Owned::of(&[tiny, 0.0, 0.0, 1.0], &[-1.0, 1.0]),
        10 => Owned {
            lo: vec![2e6],
            ..Owned::of(&[0.0], &[0.0])
        },
        11 => Owned {
            lo: vec![2e6, 0.0],
            ..Owned::of(&[0.0, 0.0, 0.0, 1.0], &[0.0, -1.0])
        },
        12 => Owned {
            scale: vec![1e303],
            ..Owned::of(&[1.0], &[-1e308])
        },
        13 => {
            let (w, u) = (power_of_two(-500), power_of_two(514));
            Owned {
                scale: vec![1e300; 2],
                ..Owned::of(&[w, -w, -w, w], &[-3.0 * u, u])
            }
        }
        14 => Owned {
            lo: vec![INF],
            hi: vec![5.0],
            nu: vec![INF],
            ..Owned::of(&[1.0], &[-INF])
        },
        _ => {
            let w = power_of_two(-80);
            let p = Owned::of(&[1.0, 0.0, 0.0, w], &[-1.0, -w]);
            Owned {
                scale: vec![1.0, 1e9],
                lo: vec![0.0, -INF],
                ..p
            }
        }
    }
}

/// The smallest ray of a sweep, NaN, an inverted box, exact answers past a box
/// and past a million scales, one Idle row.
fn of_answers(which: usize) -> Owned {
    match which {
        16 => near_fight(1e-8, 1.0),
        17 => Owned::of(&[1.0], &[f64::NAN]),
        18 => Owned {
            lo: vec![1.0],
            hi: vec![-1.0],
            ..Owned::of(&[1.0], &[-1.0])
        },
        19 => {
            let w = [1.0, 3.0, -1.0, 3.0, 3.0, -1.0, -1.0, -1.0, 3.0];
            let mut p = Owned::of(&w, &[-2.0, -0.0, 3.0]);
            p.lo = vec![-1.0, -INF, 0.0];
            p.hi = vec![INF, 1.0, INF];
            p.nu = vec![0.0, 0.0, 2.0];
            p
        }
        20 => Owned {
            scale: vec![1.75e-6; 2],
            ..Owned::of(&[1.0, -0.5, -0.5, 1.0], &[-1.0, -1.0])
        },
        _ => Owned::of(&[0.0], &[-1.0]),
    }
}
