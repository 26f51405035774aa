//! Families aimed at one rule each, most of them rules that wide families
//! reach in fewer than one case in a thousand.

use super::marked::marked;
use super::problem::{tolerance, Owned};
use super::random::{power_of_two, Rng};
use super::rays::{ray_bounded, ray_nan, ray_rounding, ray_tiny, sweep};
use super::sweeps::{late_ray, slow, sweeps_alone};

type Make = fn(&mut Rng) -> Owned;

const INF: f64 = f64::INFINITY;

/// The families by name.
pub const PROBLEMS: &[(&str, Make)] = &[
    ("solve/marked", marked),
    ("solve/growth", growth),
    ("solve/million", million),
    ("solve/sweep", sweep),
    ("solve/slow", slow),
    ("solve/sweeps-alone", sweeps_alone),
    ("solve/late-ray", late_ray),
    ("solve/cycling", cycling),
    ("solve/ray-bounded", ray_bounded),
    ("solve/ray-tiny", ray_tiny),
    ("solve/ray-nan", ray_nan),
    ("solve/ray-rounding", ray_rounding),
    ("solve/room", room),
    ("solve/near-bound", near_bound),
    ("solve/limit", limit),
    ("solve/wide-scale", wide_scale),
];

/// Small diagonals, large free motion: multipliers past a million scales at
/// any sweep, some rows Idle with far bounds.
fn growth(rng: &mut Rng) -> Owned {
    let n = 1 + rng.below(4);
    let mut p = Owned::plain(n);
    for i in 0..n {
        let w = rng.pick(&[1.0, 1.0, 1e-6, power_of_two(-24), 0.0]);
        p.set(i, i, w);
        p.u_free[i] = rng.lattice(-2, 2);
        p.scale[i] = rng.pick(&[1.0, 2.0, 0.5, 1e-6]);
        if rng.chance(30) {
            let lo = rng.pick(&[2e6, 1e6, -3e6, 1e5, -INF]);
            p.bounds(i, lo, rng.pick(&[INF, 4e6, 0.0]));
        }
        if rng.chance(20) {
            p.nu[i] = rng.pick(&[1e7, -1e7, 1e6, -1e6]);
        }
    }
    for i in 0..n * n {
        if rng.chance(20) && p.w[i] == 0.0 && i % (n + 1) != 0 {
            p.w[i] = 0.25 * rng.signed();
        }
    }
    p.tolerance = tolerance(rng);
    p
}

/// Multipliers at and next to a million scales, with scales that round and
/// scales whose million overflows.
fn million(rng: &mut Rng) -> Owned {
    let s = match rng.below(4) {
        0 => rng.power_of_two(-4, 4),
        1 => 1.0 + rng.unit(),
        2 => rng.magnitude(301.0, 303.2),
        _ => rng.decade(9.0),
    };
    let limit = 1e6 * s;
    let far = if limit.is_finite() {
        rng.nudged(limit, 2)
    } else {
        f64::MAX * rng.unit()
    };
    let sign = rng.pick(&[1.0, -1.0]);
    let mut p = Owned::of(&[1.0], &[-sign * far]);
    p.scale[0] = s;
    p.bounds(0, -INF, INF);
    match rng.below(4) {
        0 => p,
        1 => {
            // An Idle row that its bound puts there.
            let mut idle = Owned::of(&[0.0], &[0.0]);
            let bound = if sign > 0.0 { (far, INF) } else { (-INF, -far) };
            idle.bounds(0, bound.0, bound.1);
            idle.scale[0] = s;
            idle.beside(&Owned::of(&[1.0], &[rng.lattice(-2, 2)]))
        }
        2 => Owned::of(&[1.0], &[rng.lattice(-2, 2)]).beside(&p),
        _ => {
            let bounded = Owned {
                lo: vec![-far.abs()],
                hi: vec![far.abs()],
                ..p.clone()
            };
            bounded.beside(&p)
        }
    }
}

/// Passes that go round until their moves are used up, and the states that
/// they leave once sweeps have grown: large entries off the diagonal, some
/// rows Idle.
fn cycling(rng: &mut Rng) -> Owned {
    let n = if rng.chance(40) {
        3 + rng.below(6)
    } else {
        9 + rng.below(6)
    };
    let mut p = Owned::plain(n);
    let off = rng.pick(&[1.5, 2.0, 3.0]);
    p.w.iter_mut().for_each(|w| *w = off * rng.signed());
    for i in 0..n {
        p.set(i, i, 0.2 + rng.unit());
        p.u_free[i] = 2.0 * rng.signed() - 0.5;
        if rng.chance(30) {
            p.bounds(i, -1.0, 1.0);
        }
    }
    if rng.chance(50) {
        p = p.beside(&Owned::plain(1 + rng.below(2)));
    }
    p.tolerance = f64::NAN;
    p
}

/// Inverted boxes among others: a row released past its other bound has no
/// room, and the move must not go backward.
fn room(rng: &mut Rng) -> Owned {
    let n = 2 + rng.below(3);
    let mut p = Owned::plain(n);
    for i in 0..n {
        for j in 0..i {
            let w = 0.5 * rng.signed();
            p.set(i, j, w);
            p.set(j, i, w);
        }
        p.set(i, i, 1.0 + rng.unit());
        p.u_free[i] = 4.0 * rng.signed();
        p.bounds(i, rng.pick(&[0.0, -1.0, -INF]), rng.pick(&[INF, 1.0, 2.0]));
    }
    let inverted = rng.below(n);
    let lo = 2.0 * rng.signed();
    p.bounds(inverted, lo, lo - rng.unit());
    p
}

/// Answers within about 1e-9 of a bound, or of both.
fn near_bound(rng: &mut Rng) -> Owned {
    let n = 1 + rng.below(3);
    let mut p = Owned::plain(n);
    for i in 0..n {
        let s = rng.pick(&[1.0, 1.0, 2.0, 0.25, 1e3]);
        let bound = rng.pick(&[0.0, 1.0, -1.0, 2.5, 0.1]);
        let by = s * 1e-9 * rng.pick(&[0.0, 0.5, 0.9, 1.0, 1.1, 2.0, 0.25]);
        p.scale[i] = s;
        let narrow = s * 1e-9 * rng.pick(&[0.0, 0.5, 1.0, 1.5]);
        let w = rng.pick(&[1.0, 2.0, 0.5]);
        p.set(i, i, w);
        let target = match rng.below(3) {
            0 => {
                p.bounds(i, -INF, bound);
                bound - by
            }
            1 => {
                p.bounds(i, bound, INF);
                bound + by
            }
            _ => {
                p.bounds(i, bound, bound + narrow);
                bound + by
            }
        };
        p.u_free[i] = -w * target;
        p.nu[i] = if rng.chance(50) { target } else { 0.0 };
    }
    if n > 1 && rng.chance(30) {
        let w = 0.25 * rng.signed();
        p.set(0, 1, w);
        p.set(1, 0, w);
    }
    p
}

/// Tests at 1e-9 met exactly or missed by a place.
fn limit(rng: &mut Rng) -> Owned {
    if rng.chance(50) {
        // A row that the rank leaves out, its residual at 1e-9.
        let w = rng.power_of_two(-90, -40);
        let s = rng.nudged(1e9, 3) * rng.pick(&[1.0, 1.0, 2.0, 0.5]);
        let mut p = Owned::of(&[1.0, 0.0, 0.0, w], &[-1.0, -w]);
        p.scale[1] = s;
        p.lo[1] = rng.pick(&[-INF, -1.0, 0.0]);
        return p;
    }
    // A row held on a bound and pushed by 1e-9.
    let s = rng.power_of_two(-3, 3);
    let push = rng.nudged(1e-9 * s, 2);
    let mut p = Owned::of(&[1.0], &[-push]);
    p.scale[0] = s;
    if rng.chance(50) {
        p.u_free[0] = push;
        p.bounds(0, -INF, 0.0);
    }
    if rng.chance(40) {
        let other = Owned::of(&[1.0], &[rng.pick(&[-push, push, -1.0])]);
        p = p.beside(&other);
    }
    p
}

/// Scales far apart: a coarse row's small residuals, releases and ties.
fn wide_scale(rng: &mut Rng) -> Owned {
    let n = 2 + rng.below(3);
    let mut p = Owned::plain(n);
    for i in 0..n {
        for j in 0..i {
            let w = rng.pick(&[0.0, 0.25, -0.25, 0.5]);
            p.set(i, j, w);
            p.set(j, i, w);
        }
        let diagonal = rng.pick(&[1.0, 2.0, 1e-3, 1e3]);
        p.set(i, i, diagonal);
        p.u_free[i] = rng.lattice(-3, 3);
        p.scale[i] = rng.pick(&[1.0, 1e3, 1e-3, 1e9, 1e-5]);
        p.bounds(i, rng.pick(&[0.0, -1.0, -INF]), rng.pick(&[INF, 1.0, 2.0]));
        p.nu[i] = rng.pick(&[0.0, 1.0, -1.0, 2.0]);
    }
    p
}
