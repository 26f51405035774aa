//! Solves: the families that range widely. Those aimed at one rule each are in
//! `aimed`, those about lengths in `lengths`, and those about rows stopped in
//! `stops`.

use super::aimed;
use super::lengths;
use super::problem::{boxes, gram, rows, tolerance, warm, Owned};
use super::random::Rng;
use super::stops;

/// One solve: the problem and the lengths of what is lent with it.
#[derive(Clone, Debug)]
pub struct Case {
    pub problem: Owned,
    pub workspace_len: usize,
    pub states_len: usize,
    pub rows_len: usize,
    /// What the workspace holds.
    pub fill: f64,
    /// The worked example of `stops` that it is.
    pub example: Option<usize>,
}

impl Case {
    /// Buffers long enough, some with a rest that must stay.
    pub fn of(rng: &mut Rng, problem: Owned) -> Self {
        let n = problem.n();
        Case {
            problem,
            workspace_len: 2_304 + rng.pick(&[0, 0, 1, 5]),
            states_len: n + rng.pick(&[0, 0, 1, 4]),
            rows_len: n + rng.pick(&[0, 0, 1, 4]),
            fill: rng.pick(&[0.0, f64::NAN, f64::NEG_INFINITY, 2.5, -1e300]),
            example: None,
        }
    }
}

type Make = fn(&mut Rng) -> Owned;

/// The families of problems by name.
const PROBLEMS: &[(&str, Make)] = &[
    ("solve/contact", contact),
    ("solve/friction", friction),
    ("solve/redundant", redundant),
    ("solve/asymmetric", asymmetric),
    ("solve/scaled", scaled),
    ("solve/idle", idle),
    ("solve/lattice", lattice),
    ("solve/skew", skew),
    ("solve/indefinite", indefinite),
    ("solve/fighting", fighting),
    ("solve/bounds", bounds),
    ("solve/special", special),
    ("solve/large", large),
];

/// The names of all families of solves.
pub fn families() -> Vec<&'static str> {
    let problems = PROBLEMS
        .iter()
        .chain(aimed::PROBLEMS)
        .map(|&(name, _)| name);
    problems.chain([lengths::SOLVE, stops::SOLVE]).collect()
}

/// The case of a family.
pub fn case(family: &str, rng: &mut Rng) -> Option<Case> {
    if family == lengths::SOLVE {
        return Some(lengths::solve(rng));
    }
    if family == stops::SOLVE {
        return Some(stops::solve(rng));
    }
    let (_, make) = PROBLEMS
        .iter()
        .chain(aimed::PROBLEMS)
        .find(|&&(name, _)| name == family)?;
    let problem = make(rng);
    Some(Case::of(rng, problem))
}

fn free_motion(rng: &mut Rng, p: &mut Owned) {
    for u in &mut p.u_free {
        *u = 2.0 * rng.signed() - 0.5;
    }
}

/// Contact rows, well conditioned.
fn contact(rng: &mut Rng) -> Owned {
    let n = rows(rng);
    let mut p = gram(rng, n, n + 2, |rng| rng.signed());
    boxes(rng, &mut p, 0);
    free_motion(rng, &mut p);
    p.tolerance = tolerance(rng);
    p
}

/// Contact and friction rows from a warm start.
fn friction(rng: &mut Rng) -> Owned {
    let n = rows(rng);
    let mut p = gram(rng, n, n + 2, |rng| rng.signed());
    boxes(rng, &mut p, 60);
    free_motion(rng, &mut p);
    warm(rng, &mut p);
    p.tolerance = tolerance(rng);
    p
}

/// Fewer coordinates than rows.
fn redundant(rng: &mut Rng) -> Owned {
    let n = rows(rng).max(2);
    let k = 1 + rng.below(n - 1);
    let whole = rng.chance(50);
    let mut p = gram(rng, n, k, |rng| {
        if whole {
            rng.lattice(-2, 2)
        } else {
            rng.signed()
        }
    });
    let friction = rng.pick(&[0, 30, 70]);
    boxes(rng, &mut p, friction);
    free_motion(rng, &mut p);
    if rng.chance(50) {
        warm(rng, &mut p);
    }
    p.tolerance = tolerance(rng);
    p
}

/// A matrix that is not symmetric, its diagonal above 0.
fn asymmetric(rng: &mut Rng) -> Owned {
    let n = rows(rng);
    let mut p = Owned::plain(n);
    let off = rng.pick(&[0.3, 1.0, 2.0]);
    p.w.iter_mut().for_each(|w| *w = off * rng.signed());
    for i in 0..n {
        p.set(i, i, 0.2 + rng.unit());
    }
    let friction = rng.pick(&[0, 50, 100]);
    boxes(rng, &mut p, friction);
    free_motion(rng, &mut p);
    motion(rng, &mut p, |rng| rng.signed());
    p.tolerance = tolerance(rng);
    p
}

fn motion(rng: &mut Rng, p: &mut Owned, entry: impl Fn(&mut Rng) -> f64) {
    let coords = rng.below(4);
    p.motion = (0..coords * p.n()).map(|_| entry(rng)).collect();
}

/// Rows, scales and free motion many powers of ten apart.
fn scaled(rng: &mut Rng) -> Owned {
    let mut p = if rng.chance(60) {
        friction(rng)
    } else {
        redundant(rng)
    };
    let n = p.n();
    let most = rng.pick(&[2.0, 6.0, 12.0, 120.0]);
    for i in 0..n {
        let by = rng.decade(most);
        for j in 0..n {
            p.w[i * n + j] *= by;
            p.w[j * n + i] *= by;
        }
        p.u_free[i] *= by * rng.pick(&[1.0, 1.0, 1e3, 1e-3]);
        p.scale[i] *= rng.pick(&[1.0, 1.0, rng_scale(by)]);
    }
    p
}

/// 1/by where that is a scale.
fn rng_scale(by: f64) -> f64 {
    if (1.0 / by).is_normal() {
        1.0 / by
    } else {
        1.0
    }
}

/// Some or all diagonals 0, -0, below 0 or NaN.
fn idle(rng: &mut Rng) -> Owned {
    let mut p = if rng.chance(50) {
        friction(rng)
    } else {
        lattice(rng)
    };
    let percent = rng.pick(&[20, 60, 100]);
    for i in 0..p.n() {
        if rng.chance(percent) {
            let w = rng.pick(&[
                0.0,
                -0.0,
                -1.0,
                f64::NAN,
                f64::NEG_INFINITY,
                -f64::MIN_POSITIVE,
            ]);
            p.set(i, i, w);
            if rng.chance(50) {
                let lo = rng.pick(&[1.0, 3.0, -2.0, 2e6, 1e6, -3e6, 1e5]);
                p.bounds(i, lo, lo + rng.pick(&[0.0, 2.0, f64::INFINITY]));
            }
        }
    }
    p
}

const LOW: [f64; 6] = [0.0, 0.0, -1.0, -2.0, f64::NEG_INFINITY, -0.0];
const HIGH: [f64; 6] = [f64::INFINITY, f64::INFINITY, 1.0, 2.0, 0.0, 3.0];

/// Whole numbers and W = G G^T: ties of columns, bounds, residuals and rooms.
fn lattice(rng: &mut Rng) -> Owned {
    let n = 1 + rng.below(5);
    let k = 1 + rng.below(n + 1);
    let most = rng.pick(&[1, 1, 2]);
    let mut p = gram(rng, n, k, |rng| rng.lattice(-most, most));
    whole_rest(rng, &mut p);
    p
}

/// Whole free motion, bounds and start.
fn whole_rest(rng: &mut Rng, p: &mut Owned) {
    for i in 0..p.n() {
        p.u_free[i] = rng.lattice(-3, 3);
        p.bounds(i, rng.pick(&LOW), rng.pick(&HIGH));
        p.nu[i] = rng.pick(&[0.0, 0.0, -0.0, 1.0, 2.0, -1.0]);
        p.scale[i] = rng.pick(&[1.0, 1.0, 1.0, 2.0, 0.5]);
    }
    if rng.chance(40) {
        p.motion.clear();
    }
    p.tolerance = rng.pick(&[0.0, 0.0, 1.0, 0.5, f64::NAN, 1e-9]);
}

/// Whole numbers, any matrix with a diagonal above 0.
fn skew(rng: &mut Rng) -> Owned {
    let n = 1 + rng.below(4);
    let mut p = Owned::plain(n);
    p.w.iter_mut().for_each(|w| *w = rng.lattice(-3, 3));
    for i in 0..n {
        let diagonal = rng.between(1, 3) as f64;
        p.set(i, i, diagonal);
    }
    whole_rest(rng, &mut p);
    motion(rng, &mut p, |rng| rng.lattice(-1, 1));
    p
}

/// Whole numbers, symmetric with large entries off the diagonal: sweeps swing
/// between bounds, passes go round.
fn indefinite(rng: &mut Rng) -> Owned {
    let n = 2 + rng.below(3);
    let mut p = Owned::plain(n);
    for i in 0..n {
        for j in 0..i {
            let w = rng.lattice(-4, 4);
            p.set(i, j, w);
            p.set(j, i, w);
        }
        let diagonal = rng.between(1, 2) as f64;
        p.set(i, i, diagonal);
    }
    whole_rest(rng, &mut p);
    p
}

/// Stops that fight: contact rows that press one coordinate from both sides,
/// among rows that do not.
fn fighting(rng: &mut Rng) -> Owned {
    let n = rows(rng).max(2);
    let k = 1 + rng.below(n);
    let mut p = if rng.chance(50) {
        gram(rng, n, k, |rng| rng.lattice(-1, 1))
    } else {
        gram(rng, n, k, |rng| rng.signed())
    };
    let (a, b) = (rng.below(n), rng.below(n));
    if a != b && p.motion.len() == k * n {
        oppose(&mut p, a, b, rng.below(k));
    }
    free_motion(rng, &mut p);
    if rng.chance(70) {
        p.u_free[a] = -1.0 - rng.unit();
        let other = -rng.unit();
        p.u_free[b] = rng.pick(&[p.u_free[a], other]);
    }
    for i in 0..n {
        match rng.below(10) {
            0 => p.bounds(i, f64::NEG_INFINITY, f64::INFINITY),
            1 => p.bounds(i, f64::NEG_INFINITY, 0.0),
            _ => {}
        }
    }
    p.tolerance = tolerance(rng);
    p
}

/// Makes rows a and b press coordinate c from both sides, and W the product of
/// the motion again.
fn oppose(p: &mut Owned, a: usize, b: usize, c: usize) {
    let n = p.n();
    let coords = p.motion.len() / n;
    for d in 0..coords {
        p.motion[d * n + a] = if d == c { 1.0 } else { 0.0 };
        p.motion[d * n + b] = if d == c { -1.0 } else { 0.0 };
    }
    for i in 0..n {
        for j in 0..n {
            let w = (0..coords)
                .map(|d| p.motion[d * n + i] * p.motion[d * n + j])
                .sum();
            p.set(i, j, w);
        }
    }
}

/// Inverted, equal, infinite and NaN bounds.
fn bounds(rng: &mut Rng) -> Owned {
    let mut p = if rng.chance(50) {
        lattice(rng)
    } else {
        friction(rng)
    };
    for i in 0..p.n() {
        let v = if rng.chance(50) {
            rng.lattice(-2, 2)
        } else {
            rng.signed()
        };
        match rng.below(8) {
            0 => p.bounds(i, v, v),
            1 => p.bounds(i, v + 1.0, v),
            2 => p.bounds(i, f64::NEG_INFINITY, f64::INFINITY),
            3 => p.bounds(i, f64::NEG_INFINITY, v),
            4 => p.bounds(i, rng.pick(&[v, f64::NAN]), f64::NAN),
            5 => p.bounds(i, f64::NAN, v),
            6 => p.bounds(i, rng.special(), rng.special()),
            _ => {}
        }
        if rng.chance(10) {
            p.nu[i] = rng.special();
        }
    }
    p
}

/// NaN, infinities, subnormals and zeros of either sign anywhere; a scale only
/// where it is finite and above 0.
fn special(rng: &mut Rng) -> Owned {
    let mut p = match rng.below(3) {
        0 => lattice(rng),
        1 => skew(rng),
        _ => friction(rng),
    };
    let times = 1 + rng.below(4);
    for _ in 0..times {
        let value = rng.special();
        let part = rng.below(8);
        if part == 7 {
            p.tolerance = value;
            continue;
        }
        let slice = match part {
            0 | 1 => &mut p.w,
            2 => &mut p.u_free,
            3 => &mut p.lo,
            4 => &mut p.hi,
            5 => &mut p.nu,
            _ => &mut p.motion,
        };
        if !slice.is_empty() {
            let place = rng.below(slice.len());
            slice[place] = value;
        }
    }
    for s in &mut p.scale {
        let value = rng.special().abs();
        if rng.chance(15) && value > 0.0 && value.is_finite() {
            *s = value;
        }
    }
    p
}

/// 13 to 32 rows of each kind.
fn large(rng: &mut Rng) -> Owned {
    let n = rng.between(13, 32) as usize;
    let k = if rng.chance(50) {
        n + 1
    } else {
        1 + rng.below(n)
    };
    let whole = rng.chance(20);
    let mut p = gram(rng, n, k, |rng| {
        if whole {
            rng.lattice(-1, 1)
        } else {
            rng.signed()
        }
    });
    boxes(rng, &mut p, 50);
    free_motion(rng, &mut p);
    if rng.chance(50) {
        warm(rng, &mut p);
    }
    p.tolerance = tolerance(rng);
    p
}
