//! A problem with its own storage, and the pieces that families build it from.

use super::random::Rng;
use crate::reference::problem::Problem;

/// A problem, its slices of any lengths.
#[derive(Clone, Debug)]
pub struct Owned {
    pub w: Vec<f64>,
    pub u_free: Vec<f64>,
    pub lo: Vec<f64>,
    pub hi: Vec<f64>,
    pub scale: Vec<f64>,
    pub nu: Vec<f64>,
    pub motion: Vec<f64>,
    pub tolerance: f64,
}

impl Owned {
    /// The defaults of document 01's marked cases: W and u_free 0, lo 0, hi
    /// infinite, scale 1, nu 0, no motion, tolerance 0.
    pub fn plain(n: usize) -> Self {
        Owned {
            w: vec![0.0; n * n],
            u_free: vec![0.0; n],
            lo: vec![0.0; n],
            hi: vec![f64::INFINITY; n],
            scale: vec![1.0; n],
            nu: vec![0.0; n],
            motion: Vec::new(),
            tolerance: 0.0,
        }
    }

    /// A plain problem with this matrix and free motion.
    pub fn of(w: &[f64], u_free: &[f64]) -> Self {
        Owned {
            w: w.to_vec(),
            u_free: u_free.to_vec(),
            ..Owned::plain(u_free.len())
        }
    }

    pub fn n(&self) -> usize {
        self.u_free.len()
    }

    /// The problem as it is lent, its multipliers apart.
    pub fn lend(&self) -> Problem<'_> {
        Problem {
            w: &self.w,
            u_free: &self.u_free,
            lo: &self.lo,
            hi: &self.hi,
            scale: &self.scale,
            motion: &self.motion,
            tolerance: self.tolerance,
        }
    }

    pub fn set(&mut self, i: usize, j: usize, value: f64) {
        let n = self.n();
        self.w[i * n + j] = value;
    }

    pub fn bounds(&mut self, i: usize, lo: f64, hi: f64) {
        self.lo[i] = lo;
        self.hi[i] = hi;
    }

    /// This problem and another one side by side, no entry joining them. The
    /// motion of the other is dropped, as is its tolerance.
    pub fn beside(&self, other: &Owned) -> Owned {
        let (n, k) = (self.n(), other.n());
        let mut both = Owned::plain(n + k);
        for i in 0..n {
            for j in 0..n {
                both.set(i, j, self.w[i * n + j]);
            }
        }
        for i in 0..k {
            for j in 0..k {
                both.set(n + i, n + j, other.w[i * k + j]);
            }
        }
        let join = |a: &[f64], b: &[f64]| [a, b].concat();
        both.u_free = join(&self.u_free, &other.u_free);
        both.lo = join(&self.lo, &other.lo);
        both.hi = join(&self.hi, &other.hi);
        both.scale = join(&self.scale, &other.scale);
        both.nu = join(&self.nu, &other.nu);
        for row in self.motion.chunks(n.max(1)) {
            both.motion.extend_from_slice(row);
            both.motion.extend(std::iter::repeat_n(0.0, k));
        }
        both.tolerance = self.tolerance;
        both
    }

    /// The rows in another order.
    pub fn shuffled(&self, order: &[usize]) -> Owned {
        let n = self.n();
        let mut moved = self.clone();
        for (i, &a) in order.iter().enumerate() {
            for (j, &b) in order.iter().enumerate() {
                moved.w[i * n + j] = self.w[a * n + b];
            }
            moved.u_free[i] = self.u_free[a];
            moved.bounds(i, self.lo[a], self.hi[a]);
            moved.scale[i] = self.scale[a];
            moved.nu[i] = self.nu[a];
            for c in 0..self.motion.len() / n {
                moved.motion[c * n + i] = self.motion[c * n + a];
            }
        }
        moved
    }
}

/// A number of rows from 0 to 32, mostly small.
pub fn rows(rng: &mut Rng) -> usize {
    match rng.below(100) {
        0 => 0,
        1..=14 => 1,
        15..=39 => 2,
        40..=59 => 3,
        60..=84 => rng.between(4, 6) as usize,
        85..=94 => rng.between(7, 12) as usize,
        95..=97 => rng.between(13, 20) as usize,
        _ => rng.between(21, 32) as usize,
    }
}

/// W = G G^T of n rows and k coordinates; the motion is G's columns.
pub fn gram(rng: &mut Rng, n: usize, k: usize, entry: impl Fn(&mut Rng) -> f64) -> Owned {
    let g: Vec<f64> = (0..n * k).map(|_| entry(rng)).collect();
    let mut p = Owned::plain(n);
    for i in 0..n {
        for j in 0..n {
            let value = (0..k).map(|c| g[i * k + c] * g[j * k + c]).sum();
            p.set(i, j, value);
        }
    }
    let coords = k.min(2_048 / n.max(1));
    for c in 0..coords {
        p.motion.extend((0..n).map(|i| g[i * k + c]));
    }
    p
}

/// Contact boxes, or friction boxes with a scale of their bound.
pub fn boxes(rng: &mut Rng, p: &mut Owned, friction: usize) {
    for i in 0..p.n() {
        if rng.chance(friction) {
            let b = 0.1 + 2.0 * rng.unit();
            p.bounds(i, -b, b);
            p.scale[i] = b;
        } else {
            p.bounds(i, 0.0, f64::INFINITY);
            p.scale[i] = 0.5 + rng.unit();
        }
    }
}

/// Starting multipliers that may lie outside their boxes.
pub fn warm(rng: &mut Rng, p: &mut Owned) {
    for v in &mut p.nu {
        *v = 3.0 * rng.signed();
    }
}

/// A tolerance for the motion test: 0, small, NaN, infinite or below 0.
pub fn tolerance(rng: &mut Rng) -> f64 {
    let small = rng.decade(6.0) * 1e-9;
    rng.pick(&[
        0.0,
        0.0,
        small,
        small,
        1e-12,
        1e-6,
        f64::NAN,
        f64::INFINITY,
        -1.0,
        -0.0,
    ])
}
