//! Fights and near fights: where a ray is found, or all but.

use super::problem::{gram, Owned};
use super::random::{power_of_two, Rng};

const INF: f64 = f64::INFINITY;

/// Two stops that all but fight: `W = (1, -(1 - e); -(1 - e), 1)`, pressed by
/// `u`. Their sweeps climb by about 2 u each; their system's answer, u / e,
/// rounds too coarsely for the pass.
pub fn near_fight(e: f64, u: f64) -> Owned {
    Owned::of(&[1.0, e - 1.0, e - 1.0, 1.0], &[-u, -u])
}

/// Near fights whose ray shows after a sweep, alone and among other rows.
pub fn sweep(rng: &mut Rng) -> Owned {
    let e = rng.pick(&[1e-8, 1e-7, 1e-9, 3e-8, power_of_two(-26), power_of_two(-27)]);
    let mut p = near_fight(e, rng.pick(&[1.0, 2.0, 0.5, 100.0, 3.0]));
    if rng.chance(30) {
        // Mirrored: both rows bounded above only, pressed the other way.
        p.u_free.iter_mut().for_each(|u| *u = -*u);
        p.lo = vec![-INF; 2];
        p.hi = vec![0.0; 2];
    }
    if rng.chance(40) {
        p.scale = vec![rng.power_of_two(-3, 3), rng.power_of_two(-3, 3)];
    }
    p.tolerance = rng.pick(&[0.0, 0.0, 0.0, 1e-9, -0.0]);
    if rng.chance(50) {
        let other = settling(rng);
        p = p.beside(&other);
    }
    if rng.chance(30) {
        // Weak entries between the near fight and the rest.
        let n = p.n();
        for i in 2..n {
            let w = rng.signed() * 1e-9;
            p.set(0, i, w);
            p.set(i, 0, w);
        }
    }
    let order = rng.permutation(p.n());
    p.shuffled(&order)
}

/// One or two rows that settle by themselves.
pub fn settling(rng: &mut Rng) -> Owned {
    let c = rng.pick(&[0.0, 0.5, 0.9, -0.7]);
    let mut p = Owned::of(&[1.0, c, c, 1.0], &[rng.signed(), rng.signed()]);
    for i in 0..2 {
        match rng.below(4) {
            0 => p.bounds(i, -1.0, 1.0),
            1 => p.bounds(i, -INF, INF),
            2 => p.bounds(i, -INF, 0.5),
            _ => {}
        }
    }
    if rng.chance(20) {
        p.set(0, 0, 0.0);
    }
    p
}

/// A row that one sweep brings to a million scales, all but, or a place past,
/// and a second row that leaves it a residual.
pub fn ray_at_million(rng: &mut Rng) -> Owned {
    let s = rng.power_of_two(-4, 4);
    let mut p = Owned::of(&[1.0, 1e-4, 0.0, 1.0], &[-1e6 * s, -1e-4]);
    let scale = rng.nudged(s, 1);
    p.scale = vec![scale, 1.0];
    p
}

/// A near fight, its matrix not quite symmetric, whose scale puts the least
/// along the ray of its second sweep at a million, so that the last place of
/// each part decides.
pub fn ray_at_edge(rng: &mut Rng) -> Owned {
    let c = [
        1e-8 * (0.5 + rng.unit()) - 1.0,
        1e-8 * (0.5 + rng.unit()) - 1.0,
    ];
    let u = [-0.5 - rng.unit(), -0.5 - rng.unit()];
    let (mut nu, mut y) = ([0.0; 2], [0.0; 2]);
    for _ in 0..2 {
        let before: [f64; 2] = nu;
        nu[0] -= u[0] + nu[0] + c[0] * nu[1];
        nu[1] -= u[1] + c[1] * nu[0] + nu[1];
        y = [nu[0] - before[0], nu[1] - before[1]];
    }
    let lin = u[0] * y[0] + u[1] * y[1];
    let quad = y[0] * y[0] + y[0] * c[0] * y[1] + y[1] * c[1] * y[0] + y[1] * y[1];
    let scale = -lin / quad * y[0].max(y[1]) / 1e6;
    let mut p = Owned::of(&[1.0, c[0], c[1], 1.0], &u);
    if scale.is_normal() && scale > 0.0 {
        p.scale = vec![rng.nudged(scale, 1); 2];
    }
    p
}

/// Near fights and fights of tiny loads with bounds too far to be met: rays
/// but for a finite bound.
pub fn ray_bounded(rng: &mut Rng) -> Owned {
    let far = rng.pick(&[1e9, 1e7, 1e12, f64::MAX]);
    let mut p = if rng.chance(60) {
        sweep(rng)
    } else {
        let u = rng.decade(2.0) * 1e-300;
        let s = rng.pick(&[1e-300, 1e-299]);
        Owned {
            scale: vec![s; 2],
            ..Owned::of(&[1.0, -1.0, -1.0, 1.0], &[-u, -u])
        }
    };
    for i in 0..p.n() {
        if rng.chance(70) {
            if p.hi[i] == INF {
                p.hi[i] = far;
            } else if p.lo[i] == -INF {
                p.lo[i] = -far;
            }
        }
    }
    p
}

/// Fights of loads so small that the parts of the ray vanish, and entries at
/// the edge of being dropped.
pub fn ray_tiny(rng: &mut Rng) -> Owned {
    let u = rng.pick(&[1e-160, 1e-170, 1e-155, 1e-162, 1e-300, 1e-310, 5e-324]);
    let s = rng.pick(&[
        1e-170,
        1e-165,
        1e-300,
        1e-308,
        1.0,
        f64::MIN_POSITIVE,
        5e-324,
    ]);
    let mut p = Owned::of(
        &[1.0, -1.0, -1.0, 1.0],
        &[-u, -u * rng.pick(&[1.0, 1.0, 0.5])],
    );
    p.scale = vec![s; 2];
    if rng.chance(50) {
        let mut third = Owned::of(&[1.0], &[-u * rng.pick(&[0.0, 1e-9, 1.0])]);
        third.bounds(0, -INF, rng.pick(&[INF, u]));
        third.scale[0] = s;
        p = p.beside(&third);
    }
    p
}

/// Fights whose linear part overflows to NaN.
pub fn ray_nan(rng: &mut Rng) -> Owned {
    let w = rng.power_of_two(-510, -490);
    let u = rng.power_of_two(508, 520);
    let a = rng.pick(&[1.0, 2.0, 3.0, 5.0]);
    let b = rng.pick(&[1.0, -1.0, 0.5, 2.0]);
    let mut p = Owned::of(&[w, -w, -w, w], &[-a * u, b * u]);
    p.scale = vec![rng.pick(&[1e300, 1e302, 1e298, 1e290]); 2];
    if rng.chance(30) {
        p.bounds(0, -INF, INF);
    }
    p
}

/// Redundant rows whose loads miss agreeing by about 1e-9: the ray's parts
/// are rounding, and their order decides.
pub fn ray_rounding(rng: &mut Rng) -> Owned {
    let n = 3 + rng.below(18);
    let k = 1 + rng.below(n - 1);
    let mut p = gram(rng, n, k, |rng| rng.signed());
    let small = rng.magnitude(-9.5, -7.0);
    let loads: Vec<f64> = (0..n).map(|_| 0.5 + rng.unit()).collect();
    for i in 0..n {
        let carried: f64 = (0..n).map(|j| p.w[i * n + j] * loads[j]).sum();
        p.u_free[i] = small * rng.signed() - carried;
        if rng.chance(50) {
            p.lo[i] = -INF;
        }
    }
    p
}
