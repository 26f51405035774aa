//! Problems that are decided at a chosen sweep, up to the last.

use super::problem::Owned;
use super::random::Rng;
use super::rays::{near_fight, ray_at_edge, ray_at_million, settling};

const INF: f64 = f64::INFINITY;

/// Two rows that settle slowly, at `rate` squared a sweep, unbounded.
struct Slow {
    rate: f64,
    u: [f64; 2],
}

impl Slow {
    fn problem(&self) -> Owned {
        let mut p = Owned::of(&[1.0, self.rate, self.rate, 1.0], &self.u);
        p.lo = vec![-INF; 2];
        p
    }

    /// The multipliers after so many sweeps from 0, and how far the last sweep
    /// moved the first of them.
    fn after(&self, sweeps: u32) -> ([f64; 2], f64) {
        let (mut nu, mut moved) = ([0.0; 2], 0.0);
        for _ in 0..sweeps {
            let before = nu;
            nu[0] -= self.u[0] + nu[0] + self.rate * nu[1];
            nu[1] -= self.u[1] + self.rate * nu[0] + nu[1];
            moved = nu[0] - before[0];
        }
        (nu, moved)
    }
}

/// A sweep from 1 to 200, the last two often.
fn some_sweep(rng: &mut Rng) -> u32 {
    let any = rng.between(1, 200) as u32;
    rng.pick(&[any, any, 199, 200, 200])
}

/// A near fight beside rows that settle slowly, the motion test looking at
/// those and met at a chosen sweep: growth or a ray at any sweep up to 200, or
/// neither.
pub fn slow(rng: &mut Rng) -> Owned {
    let at = rng.between(1, 240) as f64;
    let slow = Slow {
        rate: rng.pick(&[0.3, 0.8, 0.9, 0.95, 0.98, 0.99]),
        u: [rng.signed(), rng.signed()],
    };
    let mut p = near_fight(1e-8, 1e6 / (2.0 * at)).beside(&slow.problem());
    p.motion = vec![0.0, 0.0, 1.0, 0.0];
    let met = slow.after(some_sweep(rng)).1.abs();
    p.tolerance = rng.pick(&[met, met, met, 0.0, f64::NAN, 1e-6, 1e-12]);
    if rng.chance(20) {
        p.bounds(0, 0.0, rng.pick(&[1e5, 1e6, 1e3]));
    }
    p
}

/// A row whose scaled square overflows, so that every pass fails, while the
/// first sweep settles it: beside it the sweeps decide alone.
fn overflowing() -> Owned {
    Owned {
        scale: vec![1e303],
        nu: vec![1e308],
        ..Owned::of(&[1.0], &[-1e308])
    }
}

/// Problems that no pass solves: ends by motion and residual tests met at a
/// chosen sweep, some of them exactly, and rays at a million.
pub fn sweeps_alone(rng: &mut Rng) -> Owned {
    let slow = Slow {
        rate: rng.pick(&[0.5, 0.8, 0.9, 0.93]),
        u: [rng.signed(), rng.signed()],
    };
    let mut p = slow.problem();
    match rng.below(5) {
        0 => {
            p.motion = vec![1.0, 0.0];
            p.tolerance = slow.after(some_sweep(rng)).1.abs();
        }
        1 => {
            let (nu, _) = slow.after(rng.between(1, 90) as u32);
            let u = slow.u[0] + nu[0] + slow.rate * nu[1];
            let left = (nu[0] - (nu[0] - u)).abs();
            let scale = rng.nudged(left / 1e-9, 2);
            if scale > 1e-6 && scale.is_finite() {
                p.scale[0] = scale;
            }
        }
        2 => p = ray_at_million(rng),
        3 => p = ray_at_edge(rng),
        _ => {
            p = settling(rng).beside(&near_fight(1e-8, 1.0));
            p.bounds(2, 0.0, rng.pick(&[10.0, 100.0, 300.0]));
            p.bounds(3, 0.0, rng.pick(&[10.0, 100.0, 300.0, INF]));
        }
    }
    p.beside(&overflowing())
}

/// A fight of small loads beside a near fight pressed downward, which keeps the
/// pass from a ray until its rows have come down to their bounds at a chosen
/// sweep.
pub fn late_ray(rng: &mut Rng) -> Owned {
    let press = 0.5 + rng.unit();
    let mut down = near_fight(1e-8 * (0.3 + rng.unit()), -press);
    let start = 2.0 * press * f64::from(some_sweep(rng));
    down.nu = vec![start; 2];
    let small = 1e-6 * (0.5 + rng.unit());
    let fight = Owned::of(&[1.0, -1.0, -1.0, 1.0], &[-small, -small]);
    let mut p = down.beside(&fight);
    p.tolerance = rng.pick(&[f64::NAN, -1.0]);
    p
}
