//! The square root against the hardware's, which IEEE 754 rounds correctly.

use super::{same, Zeros};
use crate::cases::random::Rng;
use crate::cases::roots::pattern;
use crate::port::Sqrt;
use crate::run::THREADS;
use std::hint::black_box;
use std::thread;
use std::time::Instant;

const FAMILY: &str = "sqrt/patterns";

/// Compares `count` patterns; the number that differ and the first of them.
pub fn compare(call: Sqrt, seed: u64, count: u64) -> (u64, Option<u64>) {
    thread::scope(|scope| {
        let parts: Vec<_> = (0..THREADS)
            .map(|part| scope.spawn(move || compare_part(call, seed, part, count / THREADS + 1)))
            .collect();
        parts
            .into_iter()
            .fold((0, None), |(differing, first), part| match part.join() {
                Ok((more, other)) => (differing + more, first.or(other)),
                Err(_) => (differing + 1, first),
            })
    })
}

fn compare_part(call: Sqrt, seed: u64, part: u64, count: u64) -> (u64, Option<u64>) {
    let mut rng = Rng::of_case(FAMILY, seed, part);
    let (mut differing, mut first) = (0, None);
    for _ in 0..count {
        let bits = pattern(&mut rng);
        let v = f64::from_bits(bits);
        if !same(v.sqrt(), call(v), Zeros::WithSign) {
            differing += 1;
            first = first.or(Some(bits));
        }
    }
    (differing, first)
}

/// The hardware's square root behind a call, as the port's is.
#[inline(never)]
extern "C" fn hardware(v: f64) -> f64 {
    v.sqrt()
}

/// Nanoseconds for each root, medians over interleaved rounds on one array of
/// positive finite values.
pub struct Times {
    pub port: f64,
    pub hardware_called: f64,
    pub hardware_inlined: f64,
}

/// Values of all exponents, all positive and finite; so many that no branch
/// predictor learns them over the rounds.
fn values() -> Vec<f64> {
    let mut rng = Rng::of_case(FAMILY, 99, 0);
    let mut values = Vec::new();
    while values.len() < 65_536 {
        let v = f64::from_bits(rng.next() >> 1);
        if v.is_finite() && v > 0.0 {
            values.push(v);
        }
    }
    values
}

/// Measures the port and the hardware on the same array.
pub fn times(call: Sqrt) -> Times {
    let values = values();
    let mut roots = vec![0.0; values.len()];
    let mut samples: [Vec<f64>; 3] = Default::default();
    let called: Sqrt = |v| hardware(v);
    for _ in 0..101 {
        samples[0].push(pass(&values, &mut roots, black_box(call)));
        samples[1].push(pass(&values, &mut roots, black_box(called)));
        samples[2].push(pass(&values, &mut roots, f64::sqrt));
    }
    let [port, called, inlined] = samples.map(|mut times| {
        times.sort_by(f64::total_cmp);
        times[times.len() / 2]
    });
    Times {
        port,
        hardware_called: called,
        hardware_inlined: inlined,
    }
}

/// Nanoseconds for each root over one pass of the array.
#[inline(always)]
fn pass(values: &[f64], roots: &mut [f64], root: impl Fn(f64) -> f64) -> f64 {
    let start = Instant::now();
    for (place, &v) in roots.iter_mut().zip(black_box(values)) {
        *place = root(v);
    }
    black_box(&*roots);
    start.elapsed().as_nanos() as f64 / values.len() as f64
}
