//! Times of the solve of a triangle beside the full solve of the same problems.

use std::fmt::Write;
use std::hint::black_box;
use std::time::Instant;

use crate::cases::problem::{boxes, gram, Owned};
use crate::cases::random::Rng;
use crate::port::{self, Lent, Solve};

const SIZES: [usize; 6] = [1, 2, 4, 8, 16, 32];
const ROUNDS: usize = 301;

/// A typical problem, and its lower triangle by rows.
struct Both {
    full: Owned,
    lower: Owned,
}

fn both(rng: &mut Rng, n: usize) -> Both {
    let mut full = gram(rng, n, n + 2, Rng::signed);
    boxes(rng, &mut full, 30);
    full.u_free = (0..n).map(|_| 2.0 * rng.signed()).collect();
    full.motion.truncate(2 * n);
    full.tolerance = 1e-12;
    let mut lower = full.clone();
    lower.w = (0..n)
        .flat_map(|i| full.w[i * n..i * n + i + 1].to_vec())
        .collect();
    Both { full, lower }
}

/// Nanoseconds for each problem, from fresh multipliers.
fn time<'a>(problems: impl ExactSizeIterator<Item = &'a Owned>, call: Solve) -> f64 {
    let mut workspace = vec![0.0; 2_304];
    let (mut states, mut rows) = ([0; 32], [0; 32]);
    let (mut counts, mut residual) = ([0; 8], [0.0]);
    let mut made: Vec<(&Owned, Vec<f64>)> = problems.map(|p| (p, p.nu.clone())).collect();
    let start = Instant::now();
    for (p, nu) in &mut made {
        black_box(call(Lent {
            w: &p.w,
            u_free: &p.u_free,
            lo: &p.lo,
            hi: &p.hi,
            scale: &p.scale,
            motion: &p.motion,
            tolerance: p.tolerance,
            nu,
            states: &mut states,
            rows: &mut rows,
            workspace: &mut workspace,
            counts: &mut counts,
            residual: &mut residual,
        }));
    }
    start.elapsed().as_nanos() as f64 / made.len() as f64
}

fn median(mut times: Vec<f64>) -> f64 {
    times.sort_by(f64::total_cmp);
    times[times.len() / 2]
}

/// The table; nothing where the static library lacks one of the two calls.
pub fn table() -> String {
    let (Some(full), Some(lower)) = (port::SOLVE, port::TRIANGLE) else {
        return String::new();
    };
    let mut text = String::from(
        "| triangle solve, typical | n | full, ns | triangle, ns | more, ns | triangle / full |\n|---|---|---|---|---|---|\n",
    );
    for n in SIZES {
        let mut rng = Rng::of_case("bench/triangle", n as u64, 0);
        let count = (2_048 / (n * n)).clamp(16, 128);
        let batch: Vec<Both> = (0..count).map(|_| both(&mut rng, n)).collect();
        let (mut fulls, mut lowers) = (Vec::new(), Vec::new());
        for _ in 0..ROUNDS {
            fulls.push(time(batch.iter().map(|b| &b.full), full));
            lowers.push(time(batch.iter().map(|b| &b.lower), lower));
        }
        let (f, l) = (median(fulls), median(lowers));
        let _ = writeln!(
            text,
            "| mirrored | {n} | {f:.0} | {l:.0} | {:.0} | {:.2} |",
            l - f,
            l / f
        );
    }
    text.push('\n');
    text
}
