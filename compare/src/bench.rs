//! Times of the port and of the original on the same inputs in one process.
//!
//! The two take turns, round by round, and the medians are compared. Inputs
//! are copied before each round, outside the time. The original keeps its
//! workspace from call to call, as its callers do; the port is lent one.

use crate::bench_chain;
use crate::bench_exact;
use crate::bench_triangle;
use crate::calls::sqrt;
use crate::plot::{self, Series};
use crate::port;
use std::fs;
use std::path::Path;
use std::process::Command;

/// The sizes measured.
#[cfg(original)]
const SIZES: [usize; 6] = [1, 2, 4, 8, 16, 32];

/// Rounds of which the median is taken.
#[cfg(original)]
const ROUNDS: usize = 201;

/// One measured pair.
struct Line {
    what: &'static str,
    n: usize,
    port: f64,
    original: f64,
}

/// Measures what the static library has, prints the tables, and writes them
/// where asked.
pub fn run(write: bool) -> Result<(), String> {
    let mut text = String::new();
    let mut lines = least_norm();
    lines.extend(solves());
    if !lines.is_empty() {
        text.push_str(&table(&lines));
    }
    if let Some(call) = port::SQRT {
        let times = sqrt::times(call);
        text.push_str(&root_table(&times));
    }
    text.push_str(&bench_triangle::table());
    text.push_str(&bench_chain::table());
    text.push_str(&bench_exact::table());
    if text.is_empty() {
        return Err(String::from("nothing to measure: no static library"));
    }
    print!("{text}");
    if write {
        let docs = Path::new(env!("CARGO_MANIFEST_DIR")).join("../docs");
        fs::create_dir_all(&docs).map_err(|e| format!("{}: {e}", docs.display()))?;
        put(
            &docs.join("PERFORMANCE.md"),
            &page(&text, !lines.is_empty()),
        )?;
        if !lines.is_empty() {
            put(&docs.join("performance.svg"), &plot::svg(&series(&lines)))?;
        }
    }
    Ok(())
}

fn put(file: &Path, text: &str) -> Result<(), String> {
    fs::write(file, text).map_err(|e| format!("{}: {e}", file.display()))
}

fn table(lines: &[Line]) -> String {
    let mut text = String::from(
        "| call | n | port, ns | original, ns | port / original |\n|---|---|---|---|---|\n",
    );
    for line in lines {
        let ratio = line.port / line.original;
        text.push_str(&format!(
            "| {} | {} | {:.0} | {:.0} | {ratio:.2} |\n",
            line.what, line.n, line.port, line.original
        ));
    }
    text.push('\n');
    text
}

fn root_table(times: &sqrt::Times) -> String {
    format!(
        "| square root, on an array | ns | port / this |\n|---|---|---|\n\
         | port | {:.2} | |\n| hardware, called | {:.2} | {:.2} |\n| hardware, inlined | {:.2} | {:.2} |\n\n",
        times.port,
        times.hardware_called,
        times.port / times.hardware_called,
        times.hardware_inlined,
        times.port / times.hardware_inlined
    )
}

/// The page that holds the last tables.
fn page(tables: &str, plotted: bool) -> String {
    let plot = if plotted {
        "![Time against n](performance.svg)\n\n"
    } else {
        ""
    };
    format!(
        "# Performance\n\n\
         The port beside the original Rust, on the same inputs in one process. Made by\n\n    \
         tools/archive.sh\n    cargo run --release --offline -- bench --write\n\n\
         on {}, {}, the port as {} built it. The two take turns,\n\
         and the medians of the rounds are given. Inputs are copied before each round, outside the time. The original keeps its workspace from call to call; the port is lent one.\n\n\
         {tables}{plot}\
         The square root is taken over an array of 65,536 positive values of all exponents. Called: the hardware's\n\
         instruction behind a call, as the port is; inlined: in the loop, where the compiler may take several at once.\n\n\
         Chained bend files have 40 steps: the smallest of one value each, the largest of 3,233 each, 129,320 in all. To\n\
         read all of a file is one call for each step, and each call looks at all 40 trailers. The original has no files.\n\n\
         An exact row sum is a free motion and 32 products, from empty words. The time of a product is that of the row over\n\
         32; nearest is taken of the sums of 64 such rows. A join is of two halves of 16 products, 64 pairs in a round, and\n\
         every round has others, so that no carries are known from the last. The original has no exact sums.\n",
        processor(),
        env!("COMPARE_RUSTC"),
        kit()
    )
}

/// The name of the Rattle kit on the PATH, which is the one that built the archive.
fn kit() -> String {
    let said = Command::new("rt").arg("version").output().ok();
    let line = said.and_then(|said| String::from_utf8(said.stdout).ok());
    let name = line.and_then(|line| line.split_whitespace().next().map(str::to_string));
    name.unwrap_or_else(|| String::from("a kit not known"))
}

/// The processor's name.
fn processor() -> String {
    let info = fs::read_to_string("/proc/cpuinfo").unwrap_or_default();
    let line = info.lines().find(|line| line.starts_with("model name"));
    let name = line.and_then(|line| line.split(':').nth(1));
    name.map_or_else(
        || String::from("a processor not known"),
        |name| name.trim().to_string(),
    )
}

/// The lines as curves: each call's port and original.
fn series(lines: &[Line]) -> Vec<Series> {
    let mut names: Vec<&'static str> = lines.iter().map(|line| line.what).collect();
    names.dedup();
    let mut all = Vec::new();
    for name in names {
        let of = |time: fn(&Line) -> f64| {
            lines
                .iter()
                .filter(|l| l.what == name)
                .map(|l| (l.n, time(l)))
                .collect()
        };
        all.push(Series {
            name: format!("{name}, port"),
            dashed: false,
            points: of(|l| l.port),
        });
        all.push(Series {
            name: format!("{name}, original"),
            dashed: true,
            points: of(|l| l.original),
        });
    }
    all
}

#[cfg(not(original))]
fn least_norm() -> Vec<Line> {
    Vec::new()
}

/// Least norm, full rank and rank-deficient.
#[cfg(original)]
fn least_norm() -> Vec<Line> {
    let Some(call) = port::LEAST_NORM else {
        return Vec::new();
    };
    let kinds = [
        ("least norm, full rank", false),
        ("least norm, half the rank", true),
    ];
    let mut lines = Vec::new();
    for (what, deficient) in kinds {
        for n in SIZES {
            if deficient && n == 1 {
                continue;
            }
            let (port, original) = timed::systems(call, n, if deficient { n / 2 } else { n });
            lines.push(Line {
                what,
                n,
                port,
                original,
            });
        }
    }
    lines
}

#[cfg(not(original))]
fn solves() -> Vec<Line> {
    Vec::new()
}

/// Whole solves: typical ones, and slow ones of four sweeps or more.
#[cfg(original)]
fn solves() -> Vec<Line> {
    let Some(call) = port::SOLVE else {
        return Vec::new();
    };
    let mut lines = Vec::new();
    for (what, slow) in [("solve, typical", false), ("solve, slow", true)] {
        for n in SIZES {
            let batch = solved::batch(n, slow);
            if batch.is_empty() {
                continue;
            }
            let rounds = if slow { ROUNDS / 10 } else { ROUNDS };
            let (port, original) = solved::problems(call, &batch, rounds);
            lines.push(Line {
                what,
                n,
                port,
                original,
            });
        }
    }
    let (port, original) = solved::problems(call, &[solved::worst()], ROUNDS / 10);
    lines.push(Line {
        what: "solve, worst known",
        n: 32,
        port,
        original,
    });
    lines
}

#[cfg(original)]
mod solved {
    use super::timed::median;
    use crate::cases::problem::{boxes, gram, Owned};
    use crate::cases::random::Rng;
    use crate::original::boxed::{BoxOutcome, BoxProblem, BoxSolver};
    use crate::port::{Lent, Solve};
    use std::hint::black_box;
    use std::time::Instant;

    fn borrowed(p: &Owned) -> BoxProblem<'_> {
        BoxProblem {
            w: &p.w,
            u_free: &p.u_free,
            lo: &p.lo,
            hi: &p.hi,
            scale: &p.scale,
            motion: &p.motion,
            motion_tolerance: p.tolerance,
        }
    }

    /// A Gram matrix with contact and friction boxes; for slow ones a
    /// symmetric matrix that is far from definite.
    fn problem(rng: &mut Rng, n: usize, slow: bool) -> Owned {
        let mut p = gram(rng, n, n + 2, Rng::signed);
        boxes(rng, &mut p, 30);
        p.u_free = (0..n).map(|_| 2.0 * rng.signed()).collect();
        p.motion.truncate(2 * n);
        p.tolerance = 1e-12;
        if slow {
            for i in 0..n {
                for j in 0..i {
                    let v = 2.0 * rng.signed();
                    p.w[i * n + j] = v;
                    p.w[j * n + i] = v;
                }
                p.w[i * n + i] = 1.0;
                p.lo[i] = -1.0;
                p.hi[i] = 1.0;
            }
        }
        p
    }

    /// The outcome's sweeps.
    fn sweeps(p: &Owned) -> u32 {
        let mut nu = p.nu.clone();
        match BoxSolver::new().solve(&borrowed(p), &mut nu) {
            BoxOutcome::Solved(report) | BoxOutcome::Infeasible { report, .. } => report.sweeps,
        }
    }

    /// Problems of one size: those with at least four sweeps if slow ones are
    /// wanted, none where they cannot be found.
    pub fn batch(n: usize, slow: bool) -> Vec<Owned> {
        let mut rng = Rng::of_case("bench/solve", n as u64, u64::from(slow));
        let count = if slow {
            8
        } else {
            (2_048 / (n * n)).clamp(16, 128)
        };
        (0..20_000)
            .map(|_| problem(&mut rng, n, slow))
            .filter(|p| !slow || sweeps(p) >= 4)
            .take(count)
            .collect()
    }

    /// Three rows with large entries off the diagonal.
    fn knot(rng: &mut Rng) -> Owned {
        let mut p = Owned::plain(3);
        p.w.iter_mut().for_each(|w| *w = rng.lattice(-4, 4));
        for i in 0..3 {
            p.set(i, i, 1.0);
            p.u_free[i] = rng.lattice(-2, 2);
            if rng.chance(50) {
                p.bounds(i, -1.0, 1.0);
            }
        }
        p.tolerance = f64::NAN;
        p
    }

    /// The worst kind known: a pass frees a row that is blocked at once, over
    /// and over, while 29 other rows are free, and no sweep ends it. Of 1,000
    /// such problems, the one that takes the original longest.
    pub fn worst() -> Owned {
        let mut rng = Rng::of_case("bench/solve", 32, 2);
        let mut solver = BoxSolver::new();
        let mut free = gram(&mut rng, 29, 58, Rng::signed);
        for i in 0..29 {
            free.bounds(i, f64::NEG_INFINITY, f64::INFINITY);
            free.u_free[i] = rng.signed();
        }
        let mut longest = 0.0;
        let mut found = None;
        for _ in 0..1_000 {
            let knot = knot(&mut rng);
            if sweeps(&knot) < 200 {
                continue;
            }
            let p = knot.beside(&free);
            let t = time(std::slice::from_ref(&p), |p, nu| {
                black_box(solver.solve(&borrowed(p), nu));
            });
            if t > longest && sweeps(&p) == 200 {
                longest = t;
                found = Some(p);
            }
        }
        found.expect("one of them takes all sweeps")
    }

    /// Nanoseconds for each problem of a batch, from fresh multipliers.
    fn time(batch: &[Owned], mut call: impl FnMut(&Owned, &mut [f64])) -> f64 {
        let mut starts: Vec<Vec<f64>> = batch.iter().map(|p| p.nu.clone()).collect();
        let start = Instant::now();
        for (p, nu) in batch.iter().zip(&mut starts) {
            call(p, nu);
        }
        let time = start.elapsed().as_nanos() as f64 / batch.len() as f64;
        black_box(&starts);
        time
    }

    /// The median times of port and original.
    pub fn problems(call: Solve, batch: &[Owned], rounds: usize) -> (f64, f64) {
        let mut workspace = vec![0.0; 2_304];
        let (mut states, mut rows) = ([0; 32], [0; 32]);
        let (mut counts, mut residual) = ([0; 8], [0.0]);
        let mut solver = BoxSolver::new();
        let (mut port, mut original) = (Vec::new(), Vec::new());
        for _ in 0..rounds {
            port.push(time(batch, |p, nu| {
                // a refusal would be timed as a quick solve
                let number = call(Lent {
                    w: &p.w,
                    u_free: &p.u_free,
                    lo: &p.lo,
                    hi: &p.hi,
                    scale: &p.scale,
                    motion: &p.motion,
                    tolerance: p.tolerance,
                    nu,
                    states: &mut states,
                    rows: &mut rows,
                    workspace: &mut workspace,
                    counts: &mut counts,
                    residual: &mut residual,
                });
                assert_eq!(black_box(number), 0);
            }));
            original.push(time(batch, |p, nu| {
                black_box(solver.solve(&borrowed(p), nu));
            }));
        }
        (median(port), median(original))
    }
}

#[cfg(original)]
mod timed {
    use super::ROUNDS;
    use crate::cases::random::Rng;
    use crate::original::dense;
    use crate::port::LeastNorm;
    use std::hint::black_box;
    use std::time::Instant;

    /// Square systems of one size, one after another.
    #[derive(Clone)]
    struct Batch {
        n: usize,
        count: usize,
        a: Vec<f64>,
        b: Vec<f64>,
        x: Vec<f64>,
    }

    impl Batch {
        /// Products of an n by rank and a rank by n factor.
        fn new(n: usize, rank: usize) -> Self {
            let count = (4_096 / (n * n)).clamp(8, 256);
            let mut rng = Rng::of_case("bench/least_norm", n as u64, rank as u64);
            let mut a = Vec::with_capacity(count * n * n);
            for _ in 0..count {
                let left: Vec<f64> = (0..n * rank).map(|_| rng.signed()).collect();
                let right: Vec<f64> = (0..rank * n).map(|_| rng.signed()).collect();
                for i in 0..n {
                    for j in 0..n {
                        a.push(
                            (0..rank)
                                .map(|k| left[i * rank + k] * right[k * n + j])
                                .sum(),
                        );
                    }
                }
            }
            let b = (0..count * n).map(|_| rng.signed()).collect();
            Batch {
                n,
                count,
                a,
                b,
                x: vec![0.0; count * n],
            }
        }

        /// Nanoseconds for each system of a fresh copy of the batch.
        fn time(&self, mut call: impl FnMut(&mut [f64], &mut [f64], &mut [f64])) -> f64 {
            let mut batch = self.clone();
            let n = self.n;
            let start = Instant::now();
            for k in 0..self.count {
                let a = &mut batch.a[k * n * n..(k + 1) * n * n];
                let (b, x) = (
                    &mut batch.b[k * n..(k + 1) * n],
                    &mut batch.x[k * n..(k + 1) * n],
                );
                call(a, b, x);
            }
            let time = start.elapsed().as_nanos() as f64 / self.count as f64;
            black_box(&batch.x);
            time
        }
    }

    /// The median times of port and original on systems of one size and rank.
    pub fn systems(call: LeastNorm, n: usize, rank: usize) -> (f64, f64) {
        let batch = Batch::new(n, rank);
        let mut workspace = vec![0.0; 1_056];
        let mut found = [0];
        let mut solver = dense::LeastNorm::new();
        let (mut port, mut original) = (Vec::new(), Vec::new());
        for _ in 0..ROUNDS {
            port.push(batch.time(|a, b, x| {
                black_box(call(a, n, n, b, x, &mut workspace, &mut found));
            }));
            original.push(batch.time(|a, b, x| {
                black_box(solver.solve(a, n, n, b, x));
            }));
        }
        (median(port), median(original))
    }

    pub fn median(mut times: Vec<f64>) -> f64 {
        times.sort_by(f64::total_cmp);
        times[times.len() / 2]
    }
}
