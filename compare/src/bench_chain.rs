//! Times of chained bend files: where 40 steps are, and the largest file read
//! and written.

use crate::cases::random::Rng;
use crate::port::{self, Chain, ChainWrite, StepLent};
use crate::reference::chain::MOST;
use crate::reference::chain_writer::{write, Pull};
use crate::reference::Rule;
use std::hint::black_box;
use std::time::Instant;

/// Rounds of which the median is taken.
const ROUNDS: usize = 101;

/// A pull of 40 steps of one shape, and its file.
struct Steps {
    rows: Vec<usize>,
    coords: Vec<usize>,
    counts: Vec<usize>,
    values: Vec<f64>,
    file: Vec<u8>,
}

impl Steps {
    fn of(rows: usize, coords: usize) -> Self {
        let count = rows * rows + 5 * rows + coords * rows + 1;
        let mut rng = Rng::of_case("bench/chain", rows as u64, coords as u64);
        let (rows, coords) = (vec![rows; MOST], vec![coords; MOST]);
        let counts = vec![count; MOST];
        let values: Vec<f64> = (0..MOST * count).map(|_| rng.signed()).collect();
        let mut file = vec![0; MOST * (20 + 8 * count)];
        let pull = Pull {
            rows: &rows,
            coords: &coords,
            counts: &counts,
            values: &values,
        };
        write(&pull, &mut file, Rule::None).expect("40 right steps");
        Steps {
            rows,
            coords,
            counts,
            values,
            file,
        }
    }
}

/// The median of microseconds for each of `times` calls in a round.
fn median(times: usize, mut call: impl FnMut()) -> f64 {
    let mut rounds: Vec<f64> = (0..ROUNDS)
        .map(|_| {
            let start = Instant::now();
            (0..times).for_each(|_| call());
            1e6 * start.elapsed().as_secs_f64() / times as f64
        })
        .collect();
    rounds.sort_by(f64::total_cmp);
    rounds[rounds.len() / 2]
}

/// Where the steps are.
fn located(chain: &Chain, steps: &Steps) -> f64 {
    let (mut count, mut ends) = ([0], [0; MOST]);
    assert_eq!((chain.steps)(&steps.file, &mut count, &mut ends), 0);
    median(200, || {
        black_box((chain.steps)(black_box(&steps.file), &mut count, &mut ends));
    })
}

/// Every step read, one call each.
fn read(chain: &Chain, steps: &Steps) -> f64 {
    let (mut w, mut motion) = (vec![0.0; 1_024], vec![0.0; 2_048]);
    let mut columns = [[0.0; 32]; 5];
    let (mut shape, mut tolerance) = ([0; 2], [0.0]);
    median(1, || {
        for step in 0..MOST {
            let [u_free, lo, hi, scale, nu] = &mut columns;
            let lent = StepLent {
                w: &mut w,
                u_free,
                lo,
                hi,
                scale,
                nu,
                motion: &mut motion,
                shape: &mut shape,
                tolerance: &mut tolerance,
            };
            assert_eq!((chain.step)(black_box(&steps.file), step, lent), 0);
        }
    })
}

/// The whole file written.
fn written(call: ChainWrite, steps: &Steps) -> f64 {
    let (mut out, mut written) = (vec![0; steps.file.len()], [0]);
    median(1, || {
        let number = call(
            black_box(&steps.rows),
            &steps.coords,
            &steps.counts,
            &steps.values,
            &mut out,
            &mut written,
        );
        assert_eq!(number, 0);
    })
}

/// The table of what the static library has; empty where it has none of it.
pub fn table() -> String {
    let (small, large) = (Steps::of(0, 0), Steps::of(32, 64));
    let mut lines = Vec::new();
    if let Some(chain) = &port::CHAIN {
        lines.push((
            "where the steps are, the smallest",
            &small,
            located(chain, &small),
        ));
        lines.push((
            "where the steps are, the largest",
            &large,
            located(chain, &large),
        ));
        lines.push(("all steps read, the largest", &large, read(chain, &large)));
    }
    if let Some(call) = port::CHAIN_WRITE {
        lines.push(("written, the largest", &large, written(call, &large)));
    }
    if lines.is_empty() {
        return String::new();
    }
    let mut text = String::from("| chained bend file | bytes | port, µs |\n|---|---|---|\n");
    for (what, steps, time) in lines {
        text.push_str(&format!("| {what} | {} | {time:.2} |\n", steps.file.len()));
    }
    text.push('\n');
    text
}
