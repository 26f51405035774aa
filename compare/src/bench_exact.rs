//! Times of row sums without rounding: a product in a row of 32, the nearest
//! f64, and a join of two halves.

use crate::cases::random::Rng;
use crate::port::{self, Exact, ExactJoin, ExactNearest};
use crate::reference::exact::{row, WORDS};
use crate::reference::Rule;
use std::hint::black_box;
use std::time::Instant;

/// Rounds of which the median is taken.
const ROUNDS: usize = 201;

/// The rows of a round, and the products of each.
const ROWS: usize = 64;
const PRODUCTS: usize = 32;

/// Rows of values about 1, or of all exponents.
struct Batch {
    u: Vec<f64>,
    w: Vec<f64>,
    nu: Vec<f64>,
}

/// A finite value of any exponent.
fn any(rng: &mut Rng) -> f64 {
    let v = f64::from_bits(rng.next());
    if v.is_finite() {
        v
    } else {
        1.0
    }
}

type Make = fn(&mut Rng) -> f64;

impl Batch {
    fn of(make: Make, index: u64) -> Self {
        let mut rng = Rng::of_case("bench/exact", 1, index);
        let mut values = |count: usize| (0..count).map(|_| make(&mut rng)).collect();
        Batch {
            u: values(ROWS),
            w: values(ROWS * PRODUCTS),
            nu: values(ROWS * PRODUCTS),
        }
    }

    /// Adds every row, and hands on its words.
    fn each(&self, calls: &Exact, mut then: impl FnMut(&[u64; WORDS])) {
        let (mut words, mut counts) = ([0; WORDS], [0; 2]);
        let rows = self.w.chunks(PRODUCTS).zip(self.nu.chunks(PRODUCTS));
        for (&u, (w, nu)) in self.u.iter().zip(rows) {
            let number = (calls.row)(black_box(u), w, nu, &mut words, &mut counts);
            assert_eq!(number, 0);
            then(&words);
        }
    }
}

/// The median of nanoseconds for each of `parts` parts of a round.
fn median(parts: usize, mut round: impl FnMut()) -> f64 {
    median_on(parts, || (), |()| round())
}

/// The same of rounds that each use what is made before, outside the time.
fn median_on<T>(parts: usize, mut made: impl FnMut() -> T, mut round: impl FnMut(T)) -> f64 {
    let mut times: Vec<f64> = (0..ROUNDS)
        .map(|_| {
            let ready = made();
            let start = Instant::now();
            round(ready);
            start.elapsed().as_nanos() as f64 / parts as f64
        })
        .collect();
    times.sort_by(f64::total_cmp);
    times[times.len() / 2]
}

/// A product in a row of 32.
fn product(calls: &Exact, batch: &Batch) -> f64 {
    median(ROWS * PRODUCTS, || {
        batch.each(calls, |words| {
            black_box(words);
        });
    })
}

/// The words of the batch's sums of so many products.
fn sums(batch: &Batch, products: usize) -> Vec<Vec<u64>> {
    let rows = batch.w.chunks(products).zip(batch.nu.chunks(products));
    rows.zip(batch.u.iter().cycle())
        .map(|((w, nu), &u)| row(u, w, nu, Rule::None).expect("finite values").words)
        .collect()
}

/// A join of two halves, each with the words of a row of 16 products. Every
/// round has other ones, so that no round can know the carries of the last.
fn join(call: ExactJoin, make: Make) -> f64 {
    let other_counts = [PRODUCTS as u32 / 2, 0];
    let mut index = 0;
    let halves = || {
        index += 1;
        sums(&Batch::of(make, index), PRODUCTS / 2)
    };
    median_on(ROWS, halves, |mut halves| {
        for pair in halves.chunks_exact_mut(2) {
            let (first, other) = pair.split_at_mut(1);
            let mut counts = [PRODUCTS as u32 / 2, 1];
            let number = call(&mut first[0], &mut counts, &other[0], &other_counts);
            assert_eq!(number, 0);
        }
        black_box(&halves);
    })
}

/// The nearest f64 of the rows' sums.
fn nearest(call: ExactNearest, batch: &Batch) -> f64 {
    let sums = sums(batch, PRODUCTS);
    let mut result = [0.0];
    median(ROWS, || {
        for words in black_box(&sums) {
            assert_eq!(call(words, &mut result), 0);
            black_box(&result);
        }
    })
}

/// The table of what the static library has; empty where it has none of it.
pub fn table() -> String {
    let kinds: [(&str, Make); 3] = [
        ("above 0, about 1", |rng| 0.5 + rng.unit()),
        ("either sign, about 1", Rng::signed),
        ("either sign, all exponents", any),
    ];
    if port::EXACT.is_none() && port::EXACT_NEAREST.is_none() {
        return String::new();
    }
    let mut text = String::from(
        "| exact row sum, 32 products | a product in the row, ns | nearest, ns | a join of two halves, ns |\n|---|---|---|---|\n",
    );
    for (what, make) in kinds {
        let batch = Batch::of(make, 0);
        let shown = |time: Option<f64>| time.map_or(String::new(), |time| format!("{time:.1}"));
        let product = shown(port::EXACT.map(|calls| product(&calls, &batch)));
        let nearest = shown(port::EXACT_NEAREST.map(|call| nearest(call, &batch)));
        let join = shown(port::EXACT_JOIN.map(|call| join(call, make)));
        text.push_str(&format!("| {what} | {product} | {nearest} | {join} |\n"));
    }
    text.push('\n');
    text
}
