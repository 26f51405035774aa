//! Calls on accumulators: terms one by one, and whole rows.

use super::exact_examples::examples;
use super::random::Rng;
use super::sums::{self, Sum};
use crate::reference::exact::{row as row_sum, Term, WORDS};
use crate::reference::Rule;

/// Terms added one by one to a lent accumulator.
#[derive(Clone, Debug)]
pub struct Terms {
    pub words: Vec<u64>,
    /// How many products there are, and whether there is a free motion: any
    /// other number than 0 says so.
    pub counts: Vec<u32>,
    pub terms: Vec<Term>,
    /// The places lent for the sign.
    pub sign_len: usize,
    /// The worked example's number, where it is one.
    pub example: Option<usize>,
}

/// A row added at once.
#[derive(Clone, Debug)]
pub struct Row {
    pub u: f64,
    pub w: Vec<f64>,
    pub nu: Vec<f64>,
    pub words_len: usize,
    pub counts_len: usize,
}

/// Words of which the nearest f64 is wanted.
#[derive(Clone, Debug)]
pub struct Words {
    pub words: Vec<u64>,
    pub result_len: usize,
}

/// The sums by their names as terms and as rows.
const SUMS: &[(&str, &str, sums::Make)] = &[
    ("exact/any", "row/any", sums::any),
    ("exact/ordinary", "row/ordinary", sums::ordinary),
    ("exact/cancelling", "row/cancelling", sums::cancelling),
    ("exact/ties", "row/ties", sums::ties),
    ("exact/subnormal", "row/subnormal", sums::subnormal),
    ("exact/overflow", "row/overflow", sums::overflow),
    ("exact/carries", "row/carries", sums::carries),
];

type MakeTerms = fn(&mut Rng) -> Terms;

const TERMS: &[(&str, MakeTerms)] = &[
    ("exact/examples", example),
    ("exact/refused", refused),
    ("exact/states", states),
    ("exact/lengths", lengths),
];

type MakeRow = fn(&mut Rng) -> Row;

const ROWS: &[(&str, MakeRow)] = &[("row/refused", row_refused), ("row/lengths", row_lengths)];

type MakeWords = fn(&mut Rng) -> Words;

/// The families of words by name.
pub const WORDS_FAMILIES: &[(&str, MakeWords)] = &[
    ("nearest/examples", words_of_example),
    ("nearest/sums", words_of_sum),
    ("nearest/states", |rng| Words::of(words(rng))),
    ("nearest/lengths", words_of_lengths),
];

pub fn term_families() -> Vec<&'static str> {
    let sums = SUMS.iter().map(|&(name, _, _)| name);
    sums.chain(TERMS.iter().map(|&(name, _)| name)).collect()
}

pub fn row_families() -> Vec<&'static str> {
    let sums = SUMS.iter().map(|&(_, name, _)| name);
    sums.chain(ROWS.iter().map(|&(name, _)| name)).collect()
}

pub fn terms(family: &str, rng: &mut Rng) -> Option<Terms> {
    if let Some(&(_, make)) = TERMS.iter().find(|&&(name, _)| name == family) {
        return Some(make(rng));
    }
    let &(_, _, make) = SUMS.iter().find(|&&(name, _, _)| name == family)?;
    let sum = make(rng);
    Some(Terms::of(rng, &sum))
}

pub fn row(family: &str, rng: &mut Rng) -> Option<Row> {
    if let Some(&(_, make)) = ROWS.iter().find(|&&(name, _)| name == family) {
        return Some(make(rng));
    }
    let &(_, _, make) = SUMS.iter().find(|&&(_, name, _)| name == family)?;
    let sum = make(rng);
    Some(Row::of(rng, sum))
}

impl Terms {
    /// The terms of a sum in the row's order, or with the free motion
    /// anywhere, on an empty accumulator.
    fn of(rng: &mut Rng, sum: &Sum) -> Self {
        let products = sum.products.iter().map(|&(w, nu)| Term::Product(w, nu));
        let mut terms: Vec<Term> = products.collect();
        if rng.chance(90) {
            let place = rng.below(terms.len() + 1).min(rng.pick(&[0, 40]));
            terms.insert(place, Term::Free(sum.u));
        }
        Terms {
            words: vec![0; WORDS],
            counts: vec![0; 2],
            terms,
            sign_len: 1,
            example: None,
        }
    }
}

fn example(rng: &mut Rng) -> Terms {
    let sums = &examples().sums;
    let example = &sums[rng.below(sums.len())];
    let mut case = Terms::of(rng, &Sum::default());
    case.terms = example.terms.clone();
    case.example = Some(example.number);
    case
}

/// A value that 17 refuses.
fn not_finite(rng: &mut Rng) -> f64 {
    let payload = 0x7FF0_0000_0000_0000 | rng.next() >> 12;
    rng.pick(&[
        f64::NAN,
        f64::INFINITY,
        f64::NEG_INFINITY,
        f64::from_bits(payload),
        f64::from_bits(payload | 1 << 63),
    ])
}

/// Terms among which some get 17 or 18.
pub(super) fn refused(rng: &mut Rng) -> Terms {
    let mut sum = sums::ordinary(rng);
    if rng.chance(50) {
        let zero = rng.pick(&[0.0, -0.0]);
        let filler = rng.pick(&[(1.0, 1.0), (zero, 3.0), (2.0, -0.5)]);
        let count = rng.pick(&[30, 31, 32, 33]);
        sum.products.resize(count, filler);
    }
    if rng.chance(30) {
        sum.u = rng.pick(&[0.0, -0.0]);
    }
    let mut case = Terms::of(rng, &sum);
    for _ in 0..1 + rng.below(4) {
        let value = rng.pick(&[0.0, -0.0, 1.0, -2.5]);
        let bad = not_finite(rng);
        let term = match rng.below(6) {
            0 => Term::Free(value),
            1 => Term::Free(bad),
            2 => Term::Product(bad, value),
            3 => Term::Product(value, bad),
            4 => Term::Product(value, 1.0),
            _ => Term::Product(bad, bad),
        };
        let end = case.terms.len();
        let place = if rng.chance(50) {
            end
        } else {
            rng.below(end + 1)
        };
        case.terms.insert(place, term);
    }
    case
}

/// Words and counts that no calls made, with a few terms.
fn states(rng: &mut Rng) -> Terms {
    let mut sum = match rng.below(3) {
        0 => Sum::default(),
        1 => sums::carries(rng),
        _ => sums::any(rng),
    };
    sum.products.truncate(rng.below(3));
    let mut case = Terms::of(rng, &sum);
    if sum.products.is_empty() && rng.chance(60) {
        case.terms.clear();
    }
    case.words = words(rng);
    case.counts[0] = rng.pick(&[0, 1, 31, 32, 33, 34, 1 << 31, u32::MAX]);
    case.counts[1] = rng.pick(&[0, 0, 1, 2, u32::MAX]);
    case
}

/// Any words: random ones, ends of the range, runs of equal words, and numbers
/// at or next to halfway between two f64.
pub(super) fn words(rng: &mut Rng) -> Vec<u64> {
    let mut words = vec![0; WORDS];
    match rng.below(8) {
        0 => words.iter_mut().for_each(|word| *word = rng.next()),
        1 => words.fill(u64::MAX),
        2 => words[WORDS - 1] = 1 << 63,
        3 => {
            words.fill(u64::MAX);
            words[WORDS - 1] >>= 1;
        }
        4 => {
            let (from, to) = (rng.below(WORDS), rng.below(WORDS));
            words[from.min(to)..from.max(to)].fill(u64::MAX);
            words[rng.below(WORDS)] ^= 1 << rng.below(64);
        }
        _ => near_half(rng, &mut words),
    }
    if rng.chance(40) {
        // Its opposite.
        let mut carry = true;
        for word in &mut words {
            (*word, carry) = (!*word).overflowing_add(u64::from(carry));
        }
    }
    words
}

/// 53 digits or fewer, the digit below them, and at times one far below; the
/// last place is often that of the smallest or of the largest f64.
fn near_half(rng: &mut Rng, words: &mut [u64]) {
    let last = match rng.below(4) {
        0 => 1_074,
        1 => 3_119 + rng.below(3),
        _ => 1_074 + rng.below(2_100),
    };
    let significand = match rng.below(4) {
        0 => (1 << 53) - 1,
        1 => 1 << 52,
        2 => rng.next() >> 11 >> rng.below(52),
        _ => rng.next() >> 11 | 1 << 52,
    };
    let half = rng.chance(80).then_some(last - 1);
    let lower = match rng.below(4) {
        0 => None,
        1 => Some(0),
        2 => Some(last - 2),
        _ => Some(rng.below(last - 1)),
    };
    let digits = (0..53).filter(|digit| significand >> digit & 1 == 1);
    for place in digits.map(|digit| last + digit).chain(half).chain(lower) {
        words[place / 64] |= 1 << (place % 64);
    }
}

/// Lengths at and around the fewest, and longer ones.
fn lengths(rng: &mut Rng) -> Terms {
    let mut sum = sums::ordinary(rng);
    sum.products.truncate(3);
    let mut case = Terms::of(rng, &sum);
    let length = rng.pick(&[0, 1, 65, 66, 67, 68, 70]);
    case.words.resize(length, 0);
    let length = rng.pick(&[0, 1, 2, 2, 2, 3]);
    case.counts.resize(length, 0);
    case.sign_len = rng.below(3);
    case
}

impl Row {
    /// The row of a sum, at times with slices of different lengths.
    fn of(rng: &mut Rng, sum: Sum) -> Self {
        let mut row = Row {
            u: sum.u,
            w: sum.products.iter().map(|&(w, _)| w).collect(),
            nu: sum.products.iter().map(|&(_, nu)| nu).collect(),
            words_len: WORDS,
            counts_len: 2,
        };
        if rng.chance(5) {
            row.w.push(rng.special());
        } else if rng.chance(5) {
            row.nu.push(rng.special());
        }
        row
    }
}

/// Rows with values that are not finite, used or not, and of more than 32
/// products.
fn row_refused(rng: &mut Rng) -> Row {
    let mut sum = sums::ordinary(rng);
    if rng.chance(50) {
        let count = rng.pick(&[31, 32, 33, 34, 40]);
        sum.products.resize(count, (1.5, -0.25));
    }
    let mut row = Row::of(rng, sum);
    if rng.chance(40) {
        let longer = rng.pick(&[1, 2, 40]);
        let filler = rng.pick(&[0.0, f64::NAN]);
        let slice = if rng.chance(50) {
            &mut row.w
        } else {
            &mut row.nu
        };
        slice.resize(slice.len() + longer, filler);
    }
    for _ in 0..rng.below(3) {
        let bad = not_finite(rng);
        match rng.below(3) {
            0 => row.u = bad,
            1 if !row.w.is_empty() => {
                let place = rng.below(row.w.len());
                row.w[place] = bad;
            }
            _ if !row.nu.is_empty() => {
                let place = rng.below(row.nu.len());
                row.nu[place] = bad;
            }
            _ => (),
        }
    }
    row
}

fn row_lengths(rng: &mut Rng) -> Row {
    let mut row = row_refused(rng);
    row.words_len = rng.pick(&[0, 1, 66, 67, 68, 70]);
    row.counts_len = rng.pick(&[0, 1, 2, 2, 2, 3]);
    row
}

impl Words {
    fn of(words: Vec<u64>) -> Self {
        Words {
            words,
            result_len: 1,
        }
    }
}

fn words_of_example(rng: &mut Rng) -> Words {
    let sums = &examples().sums;
    Words::of(sums[rng.below(sums.len())].left.sum.words.clone())
}

/// The words that a row leaves.
fn words_of_sum(rng: &mut Rng) -> Words {
    let (_, _, make) = rng.pick(SUMS);
    let sum = make(rng);
    let row = Row::of(rng, sum);
    let sum = row_sum(row.u, &row.w, &row.nu, Rule::None);
    Words::of(sum.map_or_else(|_| words(rng), |sum| sum.words))
}

fn words_of_lengths(rng: &mut Rng) -> Words {
    let mut case = Words::of(words(rng));
    let length = rng.pick(&[0, 1, 65, 66, 67, 68, 70]);
    case.words.resize(length, 0);
    case.result_len = rng.below(3);
    case
}
