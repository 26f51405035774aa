//! Two lent accumulators of which the second is joined to the first.

use super::exact::words;
use super::random::Rng;
use super::sums;
use crate::reference::exact::{meaning, words as words_of, Accumulator, Term, WORDS};
use crate::reference::whole::Whole;
use crate::reference::Rule;

/// Words and counts of both. In a second count any number but 0 is a free
/// motion.
#[derive(Clone, Debug)]
pub struct Join {
    pub words: Vec<u64>,
    pub counts: Vec<u32>,
    pub other: Vec<u64>,
    pub other_counts: Vec<u32>,
}

type Make = fn(&mut Rng) -> Join;

/// The families by name.
pub const FAMILIES: &[(&str, Make)] = &[
    ("join/sums", halves),
    ("join/states", states),
    ("join/opposites", opposites),
    ("join/counts", counts),
    ("join/lengths", lengths),
];

/// A row's terms in two parts.
fn halves(rng: &mut Rng) -> Join {
    let make = rng.pick(&[sums::any, sums::ordinary, sums::cancelling, sums::carries]);
    let sum = make(rng);
    let place = rng.below(sum.products.len() + 1);
    let mut parts = [Accumulator::empty(), Accumulator::empty()];
    if rng.chance(90) {
        let which = rng.below(2);
        add(&mut parts[which], Term::Free(sum.u));
    }
    for (index, &(w, nu)) in sum.products.iter().enumerate() {
        add(
            &mut parts[usize::from(index >= place)],
            Term::Product(w, nu),
        );
    }
    let [first, other] = parts;
    Join {
        counts: vec![first.products, u32::from(first.free)],
        words: first.words,
        other_counts: vec![other.products, u32::from(other.free)],
        other: other.words,
    }
}

fn add(sum: &mut Accumulator, term: Term) {
    sum.add(term, Rule::None).expect("a row's terms are taken");
}

/// Words that no calls made.
fn states(rng: &mut Rng) -> Join {
    let free = rng.below(3);
    Join {
        words: words(rng),
        counts: vec![rng.below(17) as u32, u32::from(free == 1)],
        other: words(rng),
        other_counts: vec![rng.below(17) as u32, u32::from(free == 2)],
    }
}

/// Words, and their opposite or one near it.
fn opposites(rng: &mut Rng) -> Join {
    let mut case = states(rng);
    let shift = rng.pick(&[0, 0, 64, 4_223, 4_286]) + rng.below(2) as i64;
    let near = Whole::scaled(rng.chance(50), rng.pick(&[0, 1, 1]), shift);
    let mut opposite = case.words.clone();
    opposite.iter_mut().for_each(|word| *word = !*word);
    let one = Whole::scaled(false, 1, 0);
    let sum = meaning(&opposite, Rule::None).plus(&one).plus(&near);
    case.other = words_of(&sum, Rule::None);
    case
}

/// Counts at and past the limits, and any for a free motion.
fn counts(rng: &mut Rng) -> Join {
    let mut case = states(rng);
    let past = [0, 1, 31, 32, 33, 34, 1 << 31, u32::MAX - 31, u32::MAX];
    let first = if rng.chance(50) {
        rng.below(34) as u32
    } else {
        rng.pick(&past)
    };
    let other = match rng.below(4) {
        0 => rng.pick(&past),
        1 => 32u32.wrapping_sub(first),
        2 => 33u32.wrapping_sub(first),
        _ => rng.below(34) as u32,
    };
    let flags = [0, 0, 0, 1, 2, u32::MAX];
    case.counts = vec![first, rng.pick(&flags)];
    case.other_counts = vec![other, rng.pick(&flags)];
    case
}

/// Lengths at and around the fewest, and longer ones.
fn lengths(rng: &mut Rng) -> Join {
    let mut case = counts(rng);
    let words = [0, 1, 66, WORDS, WORDS, WORDS, 68, 70];
    let counts = [0, 1, 2, 2, 2, 2, 3];
    for lent in [&mut case.words, &mut case.other] {
        lent.resize(rng.pick(&words), 0x6E6E_6E6E_6E6E_6E6E);
    }
    for lent in [&mut case.counts, &mut case.other_counts] {
        lent.resize(rng.pick(&counts), 5);
    }
    case
}
