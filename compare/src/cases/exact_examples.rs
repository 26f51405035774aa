//! The worked examples of row sums without rounding, from examples/exact.txt,
//! which says how they are written.

use crate::reference::exact::{Accumulator, Term, WORDS};
use std::sync::OnceLock;

const TEXT: &str = include_str!("../../examples/exact.txt");

/// Calls on an empty accumulator, and what is left. The tests hold the answers
/// against the reference.
#[cfg_attr(not(test), allow(dead_code))]
pub struct Example {
    pub number: usize,
    pub terms: Vec<Term>,
    /// The answer of each call.
    pub numbers: Vec<u32>,
    pub left: Left,
}

/// An accumulator as it must be left.
#[cfg_attr(not(test), allow(dead_code))]
pub struct Left {
    pub sum: Accumulator,
    pub sign: i8,
    /// The bits of the nearest f64.
    pub nearest: u64,
}

/// A likely mistake and the examples that show it.
#[cfg_attr(not(test), allow(dead_code))]
pub struct Mistake {
    pub rule: &'static str,
    pub shown_by: Vec<usize>,
}

#[cfg_attr(not(test), allow(dead_code))]
#[derive(Default)]
pub struct Examples {
    pub sums: Vec<Example>,
    pub mistakes: Vec<Mistake>,
}

/// All examples.
pub fn examples() -> &'static Examples {
    static EXAMPLES: OnceLock<Examples> = OnceLock::new();
    EXAMPLES.get_or_init(|| parsed().expect("examples/exact.txt is as it says"))
}

fn parsed() -> Option<Examples> {
    let mut examples = Examples::default();
    let mut lines = body(TEXT);
    while let Some(line) = lines.next() {
        if let Some(rest) = line.strip_prefix("mistake ") {
            examples.mistakes.push(mistake(rest)?);
            continue;
        }
        let (number, _) = line.split_once(" # ")?;
        let calls = lines.next()?.strip_prefix("  calls ")?;
        let numbers = lines.next()?.strip_prefix("  numbers ")?;
        examples.sums.push(Example {
            number: number.parse().ok()?,
            terms: terms(calls)?,
            numbers: listed(numbers, " ")
                .map(|word| word.parse().ok())
                .collect::<Option<_>>()?,
            left: left(lines.next()?)?,
        });
    }
    Some(examples)
}

/// The lines after the second empty one: those before it say how to read them.
pub(super) fn body(text: &'static str) -> impl Iterator<Item = &'static str> {
    let mut blank = 0;
    let body = text.lines().skip_while(move |line| {
        blank += usize::from(line.is_empty());
        blank < 2
    });
    body.skip(1)
}

/// A mistake's line without its first word.
pub(super) fn mistake(text: &'static str) -> Option<Mistake> {
    let (rule, shown) = text.split_once(": ")?;
    let shown = shown.split(' ').map(|number| number.parse().ok());
    let shown_by = shown.collect::<Option<_>>()?;
    Some(Mistake { rule, shown_by })
}

/// Parts of a list, none where there is only a dash.
pub(super) fn listed<'a>(text: &'a str, between: &'a str) -> impl Iterator<Item = &'a str> {
    text.split(between).filter(|&part| part != "-")
}

fn terms(text: &str) -> Option<Vec<Term>> {
    let mut terms = Vec::new();
    for part in listed(text, "; ") {
        let (times, call) = repeated(part)?;
        let term = term(call)?;
        terms.extend((0..times).map(|_| term));
    }
    Some(terms)
}

/// How often a call is made.
pub(super) fn repeated(part: &str) -> Option<(usize, &str)> {
    let (times, call) = part.split_once('*').unwrap_or(("1", part));
    Some((times.parse().ok()?, call))
}

pub(super) fn term(call: &str) -> Option<Term> {
    let mut words = call.split(' ').skip(1);
    let mut value = || Some(f64::from_bits(u64::from_str_radix(words.next()?, 16).ok()?));
    if call.starts_with("free ") {
        Some(Term::Free(value()?))
    } else if call.starts_with("product ") {
        Some(Term::Product(value()?, value()?))
    } else {
        None
    }
}

/// Words by their places, all others as given.
pub(super) fn words<'a>(fill: u64, places: impl Iterator<Item = &'a str>) -> Option<Vec<u64>> {
    let mut words = vec![fill; WORDS];
    for place in places {
        let (which, word) = place.split_once(':')?;
        *words.get_mut(which.parse::<usize>().ok()?)? = u64::from_str_radix(word, 16).ok()?;
    }
    Some(words)
}

pub(super) fn left(line: &str) -> Option<Left> {
    let (fields, places) = line.strip_prefix("  left ")?.split_once(" words ")?;
    let fields: Vec<&str> = fields.split(' ').collect();
    let ["products", products, "free", free, "sign", sign, "nearest", nearest] = fields[..] else {
        return None;
    };
    let sign = sign.parse().ok()?;
    let fill = if sign < 0 { u64::MAX } else { 0 };
    Some(Left {
        sum: Accumulator {
            words: words(fill, listed(places, " "))?,
            products: products.parse().ok()?,
            free: free == "1",
        },
        sign,
        nearest: u64::from_str_radix(nearest, 16).ok()?,
    })
}
