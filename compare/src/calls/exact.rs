//! Row sums without rounding, term by term: each call's number, the words and
//! counts left, and the sign.

use super::guard::{Guard, Guarded};
use super::{Call, Zeros};
use crate::cases::exact::{self, Terms};
use crate::cases::random::Rng;
use crate::coverage::{Class, Coverage, EXAMPLES, ROWS};
use crate::port;
use crate::reference::exact::{sign, Accumulator, Term, WORDS};
use crate::reference::rule::{Place, Rule};

pub struct Exact;

/// What the calls leave.
pub struct Answer {
    /// Each term's number.
    numbers: Vec<u32>,
    words: Vec<u64>,
    counts: Vec<u32>,
    /// The sign's number and what it leaves.
    sign: (u32, Vec<i8>),
    margins_kept: bool,
}

/// Refused for a lent slice that is too short.
pub const TOO_SHORT: u32 = 10;

/// What the words hold before a row is added.
pub const FILL: u64 = 0x6E6E_6E6E_6E6E_6E6E;

/// The sign that some words have, and its number, as the reference leaves them
/// in so many places.
pub fn reference_sign(words: &[u64], length: usize, rule: Rule) -> (u32, Vec<i8>) {
    let mut places = vec![i8::GUARD; length];
    match (words.get(..WORDS), places.first_mut()) {
        (Some(words), Some(place)) => {
            *place = sign(words, rule);
            (0, places)
        }
        _ => (TOO_SHORT, places),
    }
}

/// The same of the port, if nothing was written beside what was lent.
pub fn port_sign(calls: &port::Exact, words: &[u64], length: usize) -> Option<(u32, Vec<i8>)> {
    let mut places = Guarded::filled(i8::GUARD, length);
    let number = (calls.sign)(words, places.lend());
    Some((number, places.kept()?))
}

/// The words that are neither 0 nor all ones, by their place.
pub fn show_words(words: &[u64]) -> String {
    let top = words.last().copied().unwrap_or(0);
    let mut text = format!("  {} words, the last {top:016X}:", words.len());
    for (place, &word) in words.iter().enumerate() {
        if word != top {
            text.push_str(&format!(" {place}:{word:016X}"));
        }
    }
    text.push('\n');
    text
}

/// An accumulator as it is lent, where the slices are long enough.
pub fn lent(words: &[u64], counts: &[u32]) -> Option<Accumulator> {
    let (words, counts) = (words.get(..WORDS)?, counts.get(..2)?);
    Some(Accumulator {
        words: words.to_vec(),
        products: counts[0],
        free: counts[1] != 0,
    })
}

/// Writes an accumulator back into what was lent.
pub fn leave(sum: &Accumulator, words: &mut [u64], counts: &mut [u32]) {
    words[..WORDS].copy_from_slice(&sum.words);
    counts[0] = sum.products;
    counts[1] = u32::from(sum.free);
}

impl Call for Exact {
    type Case = Terms;
    type Answer = Answer;

    const NAME: &'static str = "exact sums, term by term";
    const IN_ORIGINAL: bool = false;
    const PLACES: &'static [Place] = &[Place::Exact];
    const CLASSES: &'static [Class] = &[
        Class {
            group: "number",
            names: &["0", "10", "17", "18"],
        },
        Class {
            group: "products",
            names: ROWS,
        },
        Class {
            group: "sign",
            names: SIGNS,
        },
        Class {
            group: "example",
            names: EXAMPLES.split_at(39).0,
        },
    ];

    fn families() -> Vec<&'static str> {
        exact::term_families()
    }

    fn case(family: &str, rng: &mut Rng) -> Option<Terms> {
        exact::terms(family, rng)
    }

    fn reference(case: &Terms, rule: Rule) -> Answer {
        let (mut words, mut counts) = (case.words.clone(), case.counts.clone());
        let mut numbers = Vec::with_capacity(case.terms.len());
        for &term in &case.terms {
            let Some(mut sum) = lent(&words, &counts) else {
                numbers.push(TOO_SHORT);
                continue;
            };
            let answer = sum.add(term, rule);
            if answer.is_ok() || rule.is(Rule::SeventeenCounts) {
                leave(&sum, &mut words, &mut counts);
            }
            numbers.push(answer.err().unwrap_or(0));
        }
        Answer {
            numbers,
            sign: reference_sign(&words, case.sign_len, rule),
            words,
            counts,
            margins_kept: true,
        }
    }

    /// The original has no accumulator.
    fn original(_: &Terms, _: &Answer) -> Option<Answer> {
        None
    }

    fn port(case: &Terms) -> Option<Answer> {
        let calls = port::EXACT?;
        let (mut words, mut counts) = (Guarded::of(&case.words), Guarded::of(&case.counts));
        let terms = case.terms.iter();
        let numbers = terms
            .map(|term| match *term {
                Term::Free(u) => (calls.free)(u, words.lend(), counts.lend()),
                Term::Product(w, nu) => (calls.product)(w, nu, words.lend(), counts.lend()),
            })
            .collect();
        let (words, counts) = (words.kept(), counts.kept());
        let left = words.as_deref().unwrap_or_default();
        let sign = port_sign(&calls, left, case.sign_len);
        let margins_kept = words.is_some() && counts.is_some() && sign.is_some();
        Some(Answer {
            numbers,
            sign: sign.unwrap_or_default(),
            words: words.unwrap_or_default(),
            counts: counts.unwrap_or_default(),
            margins_kept,
        })
    }

    fn difference(expected: &Answer, found: &Answer, _: Zeros) -> Option<&'static str> {
        if !found.margins_kept {
            Some("what lies beside a lent buffer")
        } else if expected.numbers != found.numbers {
            Some("number")
        } else if expected.counts != found.counts {
            Some("counts")
        } else if expected.words != found.words {
            Some("words")
        } else if expected.sign != found.sign {
            Some("sign")
        } else {
            None
        }
    }

    fn cover(case: &Terms, answer: &Answer, coverage: &mut Coverage) {
        for number in &answer.numbers {
            coverage.named(Self::CLASSES, "number", &number.to_string());
        }
        if let Some(example) = case.example {
            coverage.count("example", EXAMPLES[example - 1]);
        }
        if let Some(sum) = lent(&answer.words, &answer.counts) {
            coverage.named(Self::CLASSES, "products", &sum.products.to_string());
            let which = sign(&sum.words, Rule::None);
            coverage.count("sign", SIGNS[(which + 1) as usize]);
        }
    }

    fn show_case(case: &Terms) -> String {
        let mut text = format!("counts {:?}\n{}", case.counts, show_words(&case.words));
        for term in &case.terms {
            text.push_str(&match *term {
                Term::Free(u) => format!("  free {:016X} {u:e}\n", u.to_bits()),
                Term::Product(w, nu) => format!(
                    "  product {:016X} {:016X} {w:e} {nu:e}\n",
                    w.to_bits(),
                    nu.to_bits()
                ),
            });
        }
        text
    }

    fn show_answer(answer: &Answer) -> String {
        format!(
            "  numbers {:?} counts {:?} sign {:?}\n{}",
            answer.numbers,
            answer.counts,
            answer.sign,
            show_words(&answer.words)
        )
    }
}

/// The signs by name.
pub const SIGNS: &[&str] = &["-1", "0", "1"];
