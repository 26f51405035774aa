//! Two row sums without rounding joined: the number, and the words and counts
//! left.

use super::exact::{leave, lent, show_words, SIGNS, TOO_SHORT};
use super::guard::Guarded;
use super::{Call, Zeros};
use crate::cases::exact_joins::{Join, FAMILIES};
use crate::cases::random::Rng;
use crate::coverage::{Class, Coverage, ROWS};
use crate::port;
use crate::reference::exact::{meaning, sign, Accumulator, WORDS};
use crate::reference::rule::{Place, Rule};

pub struct ExactJoin;

/// What the call leaves.
pub struct Answer {
    number: u32,
    words: Vec<u64>,
    counts: Vec<u32>,
    /// Whether the second one and what lies beside the buffers are as before.
    others_kept: bool,
}

/// The number, and the total left in what was lent unless that is refused.
fn joined(case: &Join, rule: Rule, words: &mut [u64], counts: &mut [u32]) -> u32 {
    let (mut other, mut other_counts) = (case.other.clone(), case.other_counts.clone());
    if rule.is(Rule::JoinShortOtherTaken) {
        other.resize(other.len().max(WORDS), 0);
        other_counts.resize(other_counts.len().max(2), 0);
    }
    if rule.is(Rule::JoinEighteenFirst) && full(counts, &other_counts) {
        return 18;
    }
    let both = lent(words, counts).zip(lent(&other, &other_counts));
    let Some((mut sum, mut more)) = both else {
        return TOO_SHORT;
    };
    if rule.is(Rule::JoinFlagOfOne) {
        sum.free = counts[1] == 1;
        more.free = other_counts[1] == 1;
    }
    let flags = counts[1].wrapping_add(other_counts[1]);
    let answer = sum.join(&more, rule);
    if answer.is_ok() || rule.is(Rule::JoinRefusalWrites) {
        leave(&sum, words, counts);
        if rule.is(Rule::JoinFlagsAdded) {
            counts[1] = flags;
        }
    }
    answer.err().unwrap_or(0)
}

/// Whether the counts alone, where there are any, get 18.
fn full(counts: &[u32], other_counts: &[u32]) -> bool {
    let zeros = [0; WORDS];
    let both = lent(&zeros, counts).zip(lent(&zeros, other_counts));
    both.is_some_and(|(mut sum, more)| sum.join(&more, Rule::None).is_err())
}

impl Call for ExactJoin {
    type Case = Join;
    type Answer = Answer;

    const NAME: &'static str = "exact sums, joined";
    const IN_ORIGINAL: bool = false;
    const PLACES: &'static [Place] = &[Place::ExactJoin];
    const CLASSES: &'static [Class] = &[
        Class {
            group: "number",
            names: &["0", "10", "18"],
        },
        Class {
            group: "18 for",
            names: &["products", "free motions", "both"],
        },
        Class {
            group: "products",
            names: ROWS,
        },
        Class {
            group: "free motion",
            names: &["none", "the first one's", "the other's"],
        },
        Class {
            group: "sign",
            names: SIGNS,
        },
        Class {
            group: "total",
            names: &["within the range", "below it", "above it"],
        },
    ];

    fn families() -> Vec<&'static str> {
        FAMILIES.iter().map(|&(name, _)| name).collect()
    }

    fn case(family: &str, rng: &mut Rng) -> Option<Join> {
        let (_, make) = FAMILIES.iter().find(|&&(name, _)| name == family)?;
        Some(make(rng))
    }

    fn reference(case: &Join, rule: Rule) -> Answer {
        let (mut words, mut counts) = (case.words.clone(), case.counts.clone());
        Answer {
            number: joined(case, rule, &mut words, &mut counts),
            words,
            counts,
            others_kept: true,
        }
    }

    /// The original has no accumulator.
    fn original(_: &Join, _: &Answer) -> Option<Answer> {
        None
    }

    fn port(case: &Join) -> Option<Answer> {
        let call = port::EXACT_JOIN?;
        let (mut words, mut counts) = (Guarded::of(&case.words), Guarded::of(&case.counts));
        let mut other = Guarded::of(&case.other);
        let mut other_counts = Guarded::of(&case.other_counts);
        let number = call(
            words.lend(),
            counts.lend(),
            other.lend(),
            other_counts.lend(),
        );
        let (words, counts) = (words.kept(), counts.kept());
        let other_kept = other.kept().as_ref() == Some(&case.other)
            && other_counts.kept().as_ref() == Some(&case.other_counts);
        Some(Answer {
            number,
            others_kept: other_kept && words.is_some() && counts.is_some(),
            words: words.unwrap_or_default(),
            counts: counts.unwrap_or_default(),
        })
    }

    fn difference(expected: &Answer, found: &Answer, _: Zeros) -> Option<&'static str> {
        if !found.others_kept {
            Some("the second one, or what lies beside a lent buffer")
        } else if expected.number != found.number {
            Some("number")
        } else if expected.counts != found.counts {
            Some("counts")
        } else if expected.words != found.words {
            Some("words")
        } else {
            None
        }
    }

    fn cover(case: &Join, answer: &Answer, coverage: &mut Coverage) {
        coverage.named(Self::CLASSES, "number", &answer.number.to_string());
        let first = lent(&case.words, &case.counts);
        let Some((first, other)) = first.zip(lent(&case.other, &case.other_counts)) else {
            return;
        };
        if answer.number != 0 {
            coverage.count("18 for", reason(&first, &other));
            return;
        }
        coverage.number("products", answer.counts[0] as usize);
        let free = match (first.free, other.free) {
            (true, _) => "the first one's",
            (_, true) => "the other's",
            _ => "none",
        };
        coverage.count("free motion", free);
        let which = sign(&answer.words[..WORDS], Rule::None);
        coverage.count("sign", SIGNS[(which + 1) as usize]);
        coverage.count("total", range(&first, &other));
    }

    fn show_case(case: &Join) -> String {
        format!(
            "counts {:?}\n{}other counts {:?}\n{}",
            case.counts,
            show_words(&case.words),
            case.other_counts,
            show_words(&case.other)
        )
    }

    fn show_answer(answer: &Answer) -> String {
        format!(
            "  number {} counts {:?}\n{}",
            answer.number,
            answer.counts,
            show_words(&answer.words)
        )
    }
}

/// Why two that get 18 get it.
fn reason(first: &Accumulator, other: &Accumulator) -> &'static str {
    let few = u64::from(first.products) + u64::from(other.products) <= 32;
    match (few, first.free && other.free) {
        (true, _) => "free motions",
        (false, false) => "products",
        (false, true) => "both",
    }
}

/// Where the total lies before it is taken modulo 2^4288.
fn range(first: &Accumulator, other: &Accumulator) -> &'static str {
    let total = meaning(&first.words, Rule::None).plus(&meaning(&other.words, Rule::None));
    let negative = total.is_negative();
    let lowest = negative && !total.any_digit(0, 64 * WORDS - 1);
    match (total.digits() < 64 * WORDS || lowest, negative) {
        (true, _) => "within the range",
        (false, true) => "below it",
        (false, false) => "above it",
    }
}
