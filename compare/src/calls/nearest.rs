//! The f64 nearest to a row sum without rounding.

use super::exact::{show_words, SIGNS, TOO_SHORT};
use super::guard::{Guard, Guarded};
use super::{all_same, show_values, Call, Zeros};
use crate::cases::exact::{Words, WORDS_FAMILIES};
use crate::cases::random::Rng;
use crate::coverage::{Class, Coverage};
use crate::port;
use crate::reference::exact::{meaning, nearest, sign, WORDS};
use crate::reference::rule::{Place, Rule};
use crate::reference::whole::Whole;

pub struct Nearest;

/// What the call leaves.
pub struct Answer {
    number: u32,
    result: Vec<f64>,
    margins_kept: bool,
}

impl Call for Nearest {
    type Case = Words;
    type Answer = Answer;

    const NAME: &'static str = "nearest of exact sums";
    const IN_ORIGINAL: bool = false;
    const PLACES: &'static [Place] = &[Place::Nearest];
    const CLASSES: &'static [Class] = &[
        Class {
            group: "number",
            names: &["0", "10"],
        },
        Class {
            group: "sign",
            names: SIGNS,
        },
        Class {
            group: "nearest",
            names: KINDS,
        },
        Class {
            group: "digits left out",
            names: BELOW,
        },
        Class {
            group: "exponent",
            names: EXPONENTS,
        },
    ];

    fn families() -> Vec<&'static str> {
        WORDS_FAMILIES.iter().map(|&(name, _)| name).collect()
    }

    fn case(family: &str, rng: &mut Rng) -> Option<Words> {
        let (_, make) = WORDS_FAMILIES.iter().find(|&&(name, _)| name == family)?;
        Some(make(rng))
    }

    fn reference(case: &Words, rule: Rule) -> Answer {
        let mut result = vec![f64::GUARD; case.result_len];
        let number = match (case.words.get(..WORDS), result.first_mut()) {
            (Some(words), Some(place)) => {
                *place = nearest(words, rule);
                0
            }
            _ => TOO_SHORT,
        };
        Answer {
            number,
            result,
            margins_kept: true,
        }
    }

    /// The original has no accumulator.
    fn original(_: &Words, _: &Answer) -> Option<Answer> {
        None
    }

    fn port(case: &Words) -> Option<Answer> {
        let call = port::EXACT_NEAREST?;
        let mut result = Guarded::filled(f64::GUARD, case.result_len);
        let number = call(&case.words, result.lend());
        let result = result.kept();
        let margins_kept = result.is_some();
        Some(Answer {
            number,
            result: result.unwrap_or_default(),
            margins_kept,
        })
    }

    fn difference(expected: &Answer, found: &Answer, _: Zeros) -> Option<&'static str> {
        if !found.margins_kept {
            Some("what lies beside a lent buffer")
        } else if expected.number != found.number {
            Some("number")
        } else if !all_same(&expected.result, &found.result, Zeros::WithSign) {
            Some("nearest")
        } else {
            None
        }
    }

    fn cover(case: &Words, answer: &Answer, coverage: &mut Coverage) {
        coverage.named(Self::CLASSES, "number", &answer.number.to_string());
        if answer.number != 0 {
            return;
        }
        let words = &case.words[..WORDS];
        let which = sign(words, Rule::None);
        coverage.count("sign", SIGNS[(which + 1) as usize]);
        let v = answer.result[0].abs();
        let kind = match (v, which) {
            (0.0, 0) => "0 of 0",
            (0.0, 1) => "0 of more",
            (0.0, _) => "0 of less",
            (v, _) if v.is_infinite() => "infinite",
            (v, _) if v < f64::MIN_POSITIVE => "subnormal",
            _ => "normal",
        };
        coverage.count("nearest", kind);
        coverage.count("exponent", EXPONENTS[(v.to_bits() >> 58) as usize]);
        coverage.count("digits left out", below(&meaning(words, Rule::None)));
    }

    fn show_case(case: &Words) -> String {
        show_words(&case.words)
    }

    fn show_answer(answer: &Answer) -> String {
        let result = show_values("result", &answer.result);
        format!("  number {}\n{result}", answer.number)
    }
}

/// Kinds of the nearest f64.
const KINDS: &[&str] = &[
    "0 of 0",
    "0 of more",
    "0 of less",
    "subnormal",
    "normal",
    "infinite",
];

/// What the digits below the last place come to.
const BELOW: &[&str] = &[
    "none",
    "below a half",
    "a half, even",
    "a half, odd",
    "a half and a digit in its word",
    "a half and a digit far below",
];

/// The exponents of the nearest f64, by its upper bits.
const EXPONENTS: &[&str] = &[
    "0 to 63", "to 127", "to 191", "to 255", "to 319", "to 383", "to 447", "to 511", "to 575",
    "to 639", "to 703", "to 767", "to 831", "to 895", "to 959", "to 1023", "to 1087", "to 1151",
    "to 1215", "to 1279", "to 1343", "to 1407", "to 1471", "to 1535", "to 1599", "to 1663",
    "to 1727", "to 1791", "to 1855", "to 1919", "to 1983", "to 2047",
];

/// What the digits below the last place of an f64 of this size come to.
fn below(sum: &Whole) -> &'static str {
    let last = sum.digits().saturating_sub(53).max(1_074);
    match (sum.digit(last - 1), sum.any_digit(0, last - 1)) {
        (false, false) => "none",
        (false, true) => "below a half",
        (true, false) if sum.digit(last) => "a half, odd",
        (true, false) => "a half, even",
        (true, true) if sum.any_digit(last - 64, last - 1) => "a half and a digit in its word",
        (true, true) => "a half and a digit far below",
    }
}
