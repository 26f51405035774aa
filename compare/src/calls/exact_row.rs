//! Row sums without rounding, a row at once: the number, the words and counts
//! left, and the sign.

use super::exact::{leave, port_sign, reference_sign, show_words, FILL, SIGNS, TOO_SHORT};
use super::guard::{Guard, Guarded};
use super::{show_values, Call, Zeros};
use crate::cases::exact::{self, Row};
use crate::cases::random::Rng;
use crate::coverage::{Class, Coverage, ROWS};
use crate::port;
use crate::reference::exact::{meaning, row, words as words_of, WORDS};
use crate::reference::rule::{Place, Rule};

pub struct ExactRow;

/// What the call leaves.
pub struct Answer {
    number: u32,
    words: Vec<u64>,
    counts: Vec<u32>,
    /// The sign's number and what it leaves.
    sign: (u32, Vec<i8>),
    margins_kept: bool,
}

impl Call for ExactRow {
    type Case = Row;
    type Answer = Answer;

    const NAME: &'static str = "exact sums, row by row";
    const IN_ORIGINAL: bool = false;
    const PLACES: &'static [Place] = &[Place::Exact, Place::ExactRow];
    const CLASSES: &'static [Class] = &[
        Class {
            group: "number",
            names: &["0", "10", "17", "18"],
        },
        Class {
            group: "products",
            names: ROWS,
        },
        Class {
            group: "slices",
            names: &["equal", "w longer", "nu longer"],
        },
        Class {
            group: "sign",
            names: SIGNS,
        },
    ];

    fn families() -> Vec<&'static str> {
        exact::row_families()
    }

    fn case(family: &str, rng: &mut Rng) -> Option<Row> {
        exact::row(family, rng)
    }

    fn reference(case: &Row, rule: Rule) -> Answer {
        let mut words = vec![FILL; case.words_len];
        let mut counts = vec![u32::GUARD; case.counts_len];
        let short = case.words_len < WORDS || case.counts_len < 2;
        let answer = if short {
            Err(TOO_SHORT)
        } else {
            row(case.u, &case.w, &case.nu, rule)
        };
        match &answer {
            Ok(sum) => {
                let lent = meaning(&[FILL; WORDS], Rule::None);
                leave(sum, &mut words, &mut counts);
                if rule.is(Rule::RowAddsToLent) {
                    let both = lent.plus(&meaning(&sum.words, rule));
                    words[..WORDS].copy_from_slice(&words_of(&both, rule));
                }
            }
            Err(_) if rule.is(Rule::RowRefusalClears) => words.fill(0),
            Err(_) => (),
        }
        Answer {
            number: answer.err().unwrap_or(0),
            sign: reference_sign(&words, 1, rule),
            words,
            counts,
            margins_kept: true,
        }
    }

    /// The original has no accumulator.
    fn original(_: &Row, _: &Answer) -> Option<Answer> {
        None
    }

    fn port(case: &Row) -> Option<Answer> {
        let calls = port::EXACT?;
        let mut words = Guarded::filled(FILL, case.words_len);
        let mut counts = Guarded::filled(u32::GUARD, case.counts_len);
        let number = (calls.row)(case.u, &case.w, &case.nu, words.lend(), counts.lend());
        let (words, counts) = (words.kept(), counts.kept());
        let left = words.as_deref().unwrap_or_default();
        let sign = port_sign(&calls, left, 1);
        let margins_kept = words.is_some() && counts.is_some() && sign.is_some();
        Some(Answer {
            number,
            sign: sign.unwrap_or_default(),
            words: words.unwrap_or_default(),
            counts: counts.unwrap_or_default(),
            margins_kept,
        })
    }

    fn difference(expected: &Answer, found: &Answer, _: Zeros) -> Option<&'static str> {
        if !found.margins_kept {
            Some("what lies beside a lent buffer")
        } else if expected.number != found.number {
            Some("number")
        } else if expected.counts != found.counts {
            Some("counts")
        } else if expected.words != found.words {
            Some("words")
        } else if expected.sign != found.sign {
            Some("sign")
        } else {
            None
        }
    }

    fn cover(case: &Row, answer: &Answer, coverage: &mut Coverage) {
        coverage.named(Self::CLASSES, "number", &answer.number.to_string());
        if answer.number != 0 {
            return;
        }
        let slices = match case.w.len().cmp(&case.nu.len()) {
            std::cmp::Ordering::Less => "nu longer",
            std::cmp::Ordering::Equal => "equal",
            std::cmp::Ordering::Greater => "w longer",
        };
        coverage.count("slices", slices);
        coverage.number("products", case.w.len().min(case.nu.len()));
        let which = answer.sign.1[0];
        coverage.count("sign", SIGNS[(which + 1) as usize]);
    }

    fn show_case(case: &Row) -> String {
        format!(
            "{}{}{}words {} counts {} long\n",
            show_values("u", &[case.u]),
            show_values("w", &case.w),
            show_values("nu", &case.nu),
            case.words_len,
            case.counts_len
        )
    }

    fn show_answer(answer: &Answer) -> String {
        format!(
            "  number {} counts {:?} sign {:?}\n{}",
            answer.number,
            answer.counts,
            answer.sign,
            show_words(&answer.words)
        )
    }
}
