//! Chained bend files written: the number, the output whole and the length.

use super::guard::{Guard, Guarded};
use super::{Call, Zeros};
use crate::cases::pulls::{Case, FAMILIES};
use crate::cases::random::Rng;
use crate::coverage::{Class, Coverage, EXAMPLES, STEPS};
use crate::port;
use crate::reference::chain_writer::{write, Pull};
use crate::reference::rule::{Place, Rule};

pub struct ChainWriter;

/// What the call leaves.
pub struct Answer {
    /// 0, or the number of the refusal.
    number: u32,
    out: Vec<u8>,
    written: Vec<usize>,
    margins_kept: bool,
}

/// What the output holds before the call.
const FILL: u8 = 0x6E;

/// Refused for a lent slice that is too short.
const TOO_SHORT: u32 = 10;

impl Case {
    /// The pull, where each step has its rows, coordinates and count.
    pub fn pull(&self) -> Option<Pull<'_>> {
        let steps = self.rows.len();
        Some(Pull {
            rows: &self.rows,
            coords: self.coords.get(..steps)?,
            counts: self.counts.get(..steps)?,
            values: &self.values,
        })
    }
}

impl Call for ChainWriter {
    type Case = Case;
    type Answer = Answer;

    const NAME: &'static str = "chained bend files written";
    const IN_ORIGINAL: bool = false;
    const PLACES: &'static [Place] = &[Place::ChainWriter];
    const CLASSES: &'static [Class] = &[
        Class {
            group: "number",
            names: &["0", "3", "4", "10", "15"],
        },
        Class {
            group: "steps written",
            names: STEPS,
        },
        Class {
            group: "room",
            names: &["just enough", "to spare", "one byte short", "shorter"],
        },
        Class {
            group: "values",
            names: &["just enough", "to spare", "run out"],
        },
        Class {
            group: "example",
            names: EXAMPLES.split_at(43).1,
        },
    ];

    fn families() -> Vec<&'static str> {
        FAMILIES.iter().map(|&(name, _)| name).collect()
    }

    fn case(family: &str, rng: &mut Rng) -> Option<Case> {
        let (_, make) = FAMILIES.iter().find(|&&(name, _)| name == family)?;
        Some(make(rng))
    }

    fn reference(case: &Case, rule: Rule) -> Answer {
        let mut out = vec![FILL; case.out_len];
        let mut written = vec![usize::GUARD; case.written_len];
        let answer = match (case.pull(), written.first_mut()) {
            (Some(pull), Some(place)) => write(&pull, &mut out, rule).map(|length| *place = length),
            _ => Err(TOO_SHORT),
        };
        Answer {
            number: answer.err().unwrap_or(0),
            out,
            written,
            margins_kept: true,
        }
    }

    /// The original has no files.
    fn original(_: &Case, _: &Answer) -> Option<Answer> {
        None
    }

    fn port(case: &Case) -> Option<Answer> {
        let call = port::CHAIN_WRITE?;
        let mut out = Guarded::filled(FILL, case.out_len);
        let mut written = Guarded::filled(usize::GUARD, case.written_len);
        let number = call(
            &case.rows,
            &case.coords,
            &case.counts,
            &case.values,
            out.lend(),
            written.lend(),
        );
        let (out, written) = (out.kept(), written.kept());
        let margins_kept = out.is_some() && written.is_some();
        Some(Answer {
            number,
            out: out.unwrap_or_default(),
            written: written.unwrap_or_default(),
            margins_kept,
        })
    }

    fn difference(expected: &Answer, found: &Answer, _: Zeros) -> Option<&'static str> {
        if !found.margins_kept {
            Some("what lies beside a lent buffer")
        } else if expected.number != found.number {
            Some("number")
        } else if expected.written != found.written {
            Some("length written")
        } else if expected.out != found.out {
            Some("output")
        } else {
            None
        }
    }

    fn cover(case: &Case, answer: &Answer, coverage: &mut Coverage) {
        coverage.named(Self::CLASSES, "number", &answer.number.to_string());
        if let Some(example) = case.example {
            coverage.count("example", EXAMPLES[example - 1]);
        }
        if case.pull().is_none() || !matches!(answer.number, 0 | 4 | 10) {
            return;
        }
        let counts = case.counts[..case.rows.len()].iter();
        let wanted = counts.fold(0usize, |sum, &count| sum.saturating_add(count));
        let values = match case.values.len().cmp(&wanted) {
            std::cmp::Ordering::Less => "run out",
            std::cmp::Ordering::Equal => "just enough",
            std::cmp::Ordering::Greater => "to spare",
        };
        coverage.count("values", values);
        if answer.number == 4 {
            return;
        }
        let length = 20 * case.rows.len() + 8 * wanted;
        let room = match case.out_len as i64 - length as i64 {
            0 => "just enough",
            1.. => "to spare",
            -1 => "one byte short",
            _ => "shorter",
        };
        coverage.count("room", room);
        if answer.number == 0 {
            coverage.count("steps written", STEPS[case.rows.len() - 1]);
        }
    }

    fn show_case(case: &Case) -> String {
        let values = &case.values[..case.values.len().min(40)];
        format!(
            "rows {:?}\ncoords {:?}\ncounts {:?}\n{} values\n{}output {} written {} long\n",
            case.rows,
            case.coords,
            case.counts,
            case.values.len(),
            super::show_values("the first values", values),
            case.out_len,
            case.written_len
        )
    }

    fn show_answer(answer: &Answer) -> String {
        let shown = &answer.out[..answer.out.len().min(2_048)];
        let bytes: String = shown.iter().map(|byte| format!("{byte:02X}")).collect();
        format!(
            "  number {} written {:?}\n{bytes}\n",
            answer.number, answer.written
        )
    }
}
