//! Chained bend files: how many steps there are and where, and steps by their
//! number, with every lent buffer whole.

use super::guard::{Guard, Guarded};
use super::{all_same, show_values, Call, Zeros};
use crate::cases::chains::{self, Case, LENT};
use crate::cases::random::Rng;
use crate::coverage::{Class, Coverage, EXAMPLES, NUMBERS, ROWS, STEPS};
use crate::port;
use crate::reference::bend::Bend;
use crate::reference::chain::{self, Walk, MOST};
use crate::reference::rule::{Place, Rule};

pub struct Chain;

/// What the calls leave.
pub struct Answer {
    /// 0, or the number of the refusal.
    number: u32,
    steps: Vec<usize>,
    ends: Vec<usize>,
    /// One for each step that was asked for.
    read: Vec<Step>,
    margins_kept: bool,
}

/// What reading one step leaves.
struct Step {
    /// 0, the number of the refusal, or [`NO_STEP`].
    number: u32,
    /// w, u_free, lo, hi, scale, nu, motion and the tolerance.
    values: [Vec<f64>; 8],
    shape: Vec<usize>,
}

/// Where there is no step of that number.
pub const NO_STEP: u32 = 0xFFFF_FFFF;

/// Refused for a lent slice that is too short.
const TOO_SHORT: u32 = 10;

/// The step's values in the order of their buffers.
fn parts(bend: Bend) -> [Vec<f64>; 8] {
    [
        bend.w,
        bend.u_free,
        bend.lo,
        bend.hi,
        bend.scale,
        bend.nu,
        bend.motion,
        vec![bend.tolerance],
    ]
}

/// The lengths of the buffers of values, the tolerance last, and of the shape.
fn lengths(case: &Case) -> ([usize; 8], usize) {
    let [w, u_free, lo, hi, scale, nu, motion, shape, tolerance] = case.lent;
    ([w, u_free, lo, hi, scale, nu, motion, tolerance], shape)
}

/// What a step's buffers hold before the call.
fn untouched(case: &Case, number: u32) -> Step {
    let (values, shape) = lengths(case);
    Step {
        number,
        values: values.map(|length| vec![f64::GUARD; length]),
        shape: vec![usize::GUARD; shape],
    }
}

fn reference_step(case: &Case, asked: usize, rule: Rule) -> Step {
    if case
        .lent
        .iter()
        .zip(LENT)
        .any(|(&length, fewest)| length < fewest)
    {
        return untouched(case, TOO_SHORT);
    }
    let (step, bend) = match chain::read_step(&case.file, asked, rule) {
        Err(number) => return untouched(case, number),
        Ok(None) => return untouched(case, NO_STEP),
        Ok(Some(found)) => found,
    };
    let mut left = untouched(case, 0);
    left.shape[..2].copy_from_slice(&[step.rows, step.coords]);
    for (buffer, values) in left.values.iter_mut().zip(parts(bend)) {
        buffer[..values.len()].copy_from_slice(&values);
        if rule.is(Rule::StepRestCleared) {
            buffer[values.len()..].fill(0.0);
        }
    }
    left
}

fn reference_ends(case: &Case, walk: &Walk, rule: Rule) -> (u32, Vec<usize>, Vec<usize>) {
    let mut steps = vec![usize::GUARD; case.steps_len];
    let mut ends = vec![usize::GUARD; case.ends_len];
    if case.steps_len < 1 || case.ends_len < MOST {
        return (TOO_SHORT, steps, ends);
    }
    if walk.number == 0 || rule.is(Rule::ChainRefusalWrites) {
        if !rule.is(Rule::EndsRestKept) {
            ends[..MOST].fill(0);
        }
        steps[0] = walk.steps.len();
        for (place, step) in ends[..MOST].iter_mut().zip(&walk.steps) {
            *place = step.end;
        }
    }
    (walk.number, steps, ends)
}

/// A step as the port leaves it, if nothing was written beside its buffers.
fn port_step(call: port::ChainStep, case: &Case, asked: usize) -> Option<Step> {
    let (values, shape) = lengths(case);
    let mut values = values.map(|length| Guarded::filled(f64::GUARD, length));
    let mut shape = Guarded::filled(usize::GUARD, shape);
    let [w, u_free, lo, hi, scale, nu, motion, tolerance] = &mut values;
    let number = call(
        &case.file,
        asked,
        port::StepLent {
            w: w.lend(),
            u_free: u_free.lend(),
            lo: lo.lend(),
            hi: hi.lend(),
            scale: scale.lend(),
            nu: nu.lend(),
            motion: motion.lend(),
            shape: shape.lend(),
            tolerance: tolerance.lend(),
        },
    );
    let mut kept = values.map(Guarded::kept);
    if kept.iter().any(Option::is_none) {
        return None;
    }
    Some(Step {
        number,
        values: std::array::from_fn(|k| kept[k].take().unwrap_or_default()),
        shape: shape.kept()?,
    })
}

impl Call for Chain {
    type Case = Case;
    type Answer = Answer;

    const NAME: &'static str = "chained bend files";
    const IN_ORIGINAL: bool = false;
    const PLACES: &'static [Place] = &[Place::Chain];
    const CLASSES: &'static [Class] = &[
        Class {
            group: "number",
            names: &["0", "1", "2", "3", "4", "10", "14", "15"],
        },
        Class {
            group: "steps",
            names: STEPS,
        },
        Class {
            group: "refused by",
            names: NEWEST,
        },
        Class {
            group: "refused at an older step by",
            names: OLDER,
        },
        Class {
            group: "link",
            names: &[
                "0",
                "1 to 15",
                "16 to 27",
                "28 or more",
                "at its own offset",
                "below it",
            ],
        },
        Class {
            group: "length",
            names: &[
                "15", "16", "65536", "65537", "1048575", "1048576", "1048577",
            ],
        },
        Class {
            group: "step asked for",
            names: &["read", "no such step", "refused", "buffer too short"],
        },
        Class {
            group: "rows",
            names: ROWS,
        },
        Class {
            group: "values have",
            names: &["NaN", "no NaN"],
        },
        Class {
            group: "example",
            names: EXAMPLES.split_at(43).0,
        },
    ];

    fn families() -> Vec<&'static str> {
        chains::families()
    }

    fn case(family: &str, rng: &mut Rng) -> Option<Case> {
        chains::case(family, rng)
    }

    fn reference(case: &Case, rule: Rule) -> Answer {
        let walk = chain::walk(&case.file, rule);
        let (number, steps, ends) = reference_ends(case, &walk, rule);
        let asked = case.asked.iter();
        Answer {
            number,
            steps,
            ends,
            read: asked
                .map(|&step| reference_step(case, step, rule))
                .collect(),
            margins_kept: true,
        }
    }

    /// The original has no files.
    fn original(_: &Case, _: &Answer) -> Option<Answer> {
        None
    }

    fn port(case: &Case) -> Option<Answer> {
        let calls = port::CHAIN?;
        let mut steps = Guarded::filled(usize::GUARD, case.steps_len);
        let mut ends = Guarded::filled(usize::GUARD, case.ends_len);
        let number = (calls.steps)(&case.file, steps.lend(), ends.lend());
        let asked = case.asked.iter();
        let read: Option<Vec<Step>> = asked.map(|&k| port_step(calls.step, case, k)).collect();
        let (steps, ends) = (steps.kept(), ends.kept());
        let margins_kept = steps.is_some() && ends.is_some() && read.is_some();
        Some(Answer {
            number,
            steps: steps.unwrap_or_default(),
            ends: ends.unwrap_or_default(),
            read: read.unwrap_or_default(),
            margins_kept,
        })
    }

    fn difference(expected: &Answer, found: &Answer, _: Zeros) -> Option<&'static str> {
        if !found.margins_kept {
            Some("what lies beside a lent buffer")
        } else if expected.number != found.number {
            Some("number")
        } else if expected.steps != found.steps {
            Some("how many steps")
        } else if expected.ends != found.ends {
            Some("where they end")
        } else {
            let pairs = expected.read.iter().zip(&found.read);
            pairs
                .map(|(a, b)| step_difference(a, b))
                .find(Option::is_some)?
        }
    }

    fn cover(case: &Case, answer: &Answer, coverage: &mut Coverage) {
        cover_file(case, answer, coverage);
        for step in &answer.read {
            let name = match step.number {
                0 => "read",
                NO_STEP => "no such step",
                TOO_SHORT => "buffer too short",
                _ => "refused",
            };
            coverage.count("step asked for", name);
            if step.number == 0 {
                let rows = step.shape[0];
                coverage.count("rows", NUMBERS[rows]);
                let nan = step.values.iter().flatten().any(|v| v.is_nan());
                coverage.count("values have", if nan { "NaN" } else { "no NaN" });
            }
        }
    }

    fn show_case(case: &Case) -> String {
        let shown = &case.file[..case.file.len().min(4_096)];
        let bytes: String = shown.iter().map(|byte| format!("{byte:02X}")).collect();
        format!(
            "{} bytes, steps asked for {:?}, lengths {} {} {:?}\n{bytes}\n{:#?}",
            case.file.len(),
            case.asked,
            case.steps_len,
            case.ends_len,
            case.lent,
            chain::walk(&case.file, Rule::None)
        )
    }

    fn show_answer(answer: &Answer) -> String {
        let mut text = format!(
            "  number {} steps {:?} ends {:?}\n",
            answer.number, answer.steps, answer.ends
        );
        for step in &answer.read {
            text.push_str(&format!(
                "  step: number {} shape {:?}\n",
                step.number, step.shape
            ));
            for values in &step.values {
                text.push_str(&show_values("values", &values[..values.len().min(8)]));
            }
        }
        text
    }
}

/// Refusals by name, at the newest step and at an older one.
const NEWEST: &[&str] = &["1", "2", "3", "4", "14"];
const OLDER: &[&str] = &["1", "2", "3", "4", "14", "15"];

fn step_difference(expected: &Step, found: &Step) -> Option<&'static str> {
    let mut values = expected.values.iter().zip(&found.values);
    if expected.number != found.number {
        Some("a step's number")
    } else if expected.shape != found.shape {
        Some("a step's shape")
    } else if !values.all(|(a, b)| all_same(a, b, Zeros::WithSign)) {
        Some("a step's values")
    } else {
        None
    }
}

/// The classes of the file itself.
fn cover_file(case: &Case, answer: &Answer, coverage: &mut Coverage) {
    let number = answer.number.to_string();
    coverage.named(Chain::CLASSES, "number", &number);
    coverage.named(Chain::CLASSES, "length", &case.file.len().to_string());
    if let Some(example) = case.example {
        coverage.count("example", EXAMPLES[example - 1]);
    }
    let walk = chain::walk(&case.file, Rule::None);
    if walk.number == 0 {
        coverage.count("steps", STEPS[walk.steps.len() - 1]);
    } else if walk.steps.is_empty() {
        coverage.named(Chain::CLASSES, "refused by", &walk.number.to_string());
    } else {
        let group = "refused at an older step by";
        coverage.named(Chain::CLASSES, group, &walk.number.to_string());
    }
    for step in &walk.steps {
        let size = match step.link {
            0 => "0",
            1..=15 => "1 to 15",
            16..=27 => "16 to 27",
            _ => "28 or more",
        };
        coverage.count("link", size);
        let own = step.place - chain::LINK;
        let place = if step.link == own {
            "at its own offset"
        } else {
            "below it"
        };
        coverage.count("link", place);
    }
}
