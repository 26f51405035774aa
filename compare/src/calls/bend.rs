//! Bend files: the whole output of bendsolve.

use super::guard::Guarded;
use super::{Call, Zeros};
use crate::cases::files::FAMILIES;
use crate::cases::random::Rng;
use crate::coverage::{Class, Coverage};
use crate::port;
use crate::reference::print::bendsolve;
use crate::reference::rule::{Place, Rule};

pub struct Bend;

/// What bendsolve must print for a file: the original's answer as document 01
/// prints it, or where the original has none, a refusal, the reference's.
pub fn expected(file: &Vec<u8>) -> Vec<u8> {
    let reference = Bend::reference(file, Rule::None);
    Bend::original(file, &reference).unwrap_or(reference)
}

impl Call for Bend {
    /// The file's bytes.
    type Case = Vec<u8>;
    /// What is printed.
    type Answer = Vec<u8>;

    const NAME: &'static str = "bend files";
    const PLACES: &'static [Place] = &[Place::Bend];
    const CLASSES: &'static [Class] = &[Class {
        group: "first line",
        names: &[
            "solved",
            "infeasible growth",
            "infeasible pass",
            "infeasible sweep",
            "refused 1",
            "refused 2",
            "refused 3",
            "refused 4",
            "refused 8",
        ],
    }];

    fn families() -> Vec<&'static str> {
        FAMILIES.iter().map(|&(name, _)| name).collect()
    }

    fn case(family: &str, rng: &mut Rng) -> Option<Vec<u8>> {
        let (_, make) = FAMILIES.iter().find(|&&(name, _)| name == family)?;
        Some(make(rng))
    }

    fn reference(file: &Vec<u8>, rule: Rule) -> Vec<u8> {
        bendsolve(file, rule)
    }

    #[cfg(not(original))]
    fn original(_: &Vec<u8>, _: &Vec<u8>) -> Option<Vec<u8>> {
        None
    }

    #[cfg(original)]
    fn original(file: &Vec<u8>, _: &Vec<u8>) -> Option<Vec<u8>> {
        original(file)
    }

    fn port(file: &Vec<u8>) -> Option<Vec<u8>> {
        let call = port::BEND?;
        let lost = || Some(b"a buffer is not as it was".to_vec());
        if lend(call, file, ROOM - 1).is_none_or(|(count, left)| count > 0 || !kept(&left)) {
            return lost();
        }
        let Some((count, left)) = lend(call, file, ROOM + file.len() % 3) else {
            return lost();
        };
        match left.split_at_checked(count) {
            Some((answer, rest)) if kept(rest) => Some(answer.to_vec()),
            _ => lost(),
        }
    }

    fn difference(expected: &Vec<u8>, found: &Vec<u8>, _: Zeros) -> Option<&'static str> {
        (expected != found).then_some("output")
    }

    fn cover(_: &Vec<u8>, answer: &Vec<u8>, coverage: &mut Coverage) {
        let first = answer
            .split(|&byte| byte == b'\n')
            .next()
            .unwrap_or_default();
        for class in Self::CLASSES {
            for &name in class.names {
                if name.as_bytes() == first {
                    coverage.count(class.group, name);
                }
            }
        }
    }

    fn show_case(file: &Vec<u8>) -> String {
        let bytes: String = file.iter().map(|byte| format!(" {byte:02X}")).collect();
        format!("{} bytes:{bytes}\n", file.len())
    }

    fn show_answer(answer: &Vec<u8>) -> String {
        String::from_utf8_lossy(answer).into_owned()
    }
}

/// What a lent buffer holds at first.
const FILL: u8 = 0x6E;

/// The fewest bytes of a buffer that the port fills.
const ROOM: usize = 2_048;

/// The port's count and what it leaves in a buffer of so many bytes, if it
/// wrote nothing past it.
fn lend(call: port::Bend, file: &[u8], length: usize) -> Option<(usize, Vec<u8>)> {
    let mut out = Guarded::filled(FILL, length);
    let count = call(file, out.lend());
    Some((count, out.kept()?))
}

fn kept(bytes: &[u8]) -> bool {
    bytes.iter().all(|&byte| byte == FILL)
}

/// The original has no reader and no printer: it solves what the reference
/// reads, and the reference prints its answer.
#[cfg(original)]
fn original(file: &[u8]) -> Option<Vec<u8>> {
    use super::solve::{self, Solve};
    use crate::reference::print;
    let case = solve_case(file)?;
    let known = Solve::reference(&case, Rule::None);
    let mut answer = solve::original(&case, &known)?;
    for (v, &signed) in answer.nu.iter_mut().zip(&known.nu) {
        // A zero's sign in a multiplier is not compared.
        if *v == 0.0 && signed == 0.0 {
            *v = signed;
        }
    }
    let (outcome, report) = answer.ending?;
    let text = print::text(
        outcome,
        &report,
        &answer.states,
        &answer.nu,
        &answer.rows,
        Rule::None,
    );
    Some(text.into_bytes())
}

/// The solve that a file asks for, if it can be read.
#[cfg(original)]
fn solve_case(file: &[u8]) -> Option<crate::cases::solve::Case> {
    let bend = crate::reference::bend::read(file, Rule::None).ok()?;
    let n = bend.u_free.len();
    let problem = crate::cases::problem::Owned {
        w: bend.w,
        u_free: bend.u_free,
        lo: bend.lo,
        hi: bend.hi,
        scale: bend.scale,
        nu: bend.nu,
        motion: bend.motion,
        tolerance: bend.tolerance,
    };
    let (states_len, rows_len) = (n, n);
    Some(crate::cases::solve::Case {
        problem,
        workspace_len: 2_304,
        states_len,
        rows_len,
        fill: 0.0,
        example: None,
    })
}
