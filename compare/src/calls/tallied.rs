//! Lists of tallied solves.

use super::guard::Guarded;
use super::joins::{ours, same_report};
use super::solve::{self, Answer as SolveAnswer};
use super::{Call, Zeros};
use crate::cases::random::Rng;
use crate::cases::solve as cases;
use crate::cases::torn;
use crate::cases::torn_examples::{examples, Example};
use crate::cases::triangles::{self, Pair};
use crate::coverage::{Class, Coverage, EXAMPLES};
use crate::port;
use crate::reference::report::{tallied, SolveReport, NOTHING};
use crate::reference::rule::{Place, Rule};
use crate::reference::triangle::tallied_triangle;

pub struct Tallied;

/// A solve of a list.
struct One {
    /// The call as it is lent.
    sent: cases::Case,
    /// The same with the mirrored matrix, where a triangle is lent.
    mirrored: Option<cases::Case>,
}

impl One {
    fn whole(sent: cases::Case) -> Self {
        One {
            sent,
            mirrored: None,
        }
    }

    fn lower(pair: Pair) -> Self {
        One {
            sent: pair.sent,
            mirrored: Some(pair.mirrored),
        }
    }

    /// The call with the whole matrix, which is the original's.
    #[cfg(original)]
    fn with_matrix(&self) -> &cases::Case {
        self.mirrored.as_ref().unwrap_or(&self.sent)
    }

    fn reference(&self, tally: &mut SolveReport, rule: Rule) -> SolveAnswer {
        let call = match self.mirrored {
            Some(_) => tallied_triangle,
            None => tallied,
        };
        solve::lend(&self.sent, |lent| {
            call(&self.sent.problem.lend(), lent, tally, rule)
        })
    }
}

/// A tally and the solves that join it.
pub struct Case {
    tally: SolveReport,
    solves: Vec<One>,
    /// The order in which they are made.
    order: Vec<usize>,
    /// Whether the tally starts as NOTHING.
    empty: bool,
    /// The worked example that it is.
    example: Option<usize>,
}

#[cfg(test)]
impl Case {
    /// The list's first solves alone, in their own order.
    pub fn first(mut self, solves: usize) -> Self {
        self.solves.truncate(solves);
        self.order = (0..solves).collect();
        self
    }
}

/// The tally at the end and each solve's answer, in the list's order.
pub struct Answer {
    pub tally: SolveReport,
    pub answers: Vec<SolveAnswer>,
}

const LISTS: &str = "tallied/lists";
const FULL: &str = "tallied/full";
/// Lists of solves, some with a torn cell wire.
pub const TORN: &str = "tallied/torn";

/// Whether a solve left a NaN multiplier.
fn left_nan(answer: &SolveAnswer) -> bool {
    answer.nu.iter().any(|v| v.is_nan())
}

/// Makes the solves in the given order.
fn run(
    case: &Case,
    order: &[usize],
    mut make: impl FnMut(&One, &mut SolveReport) -> SolveAnswer,
) -> Answer {
    let mut tally = case.tally;
    let mut answers: Vec<Option<SolveAnswer>> = case.solves.iter().map(|_| None).collect();
    for &k in order {
        answers[k] = Some(make(&case.solves[k], &mut tally));
    }
    Answer {
        tally,
        answers: answers.into_iter().flatten().collect(),
    }
}

/// The refusal of slices too short.
const SHORT: u32 = 10;

/// Whether the port refuses a tally of nine counts and one of no residual,
/// and writes nothing.
fn refuses_short(case: &cases::Case, tally: &SolveReport, call: port::Tallied) -> bool {
    let counts = ours::counts(tally);
    let residual = [tally.residual];
    [(9, 1), (10, 0)].into_iter().all(|(n, m)| {
        let mut lent_counts = Guarded::of(&counts[..n]);
        let mut lent_residual = Guarded::of(&residual[..m]);
        let answer = solve::ported(case, |lent| {
            call((lent_counts.lend(), lent_residual.lend()), lent)
        });
        let refused = solve::lend(case, |_| Err(SHORT));
        solve::difference(&refused, &answer, Zeros::WithSign).is_none()
            && lent_counts.kept().as_deref() == Some(&counts[..n])
            && lent_residual.kept().as_deref() == Some(&residual[..m])
    })
}

/// The port's answer, the tally lent between guard values, a flag in it any
/// number but 0: where the port refuses, the tally must keep every bit.
fn ported(case: &cases::Case, tally: &mut SolveReport, call: port::Tallied) -> SolveAnswer {
    let mut before = ours::counts(tally);
    before[7] *= 7;
    before[8] *= 7;
    let mut counts = Guarded::of(&before);
    let mut residual = Guarded::of(&[tally.residual]);
    let mut answer = solve::ported(case, |lent| call((counts.lend(), residual.lend()), lent));
    let left = counts.kept().zip(residual.kept());
    let (counts, residual) = left.unwrap_or((vec![0; 10], vec![f64::NAN]));
    if !refuses_short(case, tally, call) {
        answer.number = solve::MARGINS_CHANGED;
    } else if answer.number == 0 {
        *tally = ours::back(&counts, residual[0]);
    } else if counts != before || residual[0].to_bits() != tally.residual.to_bits() {
        answer.number = solve::MARGINS_CHANGED;
    }
    answer
}

/// A tally at and around the limits that 11 names.
fn full_tally(rng: &mut Rng) -> SolveReport {
    let near = rng.between(-3, 3);
    let at = |limit: u32| (i64::from(limit) + near).min(i64::from(u32::MAX)) as u32;
    let mut tally = SolveReport {
        residual: 0.5,
        increments: 7,
        sweeps: 30,
        exact_passes: 9,
        stopped: 40,
        ..NOTHING
    };
    match rng.below(5) {
        0 => tally.increments = at(u32::MAX),
        1 => tally.sweeps = at(4_294_967_095),
        2 => tally.exact_passes = at(4_294_967_286),
        3 => tally.stopped = at(4_294_967_263),
        _ => tally.iterations = u32::MAX,
    }
    tally
}

/// Solves of any family, some of them refused for their lengths; half of them
/// have their matrix as its lower triangle.
fn any_solve(rng: &mut Rng) -> Option<One> {
    let families = cases::families();
    let lengths = rng.chance(25);
    let family = if lengths {
        "solve/lengths"
    } else {
        rng.pick(&families)
    };
    if rng.chance(50) {
        return Some(One::lower(triangles::of_family(family, rng)?));
    }
    Some(One::whole(cases::case(family, rng)?))
}

/// Solves some of which have a torn wire, a third of them as triangles; now and
/// then a triangle of any length.
fn torn_solve(rng: &mut Rng) -> Option<One> {
    if rng.chance(3) {
        return Some(One::lower(triangles::of_family("solve/lengths", rng)?));
    }
    let case = torn::solve(rng)?;
    Some(if rng.chance(33) {
        One::lower(triangles::of_case(case))
    } else {
        One::whole(case)
    })
}

/// A worked list as a case, in its own order.
pub fn worked(example: &Example) -> Case {
    let solves = example.steps.iter().map(|step| {
        let n = step.problem.n();
        One::whole(cases::Case {
            problem: step.problem.clone(),
            workspace_len: 2_304,
            states_len: n,
            rows_len: n,
            fill: 0.5,
            example: None,
        })
    });
    Case {
        tally: example.from,
        solves: solves.collect(),
        order: (0..example.steps.len()).collect(),
        empty: example.from.stopped == 0,
        example: Some(example.number),
    }
}

/// What one solve of a list left, for the classes.
fn left(answer: &SolveAnswer) -> Option<&'static str> {
    let (_, report) = answer.ending.as_ref()?;
    Some(match (left_nan(answer), report.exact, report.converged) {
        (false, _, _) => "no NaN",
        (true, true, _) => "NaN, reported exact",
        (true, false, true) => "NaN, reported converged by sweeps",
        (true, false, false) => "NaN, reported neither",
    })
}

impl Call for Tallied {
    type Case = Case;
    type Answer = Answer;

    const NAME: &'static str = "tallied solves";
    const PLACES: &'static [Place] = &[Place::Tally];
    const CLASSES: &'static [Class] = &[
        Class {
            group: "number",
            names: &["0", "5", "6", "7", "8", "9", "10", "11", "16"],
        },
        Class {
            group: "solves",
            names: &["1", "2", "3", "4", "5"],
        },
        Class {
            group: "outcome",
            names: &[
                "solved exact",
                "solved by sweeps",
                "solved at the cap",
                "infeasible growth",
                "infeasible pass",
                "infeasible sweep",
            ],
        },
        Class {
            group: "left",
            names: &[
                "no NaN",
                "NaN, reported exact",
                "NaN, reported converged by sweeps",
                "NaN, reported neither",
            ],
        },
        Class {
            group: "worked list",
            names: EXAMPLES.split_at(20).0,
        },
    ];

    fn families() -> Vec<&'static str> {
        vec![LISTS, FULL, TORN]
    }

    fn case(family: &str, rng: &mut Rng) -> Option<Case> {
        let lists = &examples().lists;
        if family == TORN && rng.chance(5) {
            return Some(worked(&lists[rng.below(lists.len())]));
        }
        let (empty, solve): (bool, fn(&mut Rng) -> Option<One>) = match family {
            LISTS => (true, any_solve),
            FULL => (false, any_solve),
            TORN => (true, torn_solve),
            _ => return None,
        };
        let tally = if empty { NOTHING } else { full_tally(rng) };
        let count = 1 + rng.below(5);
        let solves: Vec<One> = (0..count).filter_map(|_| solve(rng)).collect();
        let order = rng.permutation(solves.len());
        Some(Case {
            tally,
            solves,
            order,
            empty,
            example: None,
        })
    }

    fn reference(case: &Case, rule: Rule) -> Answer {
        run(case, &case.order, |one, tally| one.reference(tally, rule))
    }

    #[cfg(not(original))]
    fn original(_: &Case, _: &Answer) -> Option<Answer> {
        None
    }

    /// From an empty tally the original makes the list front to back, so that
    /// another order of the reference must leave the same tally and answers.
    #[cfg(original)]
    fn original(case: &Case, reference: &Answer) -> Option<Answer> {
        use super::joins::theirs;
        let front_to_back: Vec<usize> = (0..case.solves.len()).collect();
        let order = if case.empty {
            &front_to_back
        } else {
            &case.order
        };
        let mut places = order.iter();
        Some(run(case, order, |one, tally| {
            let known = &reference.answers[*places.next().unwrap_or(&0)];
            if known.number == 16 {
                return known.clone();
            }
            let Some(answer) = solve::original(one.with_matrix(), known) else {
                return known.clone();
            };
            if let Some((_, report)) = &answer.ending {
                let no_nan = !left_nan(&answer);
                let joined = SolveReport {
                    increments: 1,
                    sweeps: report.sweeps,
                    exact_passes: report.exact_passes,
                    stopped: report.stopped,
                    converged: report.converged && no_nan,
                    exact: report.exact && no_nan,
                    residual: report.residual,
                    ..NOTHING
                };
                let stopped = tally.stopped + report.stopped;
                *tally = theirs::back(&theirs::of(tally).and(theirs::of(&joined)), stopped);
            }
            answer
        }))
    }

    /// In the case's order, and from an empty tally front to back and back to
    /// front as well; where one of these differs, that one.
    fn port(case: &Case) -> Option<Answer> {
        let (whole, lower) = (port::TALLIED?, port::TALLIED_TRIANGLE?);
        let made = |order: &[usize]| {
            run(case, order, |one, tally| {
                let call = one.mirrored.as_ref().map_or(whole, |_| lower);
                ported(&one.sent, tally, call)
            })
        };
        let first = made(&case.order);
        if !case.empty {
            return Some(first);
        }
        let onward: Vec<usize> = (0..case.solves.len()).collect();
        let back: Vec<usize> = onward.iter().rev().copied().collect();
        let other = [onward, back]
            .iter()
            .map(|order| made(order))
            .find(|answer| Self::difference(&first, answer, Zeros::WithSign).is_some());
        Some(other.unwrap_or(first))
    }

    fn difference(expected: &Answer, found: &Answer, zeros: Zeros) -> Option<&'static str> {
        for (a, b) in expected.answers.iter().zip(&found.answers) {
            if let Some(part) = solve::difference(a, b, zeros) {
                return Some(part);
            }
        }
        (!same_report(&expected.tally, &found.tally, zeros)).then_some("tally")
    }

    fn cover(case: &Case, answer: &Answer, coverage: &mut Coverage) {
        coverage.number("solves", case.solves.len());
        if let Some(number) = case.example {
            coverage.count("worked list", EXAMPLES[number - 1]);
        }
        for (one, answer) in case.solves.iter().zip(&answer.answers) {
            if let Some(left) = left(answer) {
                coverage.count("left", left);
            }
            solve::cover(&one.sent, answer, coverage);
        }
    }

    fn show_case(case: &Case) -> String {
        let solves: String = case
            .solves
            .iter()
            .map(|one| solve::Solve::show_case(&one.sent))
            .collect();
        format!(
            "tally {:?}, empty {}\norder {:?}\n{solves}",
            case.tally, case.empty, case.order
        )
    }

    fn show_answer(answer: &Answer) -> String {
        let answers: String = answer
            .answers
            .iter()
            .map(solve::Solve::show_answer)
            .collect();
        format!("  tally {:?}\n{answers}", answer.tally)
    }
}
