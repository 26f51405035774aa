//! Joins of reports: `continued`, `and`, and a list.

use super::{same, Call, Zeros};
use crate::cases::random::Rng;
use crate::cases::reports::{Case, FAMILIES};
use crate::coverage::{Class, Coverage};
use crate::port;
use crate::reference::report::{joined, SolveReport, NOTHING};
use crate::reference::rule::{Place, Rule};

pub struct Joins;

/// The three joins of a case.
pub struct Answer {
    continued: Result<SolveReport, u32>,
    and: Result<SolveReport, u32>,
    list: Result<SolveReport, u32>,
}

/// Whether two reports are the same, the residual's zeros as asked.
pub fn same_report(a: &SolveReport, b: &SolveReport, zeros: Zeros) -> bool {
    let counts = |r: &SolveReport| {
        [
            r.increments,
            r.iterations,
            r.most_iterations,
            r.rejected,
            r.anchors,
            r.sweeps,
            r.exact_passes,
            r.stopped,
        ]
    };
    counts(a) == counts(b)
        && a.converged == b.converged
        && a.exact == b.exact
        && same(a.residual, b.residual, zeros)
}

fn same_answer(a: &Result<SolveReport, u32>, b: &Result<SolveReport, u32>, zeros: Zeros) -> bool {
    match (a, b) {
        (Ok(a), Ok(b)) => same_report(a, b, zeros),
        (Err(a), Err(b)) => a == b,
        _ => false,
    }
}

/// The reports as the original's, and back.
#[cfg(original)]
pub mod theirs {
    use crate::original::report::SolveReport as Theirs;
    use crate::reference::report::SolveReport;

    pub fn of(r: &SolveReport) -> Theirs {
        Theirs {
            increments: r.increments,
            iterations: r.iterations,
            most_iterations: r.most_iterations,
            rejected: r.rejected,
            anchors: r.anchors,
            sweeps: r.sweeps,
            exact_passes: r.exact_passes,
            converged: r.converged,
            exact: r.exact,
            residual: r.residual,
        }
    }

    /// The original has no rows stopped: their sum is put in.
    pub fn back(r: &Theirs, stopped: u32) -> SolveReport {
        SolveReport {
            increments: r.increments,
            iterations: r.iterations,
            most_iterations: r.most_iterations,
            rejected: r.rejected,
            anchors: r.anchors,
            sweeps: r.sweeps,
            exact_passes: r.exact_passes,
            stopped,
            converged: r.converged,
            exact: r.exact,
            residual: r.residual,
        }
    }
}

/// The reports as the port's C interface has them, and back.
pub mod ours {
    use crate::port::Join;
    use crate::reference::report::SolveReport;

    /// What the slices hold before a join and past its answer.
    const GUARD: u32 = 0xA5A5_5A5A;

    pub fn counts(r: &SolveReport) -> [u32; 10] {
        [
            r.increments,
            r.iterations,
            r.most_iterations,
            r.rejected,
            r.anchors,
            r.sweeps,
            r.exact_passes,
            r.converged as u32,
            r.exact as u32,
            r.stopped,
        ]
    }

    pub fn back(counts: &[u32], residual: f64) -> SolveReport {
        SolveReport {
            increments: counts[0],
            iterations: counts[1],
            most_iterations: counts[2],
            rejected: counts[3],
            anchors: counts[4],
            sweeps: counts[5],
            exact_passes: counts[6],
            converged: counts[7] == 1,
            exact: counts[8] == 1,
            stopped: counts[9],
            residual,
        }
    }

    /// One join. Lengths of 9 and 0 must get 13, and a refusal or a longer
    /// slice must keep what it held; otherwise the answer is a number that no
    /// party gives.
    pub fn join(join: Join, a: &SolveReport, b: &SolveReport) -> Result<SolveReport, u32> {
        const CHANGED: u32 = u32::MAX;
        let (first, second) = (counts(a), counts(b));
        let (a, b) = ((&first[..], a.residual), (&second[..], b.residual));
        let mut left = [GUARD; 12];
        let mut residual = [-7.0; 2];
        let kept = |left: &[u32; 12], residual: &[f64; 2], from: usize| {
            left[from..].iter().all(|&c| c == GUARD)
                && residual[from / 10..].iter().all(|&r| r == -7.0)
        };
        let short = [
            join((&first[..9], a.1), b, &mut left, &mut residual),
            join(a, (&second[..9], b.1), &mut left, &mut residual),
            join(a, b, &mut left[..9], &mut residual),
            join(a, b, &mut left, &mut residual[..0]),
        ];
        if short != [13; 4] || !kept(&left, &residual, 0) {
            return Err(CHANGED);
        }
        let number = join(a, b, &mut left, &mut residual);
        let from = if number == 0 { 10 } else { 0 };
        if !kept(&left, &residual, from) {
            return Err(CHANGED);
        }
        if number == 0 {
            Ok(back(&left, residual[0]))
        } else {
            Err(number)
        }
    }
}

impl Call for Joins {
    type Case = Case;
    type Answer = Answer;

    const NAME: &'static str = "joins";
    const PLACES: &'static [Place] = &[Place::Joins];
    const CLASSES: &'static [Class] = &[
        Class {
            group: "continued",
            names: &["joined", "13"],
        },
        Class {
            group: "and",
            names: &["joined", "13"],
        },
        Class {
            group: "list",
            names: &["joined", "13"],
        },
        Class {
            group: "residual",
            names: &["NaN", "zero", "other"],
        },
    ];

    fn families() -> Vec<&'static str> {
        FAMILIES.iter().map(|&(name, _)| name).collect()
    }

    fn case(family: &str, rng: &mut Rng) -> Option<Case> {
        let (_, make) = FAMILIES.iter().find(|&&(name, _)| name == family)?;
        Some(make(rng))
    }

    fn reference(case: &Case, rule: Rule) -> Answer {
        Answer {
            continued: case.first.continued(case.second, rule),
            and: case.first.and(case.second, rule),
            list: joined(&case.list, rule),
        }
    }

    #[cfg(not(original))]
    fn original(_: &Case, _: &Answer) -> Option<Answer> {
        None
    }

    /// Where document 01 says 13 the original's sum overflows, and it is not
    /// asked for that join.
    #[cfg(original)]
    fn original(case: &Case, reference: &Answer) -> Option<Answer> {
        use crate::original::report::SolveReport as Theirs;
        let (first, second) = (theirs::of(&case.first), theirs::of(&case.second));
        let stopped = || case.first.stopped + case.second.stopped;
        let list = || {
            case.list
                .iter()
                .fold(Theirs::NOTHING, |sum, r| sum.and(theirs::of(r)))
        };
        Some(Answer {
            continued: reference
                .continued
                .map(|_| theirs::back(&first.continued(second), stopped())),
            and: reference
                .and
                .map(|_| theirs::back(&first.and(second), stopped())),
            list: reference.list.map(|_| {
                let stopped = case.list.iter().map(|r| r.stopped).sum();
                theirs::back(&list(), stopped)
            }),
        })
    }

    /// The port joins a list by `and` from NOTHING, report by report.
    fn port(case: &Case) -> Option<Answer> {
        let joins = port::JOINS?;
        let list = case
            .list
            .iter()
            .try_fold(NOTHING, |sum, r| ours::join(joins.and, &sum, r));
        Some(Answer {
            continued: ours::join(joins.continued, &case.first, &case.second),
            and: ours::join(joins.and, &case.first, &case.second),
            list,
        })
    }

    fn difference(expected: &Answer, found: &Answer, zeros: Zeros) -> Option<&'static str> {
        if !same_answer(&expected.continued, &found.continued, zeros) {
            Some("continued")
        } else if !same_answer(&expected.and, &found.and, zeros) {
            Some("and")
        } else if !same_answer(&expected.list, &found.list, zeros) {
            Some("list")
        } else {
            None
        }
    }

    fn cover(_: &Case, answer: &Answer, coverage: &mut Coverage) {
        let name = |joined: &Result<SolveReport, u32>| if joined.is_ok() { "joined" } else { "13" };
        coverage.count("continued", name(&answer.continued));
        coverage.count("and", name(&answer.and));
        coverage.count("list", name(&answer.list));
        if let Ok(report) = answer.and {
            let residual = report.residual;
            let other = if residual == 0.0 { "zero" } else { "other" };
            coverage.count("residual", if residual.is_nan() { "NaN" } else { other });
        }
    }

    fn show_case(case: &Case) -> String {
        format!(
            "first {:?}\nsecond {:?}\nlist {:#?}\n",
            case.first, case.second, case.list
        )
    }

    fn show_answer(answer: &Answer) -> String {
        format!(
            "  continued {:?}\n  and {:?}\n  list {:?}\n",
            answer.continued, answer.and, answer.list
        )
    }
}
