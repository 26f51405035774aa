//! The solve: outcome, cause, report, row list, states, multipliers, and every
//! lent buffer whole.

use super::guard::{Guard, Guarded};
use super::{all_same, same, show_values, Call, Zeros};
use crate::cases::random::Rng;
use crate::cases::solve::{self as cases, Case};
use crate::coverage::{Class, Coverage, EXAMPLES, NUMBERS, ROWS};
use crate::port;
use crate::reference::problem::{Lent, WORKSPACE};
use crate::reference::rule::{Place, Rule};
#[cfg(original)]
use crate::reference::solve::stopped_again;
use crate::reference::solve::{solve, BoxReport, Cause, Outcome};

pub struct Solve;

/// What a solve leaves.
#[derive(Clone)]
pub struct Answer {
    /// 0, or the number of the refusal; a number of its own where the
    /// original panics and document 01 does not refuse.
    pub number: u32,
    pub ending: Option<(Outcome, BoxReport)>,
    pub nu: Vec<f64>,
    pub states: Vec<u8>,
    pub rows: Vec<usize>,
    /// What lies past the part of the workspace that is free; all of it after
    /// a refused call.
    pub rest: Vec<f64>,
}

/// The number given to a panic that document 01 has no refusal for.
#[cfg(original)]
const PANICKED: u32 = 99;

fn lent_workspace(case: &Case) -> Vec<f64> {
    let mut workspace = vec![case.fill; case.workspace_len];
    for v in workspace.iter_mut().skip(WORKSPACE) {
        *v = f64::GUARD;
    }
    workspace
}

/// Runs `call` on buffers as the case lends them.
pub fn lend(
    case: &Case,
    call: impl FnOnce(&mut Lent) -> Result<(Outcome, BoxReport), u32>,
) -> Answer {
    let mut nu = case.problem.nu.clone();
    let mut workspace = lent_workspace(case);
    let mut states = vec![u8::GUARD; case.states_len];
    let mut rows = vec![usize::GUARD; case.rows_len];
    let mut lent = Lent {
        nu: &mut nu,
        workspace: &mut workspace,
        states: &mut states,
        rows: &mut rows,
    };
    let answer = call(&mut lent);
    let number = answer.err().unwrap_or(0);
    let free = if number == 0 {
        WORKSPACE.min(workspace.len())
    } else {
        0
    };
    Answer {
        number,
        ending: answer.ok(),
        nu,
        states,
        rows,
        rest: workspace[free..].to_vec(),
    }
}

/// The original's answer to a case that the reference accepts or refuses with
/// 6 to 9, in the place where the reference's stands.
#[cfg(original)]
pub fn original(case: &Case, reference: &Answer) -> Option<Answer> {
    use crate::original::asks;
    use crate::original::boxed::{BoxProblem, BoxSolver};
    if matches!(reference.number, 5 | 10 | 11) {
        return None;
    }
    let p = &case.problem;
    let problem = BoxProblem {
        w: &p.w,
        u_free: &p.u_free,
        lo: &p.lo,
        hi: &p.hi,
        scale: &p.scale,
        motion: &p.motion,
        motion_tolerance: p.tolerance,
    };
    let mut solver = BoxSolver::new();
    let mut nu = p.nu.clone();
    let Some(outcome) = asks(|| solver.solve(&problem, &mut nu)) else {
        let number = if (6..=9).contains(&reference.number) {
            reference.number
        } else {
            PANICKED
        };
        return Some(lend(case, |_| Err(number)));
    };
    Some(lend(case, |lent| {
        lent.nu.copy_from_slice(&nu);
        for (byte, &state) in lent.states.iter_mut().zip(solver.states()) {
            *byte = state_byte(state);
        }
        Ok(ending(case, outcome, reference, lent))
    }))
}

/// The number given to a port that writes past a lent buffer.
pub const MARGINS_CHANGED: u32 = 98;

/// The port's answer, each buffer lent between guard values.
pub fn ported(case: &Case, call: impl FnOnce(port::Lent) -> u32) -> Answer {
    let p = &case.problem;
    let mut nu = Guarded::of(&p.nu);
    let mut states = Guarded::filled(u8::GUARD, case.states_len);
    let mut rows = Guarded::filled(usize::GUARD, case.rows_len);
    let mut workspace = Guarded::of(&lent_workspace(case));
    let mut counts = Guarded::filled(usize::GUARD, 8);
    let mut residual = Guarded::filled(f64::GUARD, 1);
    let number = call(port::Lent {
        w: &p.w,
        u_free: &p.u_free,
        lo: &p.lo,
        hi: &p.hi,
        scale: &p.scale,
        motion: &p.motion,
        tolerance: p.tolerance,
        nu: nu.lend(),
        states: states.lend(),
        rows: rows.lend(),
        workspace: workspace.lend(),
        counts: counts.lend(),
        residual: residual.lend(),
    });
    let kept = (|| {
        let free = if number == 0 { WORKSPACE } else { 0 };
        let rest = workspace.kept()?[free..].to_vec();
        Some((
            nu.kept()?,
            states.kept()?,
            rows.kept()?,
            rest,
            counts.kept()?,
            residual.kept()?,
        ))
    })();
    let (nu, states, rows, rest, counts, residual) = kept.unwrap_or_default();
    let told = port_ending(number, &counts, &residual);
    Answer {
        number: if told.is_some() {
            number
        } else {
            MARGINS_CHANGED
        },
        ending: told.flatten(),
        nu,
        states,
        rows,
        rest,
    }
}

/// What the counts tell: nothing where they are not an answer's or a refusal
/// wrote them, no ending where the call was refused.
fn port_ending(
    number: u32,
    counts: &[usize],
    residual: &[f64],
) -> Option<Option<(Outcome, BoxReport)>> {
    let &[outcome, sweeps, exact_passes, converged, exact, idle, listed, stopped] = counts else {
        return None;
    };
    let &[residual] = residual else {
        return None;
    };
    if number != 0 {
        let kept = counts.iter().all(|&c| c == usize::GUARD) && residual == f64::GUARD;
        return kept.then_some(None);
    }
    let outcome = match outcome {
        0 => Outcome::Solved,
        1 => Outcome::Infeasible(Cause::Growth, listed),
        2 => Outcome::Infeasible(Cause::Pass, listed),
        3 => Outcome::Infeasible(Cause::Sweep, listed),
        _ => return None,
    };
    // a count that no u32 holds is not an answer's
    let (sweeps, exact_passes) = (sweeps.try_into().ok()?, exact_passes.try_into().ok()?);
    Some(Some((
        outcome,
        BoxReport {
            sweeps,
            exact_passes,
            converged: converged == 1,
            exact: exact == 1,
            residual,
            idle: idle.try_into().ok()?,
            stopped: stopped.try_into().ok()?,
        },
    )))
}

/// Whether a multiplier left lies past a million scales.
#[cfg(original)]
fn grown(case: &Case, nu: &[f64]) -> bool {
    nu.iter()
        .zip(&case.problem.scale)
        .any(|(&v, &s)| v.abs() > 1e6 * s)
}

#[cfg(original)]
fn state_byte(state: crate::original::boxed::RowState) -> u8 {
    use crate::original::boxed::RowState;
    match state {
        RowState::Inside => 0,
        RowState::AtLo => 1,
        RowState::AtHi => 2,
        RowState::Idle => 3,
    }
}

/// The original's outcome and report. It has no cause: growth is told by its
/// own test on the multipliers left, a ray between checkpoints can only be the
/// sweep's, and at a checkpoint pass or sweep is the reference's word.
#[cfg(original)]
fn ending(
    case: &Case,
    outcome: crate::original::boxed::BoxOutcome,
    reference: &Answer,
    lent: &mut Lent,
) -> (Outcome, BoxReport) {
    use crate::original::boxed::BoxOutcome;
    let (rows, report) = match outcome {
        BoxOutcome::Solved(report) => (None, report),
        BoxOutcome::Infeasible { rows, report } => (Some(rows), report),
    };
    let report = BoxReport {
        sweeps: report.sweeps,
        exact_passes: report.exact_passes,
        converged: report.converged,
        exact: report.exact,
        residual: report.residual,
        idle: report.idle,
        // the original has no such count: the reference's second way of counting stands in for it
        stopped: stopped_again(&case.problem.lend(), &case.problem.nu, report.sweeps),
    };
    let Some(rows) = rows else {
        return (Outcome::Solved, report);
    };
    let checkpoint = report.sweeps.is_power_of_two() || report.sweeps == 200;
    let cause = match reference.ending {
        _ if grown(case, lent.nu) => Cause::Growth,
        Some((Outcome::Infeasible(Cause::Pass, _), _)) if checkpoint => Cause::Pass,
        _ => Cause::Sweep,
    };
    lent.rows[..rows.len()].copy_from_slice(&rows);
    (Outcome::Infeasible(cause, rows.len()), report)
}

/// The first field in which two reports differ.
fn report_difference(a: &BoxReport, b: &BoxReport) -> Option<&'static str> {
    if a.sweeps != b.sweeps {
        Some("sweeps")
    } else if a.exact_passes != b.exact_passes {
        Some("exact passes")
    } else if a.converged != b.converged {
        Some("converged")
    } else if a.exact != b.exact {
        Some("exact")
    } else if !same(a.residual, b.residual, Zeros::WithSign) {
        Some("residual")
    } else if a.idle != b.idle {
        Some("idle")
    } else if a.stopped != b.stopped {
        Some("rows stopped")
    } else {
        None
    }
}

/// The first part in which two answers differ.
pub fn difference(expected: &Answer, found: &Answer, zeros: Zeros) -> Option<&'static str> {
    if expected.number != found.number {
        return Some("number");
    }
    if let (Some((outcome, report)), Some((found_outcome, found_report))) =
        (&expected.ending, &found.ending)
    {
        if outcome != found_outcome {
            return Some("outcome, cause or number of rows");
        }
        if let Some(field) = report_difference(report, found_report) {
            return Some(field);
        }
    }
    if expected.rows != found.rows {
        Some("row list")
    } else if expected.states != found.states {
        Some("states")
    } else if !all_same(&expected.nu, &found.nu, zeros) {
        Some("multipliers")
    } else if !all_same(&expected.rest, &found.rest, Zeros::WithSign) {
        Some("the workspace's rest")
    } else {
        None
    }
}

/// The class of a number of sweeps.
fn sweep_class(sweeps: u32) -> &'static str {
    const BOUNDS: [(u32, &str); 10] = [
        (0, "0"),
        (1, "1"),
        (2, "2"),
        (4, "3-4"),
        (8, "5-8"),
        (16, "9-16"),
        (32, "17-32"),
        (64, "33-64"),
        (128, "65-128"),
        (199, "129-199"),
    ];
    BOUNDS
        .iter()
        .find(|&&(most, _)| sweeps <= most)
        .map_or("200", |&(_, name)| name)
}

const SWEEPS: &[&str] = &[
    "0", "1", "2", "3-4", "5-8", "9-16", "17-32", "33-64", "65-128", "129-199", "200",
];
const OUTCOMES: &[&str] = &[
    "solved exact",
    "solved by sweeps",
    "solved at the cap",
    "infeasible growth",
    "infeasible pass",
    "infeasible sweep",
];
const SWEPT: &[&str] = SWEEPS.split_at(1).1;
const STATES: [&str; 4] = ["Inside", "AtLo", "AtHi", "Idle"];

/// Counts what one answer shows.
pub fn cover(case: &Case, answer: &Answer, coverage: &mut Coverage) {
    coverage.number("number", answer.number as usize);
    let Some((outcome, report)) = &answer.ending else {
        return;
    };
    let n = case.problem.n();
    coverage.count("rows", NUMBERS[n]);
    coverage.count("sweeps", sweep_class(report.sweeps));
    let (name, by_sweeps) = match outcome {
        Outcome::Solved if report.exact => ("solved exact", "sweeps of exact"),
        Outcome::Solved if report.converged => ("solved by sweeps", "sweeps of converged"),
        Outcome::Solved => ("solved at the cap", "sweeps at the cap"),
        Outcome::Infeasible(Cause::Growth, _) => ("infeasible growth", "sweeps of growth"),
        Outcome::Infeasible(Cause::Pass, _) => ("infeasible pass", "sweeps of pass"),
        Outcome::Infeasible(Cause::Sweep, _) => ("infeasible sweep", "sweeps of ray"),
    };
    coverage.count("outcome", name);
    coverage.number("rows stopped", report.stopped as usize);
    if report.stopped > 0 {
        coverage.count("outcome with rows stopped", name);
    }
    if let Some(example) = case.example {
        coverage.count("example of stops", EXAMPLES[example - 1]);
    }
    coverage.count(by_sweeps, sweep_class(report.sweeps));
    for &state in &answer.states[..n] {
        let group = if matches!(outcome, Outcome::Solved) {
            "state, solved"
        } else {
            "state, infeasible"
        };
        coverage.count(group, STATES[usize::from(state)]);
    }
    let nan = answer.nu.iter().any(|v| v.is_nan());
    coverage.count("multipliers have", if nan { "NaN" } else { "no NaN" });
}

impl Call for Solve {
    type Case = Case;
    type Answer = Answer;

    const NAME: &'static str = "solve";
    const PLACES: &'static [Place] = &[Place::Solve, Place::LeastNorm];
    const CLASSES: &'static [Class] = &[
        Class {
            group: "number",
            names: &["0", "5", "6", "7", "8", "9", "10"],
        },
        Class {
            group: "rows",
            names: ROWS,
        },
        Class {
            group: "outcome",
            names: OUTCOMES,
        },
        Class {
            group: "outcome with rows stopped",
            names: OUTCOMES,
        },
        Class {
            group: "rows stopped",
            names: ROWS,
        },
        Class {
            group: "example of stops",
            names: EXAMPLES.split_at(23).0,
        },
        Class {
            group: "sweeps",
            names: SWEEPS,
        },
        Class {
            group: "sweeps of exact",
            names: &[
                "0", "1", "2", "3-4", "5-8", "9-16", "17-32", "33-64", "65-128", "200",
            ],
        },
        Class {
            group: "sweeps of converged",
            names: SWEPT,
        },
        Class {
            group: "sweeps of growth",
            names: SWEPT,
        },
        Class {
            group: "sweeps of pass",
            names: &[
                "1", "2", "3-4", "5-8", "9-16", "17-32", "33-64", "65-128", "200",
            ],
        },
        Class {
            group: "sweeps of ray",
            names: SWEPT,
        },
        Class {
            group: "state, solved",
            names: &STATES,
        },
        Class {
            group: "state, infeasible",
            names: &STATES,
        },
        Class {
            group: "multipliers have",
            names: &["NaN", "no NaN"],
        },
    ];

    fn families() -> Vec<&'static str> {
        cases::families()
    }

    fn case(family: &str, rng: &mut Rng) -> Option<Case> {
        cases::case(family, rng)
    }

    fn reference(case: &Case, rule: Rule) -> Answer {
        lend(case, |lent| solve(&case.problem.lend(), lent, rule))
    }

    #[cfg(not(original))]
    fn original(_: &Case, _: &Answer) -> Option<Answer> {
        None
    }

    #[cfg(original)]
    fn original(case: &Case, reference: &Answer) -> Option<Answer> {
        original(case, reference)
    }

    fn port(case: &Case) -> Option<Answer> {
        Some(ported(case, port::SOLVE?))
    }

    fn difference(expected: &Answer, found: &Answer, zeros: Zeros) -> Option<&'static str> {
        difference(expected, found, zeros)
    }

    fn cover(case: &Case, answer: &Answer, coverage: &mut Coverage) {
        cover(case, answer, coverage);
    }

    fn show_case(case: &Case) -> String {
        let p = &case.problem;
        let parts = [
            ("W", &p.w),
            ("u_free", &p.u_free),
            ("lo", &p.lo),
            ("hi", &p.hi),
            ("scale", &p.scale),
            ("nu", &p.nu),
            ("motion", &p.motion),
        ];
        let values: String = parts
            .iter()
            .map(|(name, values)| show_values(name, values))
            .collect();
        format!(
            "n {} workspace {} states {} rows {} long, tolerance {:e}\n{values}",
            p.n(),
            case.workspace_len,
            case.states_len,
            case.rows_len,
            p.tolerance
        )
    }

    fn show_answer(answer: &Answer) -> String {
        format!(
            "  number {} {:?}\n  states {:?}\n  rows {:?}\n{}",
            answer.number,
            answer.ending,
            answer.states,
            answer.rows,
            show_values("nu", &answer.nu)
        )
    }
}
