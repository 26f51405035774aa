//! The worked lists of tallied solves, some with a torn cell wire, from
//! examples/torn.txt, which says how they are written.

use super::exact_examples::{body, mistake, Mistake};
use super::problem::Owned;
use super::stop_examples::{example, problem, Example as Solved};
use crate::reference::report::SolveReport;
use std::sync::OnceLock;

const TEXT: &str = include_str!("../../examples/torn.txt");

/// A solve, what it must answer, or the number of its refusal, and the tally
/// that it must leave. The tests hold the answers against the reference.
#[cfg_attr(not(test), allow(dead_code))]
pub struct Step {
    pub problem: Owned,
    pub answer: Result<Solved, u32>,
    pub tally: SolveReport,
}

/// A list of solves, and the tally at first.
pub struct Example {
    pub number: usize,
    pub from: SolveReport,
    pub steps: Vec<Step>,
}

#[cfg_attr(not(test), allow(dead_code))]
#[derive(Default)]
pub struct Examples {
    pub lists: Vec<Example>,
    pub mistakes: Vec<Mistake>,
}

/// All examples.
pub fn examples() -> &'static Examples {
    static EXAMPLES: OnceLock<Examples> = OnceLock::new();
    EXAMPLES.get_or_init(|| parsed().expect("examples/torn.txt is as it says"))
}

fn parsed() -> Option<Examples> {
    let mut examples = Examples::default();
    let mut lines = body(TEXT);
    while let Some(line) = lines.next() {
        if let Some(rest) = line.strip_prefix("mistake ") {
            examples.mistakes.push(mistake(rest)?);
        } else if let Some(text) = line.strip_prefix("  in ") {
            let list = examples.lists.last_mut()?;
            let problem = problem(text)?;
            let answer = answer(list.number, &problem, lines.next()?)?;
            let tally = tally(lines.next()?.strip_prefix("  tally ")?)?;
            list.steps.push(Step {
                problem,
                answer,
                tally,
            });
        } else {
            let (number, _) = line.split_once(" # ")?;
            examples.lists.push(Example {
                number: number.parse().ok()?,
                from: tally(lines.next()?.strip_prefix("  from ")?)?,
                steps: Vec::new(),
            });
        }
    }
    Some(examples)
}

fn answer(number: usize, problem: &Owned, line: &str) -> Option<Result<Solved, u32>> {
    let text = line.strip_prefix("  out ")?;
    match text.strip_prefix("refused ") {
        Some(refused) => Some(Err(refused.parse().ok()?)),
        None => Some(Ok(example(number, problem.clone(), text)?)),
    }
}

fn tally(text: &str) -> Option<SolveReport> {
    let words: Vec<&str> = text.split(' ').collect();
    let ["counts", increments, iterations, most, rejected, anchors, sweeps, passes, "converged", converged, "exact", exact, "stopped", stopped, "residual", residual] =
        words[..]
    else {
        return None;
    };
    Some(SolveReport {
        increments: increments.parse().ok()?,
        iterations: iterations.parse().ok()?,
        most_iterations: most.parse().ok()?,
        rejected: rejected.parse().ok()?,
        anchors: anchors.parse().ok()?,
        sweeps: sweeps.parse().ok()?,
        exact_passes: passes.parse().ok()?,
        stopped: stopped.parse().ok()?,
        converged: converged == "1",
        exact: exact == "1",
        residual: f64::from_bits(u64::from_str_radix(residual, 16).ok()?),
    })
}
