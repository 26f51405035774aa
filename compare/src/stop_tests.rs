//! The worked examples of the rows that the last sweep stops held against the
//! reference, and the mistakes that each of them shows.

use crate::calls::solve::{Answer, Solve};
use crate::calls::{all_same, Call, Zeros};
use crate::cases::solve::Case;
use crate::cases::stop_examples::{examples, Example};
use crate::reference::rule::{Rule, RULES};
use crate::reference::solve::stopped_again;

/// The reference's answer to an example.
fn answer(example: &Example, rule: Rule) -> Answer {
    let n = example.problem.n();
    let case = Case {
        problem: example.problem.clone(),
        workspace_len: 2_304,
        states_len: n,
        rows_len: n,
        fill: 0.5,
        example: Some(example.number),
    };
    Solve::reference(&case, rule)
}

/// Whether an answer's count of rows stopped is not the example's.
fn miscounts(example: &Example, rule: Rule) -> bool {
    let (_, report) = answer(example, rule).ending.expect("accepted");
    report.stopped != example.report.stopped
}

#[test]
fn twenty_three_worked_stops() {
    let solves = &examples().solves;
    assert_eq!(solves.len(), 23);
    for example in solves {
        let answer = answer(example, Rule::None);
        let (outcome, report) = answer.ending.expect("accepted");
        let number = example.number;
        assert_eq!(outcome, example.outcome, "example {number}");
        assert_eq!(report, example.report, "example {number}");
        assert_eq!(answer.states, example.states, "example {number}");
        assert!(
            all_same(&answer.nu, &example.nu, Zeros::WithSign),
            "example {number}"
        );
        assert_eq!(
            answer.rows[..example.rows.len()],
            example.rows,
            "example {number}"
        );
    }
}

/// The second way of counting agrees, which stands in for the original's
/// missing count.
#[test]
fn counted_a_second_way() {
    for example in &examples().solves {
        let p = &example.problem;
        let again = stopped_again(&p.lend(), &p.nu, example.report.sweeps);
        assert_eq!(again, example.report.stopped, "example {}", example.number);
    }
}

/// Each likely mistake of the count shows in the examples that are said to show
/// it, and in no others.
#[test]
fn mistakes_show_where_they_are_said_to() {
    let examples = examples();
    let of_stops = |rule: &&Rule| rule.text().starts_with("stopped: ");
    let mut said = Vec::new();
    for &rule in RULES.iter().filter(of_stops) {
        let shown = examples
            .solves
            .iter()
            .filter(|example| miscounts(example, rule));
        let shown: Vec<usize> = shown.map(|example| example.number).collect();
        said.push((format!("{rule:?}"), shown));
    }
    let listed = examples.mistakes.iter();
    let listed: Vec<(String, Vec<usize>)> = listed
        .map(|mistake| (mistake.rule.to_string(), mistake.shown_by.clone()))
        .collect();
    assert_eq!(said, listed);
    assert_eq!(said.len(), 9);
}
