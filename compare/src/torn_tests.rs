//! The worked lists of tallied solves held against the reference, and the
//! mistakes that each of them shows.

use crate::calls::joins::same_report;
use crate::calls::tallied::{worked, Answer, Tallied};
use crate::calls::{all_same, Call, Zeros};
use crate::cases::torn_examples::{examples, Example};
use crate::reference::rule::{Rule, RULES};

/// The reference's answers to an example's first `steps` solves.
fn answer(example: &Example, steps: usize, rule: Rule) -> Answer {
    Tallied::reference(&worked(example).first(steps), rule)
}

#[test]
fn twenty_worked_lists() {
    let lists = &examples().lists;
    assert_eq!(lists.len(), 20);
    for example in lists {
        let number = example.number;
        for (k, step) in example.steps.iter().enumerate() {
            let found = answer(example, k + 1, Rule::None);
            assert!(
                same_report(&step.tally, &found.tally, Zeros::WithSign),
                "list {number}, solve {k}"
            );
            let answer = &found.answers[k];
            match &step.answer {
                Err(refused) => assert_eq!(answer.number, *refused, "list {number}, solve {k}"),
                Ok(told) => {
                    let (outcome, report) = answer.ending.as_ref().expect("accepted");
                    assert_eq!(*outcome, told.outcome, "list {number}, solve {k}");
                    assert_eq!(*report, told.report, "list {number}, solve {k}");
                    assert_eq!(answer.states, told.states, "list {number}, solve {k}");
                    assert!(
                        all_same(&answer.nu, &told.nu, Zeros::WithSign),
                        "list {number}, solve {k}"
                    );
                    let rows = &answer.rows[..told.rows.len()];
                    assert_eq!(rows, told.rows, "list {number}, solve {k}");
                }
            }
        }
    }
}

/// Each likely mistake of taking a report shows in the lists that are said to
/// show it, and in no others.
#[test]
fn mistakes_show_where_they_are_said_to() {
    let examples = examples();
    let of_taking = |rule: &&Rule| rule.text().starts_with("taken: ");
    let mut said = Vec::new();
    for &rule in RULES.iter().filter(of_taking) {
        let shown = examples.lists.iter().filter(|example| {
            (1..=example.steps.len()).any(|steps| {
                let tally = answer(example, steps, rule).tally;
                !same_report(&example.steps[steps - 1].tally, &tally, Zeros::WithSign)
            })
        });
        let shown: Vec<usize> = shown.map(|example| example.number).collect();
        said.push((format!("{rule:?}"), shown));
    }
    let listed = examples.mistakes.iter();
    let listed: Vec<(String, Vec<usize>)> = listed
        .map(|mistake| (mistake.rule.to_string(), mistake.shown_by.clone()))
        .collect();
    assert_eq!(said, listed);
    assert_eq!(said.len(), 9);
}
