//! The worked examples of joined row sums held against the reference, the
//! mistakes that each of them shows, and the law that every order and grouping
//! of the same terms leaves the same.

use crate::calls::exact_trees::{ExactTrees, Left, Way};
use crate::calls::Call;
use crate::cases::exact_trees::Trees;
use crate::cases::join_examples::{examples, Example};
use crate::cases::random::Rng;
use crate::reference::rule::{Place, Rule, RULES};

/// Whether an example shows an error.
fn shows(example: &Example, rule: Rule) -> bool {
    let case = Trees {
        ways: example.ways.clone(),
        within: example.answer == 0,
        example: Some(example.number),
    };
    let answer = ExactTrees::reference(&case, rule);
    !answer.ways.iter().all(|way| right(example, way))
}

/// Whether a way answers and leaves what the example says.
fn right(example: &Example, way: &Way) -> bool {
    let left = &example.left;
    let expected = Left {
        words: left.sum.words[..].try_into().expect("67 words"),
        counts: [left.sum.products, u32::from(left.sum.free)],
        sign: left.sign,
        nearest: left.nearest,
    };
    let (last, earlier) = way.numbers.split_last().expect("a call");
    *last == example.answer && earlier.iter().all(|&number| number == 0) && way.left == expected
}

#[test]
fn fifteen_worked_joins() {
    let joins = &examples().joins;
    assert_eq!(joins.len(), 15);
    assert_eq!(joins[0].ways.len(), 18);
    for example in joins {
        assert!(!shows(example, Rule::None), "example {}", example.number);
    }
}

/// Each likely mistake of a join shows in the examples that are said to show
/// it, and in no others. Those of lent slices have no examples.
#[test]
fn mistakes_show_where_they_are_said_to() {
    let examples = examples();
    let of_joins = RULES.iter().filter(|rule| rule.place() == Place::ExactJoin);
    let mut said = Vec::new();
    for &rule in of_joins {
        let shown = examples.joins.iter().filter(|example| shows(example, rule));
        let shown: Vec<usize> = shown.map(|example| example.number).collect();
        if !shown.is_empty() {
            said.push((format!("{rule:?}"), shown));
        }
    }
    let listed = examples.mistakes.iter();
    let listed: Vec<(String, Vec<usize>)> = listed
        .map(|mistake| (mistake.rule.to_string(), mistake.shown_by.clone()))
        .collect();
    assert_eq!(said, listed);
    assert_eq!(said.len(), 19);
}

/// The reference itself keeps the law.
#[test]
fn every_order_and_grouping_leaves_the_same() {
    for family in ExactTrees::families() {
        for index in 0..400 {
            let case = ExactTrees::case(family, &mut Rng::of_case(family, 5, index));
            let case = case.expect("a family's case");
            let answer = ExactTrees::reference(&case, Rule::None);
            assert_eq!(answer.broken(), None, "{family} 5 {index}");
        }
    }
}

/// Rounded sums have no such law: 2^53, 1 and -2^53 give 0 or 1.
#[test]
fn rounded_sums_depend_on_their_order() {
    let large = 9_007_199_254_740_992.0;
    assert_eq!((large + 1.0) - large, 0.0);
    assert_eq!((large - large) + 1.0, 1.0);
}
