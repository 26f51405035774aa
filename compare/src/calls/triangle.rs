//! The solve of a triangle: all that a solve leaves, held against the original
//! on the mirrored matrix.

use super::solve::{cover, difference, lend, ported, Answer, Solve};
use super::{Call, Zeros};
use crate::cases::random::Rng;
use crate::cases::triangles::{self as cases, Pair};
use crate::coverage::{Class, Coverage, ROWS};
use crate::port;
use crate::reference::rule::{Place, Rule};
use crate::reference::triangle::solve_triangle;

pub struct Triangle;

impl Call for Triangle {
    type Case = Pair;
    type Answer = Answer;

    const NAME: &'static str = "triangle solve";
    const PLACES: &'static [Place] = &[Place::Triangle];
    const CLASSES: &'static [Class] = &[
        Class {
            group: "number",
            names: &["0", "5", "7", "8", "9", "10", "16"],
        },
        Class {
            group: "rows",
            names: ROWS,
        },
        Class {
            group: "outcome",
            names: &[
                "solved exact",
                "solved by sweeps",
                "solved at the cap",
                "infeasible growth",
                "infeasible pass",
                "infeasible sweep",
            ],
        },
    ];

    fn families() -> Vec<&'static str> {
        cases::families()
    }

    fn case(family: &str, rng: &mut Rng) -> Option<Pair> {
        cases::case(family, rng)
    }

    fn reference(case: &Pair, rule: Rule) -> Answer {
        lend(&case.sent, |lent| {
            solve_triangle(&case.sent.problem.lend(), lent, rule)
        })
    }

    #[cfg(not(original))]
    fn original(_: &Pair, _: &Answer) -> Option<Answer> {
        None
    }

    #[cfg(original)]
    fn original(case: &Pair, reference: &Answer) -> Option<Answer> {
        if reference.number == 16 {
            return None;
        }
        super::solve::original(&case.mirrored, reference)
    }

    fn port(case: &Pair) -> Option<Answer> {
        Some(ported(&case.sent, port::TRIANGLE?))
    }

    fn difference(expected: &Answer, found: &Answer, zeros: Zeros) -> Option<&'static str> {
        difference(expected, found, zeros)
    }

    fn cover(case: &Pair, answer: &Answer, coverage: &mut Coverage) {
        cover(&case.sent, answer, coverage);
    }

    fn show_case(case: &Pair) -> String {
        Solve::show_case(&case.sent)
    }

    fn show_answer(answer: &Answer) -> String {
        Solve::show_answer(answer)
    }
}
