//! The same terms added without rounding in several orders and groupings: the
//! numbers, and the words, counts, sign and nearest f64 that each way leaves.

use super::exact::{show_words, SIGNS};
use super::{Call, Zeros};
use crate::cases::exact_trees::{families, trees, Step, Trees};
use crate::cases::random::Rng;
use crate::coverage::{Class, Coverage, EXAMPLES, ROWS};
use crate::port;
use crate::reference::exact::{nearest, sign, Accumulator, Term, WORDS};
use crate::reference::rule::{Place, Rule};

pub struct ExactTrees;

/// The accumulator that a way leaves.
#[derive(PartialEq, Eq)]
pub struct Left {
    pub words: [u64; WORDS],
    pub counts: [u32; 2],
    pub sign: i8,
    /// The bits of the nearest f64.
    pub nearest: u64,
}

/// What the calls of one way answer and leave.
pub struct Way {
    pub numbers: Vec<u32>,
    pub left: Left,
}

/// What all ways answer.
pub struct Answer {
    /// Whether no call may be refused, and every way must leave the same.
    within: bool,
    pub ways: Vec<Way>,
}

/// The calls by which a way is gone.
trait Party {
    type Sum;
    fn begun(&self, state: &Accumulator) -> Self::Sum;
    fn add(&self, sum: &mut Self::Sum, term: Term) -> u32;
    fn join(&self, sum: &mut Self::Sum, other: &Self::Sum) -> u32;
    fn left(&self, sum: &Self::Sum) -> Left;

    fn way(&self, steps: &[Step]) -> Way {
        let (mut numbers, mut stack) = (Vec::new(), Vec::new());
        for step in steps {
            let number = match step {
                Step::Begin(state) => {
                    stack.push(self.begun(state));
                    continue;
                }
                Step::Add(term) => self.add(stack.last_mut().expect("one is begun"), *term),
                Step::Join => {
                    let other = stack.pop().expect("two are begun");
                    self.join(stack.last_mut().expect("two are begun"), &other)
                }
            };
            numbers.push(number);
        }
        assert_eq!(stack.len(), 1, "a way leaves one");
        Way {
            numbers,
            left: self.left(&stack[0]),
        }
    }

    fn answer(&self, case: &Trees) -> Answer {
        Answer {
            within: case.within,
            ways: case.ways.iter().map(|steps| self.way(steps)).collect(),
        }
    }
}

impl Way {
    /// The first part in which another differs.
    fn difference(&self, found: &Way) -> Option<&'static str> {
        let (left, other) = (&self.left, &found.left);
        if self.numbers != found.numbers {
            Some("number")
        } else if left.counts != other.counts {
            Some("counts")
        } else if left.words != other.words {
            Some("words")
        } else if left.sign != other.sign {
            Some("sign")
        } else if left.nearest != other.nearest {
            Some("nearest")
        } else {
            None
        }
    }
}

impl Answer {
    /// Where it breaks the law, if it does.
    pub fn broken(&self) -> Option<&'static str> {
        let first = &self.ways.first()?.left;
        let mut numbers = self.ways.iter().flat_map(|way| &way.numbers);
        if !self.within {
            None
        } else if numbers.any(|&number| number != 0) {
            Some("a refusal within the limits")
        } else if self.ways.iter().any(|way| way.left != *first) {
            Some("order or grouping")
        } else {
            None
        }
    }
}

/// The reference with an error or none.
struct Reference(Rule);

impl Party for Reference {
    type Sum = Accumulator;

    fn begun(&self, state: &Accumulator) -> Accumulator {
        state.clone()
    }

    fn add(&self, sum: &mut Accumulator, term: Term) -> u32 {
        sum.add(term, self.0).err().unwrap_or(0)
    }

    fn join(&self, sum: &mut Accumulator, other: &Accumulator) -> u32 {
        sum.join(other, self.0).err().unwrap_or(0)
    }

    fn left(&self, sum: &Accumulator) -> Left {
        let mut words = [0; WORDS];
        words.copy_from_slice(&sum.words);
        Left {
            words,
            counts: [sum.products, u32::from(sum.free)],
            sign: sign(&sum.words, self.0),
            nearest: nearest(&sum.words, self.0).to_bits(),
        }
    }
}

/// The port's calls.
struct Port {
    exact: port::Exact,
    join: port::ExactJoin,
    nearest: port::ExactNearest,
}

impl Party for Port {
    type Sum = ([u64; WORDS], [u32; 2]);

    fn begun(&self, state: &Accumulator) -> Self::Sum {
        let mut words = [0; WORDS];
        words.copy_from_slice(&state.words);
        (words, [state.products, u32::from(state.free)])
    }

    fn add(&self, sum: &mut Self::Sum, term: Term) -> u32 {
        match term {
            Term::Free(u) => (self.exact.free)(u, &mut sum.0, &mut sum.1),
            Term::Product(w, nu) => (self.exact.product)(w, nu, &mut sum.0, &mut sum.1),
        }
    }

    fn join(&self, sum: &mut Self::Sum, other: &Self::Sum) -> u32 {
        (self.join)(&mut sum.0, &mut sum.1, &other.0, &other.1)
    }

    fn left(&self, sum: &Self::Sum) -> Left {
        let (mut sign, mut nearest) = ([i8::MAX], [f64::NAN]);
        (self.exact.sign)(&sum.0, &mut sign);
        (self.nearest)(&sum.0, &mut nearest);
        Left {
            words: sum.0,
            counts: sum.1,
            sign: sign[0],
            nearest: nearest[0].to_bits(),
        }
    }
}

impl Call for ExactTrees {
    type Case = Trees;
    type Answer = Answer;

    const NAME: &'static str = "exact sums, in any order and grouping";
    const IN_ORIGINAL: bool = false;
    const PLACES: &'static [Place] = &[Place::ExactJoin];
    const CLASSES: &'static [Class] = &[
        Class {
            group: "number",
            names: &["0", "17", "18"],
        },
        Class {
            group: "law",
            names: &["holds", "past the limits"],
        },
        Class {
            group: "products",
            names: ROWS,
        },
        Class {
            group: "joins",
            names: JOINS,
        },
        Class {
            group: "sign",
            names: SIGNS,
        },
        Class {
            group: "example",
            names: EXAMPLES.split_at(15).0,
        },
    ];

    fn families() -> Vec<&'static str> {
        families()
    }

    fn case(family: &str, rng: &mut Rng) -> Option<Trees> {
        trees(family, rng)
    }

    fn reference(case: &Trees, rule: Rule) -> Answer {
        Reference(rule).answer(case)
    }

    /// The original has no accumulator.
    fn original(_: &Trees, _: &Answer) -> Option<Answer> {
        None
    }

    fn port(case: &Trees) -> Option<Answer> {
        let port = Port {
            exact: port::EXACT?,
            join: port::EXACT_JOIN?,
            nearest: port::EXACT_NEAREST?,
        };
        Some(port.answer(case))
    }

    fn difference(expected: &Answer, found: &Answer, _: Zeros) -> Option<&'static str> {
        let mut ways = expected.ways.iter().zip(&found.ways);
        let difference = ways.find_map(|(expected, found)| expected.difference(found));
        difference.or_else(|| found.broken())
    }

    fn cover(case: &Trees, answer: &Answer, coverage: &mut Coverage) {
        let law = if case.within {
            "holds"
        } else {
            "past the limits"
        };
        coverage.count("law", law);
        if let Some(example) = case.example {
            coverage.count("example", EXAMPLES[example - 1]);
        }
        for (steps, way) in case.ways.iter().zip(&answer.ways) {
            for number in &way.numbers {
                coverage.named(Self::CLASSES, "number", &number.to_string());
            }
            let joins = steps.iter().filter(|step| matches!(step, Step::Join));
            let group = match joins.count() {
                0 => 0,
                1 => 1,
                2..=7 => 2,
                8..=31 => 3,
                _ => 4,
            };
            coverage.count("joins", JOINS[group]);
            coverage.named(Self::CLASSES, "products", &way.left.counts[0].to_string());
            coverage.count("sign", SIGNS[(way.left.sign + 1) as usize]);
        }
    }

    fn show_case(case: &Trees) -> String {
        let mut text = format!("within the limits: {}\n", case.within);
        for (way, steps) in case.ways.iter().enumerate() {
            text.push_str(&format!("way {way}\n"));
            steps.iter().for_each(|step| text.push_str(&shown(step)));
        }
        text
    }

    fn show_answer(answer: &Answer) -> String {
        let mut text = String::new();
        for Way { numbers, left } in &answer.ways {
            text.push_str(&format!(
                "  numbers {numbers:?} counts {:?} sign {} nearest {:016X}\n{}",
                left.counts,
                left.sign,
                left.nearest,
                show_words(&left.words)
            ));
        }
        text
    }
}

/// How many joins a way has.
const JOINS: &[&str] = &["0", "1", "2 to 7", "8 to 31", "32 or more"];

fn shown(step: &Step) -> String {
    match step {
        Step::Begin(state) => format!(
            "  begin {} {}\n{}",
            state.products,
            state.free,
            show_words(&state.words)
        ),
        Step::Add(Term::Free(u)) => format!("  free {:016X}\n", u.to_bits()),
        Step::Add(Term::Product(w, nu)) => {
            format!("  product {:016X} {:016X}\n", w.to_bits(), nu.to_bits())
        }
        Step::Join => String::from("  join\n"),
    }
}
