//! The worked examples of joined row sums without rounding, from
//! examples/joins.txt, which says how they are written.

use super::exact_examples::{body, left, listed, mistake, repeated, term, words, Left, Mistake};
use super::exact_trees::Step;
use crate::reference::exact::Accumulator;
use std::sync::OnceLock;

const TEXT: &str = include_str!("../../examples/joins.txt");

/// Ways to add and join, and what is left. The tests hold the answers against
/// the reference.
#[cfg_attr(not(test), allow(dead_code))]
pub struct Example {
    pub number: usize,
    pub ways: Vec<Vec<Step>>,
    /// The last call's answer; all before it answer 0.
    pub answer: u32,
    pub left: Left,
}

#[cfg_attr(not(test), allow(dead_code))]
#[derive(Default)]
pub struct Examples {
    pub joins: Vec<Example>,
    pub mistakes: Vec<Mistake>,
}

/// All examples.
pub fn examples() -> &'static Examples {
    static EXAMPLES: OnceLock<Examples> = OnceLock::new();
    EXAMPLES.get_or_init(|| parsed().expect("examples/joins.txt is as it says"))
}

fn parsed() -> Option<Examples> {
    let mut examples = Examples::default();
    let mut lines = body(TEXT).peekable();
    while let Some(line) = lines.next() {
        if let Some(rest) = line.strip_prefix("mistake ") {
            examples.mistakes.push(mistake(rest)?);
            continue;
        }
        let (number, _) = line.split_once(" # ")?;
        let mut ways = Vec::new();
        while let Some(calls) = lines.peek()?.strip_prefix("  calls ") {
            ways.push(steps(calls)?);
            lines.next();
        }
        examples.joins.push(Example {
            number: number.parse().ok()?,
            ways,
            answer: lines.next()?.strip_prefix("  answer ")?.parse().ok()?,
            left: left(lines.next()?)?,
        });
    }
    Some(examples)
}

fn steps(text: &str) -> Option<Vec<Step>> {
    let mut steps = Vec::new();
    for part in listed(text, "; ") {
        let (times, call) = repeated(part)?;
        let step = match call {
            "empty" => Step::Begin(Accumulator::empty()),
            "join" => Step::Join,
            _ => match call.strip_prefix("state ") {
                Some(fields) => Step::Begin(state(fields)?),
                None => Step::Add(term(call)?),
            },
        };
        steps.extend((0..times).map(|_| step.clone()));
    }
    Some(steps)
}

/// An accumulator that nobody made.
fn state(fields: &str) -> Option<Accumulator> {
    let mut fields = fields.split(' ');
    let products = fields.next()?.parse().ok()?;
    let free = fields.next()? == "1";
    let fill = u64::from_str_radix(fields.next()?, 16).ok()?;
    Some(Accumulator {
        words: words(fill, fields)?,
        products,
        free,
    })
}
