//! The worked examples of chained bend files, from examples/chains.txt, which
//! says how they are written.

use std::sync::OnceLock;

const TEXT: &str = include_str!("../../examples/chains.txt");

/// A step of an example.
#[derive(Clone, Debug, PartialEq, Eq)]
pub struct Step {
    pub rows: usize,
    pub coords: usize,
    pub count: usize,
    /// The bits of its values.
    pub values: Vec<u64>,
}

/// A file, and what the two readers answer to it. The tests hold the answers
/// against the reference.
#[cfg_attr(not(test), allow(dead_code))]
#[derive(Clone, Debug)]
pub struct Read {
    pub number: usize,
    pub file: Vec<u8>,
    /// The steps, newest first, or the refusal.
    pub answer: Result<Vec<Step>, u32>,
    /// What document 01's reader answers: start, rows, coords and count, or
    /// the refusal.
    pub old: Result<[usize; 4], u32>,
}

/// A pull, oldest step first, and the file that is written.
#[cfg_attr(not(test), allow(dead_code))]
#[derive(Clone, Debug)]
pub struct Write {
    pub number: usize,
    pub room: usize,
    pub steps: Vec<Step>,
    pub answer: Result<Vec<u8>, u32>,
}

/// A likely mistake and the examples that show it.
#[cfg_attr(not(test), allow(dead_code))]
#[derive(Clone, Debug)]
pub struct Mistake {
    pub rule: &'static str,
    pub shown_by: Vec<usize>,
}

#[cfg_attr(not(test), allow(dead_code))]
#[derive(Default)]
pub struct Examples {
    pub reads: Vec<Read>,
    pub writes: Vec<Write>,
    pub mistakes: Vec<Mistake>,
}

/// All examples.
pub fn examples() -> &'static Examples {
    static EXAMPLES: OnceLock<Examples> = OnceLock::new();
    EXAMPLES.get_or_init(|| parsed().expect("examples/chains.txt is as it says"))
}

fn parsed() -> Option<Examples> {
    let mut examples = Examples::default();
    let mut lines = TEXT.lines();
    lines.by_ref().take_while(|line| !line.is_empty()).last()?;
    let mut lines = lines.skip_while(|line| !line.is_empty()).skip(1);
    while let Some(line) = lines.next() {
        if let Some(rest) = line.strip_prefix("mistake ") {
            let (rule, shown) = rest.split_once(": ")?;
            let shown_by = shown
                .split(' ')
                .map(|n| n.parse().ok())
                .collect::<Option<_>>()?;
            examples.mistakes.push(Mistake { rule, shown_by });
            continue;
        }
        let (head, _) = line.split_once(" # ")?;
        let (number, kind) = head.split_once(' ')?;
        let number = number.parse().ok()?;
        if kind == "read" {
            examples.reads.push(Read {
                number,
                file: bytes(lines.next()?.strip_prefix("  file ")?)?,
                answer: answer(lines.next()?, steps_found)?,
                old: old(lines.next()?)?,
            });
        } else {
            let (room, steps) = lines
                .next()?
                .strip_prefix("  room ")?
                .split_once(" steps ")?;
            examples.writes.push(Write {
                number,
                room: room.parse().ok()?,
                steps: self::steps(steps)?,
                answer: answer(lines.next()?, |text| bytes(text.strip_prefix("file ")?))?,
            });
        }
    }
    Some(examples)
}

/// A refusal, or what `taken` reads.
fn answer<T>(line: &str, taken: impl Fn(&str) -> Option<T>) -> Option<Result<T, u32>> {
    let text = line.strip_prefix("  out ")?;
    match text.strip_prefix("refused ") {
        Some(number) => Some(Err(number.parse().ok()?)),
        None => Some(Ok(taken(text)?)),
    }
}

fn old(line: &str) -> Option<Result<[usize; 4], u32>> {
    let text = line.strip_prefix("  old way: ")?;
    if let Some(number) = text.strip_prefix("refused ") {
        return Some(Err(number.parse().ok()?));
    }
    let fields: Option<Vec<usize>> = text.split(' ').map(|word| word.parse().ok()).collect();
    Some(Ok(fields?.try_into().ok()?))
}

/// "steps N: " and the steps.
fn steps_found(text: &str) -> Option<Vec<Step>> {
    let (count, rest) = text.strip_prefix("steps ")?.split_once(": ")?;
    let steps = steps(rest)?;
    (count.parse() == Ok(steps.len())).then_some(steps)
}

fn steps(text: &str) -> Option<Vec<Step>> {
    if text == "-" {
        return Some(Vec::new());
    }
    text.split("; ").map(step).collect()
}

fn step(text: &str) -> Option<Step> {
    let mut words = text.split(' ');
    let mut number = || words.next()?.parse().ok();
    let (rows, coords, count) = (number()?, number()?, number()?);
    let mut values = Vec::new();
    for word in words {
        let (value, times) = word.split_once('*').unwrap_or((word, "1"));
        let times = times.parse().ok()?;
        if value == "seq" {
            values.extend(0..times);
        } else {
            let bits = u64::from_str_radix(value, 16).ok()?;
            values.extend((0..times).map(|_| bits));
        }
    }
    Some(Step {
        rows,
        coords,
        count,
        values,
    })
}

/// Parts joined by `+`: digits, a byte times a number, or a sequence.
fn bytes(text: &str) -> Option<Vec<u8>> {
    let mut bytes = Vec::new();
    for part in text.split('+').filter(|&part| part != "-") {
        match part.split_once('*') {
            Some(("seq", count)) => {
                (0..count.parse().ok()?).for_each(|i: u64| bytes.extend(i.to_le_bytes()));
            }
            Some((byte, count)) => {
                let byte = u8::from_str_radix(byte, 16).ok()?;
                bytes.resize(bytes.len() + count.parse::<usize>().ok()?, byte);
            }
            None => {
                for pair in part.as_bytes().chunks(2) {
                    let digits = std::str::from_utf8(pair).ok()?;
                    bytes.push(u8::from_str_radix(digits, 16).ok()?);
                }
            }
        }
    }
    Some(bytes)
}
