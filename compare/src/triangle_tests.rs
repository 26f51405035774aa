//! The 18 worked triangles, and which errors they show.

use crate::calls::solve::{lend, Answer};
use crate::cases::problem::Owned;
use crate::cases::solve::Case;
use crate::reference::rule::Rule;
use crate::reference::solve::{Cause, Outcome};
use crate::reference::triangle::{mirrored, solve_triangle};

const EXAMPLES: &str = include_str!("../examples/triangles.txt");

struct Example {
    number: usize,
    case: Case,
    out: String,
}

fn values(words: &str) -> Vec<f64> {
    words
        .split_whitespace()
        .map(|word| f64::from_bits(u64::from_str_radix(word, 16).expect("sixteen digits")))
        .collect()
}

/// Examples 14 and 15 have one value of lo for two rows.
fn example(lines: &[&str]) -> Example {
    let number = lines[0].split_once(' ').expect("a number").0;
    let t = lines[1].split_once(" : ").map_or("", |(_, words)| words);
    let (head, words) = lines[2].split_once(" numbers ").expect("numbers");
    let n: usize = head
        .split_whitespace()
        .nth(2)
        .expect("n")
        .parse()
        .expect("n");
    let numbers = values(words);
    let lo = numbers.len() - 4 * n - 1;
    let mut rest = numbers.into_iter();
    let mut take = |k: usize| rest.by_ref().take(k).collect::<Vec<f64>>();
    let problem = Owned {
        w: values(t),
        u_free: take(n),
        lo: take(lo),
        hi: take(n),
        scale: take(n),
        nu: take(n),
        motion: Vec::new(),
        tolerance: take(1)[0],
    };
    Example {
        number: number.parse().expect("a number"),
        case: Case {
            problem,
            workspace_len: 2_304,
            states_len: n,
            rows_len: n,
            fill: f64::NAN,
            example: None,
        },
        out: lines[3].trim().to_string(),
    }
}

fn examples() -> Vec<Example> {
    let lines: Vec<&str> = EXAMPLES
        .lines()
        .filter(|l| !l.starts_with("mistake"))
        .collect();
    lines.chunks(4).map(example).collect()
}

/// What came out, in the examples' words.
fn words(answer: &Answer) -> String {
    let Some((outcome, r)) = &answer.ending else {
        return format!("out refused {}", answer.number);
    };
    let (name, listed) = match outcome {
        Outcome::Solved => ("solved", 0),
        Outcome::Infeasible(Cause::Growth, k) => ("growth", *k),
        Outcome::Infeasible(Cause::Pass, k) => ("pass", *k),
        Outcome::Infeasible(Cause::Sweep, k) => ("sweep", *k),
    };
    let or_none = |text: String| {
        if text.is_empty() {
            "-".to_string()
        } else {
            text
        }
    };
    let bits = |v: &f64| {
        let bits = if v.is_nan() {
            0x7FF8 << 48
        } else {
            v.to_bits()
        };
        format!("{bits:016X}")
    };
    let states: String = answer
        .states
        .iter()
        .map(|&s| ['I', 'L', 'H', 'Z'][usize::from(s)])
        .collect();
    let nu: Vec<String> = answer.nu.iter().map(bits).collect();
    let rows: Vec<String> = answer.rows[..listed].iter().map(usize::to_string).collect();
    format!(
        "out {name} sweeps {} passes {} converged {} exact {} idle {} stopped {} residual {} states {} nu {} rows {}",
        r.sweeps,
        r.exact_passes,
        u8::from(r.converged),
        u8::from(r.exact),
        r.idle,
        r.stopped,
        bits(&r.residual),
        or_none(states),
        or_none(nu.join(" ")),
        or_none(rows.join(" "))
    )
}

fn told(example: &Example, rule: Rule) -> String {
    words(&lend(&example.case, |lent| {
        solve_triangle(&example.case.problem.lend(), lent, rule)
    }))
}

#[test]
fn eighteen_worked_triangles() {
    let all = examples();
    assert_eq!(all.len(), 18);
    for example in &all {
        assert_eq!(told(example, Rule::None), example.out, "{}", example.number);
    }
}

#[test]
fn mistakes_show_where_they_are_said_to() {
    let said: [(Rule, &[usize]); 5] = [
        (Rule::TriangleBelowZero, &[4, 5, 6, 7, 18]),
        (Rule::TriangleRowsEarly, &[4, 5, 6, 7, 10, 11, 18]),
        (Rule::TriangleDiagonalLast, &[4, 5, 6, 7, 10, 11, 18]),
        (Rule::TriangleAboveZero, &[4, 5, 6, 7, 10, 18]),
        (Rule::TriangleUpper, &[5, 6, 7, 18]),
    ];
    let all = examples();
    for (rule, numbers) in said {
        let shown: Vec<usize> = all
            .iter()
            .filter(|example| told(example, rule) != example.out)
            .map(|example| example.number)
            .collect();
        assert_eq!(shown, numbers, "{rule:?}");
    }
}

#[test]
fn three_rows_mirrored() {
    let w = mirrored(&[1.0, 2.0, 3.0, 4.0, 5.0, 6.0], 3, Rule::None);
    assert_eq!(w, [1.0, 2.0, 4.0, 2.0, 3.0, 5.0, 4.0, 5.0, 6.0]);
}
