//! Least norm: rank, x, what is left in a and b, and every lent buffer whole.

use super::guard::{Guard, Guarded};
use super::{all_same, show_values, Call, Zeros};
use crate::cases::least_norm::{Case, FAMILIES};
use crate::cases::random::Rng;
use crate::coverage::{Class, Coverage, NUMBERS, ROWS};
use crate::port;
use crate::reference::least_norm::{self, Lent, WORKSPACE};
use crate::reference::rule::{Place, Rule};

pub struct LeastNorm;

/// What a call leaves.
pub struct Answer {
    /// 0, or the number of the refusal.
    number: u32,
    pub rank: Vec<u32>,
    pub a: Vec<f64>,
    pub b: Vec<f64>,
    pub x: Vec<f64>,
    /// What lies past the part of the workspace that is free; all of it after
    /// a refused call.
    rest: Vec<f64>,
    margins_kept: bool,
}

/// What x holds before the call.
fn lent_x(case: &Case) -> Vec<f64> {
    vec![f64::GUARD; case.x_len]
}

fn lent_workspace(case: &Case) -> Vec<f64> {
    let mut workspace = vec![case.fill; case.workspace_len];
    for v in workspace.iter_mut().skip(WORKSPACE) {
        *v = f64::GUARD;
    }
    workspace
}

fn rest(number: u32, workspace: &[f64]) -> Vec<f64> {
    if number != 0 {
        return workspace.to_vec();
    }
    workspace[WORKSPACE.min(workspace.len())..].to_vec()
}

fn rank_buffer(case: &Case, answer: Result<usize, u32>) -> Vec<u32> {
    let mut rank = vec![u32::GUARD; case.rank_len];
    if let (Ok(value), Some(place)) = (answer, rank.first_mut()) {
        *place = value as u32;
    }
    rank
}

impl Call for LeastNorm {
    type Case = Case;
    type Answer = Answer;

    const NAME: &'static str = "least norm";
    const PLACES: &'static [Place] = &[Place::LeastNorm];
    const CLASSES: &'static [Class] = &[
        Class {
            group: "number",
            names: &["0", "12"],
        },
        Class {
            group: "rows",
            names: ROWS,
        },
        Class {
            group: "columns",
            names: ROWS,
        },
        Class {
            group: "rank",
            names: ROWS,
        },
        Class {
            group: "shape",
            names: &["square", "wide", "tall"],
        },
        Class {
            group: "rank is",
            names: &["full", "deficient", "zero"],
        },
        Class {
            group: "answer has",
            names: &["NaN", "no NaN"],
        },
    ];

    fn families() -> Vec<&'static str> {
        FAMILIES.iter().map(|&(name, _)| name).collect()
    }

    fn case(family: &str, rng: &mut Rng) -> Option<Case> {
        let (_, make) = FAMILIES.iter().find(|&&(name, _)| name == family)?;
        Some(make(rng))
    }

    fn reference(case: &Case, rule: Rule) -> Answer {
        let (mut a, mut b) = (case.a.clone(), case.b.clone());
        let (mut x, mut workspace) = (lent_x(case), lent_workspace(case));
        let lent = Lent {
            a: &mut a,
            b: &mut b,
            x: &mut x,
            workspace: &mut workspace,
        };
        // The place for the rank is the C interface's own.
        let answer = match case.rank_len {
            0 => Err(least_norm::REFUSED),
            _ => least_norm::least_norm(lent, case.m, case.n, rule),
        };
        let number = answer.err().unwrap_or(0);
        let rank = rank_buffer(case, answer);
        let rest = rest(number, &workspace);
        Answer {
            number,
            rank,
            a,
            b,
            x,
            rest,
            margins_kept: true,
        }
    }

    #[cfg(not(original))]
    fn original(_: &Case, _: &Answer) -> Option<Answer> {
        None
    }

    /// The original is asked where the reference accepts, and where the
    /// lengths alone are wrong, which it answers by a panic.
    #[cfg(original)]
    fn original(case: &Case, reference: &Answer) -> Option<Answer> {
        use crate::original::{asks, dense};
        let small = case.m <= 32 && case.n <= 32;
        let lengths_agree = small
            && case.a.len() == case.m * case.n
            && case.b.len() == case.m
            && case.x_len == case.n;
        if reference.number != 0 && (!small || lengths_agree) {
            return None;
        }
        let (mut a, mut b, mut x) = (case.a.clone(), case.b.clone(), lent_x(case));
        let answer = asks(|| dense::LeastNorm::new().solve(&mut a, case.m, case.n, &mut b, &mut x));
        let rank = answer.ok_or(least_norm::REFUSED);
        Some(Answer {
            number: rank.err().unwrap_or(0),
            rank: rank_buffer(case, rank),
            a,
            b,
            x,
            rest: reference.rest.clone(),
            margins_kept: true,
        })
    }

    fn port(case: &Case) -> Option<Answer> {
        let call = port::LEAST_NORM?;
        let (mut a, mut b) = (Guarded::of(&case.a), Guarded::of(&case.b));
        let (mut x, mut workspace) = (
            Guarded::of(&lent_x(case)),
            Guarded::of(&lent_workspace(case)),
        );
        let mut rank = Guarded::filled(u32::GUARD, case.rank_len);
        let number = call(
            a.lend(),
            case.m,
            case.n,
            b.lend(),
            x.lend(),
            workspace.lend(),
            rank.lend(),
        );
        let (a, b, x, workspace, rank) =
            (a.kept(), b.kept(), x.kept(), workspace.kept(), rank.kept());
        let margins_kept =
            a.is_some() && b.is_some() && x.is_some() && workspace.is_some() && rank.is_some();
        Some(Answer {
            number,
            rank: rank.unwrap_or_default(),
            a: a.unwrap_or_default(),
            b: b.unwrap_or_default(),
            x: x.unwrap_or_default(),
            rest: rest(number, &workspace.unwrap_or_default()),
            margins_kept,
        })
    }

    fn difference(expected: &Answer, found: &Answer, _: Zeros) -> Option<&'static str> {
        let same = |a: &[f64], b: &[f64]| all_same(a, b, Zeros::WithSign);
        if !found.margins_kept {
            Some("what lies beside a lent buffer")
        } else if expected.number != found.number {
            Some("number")
        } else if expected.rank != found.rank {
            Some("rank")
        } else if !same(&expected.x, &found.x) {
            Some("x")
        } else if !same(&expected.a, &found.a) {
            Some("a left")
        } else if !same(&expected.b, &found.b) {
            Some("b left")
        } else if !same(&expected.rest, &found.rest) {
            Some("the workspace's rest")
        } else {
            None
        }
    }

    fn cover(case: &Case, answer: &Answer, coverage: &mut Coverage) {
        coverage.count("number", if answer.number == 0 { "0" } else { "12" });
        if answer.number != 0 {
            return;
        }
        let (m, n, rank) = (case.m, case.n, answer.rank[0] as usize);
        coverage.count("rows", NUMBERS[m]);
        coverage.count("columns", NUMBERS[n]);
        coverage.count("rank", NUMBERS[rank]);
        let shape = match m.cmp(&n) {
            std::cmp::Ordering::Equal => "square",
            std::cmp::Ordering::Less => "wide",
            std::cmp::Ordering::Greater => "tall",
        };
        coverage.count("shape", shape);
        let full = if rank == m.min(n) {
            "full"
        } else {
            "deficient"
        };
        coverage.count("rank is", if rank == 0 { "zero" } else { full });
        let nan = answer.x.iter().any(|v| v.is_nan());
        coverage.count("answer has", if nan { "NaN" } else { "no NaN" });
    }

    fn show_case(case: &Case) -> String {
        format!(
            "m {} n {} x {} workspace {} rank {} long\n{}{}",
            case.m,
            case.n,
            case.x_len,
            case.workspace_len,
            case.rank_len,
            show_values("a", &case.a),
            show_values("b", &case.b)
        )
    }

    fn show_answer(answer: &Answer) -> String {
        format!(
            "  number {} rank {:?}\n{}{}{}",
            answer.number,
            answer.rank,
            show_values("x", &answer.x),
            show_values("a left", &answer.a),
            show_values("b left", &answer.b)
        )
    }
}
