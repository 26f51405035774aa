//! What the program bendsolve prints.

use super::bend;
use super::problem::{Lent, Problem, WORKSPACE};
use super::rule::Rule;
use super::solve::{solve, BoxReport, Cause, Outcome};

/// The bytes that bendsolve writes for a file.
pub fn bendsolve(file: &[u8], rule: Rule) -> Vec<u8> {
    match answer(file, rule) {
        Ok(text) => text.into_bytes(),
        Err(number) => format!("refused {number}\n").into_bytes(),
    }
}

fn answer(file: &[u8], rule: Rule) -> Result<String, u32> {
    let bend = bend::read(file, rule)?;
    let n = bend.u_free.len();
    let p = Problem {
        w: &bend.w,
        u_free: &bend.u_free,
        lo: &bend.lo,
        hi: &bend.hi,
        scale: &bend.scale,
        motion: &bend.motion,
        tolerance: bend.tolerance,
    };
    let mut nu = bend.nu.clone();
    let (mut states, mut rows) = (vec![0; n], vec![0; n]);
    let mut workspace = vec![0.0; WORKSPACE];
    let mut lent = Lent {
        nu: &mut nu,
        workspace: &mut workspace,
        states: &mut states,
        rows: &mut rows,
    };
    let (outcome, report) = solve(&p, &mut lent, rule)?;
    Ok(text(outcome, &report, &states, &nu, &rows, rule))
}

/// The answer's lines.
pub fn text(
    outcome: Outcome,
    report: &BoxReport,
    states: &[u8],
    nu: &[f64],
    rows: &[usize],
    rule: Rule,
) -> String {
    let mut text = first_line(outcome);
    text.push_str(&report_line(report, rule));
    for (i, (&state, &v)) in states.iter().zip(nu).enumerate() {
        let letter = ['I', 'L', 'H', 'Z'][usize::from(state)];
        let number = i + usize::from(rule.is(Rule::RowsFromOne));
        text.push_str(&format!("row {number} {letter} {}\n", bits(v, rule)));
    }
    if let Outcome::Infeasible(_, listed) = outcome {
        let rows: String = rows[..listed].iter().map(|row| format!(" {row}")).collect();
        let end = if rule.is(Rule::LastLineOpen) {
            ""
        } else {
            "\n"
        };
        text.push_str(&format!("fights{rows}{end}"));
    }
    text
}

fn first_line(outcome: Outcome) -> String {
    match outcome {
        Outcome::Solved => String::from("solved\n"),
        Outcome::Infeasible(Cause::Growth, _) => String::from("infeasible growth\n"),
        Outcome::Infeasible(Cause::Pass, _) => String::from("infeasible pass\n"),
        Outcome::Infeasible(Cause::Sweep, _) => String::from("infeasible sweep\n"),
    }
}

fn report_line(report: &BoxReport, rule: Rule) -> String {
    format!(
        "sweeps {} passes {} converged {} exact {} idle {} residual {}\n",
        report.sweeps,
        report.exact_passes,
        u32::from(report.converged),
        u32::from(report.exact),
        report.idle,
        bits(report.residual, rule)
    )
}

/// 16 upper-case hexadecimal digits, any NaN as 7FF8000000000000.
fn bits(v: f64, rule: Rule) -> String {
    let pattern = if v.is_nan() && !rule.is(Rule::NanPatternKept) {
        0x7FF8_0000_0000_0000
    } else {
        v.to_bits()
    };
    if rule.is(Rule::LowerCaseDigits) {
        format!("{pattern:016x}")
    } else if rule.is(Rule::DigitsNotFilled) {
        format!("{pattern:X}")
    } else {
        format!("{pattern:016X}")
    }
}
