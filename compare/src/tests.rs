//! The answers that document 01 writes out, held against the reference.

use crate::calls::solve::{Answer, Solve};
use crate::calls::Call;
use crate::cases::files::file;
use crate::cases::marked::marked_problem;
use crate::cases::problem::Owned;
use crate::cases::solve::Case;
use crate::reference::float::larger;
use crate::reference::least_norm::{least_norm, Lent};
use crate::reference::print::bendsolve;
use crate::reference::report::{joined, SolveReport, NOTHING};
use crate::reference::solve::{BoxReport, Cause, Outcome};
use crate::reference::Rule;

fn answer(problem: Owned) -> Answer {
    let n = problem.n();
    let case = Case {
        problem,
        workspace_len: 2_304,
        states_len: n,
        rows_len: n,
        fill: 0.5,
        example: None,
    };
    Solve::reference(&case, Rule::None)
}

fn ending(answer: &Answer) -> (Outcome, BoxReport) {
    answer.ending.expect("accepted")
}

/// Solved exactly at the first sweep, with these multipliers and states.
fn solved(which: usize, nu: &[f64], states: &[u8]) {
    let answer = answer(marked_problem(which));
    let (outcome, report) = ending(&answer);
    assert_eq!(outcome, Outcome::Solved);
    assert!(report.exact && report.converged);
    assert_eq!(answer.nu, nu);
    assert_eq!(answer.states, states);
}

#[test]
fn marked_case_1_no_rows() {
    let (outcome, report) = ending(&answer(marked_problem(0)));
    assert_eq!((outcome, report.sweeps), (Outcome::Solved, 0));
}

#[test]
fn marked_case_3_growth() {
    let answer = answer(marked_problem(2));
    let (outcome, report) = ending(&answer);
    assert_eq!(outcome, Outcome::Infeasible(Cause::Growth, 1));
    assert_eq!((report.sweeps, report.exact_passes), (1, 0));
    assert_eq!((answer.nu[0], answer.rows[0]), (16_777_216.0, 0));
}

#[test]
fn marked_cases_4_to_8_solved() {
    solved(3, &[1_000_000.0], &[0]);
    solved(4, &[0.0], &[1]);
    solved(5, &[0.0], &[1]);
    solved(6, &[3.0], &[3]);
    solved(7, &[2.0, 0.0], &[0, 1]);
}

#[test]
fn marked_case_9_two_stops_fight() {
    let answer = answer(marked_problem(8));
    assert_eq!(ending(&answer).0, Outcome::Infeasible(Cause::Pass, 2));
    assert_eq!(answer.rows, [0, 1]);
}

/// Least norm of A = `a`, one row, with b.
fn one_row(a: &mut [f64], b: f64) -> (usize, f64, Vec<f64>) {
    let n = a.len();
    let (mut b, mut x, mut workspace) = ([b], vec![7.0; n], vec![0.0; 1_056]);
    let lent = Lent {
        a,
        b: &mut b,
        x: &mut x,
        workspace: &mut workspace,
    };
    let rank = least_norm(lent, 1, n, Rule::None).expect("accepted");
    (rank, b[0], x)
}

#[test]
fn marked_cases_10_and_11_least_norm() {
    let mut a = [3.0, 4.0];
    let (rank, b, x) = one_row(&mut a, 5.0);
    assert_eq!((rank, a, b), (1, [5.0, 0.0], -5.0));
    let bits: Vec<u64> = x.iter().map(|v| v.to_bits()).collect();
    assert_eq!(bits, [0x3FE3_3333_3333_3334, 0x3FE9_9999_9999_999A]);
    let (rank, b, x) = one_row(&mut [0.0], 7.0);
    assert_eq!((rank, b, x), (0, 7.0, vec![0.0]));
}

#[test]
fn program_prints_the_marked_case_2() {
    let expected = "solved\nsweeps 1 passes 1 converged 1 exact 1 idle 0 residual 0000000000000000\nrow 0 I 4000000000000000\n";
    assert_eq!(
        bendsolve(&file(&marked_problem(1), b"free"), Rule::None),
        expected.as_bytes()
    );
}

#[test]
fn length_rule_does_not_wrap() {
    let mut bytes = vec![0xF8, 0xFF, 0xFF, 0xFF, 0, 0, 0, 0, 1, 0, 0, 0];
    bytes.extend(b"BEND");
    assert_eq!(bendsolve(&bytes, Rule::None), b"refused 4\n");
}

#[test]
fn known_to_be_easy_to_get_wrong() {
    let states_of_pass = answer(marked_problem(9));
    assert_eq!((states_of_pass.states[1], states_of_pass.nu[1]), (0, 0.0));
    let all_idle = ending(&answer(marked_problem(10)));
    assert_eq!(all_idle.0, Outcome::Solved);
    let beside_acting = ending(&answer(marked_problem(11)));
    assert_eq!(beside_acting.0, Outcome::Infeasible(Cause::Growth, 1));
    let overflow = ending(&answer(marked_problem(12)));
    assert!(overflow.0 == Outcome::Solved && overflow.1.converged && !overflow.1.exact);
    let nan_lin = answer(marked_problem(13));
    assert_eq!(ending(&nan_lin).0, Outcome::Infeasible(Cause::Pass, 2));
    let at_hi = answer(marked_problem(14));
    assert_eq!((at_hi.states[0], at_hi.nu[0]), (2, 5.0));
    let strict = answer(marked_problem(15));
    assert_eq!((strict.nu[1], ending(&strict).1.residual), (0.0, 1e-9));
    let by_sweep = ending(&answer(marked_problem(16)));
    assert_eq!(
        (by_sweep.0, by_sweep.1.sweeps),
        (Outcome::Infeasible(Cause::Sweep, 2), 2)
    );
}

#[test]
fn larger_of_two() {
    assert_eq!(larger(-0.0, 0.0).to_bits(), 0);
    assert_eq!(larger(0.0, -0.0).to_bits(), 0);
    assert_eq!(larger(f64::NAN, -1.0), -1.0);
    assert_eq!(larger(-1.0, f64::NAN), -1.0);
    assert!(larger(f64::NAN, f64::NAN).is_nan());
}

#[test]
fn list_refuses_at_the_first_sum_too_large() {
    let full = SolveReport {
        sweeps: u32::MAX,
        ..NOTHING
    };
    let one = SolveReport {
        sweeps: 1,
        ..NOTHING
    };
    assert_eq!(joined(&[full], Rule::None).map(|r| r.sweeps), Ok(u32::MAX));
    assert_eq!(joined(&[full, one], Rule::None).map(|r| r.sweeps), Err(13));
}
