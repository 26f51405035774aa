//! Each call through its safe form: the specification's marked cases, every
//! refusal, and what may be used as loads.

use piskorlu::{
    bend, float_environment_ok, least_norm, solve, solve_triangle, sqrt, tallied, tallied_triangle,
    Answer, BoxReport, Cause, Problem, Refusal, SolveReport, State, BEND_ROOM,
    LEAST_NORM_WORKSPACE, SOLVE_WORKSPACE,
};

const LIMITLESS: [f64; 2] = [f64::INFINITY; 2];

/// What a solve leaves, its answer taken apart.
struct Left {
    report: Option<BoxReport>,
    cause: Option<Cause>,
    listed: Vec<usize>,
    refusal: Option<Refusal>,
    nu: Vec<f64>,
    states: Vec<State>,
}

/// lo 0, hi infinite, scale 1, nothing watched.
fn solved(w: &[f64], u_free: &[f64]) -> Left {
    let n = u_free.len().min(2);
    let problem = Problem {
        w,
        u_free,
        lo: &[0.0; 2][..n],
        hi: &LIMITLESS[..n],
        scale: &[1.0; 2][..n],
        motion: &[],
        tolerance: 0.0,
    };
    answer(&problem, &vec![0.0; n])
}

fn answer(problem: &Problem, start: &[f64]) -> Left {
    let n = problem.u_free.len();
    let (mut nu, mut states, mut rows) = (start.to_vec(), vec![0; n], vec![9; n]);
    let mut workspace = [f64::NAN; SOLVE_WORKSPACE];
    let answer = solve(problem, &mut nu, &mut states, &mut rows, &mut workspace);
    let (mut report, mut cause, mut listed, mut refusal) = (None, None, Vec::new(), None);
    match answer {
        Answer::Solved(r) => report = Some(r),
        Answer::Refused(r) => refusal = Some(r),
        Answer::Infeasible {
            cause: c,
            rows,
            report: r,
        } => {
            (report, cause) = (Some(r), Some(c));
            listed = rows.to_vec();
        }
    }
    let states = states.iter().map(|&s| State::of(s).unwrap()).collect();
    Left {
        report,
        cause,
        listed,
        refusal,
        nu,
        states,
    }
}

fn report(sweeps: u32, exact_passes: u32, exact: bool, residual: f64) -> BoxReport {
    BoxReport {
        sweeps,
        exact_passes,
        converged: exact,
        exact,
        residual,
        idle: 0,
        stopped: 0,
    }
}

#[test]
fn marked_cases() {
    let left = solved(&[], &[]);
    assert_eq!(left.report, Some(report(0, 0, true, 0.0)));
    let left = solved(&[2.0], &[-4.0]);
    assert_eq!(left.report, Some(report(1, 1, true, 0.0)));
    assert_eq!((left.nu, left.states), (vec![2.0], vec![State::Inside]));
    let left = solved(&[1.0; 4], &[-2.0; 2]);
    assert_eq!(
        (left.nu, left.states),
        (vec![2.0, 0.0], vec![State::Inside, State::AtLo])
    );
}

/// On a bound without being stopped, stopped and not on a bound, and neither
/// state nor side alone tells the other.
#[test]
fn rows_stopped() {
    let stopped = |left: &Left| left.report.map(|report| report.stopped);
    let rests = solved(&[1.0], &[0.0]);
    assert_eq!(
        (stopped(&rests), rests.states),
        (Some(0), vec![State::AtLo])
    );
    let held = solved(&[1.0], &[4.0]);
    assert_eq!((stopped(&held), held.states), (Some(1), vec![State::AtLo]));
    let grown = solved(&[(-24.0_f64).exp2(), 0.0, 0.0, 1.0], &[-1.0, 4.0]);
    assert_eq!(grown.cause, Some(Cause::Growth));
    assert_eq!(
        (stopped(&grown), grown.states),
        (Some(1), vec![State::Inside; 2])
    );
}

#[test]
fn infeasible() {
    let left = solved(&[(-24.0_f64).exp2()], &[-1.0]);
    assert_eq!((left.cause, left.listed), (Some(Cause::Growth), vec![0]));
    assert_eq!(left.report, Some(report(1, 0, false, 0.0)));
    let left = solved(&[1.0, -1.0, -1.0, 1.0], &[-1.0; 2]);
    assert_eq!((left.cause, left.listed), (Some(Cause::Pass), vec![0, 1]));
    let near = -(1.0 - 1e-8);
    let left = solved(&[1.0, near, near, 1.0], &[-1.0; 2]);
    assert_eq!((left.cause, left.listed), (Some(Cause::Sweep), vec![0, 1]));
}

#[test]
fn loads_that_may_be_used() {
    let left = solved(&[2.0], &[-4.0]);
    let good = left.report.unwrap();
    assert!(good.usable(&left.nu, 0.0));
    assert!(!good.usable(&[f64::INFINITY], 1.0));
    let left = solved(&[1.0], &[f64::NAN]);
    assert_eq!(left.report, Some(report(1, 1, true, 0.0)));
    assert!(!left.report.unwrap().usable(&left.nu, 1e-9));
    assert!(!report(200, 9, false, 0.0).usable(&[1.0], 1e-9));
    assert!(!report(1, 1, true, 1e-8).usable(&[1.0], 1e-9));
}

#[test]
fn refusals() {
    let refused = |w: &[f64], u: &[f64]| solved(w, u).refusal.map(Refusal::number);
    assert_eq!(refused(&[], &[0.0; 33]), Some(5));
    assert_eq!(refused(&[1.0; 2], &[0.0]), Some(6));
    let good = Problem {
        w: &[1.0],
        u_free: &[-1.0],
        lo: &[0.0],
        hi: &[1.0],
        scale: &[1.0],
        motion: &[],
        tolerance: 0.0,
    };
    let number = |p: Problem| answer(&p, &vec![0.0; p.u_free.len()]).refusal;
    assert_eq!(number(good), None);
    assert_eq!(number(Problem { lo: &[], ..good }), Some(Refusal::Unequal));
    let scale = &[f64::NAN];
    assert_eq!(number(Problem { scale, ..good }), Some(Refusal::Scale));
    let two = Problem {
        w: &[1.0; 4],
        u_free: &[0.0; 2],
        lo: &[0.0; 2],
        hi: &[1.0; 2],
        scale: &[1.0; 2],
        motion: &[1.0],
        tolerance: 0.0,
    };
    assert_eq!(number(two), Some(Refusal::Motion));
    let mut short = [0.0; SOLVE_WORKSPACE - 1];
    let (mut nu, mut states, mut rows) = ([7.0], [7], [7]);
    let answer = solve(&good, &mut nu, &mut states, &mut rows, &mut short);
    assert_eq!(answer, Answer::Refused(Refusal::Short));
    assert_eq!((nu, states, rows), ([7.0], [7], [7]));
}

/// Three rows: of two the lower and the upper triangle by rows are one list.
#[test]
fn triangles() {
    let lower = Problem {
        w: &[4.0, 1.0, 5.0, 2.0, 3.0, 6.0],
        u_free: &[-7.0, -9.0, -11.0],
        lo: &[0.0; 3],
        hi: &[f64::INFINITY; 3],
        scale: &[1.0; 3],
        motion: &[],
        tolerance: 0.0,
    };
    let full = Problem {
        w: &[4.0, 1.0, 2.0, 1.0, 5.0, 3.0, 2.0, 3.0, 6.0],
        ..lower
    };
    let mut workspace = [0.0; SOLVE_WORKSPACE];
    let mut left = |problem: &Problem, triangle: bool| {
        let (mut nu, mut states, mut rows) = ([0.0; 3], [9; 3], [9; 3]);
        let mut tally = SolveReport::NOTHING;
        let call = if triangle { tallied_triangle } else { tallied };
        let made = call(
            &mut tally,
            problem,
            &mut nu,
            &mut states,
            &mut rows,
            &mut workspace,
        );
        let tallied = format!("{made:?} {nu:?} {states:?}");
        let (mut nu, mut states, mut rows) = ([0.0; 3], [9; 3], [9; 3]);
        let call = if triangle { solve_triangle } else { solve };
        let made = call(problem, &mut nu, &mut states, &mut rows, &mut workspace);
        assert_eq!(format!("{made:?} {nu:?} {states:?}"), tallied);
        (tallied, tally)
    };
    let (whole, tally) = left(&full, false);
    assert_eq!(left(&lower, true), (whole, tally));
    assert_eq!(tally.increments, 1);
    let (refused, untouched) = left(&full, true);
    assert!(refused.starts_with("Refused(Triangle) [0.0, 0.0, 0.0] [9, 9, 9]"));
    assert_eq!(untouched, SolveReport::NOTHING);
    assert!(left(&lower, false).0.starts_with("Refused(NotSquare)"));
}

#[test]
fn numbers_and_words() {
    let all = [
        Refusal::TooLarge,
        Refusal::NotSquare,
        Refusal::Unequal,
        Refusal::Scale,
        Refusal::Motion,
        Refusal::Short,
        Refusal::Tally,
        Refusal::LeastNorm,
        Refusal::Join,
        Refusal::Triangle,
        Refusal::NotFinite,
        Refusal::ExactFull,
    ];
    for (refusal, number) in all.into_iter().zip((5..14).chain(16..)) {
        assert_eq!(refusal.number(), number);
        assert!(refusal
            .to_string()
            .starts_with(&format!("refused {number}: ")));
    }
}

#[test]
fn a_day() {
    let problem = Problem {
        w: &[2.0],
        u_free: &[-4.0],
        lo: &[0.0],
        hi: &[f64::INFINITY],
        scale: &[1.0],
        motion: &[],
        tolerance: 0.0,
    };
    let (mut states, mut rows, mut workspace) = ([0], [0], [0.0; SOLVE_WORKSPACE]);
    let mut day = SolveReport::NOTHING;
    for _ in 0..3 {
        let mut nu = [0.0];
        let answer = tallied(
            &mut day,
            &problem,
            &mut nu,
            &mut states,
            &mut rows,
            &mut workspace,
        );
        assert_eq!(answer, Answer::Solved(report(1, 1, true, 0.0)));
    }
    let three = SolveReport {
        increments: 3,
        sweeps: 3,
        exact_passes: 3,
        ..SolveReport::NOTHING
    };
    assert_eq!(day, three);
    let mut full = SolveReport {
        increments: u32::MAX,
        ..three
    };
    let kept = full;
    let answer = tallied(
        &mut full,
        &problem,
        &mut [0.0],
        &mut states,
        &mut rows,
        &mut workspace,
    );
    assert_eq!(answer, Answer::Refused(Refusal::Tally));
    assert_eq!(full, kept);
    assert_eq!(kept.and(three), Err(Refusal::Join));
    assert_eq!(
        three.and(three).map(|r| (r.increments, r.sweeps)),
        Ok((6, 6))
    );
    let on = three.continued(SolveReport {
        converged: false,
        residual: 0.5,
        ..SolveReport::NOTHING
    });
    assert_eq!(
        on.map(|r| (r.increments, r.converged, r.residual)),
        Ok((3, false, 0.5))
    );
}

#[test]
fn least_norm_and_root() {
    let (mut a, mut b, mut x) = ([3.0, 4.0], [5.0], [f64::NAN; 2]);
    let mut workspace = [0.0; LEAST_NORM_WORKSPACE];
    assert_eq!(
        least_norm(&mut a, 1, 2, &mut b, &mut x, &mut workspace),
        Ok(1)
    );
    assert_eq!((a, b), ([5.0, 0.0], [-5.0]));
    assert_eq!(
        x.map(f64::to_bits),
        [0x3FE3_3333_3333_3334, 0x3FE9_9999_9999_999A]
    );
    let refused = least_norm(&mut a, 2, 2, &mut b, &mut x, &mut workspace);
    assert_eq!(refused, Err(Refusal::LeastNorm));
    assert_eq!(sqrt(f64::from_bits(1)), (-537.0_f64).exp2());
    assert!(sqrt(-1.0).is_nan());
}

/// Numbers by chance, each from the last.
struct Chance(u64);

impl Chance {
    fn next(&mut self) -> f64 {
        self.0 = self
            .0
            .wrapping_mul(6364136223846793005)
            .wrapping_add(1442695040888963407);
        let values = [-2.0, -1.0, -0.5, 0.0, 0.5, 1.0, 2.0, -1.5];
        values[(self.0 >> 61) as usize]
    }

    fn some(&mut self, n: usize) -> Vec<f64> {
        (0..n).map(|_| self.next()).collect()
    }
}

/// The enum says what the number and the counts say, on problems of every
/// outcome and on refused ones.
#[test]
fn both_layers_agree() {
    let (mut chance, mut seen) = (Chance(1), [0; 5]);
    for turn in 0..20_000 {
        let n = turn % 5;
        let (mut w, mut u_free) = (chance.some(n * n), chance.some(n));
        if turn % 20 == 1 {
            u_free[0] = f64::NAN;
        }
        for i in 0..n {
            w[i * n + i] = w[i * n + i].abs();
        }
        let hi = vec![if turn % 3 == 0 { 1.0 } else { f64::INFINITY }; n];
        let (lo, scale) = (vec![0.0; n], vec![1e-3 * (turn % 49) as f64; n]);
        let problem = Problem {
            w: &w,
            u_free: &u_free,
            lo: &lo,
            hi: &hi,
            scale: &scale,
            motion: &[],
            tolerance: 0.0,
        };
        let left = answer(&problem, &vec![0.5; n]);
        let (mut nu, mut states, mut rows) = (vec![0.5; n], vec![0; n], vec![9; n]);
        let (mut counts, mut residual) = ([9; 8], [9.0]);
        let number = piskorlu::calls::solve(piskorlu::calls::Lent {
            w: &w,
            u_free: &u_free,
            lo: &lo,
            hi: &hi,
            scale: &scale,
            motion: &[],
            tolerance: 0.0,
            nu: &mut nu,
            states: &mut states,
            rows: &mut rows,
            workspace: &mut [0.0; SOLVE_WORKSPACE],
            counts: &mut counts,
            residual: &mut residual,
        });
        assert_eq!(left.refusal.map_or(0, Refusal::number), number);
        let bits = |v: &[f64]| v.iter().map(|x| x.to_bits()).collect::<Vec<_>>();
        assert_eq!(bits(&left.nu), bits(&nu));
        if let Some(report) = left.report {
            let outcome = left.cause.map_or(0, |cause| cause as usize + 1);
            let told = [
                outcome,
                report.sweeps as usize,
                report.exact_passes as usize,
                report.converged.into(),
                report.exact.into(),
                report.idle as usize,
                left.listed.len(),
                report.stopped as usize,
            ];
            assert_eq!((told, report.residual), (counts, residual[0]));
            assert_eq!(left.listed, rows[..counts[6]]);
            let bytes: Vec<u8> = left.states.iter().map(|&s| s as u8).collect();
            assert_eq!(bytes, states);
            seen[outcome] += 1;
        } else {
            seen[4] += 1;
        }
    }
    let [solved, growth, pass, _, refused] = seen;
    assert!(
        solved > 99 && growth > 99 && pass > 99 && refused > 99,
        "{seen:?}"
    );
}

#[test]
fn bend_files() {
    let mut out = [7; BEND_ROOM];
    assert_eq!(bend(&[], &mut out), Some(&b"refused 1\n"[..]));
    assert_eq!(bend(&[], &mut out[1..]), None);
    let numbers = [2.0, -4.0, 0.0, f64::INFINITY, 1.0, 0.0, 1.0, 0.0_f64];
    let mut file: Vec<u8> = numbers.iter().flat_map(|v| v.to_le_bytes()).collect();
    file.extend([0, 0, 0, 0, 1, 0, 1, 0, 8, 0, 0, 0, 0x42, 0x45, 0x4E, 0x44]);
    let lines = "solved\nsweeps 1 passes 1 converged 1 exact 1 idle 0 residual 0000000000000000\nrow 0 I 4000000000000000\n";
    assert_eq!(bend(&file, &mut out), Some(lines.as_bytes()));
}

/// Subnormals given as zeros, subnormals taken as zeros, and the three other
/// rounding modes, as the bits of MXCSR that set them.
#[test]
fn environment() {
    use std::arch::asm;
    assert!(float_environment_ok());
    for bits in [0x8000, 0x0040, 0x2000, 0x4000, 0x6000] {
        let (mut kept, mut ok) = (0_u32, true);
        // SAFETY: the control word is set back before anything else is computed.
        unsafe {
            asm!("stmxcsr [{}]", in(reg) &mut kept);
            let other = kept | bits;
            asm!("ldmxcsr [{}]", in(reg) &other);
            ok &= float_environment_ok();
            asm!("ldmxcsr [{}]", in(reg) &kept);
        }
        assert!(!ok, "{bits:x}");
    }
    assert!(float_environment_ok());
}
