//! Holds the port, and a reference written from document 01, against the
//! original Rust. See `compare help`.

mod bench;
mod bench_chain;
mod bench_exact;
mod bench_triangle;
mod bendsolve;
mod calls;
mod cases;
#[cfg(test)]
mod chain_tests;
mod coverage;
#[cfg(test)]
mod exact_tests;
#[cfg(test)]
mod join_tests;
mod mutations;
#[cfg(original)]
mod original;
mod plot;
mod port;
mod reference;
mod run;
#[cfg(test)]
mod stop_tests;
#[cfg(test)]
mod tests;
#[cfg(test)]
mod torn_tests;
#[cfg(test)]
mod triangle_tests;
mod vectors;

use calls::bend::Bend;
use calls::chain::Chain;
use calls::chain_writer::ChainWriter;
use calls::exact::Exact;
use calls::exact_join::ExactJoin;
use calls::exact_row::ExactRow;
use calls::exact_trees::ExactTrees;
use calls::joins::Joins;
use calls::least_norm::LeastNorm;
use calls::nearest::Nearest;
use calls::solve::Solve;
use calls::tallied::{Tallied, TORN};
use calls::triangle::Triangle;
use calls::Call;
use run::{run, run_families, show, Totals};
use std::process::ExitCode;
use std::time::Instant;

const HELP: &str = "\
compare COMMAND
  short [--without-original]
                          the gate's comparison; last line 'compare: N passed, M failed'. It fails
                          where the original's files are not at hand, unless that is waived
  long [CASES]            solves by default 10,000,000, and a third as many of each other call
  sqrt [COUNT]            the square root on 100,000,000 patterns, and its time
  mutations [EACH [RULE]] each error (or one) put into the reference: is it caught?
  bend [EACH [RUNS]]      bend files: the call on EACH (30,000) of a family, the program on RUNS (2,000)
  chains [FILES]          chained bend files: at least FILES (1,000,000) read, and a half as many written
  exact [ROWS]            row sums without rounding: at least ROWS (10,000,000), a half as many term by term, and
                          as many roundings to the nearest
  trees [TREES]           row sums without rounding in several orders and groupings: at least TREES (1,000,000) sets
                          of terms, and as many joins of two
  torn [LISTS]            lists of tallied solves, some with a torn cell wire: LISTS (1,000,000), each in several orders
  vectors DIR             writes the original's answers for replay
  files DIR               writes bend files with what bendsolve must print for each
  bench [--write]         times of port and original; --write: docs/PERFORMANCE.md and performance.svg
  one FAMILY SEED INDEX   one case in full, with every answer to it
  families                the names of the families";

/// The checks of a run, passed and failed.
#[derive(Default)]
struct Checks {
    passed: u32,
    failed: u32,
}

impl Checks {
    fn note(&mut self, passed: bool, line: &str) {
        if passed {
            self.passed += 1;
        } else {
            self.failed += 1;
        }
        println!("{} {line}", if passed { "pass" } else { "FAIL" });
    }

    fn end(&self) -> ExitCode {
        println!("compare: {} passed, {} failed", self.passed, self.failed);
        if self.failed == 0 {
            ExitCode::SUCCESS
        } else {
            ExitCode::FAILURE
        }
    }

    /// Notes a run's pairs and its coverage.
    fn totals<C: Call>(&mut self, totals: &Totals, coverage: bool) {
        let port = if cfg!(original) && C::IN_ORIGINAL {
            "port with original"
        } else {
            "port with reference"
        };
        for (name, pair) in [
            ("reference with original", &totals.reference),
            (port, &totals.port),
        ] {
            if pair.cases > 0 {
                let line = format!(
                    "{}: {name}: {} cases, differing {}",
                    C::NAME,
                    pair.cases,
                    pair.differing
                );
                self.note(pair.differing == 0, &line);
                pair.first.iter().for_each(|which| println!("  {which}"));
            }
        }
        if totals.port.cases == 0 {
            println!("     {}: the static library has no such call", C::NAME);
        }
        let (classes, missing) = totals.coverage.missing(C::CLASSES);
        let line = format!(
            "{}: {} of {classes} classes reached",
            C::NAME,
            classes - missing.len()
        );
        self.note(missing.is_empty(), &line);
        missing
            .iter()
            .for_each(|class| println!("  not reached: {class}"));
        if coverage {
            print!("{}", totals.coverage.lines(C::CLASSES));
        }
    }
}

fn main() -> ExitCode {
    let words: Vec<String> = std::env::args().skip(1).collect();
    let words: Vec<&str> = words.iter().map(String::as_str).collect();
    #[cfg(original)]
    original::expect_panics();
    if !cfg!(original) {
        println!("compare: the original's files are not at hand: nothing is held against them");
        println!("  looked for in: {}", env!("COMPARE_LOOKED_IN"));
    }
    if port::SQRT.is_none() && port::LEAST_NORM.is_none() {
        println!("compare: no static library (tools/archive.sh, or PISKORLU_STATICLIB): the port is not compared");
    }
    match words.as_slice() {
        ["short"] => short(true),
        ["short", "--without-original"] => short(false),
        ["long"] => long(10_000_000),
        ["long", cases] => number(cases).map_or_else(usage, long),
        ["sqrt"] => sqrt(100_000_000),
        ["sqrt", count] => number(count).map_or_else(usage, sqrt),
        ["mutations"] => exit(mutations::print(3_000, None)),
        ["mutations", each] => {
            number(each).map_or_else(usage, |each| exit(mutations::print(each, None)))
        }
        ["mutations", each, rule] => {
            number(each).map_or_else(usage, |each| exit(mutations::print(each, Some(rule))))
        }
        ["vectors", folder] => outcome(vectors::write(folder.as_ref())),
        ["bend"] => bend(30_000, 2_000),
        ["bend", each] => number(each).map_or_else(usage, |each| bend(each, 2_000)),
        ["bend", each, runs] => match (number(each), number(runs)) {
            (Some(each), Some(runs)) => bend(each, runs),
            _ => usage(),
        },
        ["chains"] => chains(1_000_000),
        ["chains", files] => number(files).map_or_else(usage, chains),
        ["exact"] => exact(10_000_000),
        ["exact", rows] => number(rows).map_or_else(usage, exact),
        ["trees"] => trees(1_000_000),
        ["trees", sets] => number(sets).map_or_else(usage, trees),
        ["torn"] => torn(1_000_000),
        ["torn", lists] => number(lists).map_or_else(usage, torn),
        ["files", folder] => outcome(bendsolve::write(folder.as_ref())),
        ["bench"] => outcome(bench::run(false)),
        ["bench", "--write"] => outcome(bench::run(true)),
        ["one", family, seed, index] => one(family, number(seed), number(index)),
        ["families"] => families(),
        _ => usage(),
    }
}

fn usage() -> ExitCode {
    eprintln!("{HELP}");
    ExitCode::from(2)
}

fn number(word: &str) -> Option<u64> {
    word.parse().ok()
}

fn exit(well: bool) -> ExitCode {
    if well {
        ExitCode::SUCCESS
    } else {
        ExitCode::FAILURE
    }
}

fn outcome(result: Result<(), String>) -> ExitCode {
    match result {
        Ok(()) => ExitCode::SUCCESS,
        Err(message) => {
            eprintln!("compare: {message}");
            ExitCode::FAILURE
        }
    }
}

/// The gate's comparison: every call on fixed cases. It fails without the
/// original, unless the caller does not ask for it.
fn short(with_original: bool) -> ExitCode {
    let mut checks = Checks::default();
    if with_original {
        checks.note(cfg!(original), "the original's files are at hand");
    }
    let start = Instant::now();
    square_root(&mut checks, 5_000_000);
    checks.totals::<LeastNorm>(&run::<LeastNorm>(1, 20_000), false);
    checks.totals::<Solve>(&run::<Solve>(1, 8_000), false);
    checks.totals::<Triangle>(&run::<Triangle>(1, 4_000), false);
    checks.totals::<Joins>(&run::<Joins>(1, 50_000), false);
    checks.totals::<Tallied>(&run::<Tallied>(1, 15_000), false);
    checks.totals::<Bend>(&run::<Bend>(1, 10_000), false);
    checks.totals::<Chain>(&run::<Chain>(1, 4_000), false);
    checks.totals::<ChainWriter>(&run::<ChainWriter>(1, 4_000), false);
    checks.totals::<Exact>(&run::<Exact>(1, 20_000), false);
    checks.totals::<ExactRow>(&run::<ExactRow>(1, 40_000), false);
    checks.totals::<Nearest>(&run::<Nearest>(1, 100_000), false);
    checks.totals::<ExactJoin>(&run::<ExactJoin>(1, 50_000), false);
    checks.totals::<ExactTrees>(&run::<ExactTrees>(1, 6_000), false);
    println!("{:.0} s", start.elapsed().as_secs_f64());
    checks.end()
}

fn square_root(checks: &mut Checks, count: u64) {
    let Some(call) = port::SQRT else {
        println!("     square root: the static library has no such call");
        return;
    };
    let (differing, first) = calls::sqrt::compare(call, 1, count);
    checks.note(
        differing == 0,
        &format!("square root: port with hardware: {count} patterns, differing {differing}"),
    );
    if let Some(bits) = first {
        println!("  {bits:016X}");
    }
}

/// At least `cases` solves, and a third as many of each other call.
fn long(cases: u64) -> ExitCode {
    let mut checks = Checks::default();
    let start = Instant::now();
    let seed = 2;
    let each = |families: usize, cases: u64| cases.div_ceil(families as u64);
    square_root(&mut checks, cases);
    let mut differing = 0;
    differing += long_call::<LeastNorm>(
        &mut checks,
        seed,
        each(LeastNorm::families().len(), cases / 3),
    );
    differing += long_call::<Solve>(&mut checks, seed, each(Solve::families().len(), cases));
    differing += long_call::<Triangle>(
        &mut checks,
        seed,
        each(Triangle::families().len(), cases / 3),
    );
    differing += long_call::<Joins>(&mut checks, seed, each(Joins::families().len(), cases / 3));
    differing += long_call::<Tallied>(
        &mut checks,
        seed,
        each(Tallied::families().len(), cases / 10),
    );
    differing += long_call::<Bend>(&mut checks, seed, each(Bend::families().len(), cases / 30));
    differing += chain_calls(&mut checks, seed, cases / 10);
    differing += exact_calls(&mut checks, seed, cases);
    differing += tree_calls(&mut checks, seed, cases / 10);
    println!("{:.0} s", start.elapsed().as_secs_f64());
    println!("differing {differing}");
    checks.end()
}

/// Bend files: the call, and the program itself.
fn bend(each: u64, runs: u64) -> ExitCode {
    let mut checks = Checks::default();
    if port::BEND.is_none() {
        checks.note(false, "bend files: the static library has no such call");
    }
    long_call::<Bend>(&mut checks, 3, each);
    match bendsolve::runs(3, runs) {
        Ok(found) => {
            checks.note(found.differing == 0, &found.line());
            found.first.iter().for_each(|which| println!("  {which}"));
        }
        Err(message) => checks.note(false, &message),
    }
    checks.end()
}

/// Chained bend files, read and written.
fn chains(files: u64) -> ExitCode {
    let mut checks = Checks::default();
    for (name, missing) in [
        (Chain::NAME, port::CHAIN.is_none()),
        (ChainWriter::NAME, port::CHAIN_WRITE.is_none()),
    ] {
        if missing {
            checks.note(
                false,
                &format!("{name}: the static library has no such call"),
            );
        }
    }
    let differing = chain_calls(&mut checks, 3, files);
    println!("differing {differing}");
    checks.end()
}

/// At least so many chained bend files read, and a half as many written.
fn chain_calls(checks: &mut Checks, seed: u64, files: u64) -> u64 {
    let reads = files.div_ceil(Chain::families().len() as u64);
    let writes = (files / 2).div_ceil(ChainWriter::families().len() as u64);
    long_call::<Chain>(checks, seed, reads) + long_call::<ChainWriter>(checks, seed, writes)
}

/// Row sums without rounding.
fn exact(rows: u64) -> ExitCode {
    let mut checks = Checks::default();
    for (name, missing) in [
        ("exact sums", port::EXACT.is_none()),
        (Nearest::NAME, port::EXACT_NEAREST.is_none()),
    ] {
        if missing {
            checks.note(
                false,
                &format!("{name}: the static library has no such call"),
            );
        }
    }
    let differing = exact_calls(&mut checks, 3, rows);
    println!("differing {differing}");
    checks.end()
}

/// At least so many rows at once, a half as many term by term, and as many
/// roundings to the nearest.
fn exact_calls(checks: &mut Checks, seed: u64, rows: u64) -> u64 {
    let by_row = rows.div_ceil(ExactRow::families().len() as u64);
    let by_term = (rows / 2).div_ceil(Exact::families().len() as u64);
    let nearest = rows.div_ceil(Nearest::families().len() as u64);
    long_call::<Exact>(checks, seed, by_term)
        + long_call::<ExactRow>(checks, seed, by_row)
        + long_call::<Nearest>(checks, seed, nearest)
}

/// Row sums without rounding in several orders and groupings.
fn trees(sets: u64) -> ExitCode {
    let mut checks = Checks::default();
    if port::EXACT_JOIN.is_none() {
        let name = ExactJoin::NAME;
        checks.note(
            false,
            &format!("{name}: the static library has no such call"),
        );
    }
    let differing = tree_calls(&mut checks, 3, sets);
    println!("differing {differing}");
    checks.end()
}

/// At least so many sets of terms, each in several orders and groupings, and as
/// many joins of two.
fn tree_calls(checks: &mut Checks, seed: u64, sets: u64) -> u64 {
    let joins = sets.div_ceil(ExactJoin::families().len() as u64);
    let trees = sets.div_ceil(ExactTrees::families().len() as u64);
    long_call::<ExactJoin>(checks, seed, joins) + long_call::<ExactTrees>(checks, seed, trees)
}

/// Lists of tallied solves, some with a torn cell wire.
fn torn(lists: u64) -> ExitCode {
    let mut checks = Checks::default();
    if port::TALLIED.is_none() {
        let name = Tallied::NAME;
        checks.note(
            false,
            &format!("{name}: the static library has no such call"),
        );
    }
    let differing = long_families::<Tallied>(&mut checks, &[TORN], 3, lists);
    println!("differing {differing}");
    checks.end()
}

fn long_call<C: Call>(checks: &mut Checks, seed: u64, each: u64) -> u64 {
    long_families::<C>(checks, &C::families(), seed, each)
}

fn long_families<C: Call>(
    checks: &mut Checks,
    families: &[&'static str],
    seed: u64,
    each: u64,
) -> u64 {
    let start = Instant::now();
    let totals = run_families::<C>(families, seed, each);
    println!(
        "{}: {} cases, {:.0} s",
        C::NAME,
        totals.cases,
        start.elapsed().as_secs_f64()
    );
    checks.totals::<C>(&totals, true);
    totals.reference.differing + totals.port.differing
}

/// The square root on many patterns, and its time beside the hardware's.
fn sqrt(count: u64) -> ExitCode {
    let Some(call) = port::SQRT else {
        return exit(false);
    };
    let (differing, first) = calls::sqrt::compare(call, 1, count);
    println!("square root: {count} patterns, differing {differing}");
    if let Some(bits) = first {
        println!("  {bits:016X}");
    }
    let times = calls::sqrt::times(call);
    println!(
        "a root, on arrays: port {:.2} ns, hardware called {:.2} ns, hardware inlined {:.2} ns",
        times.port, times.hardware_called, times.hardware_inlined
    );
    println!(
        "port / hardware: called {:.2}, inlined {:.2}",
        times.port / times.hardware_called,
        times.port / times.hardware_inlined
    );
    exit(differing == 0)
}

fn one(family: &str, seed: Option<u64>, index: Option<u64>) -> ExitCode {
    let (Some(seed), Some(index)) = (seed, index) else {
        return usage();
    };
    let shown = show::<LeastNorm>(family, seed, index)
        || show::<Solve>(family, seed, index)
        || show::<Triangle>(family, seed, index)
        || show::<Joins>(family, seed, index)
        || show::<Tallied>(family, seed, index)
        || show::<Bend>(family, seed, index)
        || show::<Chain>(family, seed, index)
        || show::<ChainWriter>(family, seed, index)
        || show::<Exact>(family, seed, index)
        || show::<ExactRow>(family, seed, index)
        || show::<Nearest>(family, seed, index)
        || show::<ExactJoin>(family, seed, index)
        || show::<ExactTrees>(family, seed, index);
    if !shown {
        eprintln!("compare: no family of that name");
    }
    exit(shown)
}

fn families() -> ExitCode {
    let names = [
        LeastNorm::families(),
        Solve::families(),
        Triangle::families(),
        Joins::families(),
        Tallied::families(),
        Bend::families(),
        Chain::families(),
        ChainWriter::families(),
        Exact::families(),
        ExactRow::families(),
        Nearest::families(),
        ExactJoin::families(),
        ExactTrees::families(),
    ];
    names.concat().iter().for_each(|name| println!("{name}"));
    ExitCode::SUCCESS
}
