//! Runs a call's families of cases over threads and counts what differs.

use crate::calls::{Call, Zeros};
use crate::cases::random::Rng;
use crate::coverage::Coverage;
use crate::reference::Rule;
use std::thread;

/// The threads of a run.
pub const THREADS: u64 = 2;

/// The cases of one pair of parties.
#[derive(Default)]
pub struct Pair {
    pub cases: u64,
    pub differing: u64,
    /// The first cases that differ: family, seed, index and part.
    pub first: Vec<String>,
}

impl Pair {
    fn add(&mut self, other: Pair) {
        self.cases += other.cases;
        self.differing += other.differing;
        self.first.extend(other.first);
        self.first.truncate(5);
    }

    fn note(&mut self, difference: Option<&'static str>, which: impl FnOnce() -> String) {
        self.cases += 1;
        if let Some(part) = difference {
            self.differing += 1;
            if self.first.len() < 5 {
                self.first.push(format!("{}: {part}", which()));
            }
        }
    }
}

/// What a run found.
#[derive(Default)]
pub struct Totals {
    pub cases: u64,
    /// The reference against the original.
    pub reference: Pair,
    /// The port against the original and the reference.
    pub port: Pair,
    pub coverage: Coverage,
}

impl Totals {
    fn add(&mut self, other: Totals) {
        self.cases += other.cases;
        self.reference.add(other.reference);
        self.port.add(other.port);
        self.coverage.add(&other.coverage);
    }
}

/// Runs `each` cases of every family of a call.
pub fn run<C: Call>(seed: u64, each: u64) -> Totals {
    run_families::<C>(&C::families(), seed, each)
}

/// Runs `each` cases of these families of a call.
pub fn run_families<C: Call>(families: &[&'static str], seed: u64, each: u64) -> Totals {
    let mut totals = Totals::default();
    thread::scope(|scope| {
        let parts: Vec<_> = (0..THREADS)
            .map(|part| scope.spawn(move || run_part::<C>(families, seed, each, part)))
            .collect();
        for part in parts {
            match part.join() {
                Ok(found) => totals.add(found),
                Err(_) => totals
                    .reference
                    .note(Some("a panic"), || String::from(C::NAME)),
            }
        }
    });
    totals
}

/// Every THREADS-th case, so that the parts take about as long.
fn run_part<C: Call>(families: &[&'static str], seed: u64, each: u64, part: u64) -> Totals {
    let mut totals = Totals::default();
    for &family in families {
        for index in (part..each).step_by(THREADS as usize) {
            let Some(case) = C::case(family, &mut Rng::of_case(family, seed, index)) else {
                continue;
            };
            compare::<C>(&case, &mut totals, || format!("{family} {seed} {index}"));
        }
    }
    totals
}

/// Compares the parties on one case.
fn compare<C: Call>(case: &C::Case, totals: &mut Totals, which: impl Fn() -> String) {
    totals.cases += 1;
    let reference = C::reference(case, Rule::None);
    C::cover(case, &reference, &mut totals.coverage);
    let original = C::original(case, &reference);
    if let Some(original) = &original {
        totals.reference.note(
            C::difference(original, &reference, Zeros::WithoutSign),
            &which,
        );
    }
    if let Some(port) = C::port(case) {
        let from_original =
            original.and_then(|original| C::difference(&original, &port, Zeros::WithoutSign));
        let difference =
            from_original.or_else(|| C::difference(&reference, &port, Zeros::WithSign));
        totals.port.note(difference, &which);
    }
}

/// Prints one case in full with every answer to it; whether the family is one
/// of this call's.
pub fn show<C: Call>(family: &str, seed: u64, index: u64) -> bool {
    let Some(case) = C::case(family, &mut Rng::of_case(family, seed, index)) else {
        return false;
    };
    let reference = C::reference(&case, Rule::None);
    println!(
        "{} {family} {seed} {index}\n{}",
        C::NAME,
        C::show_case(&case)
    );
    println!("reference\n{}", C::show_answer(&reference));
    match C::original(&case, &reference) {
        Some(original) => {
            println!("original\n{}", C::show_answer(&original));
            let part = C::difference(&original, &reference, Zeros::WithoutSign);
            println!(
                "reference and original differ in: {}",
                part.unwrap_or("nothing")
            );
        }
        None => println!("original: not asked"),
    }
    match C::port(&case) {
        Some(port) => {
            println!("port\n{}", C::show_answer(&port));
            let part = C::difference(&reference, &port, Zeros::WithSign);
            println!(
                "port and reference differ in: {}",
                part.unwrap_or("nothing")
            );
        }
        None => println!("port: has no such call"),
    }
    true
}
