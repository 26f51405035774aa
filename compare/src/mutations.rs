//! Puts each error into the reference in turn and counts the cases that show
//! it.

use crate::calls::bend::Bend;
use crate::calls::chain::Chain;
use crate::calls::chain_writer::ChainWriter;
use crate::calls::exact::Exact;
use crate::calls::exact_join::ExactJoin;
use crate::calls::exact_row::ExactRow;
use crate::calls::exact_trees::ExactTrees;
use crate::calls::joins::Joins;
use crate::calls::least_norm::LeastNorm;
use crate::calls::nearest::Nearest;
use crate::calls::solve::Solve;
use crate::calls::tallied::Tallied;
use crate::calls::triangle::Triangle;
use crate::calls::{Call, Zeros};
use crate::cases::random::Rng;
use crate::reference::rule::{Rule, RULES};
use crate::run::THREADS;
use std::collections::BTreeMap;
use std::thread;

/// How often one error showed in one call's cases.
#[derive(Clone, Default)]
struct Caught {
    cases: u64,
    shown: u64,
    by_family: BTreeMap<&'static str, u64>,
}

impl Caught {
    fn add(&mut self, other: &Caught) {
        self.cases += other.cases;
        self.shown += other.shown;
        for (&family, &shown) in &other.by_family {
            *self.by_family.entry(family).or_insert(0) += shown;
        }
    }

    /// The family that shows it most often.
    fn best_family(&self) -> String {
        let best = self.by_family.iter().max_by_key(|&(_, &shown)| shown);
        best.map_or(String::new(), |(family, shown)| format!("{family} {shown}"))
    }
}

/// The errors that a call can show, or the named one alone.
fn rules_of<C: Call>(name: Option<&str>) -> Vec<Rule> {
    let named = |rule: &Rule| name.is_none_or(|name| format!("{rule:?}") == name);
    RULES
        .iter()
        .copied()
        .filter(|rule| C::PLACES.contains(&rule.place()) && named(rule))
        .collect()
}

/// Runs every error of a call over `each` cases of every family.
fn survey<C: Call>(seed: u64, each: u64, name: Option<&str>) -> Vec<(Rule, Caught)> {
    let rules = rules_of::<C>(name);
    if rules.is_empty() {
        return Vec::new();
    }
    let mut found: Vec<(Rule, Caught)> = rules
        .iter()
        .map(|&rule| (rule, Caught::default()))
        .collect();
    thread::scope(|scope| {
        let rules = &rules;
        let parts: Vec<_> = (0..THREADS)
            .map(|part| scope.spawn(move || survey_part::<C>(rules, seed, each, part)))
            .collect();
        for part in parts {
            let Ok(counts) = part.join() else {
                continue;
            };
            for ((_, total), more) in found.iter_mut().zip(&counts) {
                total.add(more);
            }
        }
    });
    found
}

fn survey_part<C: Call>(rules: &[Rule], seed: u64, each: u64, part: u64) -> Vec<Caught> {
    let mut counts = vec![Caught::default(); rules.len()];
    for family in C::families() {
        for index in (part..each).step_by(THREADS as usize) {
            let Some(case) = C::case(family, &mut Rng::of_case(family, seed, index)) else {
                continue;
            };
            let reference = C::reference(&case, Rule::None);
            let expected = C::original(&case, &reference).unwrap_or(reference);
            for (&rule, caught) in rules.iter().zip(&mut counts) {
                caught.cases += 1;
                let found = C::reference(&case, rule);
                if C::difference(&expected, &found, Zeros::WithoutSign).is_some() {
                    caught.shown += 1;
                    *caught.by_family.entry(family).or_insert(0) += 1;
                }
            }
        }
    }
    counts
}

/// How one error fared.
enum Verdict {
    Caught,
    /// No case shows it, and the reason says why none can.
    Unseen,
    /// No case shows it and no reason is given, or a case shows it in spite of
    /// the reason.
    Wrong,
}

fn verdict(rule: Rule, caught: &Caught) -> (Verdict, String) {
    match (caught.shown, rule.unseen()) {
        (0, Some(reason)) => (Verdict::Unseen, format!("not to be seen: {reason}")),
        (0, None) => (Verdict::Wrong, String::from("SURVIVES")),
        (_, Some(_)) => (
            Verdict::Wrong,
            String::from("CAUGHT, although said not to be seen"),
        ),
        (_, None) => (Verdict::Caught, format!("most in {}", caught.best_family())),
    }
}

/// Every error, or the named one, with what all calls' cases show of it.
fn surveys(each: u64, name: Option<&str>) -> Vec<(Rule, Caught)> {
    let parts = [
        survey::<LeastNorm>(1, each, name),
        survey::<Solve>(1, each, name),
        survey::<Triangle>(1, each, name),
        survey::<Joins>(1, each, name),
        survey::<Tallied>(1, each, name),
        survey::<Bend>(1, each, name),
        survey::<Chain>(1, each, name),
        survey::<ChainWriter>(1, each, name),
        survey::<Exact>(1, each, name),
        survey::<ExactRow>(1, each, name),
        survey::<Nearest>(1, each, name),
        survey::<ExactJoin>(1, each, name),
        survey::<ExactTrees>(1, each, name),
    ];
    let mut all: Vec<(Rule, Caught)> = Vec::new();
    for (rule, caught) in parts.into_iter().flatten() {
        match all.iter_mut().find(|(known, _)| *known == rule) {
            Some((_, total)) => total.add(&caught),
            None => all.push((rule, caught)),
        }
    }
    all
}

/// Prints the table; whether every error is caught or known not to be seen.
pub fn print(each: u64, name: Option<&str>) -> bool {
    let all = surveys(each, name);
    let (mut shown, mut unseen, mut wrong) = (0, 0, 0);
    for (rule, caught) in &all {
        let (verdict, text) = verdict(*rule, caught);
        match verdict {
            Verdict::Caught => shown += 1,
            Verdict::Unseen => unseen += 1,
            Verdict::Wrong => wrong += 1,
        }
        let (found, cases) = (caught.shown, caught.cases);
        println!(
            "{rule:?}: {}: caught in {found} of {cases}; {text}",
            rule.text()
        );
    }
    let total = all.len();
    println!("mutations: {total} errors, {shown} caught, {unseen} not to be seen, {wrong} wrong");
    wrong == 0 && total > 0
}
