//! Ways to add the same terms: in any order, one by one or in parts that are
//! joined.

use super::exact::{refused as refused_terms, words};
use super::join_examples::examples;
use super::random::Rng;
use super::sums::{self, Sum};
use crate::reference::exact::{Accumulator, Term, MOST};

/// A call on a stack of accumulators.
#[derive(Clone, Debug)]
pub enum Step {
    /// Another one on top, empty or as a caller made it up.
    Begin(Accumulator),
    /// A term added to the top one.
    Add(Term),
    /// The top one taken off, and joined to the one below.
    Join,
}

/// Ways to add the same terms. Each leaves one accumulator.
#[derive(Clone, Debug)]
pub struct Trees {
    pub ways: Vec<Vec<Step>>,
    /// Whether the terms are finite, and in all within one free motion and 32
    /// products: no call is refused then, and every way leaves the same.
    pub within: bool,
    /// The worked example's number, where it is one.
    pub example: Option<usize>,
}

/// What is added: a term, or what an accumulator holds that a caller made up.
enum Leaf {
    Term(Term),
    State(Accumulator),
}

/// The ways by chance that a case has beside the terms' own order.
const BY_CHANCE: usize = 2;

/// The sums by their names.
const SUMS: &[(&str, sums::Make)] = &[
    ("trees/any", sums::any),
    ("trees/ordinary", sums::ordinary),
    ("trees/cancelling", sums::cancelling),
    ("trees/ties", sums::ties),
    ("trees/subnormal", sums::subnormal),
    ("trees/overflow", sums::overflow),
    ("trees/carries", sums::carries),
];

type Make = fn(&mut Rng) -> Trees;

const OTHERS: &[(&str, Make)] = &[
    ("trees/examples", example),
    ("trees/states", states),
    ("trees/refused", refused),
];

pub fn families() -> Vec<&'static str> {
    let sums = SUMS.iter().map(|&(name, _)| name);
    sums.chain(OTHERS.iter().map(|&(name, _)| name)).collect()
}

pub fn trees(family: &str, rng: &mut Rng) -> Option<Trees> {
    if let Some(&(_, make)) = OTHERS.iter().find(|&&(name, _)| name == family) {
        return Some(make(rng));
    }
    let &(_, make) = SUMS.iter().find(|&&(name, _)| name == family)?;
    let sum = make(rng);
    let leaves = leaves(rng, &sum);
    Some(Trees::of(rng, &leaves))
}

impl Trees {
    /// The leaves one by one in their own order, and in orders and groupings
    /// by chance.
    fn of(rng: &mut Rng, leaves: &[Leaf]) -> Self {
        let mut ways = vec![way(rng, leaves, (0..leaves.len()).collect(), 0)];
        for _ in 0..BY_CHANCE {
            let order = rng.permutation(leaves.len());
            let parted = rng.pick(&[0, 20, 60, 100]);
            ways.push(way(rng, leaves, order, parted));
        }
        Trees {
            ways,
            within: within(leaves),
            example: None,
        }
    }
}

/// The terms of a sum, at times without the free motion.
fn leaves(rng: &mut Rng, sum: &Sum) -> Vec<Leaf> {
    let products = sum.products.iter().map(|&(w, nu)| Term::Product(w, nu));
    let free = rng.chance(90).then_some(Term::Free(sum.u));
    products.chain(free).map(Leaf::Term).collect()
}

/// The calls that add the leaves in this order.
fn way(rng: &mut Rng, leaves: &[Leaf], order: Vec<usize>, parted: usize) -> Vec<Step> {
    let ordered: Vec<&Leaf> = order.iter().map(|&place| &leaves[place]).collect();
    let mut steps = Vec::new();
    grow(rng, &ordered, parted, &mut steps);
    steps
}

/// The calls that add these leaves: the last one after all others, or, in so
/// many of a hundred, two parts joined, one of which may be empty.
fn grow(rng: &mut Rng, leaves: &[&Leaf], parted: usize, steps: &mut Vec<Step>) {
    let Some((last, others)) = leaves.split_last() else {
        steps.push(Step::Begin(Accumulator::empty()));
        return;
    };
    let chance = if others.is_empty() {
        parted / 10
    } else {
        parted
    };
    if rng.chance(chance) {
        let place = if others.is_empty() || rng.chance(10) {
            rng.pick(&[0, leaves.len()])
        } else {
            1 + rng.below(others.len())
        };
        let (left, right) = leaves.split_at(place);
        grow(rng, left, parted, steps);
        grow(rng, right, parted, steps);
        steps.push(Step::Join);
        return;
    }
    match last {
        Leaf::Term(term) => {
            grow(rng, others, parted, steps);
            steps.push(Step::Add(*term));
        }
        Leaf::State(state) if others.is_empty() => steps.push(Step::Begin(state.clone())),
        Leaf::State(state) => {
            grow(rng, others, parted, steps);
            steps.push(Step::Begin(state.clone()));
            steps.push(Step::Join);
        }
    }
}

/// Whether no call on these leaves is refused, whatever their order.
fn within(leaves: &[Leaf]) -> bool {
    let (mut products, mut free) = (0u64, 0);
    for leaf in leaves {
        let finite = match leaf {
            Leaf::Term(Term::Free(u)) => {
                free += 1;
                u.is_finite()
            }
            Leaf::Term(Term::Product(w, nu)) => {
                products += 1;
                w.is_finite() && nu.is_finite()
            }
            Leaf::State(state) => {
                products += u64::from(state.products);
                free += u32::from(state.free);
                true
            }
        };
        if !finite {
            return false;
        }
    }
    products <= u64::from(MOST) && free <= 1
}

fn example(rng: &mut Rng) -> Trees {
    let joins = &examples().joins;
    let example = &joins[rng.below(joins.len())];
    Trees {
        ways: example.ways.clone(),
        within: example.answer == 0,
        example: Some(example.number),
    }
}

/// Accumulators that a caller made up, and a few terms; past the limits at
/// times.
fn states(rng: &mut Rng) -> Trees {
    let mut sum = sums::ordinary(rng);
    sum.products.truncate(3);
    let mut leaves = leaves(rng, &sum);
    for _ in 0..1 + rng.below(4) {
        leaves.push(Leaf::State(Accumulator {
            words: words(rng),
            products: rng.pick(&[0, 0, 1, 7, 8, 9]),
            free: rng.chance(10),
        }));
    }
    Trees::of(rng, &leaves)
}

/// Terms among which some get 17 or 18.
fn refused(rng: &mut Rng) -> Trees {
    let terms = refused_terms(rng).terms;
    let leaves: Vec<Leaf> = terms.into_iter().map(Leaf::Term).collect();
    Trees::of(rng, &leaves)
}
