//! Row sums without rounding: sums whose rounded form is wrong, the limits and
//! their refusals, and joins in any order.

use piskorlu::{ExactSum, Refusal, EXACT_WORDS};

const TWO_53: f64 = 9007199254740992.0;

/// A sum of products, and of a free motion where there is one.
fn of(free: Option<f64>, products: &[(f64, f64)]) -> ExactSum {
    let mut sum = ExactSum::EMPTY;
    if let Some(u) = free {
        sum.add_free(u).unwrap();
    }
    for &(w, nu) in products {
        sum.add_product(w, nu).unwrap();
    }
    sum
}

fn joined(mut a: ExactSum, b: &ExactSum) -> ExactSum {
    a.join(b).unwrap();
    a
}

#[test]
fn a_sum_that_rounds_to_zero() {
    let third = 1.0 / 3.0;
    let sum = ExactSum::row(-1.0, &[3.0], &[third]).unwrap();
    assert_eq!(sum, of(Some(-1.0), &[(3.0, third)]));
    assert_eq!(3.0 * third - 1.0, 0.0);
    assert_eq!((sum.sign(), sum.nearest()), (-1, -(0.5_f64.powi(54))));
    assert_eq!((sum.products(), sum.has_free()), (1, true));
    assert_eq!(sum.words()[32], 0xFFFF_C000_0000_0000);
    assert_eq!(sum.words()[EXACT_WORDS - 1], u64::MAX);
}

#[test]
fn any_order_and_grouping() {
    let terms = [(TWO_53, 1.0), (1.0, 1.0), (-TWO_53, 1.0)];
    let whole = of(None, &terms);
    assert_eq!((whole.nearest(), whole.sign()), (1.0, 1));
    let [a, b, c] = terms.map(|term| of(None, &[term]));
    for (first, second, third) in [(&a, &b, &c), (&c, &b, &a), (&b, &c, &a)] {
        assert_eq!(joined(joined(first.clone(), second), third), whole);
        assert_eq!(joined(first.clone(), &joined(second.clone(), third)), whole);
    }
    assert_eq!(joined(whole.clone(), &ExactSum::EMPTY), whole);
}

#[test]
fn refusals() {
    let half = of(Some(0.0), &[(0.1, 0.1); 16]);
    let other = of(None, &[(0.1, 0.1); 16]);
    let mut full = joined(half.clone(), &other);
    assert_eq!(full, ExactSum::row(0.0, &[0.1; 32], &[0.1; 32]).unwrap());
    let kept = full.clone();
    assert_eq!(full.add_product(1.0, 1.0), Err(Refusal::ExactFull));
    assert_eq!(full.add_free(f64::NAN), Err(Refusal::ExactFull));
    assert_eq!(full.join(&of(None, &[(0.0, 0.0)])), Err(Refusal::ExactFull));
    assert_eq!(full, kept);
    let mut free = of(Some(0.0), &[]);
    assert_eq!(free.join(&half), Err(Refusal::ExactFull));
    assert_eq!(
        free.add_product(f64::INFINITY, 0.0),
        Err(Refusal::NotFinite)
    );
    assert_eq!(free, of(Some(0.0), &[]));
    let long = ExactSum::row(0.0, &[0.0; 33], &[0.0; 33]);
    assert_eq!(long, Err(Refusal::ExactFull));
}
