//! The original, boxed.rs, dense.rs and report.rs unchanged, included by path.
//! Its asserts end in a panic where the port refuses; [`asks`] turns that into
//! an answer.

#[allow(dead_code)]
mod source {
    include!(concat!(env!("OUT_DIR"), "/original.rs"));
}

pub use source::{boxed, dense, report};

use std::cell::Cell;
use std::panic::{self, AssertUnwindSafe};

thread_local! {
    static ASKING: Cell<bool> = const { Cell::new(false) };
}

/// Keeps the panics that [`asks`] expects from being printed. Called once.
pub fn expect_panics() {
    let print = panic::take_hook();
    panic::set_hook(Box::new(move |about| {
        if !ASKING.with(Cell::get) {
            print(about);
        }
    }));
}

/// What `call` returns, or `None` where it panics.
pub fn asks<T>(call: impl FnOnce() -> T) -> Option<T> {
    ASKING.with(|asking| asking.set(true));
    let answer = panic::catch_unwind(AssertUnwindSafe(call)).ok();
    ASKING.with(|asking| asking.set(false));
    answer
}
