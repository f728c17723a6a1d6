//! Calls dfu-core so that a panic inside it is an answer, and a silent one.

use std::cell::Cell;
use std::panic::{catch_unwind, set_hook, take_hook, AssertUnwindSafe};

/// Why a case has no answer that could be compared.
#[derive(Clone, Copy, Debug, PartialEq)]
pub enum Aside {
    /// It lies outside document 01's domain of comparison.
    Outside,
    /// dfu-core panicked.
    Panicked,
}

thread_local! {
    static INSIDE: Cell<bool> = const { Cell::new(false) };
}

/// What a call of dfu-core answers.
pub fn guarded<T>(call: impl FnOnce() -> T) -> Result<T, Aside> {
    INSIDE.set(true);
    let answer = catch_unwind(AssertUnwindSafe(call));
    INSIDE.set(false);
    answer.map_err(|_| Aside::Panicked)
}

/// From now on a panic inside a guarded call writes nothing; any other is a fault of ours and is written as ever.
pub fn hush() {
    let loud = take_hook();
    set_hook(Box::new(move |info| {
        if !INSIDE.get() {
            loud(info);
        }
    }));
}
