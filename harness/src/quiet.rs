//! Runs the Rust where it may panic, and keeps its panic messages from the screen. Panics of the harness itself are printed.

use std::cell::Cell;
use std::panic::{self, AssertUnwindSafe};
use std::sync::Once;

thread_local! {
    static QUIET: Cell<bool> = const { Cell::new(false) };
}

static HOOK: Once = Once::new();

/// What the Rust gives, or nothing where it panics.
pub fn unless_it_panics<R>(run: impl FnOnce() -> R) -> Option<R> {
    HOOK.call_once(|| {
        let usual = panic::take_hook();
        panic::set_hook(Box::new(move |info| {
            if !QUIET.with(Cell::get) {
                usual(info);
            }
        }));
    });
    QUIET.with(|q| q.set(true));
    let given = panic::catch_unwind(AssertUnwindSafe(run));
    QUIET.with(|q| q.set(false));
    given.ok()
}
