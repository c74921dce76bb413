//! What callgrind collects: begun and stopped from here, since it does not follow calls well on every processor.

use std::cell::Cell;

#[link(name = "collect", kind = "static")]
unsafe extern "C" {
    fn collect_toggle();
}

thread_local! {
    static PAUSES: Cell<usize> = const { Cell::new(0) };
}

fn toggle() {
    // SAFETY: a request to callgrind, and nothing where the program runs without it.
    unsafe { collect_toggle() }
}

/// Collects what is done here.
#[inline(never)]
pub fn collected<R>(done: impl FnOnce() -> R) -> R {
    toggle();
    let answer = done();
    toggle();
    answer
}

/// Leaves out what is done here, while something is collected.
#[inline(never)]
pub fn left_out<R>(done: impl FnOnce() -> R) -> R {
    toggle();
    PAUSES.set(PAUSES.get() + 1);
    let answer = done();
    toggle();
    answer
}

/// How often something was left out; each time a few instructions of the toggling itself are collected.
pub fn pauses() -> usize {
    PAUSES.get()
}
