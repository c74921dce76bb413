//! Scripted runs: before the driver looks at the status registers or at the
//! clock, a feed may change what it will see.

use std::{
    cell::Cell,
    panic::{AssertUnwindSafe, catch_unwind, resume_unwind},
};

pub(crate) trait Feed {
    fn before_clock(&self);
    fn before_status(&self) {}
    fn limit_tested(&self, _exceeded: bool) {}
}

thread_local! {
    static FEED: Cell<Option<&'static dyn Feed>> = const { Cell::new(None) };
}

pub(crate) fn before_clock() {
    if let Some(feed) = FEED.get() {
        feed.before_clock();
    }
}

pub(crate) fn before_status() {
    if let Some(feed) = FEED.get() {
        feed.before_status();
    }
}

pub(crate) fn limit_tested(exceeded: bool) {
    if let Some(feed) = FEED.get() {
        feed.limit_tested(exceeded);
    }
}

struct RanOut;

/// Ends a run whose script is spent: the driver would wait on.
pub(crate) fn run_out() -> ! {
    resume_unwind(Box::new(RanOut))
}

/// Runs the driver on a feed; none if the script ran out. Traps pass through.
pub(crate) fn fed<R>(feed: &dyn Feed, run: impl FnOnce() -> R) -> Option<R> {
    // SAFETY: the longer life is never used, since the feed is taken away below.
    let feed = unsafe { core::mem::transmute::<&dyn Feed, &'static dyn Feed>(feed) };
    let before = FEED.replace(Some(feed));
    let result = catch_unwind(AssertUnwindSafe(run));
    FEED.set(before);
    match result {
        Ok(answer) => Some(answer),
        Err(cause) if cause.is::<RanOut>() => None,
        Err(trap) => resume_unwind(trap),
    }
}

/// Runs without any feed, on what the registers and the clock show now.
pub(crate) fn unfed<R>(run: impl FnOnce() -> R) -> R {
    let before = FEED.take();
    let answer = run();
    FEED.set(before);
    answer
}
