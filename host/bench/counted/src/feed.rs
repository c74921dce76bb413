//! The controller at which the Rust original runs here: it completes every list at once. It stands in for the oracle's scripted runs, so
//! that nothing but the driver and its registers is counted.

use std::cell::Cell;

use crate::{collect, registers::RegisterBlock};

pub(crate) trait Feed {
    fn before_clock(&self);
    fn before_status(&self) {}
    fn limit_tested(&self, _exceeded: bool) {}
}

thread_local! {
    static REGISTERS: Cell<Option<&'static RegisterBlock>> = const { Cell::new(None) };
}

/// From now on a list that is started in these registers is completed before the driver looks.
pub(crate) fn complete_lists_in(registers: &'static RegisterBlock) {
    REGISTERS.set(Some(registers));
}

const DONE: u32 = 1 << 31;

fn controller_runs() {
    let Some(registers) = REGISTERS.get() else {
        return;
    };
    if registers.ctr().read().trans_start().bit_is_clear() {
        return;
    }
    registers.ctr().modify(|_, w| w.trans_start().clear_bit());
    let words = registers.commands();
    let reads = words.iter().filter(|word| *word >> 11 == 3);
    let received: u32 = reads.map(|word| word & 0xff).sum();
    registers.show_received(&[0; 32][..received as usize]);
    registers.show_commands(&words.map(|word| if word == 0 { 0 } else { word | DONE }));
}

pub(crate) fn before_status() {
    collect::left_out(controller_runs);
}

pub(crate) fn before_clock() {}

pub(crate) fn limit_tested(_exceeded: bool) {}

pub(crate) fn run_out() -> ! {
    unreachable!("no script is run here")
}

pub(crate) fn fed<R>(_feed: &dyn Feed, run: impl FnOnce() -> R) -> Option<R> {
    Some(run())
}

pub(crate) fn unfed<R>(run: impl FnOnce() -> R) -> R {
    run()
}
