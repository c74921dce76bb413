//! Clearing the bus by its pins.

use core::{cell::Cell, task::Poll};

use crate::{
    api::{outcomes::Snapshot, transactions::Timeout},
    feed::{self, Feed},
    gpio,
    machine::Machine,
    time,
};

/// What the driver did to the lines or to the controller.
#[derive(Clone, Copy, Debug, PartialEq, Eq)]
pub enum Effect {
    /// SCL set high (released) or low.
    Scl(bool),
    /// SDA set high (released) or low.
    Sda(bool),
    /// The controller was reset.
    Reset,
}

#[derive(Clone, Copy, Debug, PartialEq, Eq)]
pub enum ClearState {
    Idle,
    SendStop,
    /// Clocks left, and whether SCL is high.
    SendClock(u8, bool),
}

/// A `ClearBusFuture`, its fields laid open.
#[derive(Clone, Copy, Debug, PartialEq, Eq)]
pub struct Clear {
    pub state: ClearState,
    pub wait: u64,
    pub pins: bool,
    pub reset_fsm: bool,
}

impl Clear {
    /// `ClearBusFuture::new`.
    pub fn fresh(pins: bool, reset_fsm: bool, now: u64) -> (Clear, Vec<Effect>) {
        time::set_now(now);
        gpio::take_effects();
        let clear = Machine::with(pins, Timeout::None).clear_new(reset_fsm);
        (clear, gpio::take_effects())
    }

    /// `ClearBusFuture::poll_completion`, with SDA reading what is given.
    pub fn poll(&mut self, now: u64, sda_high: bool) -> (Poll<()>, Vec<Effect>) {
        time::set_now(now);
        gpio::set_sda(sda_high);
        gpio::take_effects();
        let answer = Machine::with(self.pins, Timeout::None).clear_poll(self);
        (answer, gpio::take_effects())
    }

    /// What dropping it does.
    pub fn end(self) -> Vec<Effect> {
        gpio::take_effects();
        Machine::with(self.pins, Timeout::None).clear_drop(&self);
        gpio::take_effects()
    }

    /// A fresh clear with pins after so many acting polls with SDA low, the
    /// first at 5, each 5 after the last. It is laid open at the end only.
    pub fn driven(reset_fsm: bool, polls: usize) -> Clear {
        time::set_now(0);
        gpio::set_sda(false);
        let machine = Machine::with(true, Timeout::None);
        let clear = machine.clear_driven(reset_fsm, polls, |poll| {
            time::set_now(5 * (poll as u64 + 1));
        });
        gpio::take_effects();
        clear
    }
}

/// What one poll of a clear sees.
#[derive(Clone, Copy, Debug, PartialEq, Eq)]
pub struct Sample {
    pub now: u64,
    pub sda_high: bool,
}

/// How a run over a tape ended.
#[derive(Clone, Copy, Debug, PartialEq, Eq)]
pub enum Ending {
    Ready,
    GivenUp,
    /// The driver would have polled on.
    TapeOver,
}

#[derive(Clone, Debug, PartialEq, Eq)]
pub struct ClearRun {
    pub ending: Ending,
    pub polls: usize,
    /// From the fresh clear's first to the release at the end.
    pub effects: Vec<Effect>,
    /// Each time a pin was disconnected (false) or connected again.
    pub wiring: Vec<bool>,
}

/// `clear_bus_blocking`, begun at `start`, one sample a poll, given up once
/// more than `limit` has passed.
pub fn clear_bus_blocking(
    pins: bool,
    reset_fsm: bool,
    start: u64,
    limit: u64,
    samples: &[Sample],
) -> ClearRun {
    let tape = Tape::new(start, limit, samples);
    let machine = Machine::with(pins, Timeout::None);
    let over = feed::fed(&tape, || machine.clear_bus(reset_fsm)).is_none();
    tape.run(over)
}

/// Drops an unfinished wait that has no deadline on a machine with pins: the
/// bus clear that this asks for, if it does.
pub fn abandon_and_clear(snapshot: &Snapshot, limit: u64, samples: &[Sample]) -> Option<ClearRun> {
    let tape = Tape::new(snapshot.now, limit, samples);
    let machine = Machine::with(true, Timeout::None);
    machine.show(snapshot);
    let over = feed::fed(&tape, || machine.abandon(None)).is_none();
    tape.was_read().then(|| tape.run(over))
}

/// Samples for a clear. The clock is read twice before the first poll, then
/// once at the head of each poll and again within it.
pub(crate) struct Tape<'a> {
    start: u64,
    samples: &'a [Sample],
    readings: Cell<usize>,
    polls: Cell<usize>,
    poll_begins: Cell<bool>,
    given_up: Cell<bool>,
}

impl<'a> Tape<'a> {
    pub fn new(start: u64, limit: u64, samples: &'a [Sample]) -> Self {
        time::set_clear_limit(limit);
        gpio::take_effects();
        gpio::take_wiring();
        Self {
            start,
            samples,
            readings: Cell::new(0),
            polls: Cell::new(0),
            poll_begins: Cell::new(true),
            given_up: Cell::new(false),
        }
    }

    pub fn was_read(&self) -> bool {
        self.readings.get() > 0
    }

    /// The report, once the run is over.
    pub fn run(&self, tape_over: bool) -> ClearRun {
        let ending = match (tape_over, self.given_up.get()) {
            (true, _) => Ending::TapeOver,
            (false, true) => Ending::GivenUp,
            (false, false) => Ending::Ready,
        };
        ClearRun {
            ending,
            polls: self.polls.get(),
            effects: gpio::take_effects(),
            wiring: gpio::take_wiring(),
        }
    }
}

impl Feed for Tape<'_> {
    fn before_clock(&self) {
        self.readings.update(|readings| readings + 1);
        if self.readings.get() <= 2 {
            return time::set_now(self.start);
        }
        if !self.poll_begins.take() {
            return;
        }
        let Some(sample) = self.samples.get(self.polls.get()) else {
            feed::run_out();
        };
        time::set_now(sample.now);
        gpio::set_sda(sample.sda_high);
        self.polls.update(|polls| polls + 1);
    }

    /// The loop goes on to its next poll unless the limit was exceeded.
    fn limit_tested(&self, exceeded: bool) {
        self.given_up.set(exceeded);
        self.poll_begins.set(!exceeded);
    }
}
