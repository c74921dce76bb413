//! The pin version of the bus clear, opened to the tests.
//!
//! The fields of `ClearBusFuture` are private to a module that has no children.
//! `Mirror` has the same fields in the same order, hence the same layout; the
//! test `mirror_shows_every_reachable_state` would fail if it had not.

use core::mem::transmute;

use super::super::*;
use crate::{
    api::clear::{Clear, ClearState},
    gpio::AnyPin,
    machine::Machine,
};

enum MirrorState {
    Idle,
    SendStop,
    SendClock(u8, bool),
}

struct Mirror<'a> {
    driver: Driver<'a>,
    wait: Instant,
    state: MirrorState,
    reset_fsm: bool,
    pins: Option<(AnyPin<'static>, AnyPin<'static>)>,
}

fn open(future: ClearBusFuture<'_>) -> Clear {
    // SAFETY: same fields in the same order.
    let mirror: Mirror<'_> = unsafe { transmute(future) };
    Clear {
        state: match mirror.state {
            MirrorState::Idle => ClearState::Idle,
            MirrorState::SendStop => ClearState::SendStop,
            MirrorState::SendClock(left, high) => ClearState::SendClock(left, high),
        },
        wait: mirror.wait.0,
        reset_fsm: mirror.reset_fsm,
        pins: mirror.pins.is_some(),
    }
}

fn close<'a>(driver: Driver<'a>, clear: &Clear) -> ClearBusFuture<'a> {
    let DriverConfig {
        sda_pin, scl_pin, ..
    } = driver.config;
    let steal = |number| unsafe { AnyPin::steal(number) };
    let mirror = Mirror {
        driver,
        wait: Instant(clear.wait),
        state: match clear.state {
            ClearState::Idle => MirrorState::Idle,
            ClearState::SendStop => MirrorState::SendStop,
            ClearState::SendClock(left, high) => MirrorState::SendClock(left, high),
        },
        reset_fsm: clear.reset_fsm,
        pins: sda_pin
            .pin_number()
            .map(steal)
            .zip(scl_pin.pin_number().map(steal)),
    };
    // SAFETY: same fields in the same order.
    unsafe { transmute(mirror) }
}

impl Machine {
    pub(crate) fn clear_new(&self, reset_fsm: bool) -> Clear {
        self.drive(|driver| open(ClearBusFuture::new(driver, reset_fsm)))
    }

    pub(crate) fn clear_poll(&self, clear: &mut Clear) -> Poll<()> {
        self.drive(|driver| {
            let mut future = close(driver, clear);
            let answer = future.poll_completion();
            *clear = open(future);
            answer
        })
    }

    pub(crate) fn clear_drop(&self, clear: &Clear) {
        self.drive(|driver| drop(close(driver, clear)));
    }

    /// A fresh clear, polled without being looked into, `between` before each poll.
    pub(crate) fn clear_driven(
        &self,
        reset_fsm: bool,
        polls: usize,
        between: impl Fn(usize),
    ) -> Clear {
        self.drive(|driver| {
            let mut future = ClearBusFuture::new(driver, reset_fsm);
            for poll in 0..polls {
                between(poll);
                let _ = future.poll_completion();
            }
            open(future)
        })
    }

    pub(crate) fn clear_bus(&self, reset_fsm: bool) {
        self.drive(|driver| driver.clear_bus_blocking(reset_fsm));
    }
}
