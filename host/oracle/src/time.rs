//! The mock clock: 64-bit microseconds, set from outside, with sums that trap.

use core::{
    cell::Cell,
    cmp::Ordering,
    ops::{Add, Mul},
};

use crate::feed;

thread_local! {
    static NOW: Cell<u64> = const { Cell::new(0) };
    static LATEST_SUM: Cell<u64> = const { Cell::new(0) };
    static CLEAR_LIMIT: Cell<u64> = const { Cell::new(0) };
}

/// What every reading shows until the clock is set anew.
pub(crate) fn set_now(now: u64) {
    NOW.set(now);
}

/// The last point in time that was computed: the due time of a list, once its
/// wait has begun.
pub(crate) fn latest_sum() -> u64 {
    LATEST_SUM.get()
}

pub(crate) fn set_clear_limit(limit: u64) {
    CLEAR_LIMIT.set(limit);
}

#[derive(Clone, Copy, Debug, PartialEq, PartialOrd)]
pub struct Instant(pub u64);

#[derive(Clone, Copy, Debug, PartialEq, PartialOrd)]
pub struct Duration(pub u64);

impl Instant {
    pub const EPOCH: Instant = Instant(0);

    pub fn now() -> Self {
        feed::before_clock();
        Self(NOW.get())
    }

    pub fn elapsed(&self) -> Duration {
        let Instant(now) = Instant::now();
        Duration(now.checked_sub(self.0).expect("the clock went back"))
    }
}

impl Duration {
    pub const fn from_micros(micros: u64) -> Self {
        Self(micros)
    }
}

impl Add<Duration> for Instant {
    type Output = Instant;

    fn add(self, duration: Duration) -> Instant {
        let sum = self.0.checked_add(duration.0).expect("the clock overflows");
        LATEST_SUM.set(sum);
        Self(sum)
    }
}

impl Mul<u32> for Duration {
    type Output = Duration;

    fn mul(self, times: u32) -> Duration {
        let product = self.0.checked_mul(times.into());
        Self(product.expect("the duration overflows"))
    }
}

/// The limit of a bus clear. Document 01 leaves it to the caller, so it is no
/// constant here; each test against it ends a turn of the clearing loop.
pub struct ClearLimit;

impl PartialEq<ClearLimit> for Duration {
    fn eq(&self, _limit: &ClearLimit) -> bool {
        self.0 == CLEAR_LIMIT.get()
    }
}

impl PartialOrd<ClearLimit> for Duration {
    fn partial_cmp(&self, _limit: &ClearLimit) -> Option<Ordering> {
        let order = self.0.cmp(&CLEAR_LIMIT.get());
        feed::limit_tested(order == Ordering::Greater);
        Some(order)
    }
}
