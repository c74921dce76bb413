//! What is asked of the bus clear: one step from any record, and runs over tapes.

use std::{
    panic::{AssertUnwindSafe, catch_unwind},
    task::Poll,
};

use oracle::{Clear, ClearState, Effect, Ending, Sample};

use crate::{
    question::{Question, hex_line},
    random::Random,
};

/// One step. `part` 0 asks for the answer and the state, 1 for the wait.
#[derive(Clone, Copy, Debug)]
pub struct StepQuestion {
    pub state: ClearState,
    pub wait: u64,
    pub pins: bool,
    pub now: u64,
    pub sda: bool,
    pub part: u8,
}

/// A level set is one digit: 1 SCL low, 2 SCL high, 3 SDA low, 4 SDA high.
fn digit(effect: &Effect) -> u64 {
    match effect {
        Effect::Scl(level) => 1 + u64::from(*level),
        Effect::Sda(level) => 3 + u64::from(*level),
        Effect::Reset => panic!("no step resets"),
    }
}

fn state_numbers(state: ClearState) -> [u64; 3] {
    match state {
        ClearState::Idle => [0, 0, 0],
        ClearState::SendStop => [1, 0, 0],
        ClearState::SendClock(n, high) => [2, n.into(), high.into()],
    }
}

impl Question for StepQuestion {
    fn line(&self) -> String {
        let [kind, n, high] = state_numbers(self.state);
        hex_line(&[
            0xa,
            kind,
            n,
            high,
            self.wait,
            self.pins.into(),
            self.now,
            self.sda.into(),
            self.part.into(),
        ])
    }

    /// Where the Rust's sum of times overflows it traps, after the pins have moved: 13, and nothing changed.
    fn oracle(&self) -> u64 {
        let mut clear = Clear {
            state: self.state,
            wait: self.wait,
            pins: self.pins,
            reset_fsm: false,
        };
        let polled = catch_unwind(AssertUnwindSafe(|| clear.poll(self.now, self.sda)));
        let answer = match &polled {
            Ok((Poll::Ready(()), _)) => 0,
            Ok((Poll::Pending, effects)) => {
                256 + effects
                    .iter()
                    .fold(0, |sum, effect| sum * 16 + digit(effect))
            }
            Err(_) => 13 * 256,
        };
        let [kind, n, high] = state_numbers(clear.state);
        match self.part {
            0 => answer * 262_144 + kind * 65_536 + n * 256 + high,
            _ => clear.wait,
        }
    }
}

/// A run over a tape that both sides draw from a seed. `part` 0 asks for the ending, the polls and the reset, 1 for the pin changes.
#[derive(Clone, Copy, Debug)]
pub struct RunQuestion {
    pub seed: u64,
    pub start: u64,
    pub rare: u64,
    pub length: usize,
    pub limit: u64,
    pub pins: bool,
    pub reset: bool,
    pub part: u8,
}

fn drawn(seed: u64) -> u64 {
    (seed % (1 << 31) * 1_103_515_245 + 12_345) % (1 << 31)
}

impl RunQuestion {
    pub fn random(random: &mut Random) -> Self {
        Self {
            seed: random.below(1 << 31),
            start: random.below(1 << 20),
            rare: random.pick(&[0, 1, 3, 9, 20, 200]),
            length: random.below(65) as usize,
            limit: random.pick(&[0, 20, 60, 150, 1000, u64::MAX]),
            pins: !random.chance(8),
            reset: random.chance(2),
            part: random.below(2) as u8,
        }
    }

    /// Clocks 0 to 11 apart from the start on, SDA high one time in `rare` and one.
    fn tape(&self) -> Vec<Sample> {
        let (mut last, mut now) = (self.seed, self.start);
        (0..self.length)
            .map(|_| {
                last = drawn(last);
                now += last / 65_536 % 12;
                last = drawn(last);
                Sample {
                    now,
                    sda_high: last / 65_536 % (self.rare % 256 + 1) == 0,
                }
            })
            .collect()
    }
}

impl Question for RunQuestion {
    /// Ours is handed the Rust's fresh wait, five microseconds after the start, and more polls than the tape has samples.
    fn line(&self) -> String {
        let wait = self.start + if self.pins { 5 } else { 0 };
        hex_line(&[
            0xb,
            self.seed,
            self.start,
            self.rare,
            self.length as u64,
            0xffff,
            self.limit,
            self.pins.into(),
            self.reset.into(),
            wait,
            self.part.into(),
        ])
    }

    fn oracle(&self) -> u64 {
        let run =
            oracle::clear_bus_blocking(self.pins, self.reset, self.start, self.limit, &self.tape());
        let ending = match run.ending {
            Ending::Ready => 1,
            Ending::GivenUp => 2,
            Ending::TapeOver => 4,
        };
        // The two changes that begin a clear are not the run's; a reset without pins is done at once, which ours leaves out.
        let (begun, effects) = run.effects.split_at(if self.pins {
            2
        } else {
            usize::from(self.reset)
        });
        assert_eq!(begun.contains(&Effect::Reset), !self.pins && self.reset);
        let resets = effects.contains(&Effect::Reset);
        let changes = effects.iter().filter(|effect| **effect != Effect::Reset);
        match self.part {
            0 => ending << 32 | (run.polls as u64) << 1 | u64::from(resets),
            _ => changes.fold(0, |sum, effect| (sum * 5 + digit(effect)) % (1 << 40)),
        }
    }
}
