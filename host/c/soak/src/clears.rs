//! Bus clears through `sitankulo_clear_step` and `sitankulo_clear_run`.

use differential::{Random, RunQuestion, StepQuestion};
use oracle::ClearState;

use crate::calls::{
    self, Terms,
    sitankulo::{CLOCK_RANGE, GIVEN_UP, TAPE_OVER},
};

const READY: u32 = 0;

/// Any state, with clocks around the wait and at the end of the range.
pub fn random_step(random: &mut Random) -> StepQuestion {
    let state = match random.below(4) {
        0 => ClearState::Idle,
        1 => ClearState::SendStop,
        _ => ClearState::SendClock(random.below(12) as u8, random.chance(2)),
    };
    let (now, wait) = random.clocks();
    StepQuestion {
        state,
        wait,
        pins: !random.chance(4),
        now: if random.chance(64) {
            u64::MAX - random.below(8)
        } else {
            now
        },
        sda: random.chance(2),
        part: random.below(2) as u8,
    }
}

/// The answer to the question, by ours.
pub fn ours(asked: &StepQuestion) -> u64 {
    let mut clear = calls::clear_bytes(asked.state, asked.wait);
    let mut changes = [0; 2];
    let [pins, sda] = [asked.pins, asked.sda].map(u8::from);
    let told = calls::clear_step(&mut clear, pins, asked.now, sda, &mut changes);
    let made = &changes[..(told >> 8) as usize];
    let answer = match told & 0xff {
        READY => 0,
        CLOCK_RANGE => 13 * 256,
        _ => {
            256 + made
                .iter()
                .fold(0, |sum, change| sum * 16 + u64::from(*change) + 1)
        }
    };
    let [kind, high] = [u64::from(clear[0].min(2)), u64::from(clear[0] == 3)];
    match asked.part {
        0 => answer * 262_144 + kind * 65_536 + u64::from(clear[1]) * 256 + high,
        _ => calls::number_at(&clear[2..]),
    }
}

/// The tape that the question means: see `RunQuestion`.
fn tape(asked: &RunQuestion) -> (Vec<u64>, Vec<u8>) {
    let drawn = |seed: u64| (seed % (1 << 31) * 1_103_515_245 + 12_345) % (1 << 31);
    let (mut last, mut now) = (asked.seed, asked.start);
    let sample = |_| {
        last = drawn(last);
        now += last / 65_536 % 12;
        last = drawn(last);
        let high = last / 65_536 % (asked.rare % 256 + 1) == 0;
        (now, u8::from(high))
    };
    (0..asked.length).map(sample).unzip()
}

/// The answer to the question, by ours, which is handed the Rust's fresh wait and more polls than the tape has samples.
pub fn ours_run(asked: &RunQuestion) -> u64 {
    let fresh = if asked.pins {
        calls::clear_bytes(ClearState::SendClock(9, false), asked.start + 5)
    } else {
        calls::clear_bytes(ClearState::Idle, asked.start)
    };
    let terms = Terms {
        pins: asked.pins.into(),
        reset: asked.reset.into(),
        start: asked.start,
        limit: asked.limit,
        budget: 0xffff,
    };
    let (clocks, levels) = tape(asked);
    let (mut clear, mut changes, mut report) = (fresh, [0; 256], [0; 17]);
    let told = calls::clear_run(
        &mut clear,
        &terms,
        &clocks,
        &levels,
        &mut changes,
        &mut report,
    );
    let ending = match told {
        READY => 1,
        GIVEN_UP => 2,
        TAPE_OVER => 4,
        other => panic!("no ending of such a run: {other}"),
    };
    let made = &changes[..calls::number_at(&report[8..]) as usize];
    match asked.part {
        0 => ending << 32 | calls::number_at(&report) << 1 | u64::from(report[16]),
        _ => made.iter().fold(0, |sum, change| {
            (sum * 5 + u64::from(*change) + 1) % (1 << 40)
        }),
    }
}
