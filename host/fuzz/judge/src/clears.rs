//! The bus clear: a fresh one, and steps from any ten bytes, against the Rust's polls.

use std::{
    panic::{AssertUnwindSafe, catch_unwind},
    task::Poll,
};

use oracle::{Clear, ClearState, Effect};

use crate::{
    calls::{
        self, clear_bytes, number_at,
        sitankulo::{CLOCK_RANGE, PENDING, ROOM, SHAPE},
    },
    clear_runs,
    input::Input,
    lent::{Lent, must_agree},
    other_calls::clear_fresh,
};

const SIZE: usize = 10;

const SCL_LOW: u8 = 0;
const SDA_HIGH: u8 = 3;

const MOST_STEPS: usize = 48;

pub fn run(input: &mut Input<'_>) {
    let form = input.byte();
    let mut clear = match form % 4 {
        0 | 1 => fresh(input),
        2 => [
            &[input.byte() % 4, input.byte()],
            &input.number().to_be_bytes()[..],
        ]
        .concat(),
        _ => input.array::<SIZE>().to_vec(),
    };
    if form >= 0xc0 {
        clear.resize(input.mostly(SIZE), 0xcc);
    }
    if form & 4 == 0 {
        for _ in 0..MOST_STEPS {
            if input.is_over() {
                return;
            }
            clear = step(input, &clear);
        }
    } else {
        clear_runs::run(input, &clear);
    }
}

/// Document 01's fresh clear; the Rust's differs in ways that are known.
fn fresh(input: &mut Input<'_>) -> Vec<u8> {
    let (pins, time) = (input.byte(), input.number());
    let rooms = [input.mostly(SIZE), input.mostly(2)];
    let asked = ("fresh", pins, time, rooms);
    let (state, made): (_, &[u8]) = match pins {
        0 => (ClearState::Idle, &[]),
        _ => (ClearState::SendClock(9, false), &[SCL_LOW, SDA_HIGH]),
    };
    let [mut clear, mut changes] = rooms.map(Lent::of);
    let ours = clear_fresh(clear.memory(), pins, time, changes.memory());
    let laid = clear_bytes(state, time);
    if rooms[0] < SIZE || rooms[1] < made.len() {
        must_agree(&asked, ours, ROOM);
        clear.must_hold(&asked, "the clear", &[]);
        changes.must_hold(&asked, "the changes", &[]);
    } else {
        must_agree(&asked, ours, (made.len() as u32) << 8);
        clear.must_hold(&asked, "the clear", &laid);
        changes.must_hold(&asked, "the changes", made);
    }
    laid.to_vec()
}

/// The clear in these bytes, if a call can have left it.
pub fn left_in(bytes: &[u8], pins: bool, reset_fsm: bool) -> Option<Clear> {
    let state = match *bytes.first_chunk::<SIZE>()? {
        [0, 0, ..] => ClearState::Idle,
        [1, 0, ..] => ClearState::SendStop,
        [kind @ 2..4, clocks, ..] => ClearState::SendClock(clocks, kind == 3),
        _ => return None,
    };
    Some(Clear {
        state,
        wait: number_at(&bytes[2..]),
        pins,
        reset_fsm,
    })
}

pub fn change(effect: &Effect) -> Option<u8> {
    match effect {
        Effect::Scl(high) => Some((*high).into()),
        Effect::Sda(high) => Some(2 + u8::from(*high)),
        Effect::Reset => None,
    }
}

/// One poll by the Rust: whether the bus is free, and the pin changes. None, and the clear as before, where it traps on a sum of times.
pub fn poll(clear: &mut Clear, now: u64, sda: bool) -> Option<(bool, Vec<u8>)> {
    let mut polled = *clear;
    let answer = catch_unwind(AssertUnwindSafe(|| polled.poll(now, sda)));
    let (answer, effects) = answer.ok()?;
    *clear = polled;
    let made = effects.iter().filter_map(change).collect();
    Some((answer == Poll::Ready(()), made))
}

/// What the memory holds with a clear laid over it.
pub fn laid_over(bytes: &[u8], clear: &Clear) -> Vec<u8> {
    [&clear_bytes(clear.state, clear.wait), &bytes[SIZE..]].concat()
}

/// The memory after a step.
fn step(input: &mut Input<'_>, bytes: &[u8]) -> Vec<u8> {
    let [flags, sda] = input.array();
    let pins = flags >> 1;
    // Mostly when the levels may change, or just before.
    let time = match flags % 2 {
        0 => {
            let wait = left_in(bytes, true, false).map_or(0, |clear| clear.wait);
            wait.saturating_sub(u64::from(sda % 2))
        }
        _ => input.number(),
    };
    let room = input.mostly(2);
    let asked = ("step", bytes, pins, time, sda, room);
    let (mut lent, mut changes) = (Lent::holding(bytes), Lent::of(room));
    let ours = calls::clear_step(lent.memory(), pins, time, sda, changes.memory());
    let (answer, left, made) = match left_in(bytes, pins != 0, false) {
        None => (SHAPE, bytes.to_vec(), vec![]),
        Some(mut clear) => match poll(&mut clear, time, sda != 0) {
            None => (CLOCK_RANGE, bytes.to_vec(), vec![]),
            Some((_, made)) if made.len() > room => (ROOM, bytes.to_vec(), vec![]),
            Some((free, made)) => {
                let number = if free { 0 } else { PENDING };
                let answer = number | (made.len() as u32) << 8;
                (answer, laid_over(bytes, &clear), made)
            }
        },
    };
    must_agree(&asked, ours, answer);
    lent.must_be(&asked, "the clear", &left);
    changes.must_hold(&asked, "the changes", &made);
    left
}
