//! Whole transactions on a bus with faults, against the Rust's transaction; scripts of any bytes, against a checker of document 01's rules.

use differential::{Moment, Odd, Question, Short, Transaction, operations, read_total};
use oracle::Timeout;

use crate::{input::Input, whole};

/// The clock has so far to go at least: no sum of times per byte exceeds 64 bits. In the target `foreign` they may.
const STARTS: [u64; 4] = [0, 1, 1_000_000, u64::MAX - (1 << 32)];

pub fn run(input: &mut Input<'_>) {
    let asked = asked(input);
    let (ours, original) = (whole::ours(&asked), asked.oracle());
    assert!(
        ours == original,
        "{asked:?}\nours {ours:016x}, the Rust {original:016x}\nall that the Rust tells, and its answer: {}",
        asked.in_full()
    );
}

fn asked(input: &mut Input<'_>) -> Transaction {
    let plain = Transaction {
        address: input.address().into(),
        timeout: timeout(input),
        start: STARTS[input.below(4)],
        step: input.byte().into(),
        busy: input.flag(),
        seed: input.byte(),
        short: short(input),
        abandon: moment(input),
        ..Transaction::default()
    };
    let odd = (0..input.below(5)).filter_map(|_| odd(input)).collect();
    let more = input.byte();
    let script = input.script(usize::MAX);
    let total = operations(0, &script).map_or(0, |operations| read_total(&operations));
    Transaction {
        odd,
        room: match more {
            0..0xf0 => total + usize::from(more % 3),
            _ => total.saturating_sub(usize::from(more & 0xf)),
        },
        script,
        ..plain
    }
}

/// A fixed deadline may be out of range.
fn timeout(input: &mut Input<'_>) -> Timeout {
    match input.byte() % 4 {
        0 => Timeout::None,
        1 => Timeout::Transaction(input.short().into()),
        2 => Timeout::Transaction(input.number()),
        _ => Timeout::PerByte(input.short().into()),
    }
}

fn short(input: &mut Input<'_>) -> Option<Short> {
    let (list, missing) = (input.below(16), input.below(40));
    (list > 0 && missing > 0).then_some(Short { list, missing })
}

fn moment(input: &mut Input<'_>) -> Option<Moment> {
    let (list, snapshot) = (input.below(16), input.below(6));
    (list > 0 && snapshot > 0).then_some(Moment { list, snapshot })
}

fn odd(input: &mut Input<'_>) -> Option<Odd> {
    let (moment, [bits, done]) = (moment(input), input.array());
    moment.map(|moment| Odd { moment, bits, done })
}
