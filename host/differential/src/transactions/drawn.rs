//! Transactions drawn at random.

use oracle::{Op, Timeout};

use super::{Moment, Odd, Short, Transaction};
use crate::{random::Random, scripts};

/// `drive` lends no more.
const MOST_ROOM: usize = 4096;

impl Transaction {
    /// Up to five operations, most of them short, with odd snapshots, missing bytes or an early end, and clocks around the deadline.
    pub fn random(random: &mut Random) -> Self {
        let count = random.pick(&[0, 1, 1, 2, 2, 2, 3, 3, 4, 5]);
        let operations: Vec<Op> = (0..count).map(|_| operation(random)).collect();
        Self::disturbed(random, &operations)
    }

    /// As many operations as a script can hold.
    pub fn random_full(random: &mut Random) -> Self {
        let mut operations = Vec::new();
        loop {
            operations.push(operation(random));
            let script = scripts::written(&operations);
            if scripts::operations(0, &script).is_err() {
                operations.pop();
                return Self::disturbed(random, &operations);
            }
        }
    }

    fn disturbed(random: &mut Random, operations: &[Op]) -> Self {
        let plain = Self::of(operations);
        let odd = odd(random);
        Self {
            address: random.below(128),
            timeout: timeout(random),
            start: random.pick(&[0, 1, 1_000_000, u64::MAX - (1 << 32)]),
            step: random.below(6) * random.below(8),
            busy: random.chance(8),
            room: (plain.room + random.below(3) as usize).min(MOST_ROOM),
            seed: random.below(256) as u8,
            short: random.chance(4).then(|| short(random)),
            abandon: random.chance(6).then(|| abandon(random, &odd)),
            odd,
            ..plain
        }
    }
}

fn operation(random: &mut Random) -> Op {
    let length = match random.below(8) {
        0 => random.below(100),
        1 => random.pick(&[28, 29, 30, 31, 32, 33, 34, 35, 61, 62, 63, 64, 65, 66]),
        _ => random.below(4),
    };
    if random.chance(2) {
        Op::Read(length as usize)
    } else {
        Op::Write((0..length).map(|_| random.below(256) as u8).collect())
    }
}

fn timeout(random: &mut Random) -> Timeout {
    match random.below(3) {
        0 => Timeout::None,
        1 => Timeout::Transaction(random.below(400)),
        _ => Timeout::PerByte(random.below(20)),
    }
}

fn short(random: &mut Random) -> Short {
    Short {
        list: 1 + random.below(4) as usize,
        missing: 1 + random.below(4) as usize,
    }
}

/// At the first odd snapshot, after it, or at any list that completes at once.
fn abandon(random: &mut Random, odd: &[Odd]) -> Moment {
    match odd.first() {
        Some(first) => Moment {
            snapshot: 1 + random.below(3) as usize,
            ..first.moment
        },
        None => Moment {
            list: 1 + random.below(4) as usize,
            snapshot: 1,
        },
    }
}

/// The first snapshot or two of one list, and of a later one.
fn odd(random: &mut Random) -> Vec<Odd> {
    let first = 1 + random.below(3);
    let lists = [first, first + 1 + random.below(2)];
    let mut odd = Vec::new();
    for list in &lists[..random.below(3) as usize] {
        odd.extend((1..=1 + random.below(2)).map(|snapshot| Odd {
            moment: Moment {
                list: *list as usize,
                snapshot: snapshot as usize,
            },
            bits: bits(random),
            done: done(random),
        }));
    }
    odd
}

/// Idle, finished, finished late, or anything.
fn bits(random: &mut Random) -> u8 {
    match random.below(6) {
        0 | 1 => 0x20,
        2 => 0xa0,
        3 => 0x60,
        4 => 0x70,
        _ => random.flags(),
    }
}

/// All commands, the first ones, or any.
fn done(random: &mut Random) -> u8 {
    match random.below(4) {
        0 | 1 => 0xff,
        2 => (1 << random.below(6)) - 1,
        _ => random.draw() as u8,
    }
}
