//! Whole transactions.

use oracle::{Op, Timeout};

use super::boxed;
use crate::{Moment, Odd, Question, Random, Short, Starts, Transaction, with_body};

pub fn questions() -> Vec<Box<dyn Question>> {
    let mut questions: Vec<Box<dyn Question>> = Vec::new();
    questions.extend(completed().into_iter().map(boxed));
    questions.extend(faults().into_iter().map(boxed));
    questions.extend(refused().into_iter().map(boxed));
    questions.extend(drawn().into_iter().map(boxed));
    questions.extend([0, 1, 2, 255].map(Starts).map(boxed));
    questions
}

fn write(length: usize) -> Op {
    Op::Write((0..length).map(|place| (place * 3 + 5) as u8).collect())
}

/// Pairs of operations of lengths around the limits, and longer ones by themselves, under each kind of deadline.
fn completed() -> Vec<Transaction> {
    let lengths = [0, 1, 2, 31, 32, 33];
    let operations: Vec<Op> = lengths
        .iter()
        .flat_map(|length| [Op::Read(*length), write(*length)])
        .collect();
    let pairs = operations
        .iter()
        .flat_map(|a| operations.iter().map(|b| vec![a.clone(), b.clone()]));
    let singles = [0, 1, 34, 62, 63, 64, 95, 255, 1000]
        .into_iter()
        .flat_map(|length| [vec![Op::Read(length)], vec![write(length)]]);
    let timeouts = [
        Timeout::None,
        Timeout::Transaction(2000),
        Timeout::PerByte(70),
    ];
    pairs
        .chain(singles)
        .chain([vec![], vec![Op::Read(4096)]])
        .enumerate()
        .map(|(place, operations)| Transaction {
            timeout: timeouts[place % 3],
            start: 100,
            step: 2,
            busy: place % 7 == 0,
            seed: place as u8,
            ..Transaction::of(&operations)
        })
        .collect()
}

/// Document 01's K2 with each single bit at either list, some commands not done, missing bytes, and given up.
fn faults() -> Vec<Transaction> {
    let plain = Transaction {
        timeout: Timeout::Transaction(170),
        start: 1000,
        step: 10,
        ..Transaction::of(&[Op::Write(vec![0xa0]), Op::Read(2)])
    };
    let mut faults = Vec::new();
    for list in [1, 2] {
        let moment = |snapshot| Moment { list, snapshot };
        for bits in (0..8).map(|bit| 1 << bit).chain([0x20, 0x60, 0x70, 0xa0]) {
            for done in [0xff, 1] {
                let odd = |snapshot| Odd {
                    moment: moment(snapshot),
                    bits,
                    done,
                };
                let shown = Transaction {
                    odd: vec![odd(1)],
                    ..plain.clone()
                };
                let left = |snapshot| Transaction {
                    abandon: Some(moment(snapshot)),
                    odd: vec![odd(1), odd(2)],
                    ..plain.clone()
                };
                faults.extend([shown, left(1), left(2)]);
            }
        }
        faults.extend([1, 2].map(|missing| Transaction {
            short: Some(Short { list, missing }),
            ..plain.clone()
        }));
    }
    faults
}

/// One script for each refusal of begin, and for each order of two.
fn refused() -> Vec<Transaction> {
    let read = with_body(&[0, 2, 1]);
    let scripts = [
        vec![],
        vec![2],
        vec![1, 0],
        vec![2, 255, 255],
        vec![1, 16, 1],
        vec![1, 255, 255, 0],
        vec![1, 0, 1],
        vec![1, 0, 0, 0],
        with_body(&[0]),
        with_body(&[0, 0]),
        with_body(&[0, 0, 2]),
        with_body(&[0, 1, 0]),
        with_body(&[16, 1, 1]),
        with_body(&[16, 1, 1, 0, 0, 2]),
        with_body(&[255, 255, 1, 255, 255, 1]),
        read,
    ];
    let mut refused = Vec::new();
    for script in scripts {
        for (address, room, duration) in [(127, 1, 0), (127, 2, u64::MAX), (128, 2, 0)] {
            refused.push(Transaction {
                address,
                room,
                timeout: Timeout::Transaction(duration),
                start: 1,
                script: script.clone(),
                ..Transaction::default()
            });
        }
    }
    refused
}

fn drawn() -> Vec<Transaction> {
    let mut random = Random::new(0x0d41_7e00);
    (0..600).map(|_| Transaction::random(&mut random)).collect()
}
