//! Whole transactions through the C calls, told as the differential tests tell the Rust original's.

use differential::{Moment, Told, Transaction};
use oracle::Timeout;

use crate::calls::{
    self, Shown,
    sitankulo::{CLEAR, NONE, PENDING},
};

/// What the read buffer holds before.
const OLD: u8 = 0xee;

/// Transfer complete and acknowledged, every command done.
const COMPLETED: (u8, u8) = (0x60, 0xff);

const OUTSTANDING: u8 = 1;
const HAS_DUE: u8 = 8;

/// A list that is handed out.
struct List {
    number: usize,
    words: [u32; 8],
}

fn place(moment: Moment) -> u64 {
    (moment.list * 8 + moment.snapshot) as u64
}

fn clock(asked: &Transaction, moment: Moment) -> u64 {
    asked.start + asked.step * place(moment)
}

fn shown(asked: &Transaction, list: &List, moment: Moment) -> Shown {
    let odd = asked.odd.iter().find(|odd| odd.moment == moment);
    let (bits, done) = odd.map_or(COMPLETED, |odd| (odd.bits, odd.done));
    let marked = |slot: usize| list.words[slot] | u32::from(done >> slot & 1) << 31;
    Shown {
        bits,
        commands: calls::bytes_of(core::array::from_fn(marked)).to_vec(),
        time: clock(asked, moment),
    }
}

/// The bytes that are handed in for a list.
fn received(asked: &Transaction, list: &List) -> Vec<u8> {
    let reads = list.words.iter().filter(|word| **word >> 11 == 3);
    let wanted: usize = reads.map(|word| (word & 0xff) as usize).sum();
    let short = asked.short.filter(|short| short.list == list.number);
    let missing = short.map_or(0, |short| short.missing);
    let first = usize::from(asked.seed) + list.number * 13;
    (0..wanted.saturating_sub(missing))
        .map(|i| ((first + i * 7) % 255 + 1) as u8)
        .collect()
}

/// Tells a list and when it is due, which the record says.
fn tell_list(told: &mut Told, list: &List, fifo: &[u8; 32], count: u32, record: &[u8]) {
    told.tell(0);
    told.tell_all(list.words);
    told.tell(count.into());
    told.tell_all(*fifo);
    assert_eq!(record[0] & OUTSTANDING, OUTSTANDING);
    let limited = record[0] & HAS_DUE != 0;
    told.tell_all([u64::from(limited), calls::number_at(&record[9..])]);
}

/// Waits for a list: the last answer, and whether there is more to come.
fn wait(
    told: &mut Told,
    asked: &Transaction,
    list: &List,
    calls: &mut calls::Transaction<'_>,
    buffer: &mut [u8],
) -> ([u64; 2], bool) {
    let received = received(asked, list);
    for snapshot in 1.. {
        let moment = Moment {
            list: list.number,
            snapshot,
        };
        let shown = shown(asked, list, moment);
        if asked.abandon == Some(moment) {
            let answer = calls.abandon(&shown);
            assert!(answer == 0 || answer == CLEAR);
            told.tell(answer.into());
            return ([answer.into(), 0], false);
        }
        let answer = calls.complete(&shown, &received, buffer);
        let parts = [u64::from(answer & 0xff), u64::from(answer >> 8)];
        told.tell_all(parts);
        if answer != PENDING {
            return (parts, answer == 0);
        }
    }
    unreachable!()
}

/// The answer to the question, by ours.
pub fn ours(asked: &Transaction) -> u64 {
    let (deadline, duration) = match asked.timeout {
        Timeout::None => (0, 0),
        Timeout::Transaction(duration) => (1, duration),
        Timeout::PerByte(duration) => (2, duration),
    };
    let mut calls = calls::Transaction {
        record: &mut [0; 25],
        deadline,
        duration,
        address: asked.address as u32,
        script: &asked.script,
    };
    let mut told = Told::default();
    let mut buffer = vec![OLD; asked.room];
    let begun = calls.begin(asked.room, asked.busy.into(), asked.start);
    told.tell(begun.into());
    let mut last = [u64::from(begun), 0];
    let mut lists = 0;
    let mut goes_on = begun == 0 || begun == CLEAR;
    while goes_on {
        let (mut words, mut fifo) = ([0; 32], [0; 32]);
        let started = Moment {
            list: lists + 1,
            snapshot: 0,
        };
        let handed = calls.next(clock(asked, started), &mut words, &mut fifo);
        if handed & 0xff != 0 {
            told.tell(handed.into());
            assert_eq!(handed, NONE);
            last = [handed.into(), 0];
            break;
        }
        lists += 1;
        let list = List {
            number: lists,
            words: core::array::from_fn(|slot| {
                u32::from_be_bytes(words[4 * slot..4 * slot + 4].try_into().expect("four"))
            }),
        };
        tell_list(&mut told, &list, &fifo, handed >> 8, calls.record);
        (last, goes_on) = wait(&mut told, asked, &list, &mut calls, &mut buffer);
    }
    told.tell_all(buffer);
    told.answer(last, lists)
}
