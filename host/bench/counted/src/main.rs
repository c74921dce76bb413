//! What callgrind counts: `counted THING AMOUNT` does one thing once, by ours or by the Rust original.
//!
//! The oracle's own modules are compiled here once more, with another `feed`: a controller that completes every list at once.

#![allow(dead_code, unused_imports)]

#[macro_use]
#[path = "../../../oracle/src/chip.rs"]
mod chip;

#[path = "../../../oracle/src/api/mod.rs"]
mod api;
#[path = "../../../oracle/src/bus.rs"]
mod bus;
#[path = "../../../oracle/src/crates.rs"]
mod crates;
#[path = "../../../oracle/src/gpio.rs"]
mod gpio;
#[path = "../../../oracle/src/i2c/mod.rs"]
mod i2c;
#[path = "../../../oracle/src/machine.rs"]
mod machine;
#[path = "../../../oracle/src/registers.rs"]
mod registers;
#[path = "../../../oracle/src/svd.rs"]
mod svd;
#[path = "../../../oracle/src/time.rs"]
mod time;

mod collect;
mod feed;
mod original;
mod ours;

use chip::{any_peripheral, clock, private, rtc_cntl, soc, system};
use std::hint::black_box;

const ADDRESS: u8 = 0x29;

/// A script of one operation of so many bytes.
fn script_of_one(kind: u8, length: usize) -> Vec<u8> {
    let [high, low] = (length as u16).to_be_bytes();
    let mut body = vec![high, low, kind];
    if kind == 0 {
        body.resize(3 + length, 0xA5);
    }
    with_header(body)
}

/// One-byte writes and one-byte reads in turn.
fn script_of_records(records: usize) -> Vec<u8> {
    let record = |place: usize| {
        if place % 2 == 0 {
            vec![0, 1, 0, 0xA0]
        } else {
            vec![0, 1, 1]
        }
    };
    with_header((0..records).flat_map(record).collect())
}

fn with_header(body: Vec<u8>) -> Vec<u8> {
    let [high, low] = (body.len() as u16).to_be_bytes();
    [vec![1, high, low], body].concat()
}

/// A list that writes one byte, as a snapshot shows it when it is done.
const DONE: [u32; 8] = [0x8000_3000, 0x8000_0902, 0x2000, 0, 0, 0, 0, 0];

fn bytes(words: [u32; 8]) -> [u8; 32] {
    let mut bytes = [0; 32];
    for (place, word) in words.iter().enumerate() {
        bytes[4 * place..4 * place + 4].copy_from_slice(&word.to_be_bytes());
    }
    bytes
}

fn main() {
    let arguments: Vec<String> = std::env::args().collect();
    let [_, thing, amount] = &arguments[..] else {
        panic!("usage: counted THING AMOUNT");
    };
    let amount: usize = amount.parse().expect("a number");
    if !ours_is_counted(thing, amount) && !original_is_counted(thing, amount) {
        panic!("nothing is called {thing}");
    }
    println!("{}", collect::pauses());
}

fn ours_is_counted(thing: &str, amount: usize) -> bool {
    let mut buffer = vec![0; amount];
    let words = bytes(DONE);
    let listed = bytes([0x3000, 0x0902, 0x2000, 0, 0, 0, 0, 0]);
    match thing {
        "nothing" => collected(|| ()),
        "ours_write" => transaction(&script_of_one(0, amount), &mut []),
        "ours_write_checks" => checks(&script_of_one(0, amount), &mut []),
        "ours_read" => transaction(&script_of_one(1, amount), &mut buffer),
        "ours_read_checks" => checks(&script_of_one(1, amount), &mut buffer),
        "ours_records" => transaction(&script_of_records(amount), &mut buffer),
        "ours_records_checks" => checks(&script_of_records(amount), &mut buffer),
        "ours_register_reads" => {
            collected(|| ours::ours_register_reads(amount, ours::ours_transaction))
        }
        "ours_register_reads_checks" => {
            collected(|| ours::ours_register_reads(amount, ours::ours_checks))
        }
        "ours_classify" => collected(|| ours::ours_classify(0x60, &words, 5)),
        "ours_clear" => collected(|| ours::ours_clear(amount)),
        "ours_inspect" => collected(|| ours::ours_inspect(&listed, &[0x52, 0xA0])),
        _ => return false,
    }
    true
}

fn original_is_counted(thing: &str, amount: usize) -> bool {
    let mut buffer = vec![0; amount];
    let mut register = 0;
    let machine = original::machine();
    original::make_room_for_pin_changes(machine);
    match thing {
        "original_write" => collected(|| original::original_write(machine, &buffer)),
        "original_read" => collected(|| original::original_read(machine, &mut buffer)),
        "original_register_reads" => {
            collected(|| original::original_register_reads(machine, amount))
        }
        "original_records" => collected(|| original::original_records(machine, &mut buffer)),
        "original_classify" => {
            original::show(machine, 0x60, DONE, 0);
            collected(|| original::original_classify(machine, Some(5)));
        }
        "original_clear" => collected(|| original::original_clear(machine, amount)),
        "mock_fifo_writes" => collected(|| original::mock_fifo_writes(machine, &buffer)),
        "mock_fifo_reads" => collected(|| original::mock_fifo_reads(machine, &mut buffer)),
        "mock_pin_changes" => collected(|| original::mock_pin_changes(amount)),
        "plain_fifo_writes" => collected(|| original::plain_fifo_writes(&mut register, &buffer)),
        "plain_fifo_reads" => collected(|| original::plain_fifo_reads(&register, &mut buffer)),
        "plain_pin_changes" => collected(|| original::plain_pin_changes(&mut register, amount)),
        _ => return false,
    }
    true
}

fn collected<R>(done: impl FnOnce() -> R) {
    black_box(collect::collected(done));
}

fn transaction(script: &[u8], buffer: &mut [u8]) {
    collected(|| ours::ours_transaction(script, buffer));
}

fn checks(script: &[u8], buffer: &mut [u8]) {
    collected(|| ours::ours_checks(script, buffer));
}
