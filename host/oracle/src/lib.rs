//! esp-hal's I2C master driver, unchanged, on a host.
//!
//! `i2c/master/low_level/mod.rs` is esp-hal's own text. Everything else here is
//! what it leans on: mock registers, clock and pins, and functions over plain
//! values that let a test ask the driver what it would do.

// `#[ram]` is `#[test]` under another name (see i2c/master/mod.rs), so the
// library is never built as a test.
#![cfg(not(test))]
// The driver's asynchronous half and its set-up are compiled and never called.
#![allow(dead_code)]

#[macro_use]
mod chip;

mod api;
mod bus;
mod crates;
mod feed;
mod gpio;
mod i2c;
mod machine;
mod registers;
mod svd;
mod time;

use chip::{any_peripheral, clock, private, rtc_cntl, soc, system};

pub use api::clear::{
    Clear, ClearRun, ClearState, Effect, Ending, Sample, abandon_and_clear, clear_bus_blocking,
};
pub use api::letters::letter;
pub use api::lists::{
    Deadline, Left, List, left_by_empty_read, left_by_empty_write, read_operation, setup_read,
    setup_write, start_read_operation, start_write_operation, write_operation,
};
pub use api::outcomes::{
    Snapshot, abandon, all_commands_done, check_errors, classify, poll_completion,
    read_all_from_fifo, wait_blocking,
};
pub use api::pieces::{chunk_size, pieces, pieces_mut};
pub use api::transactions::{Handed, Op, Setup, Timeout, Trace, Turn, transaction};
pub use api::words::word;
pub use i2c::master::{Ack, AcknowledgeCheckFailedReason, Command, Error, I2cAddress};

/// Whether the driver's debug assertions are compiled in.
pub const TRAPS: bool = cfg!(debug_assertions);
