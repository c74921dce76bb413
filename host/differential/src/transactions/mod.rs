//! What is asked of whole transactions, through the program `drive`.

mod bus;
mod drawn;
mod outcome;

use oracle::{Op, Timeout};

use crate::{
    question::{Question, hex_line},
    scripts,
};

/// A snapshot of a list, both counted from 1. Snapshot 0 is the moment at which the list is handed out.
#[derive(Clone, Copy, Debug, PartialEq, Eq)]
pub struct Moment {
    pub list: usize,
    pub snapshot: usize,
}

impl Moment {
    fn place(self) -> u64 {
        (self.list * 8 + self.snapshot) as u64
    }
}

/// A snapshot that does not show its list completed: its bits, and which commands are done.
#[derive(Clone, Copy, Debug)]
pub struct Odd {
    pub moment: Moment,
    pub bits: u8,
    pub done: u8,
}

/// Fewer bytes are handed in for a list than it reads.
#[derive(Clone, Copy, Debug)]
pub struct Short {
    pub list: usize,
    pub missing: usize,
}

/// No more snapshots are odd.
const MOST_ODD: usize = 4;

/// A transaction and what happens to it. The clock is `start`, and `step` more for each place.
#[derive(Clone, Debug)]
pub struct Transaction {
    pub address: u64,
    pub timeout: Timeout,
    pub start: u64,
    pub step: u64,
    pub busy: bool,
    pub room: usize,
    /// The received bytes come from it.
    pub seed: u8,
    pub short: Option<Short>,
    pub abandon: Option<Moment>,
    pub odd: Vec<Odd>,
    pub script: Vec<u8>,
}

impl Default for Transaction {
    fn default() -> Self {
        Self {
            address: 0x29,
            timeout: Timeout::None,
            start: 0,
            step: 0,
            busy: false,
            room: 0,
            seed: 0,
            short: None,
            abandon: None,
            odd: vec![],
            script: vec![],
        }
    }
}

impl Transaction {
    /// These operations, with as much room as they need, completed without a fault.
    pub fn of(operations: &[Op]) -> Self {
        Self {
            room: scripts::read_total(operations),
            script: scripts::written(operations),
            ..Self::default()
        }
    }

    /// The question, with `drive`'s mode.
    pub fn line_in(&self, mode: u64) -> String {
        let (deadline, duration) = match self.timeout {
            Timeout::None => (0, 0),
            Timeout::Transaction(duration) => (1, duration),
            Timeout::PerByte(duration) => (2, duration),
        };
        let mut numbers = vec![
            mode,
            self.address,
            deadline,
            duration,
            self.start,
            self.step,
            self.busy.into(),
            self.room as u64,
            self.seed.into(),
            self.short.map_or(0, short_number),
            self.abandon.map_or(0, Moment::place),
        ];
        assert!(self.odd.len() <= MOST_ODD);
        let nothing_odd = numbers.len() + MOST_ODD;
        numbers.extend(self.odd.iter().map(odd_number));
        numbers.resize(nothing_odd, 0);
        let bytes = self.script.iter().map(|byte| format!("{byte:02x}"));
        hex_line(&numbers) + " " + &bytes.collect::<String>()
    }
}

fn short_number(short: Short) -> u64 {
    (short.list * 256 + short.missing) as u64
}

fn odd_number(odd: &Odd) -> u64 {
    odd.moment.place() << 16 | u64::from(odd.bits) << 8 | u64::from(odd.done)
}

impl Question for Transaction {
    fn line(&self) -> String {
        self.line_in(0)
    }

    fn oracle(&self) -> u64 {
        self.outcome().answer()
    }
}
