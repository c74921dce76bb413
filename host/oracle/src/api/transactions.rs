//! Whole transactions against a scripted bus.

use crate::{
    api::{
        clear::{ClearRun, Sample},
        lists::List,
        outcomes::Snapshot,
    },
    bus::run,
    i2c::master::{Error, I2cAddress, Operation},
    machine::Machine,
};

#[derive(Clone, Debug, PartialEq, Eq)]
pub enum Op {
    Write(Vec<u8>),
    Read(usize),
}

/// The software timeout of the settings, in microseconds.
#[derive(Clone, Copy, Debug, Default, PartialEq, Eq)]
pub enum Timeout {
    #[default]
    None,
    Transaction(u64),
    PerByte(u64),
}

/// What a transaction finds before its first list.
#[derive(Clone, Debug, Default, PartialEq, Eq)]
pub struct Setup {
    pub timeout: Timeout,
    pub pins: bool,
    pub bus_busy: bool,
    /// The clock when the transaction begins. A bus clear leaves it at its last
    /// sample, and from there a deadline for the whole transaction is taken.
    pub now: u64,
    /// For the clear of a busy bus, one sample a poll.
    pub clear: Vec<Sample>,
    pub clear_limit: u64,
}

/// What happens to one list.
#[derive(Clone, Debug, Default, PartialEq, Eq)]
pub struct Turn {
    /// The clock when the list is started.
    pub now: u64,
    /// One for each poll; a successful poll and the command check that follows
    /// it share one, each later command check takes one.
    pub snapshots: Vec<Snapshot>,
    pub received: Vec<u8>,
}

impl Turn {
    /// The list completes at once, and what it reads are zeros.
    pub fn completed(list: &List, now: u64) -> Self {
        Self {
            now,
            snapshots: vec![Snapshot::completed(list, now)],
            received: vec![0; list.reads()],
        }
    }
}

/// A list that the driver started.
#[derive(Clone, Debug, PartialEq, Eq)]
pub struct Handed {
    pub list: List,
    pub due: Option<u64>,
    /// How many snapshots its wait has seen.
    pub snapshots: usize,
}

#[derive(Clone, Debug, PartialEq, Eq)]
pub struct Trace {
    pub lists: Vec<Handed>,
    /// None when the samples or snapshots ran out and the driver would wait on.
    pub result: Option<Result<(), Error>>,
    /// A buffer for each read, empty ones too.
    pub reads: Vec<Vec<u8>>,
    /// The clear of a busy bus.
    pub clear: Option<ClearRun>,
}

/// `transaction_impl`. `turns` is told each list and its place and says what
/// happens to it. Traps where the driver does.
pub fn transaction(
    address: u8,
    operations: &[Op],
    setup: &Setup,
    turns: impl FnMut(usize, &List) -> Turn,
) -> Trace {
    let machine = Machine::with(setup.pins, setup.timeout);
    let mut reads: Vec<Vec<u8>> = operations.iter().filter_map(read_buffer).collect();
    let (lists, result, clear) = run(&machine, setup, turns, |machine| {
        let mut buffers = reads.iter_mut();
        let operations = operations.iter().map(|operation| match operation {
            Op::Write(bytes) => Operation::Write(bytes),
            Op::Read(_) => Operation::Read(buffers.next().expect("one for each read")),
        });
        machine.transaction(I2cAddress::SevenBit(address), operations)
    });
    Trace {
        lists,
        result,
        reads,
        clear,
    }
}

fn read_buffer(operation: &Op) -> Option<Vec<u8>> {
    match operation {
        Op::Write(_) => None,
        Op::Read(length) => Some(vec![0; *length]),
    }
}
