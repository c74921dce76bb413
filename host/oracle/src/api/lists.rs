//! Command lists: the words and FIFO bytes of one transmission.

use crate::{
    api::transactions::{Setup, Turn},
    bus::run,
    i2c::master::{Error, I2cAddress},
    machine::Machine,
    registers::ALL_INTERRUPTS,
    time,
};

#[derive(Clone, Debug, PartialEq, Eq)]
pub struct List {
    pub words: [u32; 8],
    pub fifo: Vec<u8>,
}

impl List {
    /// How many bytes it reads.
    pub fn reads(&self) -> usize {
        let reads = self.words.iter().filter(|word| **word >> 11 == 3);
        reads.map(|word| (word & 0xff) as usize).sum()
    }
}

/// When a list is due, in microseconds.
#[derive(Clone, Copy, Debug, PartialEq, Eq)]
pub enum Deadline {
    None,
    Fixed(u64),
    PerByte(u64),
}

/// `setup_write`: the list without STOP and END.
pub fn setup_write(address: u8, bytes: &[u8], start: bool, stop: bool) -> Result<List, Error> {
    let machine = Machine::new();
    machine.setup_write(I2cAddress::SevenBit(address), bytes, start, stop)?;
    Ok(machine.list())
}

/// `setup_read`: the list without STOP and END.
pub fn setup_read(
    address: u8,
    n: usize,
    start: bool,
    stop: bool,
    will_continue: bool,
) -> Result<List, Error> {
    let machine = Machine::new();
    let address = I2cAddress::SevenBit(address);
    machine.setup_read(address, &mut vec![0; n], start, stop, will_continue)?;
    Ok(machine.list())
}

/// `start_write_operation`: the whole list, and when it is due.
pub fn start_write_operation(
    address: u8,
    bytes: &[u8],
    start: bool,
    stop: bool,
    deadline: Deadline,
    now: u64,
) -> Result<(List, Option<u64>), Error> {
    time::set_now(now);
    let machine = Machine::new();
    let address = I2cAddress::SevenBit(address);
    let due = machine.start_write_operation(address, bytes, start, stop, deadline)?;
    Ok((machine.list(), due))
}

/// `start_read_operation`: the whole list, and when it is due. Traps, by a
/// debug assertion, when n is above 32.
pub fn start_read_operation(
    address: u8,
    n: usize,
    start: bool,
    stop: bool,
    will_continue: bool,
    deadline: Deadline,
    now: u64,
) -> Result<(List, Option<u64>), Error> {
    time::set_now(now);
    let machine = Machine::new();
    let address = I2cAddress::SevenBit(address);
    let buffer = &mut vec![0; n];
    let due =
        machine.start_read_operation(address, buffer, start, stop, will_continue, deadline)?;
    Ok((machine.list(), due))
}

/// `write_operation_blocking` on a bus where every list completes at once: the
/// list handed out, none where the short circuit is taken.
pub fn write_operation(
    address: u8,
    bytes: &[u8],
    start: bool,
    stop: bool,
) -> Result<Option<List>, Error> {
    operation(|machine| machine.write_operation(I2cAddress::SevenBit(address), bytes, start, stop))
}

/// `read_operation_blocking`, likewise, with the n bytes received. Traps when n
/// is above 32.
pub fn read_operation(
    address: u8,
    n: usize,
    start: bool,
    stop: bool,
    will_continue: bool,
) -> Result<Option<List>, Error> {
    operation(|machine| {
        let address = I2cAddress::SevenBit(address);
        machine.read_operation(address, &mut vec![0; n], start, stop, will_continue)
    })
}

fn operation(step: impl FnOnce(&Machine) -> Result<(), Error>) -> Result<Option<List>, Error> {
    let completes = |_place: usize, list: &List| Turn::completed(list, 0);
    let (lists, result, _clear) = run(&Machine::new(), &Setup::default(), completes, step);
    result.expect("the list completes")?;
    Ok(lists.into_iter().next().map(|handed| handed.list))
}

/// What an operation that gave no list has left in the registers.
#[derive(Clone, Debug, PartialEq, Eq)]
pub struct Left {
    pub list: List,
    pub interrupts_cleared: bool,
}

/// An empty write, neither started nor stopped, over registers that hold `before`.
pub fn left_by_empty_write(before: &List) -> Left {
    left(before, |machine| {
        machine.write_operation(I2cAddress::SevenBit(0), &[], false, false)
    })
}

/// An empty read over registers that hold `before`.
pub fn left_by_empty_read(before: &List) -> Left {
    left(before, |machine| {
        machine.read_operation(I2cAddress::SevenBit(0), &mut [], true, true, false)
    })
}

fn left(before: &List, step: impl FnOnce(&Machine) -> Result<(), Error>) -> Left {
    let machine = Machine::new();
    machine.registers.show_commands(&before.words);
    for byte in &before.fifo {
        machine.registers.tx.push(*byte);
    }
    step(&machine).expect("no list, hence no error");
    Left {
        list: machine.list(),
        interrupts_cleared: machine.registers.int_clr().read().bits() == ALL_INTERRUPTS,
    }
}
