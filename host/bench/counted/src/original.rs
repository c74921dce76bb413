//! The Rust original, one function for each thing that is counted.

use std::hint::black_box;

use crate::{
    api::{clear::Clear, outcomes::Snapshot, transactions::Timeout},
    feed, gpio,
    i2c::master::{I2cAddress, Operation},
    machine::Machine,
    time,
};

const ADDRESS: I2cAddress = I2cAddress::SevenBit(crate::ADDRESS);

/// A machine whose controller completes every list.
pub fn machine() -> &'static Machine {
    let machine: &'static Machine = Box::leak(Box::new(Machine::with(true, Timeout::None)));
    machine
        .registers
        .show_interrupts(|w| w.trans_complete().set_bit());
    machine.registers.sr().modify(|_, w| w.resp_rec().set_bit());
    feed::complete_lists_in(&machine.registers);
    machine
}

#[inline(never)]
pub fn original_write(machine: &Machine, bytes: &[u8]) {
    let operations = [Operation::Write(bytes)];
    black_box(machine.transaction(ADDRESS, operations.into_iter())).expect("it completes");
}

#[inline(never)]
pub fn original_read(machine: &Machine, buffer: &mut [u8]) {
    let operations = [Operation::Read(buffer)];
    black_box(machine.transaction(ADDRESS, operations.into_iter())).expect("it completes");
}

/// A thousand times: write a register's number, read two bytes.
#[inline(never)]
pub fn original_register_reads(machine: &Machine, times: usize) {
    for register in 0..times {
        let mut buffer = [0; 2];
        let number = [register as u8];
        let operations = [Operation::Write(&number), Operation::Read(&mut buffer)];
        black_box(machine.transaction(ADDRESS, operations.into_iter())).expect("it completes");
    }
}

/// One transaction of many records: one-byte writes and one-byte reads in turn.
#[inline(never)]
pub fn original_records(machine: &Machine, buffer: &mut [u8]) {
    let operations = buffer.chunks_mut(1).enumerate().map(|(place, byte)| {
        if place % 2 == 0 {
            Operation::Write(&[0xA0])
        } else {
            Operation::Read(byte)
        }
    });
    black_box(machine.transaction(ADDRESS, operations)).expect("it completes");
}

/// The poll and the command check on one snapshot that the registers already show.
#[inline(never)]
pub fn original_classify(machine: &Machine, due: Option<u64>) {
    let _ = black_box(machine.poll_completion(due));
    let _ = black_box(machine.all_commands_done(due));
}

pub fn show(machine: &Machine, bits: u8, commands: [u32; 8], now: u64) {
    machine.show(&Snapshot::from_bits(bits, commands, now));
}

/// A fresh clear and so many acting polls with SDA low.
#[inline(never)]
pub fn original_clear(machine: &Machine, polls: usize) -> Clear {
    time::set_now(0);
    machine.clear_driven(false, polls, |poll| time::set_now(5 * (poll as u64 + 1)))
}

/// The mock pins keep a list of what was done to them, which grows before anything is counted.
pub fn make_room_for_pin_changes(machine: &Machine) {
    gpio::set_sda(false);
    for _ in 0..6 {
        original_clear(machine, 20);
    }
}

/// Bytes pushed into the mock FIFO.
#[inline(never)]
pub fn mock_fifo_writes(machine: &Machine, bytes: &[u8]) {
    for piece in bytes.chunks(31) {
        machine.registers.tx.clear();
        for byte in piece {
            machine.registers.tx.push(*byte);
        }
    }
}

#[inline(never)]
pub fn mock_fifo_reads(machine: &Machine, buffer: &mut [u8]) {
    for piece in buffer.chunks_mut(31) {
        machine.registers.rx.clear();
        for byte in piece {
            *byte = machine.registers.take_received();
        }
    }
}

/// The same bytes, each stored into one register as a part has it.
#[inline(never)]
pub fn plain_fifo_writes(register: &mut u8, bytes: &[u8]) {
    for piece in bytes.chunks(31) {
        for byte in piece {
            // SAFETY: a reference may be written.
            unsafe { (register as *mut u8).write_volatile(*byte) };
        }
    }
}

/// As many bytes, each loaded from one register as a part has it.
#[inline(never)]
pub fn plain_fifo_reads(register: &u8, buffer: &mut [u8]) {
    for piece in buffer.chunks_mut(31) {
        for byte in piece {
            // SAFETY: a reference may be read.
            *byte = unsafe { (register as *const u8).read_volatile() };
        }
    }
}

/// Levels given to a mock pin.
#[inline(never)]
pub fn mock_pin_changes(changes: usize) {
    let pin = unsafe { gpio::AnyPin::steal(gpio::SCL_PIN) };
    for change in 0..changes {
        pin.set_output_high(change % 2 == 0);
    }
}

/// The same levels, each stored into one register as a part has it.
#[inline(never)]
pub fn plain_pin_changes(register: &mut u8, changes: usize) {
    for change in 0..changes {
        // SAFETY: a reference may be written.
        unsafe { (register as *mut u8).write_volatile((change % 2 == 0) as u8) };
    }
}
