//! What the driver takes from the module above it.

use core::{
    pin::Pin,
    // The driver marks its interrupt handler `#[ram]`. On a host nothing calls
    // that handler, and this attribute leaves it out.
    prelude::v1::test as ram,
    task::{Context, Poll},
};

use crate::{
    chip::{asynch::AtomicWaker, interrupt::InterruptHandler},
    crates::{embassy_futures, enumset::EnumSet},
    gpio::{
        DriveMode, InputSignal, Level, OutputConfig, OutputSignal, PinGuard, Pull, interconnect,
    },
    registers::{COMD, RegisterBlock},
    time::{ClearLimit, Duration, Instant},
};

mod low_level;

// GAP (document 01): the chunk is 31 bytes, one less than the FIFO.
const I2C_CHUNK_SIZE: usize = I2C_FIFO_SIZE - 1;
const I2C_FIFO_SIZE: usize = 32;

const CLEAR_BUS_TIMEOUT_MS: ClearLimit = ClearLimit;

/// The address of a device.
#[derive(Clone, Copy, Debug, PartialEq, Eq)]
pub enum I2cAddress {
    SevenBit(u8),
}

impl I2cAddress {
    // GAP (document 01): an address above 127 is invalid.
    fn validate(&self) -> Result<(), Error> {
        match self {
            I2cAddress::SevenBit(address) if *address > 127 => Err(Error::AddressInvalid(*self)),
            I2cAddress::SevenBit(_) => Ok(()),
        }
    }

    // GAP (document 01): a deadline per byte counts one byte for the address,
    // even where no address is sent.
    fn bytes(self) -> usize {
        1
    }
}

/// Why the driver gave up, or what it was asked that it cannot do.
#[derive(Clone, Copy, Debug, PartialEq, Eq)]
pub enum Error {
    FifoExceeded,
    AcknowledgeCheckFailed(AcknowledgeCheckFailedReason),
    Timeout,
    ArbitrationLost,
    ExecutionIncomplete,
    CommandNumberExceeded,
    ZeroLengthInvalid,
    AddressInvalid(I2cAddress),
}

/// Which byte was not acknowledged.
#[derive(Clone, Copy, Debug, PartialEq, Eq)]
pub enum AcknowledgeCheckFailedReason {
    Address,
    Data,
    Unknown,
}

pub enum ConfigError {
    FrequencyOutOfRange,
}

/// A command of the controller.
#[derive(Clone, Copy, Debug, PartialEq, Eq)]
pub enum Command {
    Start,
    Stop,
    End,
    Write {
        ack_exp: Ack,
        ack_check_en: bool,
        length: u8,
    },
    Read {
        ack_value: Ack,
        length: u8,
    },
}

#[derive(Clone, Copy, Debug, PartialEq, Eq)]
pub enum Ack {
    Ack = 0,
    Nack = 1,
}

/// The lowest bit of the address byte.
enum OperationType {
    Write = 0,
    Read = 1,
}

/// An operation with the bytes to write or the buffer to fill.
pub enum Operation<'a> {
    Write(&'a [u8]),
    Read(&'a mut [u8]),
}

impl Operation<'_> {
    fn is_write(&self) -> bool {
        matches!(self, Operation::Write(_))
    }

    fn is_empty(&self) -> bool {
        match self {
            Operation::Write(bytes) => bytes.is_empty(),
            Operation::Read(buffer) => buffer.is_empty(),
        }
    }

    fn kind(&self) -> OpKind {
        match self {
            Operation::Write(_) => OpKind::Write,
            Operation::Read(_) => OpKind::Read,
        }
    }
}

enum OpKind {
    Write,
    Read,
}

/// The events that end a transfer.
#[derive(Clone, Copy)]
pub enum Event {
    EndDetect = 1,
    TxComplete = 2,
}

#[derive(Clone, Copy)]
pub enum SoftwareTimeout {
    None,
    Transaction(Duration),
    PerByte(Duration),
}

/// The settings that the driver reads.
pub struct Config {
    pub software_timeout: SoftwareTimeout,
    pub scl_sample_level: Level,
    pub scl_st_timeout: StateTimeoutValue,
    pub scl_main_st_timeout: StateTimeoutValue,
}

pub struct StateTimeoutValue(pub u8);

impl StateTimeoutValue {
    fn value(&self) -> u8 {
        self.0
    }
}

pub struct DriverConfig {
    pub config: Config,
    pub sda_pin: PinGuard,
    pub scl_pin: PinGuard,
}
