//! What becomes of a list: errors, the poll, the command check, received bytes.

use core::task::Poll;

use crate::{
    api::{
        lists::List,
        transactions::{Setup, Turn},
    },
    bus::run,
    gpio,
    i2c::master::Error,
    machine::Machine,
};

/// What the driver can see of the controller at one moment, and the clock.
#[derive(Clone, Copy, Debug, Default, PartialEq, Eq)]
pub struct Snapshot {
    pub nack: bool,
    pub arbitration_lost: bool,
    pub scl_st_to: bool,
    pub scl_main_st_to: bool,
    pub time_out: bool,
    pub resp_rec: bool,
    pub trans_complete: bool,
    pub end_detect: bool,
    pub commands: [u32; 8],
    pub now: u64,
}

/// Bit 31 of a command word.
const DONE: u32 = 1 << 31;

impl Snapshot {
    /// The eight flags from one byte, nack in bit 0 to end_detect in bit 7.
    pub fn from_bits(bits: u8, commands: [u32; 8], now: u64) -> Self {
        let bit = |place: u8| bits >> place & 1 == 1;
        Self {
            nack: bit(0),
            arbitration_lost: bit(1),
            scl_st_to: bit(2),
            scl_main_st_to: bit(3),
            time_out: bit(4),
            resp_rec: bit(5),
            trans_complete: bit(6),
            end_detect: bit(7),
            commands,
            now,
        }
    }

    /// Every command of the list done, the transfer complete and acknowledged.
    pub fn completed(list: &List, now: u64) -> Self {
        Self {
            resp_rec: true,
            trans_complete: true,
            commands: list
                .words
                .map(|word| if word == 0 { 0 } else { word | DONE }),
            now,
            ..Self::default()
        }
    }
}

fn seeing(snapshot: &Snapshot) -> Machine {
    let machine = Machine::new();
    machine.show(snapshot);
    machine
}

pub fn check_errors(snapshot: &Snapshot) -> Result<(), Error> {
    seeing(snapshot).check_errors()
}

/// `I2cFuture::poll_completion`, with the time at which the list is due.
pub fn poll_completion(snapshot: &Snapshot, due: Option<u64>) -> Poll<Result<(), Error>> {
    seeing(snapshot).poll_completion(due)
}

pub fn all_commands_done(snapshot: &Snapshot, due: Option<u64>) -> Result<bool, Error> {
    seeing(snapshot).all_commands_done(due)
}

/// One turn of `wait_for_completion_blocking` on one snapshot: the poll, unless
/// an earlier one has succeeded, and then the command check. Pending where the
/// blocking function would look again.
pub fn classify(snapshot: &Snapshot, polled: bool, due: Option<u64>) -> Poll<Result<(), Error>> {
    let machine = seeing(snapshot);
    if !polled {
        match machine.poll_completion(due) {
            Poll::Ready(Ok(())) => {}
            other => return other,
        }
    }
    match machine.all_commands_done(due) {
        Ok(true) => Poll::Ready(machine.check_errors()),
        Ok(false) => Poll::Pending,
        Err(error) => Poll::Ready(Err(error)),
    }
}

/// `wait_for_completion_blocking` itself over one snapshot after another;
/// pending when it would look for more.
pub fn wait_blocking(snapshots: &[Snapshot], due: Option<u64>) -> Poll<Result<(), Error>> {
    let machine = Machine::new();
    machine
        .registers
        .ctr()
        .modify(|_, w| w.trans_start().set_bit());
    let turn = |_place: usize, _list: &List| Turn {
        snapshots: snapshots.to_vec(),
        ..Turn::default()
    };
    let wait = |machine: &Machine| machine.wait_for_completion(due);
    match run(&machine, &Setup::default(), turn, wait) {
        (_lists, Some(result), _clear) => Poll::Ready(result),
        (_lists, None, _clear) => Poll::Pending,
    }
}

/// The bytes that a read takes from those received. Traps, by a debug
/// assertion, when more were received than wanted. At most 255 of either.
pub fn read_all_from_fifo(wanted: usize, received: &[u8]) -> Result<Vec<u8>, Error> {
    assert!(wanted <= 255, "the driver compares lengths as bytes");
    let machine = Machine::new();
    machine.registers.show_received(received);
    let mut buffer = vec![0; wanted];
    machine.read_all_from_fifo(&mut buffer)?;
    Ok(buffer)
}

/// Whether dropping the unfinished wait asks for a reset (with a bus clear,
/// which without pins is over at once).
pub fn abandon(snapshot: &Snapshot, due: Option<u64>) -> bool {
    gpio::take_effects();
    seeing(snapshot).abandon(due);
    !gpio::take_effects().is_empty()
}
