//! Single lists: the builder's answers, words and FIFO bytes.

use oracle::{Deadline, Error, List};

use crate::{
    calls::{
        bytes_of,
        sitankulo::{ADDRESS_INVALID, FIFO_EXCEEDED, ROOM, ZERO_LENGTH_INVALID},
    },
    input::Input,
    lent::{Lent, must_agree},
    other_calls,
};

const START: u8 = 1;
const STOP: u8 = 2;
const CONTINUES: u8 = 4;

/// The Rust's driver traps on a read of more in one operation, and its builder is asked alone.
const FIFO: usize = 32;

/// No longer read is tried with the Rust.
const MOST: usize = 255;

#[derive(Debug)]
struct Asked {
    address: u32,
    /// The bytes of a write, or the length of a read.
    what: Result<Vec<u8>, usize>,
    flags: u8,
    rooms: [usize; 2],
}

pub fn run(input: &mut Input<'_>) {
    let (address, flags) = (input.address(), input.byte());
    let rooms = [input.mostly(32), input.mostly(32)];
    let what = if input.flag() {
        Err(input.number() as usize)
    } else {
        let count = input.below(64);
        Ok(input.filled(count))
    };
    judge(&Asked {
        address,
        what,
        flags,
        rooms,
    });
}

fn judge(asked: &Asked) {
    let Asked { address, flags, .. } = *asked;
    let [mut words, mut fifo] = asked.rooms.map(Lent::of);
    let ours = match &asked.what {
        Ok(bytes) => other_calls::build_write(address, bytes, flags, words.memory(), fifo.memory()),
        Err(n) => other_calls::build_read(address, *n, flags, words.memory(), fifo.memory()),
    };
    match built(asked) {
        Ok(list) => {
            must_agree(asked, ours, (list.fifo.len() as u32) << 8);
            words.must_hold(asked, "the words", &bytes_of(list.words));
            fifo.must_hold(asked, "the FIFO", &list.fifo);
        }
        Err(refusal) => {
            must_agree(asked, ours, refusal);
            words.must_hold(asked, "the words", &[]);
            fifo.must_hold(asked, "the FIFO", &[]);
        }
    }
}

fn built(asked: &Asked) -> Result<List, u32> {
    // The Rust's builder takes any address.
    if asked.address > 127 {
        return Err(ADDRESS_INVALID);
    }
    let list = by_the_rust(asked).map_err(|error| match error {
        Error::ZeroLengthInvalid => ZERO_LENGTH_INVALID,
        Error::FifoExceeded => FIFO_EXCEEDED,
        other => panic!("no refusal of the builder: {other:?}"),
    })?;
    let [words, fifo] = asked.rooms;
    if words < 32 || fifo < list.fifo.len() {
        return Err(ROOM);
    }
    Ok(list)
}

fn by_the_rust(asked: &Asked) -> Result<List, Error> {
    let address = asked.address as u8;
    let [start, stop, continues] = [START, STOP, CONTINUES].map(|flag| asked.flags & flag != 0);
    let none = Deadline::None;
    let (list, _due) = match &asked.what {
        Ok(bytes) => oracle::start_write_operation(address, bytes, start, stop, none, 0)?,
        Err(n) if *n > MOST => return Err(Error::FifoExceeded),
        Err(n) if *n > FIFO => return oracle::setup_read(address, *n, start, stop, continues),
        Err(n) => oracle::start_read_operation(address, *n, start, stop, continues, none, 0)?,
    };
    Ok(list)
}
