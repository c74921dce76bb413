//! What is asked of the builder: command lists and their FIFO bytes.

use oracle::{Deadline, Error, List};

use crate::question::{Question, hex_line};

/// A list is asked for number by number: the answer, eight words, the count of FIFO bytes, and 32 of those.
pub const PARTS: usize = 1 + 8 + 1 + 32;

/// The answer of an operation step that needs no list.
const NO_LIST: u64 = 254;

#[derive(Clone, Copy, Debug)]
pub enum Kind {
    Write,
    Read { continues: bool },
}

#[derive(Clone, Copy, Debug)]
pub struct ListQuestion {
    pub kind: Kind,
    /// The operation step, which may need no list; else the builder.
    pub step: bool,
    pub address: u8,
    pub n: usize,
    pub start: bool,
    pub stop: bool,
    pub part: usize,
}

/// The bytes that are written: any that tell one place from another.
pub fn pattern(n: usize) -> Vec<u8> {
    (0..n).map(|place| (place * 7 + 3) as u8).collect()
}

impl ListQuestion {
    /// Every question about lists of these lengths at these addresses on which the Rust does not trap.
    pub fn all(lengths: impl Iterator<Item = usize>, addresses: &[u8]) -> Vec<Self> {
        let kinds = [
            Kind::Write,
            Kind::Read { continues: false },
            Kind::Read { continues: true },
        ];
        let mut questions = Vec::new();
        for n in lengths {
            for &address in addresses {
                for flags in 0..8 {
                    let [step, start, stop] = [flags & 1 != 0, flags & 2 != 0, flags & 4 != 0];
                    for kind in kinds {
                        let part = 0;
                        let whole = Self {
                            kind,
                            step,
                            address,
                            n,
                            start,
                            stop,
                            part,
                        };
                        if !whole.traps() {
                            questions.extend((0..PARTS).map(|part| Self { part, ..whole }));
                        }
                    }
                }
            }
        }
        questions
    }

    /// A read of more than the FIFO in one operation is a debug trap in the Rust.
    fn traps(&self) -> bool {
        matches!(self.kind, Kind::Read { .. }) && self.step && self.n > 32 && self.address <= 127
    }

    fn built(&self) -> Result<Option<List>, Error> {
        let Self {
            kind,
            step,
            address,
            n,
            start,
            stop,
            ..
        } = *self;
        match (kind, step) {
            (Kind::Write, true) => oracle::write_operation(address, &pattern(n), start, stop),
            (Kind::Read { continues }, true) => {
                oracle::read_operation(address, n, start, stop, continues)
            }
            // The Rust's builder takes any address, and a read of more than the FIFO traps in it.
            (_, false) if address > 127 => {
                Err(Error::AddressInvalid(oracle::I2cAddress::SevenBit(address)))
            }
            (Kind::Write, false) => {
                oracle::start_write_operation(address, &pattern(n), start, stop, Deadline::None, 0)
                    .map(listed)
            }
            (Kind::Read { continues }, false) if n > 32 => {
                oracle::setup_read(address, n, start, stop, continues).map(Some)
            }
            (Kind::Read { continues }, false) => {
                oracle::start_read_operation(address, n, start, stop, continues, Deadline::None, 0)
                    .map(listed)
            }
        }
    }
}

fn listed((list, _due): (List, Option<u64>)) -> Option<List> {
    Some(list)
}

fn refusal(error: Error) -> u64 {
    match error {
        Error::AddressInvalid(_) => 1,
        Error::ZeroLengthInvalid => 2,
        Error::FifoExceeded => 3,
        other => panic!("no refusal of the builder: {other:?}"),
    }
}

impl Question for ListQuestion {
    fn line(&self) -> String {
        let (asked, continues) = match self.kind {
            Kind::Write => (8, false),
            Kind::Read { continues } => (9, continues),
        };
        hex_line(&[
            asked,
            self.step.into(),
            self.address.into(),
            self.n as u64,
            self.start.into(),
            self.stop.into(),
            continues.into(),
            self.part as u64,
        ])
    }

    fn oracle(&self) -> u64 {
        let (answer, list) = match self.built() {
            Ok(Some(list)) => (0, list),
            Ok(None) => (
                NO_LIST,
                List {
                    words: [0; 8],
                    fifo: vec![],
                },
            ),
            Err(error) => (
                refusal(error),
                List {
                    words: [0; 8],
                    fifo: vec![],
                },
            ),
        };
        match self.part {
            0 => answer,
            part @ 1..=8 => list.words[part - 1].into(),
            9 => list.fifo.len() as u64,
            part => list.fifo.get(part - 10).copied().unwrap_or(0).into(),
        }
    }
}
