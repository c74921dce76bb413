//! What is asked of the leaf crates: pieces, command words, outcomes.

use core::task::Poll;

use oracle::{Ack, AcknowledgeCheckFailedReason as Reason, Command, Error, Snapshot};

use crate::{
    question::{Question, hex_line},
    random::Random,
};

/// The chunk size of the base variant.
const CHUNK: usize = 31;

/// The number of an outcome that is still pending.
const PENDING: u64 = 255;

#[derive(Clone, Debug)]
pub enum Leaf {
    /// The length of the next piece with so many bytes left.
    Piece(usize),
    /// How many pieces n bytes make.
    Count(usize),
    /// Where the j-th piece of n bytes starts.
    Start(usize, usize),
    /// The word of a command: its kind and count.
    Word(u8, u8),
    /// What a snapshot means for its list.
    Outcome(Observed),
    /// A read of so many bytes for which so many were received.
    Received(u8, u8),
}

/// A snapshot of a list, whether the list's poll has succeeded, and when it is due.
#[derive(Clone, Debug)]
pub struct Observed {
    pub bits: u8,
    pub polled: bool,
    pub now: u64,
    pub due: Option<u64>,
    pub commands: [u32; 8],
}

impl Observed {
    fn numbers(&self) -> Vec<u64> {
        let mut numbers = vec![
            6,
            self.bits.into(),
            self.polled.into(),
            self.due.is_some().into(),
            self.now,
            self.due.unwrap_or(0),
        ];
        numbers.extend(self.commands.map(u64::from));
        numbers
    }

    fn classified(&self) -> u64 {
        let snapshot = Snapshot::from_bits(self.bits, self.commands, self.now);
        let polled_now =
            self.polled || oracle::poll_completion(&snapshot, self.due) == Poll::Ready(Ok(()));
        let outcome = oracle::classify(&snapshot, self.polled, self.due);
        numbered(outcome) << 8 | u64::from(polled_now)
    }
}

impl Leaf {
    /// An outcome with a random table and clocks around the deadline.
    pub fn random_outcome(random: &mut Random) -> Self {
        let (now, deadline) = random.clocks();
        Leaf::Outcome(Observed {
            bits: random.flags(),
            polled: random.chance(2),
            now,
            due: (!random.chance(4)).then_some(deadline),
            commands: random.commands(),
        })
    }
}

impl Question for Leaf {
    fn line(&self) -> String {
        let chunk = CHUNK as u64;
        match *self {
            Leaf::Piece(left) => hex_line(&[1, chunk, left as u64]),
            Leaf::Count(n) => hex_line(&[2, chunk, n as u64]),
            Leaf::Start(n, j) => hex_line(&[3, chunk, n as u64, j as u64]),
            Leaf::Word(kind, count) => hex_line(&[4, kind.into(), count.into()]),
            Leaf::Outcome(ref observed) => hex_line(&observed.numbers()),
            Leaf::Received(wanted, received) => hex_line(&[7, wanted.into(), received.into()]),
        }
    }

    fn oracle(&self) -> u64 {
        match *self {
            Leaf::Piece(left) => oracle::chunk_size(left) as u64,
            Leaf::Count(n) => oracle::pieces(n).len() as u64,
            Leaf::Start(n, j) => oracle::pieces(n)[..j].iter().sum::<usize>() as u64,
            Leaf::Word(kind, count) => oracle::word(command(kind, count)).into(),
            Leaf::Outcome(ref observed) => observed.classified(),
            Leaf::Received(wanted, received) => {
                let read = oracle::read_all_from_fifo(wanted.into(), &vec![0; received.into()]);
                numbered(Poll::Ready(read.map(drop))) >> 8
            }
        }
    }
}

fn command(kind: u8, length: u8) -> Command {
    match kind {
        0 => Command::Start,
        1 => Command::Write {
            ack_exp: Ack::Ack,
            ack_check_en: true,
            length,
        },
        2 => Command::Read {
            ack_value: Ack::Ack,
            length,
        },
        3 => Command::Read {
            ack_value: Ack::Nack,
            length,
        },
        4 => Command::Stop,
        _ => Command::End,
    }
}

/// Document 01's number of an outcome times 256, and its reason.
pub fn numbered(outcome: Poll<Result<(), Error>>) -> u64 {
    match outcome {
        Poll::Ready(Ok(())) => 0,
        Poll::Pending => PENDING << 8,
        Poll::Ready(Err(Error::ExecutionIncomplete)) => 8 << 8,
        Poll::Ready(Err(Error::AcknowledgeCheckFailed(reason))) => 9 << 8 | reason_number(reason),
        Poll::Ready(Err(Error::ArbitrationLost)) => 10 << 8,
        Poll::Ready(Err(Error::Timeout)) => 11 << 8,
        Poll::Ready(Err(other)) => panic!("no outcome of a list: {other:?}"),
    }
}

fn reason_number(reason: Reason) -> u64 {
    match reason {
        Reason::Address => 1,
        Reason::Data => 2,
        Reason::Unknown => 3,
    }
}
