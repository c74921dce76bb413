//! What begin, next, complete and abandon have to do on any record: document 01's refusals in its order, and the Rust original's
//! lists and outcomes.

use core::task::Poll;

use differential::{numbered, operations, read_total};
use oracle::{Handed, Op, Setup, Snapshot, Timeout, Turn};

use crate::{
    calls::{
        Shown,
        sitankulo::{CLEAR, CLOCK_RANGE, LIST_REFUSED, NONE, OUT_OF_TURN, PENDING, ROOM, SHAPE},
    },
    record::{FAILED, HAS_DUE, HAS_FIXED, OUTSTANDING, POLLED, Record, SIZE},
};

const FIXED: u8 = 1;
const PER_BYTE: u8 = 2;

const WORDS: usize = 32;

/// What every call on one transaction takes.
#[derive(Clone, Debug)]
pub struct Settings {
    pub deadline: u8,
    pub duration: u64,
    pub address: u32,
    pub script: Vec<u8>,
}

/// An accepted script: its lists by the Rust, and how many bytes it reads.
pub struct Plan {
    pub lists: Vec<Handed>,
    pub total: usize,
}

/// With a deadline of 1 a byte from 0, the due time of a list is what the duration is multiplied by.
fn planned(address: u8, operations: &[Op]) -> Plan {
    let setup = Setup {
        timeout: Timeout::PerByte(1),
        ..Setup::default()
    };
    let trace = oracle::transaction(address, operations, &setup, |_, list| {
        Turn::completed(list, 0)
    });
    assert_eq!(trace.result, Some(Ok(())));
    Plan {
        lists: trace.lists,
        total: read_total(operations),
    }
}

impl Plan {
    /// A record whose place is one of this script's.
    fn placed(&self, record: &[u8]) -> Option<Record> {
        let record = Record::left_in(record)?;
        let places = self.lists.len() as u64 + u64::from(!record.has(OUTSTANDING));
        (record.place < places).then_some(record)
    }

    /// The list at the record's place, and where in the read buffer its bytes land.
    pub fn at(&self, place: u64) -> Option<(&Handed, usize)> {
        let place = usize::try_from(place).ok()?;
        let handed = self.lists.get(place)?;
        let before = self.lists[..place].iter().map(|before| before.list.reads());
        Some((handed, before.sum()))
    }
}

/// What a call has to answer and to write.
#[derive(Debug, Default)]
pub struct Done<'a> {
    pub answer: u32,
    pub record: Option<Record>,
    pub handed: Option<&'a Handed>,
    pub landed: Option<(usize, Vec<u8>)>,
}

fn refused<'a>(answer: u32) -> Done<'a> {
    Done {
        answer,
        ..Done::default()
    }
}

fn leaving<'a>(answer: u32, record: Record) -> Done<'a> {
    Done {
        record: Some(record),
        ..refused(answer)
    }
}

pub struct Rules<'a> {
    settings: &'a Settings,
    /// Or the number of the script's refusal.
    pub plan: Result<Plan, u32>,
}

impl<'a> Rules<'a> {
    pub fn new(settings: &'a Settings) -> Self {
        let address = settings.address;
        let plan = match operations(address.into(), &settings.script) {
            Ok(operations) => Ok(planned(address as u8, &operations)),
            Err(refusal) => Err(refusal.into()),
        };
        Self { settings, plan }
    }

    pub fn begin(&self, record_room: usize, room: usize, busy: bool, time: u64) -> Done<'_> {
        if self.settings.deadline > PER_BYTE {
            return refused(SHAPE);
        }
        let plan = match &self.plan {
            Ok(plan) => plan,
            Err(refusal) => return refused(*refusal),
        };
        if room < plan.total || record_room < SIZE {
            return refused(ROOM);
        }
        let mut record = Record::default();
        if self.settings.deadline == FIXED {
            let Some(fixed) = time.checked_add(self.settings.duration) else {
                return refused(CLOCK_RANGE);
            };
            (record.flags, record.fixed) = (HAS_FIXED, fixed);
        }
        leaving(if busy { CLEAR } else { 0 }, record)
    }

    pub fn next(&self, record: &[u8], time: u64, words: usize, fifo: usize) -> Done<'_> {
        if self.settings.deadline > PER_BYTE {
            return refused(SHAPE);
        }
        let plan = match &self.plan {
            Ok(plan) => plan,
            Err(refusal) => return refused(*refusal),
        };
        let Some(record) = plan.placed(record) else {
            return refused(SHAPE);
        };
        if record.has(OUTSTANDING | FAILED) {
            return refused(OUT_OF_TURN);
        }
        let Some((handed, _)) = plan.at(record.place) else {
            return refused(NONE);
        };
        let Ok(due) = self.due(&record, handed, time) else {
            return refused(CLOCK_RANGE);
        };
        let count = handed.list.fifo.len();
        if words < WORDS || fifo < count {
            return refused(ROOM);
        }
        let limited = if due.is_some() { HAS_DUE } else { 0 };
        let waits = Record {
            flags: record.flags | OUTSTANDING | limited,
            due: due.unwrap_or(0),
            ..record
        };
        Done {
            handed: Some(handed),
            ..leaving((count as u32) << 8, waits)
        }
    }

    /// When a list is due; an error where the sum exceeds 64 bits.
    fn due(&self, record: &Record, handed: &Handed, time: u64) -> Result<Option<u64>, ()> {
        match self.settings.deadline {
            FIXED => Ok(record.has(HAS_FIXED).then_some(record.fixed)),
            PER_BYTE => {
                let times = handed.due.expect("a deadline per byte");
                let wait = self.settings.duration.checked_mul(times).ok_or(())?;
                time.checked_add(wait).map(Some).ok_or(())
            }
            _ => Ok(None),
        }
    }

    pub fn complete(&self, record: &[u8], shown: &Shown, received: &[u8], room: usize) -> Done<'_> {
        let Some(snapshot) = snapshot_of(shown) else {
            return refused(LIST_REFUSED);
        };
        let plan = match &self.plan {
            Ok(plan) => plan,
            Err(refusal) => return refused(*refusal),
        };
        let Some(record) = plan.placed(record) else {
            return refused(SHAPE);
        };
        if !record.has(OUTSTANDING) {
            return refused(OUT_OF_TURN);
        }
        if room < plan.total {
            return refused(ROOM);
        }
        let (handed, offset) = plan.at(record.place).expect("a list is outstanding");
        let failed = record.between_lists(record.place, FAILED);
        match oracle::classify(&snapshot, record.has(POLLED), record.due()) {
            Poll::Pending => leaving(PENDING, polled(record, &snapshot)),
            Poll::Ready(Err(error)) => leaving(answer_of(Err(error)), failed),
            Poll::Ready(Ok(())) => match taken(handed, received) {
                Err(error) => leaving(answer_of(Err(error)), failed),
                Ok(bytes) => Done {
                    landed: Some((offset, bytes)),
                    ..leaving(0, record.between_lists(record.place + 1, 0))
                },
            },
        }
    }

    pub fn abandon(&self, record: &[u8], shown: &Shown) -> Done<'_> {
        let Some(snapshot) = snapshot_of(shown) else {
            return refused(LIST_REFUSED);
        };
        let Some(record) = Record::left_in(record) else {
            return refused(SHAPE);
        };
        if !record.has(OUTSTANDING) {
            return refused(OUT_OF_TURN);
        }
        let resets = !record.has(POLLED) && oracle::abandon(&snapshot, record.due());
        let answer = if resets { CLEAR } else { 0 };
        leaving(answer, record.between_lists(record.place, FAILED))
    }
}

fn snapshot_of(shown: &Shown) -> Option<Snapshot> {
    let (words, []) = shown.commands.as_chunks() else {
        return None;
    };
    let commands = <[[u8; 4]; 8]>::try_from(words).ok()?;
    let commands = commands.map(u32::from_be_bytes);
    Some(Snapshot::from_bits(shown.bits, commands, shown.time))
}

fn polled(record: Record, snapshot: &Snapshot) -> Record {
    let succeeds = oracle::poll_completion(snapshot, record.due()) == Poll::Ready(Ok(()));
    Record {
        flags: record.flags | if succeeds { POLLED } else { 0 },
        ..record
    }
}

/// The bytes that a list takes. Of more than it reads the Rust is handed the first ones, since it traps on more.
fn taken(handed: &Handed, received: &[u8]) -> Result<Vec<u8>, oracle::Error> {
    let wanted = handed.list.reads();
    oracle::read_all_from_fifo(wanted, &received[..wanted.min(received.len())])
}

/// The number, and the reason as the detail.
fn answer_of(outcome: Result<(), oracle::Error>) -> u32 {
    let numbered = numbered(Poll::Ready(outcome)) as u32;
    numbered >> 8 | (numbered & 0xff) << 8
}
