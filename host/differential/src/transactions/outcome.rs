//! What the calls have to tell, worked out from a run of the Rust original.

use std::task::Poll;

use oracle::{Error, Handed, Trace};

use super::{Moment, Transaction};
use crate::{leaves::numbered, scripts, told::Told};

/// What the read buffer holds before the transaction.
const OLD: u8 = 0xee;

const CLEAR_FIRST: u64 = 253;

const RESET_AND_CLEAR: u64 = 253;

const NONE_LEFT: u64 = 254;

const PENDING: u64 = 255;

/// All that is told, the number and the reason of the last answer, and how many lists there were.
pub(super) struct Outcome {
    told: Told,
    last: [u64; 2],
    lists: usize,
}

impl Outcome {
    pub(super) fn answer(&self) -> u64 {
        self.told.answer(self.last, self.lists)
    }
}

impl Transaction {
    /// All that is told, in hex, and the answer: what `drive` prints in mode 1.
    pub fn in_full(&self) -> String {
        let outcome = self.outcome();
        format!("{} {:016x}", outcome.told.in_full(), outcome.answer())
    }

    pub(super) fn outcome(&self) -> Outcome {
        let accepted = scripts::accepted(
            self.address,
            &self.script,
            self.room,
            self.timeout,
            self.start,
        );
        match accepted {
            Err(refusal) => self.refused(refusal.into()),
            Ok(operations) => self.traced(&self.run(&operations)),
        }
    }

    fn refused(&self, refusal: u64) -> Outcome {
        let mut told = Told::default();
        told.tell(refusal);
        told.tell_all(vec![OLD; self.room]);
        Outcome {
            told,
            last: [refusal, 0],
            lists: 0,
        }
    }

    fn traced(&self, trace: &Trace) -> Outcome {
        let begun = if trace.clear.is_some() {
            CLEAR_FIRST
        } else {
            0
        };
        let mut told = Told::default();
        told.tell(begun);
        let mut last = [NONE_LEFT, 0];
        for (place, handed) in trace.lists.iter().enumerate() {
            let followed = place + 1 < trace.lists.len();
            let result = if followed { Some(Ok(())) } else { trace.result };
            tell_list(&mut told, handed);
            told.tell_all([PENDING, 0].repeat(handed.snapshots - usize::from(result.is_some())));
            match result {
                Some(Ok(())) => told.tell_all([0u64, 0]),
                Some(Err(error)) => {
                    last = failed(error);
                    told.tell_all(last);
                }
                None => {
                    last = [self.given_up(place + 1, handed), 0];
                    told.tell(last[0]);
                }
            }
        }
        if trace.result == Some(Ok(())) {
            told.tell(NONE_LEFT);
        }
        told.tell_all(self.read_buffer(trace));
        Outcome {
            told,
            last,
            lists: trace.lists.len(),
        }
    }

    /// What giving up at the last list of a run answers.
    fn given_up(&self, number: usize, handed: &Handed) -> u64 {
        let moment = Moment {
            list: number,
            snapshot: handed.snapshots + 1,
        };
        assert_eq!(
            self.abandon,
            Some(moment),
            "nothing else leaves a wait unfinished"
        );
        let polled = self
            .snapshots(number, &handed.list)
            .iter()
            .any(|snapshot| oracle::poll_completion(snapshot, handed.due) == Poll::Ready(Ok(())));
        let resets = !polled && oracle::abandon(&self.snapshot(moment, &handed.list), handed.due);
        if resets { RESET_AND_CLEAR } else { 0 }
    }

    /// Reads land one after another. No byte that lands is 0: where the Rust's buffers still are, nothing has landed.
    fn read_buffer(&self, trace: &Trace) -> Vec<u8> {
        let mut buffer = trace.reads.concat();
        buffer.resize(self.room, 0);
        for byte in &mut buffer {
            if *byte == 0 {
                *byte = OLD;
            }
        }
        buffer
    }
}

fn failed(error: Error) -> [u64; 2] {
    let number = numbered(Poll::Ready(Err(error)));
    [number >> 8, number & 0xff]
}

/// That there is a list, its words, its FIFO bytes and their count, and when it is due.
fn tell_list(told: &mut Told, handed: &Handed) {
    told.tell(0);
    told.tell_all(handed.list.words);
    told.tell(handed.list.fifo.len() as u64);
    let mut fifo = handed.list.fifo.clone();
    fifo.resize(32, 0);
    told.tell_all(fifo);
    told.tell_all([handed.due.is_some().into(), handed.due.unwrap_or(0)]);
}
