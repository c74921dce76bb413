//! Outcomes: the parts against the whole, and what document 01 says of them.

use std::task::Poll;

use oracle::*;

const DONE: [u32; 8] = [0x8000_3000, 0x8000_0902, 0x2000, 0, 0, 0, 0, 0];
const WAITING: [u32; 8] = [0x8000_3000, 0x0902, 0x2000, 0, 0, 0, 0, 0];
const NOW: u64 = 1000;
const DEADLINES: [Option<u64>; 4] = [None, Some(1001), Some(1000), Some(999)];

fn everything() -> impl Iterator<Item = (Snapshot, Option<u64>)> {
    let tables = [DONE, WAITING, [0; 8]];
    let snapshots = (0..=255)
        .flat_map(move |bits| tables.map(|commands| Snapshot::from_bits(bits, commands, NOW)));
    snapshots.flat_map(|snapshot| DEADLINES.map(|due| (snapshot, due)))
}

/// A poll that succeeds with commands still to be done, before any deadline.
fn poll_has_succeeded() -> Snapshot {
    Snapshot::from_bits(0xa0, WAITING, 0)
}

#[test]
fn debug_assertions_are_on() {
    assert_eq!((TRAPS, cfg!(debug_assertions)), (true, true));
}

#[test]
fn classify_is_one_turn_of_the_blocking_wait() {
    for (snapshot, due) in everything() {
        let first = wait_blocking(&[snapshot], due);
        assert_eq!(classify(&snapshot, false, due), first);
        let later = wait_blocking(&[poll_has_succeeded(), snapshot], due);
        assert_eq!(classify(&snapshot, true, due), later);
    }
}

#[test]
fn blocking_wait_looks_on_until_it_is_done() {
    let idle = Snapshot::from_bits(0, DONE, NOW);
    let complete = Snapshot::from_bits(0x60, WAITING, NOW);
    let done = Snapshot::from_bits(0x60, DONE, NOW);
    assert_eq!(wait_blocking(&[], None), Poll::Pending);
    assert_eq!(wait_blocking(&[idle, complete], None), Poll::Pending);
    assert_eq!(
        wait_blocking(&[idle, complete, done], None),
        Poll::Ready(Ok(()))
    );
}

/// Document 01, "Outcomes".
fn errors(s: &Snapshot) -> Result<(), Error> {
    use AcknowledgeCheckFailedReason::{Data, Unknown};
    if s.nack {
        Err(Error::AcknowledgeCheckFailed(Unknown))
    } else if s.arbitration_lost {
        Err(Error::ArbitrationLost)
    } else if s.trans_complete && !s.resp_rec {
        Err(Error::AcknowledgeCheckFailed(Data))
    } else if s.scl_st_to || s.scl_main_st_to || s.time_out {
        Err(Error::Timeout)
    } else {
        Ok(())
    }
}

fn past(s: &Snapshot, due: Option<u64>) -> bool {
    due.is_some_and(|due| s.now > due)
}

fn poll(s: &Snapshot, due: Option<u64>) -> Poll<Result<(), Error>> {
    let done = s.trans_complete || s.end_detect;
    match errors(s) {
        Err(Error::Timeout) if done => Poll::Ready(Ok(())),
        error if done || error.is_err() => Poll::Ready(error),
        _ if past(s, due) => Poll::Ready(Err(Error::Timeout)),
        _ => Poll::Pending,
    }
}

#[test]
fn errors_poll_and_abandoning_are_document_01s() {
    for (snapshot, due) in everything() {
        assert_eq!(check_errors(&snapshot), errors(&snapshot));
        assert_eq!(poll_completion(&snapshot, due), poll(&snapshot, due));
        let resets = matches!(
            poll(&snapshot, due),
            Poll::Pending | Poll::Ready(Err(Error::Timeout))
        );
        assert_eq!(abandon(&snapshot, due), resets);
    }
}

#[test]
fn command_check_stops_at_end_or_stop_and_skips_zeros() {
    let check = |commands, due| all_commands_done(&Snapshot::from_bits(0, commands, NOW), due);
    let mut table = [0; 8];
    assert_eq!(check(table, None), Ok(true));
    table[7] = 0x0901;
    assert_eq!(check(table, None), Ok(false));
    assert_eq!(check(table, Some(999)), Err(Error::ExecutionIncomplete));
    assert_eq!(check(table, Some(1000)), Ok(false));
    table[3] = 0x2000;
    assert_eq!(check(table, None), Ok(true));
    table[3] = 0x1000;
    assert_eq!(check(table, None), Ok(false));
    table[3] = 0x8000_1000;
    assert_eq!(check(table, None), Ok(true));
    table[3] = 1;
    assert_eq!(check(table, None), Ok(false));
}
