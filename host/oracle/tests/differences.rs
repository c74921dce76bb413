//! Where the Rust and document 01 differ, by intention: what the Rust does, on
//! the smallest input that tells.

use std::{
    panic::{AssertUnwindSafe, catch_unwind},
    task::Poll,
};

use oracle::*;

fn traps<R>(run: impl FnOnce() -> R) -> bool {
    catch_unwind(AssertUnwindSafe(run)).is_err()
}

fn completes(_place: usize, list: &List) -> Turn {
    Turn::completed(list, 0)
}

/// Document 01: wait = now.
#[test]
fn fresh_clear_waits_five_microseconds() {
    let (mut clear, _) = Clear::fresh(true, false, 0);
    assert_eq!(clear.wait, 5);
    assert_eq!(clear.poll(4, false), (Poll::Pending, vec![]));
    assert_eq!(
        clear.poll(5, false),
        (Poll::Pending, vec![Effect::Scl(true)])
    );
}

/// Document 01: SCL low, then SDA released.
#[test]
fn fresh_clear_moves_sda_before_scl() {
    let (_, effects) = Clear::fresh(true, false, 0);
    assert_eq!(effects, [Effect::Sda(true), Effect::Scl(false)]);
}

/// Document 01: without pins, nothing.
#[test]
fn fresh_clear_without_pins_resets_if_asked() {
    let (clear, effects) = Clear::fresh(false, true, 0);
    assert_eq!(effects, [Effect::Reset]);
    assert!(!clear.reset_fsm);
    assert_eq!(clear.end(), []);
}

/// Document 01: the first n are taken.
#[test]
fn more_received_than_asked_traps() {
    assert!(traps(|| read_all_from_fifo(1, &[7, 8])));
    assert!(traps(|| read_all_from_fifo(0, &[7])));
    assert!(!traps(|| read_all_from_fifo(1, &[7])));
}

/// Document 01: FifoExceeded.
#[test]
fn read_of_33_in_one_operation_traps() {
    let read = |n| read_operation(1, n, true, false, true);
    assert!(traps(|| read(33)));
    assert!(matches!(read(32), Ok(Some(_))));
    assert_eq!(
        setup_read(1, 33, true, false, true),
        Err(Error::FifoExceeded)
    );
}

/// Document 01: ClockRange, and the state unchanged.
#[test]
fn fixed_deadline_that_overflows_traps() {
    let begin = |now, micros| {
        let setup = Setup {
            timeout: Timeout::Transaction(micros),
            now,
            ..Setup::default()
        };
        transaction(1, &[], &setup, completes)
    };
    assert!(traps(|| begin(1, u64::MAX)));
    assert!(!traps(|| begin(0, u64::MAX)));
}

/// Document 01: ClockRange, and no list.
#[test]
fn deadline_per_byte_that_overflows_traps_after_the_list_is_started() {
    let mut started = 0;
    let setup = Setup {
        timeout: Timeout::PerByte(u64::MAX),
        ..Setup::default()
    };
    assert!(traps(|| {
        transaction(1, &[Op::Write(vec![1])], &setup, |place, list| {
            started += 1;
            completes(place, list)
        })
    }));
    assert_eq!(started, 1);

    let due =
        |micros, now| start_write_operation(1, &[1], true, true, Deadline::PerByte(micros), now);
    assert!(traps(|| due(u64::MAX / 2 + 1, 0)));
    assert!(traps(|| due(1, u64::MAX - 1)));
    assert_eq!(due(1, u64::MAX - 2).unwrap().1, Some(u64::MAX));
}

/// Document 01: ClockRange, and the state unchanged.
#[test]
fn clear_wait_that_overflows_traps() {
    let mut clear = Clear {
        state: ClearState::SendClock(1, true),
        wait: 0,
        pins: true,
        reset_fsm: false,
    };
    assert!(traps(|| clear.poll(u64::MAX - 4, false)));
    assert!(!traps(|| clear.poll(u64::MAX - 5, false)));
    assert!(traps(|| Clear::fresh(true, false, u64::MAX - 4)));
    assert!(!traps(|| Clear::fresh(false, false, u64::MAX)));
}

/// Document 01: from the clock at acceptance.
#[test]
fn fixed_deadline_is_read_after_the_bus_clear() {
    let setup = Setup {
        timeout: Timeout::Transaction(1000),
        bus_busy: true,
        now: 0,
        clear: vec![Sample {
            now: 7,
            sda_high: true,
        }],
        ..Setup::default()
    };
    let trace = transaction(1, &[Op::Write(vec![1])], &setup, completes);
    assert_eq!(trace.lists[0].due, Some(1007));
}

/// Document 01: the builder gives AddressInvalid.
#[test]
fn setup_does_not_validate_the_address() {
    assert_eq!(setup_write(128, &[], true, true).unwrap().fifo, [0]);
    assert_eq!(setup_read(128, 1, true, true, false).unwrap().fifo, [1]);
    let started = start_write_operation(255, &[], true, true, Deadline::None, 0);
    assert_eq!(started.unwrap().0.fifo, [254]);
}

/// Document 01: a clock behind its start has elapsed 0. `Instant` is in no given
/// file: that its differences trap is the mock's choice, as with its sums.
#[test]
fn clear_loop_traps_on_a_clock_that_goes_back() {
    let back = Sample {
        now: 9,
        sda_high: false,
    };
    assert!(traps(|| clear_bus_blocking(true, false, 10, 100, &[back])));
}

/// Document 01: a run has a number of polls that it may take.
#[test]
fn clear_loop_has_no_budget() {
    let low = Sample {
        now: 0,
        sda_high: false,
    };
    let run = clear_bus_blocking(true, false, 0, 0, &vec![low; 100_000]);
    assert_eq!((run.ending, run.polls), (Ending::TapeOver, 100_000));
}

/// Document 01: Unknown in the base, as here. Chips that can tell say Address or Data.
#[test]
fn nack_reason_is_unknown_in_the_base_variant() {
    let unknown = Error::AcknowledgeCheckFailed(AcknowledgeCheckFailedReason::Unknown);
    for others in 0..128 {
        let nack = Snapshot::from_bits(others << 1 | 1, [0; 8], 0);
        assert_eq!(check_errors(&nack), Err(unknown));
    }
}

/// Document 01: pending, once for each snapshot.
#[test]
fn waits_loop_until_there_is_an_answer() {
    let idle = Snapshot::default();
    let done = Snapshot::from_bits(0xa0, [0; 8], 0);
    let mut snapshots = vec![idle; 1000];
    assert_eq!(wait_blocking(&snapshots, None), Poll::Pending);
    snapshots.push(done);
    assert_eq!(wait_blocking(&snapshots, None), Poll::Ready(Ok(())));
}

/// Document 01: no list, nothing else.
#[test]
fn skipped_empty_operations_reset_the_registers() {
    let before = List {
        words: [0x3000; 8],
        fifo: vec![1, 2, 3],
    };
    let reset = Left {
        list: List {
            words: [0; 8],
            fifo: vec![],
        },
        interrupts_cleared: true,
    };
    assert_eq!(left_by_empty_write(&before), reset);
    assert_eq!(left_by_empty_read(&before), reset);
}

/// Document 01: only the levels of the pins are listed.
#[test]
fn clear_disconnects_the_pins_and_connects_them_again() {
    let run = clear_bus_blocking(true, false, 0, 100, &[]);
    assert_eq!(run.wiring, [false, false, true, true]);
    let bare = clear_bus_blocking(false, false, 0, 100, &[]);
    assert_eq!(bare.wiring, []);
}

/// Document 01 has no such refusal: no list has more than five commands.
#[test]
fn command_number_exceeded_is_never_reached() {
    let flags = |i: usize| [i & 1 == 1, i & 2 == 2, i & 4 == 4];
    let mut longest = 0;
    for n in 0..=32 {
        for [start, stop, will_continue] in (0..8).map(flags) {
            let write = start_write_operation(1, &vec![0; n], start, stop, Deadline::None, 0);
            let read = start_read_operation(1, n, start, stop, will_continue, Deadline::None, 0);
            for answer in [write, read] {
                assert_ne!(answer, Err(Error::CommandNumberExceeded));
                let commands =
                    |(list, _): (List, _)| list.words.iter().filter(|w| **w != 0).count();
                longest = longest.max(answer.map_or(0, commands));
            }
        }
    }
    assert_eq!(longest, 5);
}

/// Document 01: a call of its own.
#[test]
fn abandoning_is_a_dropped_wait() {
    let past = Snapshot {
        now: 1,
        ..Snapshot::default()
    };
    assert!(abandon(&past, None));
    assert!(abandon(&past, Some(0)));
    let done_and_late = Snapshot::from_bits(0x90, [0; 8], 1);
    assert!(!abandon(&done_and_late, Some(0)));
    let nack = Snapshot::from_bits(1, [0; 8], 1);
    assert!(!abandon(&nack, Some(0)));
}
