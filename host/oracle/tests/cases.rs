//! Document 01's cases, as far as the Rust has them. Address 29 hex.

use std::task::Poll;

use oracle::*;

const ADDRESS: u8 = 0x29;

/// The lists of a transaction on a bus where everything completes.
fn lists(operations: &[Op]) -> Vec<List> {
    let trace = transaction(ADDRESS, operations, &Setup::default(), |_, list| {
        Turn::completed(list, 0)
    });
    assert_eq!(trace.result, Some(Ok(())));
    trace.lists.into_iter().map(|handed| handed.list).collect()
}

fn list(words: &[u32], fifo: &[u8]) -> List {
    let mut all = [0; 8];
    all[..words.len()].copy_from_slice(words);
    List {
        words: all,
        fifo: fifo.to_vec(),
    }
}

#[test]
fn k1_pieces() {
    for (n, cut) in [
        (1, vec![1]),
        (31, vec![31]),
        (32, vec![29, 3]),
        (33, vec![29, 4]),
        (34, vec![31, 3]),
        (63, vec![31, 29, 3]),
    ] {
        assert_eq!(pieces(n), cut);
        assert_eq!(pieces_mut(n), cut);
    }
}

#[test]
fn k2_write_one_then_read_two() {
    let planned = lists(&[Op::Write(vec![0xa0]), Op::Read(2)]);
    let first = list(&[0x3000, 0x0902, 0x2000], &[0x52, 0xa0]);
    let second = list(&[0x3000, 0x0901, 0x1801, 0x1c01, 0x1000], &[0x53]);
    assert_eq!(planned, [first, second]);
}

#[test]
fn k3_write_limit() {
    let write = |n: usize, start| setup_write(ADDRESS, &vec![0; n], start, false).err();
    assert_eq!(write(31, true), None);
    assert_eq!(write(32, true), Some(Error::FifoExceeded));
    assert_eq!(write(32, false), None);
    assert_eq!(write(33, false), Some(Error::FifoExceeded));
}

#[test]
fn k4_read_limit() {
    let read = |n, will_continue| setup_read(ADDRESS, n, true, false, will_continue).err();
    assert_eq!(read(0, false), Some(Error::ZeroLengthInvalid));
    assert_eq!(read(0, true), Some(Error::ZeroLengthInvalid));
    assert_eq!(read(32, true), None);
    assert_eq!(read(33, true), Some(Error::FifoExceeded));
    assert_eq!(read(31, false), None);
    assert_eq!(read(32, false), Some(Error::FifoExceeded));
}

#[test]
fn k5_lone_empty_write() {
    let planned = lists(&[Op::Write(vec![])]);
    assert_eq!(planned, [list(&[0x3000, 0x0901, 0x1000], &[0x52])]);
}

#[test]
fn k6_empty_read_between_writes() {
    let planned = lists(&[Op::Write(vec![1]), Op::Read(0), Op::Write(vec![2])]);
    let first = list(&[0x3000, 0x0902, 0x2000], &[0x52, 1]);
    let second = list(&[0x0901, 0x1000, 0x2000], &[2]);
    assert_eq!(planned, [first, second]);
}

#[test]
fn k7_empty_write_last() {
    let planned = lists(&[Op::Write(vec![1]), Op::Write(vec![])]);
    assert_eq!(planned[1..], [list(&[0x1000, 0x2000], &[])]);
}

#[test]
fn k8_nack_wins_and_done_with_time_out() {
    let nack = Snapshot {
        nack: true,
        arbitration_lost: true,
        ..Snapshot::default()
    };
    let unknown = Error::AcknowledgeCheckFailed(AcknowledgeCheckFailedReason::Unknown);
    assert_eq!(check_errors(&nack), Err(unknown));

    let late = Snapshot {
        end_detect: true,
        time_out: true,
        ..Snapshot::default()
    };
    assert_eq!(poll_completion(&late, None), Poll::Ready(Ok(())));
    assert_eq!(all_commands_done(&late, None), Err(Error::Timeout));
    assert_eq!(
        classify(&late, false, None),
        Poll::Ready(Err(Error::Timeout))
    );
}

/// Polls a fresh clear at the end of each wait; the polls it acted on and all
/// that it did after being made.
fn clear_with(sda: impl Fn(usize) -> bool) -> (usize, Vec<Effect>) {
    let (mut clear, _fresh) = Clear::fresh(true, false, 0);
    let mut effects = Vec::new();
    let mut polls = 0;
    while clear.state != ClearState::Idle {
        let rises = count(&effects, Effect::Scl(true));
        let (answer, done) = clear.poll(clear.wait, sda(rises + 1));
        assert_eq!(answer, Poll::Pending);
        effects.extend(done);
        polls += 1;
    }
    (polls, effects)
}

fn count(effects: &[Effect], wanted: Effect) -> usize {
    effects.iter().filter(|effect| **effect == wanted).count()
}

#[test]
fn k10_sda_always_low() {
    let (polls, effects) = clear_with(|_rise| false);
    assert_eq!(polls, 20);
    assert_eq!(count(&effects, Effect::Scl(false)), 9);
    assert_eq!(count(&effects, Effect::Scl(true)), 10);
}

#[test]
fn k10_sda_released_at_the_third_rise() {
    let (polls, effects) = clear_with(|rise| rise == 3);
    assert_eq!(polls, 6);
    assert_eq!(count(&effects, Effect::Scl(false)), 2);
    assert_eq!(
        effects[effects.len() - 2..],
        [Effect::Sda(false), Effect::Sda(true)]
    );
}
