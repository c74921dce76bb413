//! An independent reading of document 01, held against the driver on all that
//! both can be asked.

use std::task::Poll;

use oracle::{ClearState::*, Effect::*, *};

const START: u32 = 0x3000;
const STOP: u32 = 0x1000;
const END: u32 = 0x2000;
const WRITE: u32 = 0x0900;
const READ: u32 = 0x1800;
const READ_LAST: u32 = 0x1c01;

const FLAGS: [bool; 2] = [false, true];

/// "STOP if stop; then END unless both start and stop."
fn closed(mut words: Vec<u32>, fifo: Vec<u8>, start: bool, stop: bool) -> List {
    if stop {
        words.push(STOP);
    }
    if !(start && stop) {
        words.push(END);
    }
    words.resize(8, 0);
    List {
        words: words.try_into().unwrap(),
        fifo,
    }
}

/// "Write of n bytes."
fn write_list(address: u8, bytes: &[u8], start: bool, stop: bool) -> Result<List, Error> {
    if bytes.len() > if start { 31 } else { 32 } {
        return Err(Error::FifoExceeded);
    }
    let (mut words, mut fifo) = (vec![], vec![]);
    if start {
        words.push(START);
        fifo.push(address * 2);
    }
    fifo.extend(bytes);
    if !fifo.is_empty() {
        words.push(WRITE + fifo.len() as u32);
    }
    Ok(closed(words, fifo, start, stop))
}

/// "Read of n."
fn read_list(address: u8, n: usize, start: bool, stop: bool, more: bool) -> Result<List, Error> {
    if n == 0 {
        return Err(Error::ZeroLengthInvalid);
    }
    if n > if more { 32 } else { 31 } {
        return Err(Error::FifoExceeded);
    }
    let (mut words, mut fifo) = (vec![], vec![]);
    if start {
        words.extend([START, WRITE + 1]);
        fifo.push(address * 2 + 1);
    }
    if more {
        words.push(READ + n as u32);
    } else {
        words.extend((n > 1).then(|| READ + n as u32 - 1));
        words.push(READ_LAST);
    }
    Ok(closed(words, fifo, start, stop))
}

#[test]
fn write_lists_are_document_01s() {
    let bytes: Vec<u8> = (100..140).collect();
    for address in [0, 0x29, 127] {
        for n in 0..=40 {
            for start in FLAGS {
                for stop in FLAGS {
                    let ours = write_list(address, &bytes[..n], start, stop);
                    let built =
                        start_write_operation(address, &bytes[..n], start, stop, Deadline::None, 0);
                    assert_eq!(built.map(|(list, _due)| list), ours);
                    let step = write_operation(address, &bytes[..n], start, stop);
                    let kept = n > 0 || start || stop;
                    assert_eq!(step, ours.map(|list| kept.then_some(list)));
                }
            }
        }
    }
}

#[test]
fn read_lists_are_document_01s() {
    for address in [0, 0x29, 127] {
        for n in 0..=32 {
            for start in FLAGS {
                for stop in FLAGS {
                    for more in FLAGS {
                        let ours = read_list(address, n, start, stop, more);
                        let none = Deadline::None;
                        let built = start_read_operation(address, n, start, stop, more, none, 0);
                        assert_eq!(built.map(|(list, _due)| list), ours);
                        let step = read_operation(address, n, start, stop, more);
                        let kept = if n == 0 { Ok(None) } else { ours.map(Some) };
                        assert_eq!(step, kept);
                    }
                }
            }
        }
    }
}

/// "With r bytes left: r if r is at most 31; 29 if r is 32 or 33; else 31."
fn cut(mut left: usize) -> Vec<usize> {
    let mut cut = vec![];
    while left > 0 {
        let piece = match left {
            ..=31 => left,
            32 | 33 => 29,
            _ => 31,
        };
        cut.push(piece);
        left -= piece;
    }
    cut
}

/// "Scripts and transactions": the lists of all kept operations.
fn plan(address: u8, operations: &[Op]) -> Vec<List> {
    let kept: Vec<&Op> = operations.iter().filter(|op| **op != Op::Read(0)).collect();
    let is_read = |op: &&Op| matches!(op, Op::Read(_));
    let mut lists = vec![];
    for (i, operation) in kept.iter().enumerate() {
        let before = i.checked_sub(1).map(|i| is_read(&kept[i]));
        let starts = before != Some(is_read(operation));
        let stops = i + 1 == kept.len();
        let continues = kept.get(i + 1).is_some_and(is_read);
        let length = match operation {
            Op::Write(bytes) => bytes.len(),
            Op::Read(length) => *length,
        };
        let pieces = if length == 0 { vec![0] } else { cut(length) };
        let mut at = 0;
        for (j, piece) in pieces.iter().enumerate() {
            let (first, last) = (j == 0, j + 1 == pieces.len());
            let (start, stop) = (starts && first, stops && last);
            match operation {
                Op::Write(_) if *piece == 0 && !start && !stop => {}
                Op::Write(bytes) => {
                    lists.push(write_list(address, &bytes[at..at + piece], start, stop));
                }
                Op::Read(_) => {
                    lists.push(read_list(address, *piece, start, stop, continues || !last));
                }
            }
            at += piece;
        }
    }
    lists.into_iter().map(Result::unwrap).collect()
}

#[test]
fn plans_are_document_01s() {
    let mut state = 7u64;
    let mut below = |bound: u64| {
        state = state.wrapping_mul(6364136223846793005).wrapping_add(1);
        ((state >> 33) % bound) as usize
    };
    for _ in 0..20_000 {
        let operations: Vec<Op> = (0..below(5))
            .map(|_| match (below(2), below(3) * below(36)) {
                (0, length) => Op::Write((0..length as u8).collect()),
                (_, length) => Op::Read(length),
            })
            .collect();
        let mut sent = vec![];
        let trace = transaction(0x29, &operations, &Setup::default(), |place, list| {
            let mut turn = Turn::completed(list, 0);
            turn.received.fill(place as u8);
            sent.extend(&turn.received);
            turn
        });
        assert_eq!(trace.result, Some(Ok(())));
        let lists: Vec<List> = trace.lists.into_iter().map(|handed| handed.list).collect();
        assert_eq!(lists, plan(0x29, &operations));
        assert_eq!(trace.reads.concat(), sent);
    }
}

/// "Bus clear", one poll.
fn clear_step(clear: &mut Clear, now: u64, sda_high: bool) -> (Poll<()>, Vec<Effect>) {
    let pins = clear.pins;
    if clear.state == Idle {
        let ready = !pins || sda_high;
        return (
            if ready {
                Poll::Ready(())
            } else {
                Poll::Pending
            },
            vec![],
        );
    }
    if now < clear.wait {
        return (Poll::Pending, vec![]);
    }
    let acting = clear.state != SendStop;
    let (next, effects) = match clear.state {
        Idle | SendStop => (Idle, vec![Sda(true)]),
        SendClock(0, false) => (SendStop, vec![Sda(false), Scl(true)]),
        SendClock(_, false) if pins && sda_high => (SendStop, vec![Scl(true), Sda(false)]),
        SendClock(n, false) => (SendClock(n - 1, true), vec![Scl(true)]),
        SendClock(n, true) => (SendClock(n, false), vec![Scl(false)]),
    };
    clear.state = next;
    if acting {
        clear.wait = now + 5;
    }
    (Poll::Pending, if pins { effects } else { vec![] })
}

#[test]
fn clear_polls_are_document_01s() {
    let clocks = (0..=255).flat_map(|n| [SendClock(n, false), SendClock(n, true)]);
    for state in [Idle, SendStop].into_iter().chain(clocks) {
        for (wait, now) in [(10, 9), (10, 10), (10, 11), (0, 0), (u64::MAX, 3)] {
            for pins in FLAGS {
                for sda_high in FLAGS {
                    let before = Clear {
                        state,
                        wait,
                        pins,
                        reset_fsm: true,
                    };
                    let (mut ours, mut theirs) = (before, before);
                    let answer = clear_step(&mut ours, now, sda_high);
                    assert_eq!(theirs.poll(now, sda_high), answer);
                    assert_eq!(theirs, ours);
                }
            }
        }
    }
}
