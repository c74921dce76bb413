//! Deadlines per byte whose sum leaves the range of the clock: 13 with us, and a trap in the Rust after the list was started.

use std::panic::catch_unwind;

use differential::{Question, Transaction, note_compared, run};
use oracle::{Op, Timeout};

/// The last duration at which a list of so many bytes, handed out at this time, is still due in range.
fn last_duration(length: u64, time: u64) -> u64 {
    (u64::MAX - time) / (length + 1)
}

/// Durations around the last, for the first list and for the second.
fn questions() -> Vec<Transaction> {
    let mut questions = Vec::new();
    for length in [0, 1, 2, 31, 32, 62] {
        for start in [0, 1, 1000, u64::MAX / 2, u64::MAX - 100, u64::MAX] {
            for piece in [length.min(29), length.min(31), 1] {
                let last = last_duration(piece, start);
                for duration in [last.saturating_sub(1), last, last.saturating_add(1)] {
                    let write = Op::Write(vec![0; length as usize]);
                    questions.push(Transaction {
                        timeout: Timeout::PerByte(duration),
                        start,
                        ..Transaction::of(&[write, Op::Read(1)])
                    });
                }
            }
        }
    }
    questions
}

#[test]
fn deadlines_out_of_range_are_refused_where_the_rust_traps() {
    let questions = questions();
    let asked: String = questions
        .iter()
        .map(|question| question.line() + "\n")
        .collect();
    let answered = run("drive", &asked);
    assert_eq!(answered.lines().count(), questions.len());
    std::panic::set_hook(Box::new(|_| {}));
    let rust: Vec<Option<u64>> = questions
        .iter()
        .map(|question| catch_unwind(|| question.oracle()).ok())
        .collect();
    let _ = std::panic::take_hook();
    for ((question, rust), ours) in questions.iter().zip(&rust).zip(answered.lines()) {
        match rust {
            Some(answer) => assert_eq!(format!("{answer:016x}"), ours, "{question:?}"),
            None => assert!(ours.starts_with("0d"), "{question:?}: {ours}"),
        }
    }
    let trapped = rust.iter().filter(|answer| answer.is_none()).count();
    assert_eq!((questions.len(), trapped), (6 * 6 * 3 * 3, 180));
    note_compared("drive", questions.len());
}
