//! Whole transactions against the Rust original's `transaction_impl`: lists, FIFO bytes, deadlines, outcomes, read buffer.

use std::collections::BTreeMap;

use differential::{
    Moment, Odd, Question, Random, Short, Transaction, disagreements, note_compared, run,
};
use oracle::{Op, Timeout};

fn assert_agreement(questions: &[Transaction]) {
    let found = disagreements("drive", questions);
    assert!(found.is_empty(), "{}", found.join("\n"));
}

/// A write's bytes: any that tell one place from another.
fn write(length: usize) -> Op {
    Op::Write(
        (0..length)
            .map(|place| (place * 5 + place / 251 + 9) as u8)
            .collect(),
    )
}

/// Reads and writes of the lengths around which pieces and FIFO matter.
fn operations() -> Vec<Op> {
    let lengths = (0..=2).chain(28..=35).chain(61..=66);
    lengths
        .flat_map(|length| [Op::Read(length), write(length)])
        .collect()
}

/// Every deadline kind in turn, so that due times are compared too.
fn timed(place: usize, question: Transaction) -> Transaction {
    let timeouts = [
        Timeout::None,
        Timeout::Transaction(5000),
        Timeout::PerByte(70),
    ];
    Transaction {
        timeout: timeouts[place % 3],
        start: 1000,
        step: 3,
        seed: place as u8,
        ..question
    }
}

fn asked(operations: impl Iterator<Item = Vec<Op>>) -> Vec<Transaction> {
    operations
        .enumerate()
        .map(|(place, operations)| timed(place, Transaction::of(&operations)))
        .collect()
}

#[test]
fn pairs_agree() {
    let all = operations();
    let pairs = all
        .iter()
        .flat_map(|a| all.iter().map(|b| vec![a.clone(), b.clone()]));
    let questions = asked(pairs);
    assert_eq!(questions.len(), 34 * 34);
    assert_agreement(&questions);
}

#[test]
fn triples_agree() {
    let all = operations();
    let triples = all.iter().flat_map(|a| {
        let all = &all;
        all.iter()
            .flat_map(move |b| all.iter().map(|c| vec![a.clone(), b.clone(), c.clone()]))
    });
    let questions = asked(triples);
    assert_eq!(questions.len(), 39_304);
    assert_agreement(&questions);
}

/// A body holds a write record of 4,093 bytes at most; longer ones are refused, by 6.
#[test]
fn single_operations_agree_up_to_4096() {
    let reads = asked((0..=4096).map(|length| vec![Op::Read(length)]));
    let writes = asked((0..=4096).map(|length| vec![write(length)]));
    assert_eq!((reads.len(), writes.len()), (4097, 4097));
    assert_agreement(&reads);
    assert_agreement(&writes);
}

#[test]
fn a_million_random_scripts_agree() {
    let mut random = Random::new(0x7a45_ac71);
    let mut compared = 0;
    for _ in 0..10 {
        let questions: Vec<Transaction> = (0..100_000)
            .map(|_| Transaction::random(&mut random))
            .collect();
        assert_agreement(&questions);
        compared += questions.len();
    }
    assert_eq!(compared, 1_000_000);
}

#[test]
fn random_scripts_that_are_full_agree() {
    let mut random = Random::new(0xf011_5c41);
    let questions: Vec<Transaction> = (0..300)
        .map(|_| Transaction::random_full(&mut random))
        .collect();
    assert_eq!(questions.len(), 300);
    assert_agreement(&questions);
}

/// The numbers and reasons of last answers: given up without and with a reset, each error, none left.
#[test]
fn random_scripts_end_in_every_way() {
    let mut random = Random::new(0x7a45_ac71);
    let mut ends = BTreeMap::new();
    for _ in 0..10_000 {
        let answer = Transaction::random(&mut random).oracle();
        *ends.entry((answer >> 56, answer >> 52 & 0xf)).or_insert(0) += 1;
    }
    let ways = [
        (0, 0),
        (8, 0),
        (9, 2),
        (9, 3),
        (10, 0),
        (11, 0),
        (253, 0),
        (254, 0),
    ];
    assert!(ends.keys().copied().eq(ways), "{ends:?}");
    assert!(ends.values().all(|times| *times >= 20), "{ends:?}");
}

/// Document 01's K2: a write of one byte and a read of two, in two lists.
fn write_then_read() -> Transaction {
    Transaction {
        start: 1000,
        step: 10,
        ..Transaction::of(&[Op::Write(vec![0xa0]), Op::Read(2)])
    }
}

/// No deadline; due before, at and after the first snapshot of the first list and of the second.
fn timeouts() -> Vec<Timeout> {
    let fixed = [89, 90, 91, 169, 170, 171].map(Timeout::Transaction);
    let per_byte = [2, 3, 4, 5, 6].map(Timeout::PerByte);
    [&[Timeout::None], &fixed[..], &per_byte[..]].concat()
}

const FIRST: Moment = Moment {
    list: 1,
    snapshot: 1,
};

const SECOND: Moment = Moment {
    list: 2,
    snapshot: 1,
};

/// Every combination of a snapshot's bits, all commands done or one of them not, at the first list and at the second.
#[test]
fn every_snapshot_agrees_at_either_list() {
    let mut questions = Vec::new();
    for timeout in timeouts() {
        for moment in [FIRST, SECOND] {
            for done in [0xff, 0xfe, 0xfd, 0xfb, 0xf7, 0xef, 0] {
                questions.extend((0..=255).map(|bits| Transaction {
                    timeout,
                    odd: vec![Odd { moment, bits, done }],
                    ..write_then_read()
                }));
            }
        }
    }
    assert_eq!(questions.len(), 12 * 2 * 7 * 256);
    assert_agreement(&questions);
}

/// Given up at once; after a pending snapshot; after one whose poll succeeded while a command was not done.
#[test]
fn abandoning_agrees_on_every_snapshot() {
    let waits = [vec![], vec![(0x20, 0)], vec![(0xa0, 1)]];
    let mut questions = Vec::new();
    for timeout in timeouts() {
        for list in [1, 2] {
            for wait in &waits {
                questions.extend((0..=255).map(|bits| {
                    let moment = |snapshot| Moment { list, snapshot };
                    let last = moment(wait.len() + 1);
                    let shown = wait.iter().copied().chain([(bits, 0)]).enumerate();
                    Transaction {
                        timeout,
                        abandon: Some(last),
                        odd: shown
                            .map(|(place, (bits, done))| Odd {
                                moment: moment(place + 1),
                                bits,
                                done,
                            })
                            .collect(),
                        ..write_then_read()
                    }
                }));
            }
        }
    }
    assert_eq!(questions.len(), 12 * 2 * 3 * 256);
    assert_agreement(&questions);
}

/// Reads whose first, second or third list has some bytes missing, or all.
#[test]
fn missing_bytes_agree() {
    let mut questions = Vec::new();
    for length in 1..=66 {
        for list in 1..=3 {
            questions.extend((1..=32).map(|missing| Transaction {
                short: Some(Short { list, missing }),
                ..Transaction::of(&[Op::Read(length), write(1)])
            }));
        }
    }
    assert_eq!(questions.len(), 66 * 3 * 32);
    assert_agreement(&questions);
}

/// The whole of what both sides tell, number by number, rather than a digest of it.
#[test]
fn transactions_agree_in_full() {
    let mut random = Random::new(0x0f01_1b0d);
    let drawn = (0..1000).map(|_| Transaction::random(&mut random));
    let questions: Vec<Transaction> = drawn.chain([write_then_read()]).collect();
    let asked: String = questions
        .iter()
        .map(|question| question.line_in(1) + "\n")
        .collect();
    let answered = run("drive", &asked);
    assert_eq!(answered.lines().count(), 1001);
    for (question, answer) in questions.iter().zip(answered.lines()) {
        assert_eq!(question.in_full(), answer, "{question:?}");
    }
    note_compared("drive", questions.len());
}
