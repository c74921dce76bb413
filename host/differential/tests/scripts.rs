//! Which scripts are refused, and by which number, against a checker that was written from document 01 alone.

use differential::{
    Question, Random, Starts, Transaction, disagreements, operations, read_total, with_body,
    written,
};
use oracle::{Op, Timeout};

fn assert_agreement(questions: &[impl Question]) {
    let found = disagreements("drive", questions);
    assert!(found.is_empty(), "{}", found.join("\n"));
}

#[test]
fn scripts_of_up_to_two_bytes_agree() {
    let none = [vec![]].into_iter();
    let one = (0..=255).map(|byte| vec![byte]);
    let two = (0..=u16::MAX).map(|bytes| bytes.to_be_bytes().to_vec());
    let asked = |script| Transaction {
        script,
        ..Transaction::default()
    };
    let questions: Vec<Transaction> = none.chain(one).chain(two).map(asked).collect();
    assert_eq!(questions.len(), 1 + 256 + 65_536);
    assert_agreement(&questions);
}

/// `drive` goes by itself through the 65,536 scripts that start with a byte: 16,777,216 in all.
#[test]
fn scripts_of_three_bytes_agree() {
    let questions: Vec<Starts> = (0..=255).map(Starts).collect();
    assert_eq!(questions.len(), 256);
    assert_agreement(&questions);
}

/// Copies with one byte changed, cut off at each place, with a byte too many; and with the body so damaged, but the field right.
fn damaged(script: &[u8]) -> Vec<Vec<u8>> {
    let mut copies = Vec::new();
    for place in 0..script.len() {
        let others = (0..=255).filter(|byte| *byte != script[place]);
        copies.extend(others.map(|byte| {
            let mut copy = script.to_vec();
            copy[place] = byte;
            copy
        }));
    }
    let body = &script[3..];
    copies.extend((0..script.len()).map(|length| script[..length].to_vec()));
    copies.extend((0..body.len()).map(|length| with_body(&body[..length])));
    for byte in 0..=255 {
        copies.push([script, &[byte]].concat());
        copies.push(with_body(&[body, &[byte]].concat()));
    }
    copies
}

/// At the last valid address and at the first that is not, with just enough room for what the good script reads and one
/// byte less, with and without a fixed deadline that is out of range.
fn asked(script: &[u8], read_total: usize) -> Vec<Transaction> {
    let mut questions = Vec::new();
    for address in [127, 128] {
        for room in [read_total, read_total.saturating_sub(1)] {
            for timeout in [Timeout::None, Timeout::Transaction(u64::MAX)] {
                questions.push(Transaction {
                    address,
                    room,
                    timeout,
                    start: 1,
                    script: script.to_vec(),
                    ..Transaction::default()
                });
            }
        }
    }
    questions
}

/// Document 01's K2, K5, K6 and K7, the script of nothing, and some drawn at random.
fn good() -> Vec<Vec<Op>> {
    let write = |byte| Op::Write(vec![byte]);
    let mut scripts = vec![
        vec![write(0xa0), Op::Read(2)],
        vec![Op::Write(vec![])],
        vec![write(1), Op::Read(0), write(2)],
        vec![write(1), Op::Write(vec![])],
        vec![],
    ];
    let mut random = Random::new(0xda4a_6ed5);
    scripts.extend((0..10).map(|_| {
        let drawn = |random: &mut Random| match random.below(2) {
            0 => Op::Read(random.below(6) as usize),
            _ => Op::Write((0..random.below(4)).map(|byte| byte as u8).collect()),
        };
        (0..1 + random.below(3))
            .map(|_| drawn(&mut random))
            .collect()
    }));
    scripts
}

#[test]
fn damaged_scripts_agree() {
    let mut questions = Vec::new();
    for operations in good() {
        let script = written(&operations);
        let total = read_total(&operations);
        for copy in damaged(&script).iter().chain([&script]) {
            questions.extend(asked(copy, total));
        }
    }
    assert_eq!(questions.len(), 361_376);
    assert_agreement(&questions);
}

/// Bodies and read totals at their limits and one above.
#[test]
fn limits_agree() {
    let body = |length: usize| vec![Op::Write(vec![7; length - 3])];
    let reads = |lengths: &[usize]| lengths.iter().copied().map(Op::Read).collect();
    let scripts: [Vec<Op>; 10] = [
        body(4095),
        body(4096),
        body(4097),
        reads(&[4096]),
        reads(&[4097]),
        reads(&[4000, 96]),
        reads(&[4000, 97]),
        reads(&[65535]),
        reads(&[65535, 65535]),
        reads(&[1; 1365]),
    ];
    let mut questions = Vec::new();
    for operations in scripts {
        let script = written(&operations);
        let total = read_total(&operations).min(4096);
        questions.extend(asked(&script, total));
        // Another record of no bytes, and one byte more than a record.
        questions.extend(asked(&[&script[..], &[0, 0, 0]].concat(), total));
        questions.extend(asked(
            &with_body(&[&script[3..], &[0, 0, 1]].concat()),
            total,
        ));
        questions.extend(asked(&with_body(&[&script[3..], &[0]].concat()), total));
    }
    assert_eq!(questions.len(), 10 * 4 * 8);
    assert_agreement(&questions);
}

#[test]
fn addresses_agree() {
    let operations = [Op::Write(vec![0xa0]), Op::Read(2)];
    let odd = [0x129, 0x8000_0029, 0xffff_ffff];
    let questions: Vec<Transaction> = (0..256)
        .chain(odd)
        .map(|address| Transaction {
            address,
            ..Transaction::of(&operations)
        })
        .collect();
    assert_eq!(questions.len(), 259);
    assert_agreement(&questions);
}

/// The checker reads back what is written, and refuses each way for its own reason.
#[test]
fn checker_reads_what_is_written() {
    for script in good() {
        assert_eq!(operations(0, &written(&script)), Ok(script));
    }
    assert_eq!(operations(128, &[]), Err(1));
    assert_eq!(operations(0, &[2]), Err(5));
    assert_eq!(operations(0, &[2, 255, 255]), Err(4));
    assert_eq!(operations(0, &[1, 16, 1]), Err(6));
    assert_eq!(operations(0, &[1, 16, 0]), Err(5));
    assert_eq!(operations(0, &[1, 0, 3, 0, 0, 2]), Err(5));
    assert_eq!(operations(0, &[1, 0, 3, 16, 1, 1]), Err(6));
}
