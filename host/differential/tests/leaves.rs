//! The leaf crates against the Rust original.

use differential::{Leaf, Observed, Random, disagreements};

fn assert_agreement(questions: &[Leaf]) {
    let found = disagreements("replay", questions);
    assert!(found.is_empty(), "{}", found.join("\n"));
}

/// Documents say 4,096 bytes at most; a little more than that.
const MOST: usize = 4200;

#[test]
fn pieces_agree_for_every_length() {
    let mut questions: Vec<Leaf> = (0..=MOST).map(Leaf::Piece).collect();
    for n in 1..=MOST {
        questions.push(Leaf::Count(n));
        questions.extend((0..oracle::pieces(n).len()).map(|j| Leaf::Start(n, j)));
    }
    assert_eq!(questions.len(), 295_021);
    assert_agreement(&questions);
}

#[test]
fn reads_are_cut_as_writes_are() {
    for n in 0..=MOST {
        assert_eq!(oracle::pieces(n), oracle::pieces_mut(n));
    }
}

/// The Rust's iterator gives no piece of nothing, and `write_blocking` makes the empty one itself: the one
/// difference on these questions, and so what shows that a disagreement is found.
#[test]
fn no_bytes_are_one_empty_piece() {
    let found = disagreements("replay", &[Leaf::Piece(0), Leaf::Count(0)]);
    assert_eq!(found, ["Count(0): the Rust 0, ours 0000000000000001"]);
}

#[test]
fn words_agree_for_every_command() {
    let counted = (1..=255).flat_map(|count| [Leaf::Word(1, count), Leaf::Word(2, count)]);
    let single = [
        Leaf::Word(0, 0),
        Leaf::Word(3, 1),
        Leaf::Word(4, 0),
        Leaf::Word(5, 0),
    ];
    let questions: Vec<Leaf> = counted.chain(single).collect();
    assert_eq!(questions.len(), 514);
    assert_agreement(&questions);
}

/// Tables on which the walk ends at each slot: all done, one waiting, END first, STOP first, zeros between, an odd word.
const TABLES: [[u32; 8]; 6] = [
    [0x8000_3000, 0x8000_0902, 0x2000, 0, 0, 0, 0, 0],
    [0x8000_3000, 0x0902, 0x2000, 0, 0, 0, 0, 0],
    [0x2000, 0x3000, 0, 0, 0, 0, 0, 0],
    [0x8000_1000, 0x3000, 0, 0, 0, 0, 0, 0],
    [0, 0, 0x8000_3000, 0, 0, 0, 0x1000, 0],
    [1, 0, 0, 0, 0, 0, 0, 0],
];

#[test]
fn outcomes_agree_for_all_bits_and_clock_relations() {
    let mut questions = Vec::new();
    for commands in TABLES {
        for bits in 0..=255 {
            for polled in [false, true] {
                for due in [None, Some(1001), Some(1000), Some(999)] {
                    questions.push(Leaf::Outcome(Observed {
                        bits,
                        polled,
                        now: 1000,
                        due,
                        commands,
                    }));
                }
            }
        }
    }
    assert_eq!(questions.len(), 12_288);
    assert_agreement(&questions);
}

#[test]
fn outcomes_agree_on_a_million_random_tables() {
    let mut random = Random::new(0x51a7_4b1e);
    let questions: Vec<Leaf> = (0..1_000_000)
        .map(|_| Leaf::random_outcome(&mut random))
        .collect();
    assert_agreement(&questions);
}

#[test]
fn received_bytes_agree_up_to_the_fifo() {
    let questions: Vec<Leaf> = (0..=32)
        .flat_map(|wanted| (0..=wanted).map(move |received| Leaf::Received(wanted, received)))
        .collect();
    assert_eq!(questions.len(), 561);
    assert_agreement(&questions);
}
