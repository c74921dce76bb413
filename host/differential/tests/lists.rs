//! The builder's lists and the operation steps against the Rust original.

use differential::{ListQuestion, PARTS, disagreements};

/// Every length from 0 to 40 with every flag, at the ends of the range of addresses, at the cases' and at invalid ones:
/// the answer, each word, the count and each FIFO byte.
#[test]
fn lists_agree_for_every_length_and_flag() {
    let questions = ListQuestion::all(0..=40, &[0, 1, 0x29, 126, 127, 128, 255]);
    // 41 lengths, 7 addresses, 3 kinds by 8 flags; reads of 33 to 40 in one step trap at the 5 valid addresses.
    assert_eq!(questions.len(), (41 * 7 * 24 - 8 * 5 * 8) * PARTS);
    let found = disagreements("replay", &questions);
    assert!(found.is_empty(), "{}", found.join("\n"));
}
