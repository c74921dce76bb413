//! What a snapshot means for a list by itself.

use differential::{Leaf, Observed, Question};

use crate::{
    calls::{self, Shown, bytes_of, sitankulo::LIST_REFUSED},
    input::Input,
    lent::must_agree,
};

pub fn run(input: &mut Input<'_>) {
    let [bits, polled, limited, nearby] = input.array();
    let now = input.number();
    let due = match nearby {
        0..0xc0 => now.wrapping_add(u64::from(nearby % 3)).wrapping_sub(1),
        _ => input.number(),
    };
    let commands = input.words();
    let mut shown = Shown {
        bits,
        commands: bytes_of(commands).to_vec(),
        time: now,
    };
    let asked = Leaf::Outcome(Observed {
        bits,
        polled: polled != 0,
        now,
        due: (limited != 0).then_some(due),
        commands,
    });
    // The judge has number, reason and poll from the highest byte down.
    let [_, number, reason, polled_now] = (asked.oracle() as u32).to_be_bytes();
    let expected = u32::from_le_bytes([number, reason, polled_now, 0]);
    let ours = calls::classify(&shown, polled, limited, due);
    must_agree(&asked, ours, expected);
    shown.commands.resize(input.mostly(32), 0);
    if shown.commands.len() != 32 {
        let ours = calls::classify(&shown, polled, limited, due);
        must_agree(&shown, ours, LIST_REFUSED);
    }
}
