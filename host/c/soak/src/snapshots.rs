//! Snapshots through `sitankulo_classify`.

use differential::Observed;

use crate::calls::{self, Shown};

/// The answer to the question, by ours: the number, the reason and whether the poll has succeeded by now.
pub fn ours(asked: &Observed) -> u64 {
    let shown = Shown {
        bits: asked.bits,
        commands: calls::bytes_of(asked.commands).to_vec(),
        time: asked.now,
    };
    let (limited, due) = (asked.due.is_some(), asked.due.unwrap_or(0));
    let answer = calls::classify(&shown, asked.polled.into(), limited.into(), due);
    let answer = u64::from(answer);
    let [number, reason, polled] = [answer & 0xff, answer >> 8 & 0xff, answer >> 16];
    number << 16 | reason << 8 | polled
}
