//! Prints the driver's outcomes for all 256 combinations of a snapshot's flags.
//!
//! A line: the flags in hex (nack in bit 0 to end_detect in bit 7); the errors;
//! the poll for four deadlines; the command check for two command tables by four
//! deadlines; the whole turn for not yet polled and polled, by table, by deadline.

use std::task::Poll;

use oracle::{Error, Snapshot, all_commands_done, check_errors, classify, letter, poll_completion};

const NOW: u64 = 1000;

/// Never; the clock before it; at it; past it.
const DEADLINES: [Option<u64>; 4] = [None, Some(NOW + 1), Some(NOW), Some(NOW - 1)];

const DONE: [u32; 8] = [0x8000_3000, 0x8000_0902, 0x2000, 0, 0, 0, 0, 0];
const WAITING: [u32; 8] = [0x8000_3000, 0x0902, 0x2000, 0, 0, 0, 0, 0];

fn checked(answer: Result<bool, Error>) -> Poll<Result<(), Error>> {
    match answer {
        Ok(true) => Poll::Ready(Ok(())),
        Ok(false) => Poll::Pending,
        Err(error) => Poll::Ready(Err(error)),
    }
}

fn main() {
    for bits in 0..=255 {
        let done = Snapshot::from_bits(bits, DONE, NOW);
        let waiting = Snapshot::from_bits(bits, WAITING, NOW);

        let mut line = format!("{bits:02x} ");
        line.push(letter(Poll::Ready(check_errors(&done))));
        line.push(' ');
        line.extend(DEADLINES.map(|due| letter(poll_completion(&done, due))));
        line.push(' ');
        for table in [&done, &waiting] {
            line.extend(DEADLINES.map(|due| letter(checked(all_commands_done(table, due)))));
        }
        line.push(' ');
        for polled in [false, true] {
            for table in [&done, &waiting] {
                line.extend(DEADLINES.map(|due| letter(classify(table, polled, due))));
            }
        }
        println!("{line}");
    }
}
