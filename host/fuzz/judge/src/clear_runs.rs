//! Runs of the bus clear over tapes, poll by poll by the Rust.

use oracle::{Clear, Effect};

use crate::{
    calls::{
        self, Terms,
        sitankulo::{CLOCK_ENDED, GIVEN_UP, ROOM, SHAPE, SPENT, TAPE_OVER},
    },
    clears::{change, laid_over, left_in, poll},
    input::Input,
    lent::{Lent, must_agree},
};

const REPORT: usize = 17;

const MOST_SAMPLES: usize = 96;

#[derive(Debug)]
struct Asked<'a> {
    clear: &'a [u8],
    terms: Terms,
    clocks: Vec<u64>,
    levels: Vec<u8>,
}

struct Ran {
    ending: u32,
    polls: usize,
    changes: Vec<u8>,
    resets: bool,
}

pub fn run(input: &mut Input<'_>, clear: &[u8]) {
    let terms = Terms {
        pins: input.byte(),
        reset: input.byte(),
        start: input.number(),
        limit: input.number(),
        budget: match input.byte() {
            few @ 0..0x80 => few.into(),
            _ => usize::MAX,
        },
    };
    let (cut, report_room, less) = (input.byte(), input.mostly(REPORT), input.mostly(0));
    let (mut clocks, mut levels) = tape(input);
    let few = usize::from(cut & 0xf);
    match cut {
        0..0xe0 => {}
        0xe0..0xf0 => clocks.truncate(few),
        _ => levels.truncate(few),
    }
    let asked = Asked {
        clear,
        terms,
        clocks,
        levels,
    };
    judge(&asked, less, report_room);
}

fn tape(input: &mut Input<'_>) -> (Vec<u64>, Vec<u8>) {
    let (mut clocks, mut levels) = (vec![], vec![]);
    let mut now = input.number();
    while !input.is_over() && clocks.len() < MOST_SAMPLES {
        let sample = input.byte();
        now = match sample {
            0..0xf8 => now.wrapping_add(u64::from(sample >> 2) % 12),
            _ => input.number(),
        };
        clocks.push(now);
        levels.push([0, 0, 1, 0x80][usize::from(sample % 4)]);
    }
    (clocks, levels)
}

/// Document 01, "A run over a tape". The tape is over where either of its halves is.
fn ran(clear: &mut Clear, asked: &Asked<'_>) -> Ran {
    let terms = &asked.terms;
    let (mut polls, mut changes) = (0, vec![]);
    let ending = loop {
        if polls == terms.budget {
            break SPENT;
        }
        let (Some(now), Some(sda)) = (asked.clocks.get(polls), asked.levels.get(polls)) else {
            break TAPE_OVER;
        };
        let Some((free, made)) = poll(clear, *now, *sda != 0) else {
            break CLOCK_ENDED;
        };
        changes.extend(made);
        polls += 1;
        if free {
            break 0;
        }
        if now.saturating_sub(terms.start) > terms.limit {
            break GIVEN_UP;
        }
    };
    // Without pins the Rust has reset at once, which ours leaves out.
    let released = if clear.pins { clear.end() } else { vec![] };
    changes.extend(released.iter().filter_map(change));
    Ran {
        ending,
        polls,
        changes,
        resets: released.contains(&Effect::Reset),
    }
}

/// With so much less room for the pin changes than they need.
fn judge(asked: &Asked<'_>, less: usize, report_room: usize) {
    let terms = &asked.terms;
    let mut clear = left_in(asked.clear, terms.pins != 0, terms.reset != 0);
    let ran = clear.as_mut().map(|clear| ran(clear, asked));
    let needed = ran.as_ref().map_or(0, |ran| ran.changes.len());
    let room = needed.saturating_sub(less);
    let mut lent = Lent::holding(asked.clear);
    let [mut changes, mut report] = [room, report_room].map(Lent::of);
    let ours = calls::clear_run(
        lent.memory(),
        terms,
        &asked.clocks,
        &asked.levels,
        changes.memory(),
        report.memory(),
    );
    match (ran, clear) {
        (Some(ran), Some(clear)) if room == needed && report_room >= REPORT => {
            must_agree(asked, ours, ran.ending);
            lent.must_be(asked, "the clear", &laid_over(asked.clear, &clear));
            changes.must_hold(asked, "the changes", &ran.changes);
            report.must_hold(asked, "the report", &reported(&ran));
        }
        (ran, _) => {
            must_agree(asked, ours, if ran.is_some() { ROOM } else { SHAPE });
            lent.must_be(asked, "the clear", asked.clear);
            changes.must_hold(asked, "the changes", &[]);
            report.must_hold(asked, "the report", &[]);
        }
    }
}

fn reported(ran: &Ran) -> Vec<u8> {
    let counts = [ran.polls, ran.changes.len()].map(|count| (count as u64).to_be_bytes());
    [&counts.concat()[..], &[ran.resets.into()]].concat()
}
