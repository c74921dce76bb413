//! Begin, next, complete and abandon in any order, on any record and in any memory. Each call is judged by itself, from the record that it
//! was handed.

use core::fmt::Debug;

use oracle::Handed;

use crate::{
    calls::{Shown, Transaction, bytes_of},
    input::Input,
    lent::{Lent, must_agree, old},
    record::{ALL_FLAGS, FAILED, HAS_DUE, HAS_FIXED, OUTSTANDING, POLLED, Record, SIZE},
    rules::{Done, Rules, Settings},
};

const MOST_CALLS: usize = 24;

#[derive(Clone, Debug)]
enum Call {
    Begin {
        room: usize,
        busy: u8,
        time: u64,
    },
    Next {
        time: u64,
        words: usize,
        fifo: usize,
    },
    Complete {
        shown: Shown,
        received: Vec<u8>,
        room: usize,
    },
    Abandon {
        shown: Shown,
    },
}

pub fn run(input: &mut Input<'_>) {
    let mut record = record(input);
    let settings = settings(input);
    let rules = Rules::new(&settings);
    for _ in 0..MOST_CALLS {
        if input.is_over() {
            return;
        }
        let call = call(input, &rules, &record);
        record = judge(&settings, &rules, &record, &call);
    }
}

fn settings(input: &mut Input<'_>) -> Settings {
    let deadline = match input.byte() {
        known @ 0..0xf0 => known % 3,
        other => other,
    };
    let (duration, address) = (input.number(), input.address());
    let most = input.below(64);
    Settings {
        deadline,
        duration,
        address,
        script: input.script(most),
    }
}

/// What begin leaves; what another call may have left, now and then with a bit changed; or any bytes. In longer or shorter memory too.
fn record(input: &mut Input<'_>) -> Vec<u8> {
    let form = input.byte();
    let mut bytes = match form % 4 {
        0 | 1 => Record::default().bytes(),
        2 => left(input),
        _ => input.array::<SIZE>().to_vec(),
    };
    if form >= 0x80 {
        bytes.resize(input.mostly(SIZE), 0xcc);
    }
    bytes
}

fn left(input: &mut Input<'_>) -> Vec<u8> {
    let among = match input.byte() {
        waits if waits & OUTSTANDING != 0 => waits & !FAILED,
        between => between & !(POLLED | HAS_DUE),
    };
    let flags = among & ALL_FLAGS;
    let mut time = |flag| if flags & flag != 0 { input.number() } else { 0 };
    let [due, fixed] = [HAS_DUE, HAS_FIXED].map(&mut time);
    let place = input.number();
    let mut bytes = Record {
        flags,
        place,
        due,
        fixed,
    }
    .bytes();
    let [changed, bit] = input.array();
    match changed {
        0..0x80 => {}
        0x80..0xc0 => bytes[0] ^= 1 << (bit % 8),
        _ => bytes[usize::from(changed) % SIZE] ^= 1 << (bit % 8),
    }
    bytes
}

fn call(input: &mut Input<'_>, rules: &Rules<'_>, record: &[u8]) -> Call {
    let (total, place) = match &rules.plan {
        Ok(plan) => (plan.total, Record::left_in(record).map(|at| at.place)),
        Err(_) => (0, None),
    };
    let kind = input.byte() % 8;
    let time = input.number();
    match kind {
        0 => Call::Begin {
            room: input.mostly(total),
            busy: input.byte(),
            time,
        },
        1..4 => Call::Next {
            time,
            words: input.mostly(32),
            fifo: input.mostly(32),
        },
        4..7 => {
            let (words, reads) = at(rules, place);
            Call::Complete {
                shown: shown(input, words, time),
                received: received(input, reads),
                room: input.mostly(total),
            }
        }
        _ => {
            let (words, _) = at(rules, place);
            Call::Abandon {
                shown: shown(input, words, time),
            }
        }
    }
}

/// The words of the list at a place, and how many bytes it reads.
fn at(rules: &Rules<'_>, place: Option<u64>) -> ([u32; 8], usize) {
    let plan = rules.plan.as_ref().ok();
    let found = plan.and_then(|plan| plan.at(place?));
    found.map_or(([0; 8], 0), |(handed, _)| {
        (handed.list.words, handed.list.reads())
    })
}

/// The list's words with all commands done, with some done, or any; now and then not 32 bytes.
fn shown(input: &mut Input<'_>, words: [u32; 8], time: u64) -> Shown {
    let (form, bits) = (input.byte(), input.byte());
    let commands = match form % 4 {
        0 | 1 => words.map(|word| word | 1 << 31),
        2 => {
            let done = input.byte();
            core::array::from_fn(|slot| words[slot] | u32::from(done >> slot & 1) << 31)
        }
        _ => input.words(),
    };
    let mut commands = bytes_of(commands).to_vec();
    if form >= 0xe0 {
        commands.resize(input.mostly(32), 0);
    }
    Shown {
        bits: if form & 4 == 0 { 0x60 } else { bits },
        commands,
        time,
    }
}

fn received(input: &mut Input<'_>, reads: usize) -> Vec<u8> {
    let (count, first) = (input.mostly(reads), input.byte());
    (0..count)
        .map(|place| first.wrapping_add(3 * place as u8))
        .collect()
}

/// Makes the call, compares all that it did with what it has to do, and hands back the record that it left.
fn judge(settings: &Settings, rules: &Rules<'_>, record: &[u8], call: &Call) -> Vec<u8> {
    let asked = (settings, record, call);
    let mut lent = Lent::holding(record);
    let mut ours = Transaction {
        record: lent.memory(),
        deadline: settings.deadline,
        duration: settings.duration,
        address: settings.address,
        script: &settings.script,
    };
    let done = match call {
        Call::Begin { room, busy, time } => {
            let done = rules.begin(record.len(), *room, *busy != 0, *time);
            must_agree(&asked, ours.begin(*room, *busy, *time), done.answer);
            done
        }
        Call::Next { time, words, fifo } => {
            let done = rules.next(record, *time, *words, *fifo);
            judge_next(&asked, &mut ours, *time, [*words, *fifo], &done);
            done
        }
        Call::Complete {
            shown,
            received,
            room,
        } => {
            let done = rules.complete(record, shown, received, *room);
            let mut buffer = Lent::of(*room);
            let answer = ours.complete(shown, received, buffer.memory());
            must_agree(&asked, answer, done.answer);
            buffer.must_be(&asked, "the read buffer", &landed(&done, *room));
            done
        }
        Call::Abandon { shown } => {
            let done = rules.abandon(record, shown);
            must_agree(&asked, ours.abandon(shown), done.answer);
            done
        }
    };
    let left = laid_over(record, done.record);
    lent.must_be(&asked, "the record", &left);
    left
}

fn judge_next(
    asked: &dyn Debug,
    ours: &mut Transaction<'_>,
    time: u64,
    rooms: [usize; 2],
    done: &Done<'_>,
) {
    let [mut words, mut fifo] = rooms.map(Lent::of);
    let answer = ours.next(time, words.memory(), fifo.memory());
    must_agree(asked, answer, done.answer);
    match done.handed {
        Some(Handed { list, .. }) => {
            words.must_hold(asked, "the words", &bytes_of(list.words));
            fifo.must_hold(asked, "the FIFO", &list.fifo);
        }
        None => {
            words.must_hold(asked, "the words", &[]);
            fifo.must_hold(asked, "the FIFO", &[]);
        }
    }
}

/// What the memory holds with a record laid over it, if one is written.
fn laid_over(memory: &[u8], record: Option<Record>) -> Vec<u8> {
    match record {
        Some(record) => [&record.bytes()[..], &memory[SIZE..]].concat(),
        None => memory.to_vec(),
    }
}

fn landed(done: &Done<'_>, room: usize) -> Vec<u8> {
    let mut buffer = old(room);
    if let Some((offset, bytes)) = &done.landed {
        buffer[*offset..offset + bytes.len()].copy_from_slice(bytes);
    }
    buffer
}
