//! The inspector and the controller model on any words, FIFO bytes and phase, against a model of document 01's rules.

use crate::{
    calls::{
        bytes_of,
        sitankulo::{LIST_REFUSED, ROOM, STUCK},
    },
    input::Input,
    lent::{Lent, must_agree},
    model,
    other_calls::{Loaded, Sensor, inspect, model_run},
};

const WORDS: usize = 32;

pub fn run(input: &mut Input<'_>) {
    let phase = match input.byte() {
        known @ 0..0xf0 => u32::from(known) % 5,
        _ => u32::from_be_bytes(input.array()),
    };
    let mut words = bytes_of(input.words()).to_vec();
    let [fifo_length, sends_length] = [input.below(40), input.below(40)];
    let fifo = input.filled(fifo_length);
    let sensor = Sensor {
        sends: input.filled(sends_length),
        refuses: input.number() as usize,
    };
    words.resize(input.mostly(WORDS), 0);
    let less = [input.mostly(0), input.mostly(0)];
    let list = Loaded { words, fifo, phase };
    judge_inspector(&list);
    judge_model(&list, &sensor, less);
}

/// It passes what runs to its end against a sensor that acknowledges all, and ours never gets stuck on what it passes.
fn judge_inspector(list: &Loaded) {
    let willing = Sensor {
        sends: vec![],
        refuses: 0,
    };
    let expected = match model::run(list, &willing) {
        _ if list.words.len() != WORDS => LIST_REFUSED,
        (STUCK, _) => LIST_REFUSED,
        (finished, _) => finished,
    };
    must_agree(&list, inspect(list), expected);
}

/// With so much less room for received bytes and events than they need.
fn judge_model(list: &Loaded, sensor: &Sensor, less: [usize; 2]) {
    let asked = (list, sensor, less);
    let (ending, ran) = model::run(list, sensor);
    let needed = [ran.received.len(), 2 * ran.events.len()];
    let rooms = [0, 1].map(|which| needed[which].saturating_sub(less[which]));
    let [mut received, mut events] = rooms.map(Lent::of);
    let ours = model_run(list, sensor, received.memory(), events.memory());
    if list.words.len() == WORDS && rooms == needed {
        let counts = (ran.received.len() << 16 | ran.events.len() << 24) as u32;
        must_agree(&asked, ours, ending | counts);
        received.must_hold(&asked, "the received bytes", &ran.received);
        events.must_hold(&asked, "the events", ran.events.as_flattened());
    } else {
        let refusal = if list.words.len() == WORDS {
            ROOM
        } else {
            LIST_REFUSED
        };
        must_agree(&asked, ours, refusal);
        received.must_hold(&asked, "the received bytes", &[]);
        events.must_hold(&asked, "the events", &[]);
    }
}
