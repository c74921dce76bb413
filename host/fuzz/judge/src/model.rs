//! A list on the controller, from the words of document 01, "Inspector and controller model". The Rust original has none.

use crate::{
    calls::sitankulo::{STUCK, UNANSWERED},
    other_calls::{Loaded, Sensor},
};

const IDLE: u32 = 0;
const STARTED: u32 = 1;
const WRITING: u32 = 2;
const READING: u32 = 3;
const READ_DONE: u32 = 4;

/// No more FIFO bytes are given to a list, and no more are received in one.
const FIFO: usize = 32;

#[derive(Debug, Default)]
pub struct Ran {
    pub received: Vec<u8>,
    /// Two bytes each: 0 START; 1 STOP; 2 and 3 a byte sent with ACK and NACK; 4 and 5 a byte received with ACK and NACK; and the byte.
    pub events: Vec<[u8; 2]>,
    phase: u32,
    sent: usize,
}

/// What stops a run before its next word.
enum Stop {
    Finished,
    Stuck,
    Unanswered,
}

/// The run, and how it ends: 0 with the phase as detail, or one of the two numbers.
pub fn run(list: &Loaded, sensor: &Sensor) -> (u32, Ran) {
    let mut ran = Ran {
        phase: list.phase,
        ..Ran::default()
    };
    let ending = match ran.all(list, sensor) {
        Stop::Finished => ran.phase << 8,
        Stop::Stuck => STUCK,
        Stop::Unanswered => UNANSWERED,
    };
    (ending, ran)
}

fn must(holds: bool) -> Result<(), Stop> {
    holds.then_some(()).ok_or(Stop::Stuck)
}

impl Ran {
    fn all(&mut self, list: &Loaded, sensor: &Sensor) -> Stop {
        if list.fifo.len() > FIFO || list.phase > READ_DONE {
            return Stop::Stuck;
        }
        for word in list.words.chunks(4) {
            if let Err(stop) = self.word(word, list, sensor) {
                return stop;
            }
        }
        Stop::Stuck
    }

    fn word(&mut self, word: &[u8], list: &Loaded, sensor: &Sensor) -> Result<(), Stop> {
        match *word {
            [0, 0, 0x30, 0] => self.start(),
            [0, 0, 0x09, n @ 1..=255] => self.write(n.into(), list, sensor),
            [0, 0, 0x18, n @ 1..=255] => self.read(n.into(), false, sensor),
            [0, 0, 0x1c, 1] => self.read(1, true, sensor),
            [0, 0, 0x10, 0] => {
                must([WRITING, READ_DONE].contains(&self.phase) && self.sent == list.fifo.len())?;
                self.events.push([1, 0]);
                self.phase = IDLE;
                Err(Stop::Finished)
            }
            [0, 0, 0x20, 0] => {
                must(![IDLE, STARTED].contains(&self.phase) && self.sent == list.fifo.len())?;
                Err(Stop::Finished)
            }
            _ => Err(Stop::Stuck),
        }
    }

    fn start(&mut self) -> Result<(), Stop> {
        must([IDLE, WRITING, READ_DONE].contains(&self.phase))?;
        self.events.push([0, 0]);
        self.phase = STARTED;
        Ok(())
    }

    fn write(&mut self, n: usize, list: &Loaded, sensor: &Sensor) -> Result<(), Stop> {
        let bytes = list.fifo.get(self.sent..self.sent + n);
        let bytes = bytes.ok_or(Stop::Stuck)?;
        let reads = self.phase == STARTED && bytes[0] % 2 == 1;
        must([STARTED, WRITING].contains(&self.phase) && (!reads || n == 1))?;
        for byte in bytes {
            self.sent += 1;
            if self.sent == sensor.refuses {
                self.events.push([3, *byte]);
                return Err(Stop::Unanswered);
            }
            self.events.push([2, *byte]);
        }
        self.phase = if reads { READING } else { WRITING };
        Ok(())
    }

    fn read(&mut self, n: usize, last: bool, sensor: &Sensor) -> Result<(), Stop> {
        must(self.phase == READING && self.received.len() + n <= FIFO)?;
        for _ in 0..n {
            let byte = sensor.sends.get(self.received.len()).copied();
            let byte = byte.unwrap_or(255);
            self.received.push(byte);
            self.events.push([4 + u8::from(last), byte]);
        }
        if last {
            self.phase = READ_DONE;
        }
        Ok(())
    }
}
