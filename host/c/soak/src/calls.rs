//! The C calls over slices. A flag is a byte, as it is in C.

#[path = "../../sitankulo.rs"]
pub mod sitankulo;

use oracle::ClearState;
use sitankulo::*;

/// What every call on one transaction takes.
pub struct Transaction<'a> {
    pub record: &'a mut [u8],
    pub deadline: u8,
    pub duration: u64,
    pub address: u32,
    pub script: &'a [u8],
}

/// What the controller shows.
#[derive(Clone, Debug)]
pub struct Shown {
    pub bits: u8,
    pub commands: Vec<u8>,
    pub time: u64,
}

// SAFETY of every call here: each pointer comes with the length of what it points to.
impl Transaction<'_> {
    pub fn begin(&mut self, room: usize, busy: u8, time: u64) -> u32 {
        let (record, script) = (&mut *self.record, self.script);
        unsafe {
            sitankulo_begin(
                record.as_mut_ptr(),
                record.len(),
                self.deadline,
                self.duration,
                self.address,
                script.as_ptr(),
                script.len(),
                room,
                busy,
                time,
            )
        }
    }

    pub fn next(&mut self, time: u64, words: &mut [u8], fifo: &mut [u8]) -> u32 {
        let (record, script) = (&mut *self.record, self.script);
        unsafe {
            sitankulo_next(
                record.as_mut_ptr(),
                record.len(),
                self.deadline,
                self.duration,
                self.address,
                script.as_ptr(),
                script.len(),
                time,
                words.as_mut_ptr(),
                words.len(),
                fifo.as_mut_ptr(),
                fifo.len(),
            )
        }
    }

    pub fn complete(&mut self, shown: &Shown, received: &[u8], buffer: &mut [u8]) -> u32 {
        let (record, script) = (&mut *self.record, self.script);
        unsafe {
            sitankulo_complete(
                record.as_mut_ptr(),
                record.len(),
                self.address,
                script.as_ptr(),
                script.len(),
                shown.bits,
                shown.commands.as_ptr(),
                shown.commands.len(),
                shown.time,
                received.as_ptr(),
                received.len(),
                buffer.as_mut_ptr(),
                buffer.len(),
            )
        }
    }

    pub fn abandon(&mut self, shown: &Shown) -> u32 {
        let (record, commands) = (&mut *self.record, &shown.commands);
        unsafe {
            sitankulo_abandon(
                record.as_mut_ptr(),
                record.len(),
                shown.bits,
                commands.as_ptr(),
                commands.len(),
                shown.time,
            )
        }
    }
}

pub fn classify(shown: &Shown, polled: u8, limited: u8, due: u64) -> u32 {
    let commands = &shown.commands;
    unsafe {
        sitankulo_classify(
            shown.bits,
            commands.as_ptr(),
            commands.len(),
            shown.time,
            polled,
            limited,
            due,
        )
    }
}

pub fn clear_step(clear: &mut [u8], pins: u8, time: u64, sda: u8, changes: &mut [u8]) -> u32 {
    unsafe {
        sitankulo_clear_step(
            clear.as_mut_ptr(),
            clear.len(),
            pins,
            time,
            sda,
            changes.as_mut_ptr(),
            changes.len(),
        )
    }
}

/// What a clear run is told besides the clear and the tape.
#[derive(Clone, Copy, Debug)]
pub struct Terms {
    pub pins: u8,
    pub reset: u8,
    pub start: u64,
    pub limit: u64,
    pub budget: usize,
}

pub fn clear_run(
    clear: &mut [u8],
    terms: &Terms,
    clocks: &[u64],
    levels: &[u8],
    changes: &mut [u8],
    report: &mut [u8],
) -> u32 {
    unsafe {
        sitankulo_clear_run(
            clear.as_mut_ptr(),
            clear.len(),
            terms.pins,
            terms.reset,
            terms.start,
            terms.limit,
            terms.budget,
            clocks.as_ptr(),
            clocks.len(),
            levels.as_ptr(),
            levels.len(),
            changes.as_mut_ptr(),
            changes.len(),
            report.as_mut_ptr(),
            report.len(),
        )
    }
}

/// Eight words as bytes, big-endian.
pub fn bytes_of(words: [u32; 8]) -> [u8; 32] {
    let mut bytes = [0; 32];
    for (place, word) in words.iter().enumerate() {
        bytes[4 * place..4 * place + 4].copy_from_slice(&word.to_be_bytes());
    }
    bytes
}

/// A clear as its ten bytes.
pub fn clear_bytes(state: ClearState, wait: u64) -> [u8; 10] {
    let [kind, clocks] = match state {
        ClearState::Idle => [0, 0],
        ClearState::SendStop => [1, 0],
        ClearState::SendClock(clocks, high) => [2 + u8::from(high), clocks],
    };
    let mut clear = [kind, clocks, 0, 0, 0, 0, 0, 0, 0, 0];
    clear[2..].copy_from_slice(&wait.to_be_bytes());
    clear
}

pub fn number_at(bytes: &[u8]) -> u64 {
    bytes[..8]
        .iter()
        .fold(0, |number, byte| number << 8 | u64::from(*byte))
}
