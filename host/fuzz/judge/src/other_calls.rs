//! The C calls that the soak test does not make: single lists, a fresh clear, the inspector and the model.

use crate::calls::sitankulo::*;

// SAFETY of every call here: each pointer comes with the length of what it points to.
pub fn build_write(
    address: u32,
    bytes: &[u8],
    flags: u8,
    words: &mut [u8],
    fifo: &mut [u8],
) -> u32 {
    unsafe {
        sitankulo_build_write(
            address,
            bytes.as_ptr(),
            bytes.len(),
            flags,
            words.as_mut_ptr(),
            words.len(),
            fifo.as_mut_ptr(),
            fifo.len(),
        )
    }
}

pub fn build_read(address: u32, n: usize, flags: u8, words: &mut [u8], fifo: &mut [u8]) -> u32 {
    unsafe {
        sitankulo_build_read(
            address,
            n,
            flags,
            words.as_mut_ptr(),
            words.len(),
            fifo.as_mut_ptr(),
            fifo.len(),
        )
    }
}

pub fn clear_fresh(clear: &mut [u8], pins: u8, time: u64, changes: &mut [u8]) -> u32 {
    unsafe {
        sitankulo_clear_fresh(
            clear.as_mut_ptr(),
            clear.len(),
            pins,
            time,
            changes.as_mut_ptr(),
            changes.len(),
        )
    }
}

/// A list as the controller is handed it, in any phase.
#[derive(Clone, Debug)]
pub struct Loaded {
    pub words: Vec<u8>,
    pub fifo: Vec<u8>,
    pub phase: u32,
}

/// What it sends, and the number of the written byte that it does not acknowledge; 0 is none.
#[derive(Clone, Debug)]
pub struct Sensor {
    pub sends: Vec<u8>,
    pub refuses: usize,
}

pub fn inspect(list: &Loaded) -> u32 {
    unsafe {
        sitankulo_inspect(
            list.words.as_ptr(),
            list.words.len(),
            list.fifo.as_ptr(),
            list.fifo.len(),
            list.phase,
        )
    }
}

pub fn model_run(list: &Loaded, sensor: &Sensor, received: &mut [u8], events: &mut [u8]) -> u32 {
    unsafe {
        sitankulo_model_run(
            list.words.as_ptr(),
            list.words.len(),
            list.fifo.as_ptr(),
            list.fifo.len(),
            list.phase,
            sensor.sends.as_ptr(),
            sensor.sends.len(),
            sensor.refuses,
            received.as_mut_ptr(),
            received.len(),
            events.as_mut_ptr(),
            events.len(),
        )
    }
}
