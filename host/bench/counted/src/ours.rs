//! The library through its C calls, one function for each thing that is counted.

#[path = "../../../c/sitankulo.rs"]
mod sitankulo;

use std::hint::black_box;

use crate::collect;
use sitankulo::*;

#[link(name = "sitankulo", kind = "static")]
unsafe extern "C" {}

const ADDRESS: u32 = crate::ADDRESS as u32;

/// Transfer complete and acknowledged.
const COMPLETED: u8 = 0x60;

/// The registers that a firmware loads a list into.
struct Registers {
    commands: [u32; 8],
    fifo: u8,
}

/// Loads a list: a store for each command register and each FIFO byte.
fn load(registers: &mut Registers, words: &[u8; 32], fifo: &[u8]) {
    for (register, word) in registers.commands.iter_mut().zip(words.as_chunks::<4>().0) {
        // SAFETY: a reference may be written.
        unsafe { (register as *mut u32).write_volatile(u32::from_be_bytes(*word)) };
    }
    for byte in fifo {
        // SAFETY: as above.
        unsafe { (&raw mut registers.fifo).write_volatile(*byte) };
    }
}

/// The controller completes the list.
fn controller_completes(words: &mut [u8; 32]) {
    for word in words.as_chunks_mut::<4>().0 {
        if *word != [0; 4] {
            word[0] |= 0x80;
        }
    }
}

/// A transaction at time 0 and without a deadline, and what it is driven with.
struct Transaction<'a> {
    script: &'a [u8],
    buffer: &'a mut [u8],
    record: [u8; 25],
    words: [u8; 32],
    fifo: [u8; 32],
}

impl<'a> Transaction<'a> {
    #[inline(always)]
    fn begin(script: &'a [u8], buffer: &'a mut [u8]) -> Self {
        let mut record = [0; 25];
        // SAFETY: every pointer comes with its length.
        let begun = unsafe {
            sitankulo_begin(
                record.as_mut_ptr(),
                25,
                0,
                0,
                ADDRESS,
                script.as_ptr(),
                script.len(),
                buffer.len(),
                0,
                0,
            )
        };
        assert_eq!(begun, 0);
        Transaction {
            script,
            buffer,
            record,
            words: [0; 32],
            fifo: [0; 32],
        }
    }

    #[inline(always)]
    fn next(&mut self) -> u32 {
        // SAFETY: as above.
        unsafe {
            sitankulo_next(
                self.record.as_mut_ptr(),
                25,
                0,
                0,
                ADDRESS,
                self.script.as_ptr(),
                self.script.len(),
                0,
                self.words.as_mut_ptr(),
                32,
                self.fifo.as_mut_ptr(),
                32,
            )
        }
    }

    #[inline(always)]
    fn complete(&mut self) -> u32 {
        let received = [0; 32];
        // SAFETY: as above.
        unsafe {
            sitankulo_complete(
                self.record.as_mut_ptr(),
                25,
                ADDRESS,
                self.script.as_ptr(),
                self.script.len(),
                COMPLETED,
                self.words.as_ptr(),
                32,
                0,
                received.as_ptr(),
                32,
                self.buffer.as_mut_ptr(),
                self.buffer.len(),
            )
        }
    }
}

/// A transaction from begin to its end.
#[inline(never)]
pub fn ours_transaction(script: &[u8], buffer: &mut [u8]) {
    let mut transaction = Transaction::begin(script, buffer);
    let mut registers = Registers {
        commands: [0; 8],
        fifo: 0,
    };
    loop {
        let handed = transaction.next();
        if handed == NONE {
            return;
        }
        assert_eq!(handed & 0xff, 0);
        let count = (handed >> 8) as usize;
        load(
            &mut registers,
            &transaction.words,
            &transaction.fifo[..count],
        );
        collect::left_out(|| controller_completes(&mut transaction.words));
        assert_eq!(transaction.complete(), 0);
    }
}

/// What a transaction's calls check again, and nothing else: address, script, record and place. Out of turn a call is refused right after
/// that: completion with no list outstanding, and a next list with one.
#[inline(never)]
pub fn ours_checks(script: &[u8], buffer: &mut [u8]) {
    let mut transaction = collect::left_out(|| Transaction::begin(script, buffer));
    loop {
        assert_eq!(transaction.complete(), OUT_OF_TURN);
        if collect::left_out(|| transaction.next()) == NONE {
            return;
        }
        assert_eq!(transaction.next(), OUT_OF_TURN);
        collect::left_out(|| {
            controller_completes(&mut transaction.words);
            assert_eq!(transaction.complete(), 0);
        });
    }
}

/// Register reads by an operation of one byte and one of two.
#[inline(never)]
pub fn ours_register_reads(times: usize, read: fn(&[u8], &mut [u8])) {
    for register in 0..times {
        let mut buffer = [0; 2];
        let script = [1, 0, 7, 0, 1, 0, register as u8, 0, 2, 1];
        read(&script, &mut buffer);
    }
}

#[inline(never)]
pub fn ours_classify(bits: u8, commands: &[u8; 32], due: u64) -> u32 {
    // SAFETY: the pointer comes with its length.
    black_box(unsafe { sitankulo_classify(bits, commands.as_ptr(), 32, 0, 0, 1, due) })
}

/// A fresh clear and so many acting polls with SDA low.
#[inline(never)]
pub fn ours_clear(polls: usize) {
    let (mut clear, mut changes) = ([0; 10], [0; 2]);
    // SAFETY: every pointer comes with its length.
    unsafe {
        sitankulo_clear_fresh(clear.as_mut_ptr(), 10, 1, 0, changes.as_mut_ptr(), 2);
        for poll in 0..polls {
            let time = 5 * (poll as u64 + 1);
            let answer =
                sitankulo_clear_step(clear.as_mut_ptr(), 10, 1, time, 0, changes.as_mut_ptr(), 2);
            assert_eq!(answer & 0xff, PENDING);
        }
    }
    black_box(changes);
}

#[inline(never)]
pub fn ours_inspect(words: &[u8; 32], fifo: &[u8]) -> u32 {
    // SAFETY: every pointer comes with its length.
    black_box(unsafe { sitankulo_inspect(words.as_ptr(), 32, fifo.as_ptr(), fifo.len(), 0) })
}
