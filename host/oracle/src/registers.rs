//! The registers that the driver touches, the command words and the FIFOs.

use crate::{
    feed,
    svd::{R, Reg, Volatile, W, register},
};

/// The mask with which the driver clears every interrupt.
pub const ALL_INTERRUPTS: u32 = 0x7fff;

register!(Interrupts {
    end_detect: 3, arbitration_lost: 5, trans_complete: 7, time_out: 8, nack: 10,
    scl_st_to: 13, scl_main_st_to: 14
} {});
register!(Status { resp_rec: 0, bus_busy: 4 } { rxfifo_cnt: u8 = 8 });
register!(Control {
    sda_force_out: 0, scl_force_out: 1, sample_scl_level: 2, ms_mode: 4, trans_start: 5,
    tx_lsb_first: 6, rx_lsb_first: 7, clk_en: 8
} {});
register!(Filter { scl_filter_en: 8, sda_filter_en: 9 } {
    scl_filter_thres: u8 = 0, sda_filter_thres: u8 = 16
});
register!(LowPeriod {} { scl_low_period: u16 = 0 });
register!(HighPeriod {} { scl_high_period: u16 = 0, scl_wait_high_period: u8 = 16 });
register!(Timing {} { time: u16 = 0 });
register!(BusTimeout {} { time_out: u32 = 0 });
register!(StateTimeout {} { scl_st_to: u8 = 0 });
register!(MainStateTimeout {} { scl_main_st_to: u8 = 0 });

// GAP (document 01): the layout of a command word. Opcode times 2048, 1024 for
// NACK as answer, 512 for NACK expected, 256 for ACK checked, then the count;
// bit 31 is "done".
register!(CommandWord { ack_check_en: 8, ack_exp: 9, ack_value: 10, command_done: 31 } {
    byte_num: u8 = 0
});

/// A command register, by the name that svd2rust gives it.
#[allow(clippy::upper_case_acronyms)]
pub type COMD = Reg<CommandWord>;

const OPCODE_AT: u32 = 11;
const OPCODE_MASK: u32 = 7;

#[derive(PartialEq)]
enum Opcode {
    Write = 1,
    Stop = 2,
    Read = 3,
    End = 4,
    Start = 6,
}

pub struct OpcodeReader(u32);

impl OpcodeReader {
    pub fn is_stop(&self) -> bool {
        self.0 == Opcode::Stop as u32
    }
    pub fn is_end(&self) -> bool {
        self.0 == Opcode::End as u32
    }
}

impl R<CommandWord> {
    pub fn opcode(&self) -> OpcodeReader {
        OpcodeReader(self.bits() >> OPCODE_AT & OPCODE_MASK)
    }
}

pub struct OpcodeWriter<'w>(&'w mut W<CommandWord>);

impl<'w> OpcodeWriter<'w> {
    fn put(self, opcode: Opcode) -> &'w mut W<CommandWord> {
        self.0.put(OPCODE_MASK, OPCODE_AT, opcode as u32)
    }
    pub fn rstart(self) -> &'w mut W<CommandWord> {
        self.put(Opcode::Start)
    }
    pub fn write(self) -> &'w mut W<CommandWord> {
        self.put(Opcode::Write)
    }
    pub fn read(self) -> &'w mut W<CommandWord> {
        self.put(Opcode::Read)
    }
    pub fn stop(self) -> &'w mut W<CommandWord> {
        self.put(Opcode::Stop)
    }
    pub fn end(self) -> &'w mut W<CommandWord> {
        self.put(Opcode::End)
    }
}

impl W<CommandWord> {
    pub fn opcode(&mut self) -> OpcodeWriter<'_> {
        OpcodeWriter(self)
    }
}

/// Bytes that go through the controller in order.
pub struct Fifo<const N: usize> {
    bytes: [Volatile<u8>; N],
    end: Volatile<usize>,
    next: Volatile<usize>,
}

impl<const N: usize> Fifo<N> {
    const fn new() -> Self {
        Self {
            bytes: [const { Volatile::new(0) }; N],
            end: Volatile::new(0),
            next: Volatile::new(0),
        }
    }

    pub fn clear(&self) {
        self.end.set(0);
        self.next.set(0);
    }

    pub fn push(&self, byte: u8) {
        let end = self.end.get();
        self.bytes[end].set(byte);
        self.end.set(end + 1);
    }

    pub fn pop(&self) -> u8 {
        let next = self.next.get();
        self.next.set(next + 1);
        self.bytes[next].get()
    }

    pub fn len(&self) -> usize {
        self.end.get() - self.next.get()
    }

    pub fn held(&self) -> Vec<u8> {
        let waiting = self.next.get()..self.end.get();
        waiting.map(|i| self.bytes[i].get()).collect()
    }
}

macro_rules! register_block {
    ($($name:ident: $type:ty,)*) => {
        /// The registers of one controller, its eight command registers and FIFOs.
        pub struct RegisterBlock {
            int_raw: Reg<Interrupts>,
            comd: [COMD; 8],
            pub tx: Fifo<32>,
            // A part holds 32 bytes too; the count's field can say 255.
            pub rx: Fifo<255>,
            $($name: $type,)*
        }

        impl RegisterBlock {
            pub const fn new() -> Self {
                Self {
                    int_raw: Reg::new(),
                    comd: [const { Reg::new() }; 8],
                    tx: Fifo::new(),
                    rx: Fifo::new(),
                    $($name: Reg::new(),)*
                }
            }

            $(pub fn $name(&self) -> &$type {
                &self.$name
            })*

            /// The one register by which the driver learns what has happened.
            pub fn int_raw(&self) -> &Reg<Interrupts> {
                feed::before_status();
                &self.int_raw
            }

            pub fn comd_iter(&self) -> impl Iterator<Item = &COMD> {
                self.comd.iter()
            }
        }
    };
}

register_block! {
    int_ena: Reg<Interrupts>,
    int_clr: Reg<Interrupts>,
    sr: Reg<Status>,
    ctr: Reg<Control>,
    filter_cfg: Reg<Filter>,
    scl_low_period: Reg<LowPeriod>,
    scl_high_period: Reg<HighPeriod>,
    sda_hold: Reg<Timing>,
    sda_sample: Reg<Timing>,
    scl_rstart_setup: Reg<Timing>,
    scl_stop_setup: Reg<Timing>,
    scl_start_hold: Reg<Timing>,
    scl_stop_hold: Reg<Timing>,
    to: Reg<BusTimeout>,
    scl_st_time_out: Reg<StateTimeout>,
    scl_main_st_time_out: Reg<MainStateTimeout>,
}

impl RegisterBlock {
    pub fn commands(&self) -> [u32; 8] {
        core::array::from_fn(|i| self.comd[i].read().bits())
    }

    /// Sets what the driver sees of a snapshot's interrupts.
    pub fn show_interrupts(&self, fill: impl FnOnce(&mut W<Interrupts>) -> &mut W<Interrupts>) {
        self.int_raw.write(fill);
    }

    pub fn show_commands(&self, words: &[u32; 8]) {
        for (register, word) in self.comd.iter().zip(words) {
            register.show(*word);
        }
    }

    pub fn show_received(&self, bytes: &[u8]) {
        self.rx.clear();
        for byte in bytes {
            self.rx.push(*byte);
        }
        self.count_received();
    }

    /// Takes a received byte, and the status says how many are left.
    pub fn take_received(&self) -> u8 {
        let byte = self.rx.pop();
        self.count_received();
        byte
    }

    fn count_received(&self) {
        // SAFETY: every count fits the field.
        self.sr
            .modify(|_, w| unsafe { w.rxfifo_cnt().bits(self.rx.len() as u8) });
    }
}
