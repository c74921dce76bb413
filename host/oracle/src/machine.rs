//! One controller on the host: its registers, its settings and whether it has pins.

use crate::{
    api::{lists::List, outcomes::Snapshot, transactions::Timeout},
    gpio::{Level, PinGuard, SCL_PIN, SDA_PIN},
    i2c::master::{Config, DriverConfig, SoftwareTimeout, StateTimeoutValue},
    registers::RegisterBlock,
    time::{self, Duration},
};

pub(crate) struct Machine {
    pub registers: RegisterBlock,
    pub config: DriverConfig,
}

impl Machine {
    pub fn new() -> Self {
        Self::with(false, Timeout::None)
    }

    pub fn with(pins: bool, timeout: Timeout) -> Self {
        let software_timeout = match timeout {
            Timeout::None => SoftwareTimeout::None,
            Timeout::Transaction(micros) => SoftwareTimeout::Transaction(Duration(micros)),
            Timeout::PerByte(micros) => SoftwareTimeout::PerByte(Duration(micros)),
        };
        Self {
            registers: RegisterBlock::new(),
            config: DriverConfig {
                config: Config {
                    software_timeout,
                    scl_sample_level: Level::High,
                    scl_st_timeout: StateTimeoutValue(0),
                    scl_main_st_timeout: StateTimeoutValue(0),
                },
                sda_pin: PinGuard(pins.then_some(SDA_PIN)),
                scl_pin: PinGuard(pins.then_some(SCL_PIN)),
            },
        }
    }

    /// Lets the driver see a snapshot, and its clock.
    pub fn show(&self, snapshot: &Snapshot) {
        self.registers.show_interrupts(|w| {
            w.nack().bit(snapshot.nack);
            w.arbitration_lost().bit(snapshot.arbitration_lost);
            w.scl_st_to().bit(snapshot.scl_st_to);
            w.scl_main_st_to().bit(snapshot.scl_main_st_to);
            w.time_out().bit(snapshot.time_out);
            w.trans_complete().bit(snapshot.trans_complete);
            w.end_detect().bit(snapshot.end_detect)
        });
        self.registers
            .sr()
            .modify(|_, w| w.resp_rec().bit(snapshot.resp_rec));
        self.registers.show_commands(&snapshot.commands);
        time::set_now(snapshot.now);
    }

    /// The list that the driver has put into the registers.
    pub fn list(&self) -> List {
        List {
            words: self.registers.commands(),
            fifo: self.registers.tx.held(),
        }
    }
}
