//! Command words.

use crate::{i2c::master::Command, machine::Machine};

/// What `add_cmd` writes into a command register.
pub fn word(command: Command) -> u32 {
    let machine = Machine::new();
    machine
        .add_cmd(command)
        .expect("the first of eight registers");
    machine.registers.commands()[0]
}
