//! What differs from chip to chip: the FIFO and the clock dividers.

use super::*;

mod clear_doors;
mod doors;

/// Clock registers stay behind.
pub(super) fn set_frequency(_driver: &Driver<'_>, _config: &Config) -> Result<(), ConfigError> {
    Ok(())
}

// GAP (document 01): the version files. A list's FIFO bytes are those written
// since the reset, in order; received bytes are read in order.
pub(super) fn reset_fifo(driver: &Driver<'_>) {
    driver.regs().tx.clear();
    driver.regs().show_received(&[]);
}

pub(super) fn write_fifo(registers: &RegisterBlock, byte: u8) {
    registers.tx.push(byte);
}

pub(super) fn read_fifo(registers: &RegisterBlock) -> u8 {
    registers.take_received()
}
