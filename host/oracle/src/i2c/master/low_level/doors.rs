//! The driver's private functions, opened to the tests: this module is a
//! descendant of the driver's, so it may call them. A door adds nothing.

use super::super::*;
use crate::{api::lists, machine::Machine};

impl From<lists::Deadline> for Deadline {
    fn from(deadline: lists::Deadline) -> Self {
        match deadline {
            lists::Deadline::None => Deadline::None,
            lists::Deadline::Fixed(due) => Deadline::Fixed(Instant(due)),
            lists::Deadline::PerByte(micros) => Deadline::PerByte(Duration(micros)),
        }
    }
}

fn micros(due: Option<Instant>) -> Option<u64> {
    due.map(|Instant(due)| due)
}

impl Machine {
    /// Builds the driver over this machine's registers.
    pub(super) fn drive<R>(&self, run: impl FnOnce(Driver<'_>) -> R) -> R {
        let info = Info {
            register_block: &self.registers,
            peripheral: crate::system::Peripheral,
            async_handler: InterruptHandler,
            scl_output: OutputSignal,
            scl_input: InputSignal,
            sda_output: OutputSignal,
            sda_input: InputSignal,
            clock_instance: crate::soc::clocks::I2cInstance,
        };
        let state = State {
            waker: AtomicWaker::new(),
        };
        run(Driver {
            info: &info,
            state: &state,
            config: &self.config,
        })
    }

    pub(crate) fn chunk_size(remaining: usize) -> usize {
        calculate_chunk_size(remaining)
    }

    pub(crate) fn chunks(bytes: &[u8]) -> impl Iterator<Item = &[u8]> {
        VariableChunkIter::new(bytes)
    }

    pub(crate) fn chunks_mut(bytes: &mut [u8]) -> impl Iterator<Item = &mut [u8]> {
        VariableChunkIterMut::new(bytes)
    }

    pub(crate) fn add_cmd(&self, command: Command) -> Result<(), Error> {
        add_cmd(&mut self.registers.comd_iter(), command)
    }

    pub(crate) fn setup_write(
        &self,
        address: I2cAddress,
        bytes: &[u8],
        start: bool,
        stop: bool,
    ) -> Result<(), Error> {
        let commands = &mut self.registers.comd_iter();
        self.drive(|driver| driver.setup_write(address, bytes, start, stop, commands))
    }

    pub(crate) fn setup_read(
        &self,
        address: I2cAddress,
        buffer: &mut [u8],
        start: bool,
        stop: bool,
        will_continue: bool,
    ) -> Result<(), Error> {
        let commands = &mut self.registers.comd_iter();
        self.drive(|driver| {
            driver.setup_read(address, buffer, start, stop, will_continue, commands)
        })
    }

    pub(crate) fn start_write_operation(
        &self,
        address: I2cAddress,
        bytes: &[u8],
        start: bool,
        stop: bool,
        deadline: lists::Deadline,
    ) -> Result<Option<u64>, Error> {
        let deadline = deadline.into();
        self.drive(|driver| driver.start_write_operation(address, bytes, start, stop, deadline))
            .map(micros)
    }

    pub(crate) fn start_read_operation(
        &self,
        address: I2cAddress,
        buffer: &mut [u8],
        start: bool,
        stop: bool,
        will_continue: bool,
        deadline: lists::Deadline,
    ) -> Result<Option<u64>, Error> {
        let deadline = deadline.into();
        self.drive(|driver| {
            driver.start_read_operation(address, buffer, start, will_continue, stop, deadline)
        })
        .map(micros)
    }

    pub(crate) fn write_operation(
        &self,
        address: I2cAddress,
        bytes: &[u8],
        start: bool,
        stop: bool,
    ) -> Result<(), Error> {
        self.drive(|driver| {
            driver.write_operation_blocking(address, bytes, start, stop, Deadline::None)
        })
    }

    pub(crate) fn read_operation(
        &self,
        address: I2cAddress,
        buffer: &mut [u8],
        start: bool,
        stop: bool,
        will_continue: bool,
    ) -> Result<(), Error> {
        let deadline = Deadline::None;
        self.drive(|driver| {
            driver.read_operation_blocking(address, buffer, start, stop, will_continue, deadline)
        })
    }

    pub(crate) fn check_errors(&self) -> Result<(), Error> {
        self.drive(|driver| driver.check_errors())
    }

    pub(crate) fn poll_completion(&self, deadline: Option<u64>) -> Poll<Result<(), Error>> {
        self.drive(|driver| {
            let mut future = waiting(driver, deadline);
            let answer = future.poll_completion();
            // A drop would poll once more.
            core::mem::forget(future);
            answer
        })
    }

    pub(crate) fn all_commands_done(&self, deadline: Option<u64>) -> Result<bool, Error> {
        self.drive(|driver| driver.all_commands_done(deadline.map(Instant)))
    }

    pub(crate) fn wait_for_completion(&self, deadline: Option<u64>) -> Result<(), Error> {
        self.drive(|driver| driver.wait_for_completion_blocking(deadline.map(Instant)))
    }

    pub(crate) fn read_all_from_fifo(&self, buffer: &mut [u8]) -> Result<(), Error> {
        self.drive(|driver| driver.read_all_from_fifo(buffer))
    }

    /// Drops a wait that was never polled to its end.
    pub(crate) fn abandon(&self, deadline: Option<u64>) {
        self.drive(|driver| drop(waiting(driver, deadline)));
    }

    pub(crate) fn transaction<'a>(
        &self,
        address: I2cAddress,
        operations: impl Iterator<Item = Operation<'a>>,
    ) -> Result<(), Error> {
        self.drive(|driver| driver.transaction_impl(address, operations))
    }
}

/// The wait for a list's end, as `wait_for_completion_blocking` makes it.
fn waiting(driver: Driver<'_>, deadline: Option<u64>) -> I2cFuture<'_> {
    let events = Event::TxComplete | Event::EndDetect;
    I2cFuture::new_blocking(events, driver, deadline.map(Instant))
}
