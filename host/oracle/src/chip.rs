//! The rest of esp-hal, as far as the driver's text names it.

pub mod soc {
    pub mod clocks {
        pub struct ClockTree;

        impl ClockTree {
            pub fn with<R>(run: impl FnOnce(&mut ClockTree) -> R) -> R {
                run(&mut ClockTree)
            }
        }

        #[derive(Clone, Copy, Debug)]
        pub struct I2cInstance;

        impl I2cInstance {
            pub fn request_function_clock(self, _clocks: &mut ClockTree) {}
            pub fn release_function_clock(self, _clocks: &mut ClockTree) {}
        }
    }
}

pub mod clock {
    pub mod ll {
        pub use crate::chip::soc::clocks::I2cInstance;
    }
}

pub mod rtc_cntl {
    /// Keeps the chip awake while a transfer runs.
    pub struct WakeLock;

    impl WakeLock {
        pub fn new() -> Self {
            Self
        }
    }
}

pub mod system {
    #[derive(Clone, Copy, Debug)]
    pub struct Peripheral;

    pub struct PeripheralClockControl;

    impl PeripheralClockControl {
        /// In the base variant this is the reset of the controller.
        pub fn reset(_peripheral: Peripheral) {
            crate::gpio::record_reset();
        }
    }
}

pub mod private {
    pub trait Sealed {}
}

pub mod interrupt {
    #[derive(Clone, Copy, Debug)]
    pub struct InterruptHandler;
}

pub mod asynch {
    use core::task::Waker;

    pub struct AtomicWaker;

    impl AtomicWaker {
        pub const fn new() -> Self {
            Self
        }
        pub fn register(&self, _waker: &Waker) {}
        pub fn wake(&self) {}
    }
}

/// Peripherals. None stands on the host: drivers are built over a `Machine`.
pub mod any {
    use super::interrupt::InterruptHandler;

    pub trait Degrade {}

    pub enum NoPeripheral {}

    impl NoPeripheral {
        pub fn parts<P>(&self) -> P {
            match *self {}
        }
        pub fn bind_peri_interrupt(&self, _handler: InterruptHandler) {}
        pub fn disable_peri_interrupt_on_all_cores(&self) {}
    }

    macro_rules! delegate {
        ($any:ident, $peripheral:ident => $body:block) => {{
            let $peripheral = &$any.0;
            $body
        }};
    }
    pub(crate) use delegate;
}

macro_rules! any_peripheral {
    ($(#[$doc:meta])* $vis:vis peripheral $name:ident<$life:lifetime> { $($variants:tt)* }) => {
        use crate::chip::any;

        $(#[$doc])*
        $vis struct $name<$life>(any::NoPeripheral, core::marker::PhantomData<&$life ()>);

        impl crate::private::Sealed for $name<'_> {}
        impl any::Degrade for $name<'_> {}
    };
}

pub(crate) use any_peripheral;

macro_rules! for_each_i2c_master {
    ($($pattern:tt)*) => {};
}

macro_rules! property {
    ("i2c_master.ll_intr_mask") => {
        crate::registers::ALL_INTERRUPTS
    };
}
