//! The mock pins: every level the driver sets is recorded in order, and SDA
//! reads what was set from outside.

use core::{
    cell::{Cell, RefCell},
    marker::PhantomData,
};

use crate::api::clear::Effect;

pub const SDA_PIN: u8 = 0;
pub const SCL_PIN: u8 = 1;

thread_local! {
    static SDA_HIGH: Cell<bool> = const { Cell::new(true) };
    static EFFECTS: RefCell<Vec<Effect>> = const { RefCell::new(Vec::new()) };
    static WIRING: RefCell<Vec<bool>> = const { RefCell::new(Vec::new()) };
}

pub(crate) fn set_sda(high: bool) {
    SDA_HIGH.set(high);
}

/// Levels set and resets done since the last call.
pub(crate) fn take_effects() -> Vec<Effect> {
    EFFECTS.take()
}

/// Pins connected to (true) or disconnected from the controller since the last call.
pub(crate) fn take_wiring() -> Vec<bool> {
    WIRING.take()
}

fn record(effect: Effect) {
    EFFECTS.with_borrow_mut(|effects| effects.push(effect));
}

pub(crate) fn record_reset() {
    record(Effect::Reset);
}

/// A pin, by its number.
pub struct AnyPin<'d>(u8, PhantomData<&'d ()>);

impl AnyPin<'static> {
    pub unsafe fn steal(number: u8) -> Self {
        Self(number, PhantomData)
    }
}

impl AnyPin<'_> {
    pub fn set_output_high(&self, high: bool) {
        record(match self.0 {
            SDA_PIN => Effect::Sda(high),
            _ => Effect::Scl(high),
        });
    }

    /// The driver reads SDA only.
    pub fn is_input_high(&self) -> bool {
        assert_eq!(self.0, SDA_PIN);
        SDA_HIGH.get()
    }
}

/// A signal of the controller towards a pin.
#[derive(Clone, Copy, Debug)]
pub struct OutputSignal;

impl OutputSignal {
    pub fn connect_to(&self, _pin: &AnyPin<'_>) {
        WIRING.with_borrow_mut(|wiring| wiring.push(true));
    }

    pub fn disconnect_from(&self, _pin: &AnyPin<'_>) {
        WIRING.with_borrow_mut(|wiring| wiring.push(false));
    }
}

#[derive(Clone, Copy, Debug)]
pub struct InputSignal;

impl InputSignal {
    pub fn connect_to(&self, _pin: &interconnect::OutputSignal<'_>) {}
}

/// The pin that a signal was given, if any.
#[derive(Default)]
pub struct PinGuard(pub Option<u8>);

impl PinGuard {
    pub fn pin_number(&self) -> Option<u8> {
        self.0
    }
}

#[derive(PartialEq)]
pub enum Level {
    Low,
    High,
}

pub enum DriveMode {
    OpenDrain,
}

pub enum Pull {
    Up,
}

#[derive(Default)]
pub struct OutputConfig {
    drive_mode: Option<DriveMode>,
    pull: Option<Pull>,
}

impl OutputConfig {
    pub fn with_drive_mode(self, mode: DriveMode) -> Self {
        let drive_mode = Some(mode);
        Self { drive_mode, ..self }
    }
    pub fn with_pull(self, pull: Pull) -> Self {
        let pull = Some(pull);
        Self { pull, ..self }
    }
}

pub mod interconnect {
    use core::marker::PhantomData;

    use super::{OutputConfig, PinGuard};

    /// A pin while it is being set up.
    pub struct OutputSignal<'d>(PhantomData<&'d ()>);

    impl OutputSignal<'_> {
        pub fn set_output_high(&self, _high: bool) {}
        pub fn apply_output_config(&self, _config: &OutputConfig) {}
        pub fn set_output_enable(&self, _enable: bool) {}
        pub fn set_input_enable(&self, _enable: bool) {}
        pub fn connect_with_guard(self, _signal: super::OutputSignal) -> PinGuard {
            PinGuard::default()
        }
    }
}
