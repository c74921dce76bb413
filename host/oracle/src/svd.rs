//! Registers as svd2rust gives them: read, write and modify by named fields.
//!
//! Every access is volatile, so that no store is optimised out.

use core::{cell::UnsafeCell, marker::PhantomData};

/// A place in memory that is read and written as device memory is.
pub struct Volatile<T: Copy>(UnsafeCell<T>);

impl<T: Copy> Volatile<T> {
    pub const fn new(value: T) -> Self {
        Self(UnsafeCell::new(value))
    }

    pub fn get(&self) -> T {
        // SAFETY: the cell is valid, aligned and used by one thread.
        unsafe { self.0.get().read_volatile() }
    }

    pub fn set(&self, value: T) {
        // SAFETY: as above.
        unsafe { self.0.get().write_volatile(value) }
    }
}

/// A register whose fields `S` names.
pub struct Reg<S> {
    value: Volatile<u32>,
    spec: PhantomData<S>,
}

impl<S> Reg<S> {
    pub const fn new() -> Self {
        Self {
            value: Volatile::new(0),
            spec: PhantomData,
        }
    }

    pub fn read(&self) -> R<S> {
        R(self.value.get(), PhantomData)
    }

    pub fn write(&self, fill: impl FnOnce(&mut W<S>) -> &mut W<S>) {
        let mut w = W(0, PhantomData);
        fill(&mut w);
        self.value.set(w.0);
    }

    pub fn modify(&self, change: impl for<'w> FnOnce(&R<S>, &'w mut W<S>) -> &'w mut W<S>) {
        let r = self.read();
        let mut w = W(r.0, PhantomData);
        change(&r, &mut w);
        self.value.set(w.0);
    }

    pub fn reset(&self) {
        self.value.set(0);
    }

    /// Sets the whole register from outside.
    pub fn show(&self, bits: u32) {
        self.value.set(bits);
    }
}

pub struct R<S>(u32, PhantomData<S>);
pub struct W<S>(u32, PhantomData<S>);

impl<S> R<S> {
    pub fn bits(&self) -> u32 {
        self.0
    }
}

impl<S> W<S> {
    pub unsafe fn bits(&mut self, bits: u32) -> &mut Self {
        self.0 = bits;
        self
    }

    pub fn put(&mut self, mask: u32, low: u32, value: u32) -> &mut Self {
        self.0 = self.0 & !(mask << low) | (value & mask) << low;
        self
    }
}

pub struct BitReader(bool);

impl BitReader {
    pub fn of(bits: u32, at: u32) -> Self {
        Self(bits >> at & 1 == 1)
    }
    pub fn bit_is_set(&self) -> bool {
        self.0
    }
    pub fn bit_is_clear(&self) -> bool {
        !self.0
    }
}

pub struct BitWriter<'w, S>(&'w mut W<S>, u32);

impl<'w, S> BitWriter<'w, S> {
    pub fn of(w: &'w mut W<S>, at: u32) -> Self {
        Self(w, at)
    }
    pub fn bit(self, value: bool) -> &'w mut W<S> {
        self.0.put(1, self.1, value.into())
    }
    pub fn set_bit(self) -> &'w mut W<S> {
        self.bit(true)
    }
    pub fn clear_bit(self) -> &'w mut W<S> {
        self.bit(false)
    }
    /// Interrupts are cleared by writing a one.
    pub fn clear_bit_by_one(self) -> &'w mut W<S> {
        self.bit(true)
    }
    /// The output mode of a line.
    pub fn open_drain(self) -> &'w mut W<S> {
        self.bit(true)
    }
}

pub struct FieldReader<T>(T);

impl<T: Copy> FieldReader<T> {
    pub fn of(bits: T) -> Self {
        Self(bits)
    }
    pub fn bits(&self) -> T {
        self.0
    }
}

pub struct FieldWriter<'w, S, T>(&'w mut W<S>, u32, PhantomData<T>);

impl<'w, S, T: Into<u32>> FieldWriter<'w, S, T> {
    pub fn of(w: &'w mut W<S>, low: u32) -> Self {
        Self(w, low, PhantomData)
    }
    pub unsafe fn bits(self, value: T) -> &'w mut W<S> {
        let mask = (1u64 << (8 * size_of::<T>())) - 1;
        self.0.put(mask as u32, self.1, value.into())
    }
}

/// Names a register's single bits and its fields of whole bytes, each with the
/// number of its lowest bit.
macro_rules! register {
    ($spec:ident { $($bit:ident: $at:literal),* } { $($field:ident: $type:ty = $low:literal),* }) => {
        pub struct $spec;

        impl crate::svd::R<$spec> {
            $(pub fn $bit(&self) -> crate::svd::BitReader {
                crate::svd::BitReader::of(self.bits(), $at)
            })*
            $(pub fn $field(&self) -> crate::svd::FieldReader<$type> {
                crate::svd::FieldReader::of((self.bits() >> $low) as $type)
            })*
        }

        impl crate::svd::W<$spec> {
            $(pub fn $bit(&mut self) -> crate::svd::BitWriter<'_, $spec> {
                crate::svd::BitWriter::of(self, $at)
            })*
            $(pub fn $field(&mut self) -> crate::svd::FieldWriter<'_, $spec, $type> {
                crate::svd::FieldWriter::of(self, $low)
            })*
        }
    };
}
pub(crate) use register;
