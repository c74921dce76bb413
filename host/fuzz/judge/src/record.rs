//! A transaction's record in its 25 bytes, as the header tells its layout.

use crate::calls::number_at;

pub const OUTSTANDING: u8 = 1;
pub const POLLED: u8 = 2;
pub const FAILED: u8 = 4;
pub const HAS_DUE: u8 = 8;
pub const HAS_FIXED: u8 = 16;
pub const ALL_FLAGS: u8 = 31;

pub const SIZE: usize = 25;

#[derive(Clone, Copy, Debug, Default)]
pub struct Record {
    pub flags: u8,
    pub place: u64,
    pub due: u64,
    pub fixed: u64,
}

impl Record {
    pub fn bytes(self) -> Vec<u8> {
        let times = [self.place, self.due, self.fixed].map(u64::to_be_bytes);
        [&[self.flags], &times.concat()[..]].concat()
    }

    /// The record that these bytes start with, if a call can have left it.
    pub fn left_in(bytes: &[u8]) -> Option<Self> {
        if bytes.len() < SIZE {
            return None;
        }
        let record = Self {
            flags: bytes[0],
            place: number_at(&bytes[1..]),
            due: number_at(&bytes[9..]),
            fixed: number_at(&bytes[17..]),
        };
        record.is_one().then_some(record)
    }

    /// Only a list that is outstanding has a due time or a poll behind it, and its transaction has not failed.
    fn is_one(self) -> bool {
        let of_a_list = if self.has(OUTSTANDING) {
            FAILED
        } else {
            POLLED | HAS_DUE
        };
        self.flags <= ALL_FLAGS
            && !self.has(of_a_list)
            && (self.has(HAS_DUE) || self.due == 0)
            && (self.has(HAS_FIXED) || self.fixed == 0)
    }

    /// Whether it has one of these flags.
    pub fn has(self, flags: u8) -> bool {
        self.flags & flags != 0
    }

    pub fn due(self) -> Option<u64> {
        self.has(HAS_DUE).then_some(self.due)
    }

    /// No list is outstanding any more; a fixed deadline stays.
    pub fn between_lists(self, place: u64, flags: u8) -> Self {
        Self {
            flags: flags | self.flags & HAS_FIXED,
            place,
            due: 0,
            ..self
        }
    }
}
