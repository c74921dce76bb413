//! Memory that is lent to a call, with canaries around it.

use core::fmt::Debug;

const CANARY: u8 = 0xa5;
const AROUND: usize = 16;

pub struct Lent(Vec<u8>);

impl Lent {
    pub fn holding(bytes: &[u8]) -> Self {
        Self([&[CANARY; AROUND], bytes, &[CANARY; AROUND]].concat())
    }

    /// So many bytes, each of which tells its place.
    pub fn of(length: usize) -> Self {
        Self::holding(&old(length))
    }

    pub fn memory(&mut self) -> &mut [u8] {
        let end = self.0.len() - AROUND;
        &mut self.0[AROUND..end]
    }

    /// It holds these bytes first and beyond them what it held when it was lent, and the canaries are as they were.
    pub fn must_hold(&self, asked: &dyn Debug, what: &str, first: &[u8]) {
        let length = self.0.len() - 2 * AROUND;
        let mut expected = old(length);
        expected[..first.len()].copy_from_slice(first);
        self.must_be(asked, what, &expected);
    }

    /// It holds these bytes, and the canaries are as they were.
    pub fn must_be(&self, asked: &dyn Debug, what: &str, bytes: &[u8]) {
        let expected = Self::holding(bytes);
        assert!(
            self.0 == expected.0,
            "{asked:?}\n{what}, canaries around it:\nours     {:02x?}\nexpected {:02x?}",
            self.0,
            expected.0
        );
    }
}

pub fn old(length: usize) -> Vec<u8> {
    (0..length).map(|place| 0x80 | place as u8).collect()
}

/// Ours and the judge's answer to what is asked.
pub fn must_agree(asked: &dyn Debug, ours: u32, expected: u32) {
    assert!(
        ours == expected,
        "{asked:?}\nours answers {ours:#x}, expected is {expected:#x}"
    );
}
