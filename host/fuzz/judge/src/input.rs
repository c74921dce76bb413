//! The fuzzer's bytes taken apart. Beyond their end there are zeros, so that every input is a whole case.

use differential::written;
use oracle::Op;

/// No drawn script has a body that is longer than this by more than one operation.
const MOST_BODY: usize = 4200;

pub struct Input<'a>(&'a [u8]);

impl<'a> Input<'a> {
    pub fn new(bytes: &'a [u8]) -> Self {
        Self(bytes)
    }

    pub fn is_over(&self) -> bool {
        self.0.is_empty()
    }

    pub fn byte(&mut self) -> u8 {
        self.bytes(1).first().copied().unwrap_or(0)
    }

    /// Up to so many bytes.
    pub fn bytes(&mut self, most: usize) -> &'a [u8] {
        let (taken, rest) = self.0.split_at(most.min(self.0.len()));
        self.0 = rest;
        taken
    }

    /// So many bytes.
    pub fn filled(&mut self, length: usize) -> Vec<u8> {
        let mut bytes = self.bytes(length).to_vec();
        bytes.resize(length, 0);
        bytes
    }

    pub fn array<const N: usize>(&mut self) -> [u8; N] {
        core::array::from_fn(|_| self.byte())
    }

    pub fn flag(&mut self) -> bool {
        self.byte() % 2 == 1
    }

    pub fn below(&mut self, bound: u8) -> usize {
        usize::from(self.byte() % bound)
    }

    pub fn short(&mut self) -> u16 {
        u16::from_be_bytes(self.array())
    }

    /// A small number, one of two bytes, one at the end of the range, or any.
    pub fn number(&mut self) -> u64 {
        match self.byte() {
            small @ 0..0xc0 => small.into(),
            0xc0..0xd8 => self.short().into(),
            0xd8..0xf0 => u64::MAX - u64::from(self.short()),
            _ => u64::from_be_bytes(self.array()),
        }
    }

    /// What is usual, or another number.
    pub fn mostly(&mut self, usual: usize) -> usize {
        match self.byte() {
            0..0xe0 => usual,
            0xe0..0xe8 => usual.saturating_sub(1),
            0xe8..0xf0 => usual + 1,
            _ => self.below(80),
        }
    }

    /// An address that is valid, or any.
    pub fn address(&mut self) -> u32 {
        match self.byte() {
            valid @ 0..0x80 => valid.into(),
            0x80 => u32::from_be_bytes(self.array()),
            other => other.into(),
        }
    }

    /// Eight words: planned ones, done or not, or any. A count goes from 0 to 256, one too far at either end.
    pub fn words(&mut self) -> [u32; 8] {
        core::array::from_fn(|_| {
            let form = self.byte();
            let done = u32::from(form >> 7) << 31;
            let mut counted = || u32::from(form & 1) + u32::from(self.byte());
            match form & 0x7f {
                0..0x10 => 0,
                0x10..0x20 => 0x3000 | done,
                0x20..0x30 => (0x0900 + counted()) | done,
                0x30..0x40 => (0x1800 + counted()) | done,
                0x40..0x50 => 0x1c01 | done,
                0x50..0x60 => 0x1000 | done,
                0x60..0x70 => 0x2000 | done,
                _ => u32::from_be_bytes(self.array()),
            }
        })
    }

    /// A script: any bytes, or operations that are written as one. It ends where `most` bytes are taken.
    pub fn script(&mut self, most: usize) -> Vec<u8> {
        let any = self.flag();
        let taken = self.bytes(most);
        if any {
            return taken.to_vec();
        }
        let mut left = Input(taken);
        let (mut operations, mut body) = (Vec::new(), 0);
        while !left.is_over() && body < MOST_BODY {
            let operation = left.operation();
            body += 3 + written_bytes(&operation);
            operations.push(operation);
        }
        written(&operations)
    }

    /// Short, or around the length of a piece or two, or of any length that a script may have.
    fn operation(&mut self) -> Op {
        let form = self.byte();
        let more = usize::from(form >> 3);
        let length = match form >> 1 & 3 {
            0 | 1 => more % 4,
            2 => [28, 61, 92, 4][more / 8] + more % 8,
            _ => usize::from(self.short()) % MOST_BODY,
        };
        if form % 2 == 1 {
            return Op::Read(length);
        }
        let first = usize::from(self.byte());
        Op::Write((0..length).map(|place| (first + 7 * place) as u8).collect())
    }
}

fn written_bytes(operation: &Op) -> usize {
    match operation {
        Op::Write(bytes) => bytes.len(),
        Op::Read(_) => 0,
    }
}
