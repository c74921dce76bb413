//! What a transaction shows to its caller, one number after another, as the program `drive` tells it.

use crate::question::hex_line;

/// The largest prime below 2^40.
const PRIME: u64 = 1_099_511_627_689;

const FACTOR: u64 = 4_194_301;

#[derive(Clone, Debug, Default)]
pub struct Told(Vec<u64>);

impl Told {
    pub fn tell(&mut self, number: u64) {
        self.0.push(number);
    }

    pub fn tell_all(&mut self, numbers: impl IntoIterator<Item = impl Into<u64>>) {
        self.0.extend(numbers.into_iter().map(Into::into));
    }

    fn digest(&self) -> u64 {
        let halves = self
            .0
            .iter()
            .flat_map(|number| [number >> 32, number & 0xffff_ffff]);
        halves.fold(0, |digest, half| (digest * FACTOR + half + 1) % PRIME)
    }

    /// The number that `drive` prints: two digits for the number of the last answer, one for its reason, three for how
    /// many lists there were, ten for the digest.
    pub fn answer(&self, [number, reason]: [u64; 2], lists: usize) -> u64 {
        number << 56 | reason << 52 | (lists as u64) << 40 | self.digest()
    }

    /// All that was told, in hex.
    pub fn in_full(&self) -> String {
        hex_line(&self.0)
    }
}
