//! What happens to a transaction, as `drive`'s `plan` has it, and the Rust original run on that.

use oracle::{List, Op, Sample, Setup, Snapshot, Trace, Turn};

use super::{Moment, Odd, Transaction};

/// Transfer complete and acknowledged, every command done.
const COMPLETED: (u8, u8) = (0x60, 0xff);

impl Transaction {
    /// `transaction_impl`. A busy bus is cleared at once, so that a fixed deadline starts at acceptance.
    pub(super) fn run(&self, operations: &[Op]) -> Trace {
        let free = Sample {
            now: self.start,
            sda_high: true,
        };
        let setup = Setup {
            timeout: self.timeout,
            bus_busy: self.busy,
            now: self.start,
            clear: vec![free],
            ..Setup::default()
        };
        let address = self.address.try_into().expect("a valid address");
        oracle::transaction(address, operations, &setup, |place, list| {
            self.turn(place + 1, list)
        })
    }

    fn turn(&self, number: usize, list: &List) -> Turn {
        Turn {
            now: self.clock(Moment {
                list: number,
                snapshot: 0,
            }),
            snapshots: self.snapshots(number, list),
            received: self.received(number, list),
        }
    }

    fn clock(&self, moment: Moment) -> u64 {
        self.start + self.step * moment.place()
    }

    fn odd_at(&self, moment: Moment) -> Option<&Odd> {
        self.odd.iter().find(|odd| odd.moment == moment)
    }

    pub(super) fn snapshot(&self, moment: Moment, list: &List) -> Snapshot {
        let odd = self.odd_at(moment).map(|odd| (odd.bits, odd.done));
        let (bits, done) = odd.unwrap_or(COMPLETED);
        let marked = |slot| list.words[slot] | u32::from(done >> slot & 1) << 31;
        Snapshot::from_bits(bits, core::array::from_fn(marked), self.clock(moment))
    }

    /// The snapshots of a list, up to the first that shows it completed, or until the transaction is given up.
    pub(super) fn snapshots(&self, number: usize, list: &List) -> Vec<Snapshot> {
        let mut shown = Vec::new();
        for snapshot in 1.. {
            let moment = Moment {
                list: number,
                snapshot,
            };
            if self.abandon == Some(moment) {
                break;
            }
            shown.push(self.snapshot(moment, list));
            if self.odd_at(moment).is_none() {
                break;
            }
        }
        shown
    }

    /// The bytes that are handed in for a list; none is 0.
    fn received(&self, number: usize, list: &List) -> Vec<u8> {
        let short = self.short.filter(|short| short.list == number);
        let missing = short.map_or(0, |short| short.missing);
        let first = usize::from(self.seed) + number * 13;
        (0..list.reads().saturating_sub(missing))
            .map(|i| ((first + i * 7) % 255 + 1) as u8)
            .collect()
    }
}
