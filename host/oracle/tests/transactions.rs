//! Whole transactions: scripted waits, received bytes, deadlines, the busy bus.

use std::task::Poll;

use oracle::*;

const ADDRESS: u8 = 0x29;

fn completes(_place: usize, list: &List) -> Turn {
    Turn::completed(list, 0)
}

#[test]
fn received_bytes_land_in_their_buffers() {
    let operations = [Op::Write(vec![1]), Op::Read(2), Op::Read(0), Op::Read(2)];
    let trace = transaction(ADDRESS, &operations, &Setup::default(), |place, list| {
        Turn {
            received: [vec![], vec![5, 6], vec![7, 8]][place].clone(),
            ..completes(place, list)
        }
    });
    assert_eq!(trace.result, Some(Ok(())));
    assert_eq!(trace.reads, [vec![5, 6], vec![], vec![7, 8]]);
    let words = |place: usize| &trace.lists[place].list.words[..4];
    assert_eq!(words(1), [0x3000, 0x0901, 0x1802, 0x2000]);
    assert_eq!(words(2), [0x1801, 0x1c01, 0x1000, 0x2000]);
}

#[test]
fn fewer_bytes_than_wanted_end_it_and_earlier_pieces_stay() {
    let turns = |place, list: &List| Turn {
        received: vec![9; [31, 8][place]],
        ..completes(place, list)
    };
    let trace = transaction(ADDRESS, &[Op::Read(40)], &Setup::default(), turns);
    assert_eq!(trace.result, Some(Err(Error::ExecutionIncomplete)));
    assert_eq!(trace.reads[0], [&[9; 31][..], &[0; 9]].concat());
}

#[test]
fn run_is_pending_when_the_snapshots_are_spent() {
    let turns = |_, _: &List| Turn {
        snapshots: vec![Snapshot::default(); 3],
        ..Turn::default()
    };
    let trace = transaction(ADDRESS, &[Op::Write(vec![1])], &Setup::default(), turns);
    assert_eq!(trace.result, None);
    assert_eq!(trace.lists[0].snapshots, 3);
    assert_eq!(trace.clear, None);
}

/// Numbers that are the same in every run.
struct Random(u64);

impl Random {
    fn below(&mut self, bound: u64) -> u64 {
        self.0 ^= self.0 << 13;
        self.0 ^= self.0 >> 7;
        self.0 ^= self.0 << 17;
        self.0 % bound
    }

    /// Rarely an error, a clock around the deadlines, commands done or not.
    fn snapshot(&mut self) -> Snapshot {
        let any = self.below(256) as u8;
        let bits = if self.below(4) == 0 {
            any
        } else {
            any & 0xa0 | 0x20
        };
        let done = |random: &mut Self| (random.below(2) as u32) << 31;
        let (start, write) = (0x3000 | done(self), 0x0902 | done(self));
        Snapshot::from_bits(bits, [start, write, 0x2000, 0, 0, 0, 0, 0], self.below(4))
    }
}

#[test]
fn each_list_waits_as_classify_says() {
    let random = &mut Random(1);
    let timeouts = [Timeout::None, Timeout::Transaction(2), Timeout::PerByte(1)];
    for round in 0..20_000 {
        let setup = Setup {
            timeout: timeouts[round % 3],
            ..Setup::default()
        };
        let snapshots: Vec<Snapshot> = (0..random.below(5)).map(|_| random.snapshot()).collect();
        let turns = |_, _: &List| Turn {
            snapshots: snapshots.clone(),
            ..Turn::default()
        };
        let trace = transaction(ADDRESS, &[Op::Write(vec![1]), Op::Read(1)], &setup, turns);

        let due = trace.lists[0].due;
        let (mut polled, mut seen, mut answer) = (false, 0, Poll::Pending);
        for snapshot in &snapshots {
            seen += 1;
            answer = classify(snapshot, polled, due);
            if answer.is_ready() {
                break;
            }
            polled |= poll_completion(snapshot, due) == Poll::Ready(Ok(()));
        }
        assert_eq!(trace.lists[0].snapshots, seen);
        match answer {
            Poll::Pending => assert_eq!(trace.result, None),
            Poll::Ready(Ok(())) => assert_eq!(trace.lists.len(), 2),
            Poll::Ready(error) => assert_eq!(trace.result, Some(error)),
        }
    }
}

fn due_times(timeout: Timeout) -> Vec<Option<u64>> {
    let setup = Setup {
        timeout,
        now: 1000,
        ..Setup::default()
    };
    let operations = [Op::Write(vec![0; 40]), Op::Read(2)];
    let trace = transaction(ADDRESS, &operations, &setup, |_, list| {
        Turn::completed(list, 2000)
    });
    assert_eq!(trace.result, Some(Ok(())));
    trace.lists.iter().map(|handed| handed.due).collect()
}

#[test]
fn due_times_are_none_fixed_or_per_byte() {
    assert_eq!(due_times(Timeout::None), [None; 3]);
    assert_eq!(due_times(Timeout::Transaction(5000)), [Some(6000); 3]);
    let per_byte = [32, 10, 3].map(|bytes| Some(2000 + 10 * bytes));
    assert_eq!(due_times(Timeout::PerByte(10)), per_byte);
}

#[test]
fn busy_bus_is_cleared_first_without_a_reset() {
    let setup = Setup {
        pins: true,
        bus_busy: true,
        clear: (1..30)
            .map(|i| Sample {
                now: 5 * i,
                sda_high: true,
            })
            .collect(),
        clear_limit: 1000,
        ..Setup::default()
    };
    let trace = transaction(ADDRESS, &[Op::Write(vec![1])], &setup, completes);
    let clear = trace.clear.unwrap();
    assert_eq!((clear.ending, clear.polls), (Ending::Ready, 3));
    assert!(!clear.effects.contains(&Effect::Reset));
    assert_eq!(trace.result, Some(Ok(())));
    assert_eq!(trace.lists.len(), 1);
}

#[test]
fn busy_bus_is_cleared_even_for_no_operation() {
    let setup = Setup {
        bus_busy: true,
        clear: vec![Sample {
            now: 0,
            sda_high: true,
        }],
        ..Setup::default()
    };
    let trace = transaction(ADDRESS, &[Op::Read(0)], &setup, completes);
    assert_eq!(trace.clear.map(|clear| clear.polls), Some(1));
    assert_eq!(trace.result, Some(Ok(())));
    assert_eq!(trace.lists, []);
}

#[test]
fn busy_bus_that_stays_busy_holds_everything_up() {
    let setup = Setup {
        pins: true,
        bus_busy: true,
        ..Setup::default()
    };
    let trace = transaction(ADDRESS, &[Op::Write(vec![1])], &setup, completes);
    assert_eq!(trace.result, None);
    assert_eq!(
        trace.clear.map(|clear| clear.ending),
        Some(Ending::TapeOver)
    );
    assert_eq!(trace.lists, []);
}

#[test]
fn clear_that_is_given_up_leaves_the_clock_at_its_last_sample() {
    let low = |now| Sample {
        now,
        sda_high: false,
    };
    let setup = Setup {
        timeout: Timeout::Transaction(1000),
        pins: true,
        bus_busy: true,
        clear: [5, 10, 15, 20].map(low).to_vec(),
        clear_limit: 10,
        ..Setup::default()
    };
    let trace = transaction(ADDRESS, &[Op::Write(vec![1])], &setup, completes);
    let clear = trace.clear.unwrap();
    assert_eq!((clear.ending, clear.polls), (Ending::GivenUp, 3));
    assert_eq!(trace.lists[0].due, Some(1015));
}
