//! The bus clear: the view into it, and whole runs.

use std::task::Poll;

use oracle::{ClearState::*, Effect::*, *};

/// What a fresh clear is after so many acting polls with SDA low.
fn state_after(polls: usize) -> ClearState {
    match polls {
        20 => Idle,
        19 => SendStop,
        even if even % 2 == 0 => SendClock(9 - even as u8 / 2, false),
        odd => SendClock(8 - odd as u8 / 2, true),
    }
}

#[test]
fn mirror_shows_every_reachable_state() {
    for reset_fsm in [false, true] {
        for polls in 0..=20 {
            let clear = Clear::driven(reset_fsm, polls);
            assert_eq!(clear.state, state_after(polls));
            assert_eq!(clear.wait, 5 * (polls.min(19) as u64 + 1));
            assert_eq!((clear.reset_fsm, clear.pins), (reset_fsm, true));
        }
    }
}

#[test]
fn mirror_makes_every_reachable_state() {
    for polls in 0..=20 {
        let mut made = Clear {
            state: state_after(polls),
            wait: 0,
            pins: true,
            reset_fsm: polls % 2 == 0,
        };
        assert_eq!(made.end()[..2], [Scl(true), Sda(true)]);
        assert_eq!(made.end().contains(&Reset), made.reset_fsm);
        for later in polls + 1..=20 {
            let (answer, effects) = made.poll(made.wait, false);
            assert_eq!(answer, Poll::Pending);
            assert!(!effects.is_empty());
            assert_eq!(made.state, state_after(later));
        }
        assert_eq!(made.poll(0, true), (Poll::Ready(()), vec![]));
    }
}

#[test]
fn clear_takes_any_count_and_goes_without_pins() {
    let mut clear = Clear {
        state: SendClock(255, false),
        wait: 10,
        pins: false,
        reset_fsm: true,
    };
    assert_eq!(clear.poll(9, true), (Poll::Pending, vec![]));
    assert_eq!(clear.state, SendClock(255, false));
    assert_eq!(clear.poll(10, true), (Poll::Pending, vec![]));
    assert_eq!((clear.state, clear.wait), (SendClock(254, true), 15));
    assert_eq!(clear.end(), []);
}

#[test]
fn send_stop_and_idle_keep_the_wait() {
    let mut clear = Clear {
        state: SendStop,
        wait: 10,
        pins: true,
        reset_fsm: false,
    };
    assert_eq!(
        clear.poll(u64::MAX, false),
        (Poll::Pending, vec![Sda(true)])
    );
    assert_eq!((clear.state, clear.wait), (Idle, 10));
    assert_eq!(clear.poll(0, false), (Poll::Pending, vec![]));
    assert_eq!(clear.poll(0, true), (Poll::Ready(()), vec![]));
}

#[test]
fn last_clock_does_not_look_at_sda() {
    let mut clear = Clear {
        state: SendClock(0, false),
        wait: 0,
        pins: true,
        reset_fsm: false,
    };
    assert_eq!(
        clear.poll(0, true),
        (Poll::Pending, vec![Sda(false), Scl(true)])
    );
    assert_eq!((clear.state, clear.wait), (SendStop, 5));
}

/// Samples every 5 microseconds from 5 on.
fn every_five(count: u64, sda_high: impl Fn(u64) -> bool) -> Vec<Sample> {
    let sample = |i| Sample {
        now: 5 * (i + 1),
        sda_high: sda_high(i),
    };
    (0..count).map(sample).collect()
}

#[test]
fn run_is_ready_once_sda_is_released() {
    let run = clear_bus_blocking(true, true, 0, 1000, &every_five(30, |i| i >= 4));
    let clocks = [Scl(true), Scl(false), Scl(true), Scl(false)];
    let stop = [Scl(true), Sda(false), Sda(true)];
    let ends = [Scl(true), Sda(true), Reset];
    let all = [&[Sda(true), Scl(false)], &clocks[..], &stop, &ends].concat();
    assert_eq!((run.ending, run.polls), (Ending::Ready, 7));
    assert_eq!(run.effects, all);
}

#[test]
fn run_agrees_with_its_polls() {
    for released in 0..25 {
        let tape = every_five(40, |i| i >= released);
        let run = clear_bus_blocking(true, false, 0, 1000, &tape);
        let (mut clear, mut effects) = Clear::fresh(true, false, 0);
        let mut polls = 0;
        for sample in &tape {
            polls += 1;
            let (answer, done) = clear.poll(sample.now, sample.sda_high);
            effects.extend(done);
            if answer.is_ready() {
                break;
            }
        }
        effects.extend(clear.end());
        assert_eq!((run.polls, run.effects), (polls, effects));
    }
}

#[test]
fn run_gives_up_past_the_limit_and_not_at_it() {
    let tape = every_five(40, |_| false);
    let run = clear_bus_blocking(true, false, 0, 100, &tape);
    assert_eq!((run.ending, run.polls), (Ending::GivenUp, 21));
    let run = clear_bus_blocking(true, false, 0, 104, &tape);
    assert_eq!(run.polls, 21);
    let run = clear_bus_blocking(true, false, 0, 105, &tape);
    assert_eq!(run.polls, 22);
}

#[test]
fn run_releases_the_bus_when_the_tape_is_over() {
    let run = clear_bus_blocking(true, true, 0, 100, &[]);
    assert_eq!((run.ending, run.polls), (Ending::TapeOver, 0));
    assert_eq!(
        run.effects,
        [Sda(true), Scl(false), Scl(true), Sda(true), Reset]
    );
}

#[test]
fn abandoning_a_pending_wait_clears_the_bus_with_a_reset() {
    let pending = Snapshot::default();
    let run = abandon_and_clear(&pending, 1000, &every_five(30, |i| i >= 1)).unwrap();
    assert_eq!(run.ending, Ending::Ready);
    assert_eq!(run.effects.last(), Some(&Reset));

    let done = Snapshot::from_bits(0xb0, [0; 8], 0);
    assert_eq!(abandon_and_clear(&done, 1000, &[]), None);
}
