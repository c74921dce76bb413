//! The bus clear against the pin version of the Rust's.

use differential::{Random, RunQuestion, StepQuestion, disagreements};
use oracle::ClearState;

fn states() -> Vec<ClearState> {
    let clocks = (0..=255).flat_map(|n| [false, true].map(|high| ClearState::SendClock(n, high)));
    [ClearState::Idle, ClearState::SendStop]
        .into_iter()
        .chain(clocks)
        .collect()
}

/// A trap's message is of no use where a trap is what is looked for.
fn quietly<R>(run: impl FnOnce() -> R) -> R {
    std::panic::set_hook(Box::new(|_| {}));
    let answer = run();
    let _ = std::panic::take_hook();
    answer
}

#[test]
fn steps_agree_from_every_state() {
    let mut questions = Vec::new();
    for state in states() {
        for (wait, now) in [
            (100, 99),
            (100, 100),
            (100, 101),
            (0, u64::MAX - 5),
            (0, u64::MAX - 4),
            (u64::MAX, u64::MAX),
        ] {
            for flags in 0..8 {
                let [pins, sda] = [flags & 1 != 0, flags & 2 != 0];
                questions.push(StepQuestion {
                    state,
                    wait,
                    pins,
                    now,
                    sda,
                    part: flags >> 2,
                });
            }
        }
    }
    assert_eq!(questions.len(), 514 * 6 * 8);
    let found = quietly(|| disagreements("replay", &questions));
    assert!(found.is_empty(), "{}", found.join("\n"));
}

#[test]
fn runs_agree_on_a_hundred_thousand_random_tapes() {
    let mut random = Random::new(0xc1ea_4b05);
    let mut questions = Vec::new();
    for _ in 0..100_000 {
        let run = RunQuestion::random(&mut random);
        questions.extend([
            RunQuestion { part: 0, ..run },
            RunQuestion { part: 1, ..run },
        ]);
    }
    let found = disagreements("replay", &questions);
    assert!(found.is_empty(), "{}", found.join("\n"));
}
