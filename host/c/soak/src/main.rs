//! The library through its C calls against the Rust original, on inputs drawn at random.
//!
//!     soak COUNT SECONDS [SEED]
//!
//! Asks up to COUNT questions, for at most so many seconds, and prints the seed, how many of each kind were asked, and a tally.

mod calls;
mod clears;
mod snapshots;
mod transactions;

use std::{
    fmt::Debug,
    process::ExitCode,
    time::{Duration, Instant, SystemTime, UNIX_EPOCH},
};

use differential::{Leaf, Question, Random, RunQuestion, Transaction};

#[link(name = "sitankulo", kind = "static")]
unsafe extern "C" {}

/// One question in so many is a transaction that fills its script.
const FULL: u64 = 5000;

const MOST_PRINTED: u64 = 10;

#[derive(Default)]
struct Tally {
    transactions: u64,
    snapshots: u64,
    steps: u64,
    runs: u64,
    failed: u64,
}

impl Tally {
    fn asked(&self) -> u64 {
        self.transactions + self.snapshots + self.steps + self.runs
    }

    fn compare(&mut self, question: &impl Question, ours: u64) {
        let original = question.oracle();
        if original == ours {
            return;
        }
        self.failed += 1;
        if self.failed <= MOST_PRINTED {
            println!("{question:?}: the Rust {original:x}, ours {ours:x}");
        }
    }

    fn ask(&mut self, random: &mut Random) {
        match random.below(10) {
            0..3 => {
                let asked = if random.chance(FULL) {
                    Transaction::random_full(random)
                } else {
                    Transaction::random(random)
                };
                self.transactions += 1;
                self.compare(&asked, transactions::ours(&asked));
            }
            3..6 => {
                let asked = Leaf::random_outcome(random);
                let Leaf::Outcome(observed) = &asked else {
                    unreachable!("an outcome was drawn")
                };
                self.snapshots += 1;
                self.compare(&asked, snapshots::ours(observed));
            }
            6..9 => {
                let asked = clears::random_step(random);
                self.steps += 1;
                self.compare(&asked, clears::ours(&asked));
            }
            _ => {
                let asked = RunQuestion::random(random);
                self.runs += 1;
                self.compare(&asked, clears::ours_run(&asked));
            }
        }
    }
}

fn number<T: std::str::FromStr<Err: Debug>>(text: &str) -> T {
    text.parse().expect("a number")
}

fn main() -> ExitCode {
    let arguments: Vec<String> = std::env::args().skip(1).collect();
    let (count, seconds, seed): (u64, u64, u64) = match &arguments[..] {
        [count, seconds] => {
            let since = SystemTime::now()
                .duration_since(UNIX_EPOCH)
                .expect("a clock");
            (number(count), number(seconds), since.as_nanos() as u64)
        }
        [count, seconds, seed] => (number(count), number(seconds), number(seed)),
        _ => panic!("usage: soak COUNT SECONDS [SEED]"),
    };
    println!("seed {seed}");
    // Where the Rust's clock overflows it traps, which the differential tests catch.
    std::panic::set_hook(Box::new(|panic| {
        if !panic.to_string().contains("overflows") {
            eprintln!("{panic}");
        }
    }));
    let (mut random, mut tally) = (Random::new(seed), Tally::default());
    let end = Instant::now() + Duration::from_secs(seconds);
    while tally.asked() < count && (tally.asked() % 1024 != 0 || Instant::now() < end) {
        tally.ask(&mut random);
    }
    println!(
        "{} transactions, {} snapshots, {} clear steps, {} clear runs",
        tally.transactions, tally.snapshots, tally.steps, tally.runs
    );
    println!(
        "{} passed, {} failed",
        tally.asked() - tally.failed,
        tally.failed
    );
    if tally.failed == 0 {
        ExitCode::SUCCESS
    } else {
        ExitCode::FAILURE
    }
}
