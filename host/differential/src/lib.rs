//! The Rust original and the proved crates on the same inputs.
//!
//! A question is a line of hex numbers that the program `replay` or `drive`
//! answers with one number; the oracle's answer to the same question is worked
//! out here.

mod clears;
mod fixed;
mod leaves;
mod lists;
mod program;
mod question;
mod random;
mod scripts;
mod told;
mod transactions;

pub use clears::{RunQuestion, StepQuestion};
pub use fixed::fixed_list;
pub use leaves::{Leaf, Observed, numbered};
pub use lists::{Kind, ListQuestion, PARTS};
pub use program::{committed, run};
pub use question::{Question, disagreements, note_compared};
pub use random::Random;
pub use scripts::{Starts, operations, read_total, with_body, written};
pub use told::Told;
pub use transactions::{Moment, Odd, Short, Transaction};
