//! The C calls on inputs that libFuzzer makes up, judged by the Rust original.
//!
//! The environment names the target: FUZZ_TARGET=transactions. An input on which ours differs is told in words, and the program aborts.

#[path = "../../../c/soak/src/calls.rs"]
mod calls;
mod clear_runs;
mod clears;
mod controller;
mod foreign;
mod input;
mod lent;
mod lists;
mod model;
mod other_calls;
mod record;
mod rules;
mod snapshots;
mod transactions;
#[path = "../../../c/soak/src/transactions.rs"]
mod whole;

use std::{
    panic::{catch_unwind, set_hook},
    process::abort,
    sync::OnceLock,
};

use input::Input;

type Target = fn(&mut Input<'_>);

const TARGETS: [(&str, Target); 6] = [
    ("transactions", transactions::run),
    ("foreign", foreign::run),
    ("clears", clears::run),
    ("snapshots", snapshots::run),
    ("lists", lists::run),
    ("controller", controller::run),
];

static TARGET: OnceLock<Target> = OnceLock::new();

/// Where the Rust's clock overflows it traps, which the judge catches.
fn be_silent_on_overflows() {
    set_hook(Box::new(|panic| {
        if !panic.to_string().contains("overflows") {
            eprintln!("{panic}");
        }
    }));
}

fn named_target() -> Target {
    be_silent_on_overflows();
    let name = std::env::var("FUZZ_TARGET").unwrap_or_default();
    let Some((_, target)) = TARGETS.iter().find(|(known, _)| *known == name) else {
        eprintln!(
            "FUZZ_TARGET is one of {:?}",
            TARGETS.map(|(known, _)| known)
        );
        std::process::exit(2);
    };
    *target
}

/// # Safety
///
/// `data` points to `size` bytes.
#[unsafe(no_mangle)]
pub unsafe extern "C" fn LLVMFuzzerTestOneInput(data: *const u8, size: usize) -> i32 {
    let bytes = match size {
        0 => &[],
        _ => unsafe { core::slice::from_raw_parts(data, size) },
    };
    let target = TARGET.get_or_init(named_target);
    if catch_unwind(|| target(&mut Input::new(bytes))).is_err() {
        abort();
    }
    0
}
