//! The lists that the programs answer without Rust are the Rust original's.

use differential::{committed, fixed_list, note_compared};

fn assert_committed(program: &str, length: usize) {
    let list = fixed_list(program);
    assert_eq!(list.len(), length);
    let questions: String = list.iter().map(|question| question.line() + "\n").collect();
    let answers: String = list
        .iter()
        .map(|question| format!("{:016x}\n", question.oracle()))
        .collect();
    assert_eq!(committed(program, "stdin"), questions);
    assert_eq!(committed(program, "stdout"), answers);
    note_compared(program, list.len());
}

#[test]
fn replays_list_is_the_oracles() {
    assert_committed("replay", 3843);
}

#[test]
fn drives_list_is_the_oracles() {
    assert_committed("drive", 964);
}
