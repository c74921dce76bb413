//! Asking both sides.

use core::fmt::Debug;

use crate::program;

pub trait Question: Debug {
    /// The line that the program reads.
    fn line(&self) -> String;

    /// What the Rust original answers, as the number that the program prints.
    fn oracle(&self) -> u64;
}

/// Numbers in hex with one space between them.
pub fn hex_line(numbers: &[u64]) -> String {
    let words: Vec<String> = numbers.iter().map(|number| format!("{number:x}")).collect();
    words.join(" ")
}

/// Says how many answers were compared, for the gate to count.
pub fn note_compared(program: &str, answers: usize) {
    println!("compared {answers} answers of {program}");
}

/// Asks both sides, and lists the first questions to which the answers differ.
pub fn disagreements(program: &str, questions: &[impl Question]) -> Vec<String> {
    let asked: String = questions
        .iter()
        .map(|question| question.line() + "\n")
        .collect();
    let answered = program::run(program, &asked);
    let answers: Vec<&str> = answered.lines().collect();
    assert_eq!(
        answers.len(),
        questions.len(),
        "an answer for each question"
    );
    note_compared(program, answers.len());
    questions
        .iter()
        .zip(answers)
        .filter(|(question, answer)| format!("{:016x}", question.oracle()) != *answer)
        .map(|(question, answer)| {
            format!(
                "{question:?}: the Rust {:x}, ours {answer}",
                question.oracle()
            )
        })
        .take(5)
        .collect()
}
