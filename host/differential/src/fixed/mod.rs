//! The fixed lists of questions that the programs answer without Rust.

mod drive;
mod replay;

use crate::Question;

pub fn fixed_list(program: &str) -> Vec<Box<dyn Question>> {
    match program {
        "replay" => replay::questions(),
        "drive" => drive::questions(),
        other => panic!("no fixed list for `{other}`"),
    }
}

fn boxed(question: impl Question + 'static) -> Box<dyn Question> {
    Box::new(question)
}
