//! Prints the fixed list of a program: its questions, or the Rust original's answers.
//!
//!     cargo run --release --bin fixed_list replay questions >../../crates/replay/stdin
//!     cargo run --release --bin fixed_list replay answers >../../crates/replay/stdout
//!
//! and the same for `drive`.

fn main() {
    let words: Vec<String> = std::env::args().skip(1).collect();
    let words: Vec<&str> = words.iter().map(String::as_str).collect();
    let [program, wanted] = words[..] else {
        panic!("a program, and `questions` or `answers`");
    };
    for question in differential::fixed_list(program) {
        match wanted {
            "questions" => println!("{}", question.line()),
            "answers" => println!("{:016x}", question.oracle()),
            other => panic!("`questions` or `answers`, not `{other}`"),
        }
    }
}
