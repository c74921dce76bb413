//! Running the proved programs.

use std::{
    fs,
    io::Write,
    path::{Path, PathBuf},
    process::{Command, Stdio},
    thread,
};

fn top() -> PathBuf {
    Path::new(env!("CARGO_MANIFEST_DIR")).join("../..")
}

/// A file that a program of the repository has beside its `src`.
pub fn committed(program: &str, file: &str) -> String {
    let path = top().join("crates").join(program).join(file);
    fs::read_to_string(&path).unwrap_or_else(|error| panic!("{}: {error}", path.display()))
}

/// What a proved program writes when it reads `input`. It has to be built: `rt run` in its folder, or `rt ci`.
pub fn run(program: &str, input: &str) -> String {
    let mut child = Command::new(top().join("tools/run"))
        .arg(program)
        .stdin(Stdio::piped())
        .stdout(Stdio::piped())
        .spawn()
        .expect("tools/run starts");
    let mut stdin = child.stdin.take().expect("a pipe");
    let text = input.to_owned();
    // The program writes before it has read all: both ends move at once.
    let writer = thread::spawn(move || stdin.write_all(text.as_bytes()));
    let output = child.wait_with_output().expect("the program ends");
    writer
        .join()
        .expect("the writer ends")
        .expect("the program reads all");
    assert!(
        output.status.success(),
        "{program} ended with {}",
        output.status
    );
    String::from_utf8(output.stdout).expect("text")
}
