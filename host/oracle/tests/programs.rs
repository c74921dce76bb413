//! The program `outcome_table` prints what it says it prints.

use std::process::Command;

fn lines(program: &str) -> Vec<String> {
    let output = Command::new(program).output().unwrap();
    assert!(output.status.success());
    let text = String::from_utf8(output.stdout).unwrap();
    text.lines().map(str::to_string).collect()
}

#[test]
fn outcome_table_has_a_line_for_each_combination() {
    let table = lines(env!("CARGO_BIN_EXE_outcome_table"));
    assert_eq!(table.len(), 256);
    for (bits, line) in table.iter().enumerate() {
        let widths: Vec<usize> = line.split(' ').map(str::len).collect();
        assert_eq!(widths, [2, 1, 4, 8, 16]);
        assert_eq!(line[..2], format!("{bits:02x}"));
    }
}

/// By hand from document 01.
#[test]
fn outcome_table_has_document_01s_answers() {
    let table = lines(env!("CARGO_BIN_EXE_outcome_table"));
    assert_eq!(table[0x00], "00 . ???T ....???I ???T???T....???I");
    assert_eq!(table[0x03], "03 U UUUU UUUUUUUU UUUUUUUUUUUUUUUU");
    assert_eq!(table[0x02], "02 L LLLL LLLLLLLL LLLLLLLLLLLLLLLL");
    assert_eq!(table[0x10], "10 T TTTT TTTTTTTT TTTTTTTTTTTTTTTT");
    assert_eq!(table[0x40], "40 D DDDD DDDDDDDD DDDDDDDDDDDDDDDD");
    assert_eq!(table[0x60], "60 . .... ....???I ....???I....???I");
    assert_eq!(table[0x90], "90 T .... TTTTTTTT TTTTTTTTTTTTTTTT");
}

/// The proved program `outcome_table` is held to this very table by its file `stdout`.
#[test]
fn outcome_table_is_what_the_proved_program_has_to_print() {
    let expected = include_str!("../../../crates/outcome_table/stdout");
    let printed = lines(env!("CARGO_BIN_EXE_outcome_table"));
    assert_eq!(expected, printed.join("\n") + "\n");
}
