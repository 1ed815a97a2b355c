//! The program's three lines and its refusals.

use crate::support::{hex, repeated};
use std::io::Write;
use std::process::{Command, Stdio};

fn output(word: &[u8]) -> String {
    let mut program = Command::new(env!("CARGO_BIN_EXE_reference"))
        .stdin(Stdio::piped())
        .stdout(Stdio::piped())
        .spawn()
        .unwrap();
    let mut input = program.stdin.take().unwrap();
    input.write_all(word).unwrap();
    drop(input);
    let output = program.wait_with_output().unwrap();
    assert!(output.status.success() && output.stderr.is_empty());
    String::from_utf8(output.stdout).unwrap()
}

#[test]
fn the_worked_example() {
    let expected = "\
plain 03000302000000020000
minimal 02000301020000
normal 020a0405
";
    assert_eq!(output(&hex("02 0A 04 05 02 05 04")), expected);
}

#[test]
fn empty_is_an_answer() {
    assert_eq!(output(&hex("00")), "plain 00\nminimal 00\nnormal 00\n");
}

#[test]
fn refusals_are_one_line() {
    assert_eq!(output(&[]), "refused 6 0\n");
    assert_eq!(output(&hex("02 80")), "refused 2 1\n");
    assert_eq!(output(&repeated("", 257, "01")), "refused 4 256\n");
    assert_eq!(output(&repeated("01", 4_096, "08")), "refused 1 4096\n");
    assert_eq!(output(&repeated("01", 9_000, "08")), "refused 1 4096\n");
}

#[test]
fn the_longest_word_is_read_whole() {
    let word = repeated("01", 4_095, "08");
    assert_eq!(
        output(&word),
        "plain 01000300\nminimal 01000300\nnormal 01\n"
    );
}
