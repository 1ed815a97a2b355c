//! The programs, run as the gate runs them but for the library.

use std::process::{Command, Output};

fn compare(arguments: &[&str]) -> Output {
    let mut program = Command::new(env!("CARGO_BIN_EXE_stand-in"));
    program.args(arguments).output().expect("compare runs")
}

fn corpus(arguments: &[&str]) -> Output {
    let mut program = Command::new(env!("CARGO_BIN_EXE_corpus"));
    program.args(arguments).output().expect("corpus runs")
}

fn printed(output: &Output) -> String {
    String::from_utf8(output.stdout.clone()).expect("text is printed")
}

#[test]
fn enough_words_agree_and_are_counted_in_one_line() {
    let output = compare(&["--words", "400"]);
    assert_eq!(output.status.code(), Some(0), "{}", printed(&output));
    assert_eq!(printed(&output).lines().count(), 1);
    assert!(printed(&output).contains("400 words"));
    assert_eq!(printed(&output), printed(&compare(&["--words", "400"])));
}

#[test]
fn too_few_words_fail() {
    let output = compare(&["--seed", "3", "--words", "2"]);
    assert_eq!(output.status.code(), Some(1));
    assert!(printed(&output).contains("never occurred: refusal 1"));
}

#[test]
fn wrong_options_are_told() {
    assert_eq!(compare(&["--word", "2"]).status.code(), Some(2));
    assert_eq!(corpus(&[]).status.code(), Some(1));
}

#[test]
fn a_corpus_is_written_alike_twice_and_checked() {
    let folder = std::path::Path::new(env!("CARGO_TARGET_TMPDIR"));
    let files = ["one.bin", "other.bin"].map(|name| folder.join(name));
    let names = files
        .each_ref()
        .map(|file| file.to_str().expect("a plain name"));
    let lines = names.map(|name| printed(&corpus(&[name])));
    assert_eq!(lines[0], lines[1]);
    assert_eq!(printed(&corpus(&["--check", names[0]])), lines[0]);
    let line = printed(&corpus(&["--line", names[0]]));
    assert!(line.starts_with("4014 cases, ") && line.ends_with(" calls\n"));
    let bytes = std::fs::read(&files[0]).expect("was written");
    assert!(bytes.len() < 1_000_000, "{} bytes", bytes.len());
    // The first result, behind a word of 256 bytes, the number of cases, and a
    // byte cut off at the end.
    let damages: [fn(&mut Vec<u8>); 3] = [
        |bytes| bytes[284] ^= 1,
        |bytes| bytes[8] ^= 1,
        |bytes| bytes.truncate(bytes.len() - 1),
    ];
    for damage in damages {
        let mut damaged = bytes.clone();
        damage(&mut damaged);
        std::fs::write(&files[1], damaged).expect("can be written");
        assert_eq!(corpus(&["--check", names[1]]).status.code(), Some(1));
    }
}
