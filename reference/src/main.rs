//! The program: reads up to 4,097 bytes of standard input as one word and
//! writes its plain image, minimal image and normal form, or the refusal.

use reference::{minimal_image, normal_form, plain_image, Refusal};
use reference::{LONGEST_NORMAL_FORM, LONGEST_WORD};
use std::io::{self, Read, Write};

type Writer = fn(&[u8], &mut [u8]) -> Result<usize, Refusal>;

const LINES: [(&str, Writer); 3] = [
    ("plain", plain_image),
    ("minimal", minimal_image),
    ("normal", normal_form),
];

fn main() -> io::Result<()> {
    let mut word = Vec::new();
    // One byte beyond the longest word is enough to tell that it is too long.
    let mut input = io::stdin().lock().take(LONGEST_WORD as u64 + 1);
    input.read_to_end(&mut word)?;
    let output = lines(&word)
        .unwrap_or_else(|Refusal { number, place }| format!("refused {number} {place}\n"));
    io::stdout().write_all(output.as_bytes())
}

fn lines(word: &[u8]) -> Result<String, Refusal> {
    let mut lines = String::new();
    // The longest of the three answers fits, so no refusal 7 comes from here.
    let mut room = [0; LONGEST_NORMAL_FORM];
    for (name, writer) in LINES {
        let length = writer(word, &mut room)?;
        let hex: String = room[..length]
            .iter()
            .map(|byte| format!("{byte:02x}"))
            .collect();
        lines += &format!("{name} {hex}\n");
    }
    Ok(lines)
}
