//! The program `noticecheck`: each letter's notice written once more, or the place and cause of its fault.

use crate::kinds::Trim;
use crate::notice::{Notice, number_word};
use crate::refusal::Fault;
use std::io::{self, Read, Write};

const MOST_BYTES: u64 = 1_048_576;
const LONGEST_LETTER: usize = 65_536;

pub fn run() -> io::Result<()> {
    io::stdout().write_all(answers(io::stdin().lock())?.as_bytes())
}

pub fn answers(input: impl Read) -> io::Result<String> {
    let mut bytes = Vec::new();
    input.take(MOST_BYTES).read_to_end(&mut bytes)?;
    let mut answers = String::new();
    let mut rest = &bytes[..];
    while !rest.is_empty() {
        let (letter, behind) = first_form(rest);
        answers += &letter.map_or_else(|| "(refused 14)\n".to_owned(), answer);
        rest = behind;
    }
    Ok(answers)
}

/// The first form's letter, if the form is a good one, and the input behind the form.
fn first_form(input: &[u8]) -> (Option<&[u8]>, &[u8]) {
    let Some(end) = input.iter().position(|&byte| byte == b'\n') else { return (None, &[]) };
    let (line, behind) = (&input[..end], &input[end + 1..]);
    // The length alone tells where a letter ends, since its bytes may look like further lines.
    let Some(length) = letter_length(line) else { return (None, behind) };
    match behind.split_at_checked(length) {
        Some((letter, behind)) => (Some(letter), behind),
        None => (None, &[]),
    }
}

fn letter_length(line: &[u8]) -> Option<usize> {
    let word = line.strip_prefix(b"(letter ")?.strip_suffix(b")")?;
    let length = usize::try_from(number_word(word)?).ok()?;
    (length <= LONGEST_LETTER).then_some(length)
}

fn answer(letter: &[u8]) -> String {
    match Notice::<Trim>::read(letter) {
        // The writer's text and not the letter itself, so that the two are compared.
        Ok(notice) => notice.to_string(),
        Err(Fault { place, cause }) => format!("(refused 14 {place} {})\n", cause.name()),
    }
}
