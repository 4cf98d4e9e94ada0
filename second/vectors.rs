//! The program `vectors`: one hash, or a refusal, for each line.

use crate::hash::{Family, Fnv, Pearson, fnv1a};
use crate::kinds::{Part, PartNumber};
use crate::notice::number_word;
use std::io::{self, Read, Write};

const MOST_BYTES: u64 = 65_536;
const LARGEST_SEED: u32 = 319;

pub fn run() -> io::Result<()> {
    io::stdout().write_all(answers(io::stdin().lock())?.as_bytes())
}

pub fn answers(input: impl Read) -> io::Result<String> {
    let mut text = Vec::new();
    input.take(MOST_BYTES).read_to_end(&mut text)?;
    // The lines keep their ends, since one without is unfinished.
    let lines = text.split_inclusive(|&byte| byte == b'\n');
    let answers = lines.map(|line| match line.strip_suffix(b"\n").and_then(hash_of_line) {
        Some(hash) => format!("{hash:08X}\n"),
        None => "(refused 14)\n".to_owned(),
    });
    Ok(answers.collect())
}

fn hash_of_line(line: &[u8]) -> Option<u32> {
    let inner = line.strip_prefix(b"(")?.strip_suffix(b")")?;
    if let Some(text) = inner.strip_prefix(b"fnv ") {
        return Some(fnv1a(text.iter().copied()));
    }
    let words: Vec<&[u8]> = inner.split(|&byte| byte == b' ').collect();
    let [b"hash", family, seed, part] = words[..] else { return None };
    let seed = number_word(seed).filter(|&seed| seed <= LARGEST_SEED)? as u16;
    let part = PartNumber::new(part).ok()?;
    match family {
        b"fnv" => Some(Fnv.hash(seed, part.bytes())),
        b"pearson" => Some(Pearson.hash(seed, part.bytes())),
        _ => None,
    }
}
