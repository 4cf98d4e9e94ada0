//! Times find: the proved one, linked as a static library, beside that of the second program.
//!
//! What is counted of each is one call that is not inlined, from a part number's bytes to its setting: both test and copy
//! the bytes into their part number, and then find it. The proved call also tests the sizes and the lengths of its memory
//! each time, as it trusts no caller; the second program's controller has done so when it was opened.

#![allow(dead_code, reason = "the second program's modules have more than is called here")]

#[path = "../second/book.rs"]
mod book;
#[path = "../second/controller.rs"]
mod controller;
#[path = "../second/edges.rs"]
mod edges;
#[path = "../second/hash.rs"]
mod hash;
#[path = "../second/kinds.rs"]
mod kinds;
#[path = "../second/notice.rs"]
mod notice;
#[path = "../second/refusal.rs"]
mod refusal;
#[path = "../second/tables.rs"]
mod tables;

use book::{Book, BookMemory, Sheet};
use controller::{Controller, ControllerMemory};
use hash::Fnv;
use kinds::{PartNumber, SetNumber};
use refusal::Refusal;
use std::collections::BTreeSet;
use std::hint::black_box;
use std::process::ExitCode;
use std::time::Instant;
use tables::Sizes;

const BUCKETS: usize = 4_093;
const PLACES: usize = 32_749;
const ENTRIES: usize = 256;
const TURN: usize = 0;

/// How many parts stand.
const PARTS: usize = 15_000;
/// A sample is so many passes over all parts; of so many samples, taken in turn, each side's best counts.
const PASSES: usize = 12;
const SAMPLES: usize = 50;

const AIM: f64 = 0.6;
const LIMIT: f64 = 1.2;

/// An overflow entry as the library has it.
#[repr(C)]
#[derive(Clone, Copy)]
struct Entry {
    bucket: u16,
    seed: u8,
    used: bool,
}

#[link(name = "bench_find", kind = "static")]
unsafe extern "C" {
    /// The proved find: the set number, or 65,536 and the refusal's number. A slice is a pointer and then a length.
    fn posnaiv_find(
        buckets: u32,
        a: u32,
        b: u32,
        entries: u32,
        turn: u32,
        settings: *const u16,
        settings_length: usize,
        row_a: *const u8,
        row_a_length: usize,
        row_b: *const u8,
        row_b_length: usize,
        seeds: *const u8,
        seeds_length: usize,
        overflow: *const Entry,
        overflow_length: usize,
        text: *const u8,
        text_length: usize,
    ) -> u32;
}

/// A controller's memory as the proved find takes it.
struct Memory {
    settings: Vec<u16>,
    row_a: Vec<u8>,
    row_b: Vec<u8>,
    seeds: Vec<u8>,
    overflow: Vec<Entry>,
}

impl Memory {
    fn copied(from: &ControllerMemory<SetNumber>) -> Memory {
        let tables = &from.tables;
        let mut overflow = vec![Entry { bucket: 0, seed: 0, used: false }; ENTRIES];
        let high = (0..BUCKETS).map(|bucket| (bucket, tables.seeds.get(bucket))).filter(|&(_, seed)| seed > 30);
        for (entry, (bucket, seed)) in overflow.iter_mut().zip(high) {
            *entry = Entry { bucket: bucket as u16, seed: seed as u8, used: true };
        }
        Memory {
            settings: from.settings.iter().map(|setting| setting.0).collect(),
            row_a: tables.rows.a.clone(),
            row_b: tables.rows.b.clone(),
            seeds: tables.seeds.area.clone(),
            overflow,
        }
    }

    #[inline]
    fn find(&self, text: &[u8]) -> u32 {
        // SAFETY: each pointer and length are those of a slice that lives on, of the type that the library has there.
        unsafe {
            posnaiv_find(
                BUCKETS as u32,
                PLACES as u32,
                PLACES as u32,
                ENTRIES as u32,
                TURN as u32,
                self.settings.as_ptr(),
                self.settings.len(),
                self.row_a.as_ptr(),
                self.row_a.len(),
                self.row_b.as_ptr(),
                self.row_b.len(),
                self.seeds.as_ptr(),
                self.seeds.len(),
                self.overflow.as_ptr(),
                self.overflow.len(),
                text.as_ptr(),
                text.len(),
            )
        }
    }
}

/// The second program's find, answered in the same way.
#[inline(never)]
fn second_find(controller: &Controller<SetNumber, Fnv>, text: &[u8]) -> u32 {
    match PartNumber::new(text).and_then(|part| controller.find(&part)) {
        Ok(setting) => u32::from(setting.0),
        Err(refusal) => 65_536 + refusal.number() as u32,
    }
}

/// A linear congruential generator: small, and the same on every machine.
struct Random(u64);

impl Random {
    fn below(&mut self, limit: usize) -> usize {
        self.0 = self.0.wrapping_mul(6_364_136_223_846_793_005).wrapping_add(1_442_695_040_888_963_407);
        (self.0 >> 33) as usize % limit
    }

    /// The text of a part number, 6 to 12 bytes.
    fn text(&mut self) -> Vec<u8> {
        const ALLOWED: &[u8] = b"ABCDEFGHIJKLMNOPQRSTUVWXYZ0123456789-";
        (0..6 + self.below(7)).map(|_| ALLOWED[self.below(ALLOWED.len())]).collect()
    }
}

/// Enters random parts into a book, and brings each notice to the controller, until so many parts stand.
fn filled(sizes: Sizes, controller: &mut Controller<SetNumber, Fnv>, random: &mut Random) -> Vec<(Vec<u8>, u16)> {
    let mut memory = BookMemory::for_sizes(&sizes);
    let mut book = Book::new(sizes, Fnv, &mut memory);
    let mut buffer = vec![0; 1 << 20];
    let mut standing = Vec::new();
    while standing.len() < PARTS {
        let text = random.text();
        let setting = random.below(65_536) as u16;
        let mut sheet = Sheet::draw();
        let part = PartNumber::new(&text).expect("the text of a part number");
        match book.enter(part, SetNumber(setting), &mut sheet, &mut buffer) {
            Ok(length) => {
                controller.take(&buffer[..length]).expect("the next notice");
                standing.push((text, setting));
            }
            Err(Refusal::Stands | Refusal::NoChain | Refusal::Joined | Refusal::NoSeed | Refusal::NoEntry) => {}
            Err(refusal) => panic!("the book refuses a part with {}", refusal.number()),
        }
        let _ = sheet.file();
    }
    standing
}

/// Texts on which both finds have to agree besides: parts that do not stand, and texts that are no part numbers.
fn strangers(random: &mut Random) -> BTreeSet<Vec<u8>> {
    let mut texts: BTreeSet<Vec<u8>> = (0..PARTS).map(|_| random.text()).collect();
    texts.extend([&b""[..], b"A", b"-", b"abc", b"A B", b"0123456789ABCDEF", b"0123456789ABCDEFG"].map(<[u8]>::to_vec));
    texts
}

/// Nanoseconds for each text of a sample.
fn sample(texts: &[Vec<u8>], find: impl Fn(&[u8]) -> u32) -> f64 {
    let start = Instant::now();
    for _ in 0..PASSES {
        for text in texts {
            black_box(find(black_box(text)));
        }
    }
    start.elapsed().as_nanos() as f64 / (PASSES * texts.len()) as f64
}

fn main() -> ExitCode {
    // As numbers that the compiler does not know, so that no division by them is made a multiplication.
    let [n, a, b, w, t] = black_box([BUCKETS, PLACES, PLACES, ENTRIES, TURN]);
    let sizes = Sizes::new(n, a, b, w, t).expect("lawful sizes");
    let mut random = Random(1);
    let mut memory = ControllerMemory::for_sizes(&sizes);
    let mut controller = Controller::open(sizes, Fnv, &mut memory);
    let standing = filled(sizes, &mut controller, &mut random);
    let proved = Memory::copied(controller.memory());

    for (text, setting) in &standing {
        let found = [proved.find(text), second_find(&controller, text)];
        if found != [u32::from(*setting); 2] {
            println!("bench: {} has the setting {setting}; found: {found:?}", text.escape_ascii());
            return ExitCode::FAILURE;
        }
    }
    for text in strangers(&mut random) {
        let found = [proved.find(&text), second_find(&controller, &text)];
        if found[0] != found[1] {
            println!("bench: found for {}: {found:?}", text.escape_ascii());
            return ExitCode::FAILURE;
        }
    }
    println!("bench: {PARTS} parts stand, and both finds give each its setting");

    let texts: Vec<Vec<u8>> = standing.into_iter().map(|(text, _)| text).collect();
    let mut best = [f64::INFINITY; 2];
    for _ in 0..SAMPLES {
        best[0] = best[0].min(sample(&texts, |text| proved.find(text)));
        best[1] = best[1].min(sample(&texts, |text| second_find(&controller, text)));
    }
    let ratio = best[0] / best[1];
    println!("bench: proved find {:.1} ns", best[0]);
    println!("bench: second find {:.1} ns", best[1]);
    println!("bench: ratio {ratio:.2}");
    let met = |bound| if ratio <= bound { "met" } else { "not met" };
    println!("bench: aim of at most {AIM}: {}; limit of {LIMIT}: {}", met(AIM), met(LIMIT));
    ExitCode::SUCCESS
}
