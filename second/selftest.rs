//! Published values and worked examples, then the random histories. A check that is not met panics, so that the
//! command fails.

use crate::book::{Book, BookMemory, Closing, Sheet};
use crate::controller::{Controller, ControllerMemory};
use crate::hash::{Family, Fnv, HeldBack, Pearson, T, fnv1a};
use crate::histories::{self, least_seed};
use crate::kinds::{Part, PartNumber, SetNumber, Setting, Tag, Trim};
use crate::notice::{LAST_NUMBER, Notice};
use crate::noticecheck;
use crate::refusal::{NoSuchSetting, Refusal};
use crate::tables::Sizes;
use crate::vectors;
use std::io;

/// Published FNV-1a values: a text, a tab and eight hexadecimal digits on each line.
const PUBLISHED: &str = include_str!("published.txt");

pub fn run() -> io::Result<()> {
    kinds_and_limits();
    published_hashes();
    families();
    places();
    vector_lines()?;
    first_notices();
    rows_and_chains();
    overflow_entries();
    shut_memory();
    sheets_and_the_last_number();
    texts_that_are_no_notices();
    letters()?;
    notices_that_are_not_taken();
    println!("second selftest: published values and worked examples are met; {}", histories::run());
    Ok(())
}

fn part(text: &str) -> PartNumber {
    PartNumber::new(text.as_bytes()).expect("a part number")
}

fn sizes(n: usize, a: usize, b: usize, w: usize, t: usize) -> Sizes {
    Sizes::new(n, a, b, w, t).expect("sizes within their limits")
}

/// 0 for an accepted call, else the refusal's number.
fn outcome<T>(answer: Result<T, Refusal>) -> usize {
    answer.map_or_else(Refusal::number, |_| 0)
}

fn kinds_and_limits() {
    let tag = Tag::new(0x0102_0304_0506).expect("a tag");
    assert_eq!(tag.bytes(), [1, 2, 3, 4, 5, 6]);
    assert_eq!(outcome(Tag::new((1 << 48) - 1)), 0);
    assert_eq!(outcome(Tag::new(1 << 48)), 3);

    assert_eq!(part("AZ-09").bytes(), b"AZ-09");
    assert_eq!(outcome(PartNumber::new(b"ABCDEFGHIJKLMNOP")), 0);
    for text in ["", "ABCDEFGHIJKLMNOPQ", "a", "A B", "A_"] {
        assert_eq!(outcome(PartNumber::new(text.as_bytes())), 3, "{text:?}");
    }

    assert_eq!(SetNumber::BLANK.numbers(), [0]);
    assert_eq!(SetNumber::read(&[]), Err(NoSuchSetting));
    assert_eq!(Trim::BLANK.numbers(), [0, 1000, 0]);
    for numbers in [[0, 500, 0], [600, 1500, 9999]] {
        assert_eq!(Trim::read(&numbers).map(|trim| trim.numbers()), Ok(numbers.to_vec()));
    }
    for numbers in [&[601, 1000, 0][..], &[0, 499, 0], &[0, 1501, 0], &[0, 1000, 10_000], &[0, 1000]] {
        assert_eq!(outcome(Trim::read(numbers).map_err(Refusal::NoSetting)), 4, "{numbers:?}");
    }

    let limits = [((1, 1, 1, 0, 0), 0), ((4096, 32_768, 32_768, 256, 15), 0)];
    let outside = [
        ((0, 1, 1, 0, 0), 1),
        ((4097, 1, 1, 0, 0), 1),
        ((1, 0, 1, 0, 0), 1),
        ((1, 32_769, 1, 0, 0), 1),
        ((1, 1, 0, 0, 0), 1),
        ((1, 1, 32_769, 0, 0), 1),
        ((1, 1, 1, 257, 0), 1),
        ((1, 1, 1, 0, 16), 1),
    ];
    for ((n, a, b, w, t), expected) in limits.into_iter().chain(outside) {
        assert_eq!(outcome(Sizes::new(n, a, b, w, t)), expected, "{:?}", (n, a, b, w, t));
    }
}

fn published_hashes() {
    for line in PUBLISHED.lines() {
        let (text, hash) = line.split_once('\t').expect("a text, a tab and its hash");
        assert_eq!(format!("{:08X}", fnv1a(text.bytes())), hash, "FNV-1a of {text:?}");
    }
}

fn families() {
    // A seed is hashed as two bytes in front of the part's.
    assert_eq!(Fnv.hash(319, b"A"), fnv1a(*b"\x01\x3FA"));

    assert_eq!((T[7], T[255]), (28, 128));
    let mut sorted = T;
    sorted.sort_unstable();
    assert!(sorted.into_iter().eq(0..=255), "each byte value stands in T just once");

    assert_eq!(Pearson.hash(0, b"A"), 0x6120_FCF2);
    assert_eq!(["A", "B", "C", "D"].map(|text| Pearson.slot(0, text.as_bytes())), [1, 2, 3, 0]);
    assert_eq!(least_seed(&Pearson, &[part("A"), part("E")]), Some(4));

    assert!(HeldBack::new(257).is_none());
    let held_back = HeldBack::new(31).expect("a start of at most 256");
    assert_eq!(held_back.hash(30, b"A"), 0);
    assert_eq!(held_back.hash(31, b"A"), Pearson.hash(31, b"A"));
}

/// The largest turn takes the last four seeds.
fn places() {
    let part = part("A");
    let hash = |seed, size| Fnv.hash(seed, part.bytes()) as usize % size;
    let places = sizes(5, 7, 11, 0, 15).places(&Fnv, &part);
    assert_eq!([places.h0, places.h1, places.ha, places.hb], [hash(316, 5), hash(317, 5), hash(318, 7), hash(319, 11)]);
}

fn vector_lines() -> io::Result<()> {
    let answers = [
        ("(fnv )\n", "811C9DC5\n"),
        ("(fnv a)\n(fnv foobar)\n", "E40C292C\nBF9CF968\n"),
        ("(hash pearson 0 A)\n", "6120FCF2\n"),
        ("\n(fnv)\n", "(refused 14)\n(refused 14)\n"),
        ("(hash fnv 320 A)\n(hash fnv 00 A)\n", "(refused 14)\n(refused 14)\n"),
        ("(fnv a)\n(fnv a)", "E40C292C\n(refused 14)\n"),
        ("", ""),
    ];
    for (input, output) in answers {
        assert_eq!(vectors::answers(input.as_bytes())?, output, "{input:?}");
    }
    // Of these lines, eight bytes each, just 8,192 are read.
    assert_eq!(vectors::answers("(fnv a)\n".repeat(9000).as_bytes())?, "E40C292C\n".repeat(8192));
    Ok(())
}

/// A book of part numbers and set numbers with a buffer, to try worked examples on.
struct Desk<'m, F> {
    book: Book<'m, PartNumber, SetNumber, F>,
    buffer: Vec<u8>,
}

fn at_desk<F: Family>(sizes: Sizes, family: F, work: impl FnOnce(&mut Desk<F>)) {
    let mut memory = BookMemory::for_sizes(&sizes);
    work(&mut Desk { book: Book::new(sizes, family, &mut memory), buffer: vec![0; 4096] });
}

impl<F: Family> Desk<'_, F> {
    /// The text of the notice, or the refusal's number.
    fn enter(&mut self, text: &str, setting: u16) -> Result<String, usize> {
        let mut sheet = Sheet::draw();
        let answer = self.book.enter(part(text), SetNumber(setting), &mut sheet, &mut self.buffer);
        assert_eq!(sheet.file(), if answer.is_ok() { self.book.number() } else { 0 });
        answer.map(|length| String::from_utf8_lossy(&self.buffer[..length]).into()).map_err(Refusal::number)
    }

    /// Enters parts that have to be accepted, with the settings 1, 2 and so on.
    fn enter_all(&mut self, texts: &[&str]) {
        for (text, setting) in texts.iter().zip(1..) {
            self.enter(text, setting).expect("an accepted enter");
        }
    }
}

fn first_notices() {
    at_desk(sizes(1, 8, 8, 0, 0), Pearson, |desk| {
        let text = "(notice 1 1)\n(bucket 0 0 ((0) (7) (0) (0)) (a) (b))\n(end 1)\n";
        assert_eq!(text.len(), 60);
        assert_eq!(desk.enter("A", 7).as_deref(), Ok(text));
        assert_eq!(desk.enter("A", 7), Err(5));

        // This notice has 36 bytes. What is behind it in the buffer stays.
        let (book, a, mut sheet, mut buffer) = (&mut desk.book, part("A"), Sheet::draw(), [b'#'; 38]);
        assert_eq!(outcome(book.change(a, SetNumber(9), &mut sheet, &mut buffer[..35])), 11);
        assert_eq!(buffer, [b'#'; 38]);
        assert_eq!(book.change(a, SetNumber(9), &mut sheet, &mut buffer), Ok(36));
        assert_eq!(&buffer, b"(notice 2 1)\n(slot 0 1 (9))\n(end 2)\n##");
        assert_eq!(sheet.file(), 2);

        let mut sheet = Sheet::draw();
        assert_eq!(outcome(book.strike(part("B"), &mut sheet, &mut buffer)), 6);
        assert_eq!(book.strike(a, &mut sheet, &mut buffer[..21]), Ok(21));
        assert_eq!(&buffer[..21], b"(notice 3 0)\n(end 3)\n");
        assert_eq!(outcome(book.tell(&a)), 6);
        assert_eq!(sheet.file(), 3);
    });
}

fn rows_and_chains() {
    at_desk(sizes(1, 8, 8, 0, 0), Pearson, |desk| {
        desk.enter_all(&["A", "B", "C", "D"]);
        assert_eq!(desk.enter("E", 5), Err(7));
    });
    at_desk(sizes(1, 1, 1, 0, 0), Pearson, |desk| {
        desk.enter_all(&["A"]);
        assert_eq!(desk.enter("B", 2), Err(8));
    });
    at_desk(sizes(2, 8, 16, 1, 0), Pearson, |desk| {
        desk.enter_all(&["A", "B", "E", "F"]);
        let text = desk.enter("I", 5).expect("an accepted enter");
        assert_eq!(text.lines().nth(1), Some("(bucket 1 0 ((0) (0) (5) (0)) (a) (b 13))"));
    });
}

fn overflow_entries() {
    let held_back = |start| HeldBack::new(start).expect("a start of at most 256");
    at_desk(sizes(1, 8, 8, 0, 0), held_back(256), |desk| {
        desk.enter_all(&["A"]);
        assert_eq!(desk.enter("E", 2), Err(9));
    });
    at_desk(sizes(1, 8, 8, 0, 0), held_back(31), |desk| {
        desk.enter_all(&["A"]);
        assert_eq!(desk.enter("E", 2), Err(10));
    });
    let sizes = sizes(1, 8, 8, 1, 0);
    let mut memory = BookMemory::for_sizes(&sizes);
    let mut desk = Desk { book: Book::new(sizes, held_back(31), &mut memory), buffer: vec![0; 4096] };
    desk.enter_all(&["A"]);
    let text = desk.enter("E", 2).expect("an accepted enter");
    assert!(text.contains("\n(bucket 0 31 "), "{text}");
    assert_eq!(desk.book.close(), Closing { standing: 2, number: 2, overflow: 1 });
}

/// Memory of any wrong length is left alone, and every call on it is refused with 2 before anything else.
fn shut_memory() {
    let sizes = sizes(3, 9, 17, 2, 0);
    let lent: BookMemory<PartNumber, SetNumber> = BookMemory::for_sizes(&sizes);
    assert_eq!((lent.slots.len(), lent.tables.rows.a.len(), lent.tables.rows.b.len()), (12, 2, 3));
    assert_eq!((lent.tables.seeds.area.len(), lent.workspace.len()), (2, 100));

    let spoils: [fn(&mut BookMemory<PartNumber, SetNumber>); 6] = [
        |memory| memory.slots.push(None),
        |memory| memory.tables.rows.a.push(1),
        |memory| memory.tables.rows.b.push(1),
        |memory| memory.tables.seeds.area.truncate(1),
        |memory| memory.tables.seeds.overflow.truncate(1),
        |memory| memory.workspace.push(1),
    ];
    for spoil in spoils {
        let mut memory = lent.clone();
        spoil(&mut memory);
        let spoilt = memory.clone();
        let mut book = Book::new(sizes, Fnv, &mut memory);
        let (a, mut sheet, mut buffer) = (part("A"), Sheet::draw(), [0; 99]);
        assert_eq!(outcome(book.enter(a, SetNumber(1), &mut sheet, &mut buffer)), 2);
        assert_eq!(outcome(book.change(a, SetNumber(1), &mut sheet, &mut buffer)), 2);
        assert_eq!(outcome(book.strike(a, &mut sheet, &mut buffer)), 2);
        assert_eq!(outcome(book.tell(&a)), 2);
        assert_eq!((sheet.file(), book.number(), book.memory()), (0, 0, &spoilt));
        assert_eq!(book.close(), Closing { standing: 0, number: 0, overflow: 0 });
    }

    let mut memory: ControllerMemory<SetNumber> = ControllerMemory::for_sizes(&sizes);
    memory.settings.truncate(11);
    let spoilt = memory.clone();
    let mut controller = Controller::open(sizes, Fnv, &mut memory);
    assert_eq!((outcome(controller.take(b"no notice")), outcome(controller.find(&part("A")))), (2, 2));
    assert_eq!((controller.number(), controller.memory()), (0, &spoilt));
}

fn sheets_and_the_last_number() {
    let sizes = sizes(1, 8, 8, 0, 0);
    let mut memory = BookMemory::for_sizes(&sizes);
    let mut book = Book::new(sizes, Pearson, &mut memory).counting_from(LAST_NUMBER - 1);
    let (a, mut sheet, mut buffer) = (part("A"), Sheet::draw(), [0; 99]);
    let length = book.enter(a, SetNumber(7), &mut sheet, &mut buffer).expect("an accepted enter");
    let mut memory = ControllerMemory::<SetNumber>::for_sizes(&sizes);
    let mut controller = Controller::open(sizes, Pearson, &mut memory).counting_from(LAST_NUMBER - 1);
    assert_eq!(outcome(controller.take(&buffer[..length])), 0);
    assert_eq!((controller.number(), controller.find(&a)), (LAST_NUMBER, Ok(SetNumber(7))));

    // The written sheet comes before the last number, and that before everything else.
    assert_eq!(outcome(book.strike(a, &mut sheet, &mut buffer)), 13);
    assert_eq!(sheet.file(), LAST_NUMBER);
    let mut blank = Sheet::draw();
    assert_eq!(outcome(book.enter(a, SetNumber(7), &mut blank, &mut buffer)), 12);
    assert_eq!(outcome(book.change(part("B"), SetNumber(7), &mut blank, &mut [])), 12);
    assert_eq!(blank.file(), 0);
}

const BYTE: &[usize] = &[0];
const WORD: &[usize] = &[1];
const SETTING: &[usize] = &[2, 4];

fn texts_that_are_no_notices() {
    // Each text stops being a notice at the mark.
    let texts = [
        ("^", WORD),
        ("(^noti", WORD),
        ("(notice^", WORD),
        ("(notice ^0 0)\n(end 0)\n", WORD),
        ("(notice ^01 0)\n(end 1)\n", WORD),
        ("(notice ^4000000001 0)\n(end 4000000001)\n", WORD),
        ("(notice ^99999999999999999999 0)\n", WORD),
        ("(notice ^1x 0)\n(end 1)\n", WORD),
        ("(notice 1 ^6)\n", WORD),
        ("(notice 1 ^ 0)\n", WORD),
        ("(notice ^-1 0)\n", BYTE),
        ("(^Notice 1 0)\n", BYTE),
        ("(notice 1 0)^\r\n(end 1)\n", BYTE),
        ("(notice 1 0)\n(^slot 0 0 (0 1000 0))\n(end 1)\n", WORD),
        ("(notice 1 1)\n(^end 1)\n", WORD),
        ("(notice 1 0)\n(end ^2)\n", WORD),
        ("(notice 1 0)\n(end 1)^", WORD),
        ("(notice 1 0)\n(end 1)\n^\n", WORD),
        ("(notice 1 0)\n(end 1)\n^?", BYTE),
        ("(notice 1 1)\n(slot ^65536 0 (0 1000 0))\n(end 1)\n", WORD),
        ("(notice 1 1)\n(slot 0 0 (^))\n(end 1)\n", WORD),
        ("(notice 1 1)\n(slot 0 0 (0 1000^))\n(end 1)\n", WORD),
        ("(notice 1 1)\n(slot 0 0 (0 1000 0^ 0))\n(end 1)\n", WORD),
        ("(notice 1 1)\n(slot 0 0 (0 1000 ^65536))\n(end 1)\n", WORD),
        ("(notice 1 1)\n(slot 0 0 ^(601 1000 0))\n(end 1)\n", SETTING),
        ("(notice 1 1)\n(slot 0 0 ^(0 1000 65535)", SETTING),
        ("(notice 1 1)\n(slot 0 0 (601 1000 0^", WORD),
        ("(notice 1 1)\n(bucket 0 0 ((0 1000 0) (0 1000 0) ^(0 0 0) (0 1000 0)) (a) (b))\n(end 1)\n", SETTING),
        ("(notice 1 1)\n(bucket 0 0 ((0 1000 0) (0 1000 0) (0 1000 0)^) (a) (b))\n(end 1)\n", WORD),
        ("(notice 1 1)\n(bucket 0 0 ((0 1000 0) (0 1000 0) (0 1000 0) (0 1000 0)) (^b) (a))\n(end 1)\n", WORD),
        ("(notice 1 1)\n(bucket 0 0 ((0 1000 0) (0 1000 0) (0 1000 0) (0 1000 0)) (a 3 ^3) (b))\n(end 1)\n", WORD),
        ("(notice 1 1)\n(bucket 0 0 ((0 1000 0) (0 1000 0) (0 1000 0) (0 1000 0)) (a 3 ^) (b))\n(end 1)\n", WORD),
        ("(notice 1 1)\n(bucket 0 0 ((0 1000 0) (0 1000 0) (0 1000 0) (0 1000 0)) (a 65535 ^7) (b))\n(end 1)\n", WORD),
        ("(notice 1 1)\n(bucket 0 0 ((0 1000 0) (0 1000 0) (0 1000 0) (0 1000 0)) (a 65535 ^", WORD),
        ("(notice 1 1)\n(bucket 0 0 ((0 1000 0) (0 1000 0) (0 1000 0) (0 1000 0)) (a 65535 ^) (b))\n(end 1)\n", WORD),
        ("(notice 1 1)\n(bucket 0 0 ((0 1000 0) (0 1000 0) (0 1000 0) (0 1000 0)) (a 65535 ^?", BYTE),
        ("(notice 1 1)\n(bucket 0 0 ((0 1000 0) (0 1000 0) (0 1000 0) (0 1000 0)) (a) (b 65535 ^65535))\n", WORD),
    ];
    for (marked, cause) in texts {
        let place = marked.find('^').expect("a mark");
        let fault = Notice::<Trim>::read(marked.replace('^', "").as_bytes()).expect_err(marked);
        assert_eq!(Refusal::NoNotice(fault).answer(), [&[14, place], cause].concat(), "{marked:?}");
    }
}

fn letters() -> io::Result<()> {
    let notice = "(notice 7 1)\n(slot 3 1 (600 500 9999))\n(end 7)\n";
    let letter = |text: &str| format!("(letter {})\n{text}", text.len());
    let answers: [(String, String); 13] = [
        ("".into(), "".into()),
        (letter(notice).repeat(2), notice.repeat(2)),
        (letter(""), "(refused 14 0 word)\n".into()),
        (letter("(notice 7 0)\r"), "(refused 14 12 byte)\n".into()),
        (letter("(notice 7 1)\n(slot 3 1 (0 0 0))"), "(refused 14 23 setting)\n".into()),
        (letter(&"(".repeat(65_536)), "(refused 14 1 word)\n".into()),
        // A letter's bytes are no forms, whatever they look like; those behind a bad line are.
        (letter(&letter(notice)), "(refused 14 1 word)\n".into()),
        (format!("(letter 01)\n{}", letter(notice)), format!("(refused 14)\n{notice}")),
        ("(letter 65537)\n\n)\n".into(), "(refused 14)\n".repeat(3)),
        // An unfinished line, and a letter of which the last byte is missing.
        (letter(notice) + "(letter 0)", format!("{notice}(refused 14)\n")),
        ("(letter 2)\n\n\n".into(), "(refused 14 0 word)\n".into()),
        ("(letter 3)\n\n\n".into(), "(refused 14)\n".into()),
        // Of these letters, eleven bytes each, 95,325 are read and one byte of the next.
        (letter("").repeat(96_000), "(refused 14 0 word)\n".repeat(95_325) + "(refused 14)\n"),
    ];
    for (input, output) in answers {
        assert!(noticecheck::answers(input.as_bytes())? == output, "{:?}", input.get(..100).unwrap_or(&input));
    }
    Ok(())
}

fn notices_that_are_not_taken() {
    let sizes = sizes(3, 8, 16, 1, 0);
    let mut memory: ControllerMemory<SetNumber> = ControllerMemory::for_sizes(&sizes);
    let mut controller = Controller::open(sizes, Pearson, &mut memory);
    let bucket = |start: &str, lists: &str| format!("(bucket {start} ((1) (2) (3) (4)) {lists})\n");
    let plain = |start: &str| bucket(start, "(a) (b)");
    // The steps of a notice, the number that it has beyond the controller's, and what the controller answers.
    let tries = [
        (vec![plain("2 31"), "(slot 1 3 (9))\n".into()], 1, 0),
        (vec![], 2, 15),
        (vec![], 0, 15),
        (vec![plain("3 0")], 2, 15),
        (vec![plain("3 0")], 1, 16),
        (vec![plain("0 256")], 1, 16),
        (vec![bucket("0 0", "(a 8) (b)")], 1, 16),
        (vec![bucket("0 0", "(a) (b 16)")], 1, 16),
        (vec![bucket("0 0", "(a 0 7) (b 15)")], 1, 0),
        (vec!["(slot 0 4 (9))\n".into()], 1, 16),
        (vec!["(slot 3 0 (9))\n".into()], 1, 16),
        (vec!["(slot 0 0 (9))\n".into(), plain("0 0"), plain("3 0")], 1, 16),
        (vec!["(slot 0 0 (9))\n".into(), plain("0 0")], 1, 17),
        (vec![plain("0 31"), plain("0 31")], 1, 17),
        (vec![plain("0 31"), plain("2 0")], 1, 10),
        (vec![plain("2 0"), plain("0 31")], 1, 0),
        (vec![plain("0 255"), "(slot 2 1 (9))\n".into()], 1, 0),
        (vec![plain("2 30"), plain("1 31")], 1, 10),
    ];
    for (steps, ahead, expected) in tries {
        let (before, number) = (controller.memory().clone(), controller.number());
        let n = number + ahead;
        let text = format!("(notice {n} {})\n{}(end {n})\n", steps.len(), steps.concat());
        let taken = controller.take(text.as_bytes());
        assert_eq!(outcome(taken), expected, "{text}");
        if taken.is_ok() {
            assert_eq!(controller.number(), n);
        } else {
            assert_eq!((controller.number(), controller.memory()), (number, &before));
        }
    }
    let tables = &controller.memory().tables;
    assert_eq!([0, 1, 2].map(|bucket| tables.seeds.get(bucket)), [255, 0, 0]);
    assert_eq!((&tables.rows.a[..], &tables.rows.b[..]), (&[0x81][..], &[0, 0x80][..]));
    let settings = [1, 2, 3, 4, 0, 0, 0, 9, 1, 9, 3, 4].map(SetNumber);
    assert_eq!(controller.memory().settings, settings);
}
