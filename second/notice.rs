//! Notices: their text, and reading it back.

use crate::kinds::Setting;
use crate::refusal::{Cause, Fault};
use std::fmt::{self, Display, Formatter};
use std::ops::RangeInclusive;

pub const LAST_NUMBER: u32 = 4_000_000_000;
const MOST_STEPS: u32 = 5;
const LARGEST: u32 = 65_535;

#[derive(Clone, Debug, PartialEq, Eq)]
pub struct Notice<S> {
    pub number: u32,
    pub steps: Vec<Step<S>>,
}

#[derive(Clone, Debug, PartialEq, Eq)]
pub enum Step<S> {
    Bucket(BucketStep<S>),
    Slot(SlotStep<S>),
}

#[derive(Clone, Debug, PartialEq, Eq)]
pub struct BucketStep<S> {
    pub bucket: u16,
    pub seed: u16,
    pub settings: [S; 4],
    pub flips_a: Vec<u16>,
    pub flips_b: Vec<u16>,
}

#[derive(Clone, Debug, PartialEq, Eq)]
pub struct SlotStep<S> {
    pub bucket: u16,
    pub slot: u16,
    pub setting: S,
}

impl<S> Step<S> {
    pub fn bucket(&self) -> usize {
        usize::from(match self {
            Step::Bucket(step) => step.bucket,
            Step::Slot(step) => step.bucket,
        })
    }
}

impl<S: Setting> Display for Notice<S> {
    fn fmt(&self, out: &mut Formatter) -> fmt::Result {
        writeln!(out, "(notice {} {})", self.number, self.steps.len())?;
        for step in &self.steps {
            match step {
                Step::Bucket(step) => {
                    let [s0, s1, s2, s3] = step.settings.map(|setting| setting_text(&setting));
                    let (a, b) = (list_text("a", &step.flips_a), list_text("b", &step.flips_b));
                    writeln!(out, "(bucket {} {} ({s0} {s1} {s2} {s3}) {a} {b})", step.bucket, step.seed)?;
                }
                Step::Slot(step) => {
                    writeln!(out, "(slot {} {} {})", step.bucket, step.slot, setting_text(&step.setting))?;
                }
            }
        }
        writeln!(out, "(end {})", self.number)
    }
}

fn setting_text(setting: &impl Setting) -> String {
    let words: Vec<String> = setting.numbers().iter().map(u16::to_string).collect();
    format!("({})", words.join(" "))
}

fn list_text(name: &str, places: &[u16]) -> String {
    let places: String = places.iter().map(|place| format!(" {place}")).collect();
    format!("({name}{places})")
}

/// The number that a number word stands for: decimal digits without leading zeros.
pub fn number_word(word: &[u8]) -> Option<u32> {
    let digits = word.iter().all(u8::is_ascii_digit);
    let leading_zero = word.len() > 1 && word[0] == b'0';
    if !digits || leading_zero {
        return None;
    }
    // A word too long for the type is beyond every limit, so it is no number here.
    str::from_utf8(word).ok()?.parse().ok()
}

#[derive(Clone, Copy, PartialEq, Eq)]
enum Token<'t> {
    Open,
    Close,
    Space,
    LineEnd,
    Word(&'t [u8]),
}

/// Goes through a text token by token. Tokens are cut as they are asked for, so that the first wrong one is the one
/// that is reported, whatever comes after it.
struct Reader<'t> {
    text: &'t [u8],
    at: usize,
}

impl<S: Setting> Notice<S> {
    pub fn read(text: &[u8]) -> Result<Notice<S>, Fault> {
        Reader { text, at: 0 }.notice()
    }
}

fn wrong<T>(place: usize) -> Result<T, Fault> {
    Err(Fault { place, cause: Cause::Word })
}

impl<'t> Reader<'t> {
    /// The next token and its place.
    fn token(&mut self) -> Result<(usize, Token<'t>), Fault> {
        let place = self.at;
        let rest = &self.text[place..];
        let word = rest.iter().take_while(|byte| matches!(byte, b'a'..=b'z' | b'0'..=b'9')).count();
        let (token, length) = match rest.first() {
            None => return wrong(place),
            Some(b'(') => (Token::Open, 1),
            Some(b')') => (Token::Close, 1),
            Some(b' ') => (Token::Space, 1),
            Some(b'\n') => (Token::LineEnd, 1),
            Some(_) if word > 0 => (Token::Word(&rest[..word]), word),
            Some(_) => return Err(Fault { place, cause: Cause::Byte }),
        };
        self.at += length;
        Ok((place, token))
    }

    /// Reads just this token and answers its place.
    fn expect(&mut self, expected: Token) -> Result<usize, Fault> {
        let (place, token) = self.token()?;
        if token == expected { Ok(place) } else { wrong(place) }
    }

    fn expect_all<const COUNT: usize>(&mut self, expected: [Token; COUNT]) -> Result<(), Fault> {
        expected.into_iter().try_for_each(|token| self.expect(token).map(drop))
    }

    fn number(&mut self, limits: RangeInclusive<u32>) -> Result<u32, Fault> {
        let (place, token) = self.token()?;
        let Token::Word(word) = token else { return wrong(place) };
        match number_word(word) {
            Some(number) if limits.contains(&number) => Ok(number),
            _ => wrong(place),
        }
    }

    /// A space and a number behind it.
    fn next_number(&mut self) -> Result<u16, Fault> {
        self.expect(Token::Space)?;
        Ok(self.number(0..=LARGEST)? as u16)
    }

    fn notice<S: Setting>(mut self) -> Result<Notice<S>, Fault> {
        self.expect_all([Token::Open, Token::Word(b"notice"), Token::Space])?;
        let number = self.number(1..=LAST_NUMBER)?;
        self.expect(Token::Space)?;
        let count = self.number(0..=MOST_STEPS)?;
        self.expect_all([Token::Close, Token::LineEnd])?;

        let steps = (0..count).map(|_| self.step()).collect::<Result<Vec<_>, Fault>>()?;

        self.expect_all([Token::Open, Token::Word(b"end"), Token::Space])?;
        self.number(number..=number)?;
        self.expect_all([Token::Close, Token::LineEnd])?;
        if self.at < self.text.len() {
            // Whatever token comes is wrong, but a byte that begins none has its own cause.
            let (place, _) = self.token()?;
            return wrong(place);
        }
        Ok(Notice { number, steps })
    }

    fn step<S: Setting>(&mut self) -> Result<Step<S>, Fault> {
        self.expect(Token::Open)?;
        let step = match self.token()? {
            (_, Token::Word(b"bucket")) => Step::Bucket(self.bucket_step()?),
            (_, Token::Word(b"slot")) => Step::Slot(self.slot_step()?),
            (place, _) => return wrong(place),
        };
        self.expect_all([Token::Close, Token::LineEnd])?;
        Ok(step)
    }

    fn bucket_step<S: Setting>(&mut self) -> Result<BucketStep<S>, Fault> {
        let bucket = self.next_number()?;
        let seed = self.next_number()?;
        self.expect_all([Token::Space, Token::Open])?;
        let mut settings = [S::BLANK; 4];
        for (slot, setting) in settings.iter_mut().enumerate() {
            if slot > 0 {
                self.expect(Token::Space)?;
            }
            *setting = self.setting()?;
        }
        self.expect_all([Token::Close, Token::Space])?;
        let flips_a = self.list(b"a")?;
        self.expect(Token::Space)?;
        let flips_b = self.list(b"b")?;
        Ok(BucketStep { bucket, seed, settings, flips_a, flips_b })
    }

    fn slot_step<S: Setting>(&mut self) -> Result<SlotStep<S>, Fault> {
        let bucket = self.next_number()?;
        let slot = self.next_number()?;
        self.expect(Token::Space)?;
        let setting = self.setting()?;
        Ok(SlotStep { bucket, slot, setting })
    }

    fn setting<S: Setting>(&mut self) -> Result<S, Fault> {
        let place = self.expect(Token::Open)?;
        let mut numbers = vec![self.number(0..=LARGEST)? as u16];
        while numbers.len() < S::COUNT {
            numbers.push(self.next_number()?);
        }
        self.expect(Token::Close)?;
        S::read(&numbers).map_err(|fault| Fault { place, cause: Cause::Setting(fault) })
    }

    /// The name of a row and its flipped places, ascending.
    fn list(&mut self, name: &[u8]) -> Result<Vec<u16>, Fault> {
        self.expect_all([Token::Open, Token::Word(name)])?;
        let mut places = Vec::new();
        // The least place that still ascends. Behind the largest there is none, so that any number there is wrong.
        let mut least = 0;
        loop {
            match self.token()? {
                (_, Token::Close) => return Ok(places),
                (_, Token::Space) => {
                    let place = self.number(least..=LARGEST)?;
                    places.push(place as u16);
                    least = place + 1;
                }
                (place, _) => return wrong(place),
            }
        }
    }
}
