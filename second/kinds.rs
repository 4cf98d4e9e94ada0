//! The kinds of parts and of settings.

use crate::refusal::{NoSuchSetting, Refusal};
use std::fmt::Debug;

/// A kind of part. Two parts are equal exactly when their bytes are.
pub trait Part: Copy + Eq + Debug {
    /// 1 to 16 bytes, always the same ones for the same part.
    fn bytes(&self) -> &[u8];
}

/// A kind of setting. Two settings are equal exactly when their numbers are.
pub trait Setting: Copy + Eq + Debug {
    /// How many numbers each setting of the kind has, 1 to 4.
    const COUNT: usize;
    const BLANK: Self;

    fn numbers(&self) -> Vec<u16>;
    fn read(numbers: &[u16]) -> Result<Self, NoSuchSetting>;
}

/// A number below 2^48, kept as the six bytes that are hashed.
#[derive(Clone, Copy, Debug, PartialEq, Eq)]
pub struct Tag([u8; 6]);

impl Tag {
    pub fn new(number: u64) -> Result<Tag, Refusal> {
        match number.to_be_bytes() {
            [0, 0, bytes @ ..] => Ok(Tag(bytes)),
            _ => Err(Refusal::NoPart),
        }
    }
}

impl Part for Tag {
    fn bytes(&self) -> &[u8] {
        &self.0
    }
}

/// A text of 1 to 16 bytes. The bytes behind the text are 0, so that the derived equality is that of the texts.
#[derive(Clone, Copy, Debug, PartialEq, Eq)]
pub struct PartNumber {
    bytes: [u8; 16],
    length: usize,
}

impl PartNumber {
    pub fn new(text: &[u8]) -> Result<PartNumber, Refusal> {
        let allowed = |byte: &u8| matches!(byte, b'A'..=b'Z' | b'0'..=b'9' | b'-');
        if !(1..=16).contains(&text.len()) || !text.iter().all(allowed) {
            return Err(Refusal::NoPart);
        }
        let mut bytes = [0; 16];
        bytes[..text.len()].copy_from_slice(text);
        Ok(PartNumber { bytes, length: text.len() })
    }
}

impl Part for PartNumber {
    fn bytes(&self) -> &[u8] {
        &self.bytes[..self.length]
    }
}

#[derive(Clone, Copy, Debug, PartialEq, Eq)]
pub struct SetNumber(pub u16);

impl Setting for SetNumber {
    const COUNT: usize = 1;
    const BLANK: SetNumber = SetNumber(0);

    fn numbers(&self) -> Vec<u16> {
        vec![self.0]
    }

    fn read(numbers: &[u16]) -> Result<SetNumber, NoSuchSetting> {
        match *numbers {
            [number] => Ok(SetNumber(number)),
            _ => Err(NoSuchSetting),
        }
    }
}

/// Advance in tenths of a degree, fuel in thousandths, dwell in microseconds. The fields are private, so that only
/// `read` makes a trim and every trim is within its limits.
#[derive(Clone, Copy, Debug, PartialEq, Eq)]
pub struct Trim {
    advance: u16,
    fuel: u16,
    dwell: u16,
}

impl Setting for Trim {
    const COUNT: usize = 3;
    const BLANK: Trim = Trim { advance: 0, fuel: 1000, dwell: 0 };

    fn numbers(&self) -> Vec<u16> {
        vec![self.advance, self.fuel, self.dwell]
    }

    fn read(numbers: &[u16]) -> Result<Trim, NoSuchSetting> {
        match *numbers {
            [advance @ 0..=600, fuel @ 500..=1500, dwell @ 0..=9999] => Ok(Trim { advance, fuel, dwell }),
            _ => Err(NoSuchSetting),
        }
    }
}
