//! Sizes, places, and the tables that a book and its controllers have in common: the two rows and the seeds.

use crate::hash::Family;
use crate::kinds::Part;
use crate::notice::BucketStep;
use crate::refusal::Refusal;

/// Sizes within their limits; there is no other way to make them than `new`.
#[derive(Clone, Copy, Debug)]
pub struct Sizes {
    n: usize,
    a: usize,
    b: usize,
    w: usize,
    t: u16,
}

impl Sizes {
    pub fn new(n: usize, a: usize, b: usize, w: usize, t: usize) -> Result<Sizes, Refusal> {
        let row = 1..=32_768;
        if (1..=4_096).contains(&n) && row.contains(&a) && row.contains(&b) && w <= 256 && t <= 15 {
            Ok(Sizes { n, a, b, w, t: t as u16 })
        } else {
            Err(Refusal::Size)
        }
    }

    pub fn slots(&self) -> usize {
        4 * self.n
    }

    /// Words of 32 bits that a caller lends to a book as its workspace.
    pub fn workspace(&self) -> usize {
        2 * (self.a + self.b) + 16 * self.n
    }

    pub fn n(&self) -> usize {
        self.n
    }

    pub fn a(&self) -> usize {
        self.a
    }

    pub fn b(&self) -> usize {
        self.b
    }

    pub fn places<P: Part>(&self, family: &impl Family, part: &P) -> Places {
        let hash = |which: u16, size: usize| family.hash(256 + 4 * self.t + which, part.bytes()) as usize % size;
        Places { h0: hash(0, self.n), h1: hash(1, self.n), ha: hash(2, self.a), hb: hash(3, self.b) }
    }
}

/// A part's two buckets and its places in the two rows.
#[derive(Clone, Copy, Debug)]
pub struct Places {
    pub h0: usize,
    pub h1: usize,
    pub ha: usize,
    pub hb: usize,
}

impl Places {
    pub fn other_bucket(&self, bucket: usize) -> usize {
        if bucket == self.h0 { self.h1 } else { self.h0 }
    }

    /// The bit that the part needs in order to be found in this bucket.
    pub fn needed_bit(&self, bucket: usize) -> bool {
        bucket != self.h0
    }
}

fn bit(area: &[u8], index: usize) -> bool {
    area[index / 8] >> (index % 8) & 1 == 1
}

fn flip(area: &mut [u8], index: usize) {
    area[index / 8] ^= 1 << (index % 8);
}

#[derive(Clone, Debug, PartialEq, Eq)]
pub struct Rows {
    pub a: Vec<u8>,
    pub b: Vec<u8>,
}

impl Rows {
    pub fn bit(&self, places: &Places) -> bool {
        bit(&self.a, places.ha) ^ bit(&self.b, places.hb)
    }

    pub fn flip(&mut self, flips_a: &[u16], flips_b: &[u16]) {
        for &place in flips_a {
            flip(&mut self.a, usize::from(place));
        }
        for &place in flips_b {
            flip(&mut self.b, usize::from(place));
        }
    }
}

/// The largest seed that is its own field; every larger one needs an overflow entry.
const LARGEST_IN_FIELD: u16 = 30;
const FIELD_BITS: usize = 5;
const OVERFLOWN: u16 = 31;

#[derive(Clone, Copy, Debug, PartialEq, Eq)]
pub struct Overflow {
    bucket: usize,
    seed: u16,
}

#[derive(Clone, Debug, PartialEq, Eq)]
pub struct Seeds {
    pub area: Vec<u8>,
    pub overflow: Vec<Option<Overflow>>,
}

impl Seeds {
    pub fn get(&self, bucket: usize) -> u16 {
        let field = (0..FIELD_BITS).map(|i| u16::from(bit(&self.area, FIELD_BITS * bucket + i)) << i).sum();
        if field == OVERFLOWN {
            let entry = self.overflow.iter().flatten().find(|entry| entry.bucket == bucket);
            entry.expect("a field of 31 has an overflow entry").seed
        } else {
            field
        }
    }

    /// The caller has made sure by `check` that there is an entry if the seed needs one.
    fn set(&mut self, bucket: usize, seed: u16) {
        // The old entry goes first, so that a bucket which keeps needing one never needs two.
        for entry in &mut self.overflow {
            if entry.is_some_and(|entry| entry.bucket == bucket) {
                *entry = None;
            }
        }
        let field = if seed <= LARGEST_IN_FIELD {
            seed
        } else {
            let free = self.overflow.iter_mut().find(|entry| entry.is_none());
            *free.expect("an overflow entry is free") = Some(Overflow { bucket, seed });
            OVERFLOWN
        };
        for i in 0..FIELD_BITS {
            let index = FIELD_BITS * bucket + i;
            if bit(&self.area, index) != (field >> i & 1 == 1) {
                flip(&mut self.area, index);
            }
        }
    }

    /// How many buckets have a seed over 30.
    pub fn used(&self) -> usize {
        self.overflow.iter().flatten().count()
    }

    /// Check 10, after each of the steps in turn. The steps are on different buckets.
    pub fn check<'s, S: 's>(&self, steps: impl IntoIterator<Item = &'s BucketStep<S>>) -> Result<(), Refusal> {
        let mut used = self.used();
        for step in steps {
            used += usize::from(step.seed > LARGEST_IN_FIELD);
            used -= usize::from(self.get(usize::from(step.bucket)) > LARGEST_IN_FIELD);
            if used > self.overflow.len() {
                return Err(Refusal::NoEntry);
            }
        }
        Ok(())
    }
}

#[derive(Clone, Debug, PartialEq, Eq)]
pub struct Tables {
    pub rows: Rows,
    pub seeds: Seeds,
}

impl Tables {
    /// Memory of the right lengths. Its contents are to mean nothing until a book or controller has cleared it.
    pub fn for_sizes(sizes: &Sizes) -> Tables {
        let area = |bits: usize| vec![0xA5; bits.div_ceil(8)];
        Tables {
            rows: Rows { a: area(sizes.a), b: area(sizes.b) },
            seeds: Seeds { area: area(FIELD_BITS * sizes.n), overflow: vec![None; sizes.w] },
        }
    }

    pub fn has_lengths(&self, sizes: &Sizes) -> bool {
        self.rows.a.len() == sizes.a.div_ceil(8)
            && self.rows.b.len() == sizes.b.div_ceil(8)
            && self.seeds.area.len() == (FIELD_BITS * sizes.n).div_ceil(8)
            && self.seeds.overflow.len() == sizes.w
    }

    pub fn clear(&mut self) {
        self.rows.a.fill(0);
        self.rows.b.fill(0);
        self.seeds.area.fill(0);
        self.seeds.overflow.fill(None);
    }

    /// What a bucket step does to the tables; its settings are the controller's concern.
    pub fn rewrite<S>(&mut self, step: &BucketStep<S>) {
        self.seeds.set(usize::from(step.bucket), step.seed);
        self.rows.flip(&step.flips_a, &step.flips_b);
    }
}
