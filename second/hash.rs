//! The hash families.

/// One fixed number for each seed from 0 to 319 and each list of bytes.
pub trait Family {
    fn hash(&self, seed: u16, bytes: &[u8]) -> u32;

    /// The slot of a part under a seed: the two highest bits of its hash.
    fn slot(&self, seed: u16, bytes: &[u8]) -> usize {
        (self.hash(seed, bytes) >> 30) as usize
    }
}

/// What a family really hashes: the two bytes of the seed, then the part's.
fn seeded(seed: u16, bytes: &[u8]) -> impl Iterator<Item = u8> {
    debug_assert!(seed <= 319);
    seed.to_be_bytes().into_iter().chain(bytes.iter().copied())
}

/// Plain FNV-1a with 32 bits.
pub fn fnv1a(bytes: impl IntoIterator<Item = u8>) -> u32 {
    bytes.into_iter().fold(2_166_136_261, |state: u32, byte| (state ^ u32::from(byte)).wrapping_mul(16_777_619))
}

#[derive(Clone, Copy)]
pub struct Fnv;

impl Family for Fnv {
    fn hash(&self, seed: u16, bytes: &[u8]) -> u32 {
        fnv1a(seeded(seed, bytes))
    }
}

/// T[i] = (i(i+1)/2) mod 256.
pub const T: [u8; 256] = {
    let mut table = [0; 256];
    let mut i = 0;
    while i < 256 {
        table[i] = (i * (i + 1) / 2 % 256) as u8;
        i += 1;
    }
    table
};

#[derive(Clone, Copy)]
pub struct Pearson;

impl Family for Pearson {
    fn hash(&self, seed: u16, bytes: &[u8]) -> u32 {
        let absorb = |lane: u8, byte| T[usize::from(lane ^ byte)];
        u32::from_be_bytes([0, 1, 2, 3].map(|start| seeded(seed, bytes).fold(start, absorb)))
    }
}

/// Pearson with all seeds below the start made useless, so that buckets need large seeds.
#[derive(Clone, Copy)]
pub struct HeldBack {
    start: u16,
}

impl HeldBack {
    /// There is no such family with a start over 256: the seeds that place the parts are never held back.
    pub fn new(start: u16) -> Option<HeldBack> {
        (start <= 256).then_some(HeldBack { start })
    }
}

impl Family for HeldBack {
    fn hash(&self, seed: u16, bytes: &[u8]) -> u32 {
        if seed < self.start { 0 } else { Pearson.hash(seed, bytes) }
    }
}
