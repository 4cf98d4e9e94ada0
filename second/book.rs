//! The book, which has the parts.

use crate::edges::Edges;
use crate::hash::Family;
use crate::kinds::{Part, Setting};
use crate::notice::{BucketStep, LAST_NUMBER, Notice, SlotStep, Step};
use crate::refusal::Refusal;
use crate::tables::{Places, Rows, Sizes, Tables};

const MOST_MOVES: usize = 4;

/// The memory that a caller lends to a book.
#[derive(Clone, Debug, PartialEq, Eq)]
pub struct BookMemory<P, S> {
    pub slots: Vec<Option<(P, S)>>,
    pub tables: Tables,
    /// Its contents are free. This program makes its lists as it needs them, so only the length counts here.
    pub workspace: Vec<u32>,
}

impl<P: Part, S: Setting> BookMemory<P, S> {
    pub fn for_sizes(sizes: &Sizes) -> Self {
        BookMemory {
            slots: vec![None; sizes.slots()],
            tables: Tables::for_sizes(sizes),
            workspace: vec![0; sizes.workspace()],
        }
    }
}

/// A receipt: drawn blank, written by an accepted call, and at last filed. It cannot be copied.
#[must_use = "a drawn sheet must be filed"]
pub struct Sheet {
    /// 0 as long as the sheet is blank.
    number: u32,
}

impl Sheet {
    pub fn draw() -> Sheet {
        Sheet { number: 0 }
    }

    pub fn file(self) -> u32 {
        self.number
    }
}

/// What a closed book answers.
#[derive(Clone, Copy, Debug, PartialEq, Eq)]
pub struct Closing {
    pub standing: usize,
    pub number: u32,
    pub overflow: usize,
}

pub struct Book<'m, P, S, F> {
    sizes: Sizes,
    family: F,
    memory: &'m mut BookMemory<P, S>,
    shut: bool,
    number: u32,
}

impl<'m, P: Part, S: Setting, F: Family> Book<'m, P, S, F> {
    pub fn new(sizes: Sizes, family: F, memory: &'m mut BookMemory<P, S>) -> Self {
        let shut = memory.slots.len() != sizes.slots()
            || memory.workspace.len() != sizes.workspace()
            || !memory.tables.has_lengths(&sizes);
        if !shut {
            memory.slots.fill(None);
            memory.tables.clear();
        }
        Book { sizes, family, memory, shut, number: 0 }
    }

    /// The book as if it had accepted so many calls; nobody makes four thousand million to see the last number.
    pub fn counting_from(mut self, number: u32) -> Self {
        self.number = number;
        self
    }

    pub fn number(&self) -> u32 {
        self.number
    }

    pub fn memory(&self) -> &BookMemory<P, S> {
        self.memory
    }

    /// Puts the notice of an accepted call at the front of the buffer and answers its length.
    pub fn enter(&mut self, part: P, setting: S, sheet: &mut Sheet, buffer: &mut [u8]) -> Result<usize, Refusal> {
        self.check_writing(sheet)?;
        if self.index_of(&part).is_some() {
            return Err(Refusal::Stands);
        }
        let places = self.places(&part);
        let edges = self.edges();
        if edges.joined(self.sizes.a() + places.hb, None).contains(&places.ha) {
            return Err(Refusal::Joined);
        }
        let chain = self.chain(&places).ok_or(Refusal::NoChain)?;
        let steps = self.steps(&chain, &edges, (part, setting))?;
        self.memory.tables.seeds.check(&steps)?;

        let notice = Notice { number: self.number + 1, steps: steps.into_iter().map(Step::Bucket).collect() };
        let length = self.publish(&notice, sheet, buffer)?;
        for step in &notice.steps {
            if let Step::Bucket(step) = step {
                self.memory.tables.rewrite(step);
            }
        }
        for pair in chain.windows(2).rev() {
            self.memory.slots[pair[1]] = self.memory.slots[pair[0]].take();
        }
        self.memory.slots[chain[0]] = Some((part, setting));
        Ok(length)
    }

    pub fn change(&mut self, part: P, setting: S, sheet: &mut Sheet, buffer: &mut [u8]) -> Result<usize, Refusal> {
        self.check_writing(sheet)?;
        let index = self.index_of(&part).ok_or(Refusal::StandsNot)?;
        let bucket = index / 4;
        let slot = self.family.slot(self.memory.tables.seeds.get(bucket), part.bytes());
        let step = SlotStep { bucket: bucket as u16, slot: slot as u16, setting };
        let notice = Notice { number: self.number + 1, steps: vec![Step::Slot(step)] };
        let length = self.publish(&notice, sheet, buffer)?;
        self.memory.slots[index] = Some((part, setting));
        Ok(length)
    }

    pub fn strike(&mut self, part: P, sheet: &mut Sheet, buffer: &mut [u8]) -> Result<usize, Refusal> {
        self.check_writing(sheet)?;
        let index = self.index_of(&part).ok_or(Refusal::StandsNot)?;
        let notice = Notice { number: self.number + 1, steps: Vec::new() };
        let length = self.publish(&notice, sheet, buffer)?;
        self.memory.slots[index] = None;
        Ok(length)
    }

    pub fn tell(&self, part: &P) -> Result<S, Refusal> {
        self.check_open()?;
        let index = self.index_of(part).ok_or(Refusal::StandsNot)?;
        let (_, setting) = self.memory.slots[index].expect("the part is in this slot");
        Ok(setting)
    }

    pub fn close(self) -> Closing {
        if self.shut {
            return Closing { standing: 0, number: 0, overflow: 0 };
        }
        Closing {
            standing: self.memory.slots.iter().flatten().count(),
            number: self.number,
            overflow: self.memory.tables.seeds.used(),
        }
    }

    fn check_open(&self) -> Result<(), Refusal> {
        if self.shut { Err(Refusal::Shut) } else { Ok(()) }
    }

    /// The checks 2, 13 and 12, with which each call that writes begins.
    fn check_writing(&self, sheet: &Sheet) -> Result<(), Refusal> {
        self.check_open()?;
        if sheet.number != 0 {
            return Err(Refusal::SheetWritten);
        }
        if self.number == LAST_NUMBER {
            return Err(Refusal::LastNumber);
        }
        Ok(())
    }

    /// Check 11, the last of every call; once it is passed the call is accepted.
    fn publish(&mut self, notice: &Notice<S>, sheet: &mut Sheet, buffer: &mut [u8]) -> Result<usize, Refusal> {
        let text = notice.to_string();
        let front = buffer.get_mut(..text.len()).ok_or(Refusal::NoRoom)?;
        front.copy_from_slice(text.as_bytes());
        sheet.number = notice.number;
        self.number = notice.number;
        Ok(text.len())
    }

    fn places(&self, part: &P) -> Places {
        self.sizes.places(&self.family, part)
    }

    /// The index of the slot that holds the part, which can only be in one of its two buckets.
    fn index_of(&self, part: &P) -> Option<usize> {
        let places = self.places(part);
        let holds = |index: &usize| self.memory.slots[*index].is_some_and(|(other, _)| other == *part);
        [places.h0, places.h1].into_iter().flat_map(indices).find(holds)
    }

    /// The edges of the parts that stand now.
    fn edges(&self) -> Edges {
        let standing = self.memory.slots.iter().enumerate().filter_map(|(index, slot)| Some((index, slot.as_ref()?)));
        let edges = standing.map(|(index, (part, _))| {
            let places = self.places(part);
            (index, [places.ha, self.sizes.a() + places.hb])
        });
        Edges::new(self.sizes.a() + self.sizes.b(), edges)
    }

    /// The chain for a part: the indices of the slots that its parts take, the new part's first. The last one is
    /// empty; the part in each other one moves to the next.
    fn chain(&self, places: &Places) -> Option<Vec<usize>> {
        // Fewest moves, then the least side, then the least slots: just the order of these loops.
        for moves in 0..=MOST_MOVES {
            for bucket in [places.h0, places.h1] {
                let mut chain = Vec::new();
                if self.extend_chain(&mut chain, bucket, moves) {
                    return Some(chain);
                }
            }
        }
        None
    }

    /// Goes on from a bucket with just so many moves, if that leads to an empty slot.
    fn extend_chain(&self, chain: &mut Vec<usize>, bucket: usize, moves: usize) -> bool {
        if moves == 0 {
            let empty = indices(bucket).find(|&index| self.memory.slots[index].is_none());
            chain.extend(empty);
            return empty.is_some();
        }
        for index in indices(bucket) {
            let Some((part, _)) = self.memory.slots[index] else { continue };
            let next = self.places(&part).other_bucket(bucket);
            chain.push(index);
            let new = chain.iter().all(|index| index / 4 != next);
            if new && self.extend_chain(chain, next, moves - 1) {
                return true;
            }
            chain.pop();
        }
        false
    }

    /// The steps of an enter, from the chain's far end.
    fn steps(&self, chain: &[usize], edges: &Edges, new: (P, S)) -> Result<Vec<BucketStep<S>>, Refusal> {
        let mut rows = self.memory.tables.rows.clone();
        let mut steps = Vec::new();
        for (i, &to) in chain.iter().enumerate().rev() {
            let from = i.checked_sub(1).map(|i| chain[i]);
            let arriving = match from {
                Some(index) => self.memory.slots[index].expect("a chain moves parts"),
                None => new,
            };
            steps.push(self.step(to, from, arriving, edges, &mut rows)?);
        }
        Ok(steps)
    }

    /// The step by which a part arrives in the slot `to`. The rows are those that the earlier steps left.
    fn step(
        &self,
        to: usize,
        from: Option<usize>,
        arriving: (P, S),
        edges: &Edges,
        rows: &mut Rows,
    ) -> Result<BucketStep<S>, Refusal> {
        let bucket = to / 4;
        // The arriving part takes the slot of the part that moved out, so putting it there also takes that one away.
        let contents: Vec<(P, S)> = indices(bucket)
            .filter_map(|index| if index == to { Some(arriving) } else { self.memory.slots[index] })
            .collect();
        let seed = self.least_seed(&contents).ok_or(Refusal::NoSeed)?;
        let mut settings = [S::BLANK; 4];
        for (part, setting) in &contents {
            settings[self.family.slot(seed, part.bytes())] = *setting;
        }

        let places = self.places(&arriving.0);
        let (mut flips_a, mut flips_b) = (Vec::new(), Vec::new());
        if rows.bit(&places) != places.needed_bit(bucket) {
            let mut flips = edges.joined(self.sizes.a() + places.hb, from);
            flips.sort_unstable();
            for place in flips {
                match place.checked_sub(self.sizes.a()) {
                    None => flips_a.push(place as u16),
                    Some(place) => flips_b.push(place as u16),
                }
            }
            rows.flip(&flips_a, &flips_b);
        }
        Ok(BucketStep { bucket: bucket as u16, seed, settings, flips_a, flips_b })
    }

    fn least_seed(&self, contents: &[(P, S)]) -> Option<u16> {
        (0..=255).find(|&seed| {
            let mut taken = [false; 4];
            contents.iter().all(|(part, _)| !std::mem::replace(&mut taken[self.family.slot(seed, part.bytes())], true))
        })
    }
}

/// The indices of a bucket's four slots.
fn indices(bucket: usize) -> std::ops::Range<usize> {
    4 * bucket..4 * bucket + 4
}
