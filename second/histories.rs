//! Random notices, and random histories of a book with its controllers. Each call is forecast by following the
//! definitions one by one, without regard to speed, and the forecast is compared with what the book did.

use crate::book::{Book, BookMemory, Closing, Sheet};
use crate::controller::{Controller, ControllerMemory};
use crate::hash::{Family, Fnv, HeldBack, Pearson};
use crate::kinds::{Part, PartNumber, SetNumber, Setting, Tag, Trim};
use crate::ledger::{Call, Ledger};
use crate::notice::{BucketStep, LAST_NUMBER, Notice, SlotStep, Step};
use crate::refusal::Refusal;
use crate::tables::{Places, Sizes};
use std::collections::BTreeSet;

/// Answers in words how much was tried.
pub fn run() -> String {
    let mut random = Random(2024);
    random_notices(&mut random);
    random_histories(&mut random).summary()
}

/// SplitMix64: small, and the same on every machine.
struct Random(u64);

impl Random {
    fn below(&mut self, limit: usize) -> usize {
        self.0 = self.0.wrapping_add(0x9E37_79B9_7F4A_7C15);
        let mut z = self.0;
        z = (z ^ z >> 30).wrapping_mul(0xBF58_476D_1CE4_E5B9);
        z = (z ^ z >> 27).wrapping_mul(0x94D0_49BB_1331_11EB);
        ((z ^ z >> 31) % limit as u64) as usize
    }

    fn chance(&mut self, one_in: usize) -> bool {
        self.below(one_in) == 0
    }

    fn word(&mut self) -> u16 {
        self.below(65_536) as u16
    }

    fn ascending(&mut self) -> Vec<u16> {
        let places: BTreeSet<u16> = (0..self.below(5)).map(|_| self.word()).collect();
        places.into_iter().collect()
    }

    fn tag(&mut self) -> Tag {
        let bits = 1 + self.below(48);
        Tag::new(self.below(1 << bits) as u64).expect("a tag")
    }

    fn part_number(&mut self) -> PartNumber {
        const ALLOWED: &[u8] = b"ABCDEFGHIJKLMNOPQRSTUVWXYZ0123456789-";
        let text: Vec<u8> = (0..1 + self.below(16)).map(|_| ALLOWED[self.below(ALLOWED.len())]).collect();
        PartNumber::new(&text).expect("a part number")
    }

    fn set_number(&mut self) -> SetNumber {
        SetNumber(self.word())
    }

    fn trim(&mut self) -> Trim {
        let [advance, fuel, dwell] = [601, 1001, 10_000].map(|limit| self.below(limit) as u16);
        Trim::read(&[advance, 500 + fuel, dwell]).expect("a trim")
    }
}

fn random_notices(random: &mut Random) {
    for round in 0..1000 {
        let count = round % 6;
        let mut step = || {
            let bucket = random.word();
            if random.chance(2) {
                Step::Slot(SlotStep { bucket, slot: random.word(), setting: random.trim() })
            } else {
                let settings = [(); 4].map(|()| random.trim());
                let (flips_a, flips_b) = (random.ascending(), random.ascending());
                Step::Bucket(BucketStep { bucket, seed: random.word(), settings, flips_a, flips_b })
            }
        };
        let steps = (0..count).map(|_| step()).collect();
        let notice = Notice { number: 1 + random.below(LAST_NUMBER as usize) as u32, steps };
        let mut text = notice.to_string().into_bytes();
        assert_eq!(Notice::read(&text), Ok(notice));

        // With a byte replaced it is either no notice or again just what would be written.
        let place = random.below(text.len());
        text[place] = b"() \n0123456789abz-"[random.below(18)];
        match Notice::<Trim>::read(&text) {
            Ok(notice) => assert_eq!(notice.to_string().as_bytes(), text),
            Err(fault) => assert!(fault.place <= text.len()),
        }
    }
}

/// The least seed that puts the parts in different slots.
pub fn least_seed<P: Part>(family: &impl Family, parts: &[P]) -> Option<u16> {
    (0..256).find(|&seed| {
        let slots: BTreeSet<usize> = parts.iter().map(|part| family.slot(seed, part.bytes())).collect();
        slots.len() == parts.len()
    })
}

/// What a call with a blank sheet and a buffer that is long enough is to do.
struct Forecast<P, S> {
    steps: Vec<Step<S>>,
    slots: Vec<Option<(P, S)>>,
}

/// Forecasts calls on a book that has this memory.
struct Forecaster<'m, P, S, F> {
    sizes: Sizes,
    family: F,
    memory: &'m BookMemory<P, S>,
}

/// A part with its setting, and the bucket in which it arrives.
type Arrival<P, S> = ((P, S), usize);

impl<P: Part, S: Setting, F: Family> Forecaster<'_, P, S, F> {
    /// The forecast, or the number of the refusal.
    fn call(&self, call: Call<P, S>) -> Result<Forecast<P, S>, usize> {
        match call {
            Call::Enter(part, setting) => self.enter(part, setting),
            Call::Change(part, setting) => {
                let index = self.index_of(&part).ok_or(6_usize)?;
                let bucket = index / 4;
                let slot = self.family.slot(self.memory.tables.seeds.get(bucket), part.bytes()) as u16;
                let step = Step::Slot(SlotStep { bucket: bucket as u16, slot, setting });
                Ok(Forecast { steps: vec![step], slots: self.slots_with(index, Some((part, setting))) })
            }
            Call::Strike(part) => {
                let index = self.index_of(&part).ok_or(6_usize)?;
                Ok(Forecast { steps: Vec::new(), slots: self.slots_with(index, None) })
            }
        }
    }

    fn index_of(&self, part: &P) -> Option<usize> {
        self.memory.slots.iter().position(|slot| slot.is_some_and(|(standing, _)| standing == *part))
    }

    fn slots_with(&self, index: usize, content: Option<(P, S)>) -> Vec<Option<(P, S)>> {
        let mut slots = self.memory.slots.clone();
        slots[index] = content;
        slots
    }

    fn enter(&self, part: P, setting: S) -> Result<Forecast<P, S>, usize> {
        if self.index_of(&part).is_some() {
            return Err(5);
        }
        let places = self.places(&part);
        if self.joined(self.sizes.a() + places.hb, &part).contains(&places.ha) {
            return Err(8);
        }
        let (start, mut arrivals) = self.chain(&places).ok_or(7_usize)?;
        arrivals.insert(0, ((part, setting), start));

        let mut slots = self.memory.slots.clone();
        let mut rows = self.memory.tables.rows.clone();
        let mut steps = Vec::new();
        for (content, bucket) in arrivals.into_iter().rev() {
            if let Some(old) = self.index_of(&content.0) {
                slots[old] = None;
            }
            // Except at the far end this is the slot from which the step before took a part.
            let four = &mut slots[4 * bucket..4 * bucket + 4];
            let empty = four.iter().position(Option::is_none).expect("an empty slot");
            four[empty] = Some(content);

            let parts: Vec<P> = four.iter().flatten().map(|(part, _)| *part).collect();
            let seed = least_seed(&self.family, &parts).ok_or(9_usize)?;
            let mut settings = [S::BLANK; 4];
            for (part, setting) in four.iter().flatten() {
                settings[self.family.slot(seed, part.bytes())] = *setting;
            }

            let places = self.places(&content.0);
            let mut flips = BTreeSet::new();
            if rows.bit(&places) != (bucket != places.h0) {
                flips = self.joined(self.sizes.a() + places.hb, &content.0);
            }
            let a = self.sizes.a();
            let flips_b: Vec<u16> = flips.split_off(&a).iter().map(|place| (place - a) as u16).collect();
            let flips_a: Vec<u16> = flips.iter().map(|&place| place as u16).collect();
            rows.flip(&flips_a, &flips_b);
            steps.push(BucketStep { bucket: bucket as u16, seed, settings, flips_a, flips_b });
        }

        let tables = &self.memory.tables;
        let mut seeds: Vec<u16> = (0..self.sizes.n()).map(|bucket| tables.seeds.get(bucket)).collect();
        for step in &steps {
            seeds[usize::from(step.bucket)] = step.seed;
            if seeds.iter().filter(|&&seed| seed > 30).count() > tables.seeds.overflow.len() {
                return Err(10);
            }
        }
        Ok(Forecast { steps: steps.into_iter().map(Step::Bucket).collect(), slots })
    }

    fn places(&self, part: &P) -> Places {
        self.sizes.places(&self.family, part)
    }

    /// The places of both rows that the standing parts other than `left_out` join to `start`.
    fn joined(&self, start: usize, left_out: &P) -> BTreeSet<usize> {
        let mut joined = BTreeSet::from([start]);
        loop {
            let count = joined.len();
            for (part, _) in self.memory.slots.iter().flatten().filter(|(part, _)| part != left_out) {
                let places = self.places(part);
                let edge = [places.ha, self.sizes.a() + places.hb];
                if edge.iter().any(|place| joined.contains(place)) {
                    joined.extend(edge);
                }
            }
            if joined.len() == count {
                return joined;
            }
        }
    }

    /// The bucket at which the chain begins, and the parts that it moves. All chains are tried in their order.
    fn chain(&self, places: &Places) -> Option<(usize, Vec<Arrival<P, S>>)> {
        for moves in 0..=4 {
            for start in [places.h0, places.h1] {
                for code in 0..4_usize.pow(moves) {
                    let slots = (0..moves).rev().map(|digit| code >> (2 * digit) & 3);
                    if let Some(arrivals) = self.follow(start, slots) {
                        return Some((start, arrivals));
                    }
                }
            }
        }
        None
    }

    /// The moves out of these slots, if they are a chain.
    fn follow(&self, start: usize, slots: impl Iterator<Item = usize>) -> Option<Vec<Arrival<P, S>>> {
        let (mut buckets, mut arrivals) = (vec![start], Vec::new());
        let mut bucket = start;
        for slot in slots {
            let content = self.memory.slots[4 * bucket + slot]?;
            bucket = self.places(&content.0).other_bucket(bucket);
            if buckets.contains(&bucket) {
                return None;
            }
            buckets.push(bucket);
            arrivals.push((content, bucket));
        }
        let room = self.memory.slots[4 * bucket..4 * bucket + 4].contains(&None);
        room.then_some(arrivals)
    }
}

/// How often the random histories met what.
#[derive(Default)]
struct Tally {
    histories: usize,
    accepted: usize,
    finds: usize,
    refused: [usize; 18],
    steps: [usize; 6],
}

impl Tally {
    fn summary(&self) -> String {
        let (histories, accepted, finds) = (self.histories, self.accepted, self.finds);
        let refused: usize = self.refused.iter().sum();
        format!("{histories} random histories: {accepted} calls accepted, {refused} refused, {finds} finds")
    }
}

fn random_histories(random: &mut Random) -> Tally {
    let mut tally = Tally::default();
    for round in 0..120 {
        // Rows of either kind: some so short that edges soon join everything, some that let the buckets fill up.
        let n = if round % 20 == 0 { 40 } else { 1 + random.below(12) };
        let mut row = || if random.chance(3) { 1 + random.below(4 * n) } else { 8 * n + random.below(8 * n) };
        let (a, b) = (row(), row());
        let sizes = Sizes::new(n, a, b, random.below(4), random.below(16)).expect("sizes within their limits");
        let held_back = HeldBack::new(random.below(257) as u16).expect("a start of at most 256");
        match round % 4 {
            0 => history(random, &mut tally, sizes, Fnv, Random::tag, Random::trim),
            1 => history(random, &mut tally, sizes, Pearson, Random::part_number, Random::set_number),
            2 => history(random, &mut tally, sizes, held_back, Random::tag, Random::set_number),
            _ => history(random, &mut tally, sizes, Fnv, Random::part_number, Random::trim),
        }
    }
    // Histories that never meet a refusal or a long chain would say little.
    assert!([5, 6, 7, 8, 9, 10, 11, 13].iter().all(|&number| tally.refused[number] > 0), "{:?}", tally.refused);
    assert!(tally.steps.iter().all(|&count| count > 0), "{:?}", tally.steps);
    tally
}

/// Random calls on one book. A near controller takes each notice at once, a late one takes them all at the end.
fn history<P: Part, S: Setting, F: Family + Copy>(
    random: &mut Random,
    tally: &mut Tally,
    sizes: Sizes,
    family: F,
    part: fn(&mut Random) -> P,
    setting: fn(&mut Random) -> S,
) {
    let parts: Vec<P> = (0..2 * sizes.slots()).map(|_| part(random)).collect();
    let mut memory = BookMemory::for_sizes(&sizes);
    let mut book = Book::new(sizes, family, &mut memory);
    let mut near_memory = ControllerMemory::for_sizes(&sizes);
    let mut near = Controller::open(sizes, family, &mut near_memory);
    let mut ledger = Ledger::new();
    let mut notices: Vec<Vec<u8>> = Vec::new();
    let mut buffer = vec![b'#'; 1000 + 30 * (sizes.a() + sizes.b())];
    // The last written sheet, to be offered once more, with the number that is on it.
    let mut written: Option<(Sheet, u32)> = None;
    tally.histories += 1;

    for _ in 0..12 * sizes.slots() {
        let part = parts[random.below(parts.len())];
        let call = match random.below(8) {
            0..=4 => Call::Enter(part, setting(random)),
            5 => Call::Change(part, setting(random)),
            _ => Call::Strike(part),
        };
        let room = if random.chance(10) { random.below(100) } else { buffer.len() };
        let used_sheet = if random.chance(30) { written.take() } else { None };
        let (mut sheet, on_sheet) = used_sheet.unwrap_or_else(|| (Sheet::draw(), 0));

        let (before, buffer_before) = (book.memory().clone(), buffer.clone());
        let number = book.number();
        let answer = match call {
            Call::Enter(part, setting) => book.enter(part, setting, &mut sheet, &mut buffer[..room]),
            Call::Change(part, setting) => book.change(part, setting, &mut sheet, &mut buffer[..room]),
            Call::Strike(part) => book.strike(part, &mut sheet, &mut buffer[..room]),
        };

        let forecast = Forecaster { sizes, family, memory: &before }.call(call);
        let expected = if on_sheet > 0 { Err(13) } else { forecast }.and_then(|Forecast { steps, slots }| {
            let text = Notice { number: number + 1, steps }.to_string();
            if text.len() > room { Err(11) } else { Ok((text, slots)) }
        });
        ledger.feed(call, expected.is_ok());
        match expected {
            Err(refusal) => {
                assert_eq!(answer.map_err(Refusal::number), Err(refusal), "{call:?}");
                assert_eq!((book.memory(), &buffer, book.number()), (&before, &buffer_before, number));
                assert_eq!(sheet.file(), on_sheet);
                tally.refused[refusal] += 1;
            }
            Ok((text, slots)) => {
                assert_eq!(answer, Ok(text.len()), "{call:?}");
                let (front, rest) = buffer.split_at(text.len());
                assert_eq!((front, rest), (text.as_bytes(), &buffer_before[text.len()..]));
                assert_eq!((book.number(), &book.memory().slots), (number + 1, &slots));
                if let Some((older, on_older)) = written.replace((sheet, number + 1)) {
                    assert_eq!(older.file(), on_older);
                }

                let notice = Notice::<S>::read(front).expect("a notice");
                assert_eq!(notice.to_string(), text);
                tally.steps[notice.steps.len()] += 1;
                tally.accepted += 1;
                notices.push(front.to_vec());

                assert_eq!((near.take(front), near.take(front)), (Ok(()), Err(Refusal::OutOfTurn)));
                let (ours, theirs) = (&book.memory().tables, &near.memory().tables);
                assert_eq!((near.number(), &theirs.rows), (book.number(), &ours.rows));
                assert!((0..sizes.n()).all(|bucket| ours.seeds.get(bucket) == theirs.seeds.get(bucket)));
            }
        }
        for part in &parts {
            if let Ok(setting) = book.tell(part) {
                assert_eq!(near.find(part), Ok(setting), "{part:?}");
                tally.finds += 1;
            }
        }
    }

    let mut late_memory = ControllerMemory::for_sizes(&sizes);
    let mut late = Controller::open(sizes, family, &mut late_memory);
    for (text, number) in notices.iter().zip(1..) {
        assert_eq!(late.take(text), Ok(()));
        let part = parts[random.below(parts.len())];
        if let Some(setting) = ledger.standing(&part, number) {
            assert_eq!(late.find(&part), Ok(setting));
            assert_eq!(ledger.last_writing(&part, number), Some(setting));
        }
    }
    for part in &parts {
        assert_eq!(book.tell(part).ok(), ledger.standing(part, ledger.number()));
    }
    if let Some((sheet, on_sheet)) = written {
        assert_eq!(sheet.file(), on_sheet);
    }
    let standing = book.memory().slots.iter().flatten().count();
    let overflow = (0..sizes.n()).filter(|&bucket| near.memory().tables.seeds.get(bucket) > 30).count();
    assert_eq!(book.close(), Closing { standing, number: notices.len() as u32, overflow });
}
