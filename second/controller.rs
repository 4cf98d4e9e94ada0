//! A controller, which finds settings without having the parts.

use crate::hash::Family;
use crate::kinds::{Part, Setting};
use crate::notice::{Notice, Step};
use crate::refusal::Refusal;
use crate::tables::{Sizes, Tables};

/// The memory that a caller lends to a controller.
#[derive(Clone, Debug, PartialEq, Eq)]
pub struct ControllerMemory<S> {
    pub settings: Vec<S>,
    pub tables: Tables,
}

impl<S: Setting> ControllerMemory<S> {
    pub fn for_sizes(sizes: &Sizes) -> Self {
        ControllerMemory { settings: vec![S::BLANK; sizes.slots()], tables: Tables::for_sizes(sizes) }
    }
}

pub struct Controller<'m, S, F> {
    sizes: Sizes,
    family: F,
    memory: &'m mut ControllerMemory<S>,
    shut: bool,
    number: u32,
}

impl<'m, S: Setting, F: Family> Controller<'m, S, F> {
    pub fn open(sizes: Sizes, family: F, memory: &'m mut ControllerMemory<S>) -> Self {
        let shut = memory.settings.len() != sizes.slots() || !memory.tables.has_lengths(&sizes);
        if !shut {
            memory.settings.fill(S::BLANK);
            memory.tables.clear();
        }
        Controller { sizes, family, memory, shut, number: 0 }
    }

    /// The controller as if it had taken so many notices.
    pub fn counting_from(mut self, number: u32) -> Self {
        self.number = number;
        self
    }

    pub fn number(&self) -> u32 {
        self.number
    }

    pub fn memory(&self) -> &ControllerMemory<S> {
        self.memory
    }

    pub fn find<P: Part>(&self, part: &P) -> Result<S, Refusal> {
        self.check_open()?;
        let places = self.sizes.places(&self.family, part);
        let bucket = if self.memory.tables.rows.bit(&places) { places.h1 } else { places.h0 };
        let slot = self.family.slot(self.memory.tables.seeds.get(bucket), part.bytes());
        Ok(self.memory.settings[4 * bucket + slot])
    }

    pub fn take(&mut self, text: &[u8]) -> Result<(), Refusal> {
        self.check_open()?;
        let notice = Notice::<S>::read(text).map_err(Refusal::NoNotice)?;
        self.check(&notice)?;
        for step in notice.steps {
            match step {
                Step::Bucket(step) => {
                    self.memory.tables.rewrite(&step);
                    let first = 4 * usize::from(step.bucket);
                    self.memory.settings[first..first + 4].copy_from_slice(&step.settings);
                }
                Step::Slot(step) => {
                    self.memory.settings[4 * usize::from(step.bucket) + usize::from(step.slot)] = step.setting;
                }
            }
        }
        self.number = notice.number;
        Ok(())
    }

    fn check_open(&self) -> Result<(), Refusal> {
        if self.shut { Err(Refusal::Shut) } else { Ok(()) }
    }

    /// The checks 15, 16, 17 and 10, each over all steps before the next.
    fn check(&self, notice: &Notice<S>) -> Result<(), Refusal> {
        if notice.number != self.number + 1 {
            return Err(Refusal::OutOfTurn);
        }
        if !notice.steps.iter().all(|step| self.is_within(step)) {
            return Err(Refusal::OutOfRange);
        }
        let same = |i: usize| notice.steps[..i].iter().any(|earlier| earlier.bucket() == notice.steps[i].bucket());
        if (0..notice.steps.len()).any(same) {
            return Err(Refusal::SameBucket);
        }
        self.memory.tables.seeds.check(notice.steps.iter().filter_map(|step| match step {
            Step::Bucket(step) => Some(step),
            Step::Slot(_) => None,
        }))
    }

    fn is_within(&self, step: &Step<S>) -> bool {
        let all_below = |places: &[u16], size: usize| places.iter().all(|&place| usize::from(place) < size);
        step.bucket() < self.sizes.n()
            && match step {
                Step::Bucket(step) => {
                    step.seed <= 255
                        && all_below(&step.flips_a, self.sizes.a())
                        && all_below(&step.flips_b, self.sizes.b())
                }
                Step::Slot(step) => step.slot < 4,
            }
    }
}
