//! The ledger: what a book's accepted calls amount to at each number.

use crate::kinds::{Part, Setting};

#[derive(Clone, Copy, Debug, PartialEq, Eq)]
pub enum Call<P, S> {
    Enter(P, S),
    Change(P, S),
    Strike(P),
}

impl<P: Part, S: Setting> Call<P, S> {
    fn part(&self) -> P {
        match *self {
            Call::Enter(part, _) | Call::Change(part, _) | Call::Strike(part) => part,
        }
    }
}

/// The accepted calls; call n is at index n - 1.
pub struct Ledger<P, S> {
    calls: Vec<Call<P, S>>,
}

impl<P: Part, S: Setting> Ledger<P, S> {
    pub fn new() -> Self {
        Ledger { calls: Vec::new() }
    }

    pub fn feed(&mut self, call: Call<P, S>, accepted: bool) {
        if accepted {
            self.calls.push(call);
        }
    }

    pub fn number(&self) -> usize {
        self.calls.len()
    }

    fn calls_on(&self, part: &P, number: usize) -> impl DoubleEndedIterator<Item = &Call<P, S>> {
        self.calls[..number].iter().filter(move |call| call.part() == *part)
    }

    /// The setting with which the part stands at a number.
    pub fn standing(&self, part: &P, number: usize) -> Option<S> {
        match self.calls_on(part, number).next_back()? {
            Call::Enter(_, setting) | Call::Change(_, setting) => Some(*setting),
            Call::Strike(_) => None,
        }
    }

    /// The setting of the part's last accepted enter or change up to a number.
    pub fn last_writing(&self, part: &P, number: usize) -> Option<S> {
        self.calls_on(part, number).rev().find_map(|call| match call {
            Call::Enter(_, setting) | Call::Change(_, setting) => Some(*setting),
            Call::Strike(_) => None,
        })
    }
}
