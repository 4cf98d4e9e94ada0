//! Standing parts as edges between places of the two rows.

use std::iter::successors;

/// The edges of the standing parts. Each is known by the index of its part's slot.
pub struct Edges {
    /// For each place the index of its first end, or `NONE`.
    first: Vec<usize>,
    ends: Vec<End>,
}

/// An edge as seen from one of its places.
struct End {
    slot: usize,
    other: usize,
    next: usize,
}

/// No end has this index, so that looking it up ends a place's list.
const NONE: usize = usize::MAX;

impl Edges {
    /// From slot indices, each with the two places of its part.
    pub fn new(places: usize, edges: impl Iterator<Item = (usize, [usize; 2])>) -> Edges {
        let mut first = vec![NONE; places];
        let mut ends = Vec::new();
        for (slot, [x, y]) in edges {
            for (place, other) in [(x, y), (y, x)] {
                let next = std::mem::replace(&mut first[place], ends.len());
                ends.push(End { slot, other, next });
            }
        }
        Edges { first, ends }
    }

    fn at(&self, place: usize) -> impl Iterator<Item = &End> {
        successors(self.ends.get(self.first[place]), |end| self.ends.get(end.next))
    }

    /// All places that the edges join to `start`, `start` with them; the edge of the slot `left_out` does not count.
    pub fn joined(&self, start: usize, left_out: Option<usize>) -> Vec<usize> {
        let mut reached = vec![false; self.first.len()];
        reached[start] = true;
        let mut found = vec![start];
        let mut looked_at = 0;
        while looked_at < found.len() {
            for end in self.at(found[looked_at]).filter(|end| left_out != Some(end.slot)) {
                if !reached[end.other] {
                    reached[end.other] = true;
                    found.push(end.other);
                }
            }
            looked_at += 1;
        }
        found
    }
}
