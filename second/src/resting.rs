//! The last 16 closed identifiers, oldest first. They rest: no line is opened under them.

use std::collections::VecDeque;

/// The most that rest.
pub const MOST: usize = 16;

/// The identifiers, and a count of its own, because a spoiled book may claim a count that they have not.
///
/// Entries past the count do not rest. They are kept only until an identifier enters.
#[derive(Clone, Debug, Default)]
pub struct Resting {
    entries: VecDeque<u8>,
    rested: u8,
}

impl Resting {
    /// How many rest, by the count.
    pub fn rested(&self) -> u8 {
        self.rested
    }

    /// The identifiers that rest, at most 16 whatever the count claims.
    pub fn identifiers(&self) -> impl Iterator<Item = u8> + '_ {
        self.entries.iter().copied().take(usize::from(self.rested))
    }

    /// An identifier was closed. Where 16 rest already, the oldest leaves.
    pub fn enter(&mut self, identifier: u8) {
        let count = usize::from(self.rested);
        self.entries.truncate(count);
        self.entries.push_back(identifier);
        if self.entries.len() > MOST {
            self.entries.pop_front();
        }
        self.rested = self.entries.len() as u8;
    }

    /// Spoils the entry of that index, within the count or past it; those between that were never said are zeros.
    pub fn spoil_entry(&mut self, index: usize, identifier: u8) {
        self.reach(index + 1);
        self.entries[index] = identifier;
    }

    /// Spoils the count.
    pub fn spoil_count(&mut self, rested: u8) {
        self.reach(usize::from(rested).min(MOST));
        self.rested = rested;
    }

    fn reach(&mut self, length: usize) {
        if self.entries.len() < length {
            self.entries.resize(length, 0);
        }
    }

    /// BOOK's rules for the list by itself: at most 16, each identifier in its span.
    pub fn is_sound(&self) -> bool {
        usize::from(self.rested) <= MOST && self.identifiers().all(|identifier| identifier <= 127)
    }
}
