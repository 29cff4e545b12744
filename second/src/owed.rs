//! A line's list of owed acknowledgements, channel and number together, in order of entry.

use crate::packet::Ack;
use std::collections::BTreeSet;

/// The most that are owed.
pub const MOST: usize = 64;
/// As many as one packet carries.
const CARRIED: usize = 3;

/// The list, and a count of its own, because a spoiled book may claim a count that the list has not.
///
/// Entries past the count are not owed. They are kept only until the list itself changes.
#[derive(Clone, Debug, Default)]
pub struct Owed {
    entries: Vec<Ack>,
    owing: u8,
}

impl Owed {
    /// How many are owed, by the count.
    pub fn owing(&self) -> u8 {
        self.owing
    }

    /// The owed entries, at most 64 whatever the count claims.
    pub fn list(&self) -> &[Ack] {
        let count = usize::from(self.owing).min(self.entries.len());
        &self.entries[..count]
    }

    /// Those that the next packet carries.
    pub fn first(&self) -> &[Ack] {
        let list = self.list();
        &list[..list.len().min(CARRIED)]
    }

    /// Enters an acknowledgement unless it is there already or the list is full.
    pub fn enter(&mut self, ack: Ack) {
        if self.list().contains(&ack) || self.list().len() >= MOST {
            return;
        }
        let mut list = self.list().to_vec();
        list.push(ack);
        self.replace(list);
    }

    /// Those that a packet carried leave.
    pub fn leave(&mut self) {
        self.replace(self.list()[self.first().len()..].to_vec());
    }

    pub fn clear(&mut self) {
        self.replace(Vec::new());
    }

    fn replace(&mut self, list: Vec<Ack>) {
        self.owing = list.len() as u8;
        self.entries = list;
    }

    /// Spoils the entry of that index, within the count or past it; those between that were never said are zeros.
    pub fn spoil_entry(&mut self, index: usize, ack: Ack) {
        self.reach(index + 1);
        self.entries[index] = ack;
    }

    /// Spoils the count.
    pub fn spoil_count(&mut self, owing: u8) {
        self.reach(usize::from(owing).min(MOST));
        self.owing = owing;
    }

    fn reach(&mut self, length: usize) {
        if self.entries.len() < length {
            self.entries.resize(length, (0, 0));
        }
    }

    /// BOOK's rules: at most 64, each on channel 1 or 2, none twice.
    pub fn is_sound(&self) -> bool {
        let different: BTreeSet<&Ack> = self.list().iter().collect();
        usize::from(self.owing) <= MOST
            && different.len() == self.list().len()
            && different.iter().all(|ack| ack.0 == 1 || ack.0 == 2)
    }
}
