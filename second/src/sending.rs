//! The sending side of a channel: what was taken, what the far end has handed out, and what is still held.

use crate::channel::{ahead, lie_within, Channel, Messages, CAP};
use crate::refusal::{require, Refusal};

#[derive(Clone, Debug)]
pub struct Sending {
    channel: Channel,
    /// S, the count taken, which is the full number of the next message.
    pub taken: u64,
    /// h, the last base heard, as a full number.
    pub base: u64,
    /// The unacknowledged messages from h to S - 1.
    pub held: Messages,
}

impl Sending {
    pub fn fresh(channel: Channel) -> Self {
        Sending {
            channel,
            taken: 0,
            base: 0,
            held: Messages::new(),
        }
    }

    /// SPENT, FULL.
    pub fn take(&mut self, message: &[u8]) -> Result<(), Refusal> {
        require(self.taken < CAP, Refusal::Spent)?;
        require(
            self.taken - self.base < self.channel.window(),
            Refusal::Full,
        )?;
        self.held.insert(self.taken, message.to_vec());
        self.taken += 1;
        Ok(())
    }

    /// A base was heard. One past the count taken says nothing; messages below it need no holding.
    pub fn hear_base(&mut self, base: u16) {
        let moved = ahead(base, self.base);
        if moved <= self.taken - self.base {
            self.base += moved;
            self.held = self.held.split_off(&self.base);
        }
    }

    /// A number was acknowledged.
    pub fn acknowledge(&mut self, number: u16) {
        let distance = ahead(number, self.base);
        if distance < self.taken - self.base {
            self.held.remove(&(self.base + distance));
        }
    }

    /// The held message of that rank, oldest 0, with its full number.
    pub fn ranked(&self, rank: u8) -> Option<(u64, &[u8])> {
        self.held
            .iter()
            .nth(usize::from(rank))
            .map(|(&number, message)| (number, message.as_slice()))
    }

    /// BOOK's rules for this side.
    pub fn is_sound(&self) -> bool {
        self.taken <= CAP
            && self.base <= self.taken
            && self.taken - self.base <= self.channel.window()
            && lie_within(&self.held, self.base, self.taken)
    }
}
