//! What both sides of a reliable channel share: its window, numbers modulo 16,384, and messages under full numbers.

use crate::refusal::Refusal;
use std::collections::BTreeMap;

/// Packets carry message numbers modulo this.
pub const MODULUS: u64 = 16_384;
/// A channel takes at most so many messages, and hands out at most as many.
pub const CAP: u64 = 16_777_215;
/// The most octets of a message.
pub const LARGEST: usize = 132;

/// A reliable channel.
#[derive(Clone, Copy, Debug, PartialEq, Eq)]
pub enum Channel {
    One,
    Two,
}

impl Channel {
    /// The channel of that number; CHANNEL for any but 1 and 2.
    pub fn named(number: u8) -> Result<Channel, Refusal> {
        match number {
            1 => Ok(Channel::One),
            2 => Ok(Channel::Two),
            _ => Err(Refusal::Channel),
        }
    }

    pub fn number(self) -> u8 {
        match self {
            Channel::One => 1,
            Channel::Two => 2,
        }
    }

    pub fn window(self) -> u64 {
        match self {
            Channel::One => 32,
            Channel::Two => 8,
        }
    }
}

/// Messages by their full numbers.
pub type Messages = BTreeMap<u64, Vec<u8>>;

/// How a packet says a full number.
pub fn carried(full: u64) -> u16 {
    (full % MODULUS) as u16
}

/// How far a carried number lies ahead of a full one: (number - from) mod 16,384.
pub fn ahead(number: u16, from: u64) -> u64 {
    (u64::from(number) + MODULUS - from % MODULUS) % MODULUS
}

/// BOOK's rule for messages: each numbered from `first` up to and without `end`, each of 1 to 132 octets.
pub fn lie_within(messages: &Messages, first: u64, end: u64) -> bool {
    messages.iter().all(|(&number, octets)| {
        (first..end).contains(&number) && (1..=LARGEST).contains(&octets.len())
    })
}
