//! Relay packets (Annex B): their fields, reading and writing.
//!
//! Reading comes in two steps, because the paper asks for the line, its type and its mode between FORM and the second
//! SHORT: [`Head`] is what can be read without a line, [`Packet::read`] goes on from there.

use crate::bits::{Reader, Writer};
use crate::channel::LARGEST;
use crate::refusal::{require, Refusal};

/// Octets of a header without acknowledgements.
const SHORTEST: usize = 6;

/// An acknowledgement: channel and 14-bit number.
pub type Ack = (u8, u16);

/// What says which line a packet is for.
pub struct Head {
    pub identifier: u8,
    pub payload_type: u8,
}

impl Head {
    /// SHORT for 6 octets, then FORM.
    pub fn read(octets: &[u8]) -> Result<Head, Refusal> {
        require(octets.len() >= SHORTEST, Refusal::Short)?;
        let mut reader = Reader::new(octets);
        let extension = reader.flag();
        let identifier = reader.octet(7);
        let reserved = reader.flag();
        let payload_type = reader.octet(7);
        require(!extension && !reserved, Refusal::Form)?;
        Ok(Head {
            identifier,
            payload_type,
        })
    }
}

/// A packet whole. An empty payload means that the packet has none.
pub struct Packet {
    pub identifier: u8,
    pub payload_type: u8,
    pub channel: u8,
    pub number: u16,
    pub base: u16,
    pub acks: Vec<Ack>,
    pub payload: Vec<u8>,
}

impl Packet {
    /// SHORT for the list, CHANNEL, SIZE; of octets whose head has been read.
    pub fn read(head: Head, octets: &[u8]) -> Result<Packet, Refusal> {
        let mut reader = Reader::new(octets);
        reader.field(16);
        let channel = reader.octet(2);
        let number = reader.word(14);
        let count = usize::from(reader.octet(2));
        let base = reader.word(14);
        let payload = octets
            .get(SHORTEST + 2 * count..)
            .ok_or(Refusal::Short)?
            .to_vec();
        let acks: Vec<Ack> = (0..count)
            .map(|_| (reader.octet(2), reader.word(14)))
            .collect();
        let served = channel != 3 && acks.iter().all(|&(on, _)| on == 1 || on == 2);
        require(served, Refusal::Channel)?;
        let largest = if channel == 0 { 0 } else { LARGEST };
        require(payload.len() <= largest, Refusal::Size)?;
        Ok(Packet {
            identifier: head.identifier,
            payload_type: head.payload_type,
            channel,
            number,
            base,
            acks,
            payload,
        })
    }

    /// The packet's octets, extension and reserved bits 0.
    pub fn write(&self) -> Vec<u8> {
        let mut writer = Writer::default();
        writer.field(1, 0u8);
        writer.field(7, self.identifier);
        writer.field(1, 0u8);
        writer.field(7, self.payload_type);
        writer.field(2, self.channel);
        writer.field(14, self.number);
        writer.field(2, self.acks.len() as u32);
        writer.field(14, self.base);
        for &(channel, number) in &self.acks {
            writer.field(2, channel);
            writer.field(14, number);
        }
        let mut octets = writer.finish();
        octets.extend_from_slice(&self.payload);
        octets
    }
}
