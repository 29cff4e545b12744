//! Packets made by hand, with any field wrong.

use super::pen::{End, Pen, CHANNELS};
use crate::bits::Writer;
use crate::channel::{carried, Channel, MODULUS};
use crate::packet::Ack;

/// A packet's fields, each free to lie.
#[derive(Clone)]
pub struct Craft {
    pub extension: bool,
    pub identifier: u8,
    pub reserved: bool,
    pub payload_type: u8,
    pub channel: u8,
    pub number: u16,
    /// The number of acknowledgements that the header claims.
    pub claimed: u8,
    pub base: u16,
    pub acks: Vec<Ack>,
    pub payload: Vec<u8>,
}

impl Craft {
    /// A packet that the line would accept while it is in relay, with numbers near its own.
    pub fn near(pen: &mut Pen, end: End, line: u8) -> Craft {
        let channel = pen.pick_channel();
        Craft::near_on(pen, end, line, channel)
    }

    /// Such a packet on that channel.
    pub fn near_on(pen: &mut Pen, end: End, line: u8, channel: Channel) -> Craft {
        let count = pen.random.below(4);
        let acks: Vec<Ack> = (0..count).map(|_| ack_near(pen, end, line)).collect();
        let size = pen.random.pick(&[0, 1, 2, 5, 131, 132]);
        Craft {
            extension: false,
            identifier: pen.line(end, line).identifier,
            reserved: false,
            payload_type: pen.line(end, line).payload_type,
            channel: channel.number(),
            number: number_near(pen, end, line, channel),
            claimed: acks.len() as u8,
            base: base_near(pen, end, line, channel),
            acks,
            payload: pen.random.octets(size),
        }
    }

    /// Makes one thing wrong.
    pub fn spoil(&mut self, pen: &mut Pen) {
        let random = &mut pen.random;
        match random.below(11) {
            0 => self.extension = true,
            1 => self.reserved = true,
            2 => self.identifier = random.below(128) as u8,
            3 => self.payload_type = random.below(128) as u8,
            4 => self.channel = 3,
            5 => self.channel = 0,
            6 => self.claimed = 3,
            7 => self.payload = random.octets(133),
            8 => {
                let size = random.between(134, 500);
                self.payload = random.octets(size);
            }
            9 => self.acks.push((random.pick(&[0, 3]), random.number())),
            _ => self.payload.clear(),
        }
        if self.acks.len() > 3 {
            self.acks.remove(0);
        }
        self.claimed = self.claimed.max(self.acks.len() as u8);
    }

    pub fn octets(&self) -> Vec<u8> {
        let mut writer = Writer::default();
        writer.field(1, self.extension);
        writer.field(7, self.identifier);
        writer.field(1, self.reserved);
        writer.field(7, self.payload_type);
        writer.field(2, self.channel);
        writer.field(14, self.number);
        writer.field(2, self.claimed);
        writer.field(14, self.base);
        for &(channel, number) in &self.acks {
            writer.field(2, channel);
            writer.field(14, number);
        }
        let mut octets = writer.finish();
        octets.extend_from_slice(&self.payload);
        octets
    }
}

/// A payload number at an edge of the receiving window, inside it, or anywhere.
fn number_near(pen: &mut Pen, end: End, line: u8, channel: Channel) -> u16 {
    let next = pen.sides(end, line, channel).receiving.next;
    let window = channel.window();
    let inside = pen.random.below(window);
    let far = pen.random.below(MODULUS);
    let edges = [
        0,
        1,
        window - 1,
        window,
        window + 1,
        MODULUS - 1,
        MODULUS / 2,
    ];
    let distance = match pen.random.below(4) {
        0 => pen.random.pick(&edges),
        1 => far,
        _ => inside,
    };
    carried(next + distance)
}

/// A base at an edge of h to S, or inside.
fn base_near(pen: &mut Pen, end: End, line: u8, channel: Channel) -> u16 {
    let sending = &pen.sides(end, line, channel).sending;
    let (base, open) = (sending.base, sending.taken.saturating_sub(sending.base));
    let inside = pen.random.below(open + 1);
    let distance = pen
        .random
        .pick(&[0, 1, inside, open, open + 1, MODULUS - 1]);
    carried(base + distance)
}

fn ack_near(pen: &mut Pen, end: End, line: u8) -> Ack {
    let channel = pen.random.pick(&CHANNELS);
    let sending = &pen.sides(end, line, channel).sending;
    let (base, open) = (sending.base, sending.taken.saturating_sub(sending.base));
    let inside = pen.random.below(open + 1);
    let distance = pen
        .random
        .pick(&[0, inside, inside, open, open + 1, MODULUS - 1]);
    (channel.number(), carried(base + distance))
}
