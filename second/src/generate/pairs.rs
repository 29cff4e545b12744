//! Pairs of lines, one at each gateway, that talk to each other.

use super::pen::{End, Pen, ENDS};
use crate::channel::Channel;

pub struct Pair {
    pub identifier: u8,
    pub payload_type: u8,
    at_a: u8,
    at_b: u8,
}

impl Pair {
    pub fn line(&self, end: End) -> u8 {
        match end {
            End::A => self.at_a,
            End::B => self.at_b,
        }
    }
}

/// Makes both gateways fresh and opens so many pairs, 1 to 4, in modem relay at both ends.
pub fn open_pairs(pen: &mut Pen, count: usize) -> Vec<Pair> {
    let mut lines = [0, 1, 2, 3];
    pen.random.shuffle(&mut lines);
    pen.say("A fresh");
    pen.say("B fresh");
    let identifiers = free_identifiers(pen, &ENDS);
    let mut pairs = Vec::new();
    for line in 0..count {
        let pair = Pair {
            identifier: identifiers[line],
            payload_type: pen.random.between(96, 127) as u8,
            at_a: line as u8,
            at_b: lines[line],
        };
        open_pair(pen, &pair);
        pairs.push(pair);
    }
    pairs
}

/// Opens a pair's lines and brings both into modem relay, one by request and the other by indication.
pub fn open_pair(pen: &mut Pen, pair: &Pair) {
    let asks = pen.pick_end();
    let hears = asks.other();
    for end in [asks, hears] {
        let vbd = pen.random.below(2);
        let (line, identifier, payload_type) = (pair.line(end), pair.identifier, pair.payload_type);
        pen.say(format!(
            "{end} open {line} {identifier} {payload_type} {vbd} 1 0"
        ));
    }
    for (end, call) in [(asks, "ask"), (hears, "hear"), (asks, "hear")] {
        pen.say(format!("{end} {call} {} m 10", pair.line(end)));
    }
}

/// Starts one way of a channel at a full number: the writer's counts and the reader's next to hand out.
pub fn start_at(pen: &mut Pen, pair: &Pair, writer: End, channel: Channel, number: u64) {
    let reader = writer.other();
    let (from, to, channel) = (pair.line(writer), pair.line(reader), channel.number());
    pen.say(format!("{writer} spoil {from} taken {channel} {number}"));
    pen.say(format!("{writer} spoil {from} base {channel} {number}"));
    pen.say(format!("{reader} spoil {to} next {channel} {number}"));
}

/// An identifier that none of these gateways has open or resting.
pub fn free_identifier(pen: &mut Pen, ends: &[End]) -> u8 {
    free_identifiers(pen, ends)[0]
}

/// All such identifiers in some order. At most 20 of 128 are open or rest, so there always are some.
pub fn free_identifiers(pen: &mut Pen, ends: &[End]) -> Vec<u8> {
    let mut free: Vec<u8> = (0..128)
        .filter(|&identifier| !ends.iter().any(|&end| is_taken(pen, end, identifier)))
        .collect();
    pen.random.shuffle(&mut free);
    free
}

fn is_taken(pen: &Pen, end: End, identifier: u8) -> bool {
    let gateway = pen.gateway(end);
    let open = gateway
        .lines
        .iter()
        .any(|line| line.is_open() && line.identifier == identifier);
    open || gateway
        .resting
        .identifiers()
        .any(|rests| rests == identifier)
}
