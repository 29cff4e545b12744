//! A long run: one stream on one channel from message 0, so that a long enough script wraps for real.

use super::pairs::{open_pairs, Pair};
use super::pen::{End, Pen};
use crate::channel::Channel;
use crate::words::hex;

pub fn episode(pen: &mut Pen) {
    let pairs = open_pairs(pen, 1);
    let channel = pen.pick_channel();
    while pen.more() {
        carry_one(pen, &pairs[0], channel);
    }
}

/// Takes a message at A and hands it out at B; sometimes the way back is used.
fn carry_one(pen: &mut Pen, pair: &Pair, channel: Channel) {
    let (from, to) = (pair.line(End::A), pair.line(End::B));
    let number = channel.number();
    let size = pen.random.between(1, 3);
    let message = hex(&pen.random.octets(size));
    pen.say(format!("A take {from} {number} {message}"));
    let held = &pen.sides(End::A, from, channel).sending.held;
    let newest = held.len().saturating_sub(1);
    carry(pen, End::B, format!("A send {from} {number} {newest}"));
    pen.say(format!("B out {to} {number}"));
    if pen.random.chance(25) {
        carry(pen, End::A, format!("B empty {to} {number}"));
    }
}

fn carry(pen: &mut Pen, to: End, call: String) {
    if let Some(packet) = pen.octets_of(call) {
        pen.say(format!("{to} arrive {packet}"));
    }
}
