//! Packets that no honest peer writes: random octets, honest packets damaged on the way, and packets crafted wrong.

use super::calls::look;
use super::craft::Craft;
use super::honest::{step, Link};
use super::pairs::{open_pairs, Pair};
use super::pen::{End, Pen};
use crate::words::hex;

pub fn episode(pen: &mut Pen) {
    let count = pen.random.pick(&[1, 2, 3]);
    let pairs = open_pairs(pen, count);
    let mut link = Link::new(pen);
    while pen.more() {
        let end = pen.pick_end();
        let index = pen.random.below(pairs.len() as u64) as usize;
        match pen.random.below(10) {
            0..=2 => step(pen, &pairs, &mut link),
            3 => look(pen, end, pairs[index].line(end)),
            _ => arrive(pen, end, &pairs[index]),
        }
    }
}

fn arrive(pen: &mut Pen, end: End, pair: &Pair) {
    let line = pair.line(end);
    let mut octets = match pen.random.below(8) {
        0 => random_octets(pen),
        1 | 2 => crafted(pen, end, line),
        _ => damaged(pen, end, line),
    };
    octets.truncate(600);
    pen.say(format!("{end} arrive {}", hex(&octets)));
}

fn random_octets(pen: &mut Pen) -> Vec<u8> {
    let length = match pen.random.chance(80) {
        true => pen.random.below(20),
        false => pen.random.between(20, 600),
    };
    pen.random.octets(length)
}

/// One to three fields wrong.
fn crafted(pen: &mut Pen, end: End, line: u8) -> Vec<u8> {
    let mut craft = Craft::near(pen, end, line);
    for _ in 0..pen.random.between(1, 3) {
        craft.spoil(pen);
    }
    craft.octets()
}

/// A right packet that the way has changed: bits turned over, cut, lengthened, an octet replaced.
fn damaged(pen: &mut Pen, end: End, line: u8) -> Vec<u8> {
    let mut octets = Craft::near(pen, end, line).octets();
    let length = octets.len() as u64;
    match pen.random.below(6) {
        0 | 1 => {
            for _ in 0..pen.random.between(1, 3) {
                turn_bit(pen, &mut octets);
            }
        }
        2 => octets.truncate(pen.random.below(length) as usize),
        3 => octets.truncate(pen.random.below(13) as usize),
        4 => {
            let more = pen.random.between(1, 140);
            octets.extend(pen.random.octets(more));
        }
        _ => {
            let index = pen.random.below(length) as usize;
            octets[index] = pen.random.octet();
        }
    }
    octets
}

/// Turns a bit over, mostly one of the header.
fn turn_bit(pen: &mut Pen, octets: &mut [u8]) {
    let reach = match pen.random.chance(80) {
        true => octets.len().min(12),
        false => octets.len(),
    };
    let index = pen.random.below(reach as u64) as usize;
    octets[index] ^= 1 << pen.random.below(8);
}
