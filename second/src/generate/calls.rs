//! One call of any sort at one gateway, with each of its words right or wrong as chance has it.
//!
//! `care` is how many of a hundred words are chosen to be right. Where several are wrong at once, the order of refusals
//! shows.

use super::craft::Craft;
use super::pairs::free_identifier;
use super::pen::{End, Pen, CHANNELS};
use crate::channel::Channel;
use crate::modes::Mode;
use crate::words::hex;

pub const LETTERS: [char; 6] = ['a', 'v', 'm', 'f', 't', 'i'];
/// Steps of time that a tick can tell apart.
pub const STEPS: [u64; 9] = [0, 1, 10, 999, 1_000, 1_001, 1_002, 2_000, 6_000];
/// Octets of a header without acknowledgements.
const HEADER: u64 = 6;

pub fn any_call(pen: &mut Pen, end: End, care: u64) {
    let call = match pen.random.below(100) {
        0..=14 => take(pen, end, care),
        15..=31 => send(pen, end, care),
        32..=43 => empty(pen, end, care),
        44..=58 => out(pen, end, care),
        59..=64 => held(pen, end, care),
        65..=83 => arrive(pen, end, care),
        84..=92 => mode_call(pen, end, care),
        93..=96 => open(pen, end, care),
        _ => close(pen, end, care),
    };
    pen.say(call);
}

/// Calls that show most of a line's state in turn: both reports, held messages, what is owed, what can be handed out.
pub fn look(pen: &mut Pen, end: End, line: u8) {
    for channel in 1..=2 {
        pen.say(format!("{end} held {line} {channel}"));
    }
    let channel = pen.pick_channel();
    let rank = pen.random.below(3);
    pen.say(format!("{end} send {line} {} {rank}", channel.number()));
    let channel = pen.random.below(3);
    pen.say(format!("{end} empty {line} {channel}"));
    let channel = pen.pick_channel();
    pen.say(format!("{end} out {line} {}", channel.number()));
}

/// Mostly a line in relay, else any line, or a number that is no line's.
fn pick_line(pen: &mut Pen, end: End, care: u64) -> u8 {
    let careless = !pen.random.chance(care);
    match careless && pen.random.chance(25) {
        true => pen.random.pick(&[4, 5, 128, 255]),
        false => pick_record(pen, end, care),
    }
}

/// Mostly a line in relay, else any of the four.
pub fn pick_record(pen: &mut Pen, end: End, care: u64) -> u8 {
    let in_relay: Vec<u8> = (0..4)
        .filter(|&line| {
            let record = pen.line(end, line);
            record.is_open() && record.modes.local == Mode::Relay
        })
        .collect();
    match pen.random.chance(care) && !in_relay.is_empty() {
        true => pen.random.pick(&in_relay),
        false => pen.random.below(4) as u8,
    }
}

/// The channel, if the number names one, and the number.
fn pick_channel(pen: &mut Pen, care: u64) -> (Channel, u8) {
    let channel = pen.random.pick(&CHANNELS);
    match pen.random.chance(care) {
        true => (channel, channel.number()),
        false => (channel, pen.random.pick(&[0, 3, 4, 255])),
    }
}

/// A word for the room, by how many octets are needed: enough, or not.
fn room(pen: &mut Pen, care: u64, needed: u64) -> String {
    match pen.random.chance(care) {
        true if pen.random.chance(60) => String::new(),
        true => format!(" {}", pen.random.pick(&[needed, needed + 1, 600])),
        false => {
            let less = needed.saturating_sub(1);
            format!(" {}", pen.random.pick(&[less, less, needed / 2, 0]))
        }
    }
}

/// Octets of the acknowledgements that a line's next packet carries.
fn carried_octets(pen: &Pen, end: End, line: u8) -> u64 {
    match line {
        0..=3 => 2 * pen.line(end, line).owed.first().len() as u64,
        _ => 0,
    }
}

fn take(pen: &mut Pen, end: End, care: u64) -> String {
    let line = pick_line(pen, end, care);
    let (_, channel) = pick_channel(pen, care);
    let size = match pen.random.chance(care) {
        true => pen.random.pick(&[1, 2, 3, 131, 132]),
        false => pen.random.pick(&[0, 133, 134, 600]),
    };
    let message = hex(&pen.random.octets(size));
    format!("{end} take {line} {channel} {message}")
}

fn send(pen: &mut Pen, end: End, care: u64) -> String {
    let line = pick_line(pen, end, care);
    let (channel, number) = pick_channel(pen, care);
    let sizes: Vec<u64> = match line {
        0..=3 => {
            let sending = &pen.sides(end, line, channel).sending;
            sending
                .held
                .values()
                .map(|held| held.len() as u64)
                .collect()
        }
        _ => Vec::new(),
    };
    let held = sizes.len() as u64;
    let rank = match held > 0 && pen.random.chance(care) {
        true => pen.random.below(held),
        false => pen.random.pick(&[held, held + 1, 255]),
    };
    let size = sizes.get(rank as usize).copied().unwrap_or(1);
    let needed = HEADER + carried_octets(pen, end, line) + size;
    format!(
        "{end} send {line} {number} {rank}{}",
        room(pen, care, needed)
    )
}

fn empty(pen: &mut Pen, end: End, care: u64) -> String {
    let line = pick_line(pen, end, care);
    let channel = match pen.random.chance(care) {
        true => pen.random.below(3),
        false => pen.random.pick(&[3, 4, 255]),
    };
    let needed = HEADER + carried_octets(pen, end, line);
    format!("{end} empty {line} {channel}{}", room(pen, care, needed))
}

fn out(pen: &mut Pen, end: End, care: u64) -> String {
    let line = pick_line(pen, end, care);
    let (channel, number) = pick_channel(pen, care);
    let waiting = match line {
        0..=3 => pen.sides(end, line, channel).receiving.waiting(),
        _ => None,
    };
    let needed = waiting.map_or(1, |message| message.len() as u64);
    format!("{end} out {line} {number}{}", room(pen, care, needed))
}

fn held(pen: &mut Pen, end: End, care: u64) -> String {
    let line = pick_line(pen, end, care);
    let (_, channel) = pick_channel(pen, care);
    format!("{end} held {line} {channel}")
}

fn arrive(pen: &mut Pen, end: End, care: u64) -> String {
    let line = pick_record(pen, end, care);
    let mut craft = Craft::near(pen, end, line);
    while !pen.random.chance(care) {
        craft.spoil(pen);
    }
    let mut octets = craft.octets();
    if !pen.random.chance(care) {
        let kept = pen.random.pick(&[0, 5, 6, 7, 8, 9, 11]);
        octets.truncate(kept);
    }
    octets.truncate(600);
    format!("{end} arrive {}", hex(&octets))
}

fn mode_call(pen: &mut Pen, end: End, care: u64) -> String {
    let line = pick_line(pen, end, care);
    let last = match line {
        0..=3 => pen.line(end, line).modes.last,
        _ => 0,
    };
    let time = match pen.random.chance(care) {
        true => last.saturating_add(pen.random.pick(&STEPS)),
        false => pen.random.pick(&[last.saturating_sub(1), 0]),
    };
    let letter = match pen.random.chance(care) {
        true => pen.random.pick(&LETTERS[..3]),
        false => pen.random.pick(&LETTERS[3..]),
    };
    match pen.random.below(3) {
        0 => format!("{end} tick {line} {time}"),
        1 => format!("{end} ask {line} {letter} {time}"),
        _ => format!("{end} hear {line} {letter} {time}"),
    }
}

fn open(pen: &mut Pen, end: End, care: u64) -> String {
    let closed: Vec<u8> = (0..4)
        .filter(|&line| !pen.line(end, line).is_open())
        .collect();
    let line = match pen.random.chance(care) && !closed.is_empty() {
        true => pen.random.pick(&closed),
        false => pick_line(pen, end, 0),
    };
    let identifier = match pen.random.chance(care) {
        true => free_identifier(pen, &[end]),
        false => taken_identifier(pen, end),
    };
    let payload_type = match pen.random.chance(care) {
        true => pen.random.between(96, 127),
        false => pen.random.pick(&[0, 95, 128, 255]),
    };
    let (vbd, relay) = (pen.random.below(2), pen.random.below(2));
    let time = pen.random.pick(&[0, 1, 5_000]);
    format!("{end} open {line} {identifier} {payload_type} {vbd} {relay} {time}")
}

/// An identifier that is open, rests, or is none.
fn taken_identifier(pen: &mut Pen, end: End) -> u8 {
    let gateway = pen.gateway(end);
    let mut taken: Vec<u8> = gateway.resting.identifiers().collect();
    taken.extend(gateway.lines.iter().map(|line| line.identifier));
    taken.extend([128, 255]);
    pen.random.pick(&taken)
}

fn close(pen: &mut Pen, end: End, care: u64) -> String {
    let line = pick_line(pen, end, care);
    format!("{end} close {line}{}", room(pen, care, 12))
}
