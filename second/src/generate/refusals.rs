//! Calls with several things wrong at once, so that the order of refusals shows.

use super::calls::any_call;
use super::craft::Craft;
use super::faults::any_fault;
use super::pairs::{free_identifier, open_pairs};
use super::pen::{End, Pen, CHANNELS};
use crate::channel::{Channel, CAP};
use crate::words::hex;

/// Steps after which a stage has worn out and is set again.
const SCENES: u64 = 15;

pub fn episode(pen: &mut Pen) {
    while pen.more() {
        let end = pen.pick_end();
        set_stage(pen, end);
        for _ in 0..SCENES {
            if pen.more() {
                scene(pen, end);
            }
        }
    }
}

/// One gateway with a line in modem relay, one in audio, one closed, and one that recovers or has ended.
pub fn set_stage(pen: &mut Pen, end: End) {
    open_pairs(pen, 1);
    let relay_line = (0..4)
        .find(|&line| pen.line(end, line).is_open())
        .unwrap_or(0);
    let others: Vec<u8> = (0..4).filter(|&line| line != relay_line).collect();
    open_audio(pen, end, others[0]);
    open_recovering(pen, end, others[1]);
    close_some(pen, end, others[2]);
    load(pen, end, relay_line);
}

fn open_audio(pen: &mut Pen, end: End, line: u8) {
    let (identifier, vbd, relay) = (
        free_identifier(pen, &[end]),
        pen.random.below(2),
        pen.random.below(2),
    );
    pen.say(format!(
        "{end} open {line} {identifier} 96 {vbd} {relay} 100"
    ));
}

/// Opens a line and lets its modes differ until it recovers, at some try, or has ended.
fn open_recovering(pen: &mut Pen, end: End, line: u8) {
    let identifier = free_identifier(pen, &[end]);
    pen.say(format!("{end} open {line} {identifier} 127 1 1 0"));
    let letter = pen.random.pick(&['v', 'm']);
    pen.say(format!("{end} ask {line} {letter} 0"));
    for number in 0..pen.random.below(8) {
        let time = 1_001 + 1_000 * number;
        pen.say(format!("{end} tick {line} {time}"));
    }
}

/// Opens and closes a line a few times, so that identifiers rest.
fn close_some(pen: &mut Pen, end: End, line: u8) {
    for _ in 0..pen.random.below(4) {
        let identifier = free_identifier(pen, &[end]);
        pen.say(format!("{end} open {line} {identifier} 100 0 0 0"));
        pen.say(format!("{end} close {line}"));
    }
}

/// Gives the relay line something to hold, to store and to owe, and sometimes counts at the cap or a full window.
fn load(pen: &mut Pen, end: End, line: u8) {
    for channel in CHANNELS {
        near_the_cap(pen, end, line, channel);
        hold_and_store(pen, end, line, channel);
        let (number, window) = (channel.number(), channel.window());
        let full = pen.sides(end, line, channel).sending.base + window;
        if pen.random.chance(25) && full <= CAP {
            pen.say(format!("{end} spoil {line} taken {number} {full}"));
        }
    }
}

/// One time in four sets all counts of a channel at the cap or just below it.
fn near_the_cap(pen: &mut Pen, end: End, line: u8, channel: Channel) {
    let number = channel.number();
    let count = CAP - pen.random.below(3);
    if pen.random.chance(25) {
        for part in ["taken", "base", "next"] {
            pen.say(format!("{end} spoil {line} {part} {number} {count}"));
        }
    }
}

fn hold_and_store(pen: &mut Pen, end: End, line: u8, channel: Channel) {
    for _ in 0..pen.random.pick(&[0, 2, 5]) {
        pen.say(format!("{end} take {line} {} 4142", channel.number()));
    }
    for _ in 0..pen.random.pick(&[0, 1, 4]) {
        arrive(pen, end, line, channel);
    }
}

fn arrive(pen: &mut Pen, end: End, line: u8, channel: Channel) {
    let octets = Craft::near_on(pen, end, line, channel).octets();
    pen.say(format!("{end} arrive {}", hex(&octets)));
}

/// One to three calls while the book is broken, the store is short, or neither.
fn scene(pen: &mut Pen, end: End) {
    let fault = match pen.random.chance(20) {
        true => Some(any_fault(pen, end)),
        false => None,
    };
    let short = pen.random.chance(20);
    if let Some(fault) = &fault {
        pen.say_all(&fault.breaks);
    }
    if short {
        let count = pen.random.pick(&[0, 1, 42_239]);
        pen.say(format!("{end} lend {count}"));
    }
    for _ in 0..pen.random.between(1, 3) {
        let care = pen.random.pick(&[40, 65, 85]);
        any_call(pen, end, care);
    }
    if let Some(fault) = &fault {
        pen.say_all(&fault.mends);
    }
    if short {
        pen.say(format!("{end} lend 42240"));
    }
}
