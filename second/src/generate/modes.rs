//! Media modes: requests, indications and ticks in steps about 1,000 ms, with every offer, through all tries.

use super::calls::{LETTERS, STEPS};
use super::pairs::free_identifier;
use super::pen::{End, Pen};
use crate::modes::Recovery;

pub fn episode(pen: &mut Pen) {
    let end = pen.pick_end();
    pen.say(format!("{end} fresh"));
    while pen.more() {
        let line = pen.random.below(4) as u8;
        if !pen.line(end, line).is_open() {
            open(pen, end, line);
        }
        let ended = pen.line(end, line).modes.recovery == Recovery::Ended;
        match pen.random.below(12) {
            0..=5 if ended => close(pen, end, line),
            0 => recover(pen, end, line),
            1 => close(pen, end, line),
            2 => use_relay(pen, end, line),
            _ => wander(pen, end, line),
        }
    }
}

fn open(pen: &mut Pen, end: End, line: u8) {
    let identifier = free_identifier(pen, &[end]);
    let (vbd, relay) = (pen.random.below(2), pen.random.pick(&[0, 1, 1]));
    let time = pen.random.pick(&[0, 1, 1_000_000, u64::MAX - 20_000]);
    pen.say(format!(
        "{end} open {line} {identifier} 100 {vbd} {relay} {time}"
    ));
}

fn last(pen: &Pen, end: End, line: u8) -> u64 {
    pen.line(end, line).modes.last
}

/// A few mode calls of any sort, most of them in the right order of time.
fn wander(pen: &mut Pen, end: End, line: u8) {
    for _ in 0..pen.random.between(1, 4) {
        let last = last(pen, end, line);
        let time = match pen.random.chance(93) {
            true => last.saturating_add(pen.random.pick(&STEPS)),
            false => last.saturating_sub(1),
        };
        let letter = match pen.random.chance(80) {
            true => pen.random.pick(&LETTERS[..3]),
            false => pen.random.pick(&LETTERS[3..]),
        };
        match pen.random.below(3) {
            0 => pen.say(format!("{end} tick {line} {time}")),
            1 => pen.say(format!("{end} ask {line} {letter} {time}")),
            _ => pen.say(format!("{end} hear {line} {letter} {time}")),
        };
    }
}

/// Lets the modes differ and ticks on, just too early, just in time or late, with an indication here and there.
fn recover(pen: &mut Pen, end: End, line: u8) {
    let letter = pen.random.pick(&LETTERS[1..5]);
    let start = last(pen, end, line);
    pen.say(format!("{end} hear {line} {letter} {start}"));
    pen.say(format!("{end} ask {line} a {start}"));
    for _ in 0..pen.random.between(2, 12) {
        let step = pen.random.pick(&[999, 1_000, 1_000, 1_001, 1_099]);
        let time = last(pen, end, line).saturating_add(step);
        pen.say(format!("{end} tick {line} {time}"));
        if pen.random.chance(15) {
            let letter = pen.random.pick(&LETTERS);
            let call = pen.random.pick(&["ask", "hear", "hear"]);
            pen.say(format!("{end} {call} {line} {letter} {time}"));
        }
    }
}

/// Something is taken and owed, then the line leaves modem relay in some way and tries to come back.
fn use_relay(pen: &mut Pen, end: End, line: u8) {
    let time = last(pen, end, line);
    let entering = pen.random.pick(&["ask", "hear"]);
    pen.say(format!("{end} {entering} {line} m {time}"));
    let record = pen.line(end, line);
    let (identifier, payload_type) = (record.identifier, record.payload_type);
    pen.say(format!("{end} take {line} 1 4142"));
    pen.say(format!(
        "{end} arrive {identifier:02X}{payload_type:02X}4000000041"
    ));
    pen.say(format!("{end} out {line} 1"));
    let letter = pen.random.pick(&['a', 'v', 'f', 't', 'm']);
    let leaving = pen.random.pick(&["ask", "hear"]);
    pen.say(format!("{end} {leaving} {line} {letter} {time}"));
    for call in ["held", "empty"] {
        pen.say(format!("{end} {call} {line} 1"));
    }
    let again = pen.random.pick(&["ask", "hear"]);
    pen.say(format!("{end} {again} {line} m {time}"));
    pen.say(format!("{end} held {line} 1"));
}

fn close(pen: &mut Pen, end: End, line: u8) {
    if let Some(slip) = pen.octets_of(format!("{end} close {line}")) {
        pen.say(format!("slip read {slip}"));
    }
}
