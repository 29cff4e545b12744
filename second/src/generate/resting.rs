//! Openings and closings, so that identifiers rest, leave after 16 more, and are opened again.

use super::pairs::free_identifier;
use super::pen::{End, Pen};

pub fn episode(pen: &mut Pen) {
    let end = pen.pick_end();
    pen.say(format!("{end} fresh"));
    while pen.more() {
        match pen.random.below(4) {
            0 => wait_for_one(pen, end),
            _ => open_or_close(pen, end),
        }
    }
}

/// One identifier closes, then 15 others: it still rests. One more, and it is free.
fn wait_for_one(pen: &mut Pen, end: End) {
    let line = pen.random.below(4) as u8;
    if pen.line(end, line).is_open() {
        pen.say(format!("{end} close {line}"));
    }
    let identifier = cycle(pen, end, line);
    for _ in 0..15 {
        cycle(pen, end, line);
    }
    let again = format!("{end} open {line} {identifier} 96 0 0 0");
    pen.say(&again);
    cycle(pen, end, line);
    pen.say(&again);
}

/// Opens a free identifier and closes it again. Gives the identifier.
fn cycle(pen: &mut Pen, end: End, line: u8) -> u8 {
    let identifier = free_identifier(pen, &[end]);
    pen.say(format!("{end} open {line} {identifier} 96 0 0 0"));
    pen.say(format!("{end} close {line}"));
    identifier
}

/// Any line, and few identifiers, so that many are open or rest.
fn open_or_close(pen: &mut Pen, end: End) {
    let line = pen.random.below(4);
    let identifier = pen.random.below(28);
    match pen.random.chance(55) {
        true => pen.say(format!("{end} open {line} {identifier} 127 1 1 0")),
        false => pen.say(format!("{end} close {line}")),
    };
}
