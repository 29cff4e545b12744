//! States that BOOK accepts though no call leads to them, each spoiled into being and then tried where it matters.

use super::calls::{look, LETTERS};
use super::pairs::{free_identifier, free_identifiers};
use super::pen::{End, Pen};

/// A line opened at time 0 with both offers, in audio.
struct Spot {
    end: End,
    line: u8,
}

impl Spot {
    fn open(pen: &mut Pen, end: End, line: u8) -> Spot {
        if pen.line(end, line).is_open() {
            pen.say(format!("{end} close {line}"));
        }
        let identifier = free_identifier(pen, &[end]);
        pen.say(format!("{end} open {line} {identifier} 111 1 1 0"));
        Spot { end, line }
    }

    fn spoil(&self, pen: &mut Pen, parts: &[&str]) {
        for part in parts {
            pen.say(format!("{} spoil {} {part}", self.end, self.line));
        }
    }

    /// A mode call, with its letter if it has one.
    fn call(&self, pen: &mut Pen, call: &str, letter: &str, time: u64) {
        let letter = match letter {
            "" => String::new(),
            letter => format!(" {letter}"),
        };
        pen.say(format!("{} {call} {}{letter} {time}", self.end, self.line));
    }
}

pub fn any_oddity(pen: &mut Pen, end: End, line: u8) {
    let spot = Spot::open(pen, end, line);
    match pen.random.below(8) {
        0 => counts_before_relay(pen, &spot),
        1 => relay_already_left(pen, &spot),
        2 => left_and_not_offered(pen, &spot),
        3 => since_while_agreeing(pen, &spot),
        4 => recovering_in_agreement(pen, &spot),
        5 => unknown_outside_recovery(pen, &spot),
        6 => times_not_read(pen, &spot),
        _ => lists_filled(pen, &spot),
    }
    look(pen, end, line);
}

/// Entering modem relay starts both channels fresh, whatever the counts were.
fn counts_before_relay(pen: &mut Pen, spot: &Spot) {
    let channel = pen.pick_channel().number();
    for (part, count) in [("base", 20), ("taken", 23), ("next", 40)] {
        spot.spoil(pen, &[&format!("{part} {channel} {count}")]);
    }
    let call = pen.random.pick(&["ask", "hear"]);
    spot.call(pen, call, "m", 0);
    let (end, line) = (spot.end, spot.line);
    pen.say(format!("{end} take {line} {channel} 41"));
    pen.say(format!("{end} send {line} {channel} 0"));
}

/// In modem relay, which yet was left: a request for it is refused, an indication of it is heard.
fn relay_already_left(pen: &mut Pen, spot: &Spot) {
    spot.call(pen, "ask", "m", 0);
    spot.spoil(pen, &["left 1"]);
    let call = pen.random.pick(&["ask", "hear"]);
    spot.call(pen, call, "m", 0);
    spot.call(pen, "hear", "m", 0);
}

/// A request for modem relay that was left and is not offered either.
fn left_and_not_offered(pen: &mut Pen, spot: &Spot) {
    spot.spoil(pen, &["left 1", "relay 0"]);
    spot.call(pen, "ask", "m", 0);
    spot.call(pen, "hear", "m", 0);
}

/// When a difference began is kept while the modes agree and go on agreeing, and is 0 once a difference ends.
fn since_while_agreeing(pen: &mut Pen, spot: &Spot) {
    spot.spoil(pen, &["last 3000", "since 2500"]);
    let differing = pen.random.pick(&["", "f", "t"]);
    if !differing.is_empty() {
        spot.call(pen, "hear", differing, 3_000);
    }
    let agreeing = pen.random.pick(&["a", "v", "m"]);
    spot.call(pen, "hear", agreeing, 3_000);
    spot.spoil(pen, &["remote i"]);
    let time = pen.random.pick(&[3_000, 3_500, 3_501]);
    spot.call(pen, "tick", "", time);
}

/// Recovering though the modes agree: the tries go on until a is heard.
fn recovering_in_agreement(pen: &mut Pen, spot: &Spot) {
    let number = pen.random.between(1, 6);
    let since = pen.random.pick(&["since 0", "since 4000", "since 9000"]);
    let parts = [&format!("try {number}"), "tried 4000", "last 4000", since];
    spot.spoil(pen, &parts);
    for time in [4_999, 5_000, 5_999] {
        spot.call(pen, "tick", "", time);
    }
    let letter = pen.random.pick(&LETTERS).to_string();
    spot.call(pen, "hear", &letter, 6_000);
    spot.call(pen, "hear", "a", 6_000);
    spot.call(pen, "tick", "", 7_001);
}

/// The remote mode is not known, and there is no recovery.
fn unknown_outside_recovery(pen: &mut Pen, spot: &Spot) {
    spot.spoil(pen, &["remote i", "since 500", "last 500"]);
    let time = pen.random.pick(&[1_500, 1_501]);
    spot.call(pen, "tick", "", time);
    let call = pen.random.pick(&["ask", "hear"]);
    let letter = pen.random.pick(&LETTERS).to_string();
    spot.call(pen, call, &letter, time);
    spot.call(pen, "tick", "", time + 1_000);
}

/// Times after the last that say nothing: of a difference while the modes agree, of a try while there is no recovery.
fn times_not_read(pen: &mut Pen, spot: &Spot) {
    spot.spoil(pen, &["since 9000", "tried 9000"]);
    spot.call(pen, "tick", "", 1_000);
    spot.call(pen, "ask", "v", 2_000);
    spot.call(pen, "tick", "", 3_001);
    spot.call(pen, "tick", "", 4_001);
}

/// As many owed as a list holds, or as many resting, all in order; then a count of one more, and the right count again.
fn lists_filled(pen: &mut Pen, spot: &Spot) {
    let end = spot.end;
    spot.call(pen, "ask", "m", 0);
    if pen.random.chance(50) {
        for index in 0..64 {
            spot.spoil(pen, &[&format!("owed {index} 1 {}", 16_300 + index)]);
        }
        spot.spoil(pen, &["owing 65"]);
        look(pen, end, spot.line);
        spot.spoil(pen, &["owing 64"]);
        return;
    }
    pen.say(format!("{end} spoil rested 0"));
    for (index, identifier) in free_identifiers(pen, &[end]).iter().take(16).enumerate() {
        pen.say(format!("{end} spoil resting {index} {identifier}"));
    }
    pen.say(format!("{end} spoil rested 17"));
    look(pen, end, spot.line);
    pen.say(format!("{end} spoil rested 16"));
}
