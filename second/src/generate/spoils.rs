//! Spoiled books: broken ones with calls that must find them broken, and odd ones that BOOK accepts, looked at.

use super::calls::{any_call, look, pick_record, LETTERS};
use super::faults::any_fault;
use super::oddities::any_oddity;
use super::pairs::{free_identifier, free_identifiers};
use super::pen::{End, Pen};
use super::refusals::set_stage;
use crate::audit;
use crate::channel::{carried, Channel, CAP, MODULUS};
use crate::modes::Mode;
use crate::words::hex;

/// Spoils after which a stage is set anew.
const SPOILS: u64 = 14;

/// Numbers on both sides of every span, and past what a field can hold.
const WILD: [&str; 17] = [
    "0",
    "1",
    "2",
    "3",
    "6",
    "7",
    "8",
    "64",
    "127",
    "128",
    "255",
    "256",
    "16383",
    "16384",
    "16777216",
    "4294967296",
    "18446744073709551616",
];

const PARTS: [&str; 22] = [
    "opened", "vbd", "relay", "left", "id", "type", "local", "remote", "try", "since", "tried",
    "last", "taken", "base", "next", "held", "stored", "dropped", "missing", "owed", "owing",
    "none",
];

pub fn episode(pen: &mut Pen) {
    while pen.more() {
        let end = pen.pick_end();
        set_stage(pen, end);
        for _ in 0..SPOILS {
            if pen.more() && is_sound(pen, end) {
                spoil_something(pen, end);
            }
        }
    }
}

fn is_sound(pen: &Pen, end: End) -> bool {
    let gateway = pen.gateway(end);
    audit::is_sound(&gateway.lines, &gateway.resting)
}

fn spoil_something(pen: &mut Pen, end: End) {
    let line = pick_record(pen, end, 60);
    match pen.random.below(24) {
        0..=6 => break_and_mend(pen, end),
        7 | 8 => set_sending(pen, end, line),
        9 | 10 => set_receiving(pen, end, line),
        11 => set_owed(pen, end, line),
        12 => set_resting(pen, end),
        13 | 14 => set_modes(pen, end, line),
        15 => set_settings(pen, end, line),
        16 => reopen(pen, end, line),
        17 => share_place(pen, end, line),
        18 => say_the_utmost(pen, end, line),
        19..=22 => any_oddity(pen, end, line),
        _ => wild(pen, end),
    }
    look(pen, end, line);
    any_call(pen, end, 95);
}

/// A few faults one after the other, each mended before the next.
fn break_and_mend(pen: &mut Pen, end: End) {
    for _ in 0..3 {
        let fault = any_fault(pen, end);
        pen.say_all(&fault.breaks);
        any_call(pen, end, 90);
        pen.say_all(&fault.mends);
    }
}

/// A count at either end of its span, at a wrap, or anywhere.
fn count(pen: &mut Pen) -> u64 {
    let anywhere = pen.random.below(CAP);
    let short_of = pen.random.below(10);
    pen.random.pick(&[
        0,
        1,
        MODULUS - short_of,
        MODULUS,
        anywhere,
        CAP - short_of,
        CAP,
    ])
}

/// One time in eight a little over what BOOK accepts, else within it.
fn up_to(pen: &mut Pen, most: u64) -> u64 {
    match pen.random.chance(12) {
        true => most + 1,
        false => pen.random.pick(&[0, most / 2, most]),
    }
}

fn message(pen: &mut Pen) -> String {
    let size = pen.random.pick(&[1, 1, 2, 3, 131, 132]);
    hex(&pen.random.octets(size))
}

/// Counts S and h of a channel, and some of the messages between them.
fn set_sending(pen: &mut Pen, end: End, line: u8) {
    let channel = pen.pick_channel();
    let number = channel.number();
    let base = count(pen);
    let open = up_to(pen, channel.window());
    pen.say(format!("{end} spoil {line} base {number} {base}"));
    pen.say(format!("{end} spoil {line} taken {number} {}", base + open));
    for full in base..base + open.min(32) {
        if pen.random.chance(30) {
            let message = message(pen);
            pen.say(format!("{end} spoil {line} held {number} {full} {message}"));
        }
    }
}

/// R of a channel, and some of the messages from it on.
fn set_receiving(pen: &mut Pen, end: End, line: u8) {
    let channel = pen.pick_channel();
    let number = channel.number();
    let next = count(pen);
    pen.say(format!("{end} spoil {line} next {number} {next}"));
    for full in next..next + channel.window() {
        if pen.random.chance(30) {
            let message = message(pen);
            pen.say(format!(
                "{end} spoil {line} stored {number} {full} {message}"
            ));
        }
    }
}

/// Every entry is set before the count, so that nothing depends on what lay past the count.
fn set_owed(pen: &mut Pen, end: End, line: u8) {
    let owing = pen.random.pick(&[0, 1, 2, 3, 4, 62, 63, 64]);
    let first = pen.random.number();
    for index in 0..owing {
        let channel = 1 + index % 2;
        let owed = carried(u64::from(first + index));
        pen.say(format!("{end} spoil {line} owed {index} {channel} {owed}"));
    }
    pen.say(format!("{end} spoil {line} owing {owing}"));
}

/// Every entry is set before the count, as for what is owed.
fn set_resting(pen: &mut Pen, end: End) {
    let rested = pen.random.pick(&[0, 1, 2, 15, 16]);
    pen.say(format!("{end} spoil rested 0"));
    let identifiers = free_identifiers(pen, &[end]);
    for (index, identifier) in identifiers.iter().take(rested).enumerate() {
        pen.say(format!("{end} spoil resting {index} {identifier}"));
    }
    pen.say(format!("{end} spoil rested {rested}"));
}

/// Modes and times that BOOK accepts, though no call may lead to them.
fn set_modes(pen: &mut Pen, end: End, line: u8) {
    let last = pen.random.pick(&[0, 1, 5_000, u64::MAX]);
    let before = pen.random.pick(&[0, 999, 1_000, 1_001, 4_000]);
    let time = last.saturating_sub(before);
    let number = match pen.line(end, line).modes.local {
        Mode::Audio => pen.random.below(7),
        _ => 0,
    };
    let remote = pen.random.pick(&LETTERS);
    let left = pen.random.below(2);
    for part in [
        format!("last {last}"),
        format!("since {time}"),
        format!("tried {time}"),
        format!("try {number}"),
        format!("remote {remote}"),
        format!("left {left}"),
    ] {
        pen.say(format!("{end} spoil {line} {part}"));
    }
    let later = last.saturating_add(pen.random.pick(&[0, 1, 999, 1_000, 1_001]));
    let call = pen.random.pick(&["tick", "ask", "hear"]);
    let letter = match call {
        "tick" => String::new(),
        _ => format!(" {}", pen.random.pick(&LETTERS)),
    };
    pen.say(format!("{end} {call} {line}{letter} {later}"));
}

/// Settings at the ends of their spans, and offers as chance has them.
fn set_settings(pen: &mut Pen, end: End, line: u8) {
    let part = match pen.random.below(5) {
        0 => format!("id {}", pen.random.pick(&[0, 126, 127])),
        1 => format!("type {}", pen.random.pick(&[96, 97, 127])),
        2 => format!("vbd {}", pen.random.below(2)),
        3 => format!("relay {}", pen.random.below(2)),
        _ => format!("local {}", pen.random.pick(&LETTERS[..3])),
    };
    pen.say(format!("{end} spoil {line} {part}"));
}

/// A record keeps what it has while it is said to be closed, and a real opening owes nothing to that.
fn reopen(pen: &mut Pen, end: End, line: u8) {
    pen.say(format!("{end} spoil {line} opened 0"));
    any_call(pen, end, 90);
    let part = pen.random.pick(&[
        "try 9",
        "owing 200",
        "taken 1 99",
        "local 77",
        "type 1",
        "vbd 2",
        "relay 255",
        "left 3",
    ]);
    if pen.random.chance(50) {
        pen.say(format!("{end} spoil {line} {part}"));
        let identifier = free_identifier(pen, &[end]);
        pen.say(format!("{end} open {line} {identifier} 99 1 1 7"));
        pen.say(format!("{end} ask {line} m 8"));
    } else {
        pen.say(format!("{end} spoil {line} opened 1"));
    }
}

/// Two messages of channel 2 that a store keeps in one place: the later one overwrites the earlier.
fn share_place(pen: &mut Pen, end: End, line: u8) {
    let sending = pen.random.chance(50);
    let (count, put, remove) = match sending {
        true => ("base", "held", "dropped"),
        false => ("next", "stored", "missing"),
    };
    let first = self::count(pen);
    let lower = first + pen.random.pick(&[0, 0, 1, Channel::Two.window() - 1]);
    let upper = lower + pen.random.pick(&[8, 16, 24]);
    pen.say(format!("{end} spoil {line} {count} 2 {first}"));
    if sending {
        pen.say(format!("{end} spoil {line} taken 2 {}", first + 8));
    }
    for number in [lower, upper] {
        let message = message(pen);
        pen.say(format!("{end} spoil {line} {put} 2 {number} {message}"));
    }
    look(pen, end, line);
    pen.say(format!("{end} spoil {line} {remove} 2 {upper}"));
    match sending {
        true => pen.say(format!("{end} send {line} 2 0")),
        false => pen.say(format!("{end} out {line} 2")),
    };
}

/// The last values that can be said and the first that cannot, where that depends on the book or on the part.
fn say_the_utmost(pen: &mut Pen, end: End, line: u8) {
    let channel = pen.pick_channel();
    let sides = pen.sides(end, line, channel);
    let (base, next) = (sides.sending.base, sides.receiving.next);
    for (put, remove, first) in [("held", "dropped", base), ("stored", "missing", next)] {
        let number = channel.number();
        let octets = pen.random.pick(&[0, 1, 255, 256]);
        let message = hex(&pen.random.octets(octets));
        for full in [first.wrapping_sub(1), first, first + 31, first + 32] {
            pen.say(format!(
                "{end} spoil {line} {put} {number} {full} {message}"
            ));
            pen.say(format!("{end} spoil {line} {remove} {number} {full}"));
        }
    }
    say_the_utmost_entries(pen, end, line);
}

/// The same for the entries of the two lists.
fn say_the_utmost_entries(pen: &mut Pen, end: End, line: u8) {
    for owed in ["63 3 16383", "63 3 16384", "63 4 16383", "64 3 16383"] {
        pen.say(format!("{end} spoil {line} owed {owed}"));
    }
    for entry in ["15 255", "15 256", "16 255"] {
        pen.say(format!("{end} spoil resting {entry}"));
    }
}

/// Any part with any numbers, most of which cannot be said or break the book.
///
/// A count of entries is only raised past what can be listed, and a try never stands without its time: nothing may
/// depend on what a record holds where nobody reads it.
fn wild(pen: &mut Pen, end: End) {
    for _ in 0..6 {
        let line = pen
            .random
            .pick(&["0", "1", "2", "3", "4", "rested", "resting"]);
        let part = match line.starts_with('r') {
            true => "",
            false => pen.random.pick(&PARTS),
        };
        let values = match line == "rested" || part == "owing" {
            true => pen.random.pick(&["65", "255", "256"]).to_string(),
            false => wild_values(pen, words_after(part)),
        };
        pen.say(format!("{end} spoil {line} {part} {values}"));
        if part == "try" {
            pen.say(format!("{end} spoil {line} tried 0"));
        }
    }
}

fn wild_values(pen: &mut Pen, count: usize) -> String {
    let values: Vec<&str> = (0..count).map(|_| pen.random.pick(&WILD)).collect();
    values.join(" ")
}

/// How many words follow a part.
fn words_after(part: &str) -> usize {
    match part {
        "owed" | "held" | "stored" => 3,
        "" | "taken" | "base" | "next" | "dropped" | "missing" => 2,
        _ => 1,
    }
}
