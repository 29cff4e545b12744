//! Faults: spoils that break one clause of BOOK and no other, each with the spoils that mend it again.

use super::pen::{End, Pen};
use crate::channel::{Channel, CAP};
use crate::line::Line;
use crate::modes::{Mode, Recovery};
use crate::words::hex;

/// Lines that break a book, and lines that mend it.
pub struct Fault {
    pub breaks: Vec<String>,
    pub mends: Vec<String>,
}

/// Where a fault is made: one line.
struct Spot {
    end: End,
    line: u8,
}

impl Spot {
    fn record<'a>(&self, pen: &'a Pen) -> &'a Line {
        pen.line(self.end, self.line)
    }

    /// A line that spoils a part of this record.
    fn spoil(&self, part: impl AsRef<str>) -> String {
        format!("{} spoil {} {}", self.end, self.line, part.as_ref())
    }

    fn spoil_all(&self, parts: &[String]) -> Vec<String> {
        parts.iter().map(|part| self.spoil(part)).collect()
    }

    fn fault(&self, breaks: &[String], mends: &[String]) -> Option<Fault> {
        Some(Fault {
            breaks: self.spoil_all(breaks),
            mends: self.spoil_all(mends),
        })
    }

    /// One part set to a wrong value, then back to the present one.
    fn one(&self, part: &str, wrong: impl ToString, present: impl ToString) -> Option<Fault> {
        let say = |value: String| format!("{part} {value}");
        self.fault(&[say(wrong.to_string())], &[say(present.to_string())])
    }
}

/// A fault at one of the gateway's open lines, in the flag of a closed one, or among the resting identifiers.
pub fn any_fault(pen: &mut Pen, end: End) -> Fault {
    for _ in 0..20 {
        let line = pen.random.below(5) as u8;
        let fault = match line {
            4 => resting(pen, end),
            line if pen.line(end, line).is_open() => line_fault(pen, &Spot { end, line }),
            line => opened(pen, &Spot { end, line }),
        };
        if let Some(fault) = fault {
            return fault;
        }
    }
    rested(pen, end)
}

fn line_fault(pen: &mut Pen, spot: &Spot) -> Option<Fault> {
    match pen.random.below(12) {
        0 => settings(pen, spot),
        1 => identifier_twice(pen, spot),
        2 => mode(pen, spot),
        3 => not_offered(pen, spot),
        4 => tries(pen, spot),
        5 => times(pen, spot),
        6 => counts(pen, spot),
        7 => places(pen, spot),
        8 => sizes(pen, spot),
        9 => owed(pen, spot),
        10 => flag(pen, spot),
        _ => outside_relay(pen, spot),
    }
}

fn settings(pen: &mut Pen, spot: &Spot) -> Option<Fault> {
    let record = spot.record(pen);
    let (identifier, payload_type) = (record.identifier, record.payload_type);
    match pen.random.chance(50) {
        true => spot.one("id", pen.random.pick(&[128, 129, 255]), identifier),
        false => spot.one("type", pen.random.pick(&[0, 95, 128, 255]), payload_type),
    }
}

/// A number that is neither yes nor no.
fn neither(pen: &mut Pen) -> u8 {
    pen.random.pick(&[2, 3, 127, 128, 254, 255])
}

/// A flag of the record, the line's own among them, that is neither 0 nor 1.
fn flag(pen: &mut Pen, spot: &Spot) -> Option<Fault> {
    let modes = spot.record(pen).modes.clone();
    let wrong = neither(pen);
    match pen.random.below(4) {
        0 => spot.one("vbd", wrong, modes.vbd.0),
        1 => spot.one("relay", wrong, modes.relay.0),
        2 => spot.one("left", wrong, modes.left.0),
        _ => opened(pen, spot),
    }
}

/// Whether the line is open is neither yes nor no: then it is not open, and the book is not in order.
fn opened(pen: &mut Pen, spot: &Spot) -> Option<Fault> {
    let present = spot.record(pen).opened.0;
    spot.one("opened", neither(pen), present)
}

fn identifier_twice(pen: &mut Pen, spot: &Spot) -> Option<Fault> {
    let gateway = pen.gateway(spot.end);
    let mut others: Vec<u8> = gateway.resting.identifiers().collect();
    for (index, line) in gateway.lines.iter().enumerate() {
        if line.is_open() && index != usize::from(spot.line) {
            others.push(line.identifier);
        }
    }
    let present = spot.record(pen).identifier;
    match others.is_empty() {
        true => None,
        false => spot.one("id", pen.random.pick(&others), present),
    }
}

fn mode(pen: &mut Pen, spot: &Spot) -> Option<Fault> {
    let modes = spot.record(pen).modes.clone();
    match pen.random.below(3) {
        0 => {
            let wrong = pen.random.pick(&["0", "i", "f", "t", "4", "5", "6", "255"]);
            spot.one("local", wrong, modes.local.name())
        }
        1 => {
            let wrong = pen.random.pick(&[6, 7, 97, 255]);
            spot.one("remote", wrong, modes.remote.name())
        }
        _ => {
            let wrong = pen.random.pick(&[7, 8, 128, 255]);
            spot.one("try", wrong, modes.recovery.number())
        }
    }
}

fn not_offered(pen: &mut Pen, spot: &Spot) -> Option<Fault> {
    let modes = spot.record(pen).modes.clone();
    match modes.local {
        Mode::Vbd => spot.one("vbd", 0, 1),
        Mode::Relay => spot.one("relay", 0, 1),
        _ if modes.recovery != Recovery::None => None,
        _ if !modes.vbd.is_set() => spot.one("local", "v", modes.local.name()),
        _ if !modes.relay.is_set() => spot.one("local", "m", modes.local.name()),
        _ => None,
    }
}

/// Recovering or ended, but the local mode is not a.
fn tries(pen: &mut Pen, spot: &Spot) -> Option<Fault> {
    let modes = spot.record(pen).modes.clone();
    let number = pen.random.between(1, 6);
    let offered = [(modes.vbd.is_set(), "v"), (modes.relay.is_set(), "m")];
    if modes.local != Mode::Audio && modes.recovery == Recovery::None {
        return spot.fault(
            &["tried 0".into(), format!("try {number}")],
            &["try 0".into(), format!("tried {}", modes.tried)],
        );
    }
    let (is_offered, letter) = pen.random.pick(&offered);
    let recovering = modes.recovery != Recovery::None;
    match is_offered && recovering {
        true => spot.one("local", letter, modes.local.name()),
        false => None,
    }
}

/// A difference or a try timed after the line's last.
fn times(pen: &mut Pen, spot: &Spot) -> Option<Fault> {
    let modes = spot.record(pen).modes.clone();
    let later = modes.last.checked_add(1)?;
    let wrong = pen.random.pick(&[later, u64::MAX]);
    if pen.random.chance(50) {
        let remote = match modes.local == modes.remote {
            true => Mode::Unknown,
            false => modes.remote,
        };
        return spot.fault(
            &[
                format!("remote {}", remote.name()),
                format!("since {wrong}"),
            ],
            &[
                format!("remote {}", modes.remote.name()),
                format!("since {}", modes.since),
            ],
        );
    }
    if modes.local != Mode::Audio {
        return None;
    }
    let number = match modes.recovery {
        Recovery::None => pen.random.pick(&[1, 5, 6]),
        recovery => recovery.number(),
    };
    spot.fault(
        &[format!("try {number}"), format!("tried {wrong}")],
        &[
            format!("try {}", modes.recovery.number()),
            format!("tried {}", modes.tried),
        ],
    )
}

/// A count outside its span, h over S, or S - h over the window. What was held or stored may be gone afterwards.
fn counts(pen: &mut Pen, spot: &Spot) -> Option<Fault> {
    let channel = pen.pick_channel();
    let sides = pen.sides(spot.end, spot.line, channel).clone();
    let (taken, base) = (sides.sending.taken, sides.sending.base);
    let over = pen.random.pick(&[CAP + 1, CAP + 2, u64::from(u32::MAX)]);
    let number = channel.number();
    let taken_part = format!("taken {number}");
    match pen.random.below(5) {
        0 => spot.one(&format!("next {number}"), over, sides.receiving.next),
        1 => spot.fault(
            &[
                format!("taken {number} {over}"),
                format!("base {number} {over}"),
            ],
            &[
                format!("taken {number} {taken}"),
                format!("base {number} {base}"),
            ],
        ),
        2 => spot.one(&format!("base {number}"), taken + 1, base),
        3 => spot.one(&taken_part, base + channel.window() + 1, taken),
        _ => spot.one(&taken_part, base.checked_sub(1)?, taken),
    }
}

/// A message held at S or above, or stored at R + window or above.
fn places(pen: &mut Pen, spot: &Spot) -> Option<Fault> {
    if spot.record(pen).modes.local != Mode::Relay {
        return None;
    }
    let channel = pen.pick_channel();
    let number = channel.number();
    let sides = pen.sides(spot.end, spot.line, channel).clone();
    let open = sides.sending.taken.checked_sub(sides.sending.base)?;
    if pen.random.chance(50) && open < 32 {
        let wrong = sides.sending.base + pen.random.pick(&[open, 31]).max(open);
        return spot.fault(
            &[format!("held {number} {wrong} 41")],
            &[format!("dropped {number} {wrong}")],
        );
    }
    let channel = Channel::Two;
    let next = pen.sides(spot.end, spot.line, channel).receiving.next;
    let wrong = next + pen.random.pick(&[8, 9, 15, 16, 31]);
    spot.fault(
        &[format!("stored 2 {wrong} 42")],
        &[format!("missing 2 {wrong}")],
    )
}

/// A held or stored message of no octets, or of over 132.
fn sizes(pen: &mut Pen, spot: &Spot) -> Option<Fault> {
    let channel = pen.pick_channel();
    let sides = pen.sides(spot.end, spot.line, channel).clone();
    let (part, messages) = match pen.random.chance(50) {
        true => ("held", sides.sending.held),
        false => ("stored", sides.receiving.stored),
    };
    let (&number, message) = messages.iter().next()?;
    let size = pen.random.pick(&[0, 133, 255]);
    let wrong = hex(&pen.random.octets(size));
    let part = format!("{part} {} {number}", channel.number());
    spot.one(&part, wrong, hex(message))
}

fn owed(pen: &mut Pen, spot: &Spot) -> Option<Fault> {
    let record = spot.record(pen);
    let list = record.owed.list().to_vec();
    if record.modes.local != Mode::Relay {
        return None;
    }
    let count = list.len();
    if pen.random.chance(30) {
        return spot.one("owing", pen.random.pick(&[65, 66, 255]), count);
    }
    if list.is_empty() {
        let channel = pen.random.pick(&[0, 3]);
        return spot.fault(
            &[format!("owed 0 {channel} 5"), "owing 1".into()],
            &["owing 0".into()],
        );
    }
    let index = pen.random.below(count as u64) as usize;
    let other = pen.random.below(count as u64) as usize;
    let (channel, number) = list[index];
    let wrong = match index == other || pen.random.chance(50) {
        true => (pen.random.pick(&[0, 3]), number),
        false => list[other],
    };
    spot.fault(
        &[format!("owed {index} {} {}", wrong.0, wrong.1)],
        &[format!("owed {index} {channel} {number}")],
    )
}

/// Something held, stored or owed on a line that is not in modem relay, and all else in order.
fn outside_relay(pen: &mut Pen, spot: &Spot) -> Option<Fault> {
    if spot.record(pen).modes.local == Mode::Relay {
        return None;
    }
    let channel = pen.pick_channel();
    let number = channel.number();
    let sides = pen.sides(spot.end, spot.line, channel).clone();
    let (taken, base, next) = (
        sides.sending.taken,
        sides.sending.base,
        sides.receiving.next,
    );
    match pen.random.below(3) {
        0 => spot.fault(
            &[format!("owed 0 {number} 7"), "owing 1".into()],
            &["owing 0".into()],
        ),
        1 if base < CAP => spot.fault(
            &[
                format!("taken {number} {}", base + 1),
                format!("held {number} {base} 41"),
            ],
            &[
                format!("dropped {number} {base}"),
                format!("taken {number} {taken}"),
            ],
        ),
        _ => spot.fault(
            &[format!("stored {number} {next} 41")],
            &[format!("missing {number} {next}")],
        ),
    }
}

/// A resting identifier out of its span, twice, or open as well.
fn resting(pen: &mut Pen, end: End) -> Option<Fault> {
    let gateway = pen.gateway(end);
    let identifiers: Vec<u8> = gateway.resting.identifiers().collect();
    let mut wrong: Vec<u8> = vec![128, 255];
    wrong.extend(
        gateway
            .lines
            .iter()
            .filter(|line| line.is_open())
            .map(|line| line.identifier),
    );
    let count = identifiers.len() as u64;
    if count == 0 {
        let wrong = pen.random.pick(&wrong);
        return Some(Fault {
            breaks: vec![
                format!("{end} spoil resting 0 {wrong}"),
                format!("{end} spoil rested 1"),
            ],
            mends: vec![format!("{end} spoil rested 0")],
        });
    }
    let index = pen.random.below(count) as usize;
    let present = identifiers[index];
    wrong.extend(identifiers.iter().filter(|&&other| other != present));
    let wrong = pen.random.pick(&wrong);
    Some(Fault {
        breaks: vec![format!("{end} spoil resting {index} {wrong}")],
        mends: vec![format!("{end} spoil resting {index} {present}")],
    })
}

/// More than 16 rest.
fn rested(pen: &mut Pen, end: End) -> Fault {
    let present = pen.gateway(end).resting.rested();
    let wrong = pen.random.pick(&[17, 18, 255]);
    Fault {
        breaks: vec![format!("{end} spoil rested {wrong}")],
        mends: vec![format!("{end} spoil rested {present}")],
    }
}
