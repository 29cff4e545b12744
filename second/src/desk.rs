//! The desk: reads a script of calls at two gateways and answers each line of it.
//!
//! It decides nothing. A line is read, the call is made, and what it answered is written.

use crate::breaks::Break;
use crate::connect::{Connect, Sizes};
use crate::gateway::{Gateway, STORE};
use crate::line::Settings;
use crate::lines::{Line, Lines};
use crate::modes::Tick;
use crate::refusal::Refusal;
use crate::slip::Slip;
use crate::spoil::spoil;
use crate::words::{hex, Words, MOST};

/// What a call answered: the words after `ok`, or a refusal. `None` means that the line was no call.
type Answer = Option<Result<String, Refusal>>;

pub struct Desk {
    a: Gateway,
    b: Gateway,
    lines: Lines,
}

impl Default for Desk {
    fn default() -> Self {
        Desk {
            a: Gateway::fresh(),
            b: Gateway::fresh(),
            lines: Lines::default(),
        }
    }
}

impl Desk {
    /// The gateway of that letter, if it is one's.
    fn named(&mut self, word: &[u8]) -> Option<&mut Gateway> {
        match word {
            b"A" => Some(&mut self.a),
            b"B" => Some(&mut self.b),
            _ => None,
        }
    }

    pub fn a(&self) -> &Gateway {
        &self.a
    }

    pub fn b(&self) -> &Gateway {
        &self.b
    }

    /// Reads the next part of a script, and gives the answers to the lines that end in it.
    pub fn read(&mut self, part: &[u8]) -> String {
        let mut answers = String::new();
        for &octet in part {
            if let Some(line) = self.lines.read(octet) {
                answers += &self.answer(&line);
            }
        }
        answers
    }

    /// The script has ended. Gives the answer to its last line, if there is one still to give.
    pub fn end(&mut self) -> String {
        match self.lines.end() {
            Some(line) => self.answer(&line),
            None => String::new(),
        }
    }

    fn answer(&mut self, line: &Line) -> String {
        let octets = line.octets.as_deref();
        match octets.and_then(|octets| self.call(&mut Words::new(octets))) {
            Some(Ok(words)) if words.is_empty() => "ok\n".into(),
            Some(Ok(words)) => format!("ok {words}\n"),
            Some(Err(refusal)) => format!("no {} {}\n", refusal.number(), refusal.name()),
            None => format!("? {}\n", line.number),
        }
    }

    fn call(&mut self, words: &mut Words) -> Answer {
        match words.word()? {
            b"connect" => call_connect(words),
            b"break" => call_break(words),
            b"slip" => call_slip(words),
            name => call_gateway(self.named(name)?, words),
        }
    }
}

fn call_gateway(gateway: &mut Gateway, words: &mut Words) -> Answer {
    match words.word()? {
        b"fresh" => {
            words.end()?;
            *gateway = Gateway::fresh();
            done()
        }
        b"lend" => {
            let count = words.up_to(STORE as u64)?;
            words.end()?;
            gateway.lent = count as usize;
            done()
        }
        b"spoil" => {
            spoil(gateway, words)?;
            done()
        }
        b"arrive" => {
            let octets = words.octets(MOST)?;
            words.end()?;
            Some(gateway.arrive(&octets).map(nothing))
        }
        call => call_line(gateway, call, words),
    }
}

/// The calls that name a line.
fn call_line(gateway: &mut Gateway, call: &[u8], words: &mut Words) -> Answer {
    let line = words.octet()?;
    match call {
        b"open" => call_open(gateway, line, words),
        b"close" => {
            let room = words.room()?;
            Some(gateway.close(line, room).map(as_hex))
        }
        b"hear" | b"ask" | b"tick" => call_mode(gateway, call, line, words),
        b"take" | b"send" | b"empty" | b"out" | b"held" => call_channel(gateway, call, line, words),
        _ => None,
    }
}

fn call_open(gateway: &mut Gateway, line: u8, words: &mut Words) -> Answer {
    let settings = Settings {
        identifier: words.octet()?,
        payload_type: words.octet()?,
        vbd: words.flag()?,
        relay: words.flag()?,
    };
    let time = words.time()?;
    words.end()?;
    Some(gateway.open(line, settings, time).map(nothing))
}

fn call_mode(gateway: &mut Gateway, call: &[u8], line: u8, words: &mut Words) -> Answer {
    let mode = match call {
        b"tick" => None,
        _ => Some(words.mode()?),
    };
    let time = words.time()?;
    words.end()?;
    Some(match mode {
        None => gateway.tick(line, time).map(tick_words),
        Some(mode) if call == b"ask" => gateway.ask(line, mode, time).map(|local| local.name()),
        Some(mode) => gateway.hear(line, mode, time).map(|(local, notice)| {
            let sent = if notice { "notice" } else { "quiet" };
            format!("{} {sent}", local.name())
        }),
    })
}

fn tick_words(tick: Tick) -> String {
    match tick {
        Tick::Quiet => "quiet".into(),
        Tick::Audio(number) => format!("audio {number}"),
        Tick::Ended => "ended".into(),
    }
}

fn call_channel(gateway: &mut Gateway, call: &[u8], line: u8, words: &mut Words) -> Answer {
    let channel = words.octet()?;
    match call {
        b"take" => {
            let message = words.octets(MOST)?;
            words.end()?;
            Some(gateway.take(line, channel, &message).map(nothing))
        }
        b"send" => {
            let rank = words.octet()?;
            let room = words.room()?;
            Some(gateway.send(line, channel, rank, room).map(as_hex))
        }
        b"empty" => {
            let room = words.room()?;
            Some(gateway.empty(line, channel, room).map(as_hex))
        }
        b"out" => {
            let room = words.room()?;
            Some(gateway.out(line, channel, room).map(as_hex))
        }
        _ => {
            words.end()?;
            Some(gateway.held(line, channel).map(|count| count.to_string()))
        }
    }
}

fn call_connect(words: &mut Words) -> Answer {
    match words.word()? {
        b"read" => {
            let octets = words.octets(MOST)?;
            words.end()?;
            Some(Connect::read(&octets).map(|connect| connect_words(&connect)))
        }
        b"write" => {
            let connect = connect_values(words)?;
            let room = words.room()?;
            Some(connect.write(room).map(as_hex))
        }
        _ => None,
    }
}

/// The 18 values in the script's order.
fn connect_values(words: &mut Words) -> Option<Connect> {
    let mut connect = Connect {
        modulation: words.octet()?,
        direction: words.octet()?,
        compression: words.octet()?,
        correction: words.octet()?,
        transmit_rate: words.short()?,
        receive_rate: words.short()?,
        dlci: words.flag()?,
        ..Connect::default()
    };
    for data_type in &mut connect.data_types {
        *data_type = words.flag()?;
    }
    connect.sizes = Sizes {
        transmit_dictionary: words.short()?,
        receive_dictionary: words.short()?,
        transmit_string: words.octet()?,
        receive_string: words.octet()?,
        transmit_history: words.short()?,
        receive_history: words.short()?,
    };
    Some(connect)
}

fn connect_words(connect: &Connect) -> String {
    let mut values: Vec<u16> = vec![
        connect.modulation.into(),
        connect.direction.into(),
        connect.compression.into(),
        connect.correction.into(),
        connect.transmit_rate,
        connect.receive_rate,
        connect.dlci.into(),
    ];
    values.extend(connect.data_types.map(u16::from));
    values.extend([
        connect.sizes.transmit_dictionary,
        connect.sizes.receive_dictionary,
        connect.sizes.transmit_string.into(),
        connect.sizes.receive_string.into(),
        connect.sizes.transmit_history,
        connect.sizes.receive_history,
    ]);
    let values: Vec<String> = values.iter().map(u16::to_string).collect();
    values.join(" ")
}

fn call_break(words: &mut Words) -> Answer {
    match words.word()? {
        b"read" => {
            let octets = words.octets(MOST)?;
            words.end()?;
            Some(
                Break::read(&octets)
                    .map(|read| format!("{} {} {}", read.source, read.kind, read.length)),
            )
        }
        b"write" => {
            let given = Break {
                source: words.octet()?,
                kind: words.octet()?,
                length: words.octet()?,
            };
            let room = words.room()?;
            Some(given.write(room).map(as_hex))
        }
        _ => None,
    }
}

fn call_slip(words: &mut Words) -> Answer {
    if words.word()? != b"read" {
        return None;
    }
    let octets = words.octets(MOST)?;
    words.end()?;
    Some(Slip::read(&octets).map(|slip| {
        format!(
            "{} {} {} {} {}",
            slip.identifier, slip.payload_type, slip.count_one, slip.count_two, slip.reason
        )
    }))
}

fn done() -> Answer {
    Some(Ok(String::new()))
}

fn nothing(_: ()) -> String {
    String::new()
}

fn as_hex(octets: Vec<u8>) -> String {
    hex(&octets)
}
