//! The pen: writes a script's lines and makes each call as it is written.

use super::random::Random;
use crate::channel::Channel;
use crate::desk::Desk;
use crate::gateway::Gateway;
use crate::line::{Line, Sides};
use std::fmt;

/// One of the two gateways.
#[derive(Clone, Copy, Debug, PartialEq, Eq)]
pub enum End {
    A,
    B,
}

pub const ENDS: [End; 2] = [End::A, End::B];
pub const CHANNELS: [Channel; 2] = [Channel::One, Channel::Two];

impl End {
    pub fn other(self) -> End {
        match self {
            End::A => End::B,
            End::B => End::A,
        }
    }
}

impl fmt::Display for End {
    fn fmt(&self, formatter: &mut fmt::Formatter) -> fmt::Result {
        fmt::Debug::fmt(self, formatter)
    }
}

pub struct Pen {
    pub random: Random,
    desk: Desk,
    /// What was written and not yet given away.
    script: Vec<u8>,
    /// Lines that were answered.
    calls: u64,
    /// The episode ends when so many lines have been answered.
    limit: u64,
}

impl Pen {
    pub fn new(seed: u64) -> Self {
        Pen {
            random: Random::new(seed),
            desk: Desk::default(),
            script: Vec::new(),
            calls: 0,
            limit: 0,
        }
    }

    pub fn calls(&self) -> u64 {
        self.calls
    }

    /// The next episode is to have so many calls.
    pub fn begin_episode(&mut self, calls: u64) {
        self.limit = self.calls + calls;
    }

    /// Whether the episode goes on.
    pub fn more(&self) -> bool {
        self.calls < self.limit
    }

    /// Gives away what was written so far.
    pub fn script(&mut self) -> Vec<u8> {
        std::mem::take(&mut self.script)
    }

    /// Writes a line and gives its answer, without the line end.
    pub fn say(&mut self, line: impl AsRef<str>) -> String {
        let line = format!("{}\n", line.as_ref());
        self.say_octets(line.as_bytes())
    }

    /// Writes these octets as they are, and gives the answer if they end a line that has one.
    pub fn say_octets(&mut self, octets: &[u8]) -> String {
        self.script.extend_from_slice(octets);
        let answer = self.desk.read(octets);
        self.calls += answer.lines().count() as u64;
        answer.trim_end().into()
    }

    pub fn say_all(&mut self, lines: &[String]) {
        for line in lines {
            self.say(line);
        }
    }

    /// Makes a call that answers octets, and gives them as they were answered.
    pub fn octets_of(&mut self, line: impl AsRef<str>) -> Option<String> {
        let answer = self.say(line);
        answer.strip_prefix("ok ").map(String::from)
    }

    pub fn gateway(&self, end: End) -> &Gateway {
        match end {
            End::A => self.desk.a(),
            End::B => self.desk.b(),
        }
    }

    pub fn line(&self, end: End, line: u8) -> &Line {
        &self.gateway(end).lines[usize::from(line)]
    }

    pub fn sides(&self, end: End, line: u8, channel: Channel) -> &Sides {
        self.line(end, line).sides(channel)
    }

    pub fn pick_end(&mut self) -> End {
        self.random.pick(&ENDS)
    }

    pub fn pick_channel(&mut self) -> Channel {
        self.random.pick(&CHANNELS)
    }
}
