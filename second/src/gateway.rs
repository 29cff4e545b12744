//! A gateway: the book of four lines and the resting identifiers, how much store is lent, and the calls.
//!
//! Every call begins with BOOK, then ROOM for the store where it is lent, then RANGE for a line number over 3. What
//! follows is listed with each call in the paper's order. A refused call changes nothing.

use crate::audit;
use crate::channel::{Channel, LARGEST};
use crate::line::{Line, Settings};
use crate::modes::{Mode, Tick};
use crate::packet::{Head, Packet};
use crate::refusal::{require, Refusal};
use crate::resting::Resting;

/// Lines in a book.
pub const LINES: usize = 4;
/// Octets of store that a gateway needs, and has.
pub const STORE: usize = 42_240;

#[derive(Clone, Debug)]
pub struct Gateway {
    pub lines: Vec<Line>,
    pub resting: Resting,
    /// How many octets of the store are lent.
    pub lent: usize,
}

impl Gateway {
    /// A fresh book, and a store lent whole.
    pub fn fresh() -> Gateway {
        Gateway {
            lines: vec![Line::closed(); LINES],
            resting: Resting::default(),
            lent: STORE,
        }
    }

    fn require_book(&self) -> Result<(), Refusal> {
        require(audit::is_sound(&self.lines, &self.resting), Refusal::Book)
    }

    fn require_store(&self) -> Result<(), Refusal> {
        require(self.lent >= STORE, Refusal::Room)
    }

    /// RANGE.
    fn record(&mut self, line: u8) -> Result<&mut Line, Refusal> {
        self.lines.get_mut(usize::from(line)).ok_or(Refusal::Range)
    }

    /// RANGE, NOLINE.
    fn open_line(&mut self, line: u8) -> Result<&mut Line, Refusal> {
        let line = self.record(line)?;
        require(line.is_open(), Refusal::NoLine)?;
        Ok(line)
    }

    /// RANGE, NOLINE, MODE.
    fn relay_line(&mut self, line: u8) -> Result<&mut Line, Refusal> {
        let line = self.open_line(line)?;
        line.require_relay()?;
        Ok(line)
    }

    /// TAKEN for the line, RANGE, TAKEN for the identifier.
    pub fn open(&mut self, line: u8, settings: Settings, time: u64) -> Result<(), Refusal> {
        self.require_book()?;
        require(!self.record(line)?.is_open(), Refusal::Taken)?;
        require(settings.in_range(), Refusal::Range)?;
        require(!self.is_taken(settings.identifier), Refusal::Taken)?;
        *self.record(line)? = Line::open(settings, time);
        Ok(())
    }

    /// Whether an identifier is open or rests.
    fn is_taken(&self, identifier: u8) -> bool {
        self.line_of(identifier).is_some()
            || self.resting.identifiers().any(|rests| rests == identifier)
    }

    /// The index of the open line that has an identifier.
    fn line_of(&self, identifier: u8) -> Option<usize> {
        self.lines
            .iter()
            .position(|line| line.is_open() && line.identifier == identifier)
    }

    /// NOLINE, ROOM. Gives the slip.
    pub fn close(&mut self, line: u8, room: usize) -> Result<Vec<u8>, Refusal> {
        self.require_book()?;
        let record = self.open_line(line)?;
        let slip = record.slip(room)?;
        let identifier = record.identifier;
        *record = Line::closed();
        self.resting.enter(identifier);
        Ok(slip)
    }

    /// NOLINE, CLOCK, RECOVERY, RANGE. Gives the local mode and whether a P' notice is to be sent.
    pub fn hear(&mut self, line: u8, mode: Mode, time: u64) -> Result<(Mode, bool), Refusal> {
        self.require_book()?;
        self.open_line(line)?
            .move_modes(|modes| modes.hear(mode, time))
    }

    /// NOLINE, CLOCK, RECOVERY, RANGE, MODE. Gives the local mode.
    pub fn ask(&mut self, line: u8, mode: Mode, time: u64) -> Result<Mode, Refusal> {
        self.require_book()?;
        self.open_line(line)?
            .move_modes(|modes| modes.ask(mode, time))
    }

    /// NOLINE, CLOCK.
    pub fn tick(&mut self, line: u8, time: u64) -> Result<Tick, Refusal> {
        self.require_book()?;
        self.open_line(line)?.move_modes(|modes| modes.tick(time))
    }

    /// NOLINE, MODE, CHANNEL, SIZE, SPENT, FULL.
    pub fn take(&mut self, line: u8, channel: u8, message: &[u8]) -> Result<(), Refusal> {
        self.require_book()?;
        self.require_store()?;
        let line = self.relay_line(line)?;
        let channel = Channel::named(channel)?;
        require((1..=LARGEST).contains(&message.len()), Refusal::Size)?;
        line.sides_mut(channel).sending.take(message)
    }

    /// NOLINE, MODE, CHANNEL, NOTHING, ROOM. Gives the packet with the held message of that rank.
    pub fn send(
        &mut self,
        line: u8,
        channel: u8,
        rank: u8,
        room: usize,
    ) -> Result<Vec<u8>, Refusal> {
        self.require_book()?;
        self.require_store()?;
        let line = self.relay_line(line)?;
        line.write_held(Channel::named(channel)?, rank, room)
    }

    /// NOLINE, MODE, CHANNEL, ROOM. Gives a packet without payload.
    pub fn empty(&mut self, line: u8, channel: u8, room: usize) -> Result<Vec<u8>, Refusal> {
        self.require_book()?;
        let line = self.relay_line(line)?;
        let channel = match channel {
            0 => None,
            other => Some(Channel::named(other)?),
        };
        line.write_empty(channel, room)
    }

    /// SHORT for 6 octets, FORM, NOLINE, TYPE, MODE, SHORT for the list, CHANNEL, SIZE.
    pub fn arrive(&mut self, octets: &[u8]) -> Result<(), Refusal> {
        self.require_book()?;
        self.require_store()?;
        let head = Head::read(octets)?;
        let index = self.line_of(head.identifier).ok_or(Refusal::NoLine)?;
        let line = &mut self.lines[index];
        require(head.payload_type == line.payload_type, Refusal::Type)?;
        line.require_relay()?;
        line.receive(&Packet::read(head, octets)?);
        Ok(())
    }

    /// NOLINE, MODE, CHANNEL, SPENT, NOTHING, ROOM. Gives the message.
    pub fn out(&mut self, line: u8, channel: u8, room: usize) -> Result<Vec<u8>, Refusal> {
        self.require_book()?;
        self.require_store()?;
        let line = self.relay_line(line)?;
        line.hand_out(Channel::named(channel)?, room)
    }

    /// NOLINE, MODE, CHANNEL. Gives how many messages are held unacknowledged.
    pub fn held(&mut self, line: u8, channel: u8) -> Result<usize, Refusal> {
        self.require_book()?;
        let line = self.relay_line(line)?;
        Ok(line.sides(Channel::named(channel)?).sending.held.len())
    }
}
