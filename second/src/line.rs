//! One line: its settings, its modes, both sides of both channels, and what it owes.

use crate::channel::{carried, Channel, CAP};
use crate::flag::Flag;
use crate::modes::{Mode, Modes, Recovery};
use crate::owed::Owed;
use crate::packet::Packet;
use crate::receiving::Receiving;
use crate::refusal::{require, Refusal};
use crate::sending::Sending;
use crate::slip::{self, Slip};

/// What an opening asks for.
pub struct Settings {
    pub identifier: u8,
    pub payload_type: u8,
    pub vbd: bool,
    pub relay: bool,
}

impl Settings {
    pub fn in_range(&self) -> bool {
        in_range(self.identifier, self.payload_type)
    }
}

fn in_range(identifier: u8, payload_type: u8) -> bool {
    identifier <= 127 && (96..=127).contains(&payload_type)
}

/// Both sides of one channel.
#[derive(Clone, Debug)]
pub struct Sides {
    pub sending: Sending,
    pub receiving: Receiving,
}

impl Sides {
    fn fresh(channel: Channel) -> Self {
        Sides {
            sending: Sending::fresh(channel),
            receiving: Receiving::fresh(channel),
        }
    }

    /// Drops every message; the counts stay.
    fn clear(&mut self) {
        self.sending.held.clear();
        self.receiving.stored.clear();
    }

    fn is_empty(&self) -> bool {
        self.sending.held.is_empty() && self.receiving.stored.is_empty()
    }

    fn is_sound(&self) -> bool {
        self.sending.is_sound() && self.receiving.is_sound()
    }
}

#[derive(Clone, Debug)]
pub struct Line {
    pub opened: Flag,
    pub identifier: u8,
    pub payload_type: u8,
    pub modes: Modes,
    one: Sides,
    two: Sides,
    pub owed: Owed,
}

impl Line {
    /// The record of a line that is not open.
    pub fn closed() -> Line {
        let settings = Settings {
            identifier: 0,
            payload_type: 0,
            vbd: false,
            relay: false,
        };
        Line {
            opened: false.into(),
            ..Line::open(settings, 0)
        }
    }

    pub fn open(settings: Settings, time: u64) -> Line {
        Line {
            opened: true.into(),
            identifier: settings.identifier,
            payload_type: settings.payload_type,
            modes: Modes::opened(settings.vbd, settings.relay, time),
            one: Sides::fresh(Channel::One),
            two: Sides::fresh(Channel::Two),
            owed: Owed::default(),
        }
    }

    pub fn is_open(&self) -> bool {
        self.opened.is_set()
    }

    pub fn sides(&self, channel: Channel) -> &Sides {
        match channel {
            Channel::One => &self.one,
            Channel::Two => &self.two,
        }
    }

    pub fn sides_mut(&mut self, channel: Channel) -> &mut Sides {
        match channel {
            Channel::One => &mut self.one,
            Channel::Two => &mut self.two,
        }
    }

    fn in_relay(&self) -> bool {
        self.modes.local == Mode::Relay
    }

    /// MODE unless the line is in modem relay.
    pub fn require_relay(&self) -> Result<(), Refusal> {
        require(self.in_relay(), Refusal::Mode)
    }

    /// Makes a mode call. Entering modem relay starts both channels fresh, leaving it empties them.
    pub fn move_modes<T>(
        &mut self,
        call: impl FnOnce(&mut Modes) -> Result<T, Refusal>,
    ) -> Result<T, Refusal> {
        let was_in_relay = self.in_relay();
        let answer = call(&mut self.modes)?;
        match (was_in_relay, self.in_relay()) {
            (false, true) => self.start_relay(),
            (true, false) => self.end_relay(),
            _ => {}
        }
        Ok(answer)
    }

    fn start_relay(&mut self) {
        self.one = Sides::fresh(Channel::One);
        self.two = Sides::fresh(Channel::Two);
        self.owed.clear();
    }

    fn end_relay(&mut self) {
        self.one.clear();
        self.two.clear();
        self.owed.clear();
    }

    /// Writes the held message of that rank. NOTHING, ROOM.
    pub fn write_held(
        &mut self,
        channel: Channel,
        rank: u8,
        room: usize,
    ) -> Result<Vec<u8>, Refusal> {
        let ranked = self.sides(channel).sending.ranked(rank);
        let (number, message) = ranked.ok_or(Refusal::Nothing)?;
        let packet = Packet {
            number: carried(number),
            payload: message.to_vec(),
            ..self.packet_on(channel)
        };
        self.write(packet, room)
    }

    /// Writes a packet without payload: base news, or on channel 0 acknowledgements only. ROOM.
    pub fn write_empty(
        &mut self,
        channel: Option<Channel>,
        room: usize,
    ) -> Result<Vec<u8>, Refusal> {
        let packet = match channel {
            Some(channel) => self.packet_on(channel),
            None => self.packet_on_zero(),
        };
        self.write(packet, room)
    }

    /// A packet on channel 0 with the acknowledgements that the next packet carries.
    fn packet_on_zero(&self) -> Packet {
        Packet {
            identifier: self.identifier,
            payload_type: self.payload_type,
            channel: 0,
            number: 0,
            base: 0,
            acks: self.owed.first().to_vec(),
            payload: Vec::new(),
        }
    }

    fn packet_on(&self, channel: Channel) -> Packet {
        Packet {
            channel: channel.number(),
            base: carried(self.sides(channel).receiving.next),
            ..self.packet_on_zero()
        }
    }

    /// ROOM; then what the packet carries is owed no more.
    fn write(&mut self, packet: Packet, room: usize) -> Result<Vec<u8>, Refusal> {
        let octets = packet.write();
        require(octets.len() <= room, Refusal::Room)?;
        self.owed.leave();
        Ok(octets)
    }

    /// A packet for this line takes effect: base, acknowledgements as listed, payload.
    pub fn receive(&mut self, packet: &Packet) {
        let channel = Channel::named(packet.channel).ok();
        if let Some(channel) = channel {
            self.sides_mut(channel).sending.hear_base(packet.base);
        }
        for &(on, number) in &packet.acks {
            if let Ok(on) = Channel::named(on) {
                self.sides_mut(on).sending.acknowledge(number);
            }
        }
        if let (Some(channel), false) = (channel, packet.payload.is_empty()) {
            let receiving = &mut self.sides_mut(channel).receiving;
            receiving.arrive(packet.number, &packet.payload);
            self.owed.enter((packet.channel, packet.number));
        }
    }

    /// Hands out message R. SPENT, NOTHING, ROOM.
    pub fn hand_out(&mut self, channel: Channel, room: usize) -> Result<Vec<u8>, Refusal> {
        let receiving = &mut self.sides_mut(channel).receiving;
        require(receiving.next < CAP, Refusal::Spent)?;
        let message = receiving.waiting().ok_or(Refusal::Nothing)?.to_vec();
        require(message.len() <= room, Refusal::Room)?;
        receiving.move_on();
        Ok(message)
    }

    /// The slip that closing would write. ROOM.
    pub fn slip(&self, room: usize) -> Result<Vec<u8>, Refusal> {
        require(slip::LENGTH <= room, Refusal::Room)?;
        let slip = Slip {
            identifier: self.identifier,
            payload_type: self.payload_type,
            count_one: self.one.receiving.next as u32,
            count_two: self.two.receiving.next as u32,
            reason: u8::from(self.modes.recovery == Recovery::Ended),
        };
        Ok(slip.write())
    }

    /// BOOK's rules for an open line by itself.
    pub fn is_sound(&self) -> bool {
        let idle = self.one.is_empty() && self.two.is_empty() && self.owed.owing() == 0;
        in_range(self.identifier, self.payload_type)
            && self.modes.is_sound()
            && self.one.is_sound()
            && self.two.is_sound()
            && self.owed.is_sound()
            && (idle || self.in_relay())
    }
}
