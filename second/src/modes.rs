//! Media modes of one line: requests, indications, ticks and recovery (Annex C, by the paper's section 'Media modes').
//!
//! No clock is read. What a change of mode does to the channels is the line's business, not this file's.

use crate::flag::Flag;
use crate::refusal::{require, Refusal};

/// A difference that lasts longer than this starts recovery; a try is due again when this has passed.
const PATIENCE: u64 = 1_000;
/// After this try the next one due ends the line.
const LAST_TRY: u8 = 5;
/// The number that stands for an ended recovery.
const ENDED: u8 = LAST_TRY + 1;

/// A media mode in Table C.1's code.
#[derive(Clone, Copy, Debug, PartialEq, Eq)]
pub enum Mode {
    Unknown,
    Audio,
    Vbd,
    Relay,
    Fax,
    Text,
    /// A number that is no mode's. Only a spoiled book has it.
    Other(u8),
}

impl Mode {
    pub fn from_code(code: u8) -> Mode {
        match code {
            0 => Mode::Unknown,
            1 => Mode::Audio,
            2 => Mode::Vbd,
            3 => Mode::Relay,
            4 => Mode::Fax,
            5 => Mode::Text,
            other => Mode::Other(other),
        }
    }

    pub fn from_letter(letter: u8) -> Option<Mode> {
        match letter {
            b'i' => Some(Mode::Unknown),
            b'a' => Some(Mode::Audio),
            b'v' => Some(Mode::Vbd),
            b'm' => Some(Mode::Relay),
            b'f' => Some(Mode::Fax),
            b't' => Some(Mode::Text),
            _ => None,
        }
    }

    /// The letter, or the number where there is none.
    pub fn name(self) -> String {
        match self {
            Mode::Unknown => "i".into(),
            Mode::Audio => "a".into(),
            Mode::Vbd => "v".into(),
            Mode::Relay => "m".into(),
            Mode::Fax => "f".into(),
            Mode::Text => "t".into(),
            Mode::Other(code) => code.to_string(),
        }
    }
}

/// How far recovery has come.
#[derive(Clone, Copy, Debug, PartialEq, Eq)]
pub enum Recovery {
    None,
    /// Recovering, at that try, 1 to 5.
    Try(u8),
    /// The last try went unanswered.
    Ended,
    /// A number outside the span. Only a spoiled book has it.
    Other(u8),
}

impl Recovery {
    pub fn from_number(number: u8) -> Recovery {
        match number {
            0 => Recovery::None,
            1..=LAST_TRY => Recovery::Try(number),
            ENDED => Recovery::Ended,
            other => Recovery::Other(other),
        }
    }

    pub fn number(self) -> u8 {
        match self {
            Recovery::None => 0,
            Recovery::Try(number) | Recovery::Other(number) => number,
            Recovery::Ended => ENDED,
        }
    }
}

/// What a tick answers.
#[derive(Clone, Copy, Debug, PartialEq, Eq)]
pub enum Tick {
    Quiet,
    /// An audio indication is due: that try.
    Audio(u8),
    Ended,
}

#[derive(Clone, Debug)]
pub struct Modes {
    /// VBD is offered.
    pub vbd: Flag,
    /// Modem relay is offered.
    pub relay: Flag,
    /// Modem relay was left, for the rest of this opening.
    pub left: Flag,
    pub local: Mode,
    pub remote: Mode,
    pub recovery: Recovery,
    /// When the difference of the modes began; 0 after one has ended.
    pub since: u64,
    /// When the last try was made; 0 after recovery has ended by an answer.
    pub tried: u64,
    /// The time of the opening or of the last accepted mode call.
    pub last: u64,
}

impl Modes {
    /// The modes of a line just opened.
    pub fn opened(vbd: bool, relay: bool, time: u64) -> Modes {
        Modes {
            vbd: vbd.into(),
            relay: relay.into(),
            left: false.into(),
            local: Mode::Audio,
            remote: Mode::Audio,
            recovery: Recovery::None,
            since: 0,
            tried: 0,
            last: time,
        }
    }

    fn differ(&self) -> bool {
        self.local != self.remote
    }

    /// Whether a mode may be the local one. Audio always may.
    fn offers(&self, mode: Mode) -> bool {
        match mode {
            Mode::Audio => true,
            Mode::Vbd => self.vbd.is_set(),
            Mode::Relay => self.relay.is_set(),
            _ => false,
        }
    }

    /// Sets both modes, and times their difference from the event that begins it to the one that ends it.
    fn settle(&mut self, local: Mode, remote: Mode, time: u64) {
        let differed = self.differ();
        if self.local == Mode::Relay && local != Mode::Relay {
            self.left = true.into();
        }
        self.local = local;
        self.remote = remote;
        match (differed, self.differ()) {
            (false, true) => self.since = time,
            (true, false) => self.since = 0,
            _ => {}
        }
    }

    /// A local request. CLOCK, RECOVERY, RANGE, MODE.
    pub fn ask(&mut self, mode: Mode, time: u64) -> Result<Mode, Refusal> {
        require(time >= self.last, Refusal::Clock)?;
        require(self.recovery == Recovery::None, Refusal::Recovery)?;
        require(self.offers(mode), Refusal::Range)?;
        require(!(mode == Mode::Relay && self.left.is_set()), Refusal::Mode)?;
        self.last = time;
        self.settle(mode, self.remote, time);
        Ok(self.local)
    }

    /// An indication heard; also answers whether a P' notice is to be sent. CLOCK, RECOVERY, RANGE.
    pub fn hear(&mut self, mode: Mode, time: u64) -> Result<(Mode, bool), Refusal> {
        require(time >= self.last, Refusal::Clock)?;
        require(self.recovery != Recovery::Ended, Refusal::Recovery)?;
        let heard = !matches!(mode, Mode::Unknown | Mode::Other(_));
        require(heard, Refusal::Range)?;
        self.last = time;
        let notice = self.remote != mode;
        if mode == Mode::Audio && self.recovery != Recovery::None {
            self.recovery = Recovery::None;
            self.tried = 0;
        }
        self.settle(self.answer_to(mode), mode, time);
        Ok((self.local, notice))
    }

    /// The local mode that an indication gives.
    fn answer_to(&self, mode: Mode) -> Mode {
        let in_relay = self.local == Mode::Relay;
        match mode {
            _ if self.recovery != Recovery::None => Mode::Audio,
            Mode::Audio => Mode::Audio,
            Mode::Relay if self.relay.is_set() && (in_relay || !self.left.is_set()) => Mode::Relay,
            _ if self.vbd.is_set() => Mode::Vbd,
            _ => Mode::Audio,
        }
    }

    /// Time has passed. CLOCK.
    pub fn tick(&mut self, time: u64) -> Result<Tick, Refusal> {
        require(time >= self.last, Refusal::Clock)?;
        self.last = time;
        Ok(match self.recovery {
            Recovery::Ended => Tick::Ended,
            Recovery::Try(number) if time - self.tried >= PATIENCE => self.try_after(number, time),
            Recovery::None if self.differ() && time - self.since > PATIENCE => {
                self.settle(Mode::Audio, Mode::Unknown, time);
                self.try_after(0, time)
            }
            _ => Tick::Quiet,
        })
    }

    /// The try after that number is due.
    fn try_after(&mut self, number: u8, time: u64) -> Tick {
        if number == LAST_TRY {
            self.recovery = Recovery::Ended;
            return Tick::Ended;
        }
        self.recovery = Recovery::Try(number + 1);
        self.tried = time;
        Tick::Audio(number + 1)
    }

    /// BOOK's rules for the modes.
    pub fn is_sound(&self) -> bool {
        let recovering = self.recovery != Recovery::None;
        let flags = [self.vbd, self.relay, self.left];
        flags.iter().all(|flag| flag.is_sound())
            && self.offers(self.local)
            && !matches!(self.remote, Mode::Other(_))
            && !matches!(self.recovery, Recovery::Other(_))
            && (!recovering || self.local == Mode::Audio)
            && (!self.differ() || self.since <= self.last)
            && (!recovering || self.tried <= self.last)
    }
}
