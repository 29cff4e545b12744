//! The eighteen refusals, each with the paper's number and name.

/// Why a call was refused. The discriminant is the paper's number.
#[derive(Clone, Copy, Debug, PartialEq, Eq)]
pub enum Refusal {
    Short = 1,
    Form,
    Type,
    NoLine,
    Mode,
    Channel,
    Size,
    Full,
    Spent,
    Nothing,
    Room,
    Taken,
    Range,
    Clock,
    Recovery,
    Length,
    Reserved,
    Book,
}

impl Refusal {
    pub fn number(self) -> u8 {
        self as u8
    }

    pub fn name(self) -> &'static str {
        match self {
            Refusal::Short => "SHORT",
            Refusal::Form => "FORM",
            Refusal::Type => "TYPE",
            Refusal::NoLine => "NOLINE",
            Refusal::Mode => "MODE",
            Refusal::Channel => "CHANNEL",
            Refusal::Size => "SIZE",
            Refusal::Full => "FULL",
            Refusal::Spent => "SPENT",
            Refusal::Nothing => "NOTHING",
            Refusal::Room => "ROOM",
            Refusal::Taken => "TAKEN",
            Refusal::Range => "RANGE",
            Refusal::Clock => "CLOCK",
            Refusal::Recovery => "RECOVERY",
            Refusal::Length => "LENGTH",
            Refusal::Reserved => "RESERVED",
            Refusal::Book => "BOOK",
        }
    }
}

/// Goes on where the condition holds, and refuses otherwise: a call's order of refusals is then a list of these.
pub fn require(holds: bool, refusal: Refusal) -> Result<(), Refusal> {
    if holds {
        Ok(())
    } else {
        Err(refusal)
    }
}
