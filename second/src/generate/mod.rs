//! Writes scripts from a seed: one seed, one script, on every machine.
//!
//! Each kind of script is a file. A kind writes episodes, each of which begins with fresh gateways, through a [`Pen`],
//! which makes every call at a desk of its own as it is written. So an episode knows what was answered, and can carry
//! real packets from one gateway to the other.

mod bodies;
mod bounds;
mod calls;
mod craft;
mod faults;
mod garbage;
mod honest;
mod lines;
mod long;
mod modes;
mod oddities;
mod pairs;
mod pen;
mod random;
mod refusals;
mod resting;
mod spoils;

use pen::Pen;
use std::io::{self, Write};

/// Call lines in one episode at the most, so that a script of several kinds comes round to each.
const EPISODE: u64 = 400;

#[derive(Clone, Copy, Debug, PartialEq, Eq)]
pub enum Kind {
    Honest,
    Garbage,
    Refusals,
    Bounds,
    Modes,
    Resting,
    Bodies,
    Spoil,
    Lines,
    /// One stream from 0, past the wrap where the script is long enough. Not among those written in turn.
    Long,
}

/// The kinds that a script of no particular kind goes through in turn. Those with the most to reach come more often.
const IN_TURN: [Kind; 12] = [
    Kind::Honest,
    Kind::Garbage,
    Kind::Spoil,
    Kind::Refusals,
    Kind::Bounds,
    Kind::Modes,
    Kind::Spoil,
    Kind::Resting,
    Kind::Bodies,
    Kind::Honest,
    Kind::Spoil,
    Kind::Lines,
];

impl Kind {
    pub fn named(name: &str) -> Option<Kind> {
        match name {
            "honest" => Some(Kind::Honest),
            "garbage" => Some(Kind::Garbage),
            "refusals" => Some(Kind::Refusals),
            "bounds" => Some(Kind::Bounds),
            "modes" => Some(Kind::Modes),
            "resting" => Some(Kind::Resting),
            "bodies" => Some(Kind::Bodies),
            "spoil" => Some(Kind::Spoil),
            "lines" => Some(Kind::Lines),
            "long" => Some(Kind::Long),
            _ => None,
        }
    }

    fn write_episode(self, pen: &mut Pen) {
        match self {
            Kind::Honest => honest::episode(pen),
            Kind::Garbage => garbage::episode(pen),
            Kind::Refusals => refusals::episode(pen),
            Kind::Bounds => bounds::episode(pen),
            Kind::Modes => modes::episode(pen),
            Kind::Resting => resting::episode(pen),
            Kind::Bodies => bodies::episode(pen),
            Kind::Spoil => spoils::episode(pen),
            Kind::Lines => lines::episode(pen),
            Kind::Long => long::episode(pen),
        }
    }

    /// Whether such a script ends in one of the ways that a last line may end.
    fn ends_oddly(self) -> bool {
        self == Kind::Lines
    }
}

/// Writes a script of about so many call lines: of that kind, or of all kinds in turn.
pub fn write_script(
    seed: u64,
    calls: u64,
    kind: Option<Kind>,
    output: &mut impl Write,
) -> io::Result<()> {
    let mut pen = Pen::new(seed);
    let kinds = kind.map_or(IN_TURN.to_vec(), |kind| vec![kind]);
    for &kind in kinds.iter().cycle() {
        if pen.calls() >= calls {
            break;
        }
        pen.begin_episode(episode_length(kind, calls).min(calls - pen.calls()));
        kind.write_episode(&mut pen);
        output.write_all(&pen.script())?;
    }
    if kinds.iter().any(|kind| kind.ends_oddly()) {
        lines::write_last(&mut pen);
    }
    output.write_all(&pen.script())
}

fn episode_length(kind: Kind, calls: u64) -> u64 {
    match kind {
        Kind::Long => calls,
        _ => EPISODE.min((calls.saturating_sub(1) / IN_TURN.len() as u64 + 1).max(40)),
    }
}
