//! BOOK: whether a book keeps the paper's spans. Of a closed line nothing is read but its flag.

use crate::line::Line;
use crate::resting::Resting;
use std::collections::BTreeSet;

/// Whether a book of these lines and these resting identifiers is one that calls accept.
pub fn is_sound(lines: &[Line], resting: &Resting) -> bool {
    resting.is_sound()
        && lines.iter().all(|line| line.opened.is_sound())
        && lines
            .iter()
            .filter(|line| line.is_open())
            .all(Line::is_sound)
        && identifiers_differ(lines, resting)
}

/// No identifier twice among open lines and those that rest.
fn identifiers_differ(lines: &[Line], resting: &Resting) -> bool {
    let mut seen = BTreeSet::new();
    let open = lines
        .iter()
        .filter(|line| line.is_open())
        .map(|line| line.identifier);
    open.chain(resting.identifiers())
        .all(|identifier| seen.insert(identifier))
}
