//! `spoil`: sets one part of a book to a value, unchecked, so that BOOK's clauses can be tried.
//!
//! `None` means that the line is no call: an unknown part, or a value that cannot be said at all.

use crate::channel::{Channel, Messages, MODULUS};
use crate::flag::Flag;
use crate::gateway::{Gateway, LINES};
use crate::line::Line;
use crate::modes::Recovery;
use crate::owed;
use crate::resting;
use crate::words::Words;

/// A held or stored message is said as one of so many from the base, or from the next to hand out, on either channel.
const SPAN: u64 = 32;
/// The most octets of a message that can be said, right or wrong.
const SAYABLE: usize = 255;

pub fn spoil(gateway: &mut Gateway, words: &mut Words) -> Option<()> {
    match words.word()? {
        b"rested" => {
            let rested = last(words, Words::octet)?;
            gateway.resting.spoil_count(rested);
        }
        b"resting" => {
            let index = words.up_to(resting::MOST as u64 - 1)?;
            let identifier = last(words, Words::octet)?;
            gateway.resting.spoil_entry(index as usize, identifier);
        }
        line => {
            let index = Words::new(line).up_to(LINES as u64 - 1)?;
            spoil_line(&mut gateway.lines[index as usize], words)?;
        }
    }
    Some(())
}

/// A value that must be the line's last.
fn last<'a, T>(
    words: &mut Words<'a>,
    value: impl FnOnce(&mut Words<'a>) -> Option<T>,
) -> Option<T> {
    let value = value(words)?;
    words.end()?;
    Some(value)
}

fn spoil_line(line: &mut Line, words: &mut Words) -> Option<()> {
    let modes = &mut line.modes;
    match words.word()? {
        b"opened" => line.opened = Flag(last(words, Words::octet)?),
        b"vbd" => modes.vbd = Flag(last(words, Words::octet)?),
        b"relay" => modes.relay = Flag(last(words, Words::octet)?),
        b"left" => modes.left = Flag(last(words, Words::octet)?),
        b"id" => line.identifier = last(words, Words::octet)?,
        b"type" => line.payload_type = last(words, Words::octet)?,
        b"local" => modes.local = last(words, Words::mode_or_code)?,
        b"remote" => modes.remote = last(words, Words::mode_or_code)?,
        b"try" => modes.recovery = Recovery::from_number(last(words, Words::octet)?),
        b"since" => modes.since = last(words, Words::time)?,
        b"tried" => modes.tried = last(words, Words::time)?,
        b"last" => modes.last = last(words, Words::time)?,
        b"owed" => return spoil_owed(line, words),
        b"owing" => line.owed.spoil_count(last(words, Words::octet)?),
        part => return spoil_channel(line, part, words),
    }
    Some(())
}

fn spoil_owed(line: &mut Line, words: &mut Words) -> Option<()> {
    let index = words.up_to(owed::MOST as u64 - 1)?;
    let channel = words.up_to(3)?;
    let number = last(words, |words| words.up_to(MODULUS - 1))?;
    let ack = (channel as u8, number as u16);
    line.owed.spoil_entry(index as usize, ack);
    Some(())
}

fn spoil_channel(line: &mut Line, part: &[u8], words: &mut Words) -> Option<()> {
    let channel = words.channel()?;
    let number = words.full_number()?;
    let sides = line.sides_mut(channel);
    let (sending, receiving) = (&mut sides.sending, &mut sides.receiving);
    let held_can_be_said = (sending.base..sending.base + SPAN).contains(&number);
    let stored_can_be_said = (receiving.next..receiving.next + SPAN).contains(&number);
    match part {
        b"held" if held_can_be_said => {
            let message = last(words, |words| words.octets(SAYABLE))?;
            overwrite(&mut sending.held, channel, number, message);
        }
        b"stored" if stored_can_be_said => {
            let message = last(words, |words| words.octets(SAYABLE))?;
            overwrite(&mut receiving.stored, channel, number, message);
        }
        b"dropped" if held_can_be_said => {
            words.end()?;
            sending.held.remove(&number);
        }
        b"missing" if stored_can_be_said => {
            words.end()?;
            receiving.stored.remove(&number);
        }
        b"taken" => {
            words.end()?;
            sending.taken = number;
        }
        b"base" => {
            words.end()?;
            sending.base = number;
            sending.held.clear();
        }
        b"next" => {
            words.end()?;
            receiving.next = number;
            receiving.stored.clear();
        }
        _ => return None,
    }
    Some(())
}

/// Puts a message under its number, and in the stead of those that are whole windows away from it.
///
/// On channel 2 the script can say messages that are 8, 16 or 24 apart, and its page has the later one overwrite the
/// earlier, because one place of the store is both's. `send` and `out` show that once the later one is dropped. In a
/// book that BOOK accepts no two messages are that far apart, so no other call needs this.
fn overwrite(messages: &mut Messages, channel: Channel, number: u64, octets: Vec<u8>) {
    let place = number % channel.window();
    for (other, shared) in messages.iter_mut() {
        if other % channel.window() == place {
            shared.clone_from(&octets);
        }
    }
    messages.insert(number, octets);
}
