//! Honest traffic: messages both ways on both channels of several lines, over a link that loses, repeats and reorders.
//!
//! Some streams start just below a wrap of the 14-bit numbers, or just below the cap, so that short scripts pass them.

use super::pairs::{free_identifier, open_pair, open_pairs, start_at, Pair};
use super::pen::{End, Pen, CHANNELS, ENDS};
use crate::channel::{Channel, CAP, MODULUS};
use crate::words::hex;

/// Packets that may still come again long after they first came.
const REMEMBERED: usize = 40;

/// Packets under way, and how bad the way is.
pub struct Link {
    under_way: Vec<(End, String)>,
    past: Vec<(End, String)>,
    loss: u64,
    repeats: u64,
    /// How often a message that could be handed out is left waiting.
    slowness: u64,
}

impl Link {
    pub fn new(pen: &mut Pen) -> Self {
        Link {
            under_way: Vec::new(),
            past: Vec::new(),
            loss: pen.random.pick(&[0, 5, 20, 50]),
            repeats: pen.random.pick(&[0, 10, 40]),
            slowness: pen.random.pick(&[0, 0, 50, 90]),
        }
    }

    fn put(&mut self, to: End, packet: Option<String>) {
        if let Some(packet) = packet {
            self.under_way.push((to, packet));
        }
    }

    /// The next packet to arrive: mostly the oldest, sometimes one of the next few, now and then one long past.
    fn next(&mut self, pen: &mut Pen) -> Option<(End, String)> {
        if !self.past.is_empty() && pen.random.chance(4) {
            return Some(pen.random.pick(&self.past));
        }
        let reach = self.under_way.len().min(12) as u64;
        let index = match reach {
            0 => return None,
            _ if pen.random.chance(50) => 0,
            _ => pen.random.below(reach) as usize,
        };
        let (to, packet) = self.under_way.remove(index);
        if pen.random.chance(self.repeats) {
            self.under_way.push((to, packet.clone()));
        }
        self.remember(pen, to, packet.clone());
        Some((to, packet))
    }

    fn remember(&mut self, pen: &mut Pen, to: End, packet: String) {
        if self.past.len() < REMEMBERED {
            self.past.push((to, packet));
        } else if pen.random.chance(10) {
            let index = pen.random.below(REMEMBERED as u64) as usize;
            self.past[index] = (to, packet);
        }
    }
}

/// One end of one channel of one pair.
struct Spot {
    end: End,
    line: u8,
    channel: Channel,
}

impl Spot {
    fn pick(pen: &mut Pen, pairs: &[Pair]) -> Spot {
        let end = pen.pick_end();
        let index = pen.random.below(pairs.len() as u64) as usize;
        Spot {
            end,
            line: pairs[index].line(end),
            channel: pen.pick_channel(),
        }
    }

    /// A call at this spot, up to its channel.
    fn call(&self, name: &str) -> String {
        format!(
            "{} {name} {} {}",
            self.end,
            self.line,
            self.channel.number()
        )
    }

    fn held(&self, pen: &Pen) -> u64 {
        let sides = pen.sides(self.end, self.line, self.channel);
        sides.sending.held.len() as u64
    }

    fn has_room(&self, pen: &Pen) -> bool {
        let sending = &pen.sides(self.end, self.line, self.channel).sending;
        sending.taken < CAP && sending.taken - sending.base < self.channel.window()
    }

    fn has_waiting(&self, pen: &Pen) -> bool {
        let receiving = &pen.sides(self.end, self.line, self.channel).receiving;
        receiving.next < CAP && receiving.waiting().is_some()
    }
}

pub fn episode(pen: &mut Pen) {
    let count = pen.random.pick(&[1, 1, 2, 2, 3, 4]);
    let mut pairs = open_pairs(pen, count);
    start_somewhere(pen, &pairs);
    let mut link = Link::new(pen);
    while pen.more() {
        step(pen, &pairs, &mut link);
        if pen.random.chance(1) && pen.random.chance(25) {
            begin_again(pen, &mut pairs);
        }
    }
    close_all(pen, &pairs);
}

fn start_somewhere(pen: &mut Pen, pairs: &[Pair]) {
    for pair in pairs {
        for (end, channel) in ENDS.into_iter().flat_map(|end| CHANNELS.map(|c| (end, c))) {
            if pen.random.chance(50) {
                let number = starting_number(pen);
                start_at(pen, pair, end, channel, number);
            }
        }
    }
}

/// A full number just below a wrap or the cap, or anywhere.
fn starting_number(pen: &mut Pen) -> u64 {
    let short_of = pen.random.below(16);
    let wraps = pen.random.between(1, CAP / MODULUS);
    match pen.random.below(5) {
        0 => MODULUS - short_of,
        1 | 2 => wraps * MODULUS - short_of,
        3 => CAP - short_of,
        _ => pen.random.below(CAP),
    }
}

/// One call, and mostly one that is accepted: what could only be refused here is tried again elsewhere.
pub fn step(pen: &mut Pen, pairs: &[Pair], link: &mut Link) {
    for _ in 0..8 {
        let spot = Spot::pick(pen, pairs);
        let fruitless = pen.random.chance(3);
        let made = match pen.random.below(100) {
            0..=27 => (fruitless || spot.has_room(pen)) && take(pen, &spot),
            28..=52 => (fruitless || spot.held(pen) > 0) && send(pen, &spot, link),
            53..=76 => arrive(pen, link),
            77..=88 => hand_out(pen, &spot, link, fruitless),
            89..=95 => empty(pen, &spot, link),
            96..=97 => tick(pen, &spot),
            _ => report(pen, &spot),
        };
        if made {
            return;
        }
    }
}

fn take(pen: &mut Pen, spot: &Spot) -> bool {
    let size = match pen.random.below(20) {
        0 => 132,
        1..=3 => pen.random.between(7, 131),
        _ => pen.random.between(1, 6),
    };
    let message = hex(&pen.random.octets(size));
    pen.say(format!("{} {message}", spot.call("take")));
    true
}

fn send(pen: &mut Pen, spot: &Spot, link: &mut Link) -> bool {
    let held = spot.held(pen).max(1);
    let rank = pen.random.below(held);
    let packet = pen.octets_of(format!("{} {rank}", spot.call("send")));
    link.put(spot.end.other(), packet);
    true
}

fn arrive(pen: &mut Pen, link: &mut Link) -> bool {
    let (to, packet) = match link.next(pen) {
        Some(next) => next,
        None => return false,
    };
    if pen.random.chance(link.loss) {
        return false;
    }
    pen.say(format!("{to} arrive {packet}"));
    true
}

fn hand_out(pen: &mut Pen, spot: &Spot, link: &Link, fruitless: bool) -> bool {
    let wanted = spot.has_waiting(pen) && !pen.random.chance(link.slowness);
    if wanted || fruitless {
        pen.say(spot.call("out"));
    }
    wanted || fruitless
}

fn empty(pen: &mut Pen, spot: &Spot, link: &mut Link) -> bool {
    let call = match pen.random.below(3) {
        0 => format!("{} empty {} 0", spot.end, spot.line),
        _ => spot.call("empty"),
    };
    let packet = pen.octets_of(call);
    link.put(spot.end.other(), packet);
    true
}

/// Time passes, which matters to no line whose modes agree.
fn tick(pen: &mut Pen, spot: &Spot) -> bool {
    let last = pen.line(spot.end, spot.line).modes.last;
    let time = last + pen.random.below(3_000);
    pen.say(format!("{} tick {} {time}", spot.end, spot.line));
    true
}

fn report(pen: &mut Pen, spot: &Spot) -> bool {
    pen.say(spot.call("held"));
    true
}

/// One pair closes and opens again under another identifier, while its old packets are still under way.
fn begin_again(pen: &mut Pen, pairs: &mut [Pair]) {
    let index = pen.random.below(pairs.len() as u64) as usize;
    let pair = &mut pairs[index];
    close_pair(pen, pair);
    pair.identifier = free_identifier(pen, &ENDS);
    open_pair(pen, pair);
}

fn close_all(pen: &mut Pen, pairs: &[Pair]) {
    for pair in pairs {
        close_pair(pen, pair);
    }
}

fn close_pair(pen: &mut Pen, pair: &Pair) {
    for end in ENDS {
        let slip = pen.octets_of(format!("{end} close {}", pair.line(end)));
        if let Some(slip) = slip {
            pen.say(format!("slip read {slip}"));
        }
    }
}
