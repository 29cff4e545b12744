//! Boundary values: each span's last accepted value and the first refused one.

use super::calls::look;
use super::craft::Craft;
use super::pairs::{open_pairs, start_at, Pair};
use super::pen::{End, Pen};
use crate::channel::{carried, Channel, CAP, MODULUS};
use crate::words::hex;

pub fn episode(pen: &mut Pen) {
    while pen.more() {
        match pen.random.below(11) {
            0 => sizes(pen),
            1 => fill_window(pen),
            2 => settings(pen),
            3 => times(pen),
            4 => many_owed(pen),
            5 => receiving_edges(pen),
            6 => sending_edges(pen),
            7 => spent(pen),
            8 => store(pen),
            9 => closing(pen),
            _ => lines_and_channels(pen),
        }
    }
}

/// A pair in relay, one of its ends, and a channel.
struct Scene {
    pair: Pair,
    end: End,
    channel: Channel,
}

impl Scene {
    fn set(pen: &mut Pen) -> Scene {
        Scene {
            pair: open_pairs(pen, 1).remove(0),
            end: pen.pick_end(),
            channel: pen.pick_channel(),
        }
    }

    fn line(&self) -> u8 {
        self.pair.line(self.end)
    }

    /// A call at this end, up to its channel.
    fn call(&self, name: &str) -> String {
        format!(
            "{} {name} {} {}",
            self.end,
            self.line(),
            self.channel.number()
        )
    }

    /// The same at the far end.
    fn far_call(&self, name: &str) -> String {
        let far = self.end.other();
        format!(
            "{far} {name} {} {}",
            self.pair.line(far),
            self.channel.number()
        )
    }

    /// A packet for this end, with one octet and no acknowledgements, changed as is wanted.
    fn arrive(&self, pen: &mut Pen, change: impl FnOnce(&mut Craft)) {
        let mut craft = Craft::near_on(pen, self.end, self.line(), self.channel);
        craft.acks.clear();
        craft.claimed = 0;
        craft.payload = vec![0x41];
        change(&mut craft);
        pen.say(format!("{} arrive {}", self.end, hex(&craft.octets())));
    }
}

/// Messages of every boundary size, each written and handed out with one octet of room too few, then with enough.
fn sizes(pen: &mut Pen) {
    let scene = Scene::set(pen);
    for size in [0, 1, 2, 131, 132, 133, 255, 256, 600] {
        let message = hex(&pen.random.octets(size));
        let answer = pen.say(format!("{} {message}", scene.call("take")));
        if answer == "ok" {
            carry_tightly(pen, &scene, size);
        }
    }
}

fn carry_tightly(pen: &mut Pen, scene: &Scene, size: u64) {
    let owed = pen.line(scene.end, scene.line()).owed.first().len() as u64;
    let held = &pen
        .sides(scene.end, scene.line(), scene.channel)
        .sending
        .held;
    let newest = held.len() - 1;
    let needed = 6 + 2 * owed + size;
    let send = scene.call("send");
    pen.say(format!("{send} {newest} {}", needed - 1));
    pen.say(format!("{send} {} {needed}", newest + 1));
    if let Some(packet) = pen.octets_of(format!("{send} {newest} {needed}")) {
        pen.say(format!("{} arrive {packet}", scene.end.other()));
    }
    let out = scene.far_call("out");
    pen.say(format!("{out} {}", size - 1));
    pen.say(format!("{out} {size}"));
    pen.say(out);
}

/// FULL, and one more taken after each base that is heard.
fn fill_window(pen: &mut Pen) {
    let scene = Scene::set(pen);
    let start = pen.random.pick(&[0, MODULUS - 4, CAP - 40]);
    start_at(pen, &scene.pair, scene.end, scene.channel, start);
    take_often(pen, &scene, "41", scene.channel.window() + 1);
    for moved in [0, 1, 1, 3, 40] {
        hear_base(pen, &scene, moved);
        take_often(pen, &scene, "42", moved.min(4) + 1);
        pen.say(scene.call("held"));
    }
    send_edges(pen, &scene);
}

fn take_often(pen: &mut Pen, scene: &Scene, message: &str, times: u64) {
    for _ in 0..times {
        pen.say(format!("{} {message}", scene.call("take")));
    }
}

/// An empty packet whose base lies so far ahead of the last one heard.
fn hear_base(pen: &mut Pen, scene: &Scene, moved: u64) {
    let base = pen
        .sides(scene.end, scene.line(), scene.channel)
        .sending
        .base;
    scene.arrive(pen, |craft| {
        craft.base = carried(base + moved);
        craft.payload.clear();
    });
}

/// The first and the last rank that is held, and the first and the last that is not.
fn send_edges(pen: &mut Pen, scene: &Scene) {
    let held = pen
        .sides(scene.end, scene.line(), scene.channel)
        .sending
        .held
        .len();
    for rank in [0, held.saturating_sub(1), held, 255] {
        pen.say(format!("{} {rank}", scene.call("send")));
    }
}

fn settings(pen: &mut Pen) {
    let end = pen.pick_end();
    pen.say(format!("{end} fresh"));
    for (identifier, payload_type) in [
        (128, 96),
        (255, 96),
        (127, 95),
        (127, 128),
        (127, 0),
        (127, 255),
        (127, 96),
        (0, 127),
        (126, 96),
        (1, 127),
    ] {
        let line = pen.random.below(5);
        let time = pen.random.pick(&[0, 1, u64::MAX]);
        pen.say(format!(
            "{end} open {line} {identifier} {payload_type} 1 1 {time}"
        ));
        pen.say(format!("{end} tick {line} {time}"));
    }
}

/// Times equal to the last, one less, and the last time there is.
fn times(pen: &mut Pen) {
    let end = pen.pick_end();
    let last = pen
        .random
        .pick(&[0, 1, 5_000, u64::MAX - 2_000, u64::MAX - 1, u64::MAX]);
    pen.say(format!("{end} fresh"));
    pen.say(format!("{end} open 0 1 96 1 1 {last}"));
    let mut time = last;
    for _ in 0..12 {
        let call = pen.random.pick(&[
            "tick 0", "ask 0 v", "ask 0 m", "ask 0 a", "hear 0 v", "hear 0 a",
        ]);
        pen.say(format!("{end} {call} {}", time.saturating_sub(1)));
        pen.say(format!("{end} {call} {time}"));
        time = time.saturating_add(pen.random.pick(&[0, 1, 1_000, 1_001]));
    }
}

/// More numbers than the list of owed ones holds, repeats among them, then packets that carry them away.
fn many_owed(pen: &mut Pen) {
    let scene = Scene::set(pen);
    let first = pen.random.number();
    for step in 0..pen.random.between(60, 70) {
        scene.arrive(pen, |craft| {
            craft.number = carried(u64::from(first) + step * 7);
            craft.channel = 1 + (step % 3 == 0) as u8;
        });
        if pen.random.chance(20) {
            scene.arrive(pen, |craft| craft.number = first);
        }
    }
    for _ in 0..27 {
        let room = pen.random.pick(&["", "", "", "", " 12", " 11", " 6"]);
        let channel = pen.random.below(3);
        pen.say(format!(
            "{} empty {} {channel}{room}",
            scene.end,
            scene.line()
        ));
    }
}

/// Payload numbers at the edges of the window; where a place is filled, the first message stays.
fn receiving_edges(pen: &mut Pen) {
    let scene = Scene::set(pen);
    let window = scene.channel.window();
    let next = pen
        .random
        .pick(&[0, 1, MODULUS - 4, MODULUS * 7 - 1, 40_000, CAP - 3, CAP]);
    start_at(pen, &scene.pair, scene.end.other(), scene.channel, next);
    let (last, half) = (MODULUS - 1, MODULUS / 2);
    for distance in [window - 1, window, window + 1, last, half, 1, 1, 0, 0, 2] {
        let octet = pen.random.octet();
        scene.arrive(pen, |craft| {
            craft.number = carried(next + distance);
            craft.payload = vec![octet];
        });
    }
    for _ in 0..5 {
        pen.say(scene.call("out"));
    }
    look(pen, scene.end, scene.line());
}

/// Bases and acknowledgements at the edges of h to S.
fn sending_edges(pen: &mut Pen) {
    let scene = Scene::set(pen);
    let base = pen
        .random
        .pick(&[0, 1, MODULUS - 3, 9 * MODULUS, 70_000, CAP - 6]);
    start_at(pen, &scene.pair, scene.end, scene.channel, base);
    for octet in 1..=6 {
        pen.say(format!("{} {octet:02X}", scene.call("take")));
    }
    for (moved, acknowledged) in [
        (MODULUS - 1, MODULUS - 1),
        (0, 6),
        (0, 5),
        (7, 2),
        (2, 1),
        (1, 2),
        (2, MODULUS / 2),
        (6, 5),
        (7, 0),
    ] {
        scene.arrive(pen, |craft| {
            craft.base = carried(base + moved);
            craft.acks = vec![(craft.channel, carried(base + acknowledged)); 2];
            craft.claimed = 2;
        });
        pen.say(scene.call("held"));
        pen.say(format!("{} 0", scene.call("send")));
    }
}

/// The last message that is taken, and the last that is handed out.
fn spent(pen: &mut Pen) {
    let scene = Scene::set(pen);
    let number = CAP - pen.random.below(3);
    start_at(pen, &scene.pair, scene.end, scene.channel, number);
    for _ in 0..4 {
        pen.say(format!("{} 41", scene.call("take")));
        for rank in 0..2 {
            if let Some(packet) = pen.octets_of(format!("{} {rank}", scene.call("send"))) {
                pen.say(format!("{} arrive {packet}", scene.end.other()));
            }
        }
        pen.say(scene.far_call("out"));
    }
    let far = scene.end.other();
    pen.say(format!("{far} close {}", scene.pair.line(far)));
}

/// One octet of store too few, for every call in turn.
fn store(pen: &mut Pen) {
    let scene = Scene::set(pen);
    let (end, line) = (scene.end, scene.line());
    for count in [42_239, 42_240, 0, 1] {
        pen.say(format!("{end} lend {count}"));
        pen.say(format!("{} 4142", scene.call("take")));
        pen.say(format!("{} 0", scene.call("send")));
        scene.arrive(pen, |_| {});
        pen.say(scene.call("out"));
        pen.say(scene.call("held"));
        pen.say(scene.call("empty"));
        pen.say(format!("{end} tick {line} 20"));
    }
    pen.say(format!("{end} open {line} 1 96 0 0 0"));
    pen.say(format!("{end} close {line}"));
}

fn closing(pen: &mut Pen) {
    let scene = Scene::set(pen);
    let (end, line) = (scene.end, scene.line());
    scene.arrive(pen, |craft| craft.number = 0);
    pen.say(scene.call("out"));
    for room in [0, 11, 12, 12] {
        pen.say(format!("{end} close {line} {room}"));
    }
    let (identifier, payload_type) = (scene.pair.identifier, scene.pair.payload_type);
    pen.say(format!(
        "{end} open {line} {identifier} {payload_type} 1 1 0"
    ));
}

/// Line numbers 3, 4 and 255, and every channel there is and is not.
fn lines_and_channels(pen: &mut Pen) {
    let scene = Scene::set(pen);
    let end = scene.end;
    for line in [scene.line(), 3, 4, 255] {
        for channel in [0, 1, 2, 3, 4, 255] {
            pen.say(format!("{end} take {line} {channel} 41"));
            let call = pen.random.pick(&["held", "empty", "out"]);
            pen.say(format!("{end} {call} {line} {channel}"));
            pen.say(format!("{end} send {line} {channel} 0"));
        }
        pen.say(format!("{end} tick {line} 10"));
        pen.say(format!("{end} close {line} 11"));
    }
}
