//! CONNECT, BREAK and slip: every length, every compression, boundary values, and random ones.

use super::pen::Pen;
use crate::slip::Slip;
use crate::words::hex;

pub fn episode(pen: &mut Pen) {
    while pen.more() {
        match pen.random.below(60) {
            0..=23 => write_connect(pen),
            24..=43 => read_connect(pen),
            44..=51 => breaks(pen),
            52..=58 => slips(pen),
            _ => every_length(pen),
        }
    }
}

/// Values about both ends of a size's span in either compression.
const DICTIONARIES: [u64; 8] = [0, 1, 255, 256, 511, 512, 1_024, 65_535];
const STRINGS: [u64; 9] = [0, 5, 6, 31, 32, 250, 251, 254, 255];

/// The six sizes: right for the compression, save that some of them are not.
fn sizes(pen: &mut Pen, compression: u64) -> [u64; 6] {
    let mut sizes = match compression {
        1 => [
            pen.random.pick(&[512, 65_535]),
            0,
            pen.random.pick(&[6, 250]),
            0,
            0,
            0,
        ],
        2 => [
            pen.random.pick(&[256, 65_535]),
            pen.random.pick(&[256, 65_535]),
            pen.random.pick(&[32, 255]),
            pen.random.pick(&[32, 255]),
            pen.random.pick(&[512, 65_535]),
            pen.random.pick(&[512, 65_535]),
        ],
        _ => [0; 6],
    };
    if pen.random.chance(40) {
        let index = pen.random.below(6) as usize;
        sizes[index] = match index {
            2 | 3 => pen.random.pick(&STRINGS),
            _ => pen.random.pick(&DICTIONARIES),
        };
    }
    sizes
}

/// The first twelve values, as numbers that can be said, not all of which may be written.
fn settings(pen: &mut Pen, compression: u64) -> Vec<u64> {
    let random = &mut pen.random;
    let mut values = vec![
        random.pick(&[0, 4, 17, 29, 30, 30, 0, 4, 31, 63, 64, 255]),
        random.pick(&[0, 1, 2, 3, 3, 3, 3, 4, 255]),
        compression,
        random.pick(&[0, 1, 2, 2, 1, 0, 3, 15, 16, 255]),
        random.pick(&[0, 33_600, 65_535]),
        random.pick(&[0, 31_200, 65_535]),
    ];
    values.extend((0..6).map(|_| random.below(2)));
    values
}

fn write_connect(pen: &mut Pen) {
    let compression = pen.random.pick(&[0, 1, 1, 2, 2, 3, 4, 15, 16, 255]);
    let mut values = settings(pen, compression);
    values.extend(sizes(pen, compression));
    let values: Vec<String> = values.iter().map(u64::to_string).collect();
    let room = pen.random.pick(&[
        "", "", "", " 0", " 7", " 8", " 13", " 14", " 17", " 18", " 600",
    ]);
    let line = format!("connect write {}{room}", values.join(" "));
    if let Some(body) = pen.octets_of(line) {
        pen.say(format!("connect read {body}"));
    }
}

/// A body with a compression of one's choice, of the length that it asks for or of another.
fn read_connect(pen: &mut Pen) {
    let compression = pen.random.pick(&[0, 1, 1, 2, 2, 3, 4, 15]);
    let right = match compression {
        1 => 14,
        2 => 18,
        _ => 8,
    };
    let mut body = pen.random.octets(8);
    body[1] = (compression as u8) << 4 | pen.random.below(16) as u8;
    for (index, size) in sizes(pen, compression).into_iter().enumerate() {
        match index {
            2 | 3 => body.push(size as u8),
            _ => body.extend((size as u16).to_be_bytes()),
        }
    }
    let length = match pen.random.chance(80) {
        true => right,
        false => pen.random.below(19) as usize,
    };
    body.truncate(length);
    pen.say(format!("connect read {}", hex(&body)));
}

fn breaks(pen: &mut Pen) {
    let source = pen.random.pick(&[0, 1, 2, 3, 15, 16, 255]);
    let kind = pen.random.pick(&[0, 1, 2, 3, 4, 15, 16, 255]);
    let length = pen.random.pick(&[0, 1, 254, 255]);
    let room = pen.random.pick(&["", "", " 0", " 1", " 2", " 3"]);
    pen.say(format!("break write {source} {kind} {length}{room}"));
    let count = pen.random.pick(&[0, 1, 2, 2, 2, 2, 3, 600]);
    let body = hex(&pen.random.octets(count));
    pen.say(format!("break read {body}"));
    pen.say(format!(
        "break read {:X}{:X}{length:02X}",
        source % 16,
        kind % 16
    ));
}

/// A slip with values at the ends of their spans, sometimes with a bit turned over or of another length.
fn slips(pen: &mut Pen) {
    let random = &mut pen.random;
    let mut slip = Slip {
        identifier: random.pick(&[0, 5, 127]),
        payload_type: random.pick(&[96, 98, 127, 96, 98, 127, 0, 95]),
        count_one: random.pick(&[0, 300, 16_777_215]),
        count_two: random.pick(&[0, 2, 16_777_215]),
        reason: random.pick(&[0, 1, 0, 1, 0, 1, 2, 255]),
    }
    .write();
    if random.chance(30) {
        let index = random.below(slip.len() as u64) as usize;
        slip[index] ^= 1 << random.below(8);
    }
    match random.below(10) {
        0 => slip.truncate(random.below(12) as usize),
        1 => slip.push(0),
        _ => {}
    }
    pen.say(format!("slip read {}", hex(&slip)));
}

/// Random bodies of every length from 0 to 20.
fn every_length(pen: &mut Pen) {
    let reader = pen.random.pick(&["connect", "break", "slip"]);
    for length in 0..=20 {
        let body = hex(&pen.random.octets(length));
        pen.say(format!("{reader} read {body}"));
    }
}
