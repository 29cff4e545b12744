//! Lines that are no calls, or calls written oddly: every way of `? N`, long lines, carriage returns, tabs, comments.

use super::pen::Pen;

/// Calls that are right, each of which can be bent.
const RIGHT: [&str; 39] = [
    "A fresh",
    "A lend 42240",
    "A open 0 5 98 1 1 0",
    "A open 0 5 98 1 1 0",
    "A open 1 006 0127 0 1 18446744073709551615",
    "A close 3 12",
    "A close 3",
    "A hear 0 m 10",
    "A ask 0 m 10",
    "A hear 1 v 18446744073709551615",
    "A tick 0 10",
    "A take 0 1 41aF",
    "A take 0 1 -",
    "A send 0 1 0",
    "A send 0 1 255 600",
    "A empty 0 0 6",
    "A arrive 0562400000004142",
    "A out 0 1 132",
    "A held 0 2",
    "B spoil 0 opened 0",
    "B spoil 0 id 255",
    "B spoil 0 local 255",
    "B spoil 0 remote t",
    "B spoil 0 since 18446744073709551615",
    "B spoil 0 taken 1 4294967295",
    "B spoil 0 held 1 0 41",
    "B spoil 0 dropped 2 31",
    "B spoil 0 missing 1 0",
    "B spoil 0 owed 63 3 16383",
    "B spoil 0 owing 255",
    "B spoil rested 255",
    "B spoil resting 15 255",
    "connect read 0000000000000000",
    "connect write 0 0 0 0 65535 0 0 0 0 0 0 1 0 0 0 0 0 0",
    "connect write 4 3 1 1 33600 31200 0 0 0 1 0 0 1024 0 32 0 0 0 14",
    "break read 0000",
    "break write 0 0 255 2",
    "slip read 10B880004B00000080000000",
    "B fresh",
];

/// Words that most calls do not know, or not where they are put.
const WRONG: [&str; 24] = [
    "256",
    "65536",
    "4294967296",
    "18446744073709551616",
    "-1",
    "+1",
    "1.",
    "0x1",
    "a1",
    "1a",
    "x",
    "M",
    "aa",
    "C",
    "4",
    "600",
    "601",
    "42241",
    "-",
    "--",
    "414",
    "4G",
    "00000000000000000000000000000001",
    "spoil",
];

pub fn episode(pen: &mut Pen) {
    pen.say("A fresh");
    pen.say("B fresh");
    while pen.more() {
        match pen.random.below(12) {
            0 => passed_over(pen),
            1 => long(pen),
            2 => many_octets(pen),
            3 | 4 => parted_oddly(pen),
            5 => strange_octets(pen),
            6 => {
                let line = pen.random.pick(&RIGHT);
                pen.say(line);
            }
            _ => bent(pen),
        }
    }
}

fn words(line: &str) -> Vec<String> {
    line.split(' ').map(String::from).collect()
}

/// A right line with one word missing, added, replaced, doubled or changed in one letter.
fn bent(pen: &mut Pen) {
    let mut words = words(pen.random.pick(&RIGHT));
    let index = pen.random.below(words.len() as u64) as usize;
    match pen.random.below(7) {
        0 => {
            words.remove(index);
        }
        1 => words.insert(index, pen.random.pick(&WRONG).into()),
        2 => words.push(pen.random.pick(&WRONG).into()),
        3 => words.swap(index, 0),
        4 => words[index] = change_case(&words[index]),
        5 => words[index].push_str(pen.random.pick(&["0", "x", "-", ".", "00"])),
        _ => words[index] = pen.random.pick(&WRONG).into(),
    }
    pen.say(words.join(" "));
}

fn change_case(word: &str) -> String {
    match word.to_uppercase() == word {
        true => word.to_lowercase(),
        false => word.to_uppercase(),
    }
}

/// A right line with tabs and spaces about its words, and any line end.
fn parted_oddly(pen: &mut Pen) {
    let mut line = String::new();
    for word in words(pen.random.pick(&RIGHT)) {
        line += pen.random.pick(&["", "", " ", "\t"]);
        line += &word;
        line += pen.random.pick(&[" ", " ", "\t", "  ", " \t "]);
    }
    line += pen
        .random
        .pick(&["\n", "\n", "\r\n", "\r\n", " \r\n", "\r\r\n", "\r \n"]);
    pen.say_octets(line.as_bytes());
}

/// Blank lines and comments, some of them long.
fn passed_over(pen: &mut Pen) {
    let length = pen.random.pick(&[0, 1, 70, 1_999, 2_000, 2_001, 5_000]);
    let start = pen
        .random
        .pick(&["", "#", "# ", "\t#", "  #A fresh", "#\r"]);
    let filling = pen.random.pick(&[" ", "\t"]);
    let end = pen.random.pick(&["\n", "\r\n"]);
    let line = format!(
        "{}{start}{}{end}",
        filling.repeat(length),
        filling.repeat(length)
    );
    pen.say_octets(line.as_bytes());
}

/// Lines about 2,000 octets long: the limit does not count the line end.
fn long(pen: &mut Pen) {
    let length = pen.random.pick(&[1_998, 1_999, 2_000, 2_001, 2_002, 4_100]);
    let line = pen.random.pick(&RIGHT);
    let filling = " ".repeat(length - line.len());
    let end = pen.random.pick(&["\n", "\r\n"]);
    let line = match pen.random.below(3) {
        0 => format!("{filling}{line}{end}"),
        1 => format!("{line}{filling}{end}"),
        _ => line.replacen(' ', &format!("{filling} "), 1) + end,
    };
    pen.say_octets(line.as_bytes());
}

/// Words for octets of about 600, and numbers with many zeros in front.
fn many_octets(pen: &mut Pen) {
    let count = pen.random.pick(&[255, 256, 599, 600, 601, 900]);
    let octets = "4a".repeat(count);
    let zeros = "0".repeat(count);
    let line = match pen.random.below(6) {
        0 => format!("A arrive {octets}"),
        1 => format!("A take 0 1 {octets}"),
        2 => format!("A spoil 0 held 1 0 {octets}"),
        3 => format!("A tick {zeros}1 {zeros}18446744073709551615"),
        4 => format!("A close 0 {zeros}600"),
        _ => format!("slip read {octets}"),
    };
    pen.say(line);
}

/// A right line with one octet of any value put in, or octets of no sense at all.
fn strange_octets(pen: &mut Pen) {
    let mut line = match pen.random.chance(70) {
        true => pen.random.pick(&RIGHT).as_bytes().to_vec(),
        false => {
            let length = pen.random.between(1, 40);
            pen.random.octets(length)
        }
    };
    let index = pen.random.below(line.len() as u64 + 1) as usize;
    let strange = [0, 11, 12, 13, 27, 127, 128, 160, 194, 255];
    line.insert(index, pen.random.pick(&strange));
    line.retain(|&octet| octet != b'\n');
    line.push(b'\n');
    pen.say_octets(&line);
}

/// The script's last line, in one of the ways that it may end.
pub fn write_last(pen: &mut Pen) {
    let last = pen.random.pick(&[
        "A held 0 1\n",
        "A held 0 1",
        "A held 0 1 ",
        "A held 0 1\r",
        "A held 0 1\r\n",
        "# no more",
        "  ",
        "\r",
        "",
    ]);
    pen.say_octets(last.as_bytes());
}
