//! No script, however senseless, stops the desk; and how a script is cut into parts makes no difference.

use crate::common::{answered_lines, answers};
use second::desk::Desk;

/// Octets without sense, the same every time.
fn octets(seed: u64, count: usize) -> Vec<u8> {
    let mut state = seed.wrapping_mul(2) + 1;
    let mut next = || {
        state = state
            .wrapping_mul(6_364_136_223_846_793_005)
            .wrapping_add(1_442_695_040_888_963_407);
        (state >> 33) as u8
    };
    (0..count).map(|_| next()).collect()
}

#[test]
fn any_octets_are_answered() {
    for seed in 0..40 {
        let script = octets(seed, 5_000);
        let wanted: Vec<String> = answered_lines(&script)
            .iter()
            .map(|(number, _)| format!("? {number}"))
            .collect();
        assert_eq!(answers(&script), wanted);
    }
}

/// Words of the script in any order: each line with a word has one answer, in its turn, and of a line that is no call that says so.
#[test]
fn any_words_are_answered() {
    let words = [
        "A",
        "B",
        "open",
        "close",
        "spoil",
        "held",
        "take",
        "send",
        "empty",
        "out",
        "arrive",
        "tick",
        "hear",
        "ask",
        "0",
        "1",
        "2",
        "3",
        "5",
        "96",
        "255",
        "16777215",
        "4294967295",
        "18446744073709551615",
        "-",
        "41",
        "m",
        "a",
        "taken",
        "base",
        "next",
        "owed",
        "owing",
        "since",
        "last",
        "tried",
        "try",
        "local",
        "remote",
        "opened",
        "\n",
        "\n",
        "\n",
        "\n",
        "\n",
        "\r\n",
        "\0",
        "connect",
        "read",
        "write",
    ];
    let mut calls = 0;
    for seed in 0..40 {
        let script: Vec<&str> = octets(seed, 8_000)
            .iter()
            .map(|&octet| words[usize::from(octet) % words.len()])
            .collect();
        let script = script.join(" ");
        let lines = answered_lines(script.as_bytes());
        let given = answers(script.as_bytes());
        assert_eq!(given.len(), lines.len());
        for ((number, line), answer) in lines.iter().zip(&given) {
            assert!(fits(*number, line, answer), "{line:?}: {answer}");
        }
        calls += given
            .iter()
            .filter(|answer| !answer.starts_with('?'))
            .count();
    }
    assert!(calls > 0, "no line was a call");
}

/// Whether an answer may be that line's: `? N` with its own number, and where it begins with no call's word nothing else.
fn fits(number: u64, line: &[u8], answer: &str) -> bool {
    let text = String::from_utf8_lossy(line);
    let first = text.split([' ', '\t']).find(|word| !word.is_empty());
    let may_be_call = matches!(first, Some("A" | "B" | "connect" | "break" | "slip"));
    let accepted = answer == "ok" || answer.starts_with("ok ");
    answer == format!("? {number}") || may_be_call && (accepted || answer.starts_with("no "))
}

#[test]
fn parts_make_no_difference() {
    let script = "A fresh\r\n# c\r\n\rA held 0 1\nA fresh\r\r\nA lend 5";
    let whole = answers(script.as_bytes()).join("\n");
    for length in 1..script.len() {
        let mut desk = Desk::default();
        let mut given = String::new();
        for part in script.as_bytes().chunks(length) {
            given += &desk.read(part);
        }
        given += &desk.end();
        assert_eq!(given.trim_end(), whole);
    }
}
