//! Runs a script at a desk.

use second::desk::Desk;

/// The answers to a script, one for each line that has one.
pub fn answers(script: &[u8]) -> Vec<String> {
    let mut desk = Desk::default();
    let mut answers = desk.read(script);
    answers += &desk.end();
    answers.lines().map(String::from).collect()
}

/// The lines that have an answer, with their numbers from 1: all but the blank ones and the comments. They are found otherwise
/// than the desk does, from the whole script.
pub fn answered_lines(script: &[u8]) -> Vec<(u64, &[u8])> {
    let count = script.split(|&octet| octet == b'\n').count();
    let mut lines = Vec::new();
    for (index, line) in script.split(|&octet| octet == b'\n').enumerate() {
        let ended = index + 1 < count;
        let line = match line {
            [line @ .., b'\r'] if ended => line,
            _ => line,
        };
        let first = line.iter().find(|&&octet| octet != b' ' && octet != b'\t');
        if matches!(first, Some(&octet) if octet != b'#') {
            lines.push((index as u64 + 1, line));
        }
    }
    lines
}

/// Each line is a call, and after `=>` its answer.
pub fn holds(script: &str) {
    let mut calls = String::new();
    let mut wanted = Vec::new();
    for line in script.lines().filter(|line| !line.trim().is_empty()) {
        let (call, answer) = line.split_once("=>").unwrap_or((line, "ok"));
        calls += call.trim();
        calls += "\n";
        wanted.push(answer.trim().to_string());
    }
    let given = answers(calls.as_bytes());
    for ((call, wanted), given) in calls.lines().zip(&wanted).zip(&given) {
        assert_eq!(given, wanted, "{call}");
    }
    assert_eq!(given.len(), wanted.len());
}
