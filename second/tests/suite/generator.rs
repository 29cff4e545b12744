//! Scripts from seeds: the same every time, of about the length asked for, and reaching what they are meant to reach.

use crate::common::answers;
use second::generate::{write_script, Kind};
use std::collections::BTreeSet;

const NAMES: [&str; 10] = [
    "honest", "garbage", "refusals", "bounds", "modes", "resting", "bodies", "spoil", "lines",
    "long",
];

fn script(seed: u64, calls: u64, kind: Option<&str>) -> Vec<u8> {
    let mut script = Vec::new();
    write_script(seed, calls, kind.and_then(Kind::named), &mut script).unwrap();
    script
}

#[test]
fn one_seed_one_script() {
    for name in NAMES {
        assert_eq!(
            script(7, 500, Some(name)),
            script(7, 500, Some(name)),
            "{name}"
        );
        assert_ne!(
            script(7, 500, Some(name)),
            script(8, 500, Some(name)),
            "{name}"
        );
    }
}

#[test]
fn as_long_as_asked_for() {
    for name in NAMES.into_iter().map(Some).chain([None]) {
        for calls in [100, 2_000] {
            let answered = answers(&script(3, calls, name)).len() as u64;
            assert!(
                (calls..calls + 100).contains(&answered),
                "{name:?}: {answered} of {calls}"
            );
        }
    }
}

#[test]
fn honest_calls_are_accepted() {
    for name in ["honest", "long"] {
        let answers = answers(&script(5, 4_000, Some(name)));
        let accepted = answers
            .iter()
            .filter(|answer| answer.starts_with("ok"))
            .count();
        assert!(
            accepted * 100 >= answers.len() * 90,
            "{name}: {accepted} of {}",
            answers.len()
        );
    }
}

/// Every refusal, every local mode and everything that a tick may answer come up in a script of all kinds.
#[test]
fn every_answer_is_reached() {
    let answers = answers(&script(11, 12_000, None));
    let refusals: BTreeSet<&String> = answers
        .iter()
        .filter(|answer| answer.starts_with("no "))
        .collect();
    assert_eq!(refusals.len(), 18, "{refusals:?}");
    for wanted in [
        "? ",
        "ok a",
        "ok v",
        "ok m",
        "ok m notice",
        "ok m quiet",
        "ok quiet",
        "ok audio 1",
        "ok audio 5",
        "ok ended",
    ] {
        let reached = answers.iter().any(|answer| answer.starts_with(wanted));
        assert!(reached, "{wanted}");
    }
}
