//! The script's example, every refusal by its number, the rules for lines, and spoiling.

use crate::common::{answers, holds};

#[test]
fn example() {
    holds(
        "A open 0 5 98 1 1 0          => ok
         B open 2 5 98 1 1 0          => ok
         A ask 0 m 10                 => ok m
         B hear 2 m 12                => ok m notice
         A take 0 1 41                => ok
         A send 0 1 0                 => ok 05624000000041
         B arrive 05624000000041      => ok
         B out 2 1                    => ok 41
         B empty 2 0                  => ok 0562000040004000
         A arrive 0562000040004000    => ok
         A held 0 1                   => ok 0
         A close 0                    => ok 10B880000000000000000000",
    );
}

#[test]
fn every_refusal() {
    holds(
        "A open 0 5 98 0 1 100
         A open 1 6 98 1 1 100
         A take 0 1 41 => no 5 MODE
         A ask 0 m 100 => ok m
         A arrive 0562000000 => no 1 SHORT
         A arrive 056200004000 => no 1 SHORT
         A arrive 856200000000 => no 2 FORM
         A arrive 05E200000000 => no 2 FORM
         A arrive 056300000000 => no 3 TYPE
         A arrive 076200000000 => no 4 NOLINE
         A held 2 1 => no 4 NOLINE
         A arrive 066200000000 => no 5 MODE
         A arrive 0562C0000000 => no 6 CHANNEL
         A arrive 056200004000C000 => no 6 CHANNEL
         A empty 0 3 => no 6 CHANNEL
         A arrive 05620000000041 => no 7 SIZE
         A take 0 1 - => no 7 SIZE
         A spoil 0 taken 2 8
         A take 0 2 41 => no 8 FULL
         A spoil 0 taken 1 16777215
         A spoil 0 base 1 16777215
         A take 0 1 41 => no 9 SPENT
         A send 0 2 0 => no 10 NOTHING
         A empty 0 0 5 => no 11 ROOM
         A lend 42239
         A take 9 1 41 => no 11 ROOM
         A open 0 7 98 0 0 0 => no 12 TAKEN
         A open 2 128 98 0 0 0 => no 13 RANGE
         A open 2 5 98 0 0 0 => no 12 TAKEN
         A ask 0 v 100 => no 13 RANGE
         A ask 4 v 100 => no 13 RANGE
         A tick 0 99 => no 14 CLOCK
         A hear 1 v 100 => ok v notice
         A ask 1 a 100 => ok a
         A tick 1 1101 => ok audio 1
         A ask 1 a 1101 => no 15 RECOVERY
         A ask 0 a 1101 => ok a
         A ask 0 m 1101 => no 5 MODE
         connect read 00 => no 16 LENGTH
         connect read 0040000000000000 => no 17 RESERVED
         A spoil 0 type 95
         A held 9 1 => no 18 BOOK",
    );
}

#[test]
fn recovery_to_the_end() {
    holds(
        "A open 3 7 100 1 1 0
         A hear 3 m 10 => ok m notice
         A take 3 1 41
         A ask 3 v 20 => ok v
         A tick 3 1020 => ok quiet
         A tick 3 1021 => ok audio 1
         A tick 3 2020 => ok quiet
         A tick 3 2021 => ok audio 2
         A hear 3 v 2021 => ok a notice
         A tick 3 9000 => ok audio 3
         A tick 3 10000 => ok audio 4
         A tick 3 11000 => ok audio 5
         A tick 3 12000 => ok ended
         A tick 3 11999 => no 14 CLOCK
         A tick 3 12000 => ok ended
         A hear 3 a 12000 => no 15 RECOVERY
         A close 3 => ok 10F900000000000000400000",
    );
}

#[test]
fn hearing_audio_ends_recovery() {
    holds(
        "A open 0 7 100 1 1 0
         A ask 0 v 0 => ok v
         A tick 0 1001 => ok audio 1
         A hear 0 a 1500 => ok a notice
         A hear 0 a 1500 => ok a quiet
         A tick 0 99999 => ok quiet
         A ask 0 v 99999 => ok v",
    );
}

#[test]
fn lines_that_are_no_calls() {
    for line in [
        "A",
        "C fresh",
        "a fresh",
        "A Fresh",
        "A fresh now",
        "A lend 42241",
        "A lend -1",
        "A held 256 1",
        "A held 0",
        "A take 0 1",
        "A take 0 1 414",
        "A take 0 1 4G",
        "A close 0 601",
        "A open 0 5 98 2 1 0",
        "A hear 0 x 0",
        "A hear 0 aa 0",
        "A tick 0 18446744073709551616",
        "A spoil 4 id 1",
        "A spoil 0 id 256",
        "A spoil 0 held 1 32 41",
        "A spoil 0 owed 64 1 1",
        "A spoil 0 owed 0 4 1",
        "A spoil 0 owed 0 1 16384",
        "A spoil resting 16 1",
        "A spoil 0 taken 3 1",
        "A spoil 0 taken 1 4294967296",
        "connect",
        "break read",
        "slip write 00",
        "connect write 0 0 0 0 0 0 2 0 0 0 0 0 0 0 0 0 0 0",
        "A fresh\r",
        "\r",
    ] {
        assert_eq!(answers(line.as_bytes()), ["? 1"], "{line:?}");
    }
}

#[test]
fn lines_and_their_ends() {
    let script =
        b"\n# comment\r\n \t\r\n\tA\tfresh \r\nA fresh\r\r\nA fresh x\n  #\nA lend 000042240";
    assert_eq!(answers(script), ["ok", "? 5", "? 6", "ok"]);
    assert!(answers(b"").is_empty());
    assert!(answers(b"#").is_empty());
}

#[test]
fn line_length() {
    let padded = |length: usize, end: &str| format!("{:<length$}{end}", "A fresh");
    for (line, wanted) in [
        (padded(2_000, "\n"), "ok"),
        (padded(2_000, "\r\n"), "ok"),
        (padded(2_000, ""), "ok"),
        (padded(2_001, "\n"), "? 1"),
        (padded(2_001, "\r\n"), "? 1"),
        (padded(2_000, "\r"), "? 1"),
        (format!("{:>3000}\n", "A fresh"), "? 1"),
    ] {
        assert_eq!(answers(line.as_bytes()), [wanted]);
    }
    assert!(answers(format!("{:>3000}\n{:<3000}\n{:>3000}", "", "#", "#").as_bytes()).is_empty());
}

#[test]
fn octets_up_to_600() {
    let arrive = |count: usize| answers(format!("A arrive {}", "00".repeat(count)).as_bytes());
    assert_eq!(arrive(600), ["no 4 NOLINE"]);
    assert_eq!(arrive(601), ["? 1"]);
}

#[test]
fn messages_that_share_a_place() {
    holds(
        "A open 0 5 98 0 1 0
         A ask 0 m 0 => ok m
         A spoil 0 taken 2 8
         A spoil 0 held 2 0 41
         A spoil 0 held 2 8 424344
         A held 0 2 => no 18 BOOK
         A spoil 0 dropped 2 8
         A held 0 2 => ok 1
         A send 0 2 0 => ok 056280000000424344
         A spoil 0 stored 2 0 41
         A spoil 0 stored 2 24 4243
         A spoil 0 missing 2 24
         A out 0 2 => ok 4243
         A spoil 0 stored 1 0 41
         A spoil 0 stored 1 8 4243
         A out 0 1 => ok 41",
    );
}

#[test]
fn spoils_keep_what_is_past_the_count() {
    holds(
        "A open 0 5 98 0 1 0
         A ask 0 m 0 => ok m
         A spoil 0 owed 0 1 1
         A spoil 0 owed 1 1 2
         A spoil 0 owing 2
         A spoil 0 owing 1
         A spoil 0 owing 255
         A held 0 1 => no 18 BOOK
         A spoil 0 owing 2
         A empty 0 0 => ok 05620000800040014002
         A spoil rested 17
         A held 0 1 => no 18 BOOK
         A spoil rested 1
         A held 0 1 => ok 0
         A open 1 0 96 0 0 0 => no 12 TAKEN",
    );
}

#[test]
fn flags_are_0_or_1() {
    holds(
        "A open 0 5 98 1 1 0
         A spoil 0 vbd 2
         A held 0 1 => no 18 BOOK
         A spoil 0 vbd 0
         A held 0 1 => no 5 MODE
         A spoil 0 left 255
         A held 0 1 => no 18 BOOK
         A spoil 0 left 1
         A ask 0 m 0 => no 5 MODE
         A spoil 0 opened 2
         A held 0 1 => no 18 BOOK
         A spoil 0 opened 1
         A spoil 3 opened 2
         A held 0 1 => no 18 BOOK
         A spoil 3 opened 0
         A held 0 1 => no 5 MODE
         A spoil 3 opened 256 => ? 17",
    );
}

#[test]
fn closed_records_are_not_read() {
    holds(
        "A spoil 0 local 77
         A spoil 0 owing 200
         A spoil 0 try 9
         A held 0 1 => no 4 NOLINE
         A spoil 0 opened 1
         A held 0 1 => no 18 BOOK
         A spoil 0 opened 0
         A open 0 5 98 0 1 0
         A ask 0 m 0 => ok m
         A empty 0 1 => ok 056240000000",
    );
}
