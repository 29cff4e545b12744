//! The nine rows of the paper's 'Table to prove'.

use crate::common::holds;

#[test]
fn row_1_first_message() {
    holds(
        "A open 0 5 98 0 1 0
         A ask 0 m 0 => ok m
         A take 0 1 41
         A send 0 1 0 => ok 05624000000041",
    );
}

#[test]
fn row_2_two_acknowledgements() {
    holds(
        "A open 0 5 98 0 1 0
         A ask 0 m 0 => ok m
         A spoil 0 taken 2 3
         A spoil 0 base 2 3
         A spoil 0 next 2 7
         A spoil 0 owed 0 1 16383
         A spoil 0 owed 1 2 0
         A spoil 0 owing 2
         A take 0 2 0102
         A send 0 2 0 => ok 0562800380077FFF80000102
         A empty 0 0 => ok 056200000000",
    );
}

#[test]
fn row_3_connect() {
    holds(
        "connect write 4 3 1 1 33600 31200 0 0 0 1 0 0 1024 0 32 0 0 0 => ok 1311834079E01000040000002000
         connect read 1311834079E01000040000002000 => ok 4 3 1 1 33600 31200 0 0 0 1 0 0 1024 0 32 0 0 0",
    );
}

#[test]
fn row_4_string_of_5() {
    holds(
        "connect read 1311834079E01000040000000500 => no 13 RANGE
         connect write 4 3 1 1 33600 31200 0 0 0 1 0 0 1024 0 5 0 0 0 => no 13 RANGE
         connect read 1311834079E01000040000000600 => ok 4 3 1 1 33600 31200 0 0 0 1 0 0 1024 0 6 0 0 0",
    );
}

#[test]
fn row_5_slip() {
    holds(
        "A open 0 5 98 0 1 0
         A spoil 0 next 1 300
         A spoil 0 next 2 2
         A close 0 => ok 10B880004B00000080000000
         slip read 10B880004B00000080000000 => ok 5 98 300 2 0",
    );
}

/// That 27 is stored and 28 is not is seen by handing out all that lies before them. Both are owed.
#[test]
fn row_6_window_over_the_wrap() {
    let mut script = String::from(
        "A open 0 5 98 0 1 0
         A ask 0 m 0 => ok m
         A spoil 0 next 1 16380
         A arrive 0562401B000077
         A arrive 0562401C000088
         A empty 0 0 => ok 056200008000401B401C\n",
    );
    for number in (16_380..16_384).chain(0..27) {
        let word = format!("{:04X}", 0x4000 + number);
        script.extend(["A arrive 0562", &word, "000041\nA out 0 1 => ok 41\n"]);
    }
    script += "A out 0 1 => ok 77\nA out 0 1 => no 10 NOTHING\n";
    holds(&script);
}

#[test]
fn row_7_full_window() {
    let takes = "A take 0 1 41\n".repeat(32);
    holds(&format!(
        "A open 0 5 98 0 1 0
         A ask 0 m 0 => ok m
         {takes}
         A take 0 1 41 => no 8 FULL
         A arrive 056240000001
         A held 0 1 => ok 31
         A take 0 1 41
         A take 0 1 41 => no 8 FULL",
    ));
}

#[test]
fn row_8_difference_of_a_second() {
    holds(
        "A open 0 5 98 1 0 0
         A ask 0 v 5 => ok v
         A tick 0 1005 => ok quiet
         A tick 0 1006 => ok audio 1",
    );
}

#[test]
fn row_9_sixteen_rest() {
    let mut script =
        String::from("A open 0 9 96 0 0 0\nA close 0 => ok 113800000000000000000000\n");
    let close = |identifier: u8, script: &mut String| {
        let slip = 0x1000 + (u16::from(identifier) << 5) + (96 >> 2);
        let opened = format!("A open 0 {identifier} 96 0 0 0\n");
        let closed = format!("A close 0 => ok {slip:04X}00000000000000000000\n");
        script.extend([opened, closed]);
    };
    for identifier in 20..35 {
        close(identifier, &mut script);
    }
    script += "A open 1 9 96 0 0 0 => no 12 TAKEN\n";
    close(35, &mut script);
    script += "A open 1 9 96 0 0 0\n";
    script += "A open 2 20 96 0 0 0 => no 12 TAKEN\n";
    holds(&script);
}
