//! `ems room`: what keying takes at most, before the text is known.

mod common;

use common::{run, Ran};
use ems::TEXT_BYTES;

/// Every length that a text can have, as arguments.
fn lengths() -> Vec<String> {
    (1..=TEXT_BYTES).map(|length| length.to_string()).collect()
}

/// The table, with nothing said beside it.
fn table(args: &[&str]) -> String {
    let ran = run(&[&["room"], args].concat()).status(0);
    assert_eq!(ran.err, "");
    ran.text().to_string()
}

/// The three numbers of each row; the seconds in tenths.
fn rows(args: &[&str]) -> Vec<[u64; 3]> {
    let table = table(args);
    let number = |word: &str| word.replace([',', '.'], "").parse().expect("a number");
    let row = |line: &str| {
        let words: Vec<&str> = line.split_whitespace().collect();
        [words[0], words[1], words[2]].map(number)
    };
    table.lines().skip(1).map(row).collect()
}

/// The units that a text is keyed with.
fn keyed(text: &str) -> u64 {
    let units = run(&["key", "--units", text]).status(0);
    let digits = units.text().chars().filter(|c| "01".contains(*c));
    digits.count() as u64
}

#[test]
fn the_board_s_own_texts_are_named() {
    let wanted = "\
characters  units at most  seconds at 18 words a minute
        10            217                          14.5  the basic beacon
        16            349                          23.3  the complete beacon
        33            723                          48.2  the extended beacon, with the longest greeting
        64          1,405                          93.7  the longest text
";
    assert_eq!(table(&[]), wanted);
    assert_eq!(table(&["--wpm", "18"]), wanted);
}

#[test]
fn lengths_have_a_row_each_in_the_order_they_are_given() {
    let wanted = "\
characters  units at most  seconds at 12 words a minute
        20            437                          43.7
";
    assert_eq!(table(&["20", "--wpm", "12"]), wanted);
    let wanted = "\
characters  units at most  seconds at 1 word a minute
        20            437                       524.4
         3             63                        75.6
        64          1,405                     1,686.0
        20            437                       524.4
         1             19                        22.8
";
    for args in [
        ["20", "3", "64", "20", "1", "--wpm", "1"],
        ["--wpm", "1", "20", "3", "64", "20", "1"],
        ["20", "3", "--wpm=1", "--", "64", "20", "1"],
    ] {
        assert_eq!(table(&args), wanted);
    }
}

/// So many zeros need every unit of the room, and so do so many commas.
#[test]
fn the_room_of_every_length_is_what_zeros_need() {
    let lengths = lengths();
    let lengths: Vec<&str> = lengths.iter().map(String::as_str).collect();
    let rows = rows(&lengths);
    assert_eq!(rows.len(), TEXT_BYTES);
    for (length, [characters, units, _]) in (1..).zip(rows) {
        assert_eq!(characters, length as u64);
        for widest in ["0", ","] {
            assert_eq!(keyed(&widest.repeat(length)), units, "{length}");
        }
    }
}

/// Beacons and other texts, none of them zeros alone, leave some of the room free.
#[test]
fn texts_fit_into_the_room_of_their_length() {
    let all = run(&["beacon", "--all", "examples/school.pass"]).status(0);
    let said = all.text().lines().map(|line| &line[20..]);
    let others = ["E", "0 0", "CQ DE EMS/S, HW CPY? 73.", "73. 73, 73"];
    for text in said.chain(others) {
        let row = rows(&[&text.len().to_string()])[0];
        assert!(keyed(text) < row[1], "{text}");
    }
    assert_eq!((keyed("EMS R 7000"), rows(&["10"])[0][1]), (119, 217));
}

/// The seconds are the fewest tenths that are enough: a unit lasts 1,200 ms divided by
/// the words a minute.
#[test]
fn seconds_are_rounded_up_at_every_speed() {
    let lengths = lengths();
    for wpm in 1..=100 {
        let speed = wpm.to_string();
        let mut args = vec!["--wpm", &speed];
        args.extend(lengths.iter().map(String::as_str));
        for [_, units, tenths] in rows(&args) {
            let exact = 12 * units;
            assert!(tenths * wpm >= exact, "{units} at {wpm}");
            assert!((tenths - 1) * wpm < exact, "{units} at {wpm}");
        }
    }
}

/// Wrong usage: a message, and no table.
fn wrong(args: &[&str]) -> Ran {
    let ran = run(&[&["room"], args].concat()).status(1);
    assert!(ran.out.is_empty(), "{args:?}");
    ran
}

#[test]
fn lengths_and_speeds_have_ranges() {
    assert_eq!(rows(&["1", "64"]).len(), 2);
    table(&["--wpm", "1"]);
    table(&["--wpm", "100"]);
    let refused = |args: &[&str], value: &str, what: &str, range: &str| {
        let said = format!("ems: Invalid value '{value}' for '{what}': {value} is not in {range}");
        wrong(args).says_first(&said);
    };
    for length in ["0", "65", "256", "4294967297"] {
        refused(&[length], length, "[CHARACTERS]...", "1..=64");
        refused(&["10", length, "20"], length, "[CHARACTERS]...", "1..=64");
    }
    for speed in ["0", "101"] {
        refused(&["--wpm", speed], speed, "--wpm <WPM>", "1..=100");
    }
    for args in [
        &["ten"][..],
        &["1.5"],
        &["-1"],
        &[""],
        &["10", "--wpm"],
        &["--wpm", "fast"],
        &["--tone", "700"],
    ] {
        assert!(!wrong(args).err.is_empty());
    }
}
