//! `ems beacon`, `ems key`, `ems read`.

mod common;

use common::{fed, place, run, scratch};
use std::fs;

#[test]
fn the_beacon_that_falls_due() {
    let safe = run(&["beacon", "examples/dawn.pass"]).status(0);
    assert_eq!(safe.text(), "EMS S 7150 27 00\n");
    safe.says("none is due at the end; left alone, the next is after");
    let due = b"antennas deployed\nbattery 7000\ntick 901\ntick 300\n";
    let due = fed(&["beacon", "--as", "script", "-"], due).status(0);
    assert_eq!((due.text(), due.err.as_str()), ("EMS R 7000\n", ""));
    let fresh = fed(&["beacon", "-"], b"").status(0);
    assert_eq!(fresh.text(), "EMS R 0000\n");
    fresh.says("87,600 seconds");
}

#[test]
fn all_beacons_of_a_flight() {
    let script = b"antennas deployed\nbattery 7000\ntick 901\ntick 600\nbattery 8000\ntick 120\n";
    let ran = fed(&["beacon", "--all", "--as", "script", "-"], script).status(0);
    let wanted = "\
00:20:01  basic     EMS R 7000
00:25:01  basic     EMS R 7000
00:26:01  complete  EMS S 8000 27 00
00:27:01  complete  EMS S 8000 27 00
";
    assert_eq!(ran.text(), wanted);
    assert!(fed(&["beacon", "--all", "-"], b"").status(0).out.is_empty());
}

/// In SAFE, with a greeting for two beacons.
const GREETED: &str =
    "antennas deployed\nbattery 7800\ntick 931\ngreet ground 21 2 \"HELLO FROM 4B\"\n";

#[test]
fn a_greeting_goes_out_with_the_beacon_that_falls_due() {
    let beacon = |script: &str, more: &[&str]| {
        let args = [&["beacon", "--as", "script", "-"], more].concat();
        fed(&args, format!("{GREETED}{script}").as_bytes()).status(0)
    };
    let due = beacon("", &[]);
    assert_eq!(due.text(), "EMS S 7800 27 00 HELLO FROM 4B\n");
    due.says("none is due at the end; left alone, the next is after 30 seconds");
    let due = beacon("tick 30\n", &[]);
    assert_eq!(
        (due.text(), due.err.as_str()),
        ("EMS S 7800 27 00 HELLO FROM 4B\n", "")
    );
    // The second is the last.
    assert_eq!(beacon("tick 120\n", &[]).text(), "EMS S 7800 27 00\n");
    let all = beacon("tick 120\nbattery 6900\ntick 320\n", &["--all"]);
    let wanted = "\
00:16:01  extended  EMS S 7800 27 00 HELLO FROM 4B
00:17:01  extended  EMS S 7800 27 00 HELLO FROM 4B
00:22:01  basic     EMS R 6900
";
    assert_eq!(all.text(), wanted);
}

/// The extended text is there as long as a greeting is kept: due or not, sent out or
/// not, in every mode.
#[test]
fn the_extended_text_is_had_while_a_greeting_is_kept() {
    let extended = |script: &str| {
        let args = ["beacon", "--extended", "--as", "script", "-"];
        fed(&args, script.as_bytes())
    };
    let had = |script: &str, text: &str| {
        let ran = extended(script).status(0);
        assert_eq!((ran.text(), ran.err.as_str()), (text, ""));
    };
    had(GREETED, "EMS S 7800 27 00 HELLO FROM 4B\n");
    had(
        &format!("{GREETED}tick 9999\n"),
        "EMS S 7800 27 00 HELLO FROM 4B\n",
    );
    had(
        &format!("{GREETED}battery 6900\ntick 30\n"),
        "EMS R 6900 27 00 HELLO FROM 4B\n",
    );
    had(
        "greet ground 1 1 \"CQ DE EMS/S, 73?\"\n",
        "EMS D 0000 00 00 CQ DE EMS/S, 73?\n",
    );
    // None is kept: there is no text, and standard output has nothing of it.
    for script in [
        "",
        "tick 9\n",
        "greet ground 1 0 \"HI\"\n",
        "greet ground 1 9 \"\"\n",
    ] {
        let ran = extended(script).status(2);
        assert!(ran.out.is_empty());
        ran.says("ems: the text is refused: 21, no greeting is kept\n");
    }
    let ran = extended(&format!("{GREETED}greet ground 22 0 \"\"\n")).status(2);
    ran.says("refused: 21");
    // A frame that is refused ends it as it does without.
    let ran = extended(&format!("{GREETED}battery 1\n")).status(2);
    assert!(ran.out.is_empty());
    ran.says("`battery 1`, is refused: 6");
    let args = [
        "beacon",
        "--extended",
        "--keep-going",
        "--as",
        "script",
        "-",
    ];
    let ran = fed(&args, format!("{GREETED}battery 1\n").as_bytes()).status(2);
    assert_eq!(ran.text(), "EMS S 7800 27 00 HELLO FROM 4B\n");
    let ran = fed(&args, b"battery 1\n").status(2);
    let said: Vec<&str> = ran.err.lines().collect();
    assert_eq!(said.len(), 2, "{}", ran.err);
    assert!(said[0].contains("`battery 1`, is refused: 6") && said[1].contains("refused: 21"));
    run(&["beacon", "--extended", "--all", "examples/school.pass"]).status(1);
}

#[test]
fn a_refused_frame_ends_the_beacon_too() {
    fed(&["beacon", "-"], &[0x08])
        .status(2)
        .says("frame 1, `raw 08`, is refused: 4");
}

#[test]
fn units_are_read_back() {
    let units = run(&["key", "--units", "EMS R 7000"]).status(0);
    let count = units.text().chars().filter(|c| "01".contains(*c)).count();
    assert_eq!(count, 119);
    assert_eq!(
        fed(&["read", "-"], &units.out).status(0).text(),
        "EMS R 7000\n"
    );
    let file = place("units.txt");
    run(&["key", "--units", "PARIS", "-o", &file]).status(0);
    assert_eq!(run(&["read", &file]).status(0).text(), "PARIS\n");
    assert_eq!(fed(&["read", "-"], b"").status(0).text(), "\n");
}

/// What a listener may ask, with all four of the signs that are no letters and no
/// figures: each by itself, and in words.
#[test]
fn punctuation_is_read_back() {
    for (text, units) in [
        (".", "10111010111010111"),
        (",", "1110111010101110111"),
        ("?", "101011101110101"),
        ("/", "1110101011101"),
    ] {
        let keyed = run(&["key", "--units", text]).status(0);
        assert_eq!(keyed.text(), format!("{units}\n"), "{text}");
    }
    let asked = "CQ DE EMS/S, HW CPY? 73.";
    let units = run(&["key", "--units", asked]).status(0);
    let read = fed(&["read", "-"], &units.out).status(0);
    assert_eq!(read.text(), format!("{asked}\n"));
}

/// What a listener hears of every beacon of a school's greeting is its text.
#[test]
fn a_greeting_on_the_beacon_is_read_back() {
    let all = run(&["beacon", "--all", "examples/school.pass"]).status(0);
    let mut greeted = 0;
    for text in all.text().lines().map(|line| &line[20..]) {
        let units = run(&["key", "--units", text]).status(0);
        let read = fed(&["read", "-"], &units.out).status(0);
        assert_eq!(read.text(), format!("{text}\n"));
        greeted += usize::from(text.ends_with("4B"));
    }
    assert_eq!(greeted, 17);
}

#[test]
fn a_sound_is_as_long_as_its_units() {
    let file = place("beacon.wav");
    run(&[
        "key",
        "EMS R 7000",
        "-o",
        &file,
        "--wpm",
        "12",
        "--tone",
        "600",
    ])
    .status(0);
    let sound = fs::read(&file).expect("a sound");
    assert_eq!((&sound[..4], &sound[8..12]), (&b"RIFF"[..], &b"WAVE"[..]));
    // 119 units of a tenth of a second, and silence before and after.
    let seconds = (sound.len() - 44) as f64 / 2.0 / 22_050.0;
    assert!((13.0..14.0).contains(&seconds), "{seconds}");
}

#[test]
fn what_cannot_be_keyed_or_read_is_refused() {
    run(&["key", "--units", "EMS r"])
        .status(2)
        .says("refused: 12, a character is outside the alphabet: `r`, character 5; it has 0 to 9, A to Z, the space, `,`, `.`, `/` and `?`\n");
    run(&["key", "--units", "EMS; OK"])
        .status(2)
        .says(": `;`, character 4; it has");
    run(&["key", "--units", "É"])
        .status(2)
        .says(": `É`, character 1; it has");
    run(&["key", "--units", "A\u{1b}"])
        .status(2)
        .says(": `\u{241b}`, character 2;");
    for (text, place) in [("A  B", 3), (" A", 1), ("A ", 2)] {
        run(&["key", "--units", text]).status(2).says(&format!(
            "refused: 13, a space is first, last or doubled: character {place}\n"
        ));
    }
    run(&["key", "--units", &"A".repeat(1_065)])
        .status(2)
        .says("refused: 11, the text is too long: it has 1,065 bytes, and 64 is the most\n");
    let file = scratch("letters.txt", b"10\n1x");
    run(&["read", &file])
        .status(1)
        .says("letters.txt:2:2: expected a unit: 1 or 0");
}

/// Of units that are not a keying, the first one that no keying has is shown.
#[test]
fn the_place_of_a_wrong_unit_is_said() {
    let refused = |units: &[u8], said: &str| {
        let why = "the units are refused: 15, the units are not exactly the keying of a text";
        fed(&["read", "-"], units)
            .status(2)
            .says(&format!("standard input:{}\n", said.replace("..", why)));
    };
    refused(b"1 1", "1:3: ..: they end too early, after unit 2");
    refused(b"1\n1\n", "2:1: ..: they end too early, after unit 2");
    refused(b"12", "1:2: ..: no keying goes on with unit 2");
    refused(b"101\n  00001", "2:7: ..: no keying goes on with unit 8");
    refused(b"0", "1:1: ..: no keying goes on with unit 1");
    let too_long = "1000".repeat(64) + "1";
    refused(
        too_long.as_bytes(),
        "1:255: ..: the text is too long from unit 255",
    );
}

#[test]
fn speeds_and_tones_have_ranges_that_help_says() {
    let help = run(&["key", "--help"]).status(0);
    let help = help
        .prints("Words a minute, 1 to 100")
        .prints("hertz, 50 to 10,000");
    assert!(help.text().contains("[default: 18]"));
    for right in [
        ["--wpm", "1"],
        ["--wpm", "100"],
        ["--tone", "50"],
        ["--tone", "10000"],
    ] {
        run(&[&["key", "E", "-o", "/dev/null"][..], &right].concat()).status(0);
    }
    for wrong in [
        ["--wpm", "0"],
        ["--wpm", "101"],
        ["--tone", "49"],
        ["--tone", "10001"],
    ] {
        run(&[&["key", "E", "-o", "/dev/null"][..], &wrong].concat()).status(1);
    }
}

#[test]
fn beacons_go_on_after_6_and_7_if_that_is_wanted() {
    let script = b"antennas deployed\nbattery 7000\ntick 901\nbattery 1\ntick 300\n";
    let beacon = |more: &[&str]| {
        let args = [&["beacon", "--as", "script", "-"], more].concat();
        fed(&args, script).status(2)
    };
    let ran = beacon(&[]);
    assert!(ran.out.is_empty());
    ran.says("`battery 1`, is refused: 6");
    assert_eq!(beacon(&["--keep-going"]).text(), "EMS R 7000\n");
    let all = beacon(&["--keep-going", "--all"]);
    assert_eq!(all.text(), "00:20:01  basic     EMS R 7000\n");
}

#[test]
fn key_wants_a_place_for_the_sound() {
    let ran = run(&["key", "EMS"]).status(1);
    assert!(ran.err.contains("--output"), "{}", ran.err);
    run(&["key", "EMS", "-o", "/nowhere/x.wav"])
        .status(1)
        .says("/nowhere/x.wav: No such file");
    for wrong in [["--wpm", "0"], ["--wpm", "fast"], ["--tone", "10001"]] {
        run(&[&["key", "EMS", "--units"][..], &wrong].concat()).status(1);
    }
}
