//! Pass scripts: what they send, what is wrong with them, and back from bytes.

mod common;

use common::{bash, fed, place, run, scratch};

/// A script's bytes.
fn bytes(script: &str) -> Vec<u8> {
    fed(&["frames", "-", "-o", "-"], script.as_bytes())
        .status(0)
        .out
}

/// What is said of a script that is wrong.
fn mistakes(script: &str) -> String {
    let file = scratch("wrong.pass", script.as_bytes());
    let ran = run(&["log", &file]).status(1);
    assert!(ran.out.is_empty());
    ran.err.replace(&file, "wrong.pass")
}

#[test]
fn each_kind_of_line_sends_its_bytes() {
    assert_eq!(bytes("tick"), [1, 0]);
    assert_eq!(bytes("tick 3"), [1, 0, 1, 0, 1, 0]);
    assert_eq!(bytes("tick 2 shorts PAYLOAD,SBAND1"), [1, 0x50, 1, 0x50]);
    assert_eq!(bytes("tick shorts mcs"), [1, 1]);
    assert_eq!(bytes("battery 7450"), [2, 0x1D, 0x1A]);
    assert_eq!(bytes("antennas folded\nantennas deployed"), [3, 0, 3, 1]);
    assert_eq!(bytes("order ground 17 PAYLOAD on"), [4, 1, 0, 17, 4, 1]);
    assert_eq!(
        bytes("order payload 65535 PAYLOAD off"),
        [4, 2, 0xFF, 0xFF, 4, 0]
    );
    assert_eq!(
        bytes("thresholds ground 18 7400 7000"),
        [5, 1, 0, 18, 0x1C, 0xE8, 0x1B, 0x58]
    );
    assert_eq!(
        bytes("order ground 17 PAYLOAD on for 20 min"),
        [6, 1, 0, 17, 4, 0, 20]
    );
    assert_eq!(
        bytes("ORDER Payload 65535 sband2 On For 1440 Min # a day"),
        [6, 2, 0xFF, 0xFF, 7, 5, 0xA0]
    );
    assert_eq!(
        bytes("order ground 1 ADCS on for 1 min"),
        [6, 1, 0, 1, 3, 0, 1]
    );
    assert_eq!(
        bytes("greet ground 21 5 \"HELLO FROM 4B\""),
        *b"\x07\x01\x00\x15\x05\x0DHELLO FROM 4B\0\0\0"
    );
    assert_eq!(
        bytes("GREET Ground 65535 255 \"CQ DE EMS/S, 73?\"# full"),
        *b"\x07\x01\xFF\xFF\xFF\x10CQ DE EMS/S, 73?"
    );
    assert_eq!(
        bytes("greet ground 22 0 \"\""),
        *b"\x07\x01\x00\x16\x00\x00\0\0\0\0\0\0\0\0\0\0\0\0\0\0\0\0"
    );
    assert_eq!(bytes("raw 04 01 00 fF"), [4, 1, 0, 0xFF]);
    assert_eq!(bytes("\n  # a comment\n\ttick # and one\r\n"), [1, 0]);
    assert_eq!(bytes(""), []);
}

#[test]
fn what_the_board_refuses_can_be_sent() {
    assert_eq!(bytes("battery 4999"), [2, 0x13, 0x87]);
    assert_eq!(bytes("antennas 2"), [3, 2]);
    assert_eq!(bytes("order 3 1 8 2"), [4, 3, 0, 1, 8, 2]);
    assert_eq!(bytes("order payload 1 MCS on"), [4, 2, 0, 1, 0, 1]);
    assert_eq!(bytes("order 3 1 0 on for 20 min"), [6, 3, 0, 1, 0, 0, 20]);
    // A text is sent as it stands: small letters, other signs, spaces at its ends.
    for (text, length) in [
        ("Hello", 5),
        ("A#B # C", 7),
        (" A  B ", 6),
        ("\tA\u{7f}", 3),
        ("\u{c9}COLE", 6),
        ("\u{706b}\u{661f}\u{706b}\u{661f}\u{706b}!", 16),
    ] {
        let sent = bytes(&format!("greet payload 1 0 \"{text}\" # a comment"));
        assert_eq!(sent[..6], [7, 2, 0, 1, 0, length], "{text}");
        assert_eq!(&sent[6..6 + text.len()], text.as_bytes());
        assert!(sent[6 + text.len()..].iter().all(|&byte| byte == 0));
        assert_eq!(sent.len(), 22);
    }
}

/// A `#` in quotes is part of the text, and a quote in a comment is part of the comment.
#[test]
fn a_comment_begins_outside_of_quotes() {
    let hash = bytes("greet ground 1 5 \"#4\"#4\n# \"\ntick # \"x\n");
    assert_eq!(
        hash,
        *b"\x07\x01\x00\x01\x05\x02#4\0\0\0\0\0\0\0\0\0\0\0\0\0\0\x01\x00"
    );
    // The word that tells a timed order apart is no word in a text.
    let said = mistakes("order ground 1 MCS \"on for 20 min\"");
    assert!(said.contains(":1:20: expected wanted: off, on"), "{said}");
}

#[test]
fn a_mistake_is_shown_where_it_is() {
    assert_eq!(
        mistakes("tick\norder grund 17 PAYLOAD on"),
        "ems: wrong.pass:2:7: expected origin: ground, payload, or a number 0 to 255\n    \
         order grund 17 PAYLOAD on\n          ^^^^^\n"
    );
    assert_eq!(
        mistakes("\tbattery"),
        "ems: wrong.pass:1:10: expected millivolts: a number 0 to 65,535\n    \
         \tbattery\n    \t        ^\n"
    );
}

#[test]
fn each_mistake_says_what_was_expected() {
    let said = |script: &str, where_and_what: &str| {
        let mistakes = mistakes(script);
        assert!(mistakes.contains(where_and_what), "{mistakes}");
    };
    said(
        "tack 3",
        ":1:1: expected a frame: tick, battery, antennas, order, thresholds, greet or raw",
    );
    said("tick 0", ":1:6: expected a number 1 to 4,294,967,295");
    said(
        "tick often",
        ":1:6: expected how often, shorts or the end of the line",
    );
    said(
        "tick 3 short",
        ":1:8: expected shorts or the end of the line",
    );
    said(
        "tick 3 shorts",
        ":1:15: expected modules with commas between: MCS, COMM1",
    );
    said("tick shorts MCS,CAMERA", ":1:13: expected modules");
    said("tick shorts MCS, I2C", ":1:13: expected modules");
    said("tick shorts MCS I2C", ":1:17: expected the end of the line");
    said(
        "battery 65536",
        ":1:9: expected millivolts: a number 0 to 65,535",
    );
    said("battery +7400", ":1:9: expected millivolts");
    said(
        "antennas out",
        ":1:10: expected position: folded, deployed, or a number 0 to 255",
    );
    said(
        "order ground 17 CAMERA on",
        ":1:17: expected module: MCS, COMM1, COMM2, ADCS",
    );
    said(
        "order ground 17 PAYLOAD",
        ":1:25: expected wanted: off, on, or a number 0 to 255",
    );
    said(
        "order ground 1 MCS on on",
        ":1:23: expected for or the end of the line",
    );
    said(
        "thresholds ground 1 7400",
        ":1:26: expected descend: a number 0 to 65,535",
    );
    said("raw", ":1:5: expected a byte: two hexadecimal digits");
    said("raw 04 1", ":1:8: expected a byte: two hexadecimal digits");
    said("raw 04 +1", ":1:8: expected a byte");
}

/// Minutes are 1 to 1,440, for one of the mission four, and "on".
#[test]
fn a_timed_order_that_no_board_takes_is_a_mistake() {
    let said = |words: &str, where_and_what: &str| {
        let mistakes = mistakes(&format!("order ground 17 {words}"));
        assert!(mistakes.contains(where_and_what), "{mistakes}");
    };
    let minutes = ":1:32: expected minutes: a number 1 to 1,440\n";
    for wrong in [
        "0", "1441", "65536", "+20", "1,440", "twenty", "20min", "min",
    ] {
        said(&format!("PAYLOAD on for {wrong} min"), minutes);
    }
    said("PAYLOAD on for", minutes);
    let module = "expected module: ADCS, PAYLOAD, SBAND1, SBAND2, or a number 0 to 255\n";
    for core in ["MCS", "COMM1", "COMM2", "I2C", "CAMERA"] {
        said(
            &format!("{core} on for 20 min"),
            &format!(":1:17: {module}"),
        );
    }
    let on = ":1:25: expected on, as in `on for 20 min`\n";
    for wanted in ["off", "1", "for"] {
        said(&format!("PAYLOAD {wanted} for 20 min"), on);
    }
    let min = "expected min, as in `on for 20 min`\n";
    said("PAYLOAD on for 20", &format!(":1:35: {min}"));
    said("PAYLOAD on for 20 s", &format!(":1:35: {min}"));
    said("PAYLOAD on for 20 minutes", &format!(":1:35: {min}"));
    said(
        "PAYLOAD on for 20 min 30",
        ":1:39: expected the end of the line\n",
    );
    said(
        "PAYLOAD on 20 min",
        ":1:28: expected for or the end of the line\n",
    );
    said(
        "PAYLOAD on until for 20 min",
        ":1:28: expected for, as in `on for 20 min`\n",
    );
    // Nobody orders battery readings for a time.
    let battery = mistakes("battery 7800 for 20 min");
    assert!(
        battery.contains(":1:14: expected the end of the line\n"),
        "{battery}"
    );
    // A comment says what it likes.
    assert_eq!(
        bytes("order ground 1 MCS on # for a day"),
        [4, 1, 0, 1, 0, 1]
    );
}

#[test]
fn a_greeting_that_fits_no_frame_is_a_mistake() {
    let said = |line: &str, where_and_what: &str| {
        let mistakes = mistakes(line);
        assert!(mistakes.contains(where_and_what), "{mistakes}");
    };
    let text = "expected text: up to 16 bytes in double quotes";
    let none = format!("{text}, as in \"HELLO FROM 4B\"\n");
    said("greet ground 21 5", &format!(":1:19: {none}"));
    for word in ["HELLO", "'HELLO'", "\u{201c}HELLO\u{201d}", "nothing"] {
        said(
            &format!("greet ground 21 5 {word}"),
            &format!(":1:19: {none}"),
        );
    }
    let unclosed = format!(":1:19: {text}; the second quote is missing\n");
    for rest in ["\"", "\"HELLO", "\"HELLO # to all", "\"HELLO\u{201d}"] {
        said(&format!("greet ground 21 5 {rest}"), &unclosed);
    }
    for (long, bytes) in [
        ("HELLO FROM 4B 4BC".to_string(), "17"),
        (" ".repeat(17), "17"),
        ("\u{706b}".repeat(6), "18"),
        ("A".repeat(256), "256"),
        ("A".repeat(100_000), "100,000"),
    ] {
        said(
            &format!("greet ground 21 5 \"{long}\""),
            &format!(":1:19: {text}; it has {bytes} bytes\n"),
        );
    }
    assert_eq!(
        mistakes("greet ground 21 5 \"HELLO TO EVERYBODY\" # all"),
        "ems: wrong.pass:1:19: expected text: up to 16 bytes in double quotes; it has 18 bytes\n    \
         greet ground 21 5 \"HELLO TO EVERYBODY\" # all\n                      ^^^^^^^^^^^^^^^^^^^^\n"
    );
    said(
        "greet ground 21 \"HELLO\" 5",
        ":1:17: expected repeats: a number 0 to 255\n",
    );
    said(
        "greet ground 21 256 \"HELLO\"",
        ":1:17: expected repeats: a number 0 to 255\n",
    );
    said(
        "greet ground \"HELLO\"",
        ":1:14: expected serial: a number 0 to 65,535\n",
    );
    said("greet \"HELLO\"", ":1:7: expected origin: ground, payload");
    said(
        "greet ground 21 5 \"HELLO\" \"ALL\"",
        ":1:27: expected the end of the line\n",
    );
    said(
        "greet ground 21 5 \"HELLO\"S",
        ":1:26: expected the end of the line\n",
    );
}

#[test]
fn all_mistakes_are_shown_up_to_ten() {
    let mistakes = mistakes(&"tock\n".repeat(1_212));
    assert_eq!(mistakes.matches("ems: wrong.pass:").count(), 11);
    assert_eq!(mistakes.matches("expected a frame").count(), 10);
    assert!(
        mistakes.ends_with("ems: wrong.pass: and 1,202 more\n"),
        "{mistakes}"
    );
}

#[test]
fn bytes_taken_for_a_script_are_a_mistake() {
    let file = scratch("bytes.pass", b"tick\nti\xFFck\n");
    let ran = run(&["log", &file]).status(1);
    assert!(
        ran.err.contains(":2:3: expected text in UTF-8"),
        "{}",
        ran.err
    );
    // A stream of ticks is UTF-8, and no text.
    let file = scratch("ticks.pass", b"\x01\x00\x01\x00");
    let ran = run(&["log", &file]).status(1);
    let said = ":1:2: expected text in UTF-8; if these are frames, `--as bytes` flies them";
    assert!(ran.err.contains(said), "{}", ran.err);
    run(&["log", "--as", "bytes", &file]).status(0);
}

/// Ten million bytes of mistakes take no more memory than the file, and a bit.
#[test]
fn a_great_many_mistakes_cost_no_memory() {
    let file = scratch("wrong.pass", "tock\n".repeat(2_000_000));
    let ran = bash(&format!("ulimit -v 100000; $ems log {file}")).status(1);
    assert!(
        ran.err.ends_with("wrong.pass: and 1,999,990 more\n"),
        "{}",
        ran.err
    );
    // Nor do as many lines without one.
    let file = scratch("right.pass", "#ick\n".repeat(2_000_000) + "tick 2\n");
    bash(&format!("ulimit -v 100000; $ems log {file}")).status(0);
}

#[test]
fn of_a_long_line_a_part_is_shown() {
    // The word is long, then what is before it and after it is.
    for (line, column) in [
        ("x".repeat(1_000_000), 1),
        (
            "raw ".to_string() + &"00 ".repeat(100_000) + "zz" + &" 00".repeat(100_000),
            300_005,
        ),
    ] {
        let mistakes = mistakes(&line);
        assert!(mistakes.starts_with(&format!("ems: wrong.pass:1:{column}: expected a ")));
        assert_eq!(mistakes.lines().count(), 3);
        assert!(
            mistakes.lines().all(|line| line.chars().count() < 120),
            "{mistakes}"
        );
    }
    let mistakes = mistakes(&("raw ".to_string() + &"00 ".repeat(100_000) + "zz 11"));
    let lines: Vec<&str> = mistakes.lines().collect();
    assert!(
        lines[1].starts_with("    ...") && lines[1].ends_with(" 00 zz 11"),
        "{mistakes}"
    );
    assert_eq!(lines[1].find("zz"), lines[2].find("^^"), "{mistakes}");
}

#[test]
fn carets_stand_under_wide_characters() {
    let said = mistakes("tick \u{706b}\u{661f} # \u{706b}");
    let lines: Vec<&str> = said.lines().collect();
    assert_eq!(
        lines[1..],
        ["    tick \u{706b}\u{661f} # \u{706b}", "         ^^^^"]
    );
    // Before the mistake, too; what is of no width takes none.
    let said = mistakes("order \u{706b}e\u{301} 1");
    let lines: Vec<&str> = said.lines().collect();
    assert_eq!(lines[2], "          ^^^");
    // A blank of two bytes is a blank.
    let said = mistakes("battery\u{a0}");
    assert!(said.ends_with("            ^\n"), "{said}");
}

#[test]
fn control_characters_of_a_script_are_shown_and_not_sent() {
    let said = mistakes("tick \u{1b}[2J\u{7}\u{202e}x\n\u{1b}]0;title\u{7}\n");
    assert!(
        !said.contains(|c: char| c.is_control() && c != '\n'),
        "{said:?}"
    );
    assert!(
        said.contains("    tick \u{241b}[2J\u{2407}\u{fffd}x\n         ^^^^^^^\n"),
        "{said}"
    );
    // A file's name may have them too.
    let ran = run(&["log", "no\u{1b}[31m\nsuch.pass"]).status(1);
    ran.says("ems: no\u{241b}[31m\u{240a}such.pass: No such file");
    let ran = run(&["fly\u{1b}[31m"]).status(1);
    assert!(!ran.err.contains('\u{1b}'), "{:?}", ran.err);
}

#[test]
fn a_file_is_not_written_over_what_is_read() {
    let script = "tick 3\n";
    let file = scratch("kept.pass", script);
    let (other, hard) = (place("link.pass"), place("hard.pass"));
    std::os::unix::fs::symlink(&file, &other).expect("a link");
    std::fs::hard_link(&file, &hard).expect("a link");
    for onto in [&file, &other, &hard] {
        for command in ["frames", "plot"] {
            run(&[command, &file, "-o", onto])
                .status(1)
                .says(": is the input, which would be lost: name another file after -o");
        }
        for command in ["frames -", "plot --as script -"] {
            bash(&format!("$ems {command} -o {onto} < {file}"))
                .status(1)
                .says(": is the input");
        }
    }
    assert_eq!(std::fs::read_to_string(&file).expect("it is there"), script);
    run(&["frames", &file, "-o", &place("kept.bin")]).status(0);
    bash("$ems frames /dev/null -o /dev/null").status(0);
}

/// A script means its bytes: it makes no difference where it is cut.
#[test]
fn a_script_s_log_is_the_log_of_its_bytes() {
    for script in [
        "examples/orbit.pass",
        "examples/school.pass",
        "examples/shorted.pass",
    ] {
        let file = place("same.bin");
        run(&["frames", script, "-o", &file]).status(0);
        assert!(run(&["log", script]).status(0).out == run(&["log", &file]).status(0).out);
    }
    let apart = fed(
        &["log", "--as", "script", "-"],
        b"raw 04 01\nraw 00 01 00 00 01\nraw 00",
    );
    assert_eq!(apart.status(0).text().lines().count(), 3);
}
