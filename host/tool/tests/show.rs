//! `ems show`: back from bytes, damaged ones too.

mod common;

use common::{fed, run, scratch, vectors};
use std::fs;

#[test]
fn any_bytes_shown_are_a_script_of_the_same_bytes() {
    for (stream, _) in vectors() {
        let script = run(&["show", &stream]).status(0).out;
        let again = fed(&["frames", "-", "-o", "-"], &script).status(0).out;
        assert!(again == fs::read(&stream).expect("a stream"), "{stream}");
    }
}

#[test]
fn damaged_bytes_are_shown_with_the_reason() {
    let ran = fed(
        &["show", "-"],
        b"\x03\x01\x02\x13\x87\xAA\xBB\x01\x00\x01\x00\x04\x01",
    );
    let wanted = "\
antennas deployed                       # 000000
battery 4999                            # 000002  refused: 6, a field is outside its range, or descend is above ascend
raw AA BB                               # 000005  refused: 4, no frame that is read begins with this byte
# The board reads nothing after this. Where frames begin from here on is a guess.
tick 2                                  # 000007
raw 04 01                               # 00000B  refused: 5, the length is not the kind's total
";
    assert_eq!(ran.status(0).text(), wanted);
}

/// What no line of words sends is shown as bytes.
#[test]
fn a_timed_order_is_shown_in_words() {
    let shown = |bytes: &[u8], line: &str| {
        let ran = fed(&["show", "-"], bytes).status(0);
        assert_eq!(ran.text(), format!("{line}\n"));
        assert_eq!(
            fed(&["frames", "-", "-o", "-"], &ran.out).status(0).out,
            bytes
        );
    };
    let refused = "refused: 6, a field is outside its range, or descend is above ascend";
    shown(
        b"\x06\x01\x00\x11\x04\x00\x14",
        "order ground 17 PAYLOAD on for 20 min   # 000000",
    );
    shown(
        b"\x06\x02\xFF\xFF\x04\x05\xA0",
        "order payload 65535 PAYLOAD on for 1440 min # 000000",
    );
    shown(
        b"\x06\x01\x00\x11\x00\x00\x14",
        &format!("order ground 17 0 on for 20 min         # 000000  {refused}"),
    );
    shown(
        b"\x06\x02\x00\x01\x03\x00\x14",
        "order payload 1 ADCS on for 20 min      # 000000  \
         refused: 7, the payload asks for what only the ground may",
    );
    shown(
        b"\x06\x01\x00\x11\x04\x00\x00",
        &format!("raw 06 01 00 11 04 00 00                # 000000  {refused}"),
    );
    shown(
        b"\x06\x01\x00\x11\x04\x05\xA1",
        &format!("raw 06 01 00 11 04 05 A1                # 000000  {refused}"),
    );
}

/// A greeting whose text a line can have is shown in words, whether the board takes it
/// or not; another is shown as bytes.
#[test]
fn a_greeting_is_shown_in_words() {
    let greeting = |head: [u8; 5], text: &[u8]| {
        let mut frame = [&[7][..], &head, text].concat();
        frame.resize(22, 0);
        frame
    };
    let shown = |frame: Vec<u8>, words: &str, comment: &str| {
        let ran = fed(&["show", "-"], &frame).status(0);
        let line = format!("{:40}# 000000  {comment}", format!("{words} "));
        assert_eq!(ran.text(), format!("{}\n", line.trim_end()));
        assert_eq!(
            fed(&["frames", "-", "-o", "-"], &ran.out).status(0).out,
            frame
        );
    };
    shown(
        greeting([1, 0, 21, 5, 13], b"HELLO FROM 4B"),
        "greet ground 21 5 \"HELLO FROM 4B\"",
        "",
    );
    shown(
        greeting([1, 0, 22, 0, 0], b""),
        "greet ground 22 0 \"\"",
        "",
    );
    shown(
        greeting([1, 0xFF, 0xFF, 255, 16], b"CQ DE EMS/S, 73?"),
        "greet ground 65535 255 \"CQ DE EMS/S, 73?\"",
        "",
    );
    shown(
        greeting([2, 0, 1, 5, 2], b"HI"),
        "greet payload 1 5 \"HI\"",
        "refused: 7, the payload asks for what only the ground may",
    );
    let alphabet = "it has 0 to 9, A to Z, the space, `,`, `.`, `/` and `?`";
    let outside = "refused: 6, the greeting can't be keyed: a character is outside the alphabet";
    shown(
        greeting([1, 0, 21, 5, 7], b"Hi # 4B"),
        "greet ground 21 5 \"Hi # 4B\"",
        &format!("{outside}: `i`, character 2; {alphabet}"),
    );
    shown(
        greeting([1, 0, 21, 5, 6], "\u{c9}COLE".as_bytes()),
        "greet ground 21 5 \"\u{c9}COLE\"",
        &format!("{outside}: `\u{c9}`, character 1; {alphabet}"),
    );
    shown(
        greeting([1, 0, 21, 5, 4], b"A B "),
        "greet ground 21 5 \"A B \"",
        "refused: 6, the greeting can't be keyed: a space is first, last or doubled: character 4",
    );
    let other = "the origin, the length or a byte past the text is outside its range";
    shown(
        greeting([3, 0, 21, 5, 2], b"HI"),
        "greet 3 21 5 \"HI\"",
        &format!("refused: 6, {other}"),
    );
    let raw = |frame: Vec<u8>, why: &str| {
        let bytes: Vec<String> = frame.iter().map(|byte| format!("{byte:02X}")).collect();
        let words = format!("raw {}", bytes.join(" "));
        shown(frame, &words, &format!("refused: 6, {why}"));
    };
    raw(greeting([1, 0, 21, 5, 3], b"A BC"), other);
    raw(greeting([1, 0, 21, 5, 17], b"HELLO FROM 4B 4B"), other);
    for (text, sign) in [
        ("A\"B".as_bytes(), '"'),
        (b"A\nB", '\u{240a}'),
        (b"A\x1B[", '\u{241b}'),
        (b"A\xFFB", '\u{fffd}'),
        (b"A\0B", '\u{2400}'),
    ] {
        let why = "the greeting can't be keyed: a character is outside the alphabet";
        raw(
            greeting([1, 0, 21, 5, text.len() as u8], text),
            &format!("{why}: `{sign}`, character 2; {alphabet}"),
        );
    }
}

#[test]
fn a_report_is_shown_in_words() {
    let report = b"\x81\x04\x01\x00\x11\x08\x02\x27\x27\x00\x00";
    let ran = fed(&["show", "-"], report).status(0);
    let words = "a report: order ground 17: 8 repeat; SAFE; requested 27 MCS,COMM1,COMM2,I2C;";
    assert!(ran.text().contains(words), "{}", ran.text());
    assert!(!ran.text().contains("no board"), "{}", ran.text());
    let report = b"\x81\x06\x01\x00\x11\x00\x02\x37\x27\x00\x00";
    let ran = fed(&["show", "-"], report).status(0);
    let words =
        "a report: timed order ground 17: 0 done; SAFE; requested 37 MCS,COMM1,COMM2,PAYLOAD,I2C;";
    assert!(ran.text().contains(words), "{}", ran.text());
    assert!(!ran.text().contains("no board"), "{}", ran.text());
    // A greeting that is done outside SAFE, and a tick that makes its beacon due.
    for (report, words) in [
        (
            b"\x81\x07\x01\x00\x15\x00\x01\x27\x27\x00\x00",
            "a report: greeting ground 21: 0 done; RECOVERY; requested 27 MCS,COMM1,COMM2,I2C;",
        ),
        (
            b"\x81\x01\x00\x00\x00\x00\x02\x27\x27\x00\x03",
            "a report: tick: 0 done; SAFE; requested 27 MCS,COMM1,COMM2,I2C;",
        ),
    ] {
        let ran = fed(&["show", "-"], report).status(0);
        assert!(ran.text().contains(words), "{}", ran.text());
        assert!(!ran.text().contains("no board"), "{}", ran.text());
        let due = if report[10] == 3 { "extended" } else { "no" };
        assert!(
            ran.text().ends_with(&format!("; {due} beacon\n")),
            "{}",
            ran.text()
        );
    }
}

#[test]
fn a_report_that_no_board_sends_is_marked() {
    let marked = |report: [u8; 10], why: &str| {
        let bytes = [&[0x81][..], &report].concat();
        let mark = format!("; no board sends this: {why}\n");
        fed(&["show", "-"], &bytes).status(0).prints(&mark);
    };
    let tick = [1, 0, 0, 0, 0, 2, 0x27, 0x27, 0, 0];
    let changed = |at: usize, byte: u8| {
        let mut report = tick;
        report[at] = byte;
        report
    };
    marked(changed(0, 9), "no such kind is answered");
    marked(changed(1, 1), "this kind has no origin and no serial");
    marked(changed(3, 7), "this kind has no origin and no serial");
    marked(changed(4, 6), "answer 6 has no report");
    marked(changed(4, 8), "this kind has no such answer");
    marked(changed(5, 3), "there is no mode 3");
    marked(changed(8, 0x21), "MCS and I2C on and failed at once");
    marked(changed(9, 4), "there is no beacon 4");
    marked(changed(9, 1), "no such beacon is due in SAFE");
    marked(
        [1, 0, 0, 0, 0, 1, 0x27, 0x27, 0, 3],
        "no such beacon is due in RECOVERY",
    );
    marked([4, 3, 0, 1, 0, 2, 0, 0, 0, 0], "there is no origin 3");
    marked(
        [4, 1, 0, 1, 10, 2, 0, 0, 0, 0],
        "in SAFE it is never too early",
    );
    marked(
        [5, 1, 0, 1, 10, 1, 0, 0, 0, 0],
        "this kind has no such answer",
    );
    marked(
        [6, 1, 0, 1, 10, 2, 0, 0, 0, 0],
        "in SAFE it is never too early",
    );
    marked(
        [6, 1, 0, 1, 0, 1, 0x37, 0, 0, 0],
        "it is not done in RECOVERY",
    );
    marked([6, 0, 0, 1, 8, 1, 0, 0, 0, 0], "there is no origin 0");
    marked(
        [7, 1, 0, 1, 10, 1, 0, 0, 0, 0],
        "this kind has no such answer",
    );
    marked([7, 0, 0, 1, 0, 2, 0, 0, 0, 0], "there is no origin 0");
    marked(
        [7, 1, 0, 1, 0, 2, 0, 0, 0, 3],
        "only a tick makes a beacon due",
    );
    marked(
        [2, 0, 0, 0, 0, 2, 0, 0, 0, 2],
        "only a tick makes a beacon due",
    );
    marked(
        [4, 0, 0, 1, 99, 9, 0, 0, 0, 0],
        "answer 99 has no report, there is no mode 9 and there is no origin 0",
    );
}

/// Every report on every vector is one that a board sends.
#[test]
fn no_board_s_report_is_marked() {
    for (stream, _) in vectors() {
        let log = run(&["log", "--hex", &stream]);
        let reports = log
            .text()
            .lines()
            .filter_map(|line| line.strip_prefix("< "));
        let reports = reports.filter(|report| report.starts_with("81 "));
        let bytes: Vec<u8> = reports
            .flat_map(str::split_whitespace)
            .map(|byte| u8::from_str_radix(byte, 16).expect("a byte"))
            .collect();
        let ran = fed(&["show", "-"], &bytes).status(0);
        assert!(!ran.text().contains("no board"), "{stream}");
    }
}

#[test]
fn text_is_not_shown_as_if_it_were_frames() {
    let script = "# a pass\nbattery 4999\ntick 3\n";
    let file = scratch("notes.txt", script);
    let ran = run(&["show", &file]).status(1);
    assert!(ran.out.is_empty());
    ran.says("notes.txt looks like text: `--as script` shows what it sends");
    fed(&["show", "-"], script.as_bytes())
        .status(1)
        .says("standard input looks like text");
    // What it sends, with what the board would say to it.
    let wanted = "\
battery 4999                            # 000000  refused: 6, a field is outside its range, or descend is above ascend
tick 3                                  # 000003
";
    assert_eq!(
        run(&["show", "--as", "script", &file]).status(0).text(),
        wanted
    );
    let named = scratch("notes.pass", script);
    assert_eq!(run(&["show", &named]).status(0).text(), wanted);
    run(&["show", "--as", "bytes", &file])
        .status(0)
        .prints("refused: 4");
}
