//! `ems log`: the page's log, its endings, and files that aren't as they should.

mod common;

use common::{bash, ems, fed, root, run, scratch, vectors};
use std::io::Read;
use std::process::{Command, Stdio};

/// The bytes and the log that the page gives.
const PAGE: &[u8] = &[
    0x03, 0x01, 0x04, 0x01, 0x00, 0x01, 0x04, 0x01, 0x04, 0x01, 0x00, 0x01, 0x04, 0x01, 0x04, 0x01,
    0x00, 0x02, 0x02, 0x00, 0x02, 0x1D, 0x1A, 0x01, 0x00,
];
const PAGE_LOG: &str = "\
n kind origin serial answer mode requested on failed beacon
1 03 0 0 0 0 27 00 00 0
2 04 1 1 10 0 27 00 00 0
3 04 1 1 8 0 27 00 00 0
4 04 1 2 0 0 23 00 00 0
5 02 0 0 0 0 23 00 00 0
6 01 0 0 0 0 23 00 00 0
";

#[test]
fn the_page_s_bytes_give_the_page_s_log() {
    assert_eq!(fed(&["log", "-"], PAGE).status(0).text(), PAGE_LOG);
    let file = scratch("page.bin", PAGE);
    assert_eq!(run(&["log", &file]).status(0).text(), PAGE_LOG);
}

#[test]
fn every_vector_gives_its_log_and_its_status() {
    for (stream, log) in vectors() {
        let wanted = std::fs::read_to_string(&log).expect("a log");
        let refused = wanted.contains("refused");
        let ran = run(&["log", &stream]).status(if refused { 2 } else { 0 });
        assert!(ran.text() == wanted, "{stream}");
        assert_eq!(ran.err.lines().count(), usize::from(refused), "{}", ran.err);
    }
}

#[test]
fn a_refused_frame_is_named_with_its_line_and_reason() {
    let file = scratch("refused.pass", b"tick 3\n# low\nbattery 4999\ntick\n");
    let ran = run(&["log", &file]).status(2);
    assert!(ran.text().ends_with("\n4 refused 6\n"));
    ran.says("refused.pass, line 3: frame 4, `battery 4999`, is refused: 6, a field");
    let ran = fed(&["log", "-"], &[0x01, 0x00, 0x81]).status(2);
    ran.says("standard input, byte 2: frame 2, `raw 81`, is refused: 4, no frame");
}

#[test]
fn standard_input_can_be_a_script() {
    let ran = fed(&["log", "--as", "script", "-"], b"antennas deployed\n");
    assert!(ran
        .status(0)
        .text()
        .ends_with("\n1 03 0 0 0 0 27 00 00 0\n"));
}

#[test]
fn empty_input_gives_the_header_alone() {
    assert_eq!(fed(&["log", "-"], b"").status(0).text().lines().count(), 1);
}

#[test]
fn files_that_cannot_be_read_are_a_one_line_error() {
    run(&["log", "nowhere.pass"])
        .status(1)
        .says("ems: nowhere.pass: No such file");
    run(&["log", "examples"])
        .status(1)
        .says("ems: examples: is a directory");
    run(&["compare", "examples/dawn.pass", "no.pass"])
        .status(1)
        .says("ems: no.pass: No such");
}

/// A reader that goes away: `ems log .. | head -1`.
#[test]
fn a_broken_pipe_is_a_one_line_error() {
    for args in [
        &["log", "examples/orbit.pass"][..],
        &["log", "--explain", "examples/orbit.pass"],
    ] {
        let mut child = Command::new(ems())
            .args(args)
            .current_dir(root())
            .stdout(Stdio::piped())
            .stderr(Stdio::piped())
            .spawn()
            .expect("ems runs");
        let mut first = [0; 8];
        let mut stdout = child.stdout.take().expect("an output");
        stdout.read_exact(&mut first).expect("a first line");
        drop(stdout);
        let ended = child.wait_with_output().expect("ems ends");
        let said = String::from_utf8_lossy(&ended.stderr).into_owned();
        if ended.status.code() == Some(0) {
            // Everything fitted into the pipe.
            assert!(
                args.contains(&"--explain"),
                "the log is longer than a pipe holds"
            );
        } else {
            assert_eq!(ended.status.code(), Some(1));
            assert_eq!(
                said,
                "ems: standard output: closed before everything was written\n"
            );
        }
    }
}

#[test]
fn nobody_to_print_for_is_a_one_line_error() {
    for line in [
        "$ems log examples/dawn.pass >&-",
        "$ems log --explain examples/dawn.pass >&-",
        "$ems plot examples/dawn.pass -o - >&-",
        "$ems --help >&-",
    ] {
        bash(line).status(1).says("ems: standard output: is closed");
    }
    bash("$ems log - <&-")
        .status(1)
        .says("ems: standard input: is closed");
    // What doesn't go there is not in the way.
    bash("$ems log examples/dawn.pass >/dev/null").status(0);
    bash("$ems log examples/dawn.pass 1<>/dev/null").status(0);
    bash("$ems frames examples/dawn.pass -o /dev/null >&- <&-").status(0);
}

/// Frames of which two are refused, with 6 and with 7.
const TWO_REFUSED: &str =
    "antennas deployed\nbattery 7800\ntick 3\nbattery 4999\ntick 2\norder payload 1 MCS on\nbattery 7900\ntick\n";

#[test]
fn an_explanation_goes_on_after_6_and_7_if_that_is_wanted() {
    let file = scratch("two.pass", TWO_REFUSED);
    let ran = run(&["log", "--explain", &file]).status(2);
    assert!(!ran.text().contains("battery 7900"), "{}", ran.text());
    ran.says("line 4: frame 6, `battery 4999`, is refused: 6");
    let ran = run(&["log", "--explain", "--keep-going", &file]).status(2);
    let ran = ran
        .prints("00:00:03          6  battery 4999: refused, 6: a field is outside its range")
        .prints("00:00:05          9  order payload 1 MCS on: refused, 7: the payload asks")
        .prints("00:00:05         10  battery 7900: done, tension 7,900 mV");
    let said: Vec<&str> = ran.err.lines().collect();
    assert_eq!(said.len(), 2, "{}", ran.err);
    assert!(said[0].starts_with("ems: ") && said[0].contains("`battery 4999`, is refused: 6"));
    assert!(said[1].starts_with("ems: ") && said[1].contains("MCS on`, is refused: 7"));
}

#[test]
fn after_4_nothing_goes_on() {
    let file = scratch("four.pass", "tick\nraw 77\nbattery 7900\n");
    let ran = run(&["log", "--explain", "--keep-going", &file]).status(2);
    assert!(!ran.text().contains("battery 7900"), "{}", ran.text());
    ran.says("`raw 77`, is refused: 4");
}

#[test]
fn of_many_refusals_ten_are_said() {
    let file = scratch("many.pass", "battery 1\n".repeat(5_000));
    let ran = run(&["log", "--explain", "--keep-going", &file]).status(2);
    assert_eq!(ran.err.lines().count(), 11);
    assert!(
        ran.err.ends_with("many.pass: 4,990 more frames refused\n"),
        "{}",
        ran.err
    );
}

#[test]
fn the_log_stops_whatever_is_wanted() {
    let file = scratch("two.pass", TWO_REFUSED);
    for more in [&[][..], &["--hex"]] {
        let ran = run(&[&["log", "--keep-going", &file], more].concat()).status(1);
        assert!(ran.err.contains("--keep-going") || ran.err.contains("--explain"));
        assert!(ran.out.is_empty());
        run(&[&["log", &file], more].concat()).status(2);
    }
}

#[test]
fn text_that_is_taken_for_bytes_is_told_what_to_type() {
    let script = b"# a pass\nantennas deployed\ntick 3\n";
    let hint = "looks like text: `--as script` takes it for a pass script";
    let file = scratch("notes.txt", script);
    for command in ["log", "beacon"] {
        run(&[command, &file]).status(2).says(&format!(
            "is refused: 4, no frame that is read begins with this byte; {file} {hint}"
        ));
        fed(&[command, "-"], script)
            .status(2)
            .says(&format!("standard input {hint}"));
        run(&[command, "--as", "script", &file]).status(0);
    }
    // Who says that it is bytes knows.
    let ran = run(&["log", "--as", "bytes", &file]).status(2);
    assert!(!ran.err.contains("looks like"), "{}", ran.err);
    // And frames with a mistake don't look like text.
    let ran = fed(&["log", "-"], b"\x01\x00tick").status(2);
    assert!(!ran.err.contains("looks like"), "{}", ran.err);
}

#[test]
fn an_ending_in_capitals_is_the_same_ending() {
    let file = scratch("DAWN.PASS", b"antennas deployed\n");
    run(&["log", &file])
        .status(0)
        .prints("\n1 03 0 0 0 0 27 00 00 0\n");
}

/// What an explanation says of scripts.
fn explained(script: &str, line: &str) {
    fed(
        &["log", "--explain", "--as", "script", "-"],
        script.as_bytes(),
    )
    .status(0)
    .prints(line);
}

#[test]
fn ticks_are_counted_and_frames_are_called_frames() {
    explained(
        "tick 1200\n",
        "1,200 ticks, frames 1 to 1,200: nothing changed\n",
    );
    explained("tick\n", "tick: nothing changed\n");
    explained("tick shorts MCS\n", "tick shorts MCS: nothing changed\n");
    explained(
        "tick 3 shorts MCS,I2C\n",
        "3 ticks with shorts on MCS and I2C, frames 1 to 3: nothing changed\n",
    );
}

#[test]
fn a_number_that_nobody_sent_is_no_order_of_anybody() {
    let first = "order ground 0 MCS on\n";
    explained(
        first,
        "8, 0 is the number that a board begins with: nothing moved\n",
    );
    explained(
        "order payload 40000 PAYLOAD off\n",
        "9, 40000 is stale beside the 0 that a board begins with: nothing moved\n",
    );
    // Another origin's number is not this one's.
    explained(
        &format!("order payload 1 PAYLOAD off\n{first}"),
        "8, 0 is the number that a board begins with: nothing moved\n",
    );
    explained(
        "thresholds ground 3 7400 7000\norder ground 3 MCS on\n",
        "8, 3 is a repeat of ground's last number: nothing moved\n",
    );
    explained(
        "order ground 32767 MCS on\norder ground 65000 MCS on\norder ground 0 MCS on\norder ground 0 MCS on\n",
        "8, 0 is a repeat of ground's last number: nothing moved\n",
    );
}

/// In SAFE, at 00:15:31, with PAYLOAD on for 20 minutes.
const TIMED: &str =
    "antennas deployed\nbattery 7800\ntick 931\norder ground 17 PAYLOAD on for 20 min\n";

/// What an explanation says of what follows on a timed order.
fn then(script: &str, line: &str) {
    explained(&format!("{TIMED}{script}"), line);
}

#[test]
fn a_timed_order_is_told_with_its_minutes() {
    then(
        "",
        "order ground 17 PAYLOAD on for 20 min: done, PAYLOAD requested on for 20 minutes\n",
    );
    then(
        "order ground 18 ADCS on for 1 min\n",
        "order ground 18 ADCS on for 1 min: done, ADCS requested on for 1 minute\n",
    );
    then(
        "order ground 18 SBAND1 on\norder ground 19 SBAND1 on for 1440 min\n",
        "order ground 19 SBAND1 on for 1440 min: done, SBAND1's end is set: in 1,440 minutes\n",
    );
    then(
        "order ground 17 PAYLOAD on for 5 min\n",
        "on for 5 min: 8, 17 is a repeat of ground's last number: nothing moved\n",
    );
    then(
        "order ground 16 PAYLOAD on for 5 min\n",
        "on for 5 min: 9, 16 is stale, ground's last number was 17: nothing moved\n",
    );
}

#[test]
fn an_end_that_comes_is_told_with_the_minutes_that_were_ordered() {
    // 1,200 seconds on, and not one fewer.
    then(
        "tick 1200\n",
        "00:35:30      2,133  1,198 ticks, frames 936 to 2,133: nothing changed; \
         20 complete beacons, the last EMS S 7800 37 00\n\
         00:35:31      2,134  tick: PAYLOAD's 20 minutes are over: requested off; PAYLOAD off\n",
    );
    then(
        "order ground 18 PAYLOAD on for 1 min\ntick 60\n",
        "00:16:31        995  tick: PAYLOAD's 1 minute is over: requested off; PAYLOAD off",
    );
    let day = "order ground 18 PAYLOAD off\norder ground 19 SBAND2 on for 1440 min\ntick 86400\n";
    then(
        day,
        "24:15:31     87,336  tick: SBAND2's 1,440 minutes are over: requested off; SBAND2 off",
    );
    // Two at once.
    then(
        "order ground 18 ADCS on for 20 min\ntick 1200\n",
        "tick: ADCS's 20 minutes are over: requested off; \
         PAYLOAD's 20 minutes are over: requested off; ADCS and PAYLOAD off",
    );
}

/// Ten minutes before the end, another ten are ordered: the board is as it was, and
/// they are the ten that are over.
#[test]
fn a_timed_order_that_moves_no_end_is_still_the_last_one() {
    then(
        "tick 600\norder payload 1 PAYLOAD on for 10 min\ntick 600\n",
        "order payload 1 PAYLOAD on for 10 min: done, nothing changed\n",
    );
    then(
        "tick 600\norder payload 1 PAYLOAD on for 10 min\ntick 600\n",
        "00:35:31      2,135  tick: PAYLOAD's 10 minutes are over: requested off; PAYLOAD off",
    );
}

#[test]
fn an_end_that_is_moved_or_dropped_is_told_and_never_comes() {
    then(
        "tick 60\norder payload 1 PAYLOAD on for 30 min\ntick 1800\n",
        "order payload 1 PAYLOAD on for 30 min: done, PAYLOAD's end is moved: in 30 minutes\n",
    );
    then(
        "tick 60\norder payload 1 PAYLOAD on for 30 min\ntick 1800\n",
        "00:46:31      2,795  tick: PAYLOAD's 30 minutes are over: requested off; PAYLOAD off",
    );
    let never = |script: &str, line: &str| {
        let script = format!("{TIMED}{script}tick 90000\n");
        let ran = fed(
            &["log", "--explain", "--as", "script", "-"],
            script.as_bytes(),
        );
        let ran = ran.status(0).prints(line);
        assert!(!ran.text().contains("over: requested"), "{}", ran.text());
    };
    never(
        "tick 60\norder ground 18 PAYLOAD on\n",
        "order ground 18 PAYLOAD on: done, PAYLOAD's end is dropped\n",
    );
    never(
        "tick 60\norder ground 18 PAYLOAD off\n",
        "order ground 18 PAYLOAD off: done, PAYLOAD requested off; PAYLOAD's end is dropped\n",
    );
    let down = "tick: SAFE to RECOVERY, tension 6,900 mV below descend 7,000 mV; ";
    never(
        "tick 60\nbattery 6900\ntick 30\nbattery 7800\n",
        &format!("{down}PAYLOAD requested off; PAYLOAD's end is dropped; PAYLOAD off\n"),
    );
    never(
        "order ground 18 ADCS on for 30 min\norder ground 19 SBAND1 on\nbattery 6900\ntick 30\n",
        &format!(
            "{down}ADCS, PAYLOAD and SBAND1 requested off; the ends of ADCS and PAYLOAD are \
             dropped; ADCS, PAYLOAD and SBAND1 off\n"
        ),
    );
}

/// The 1,200th tick is also the one that judges: the end comes before the crossing.
#[test]
fn an_end_that_comes_in_the_tick_of_a_crossing_is_told_first() {
    then(
        "order ground 18 ADCS on for 21 min\ntick 1199\nbattery 6900\ntick\n",
        "00:35:31      2,136  tick: PAYLOAD's 20 minutes are over: requested off; \
         SAFE to RECOVERY, tension 6,900 mV below descend 7,000 mV; ADCS requested off; \
         ADCS's end is dropped; ADCS and PAYLOAD off",
    );
}

/// It shorts at every start: its five tries are spent at once, and so is the one
/// after ten minutes. Nothing is tried once its time is over.
#[test]
fn a_module_that_has_failed_as_its_end_comes_stays_failed() {
    let script = format!("{TIMED}tick 3000 shorts PAYLOAD\n");
    let ran = fed(
        &["log", "--explain", "--as", "script", "-"],
        script.as_bytes(),
    );
    let ran = ran
        .status(0)
        .prints("00:15:36        939  tick shorts PAYLOAD: PAYLOAD failed, 600 seconds to wait\n")
        .prints("00:25:37      1,540  tick shorts PAYLOAD: PAYLOAD shorted at its start, 600 seconds to wait\n")
        .prints("00:35:31      2,134  tick shorts PAYLOAD: PAYLOAD's 20 minutes are over: requested off\n");
    let after: Vec<&str> = ran
        .text()
        .lines()
        .skip_while(|line| !line.contains("are over"))
        .collect();
    assert_eq!(after.len(), 2, "{after:?}");
    assert!(after[1].contains(": nothing changed; 30 complete beacons, the last EMS S 7800 27 10"));
}

#[test]
fn a_timed_order_outside_safe_is_used_up_and_sets_no_end() {
    explained(
        "order ground 1 ADCS on for 20 min\n",
        "10, ADCS is not switched on in DEPLOY_WAIT; 1 is used up\n",
    );
    then(
        "battery 6900\ntick 30\norder ground 18 PAYLOAD on for 20 min\n",
        "10, PAYLOAD is not switched on in RECOVERY; 18 is used up\n",
    );
}

#[test]
fn minutes_that_no_board_takes_are_refused() {
    let refused = |bytes: &str, number: u8| {
        let script = format!("{TIMED}raw {bytes}\n");
        let ran = fed(
            &["log", "--explain", "--as", "script", "-"],
            script.as_bytes(),
        );
        ran.status(2)
            .says(&format!("frame 935, `raw {bytes}`, is refused: {number}, "));
    };
    refused("06 01 00 12 04 00 00", 6);
    refused("06 01 00 12 04 05 A1", 6);
    refused("06 01 00 12 04 05", 5);
    for (sent, number) in [
        ("order ground 18 0 on for 20 min", 6),
        ("order payload 1 5 on for 20 min", 6),
        ("order payload 1 ADCS on for 20 min", 7),
    ] {
        let script = format!("{TIMED}{sent}\n");
        let ran = fed(
            &["log", "--explain", "--as", "script", "-"],
            script.as_bytes(),
        );
        ran.status(2)
            .says(&format!("frame 935, `{sent}`, is refused: {number}, "));
    }
}

/// In SAFE, at 00:15:31; a beacon is due every minute, at its first second.
const SAFE: &str = "antennas deployed\nbattery 7800\ntick 931\n";

/// What an explanation says of what follows in SAFE.
fn in_safe(script: &str, line: &str) {
    explained(&format!("{SAFE}{script}"), line);
}

#[test]
fn a_greeting_is_told_with_its_beacons() {
    in_safe(
        "greet ground 21 5 \"HELLO FROM 4B\"\n",
        "greet ground 21 5 \"HELLO FROM 4B\": done, the greeting \"HELLO FROM 4B\" is kept, \
         for 5 beacons\n",
    );
    in_safe(
        "greet ground 21 1 \"HI\"\n",
        ": done, the greeting \"HI\" is kept, for 1 beacon\n",
    );
    // In every mode.
    for (script, mode) in [
        ("", "0"),
        ("antennas deployed\nbattery 7000\ntick 901\n", "1"),
    ] {
        let script = format!("{script}greet ground 21 5 \"HI\"\n");
        explained(
            &script,
            ": done, the greeting \"HI\" is kept, for 5 beacons\n",
        );
        let ran = fed(&["log", "--as", "script", "-"], script.as_bytes()).status(0);
        let last = ran.text().lines().last().expect("a report");
        assert!(last.contains(&format!(" 07 1 21 0 {mode} 27 ")), "{last}");
    }
    let again = "greet ground 21 5 \"HELLO\"\n";
    in_safe(
        &format!("{again}{again}"),
        "8, 21 is a repeat of ground's last number: nothing moved\n",
    );
    in_safe(
        &format!("{again}greet ground 20 5 \"HELLO\"\n"),
        "9, 20 is stale, ground's last number was 21: nothing moved\n",
    );
    // The ground has one row of numbers, whatever they are for.
    in_safe(
        &format!("{again}order ground 21 PAYLOAD on\n"),
        "8, 21 is a repeat of ground's last number: nothing moved\n",
    );
}

#[test]
fn a_greeting_is_replaced_and_cleared() {
    let hello = "greet ground 21 5 \"HELLO\"\ntick 90\n";
    let then = |words: &str, told: &str| {
        let line = format!("greet ground 22 {words}");
        in_safe(
            &format!("{hello}{line}\n"),
            &format!("{line}: done, {told}\n"),
        );
    };
    then(
        "2 \"73\"",
        "the greeting \"73\" is kept, for 2 beacons, in place of \"HELLO\"",
    );
    then(
        "9 \"HELLO\"",
        "the greeting \"HELLO\" is kept, for 9 beacons",
    );
    // Of five, two were due meanwhile.
    then("3 \"HELLO\"", "nothing changed");
    for clear in ["0 \"\"", "5 \"\"", "0 \"73\""] {
        then(clear, "the greeting \"HELLO\" is cleared");
        let line = format!("greet ground 1 {clear}");
        in_safe(
            &format!("{line}\n"),
            &format!("{line}: done, nothing changed\n"),
        );
    }
    // What is cleared is sent no more.
    in_safe(
        &format!("{hello}greet ground 22 0 \"\"\ntick 300\n"),
        "the greeting \"HELLO\" is cleared\n\
         00:22:01      1,325  300 ticks, frames 1,026 to 1,325: nothing changed; \
         5 complete beacons, the last EMS S 7800 27 00\n",
    );
}

/// The last one is told by itself, so that those before and after it are of one kind.
#[test]
fn the_last_repeat_is_told() {
    in_safe(
        "greet ground 21 3 \"HELLO FROM 4B\"\ntick 600\n",
        "00:15:31        934  greet ground 21 3 \"HELLO FROM 4B\": done, the greeting \
         \"HELLO FROM 4B\" is kept, for 3 beacons\n\
         00:18:00      1,083  149 ticks, frames 935 to 1,083: nothing changed; \
         2 extended beacons, the last EMS S 7800 27 00 HELLO FROM 4B\n\
         00:18:01      1,084  tick: the greeting goes out for the last time; \
         extended beacon due: EMS S 7800 27 00 HELLO FROM 4B\n\
         00:25:31      1,534  450 ticks, frames 1,085 to 1,534: nothing changed; \
         7 complete beacons, the last EMS S 7800 27 00\n",
    );
    // It stays, and can be cleared.
    in_safe(
        "greet ground 21 3 \"HELLO\"\ntick 600\ngreet ground 22 0 \"\"\n",
        "greet ground 22 0 \"\": done, the greeting \"HELLO\" is cleared\n",
    );
}

/// On the way down the beacon of that very second is none, and on the way up it is an
/// extended one: the mode after judging counts.
#[test]
fn recovery_uses_up_nothing() {
    in_safe(
        "greet ground 21 2 \"HELLO\"\nbattery 6900\ntick 629\nbattery 7800\ntick 90\n",
        "00:15:31        935  battery 6900: done, tension 6,900 mV\n\
         00:16:00        964  29 ticks, frames 936 to 964: nothing changed\n\
         00:16:01        965  tick: SAFE to RECOVERY, tension 6,900 mV below descend 7,000 mV\n\
         00:26:00      1,564  599 ticks, frames 966 to 1,564: nothing changed; \
         2 basic beacons, the last EMS R 6900\n\
         00:26:00      1,565  battery 7800: done, tension 7,800 mV\n\
         00:26:01      1,566  tick: RECOVERY to SAFE, tension 7,800 mV above ascend 7,400 mV; \
         extended beacon due: EMS S 7800 27 00 HELLO\n\
         00:27:00      1,625  59 ticks, frames 1,567 to 1,625: nothing changed\n\
         00:27:01      1,626  tick: the greeting goes out for the last time; \
         extended beacon due: EMS S 7800 27 00 HELLO\n",
    );
}

/// Why a greeting is refused: the keyer's reason, where it is the text.
#[test]
fn a_greeting_that_is_refused_is_told_why() {
    let refused = |line: &str, said: &str| {
        let script = format!("{SAFE}{line}\n");
        let args = ["log", "--explain", "--as", "script", "-"];
        let ran = fed(&args, script.as_bytes()).status(2);
        let (number, why) = said.split_once(", ").expect("a number and a reason");
        let ran = ran.prints(&format!("  {line}: refused, {number}: {why}\n"));
        ran.says(&format!(
            "line 4: frame 934, `{line}`, is refused: {said}\n"
        ));
    };
    let alphabet = "it has 0 to 9, A to Z, the space, `,`, `.`, `/` and `?`";
    let outside = "6, the greeting can't be keyed: a character is outside the alphabet";
    refused(
        "greet ground 21 5 \"Hello from 4B\"",
        &format!("{outside}: `e`, character 2; {alphabet}"),
    );
    refused(
        "greet ground 21 5 \"HELLO!\"",
        &format!("{outside}: `!`, character 6; {alphabet}"),
    );
    // Also where it would be cleared, and where the payload sends it.
    refused(
        "greet ground 21 0 \"hi\"",
        &format!("{outside}: `h`, character 1; {alphabet}"),
    );
    refused(
        "greet payload 21 5 \"hi\"",
        &format!("{outside}: `h`, character 1; {alphabet}"),
    );
    let space = "6, the greeting can't be keyed: a space is first, last or doubled: character";
    for (text, at) in [(" HI", 1), ("HI ", 3), ("A  B", 3), (" ", 1)] {
        refused(
            &format!("greet ground 21 5 \"{text}\""),
            &format!("{space} {at}"),
        );
    }
    refused(
        "greet 3 21 5 \"HI\"",
        "6, the origin, the length or a byte past the text is outside its range",
    );
    refused(
        "greet payload 21 5 \"HI\"",
        "7, the payload asks for what only the ground may",
    );
    // Other frames are told as ever.
    refused(
        "battery 4999",
        "6, a field is outside its range, or descend is above ascend",
    );
}
