//! `ems uplink`: a whole pass in one call, as far as it comes.

mod common;

use ::ems::{answer, Craft, REPORT_BYTES};
use common::{bash, fed, place, root, run, scratch, vectors, Ran};
use std::fs;

/// A script, handed over at the fresh start.
fn handed(script: &str, more: &[&str]) -> Ran {
    let args = [&["uplink", "--as", "script", "-"], more].concat();
    fed(&args, script.as_bytes())
}

/// What stands under the frames, but for the modules that are on then.
fn verdict(ran: &Ran) -> Vec<&str> {
    let (_, verdict) = ran.text().split_once("\n\n").expect("an empty line");
    let last = left_on(ran);
    verdict.lines().take_while(|line| *line != last).collect()
}

/// The last line: the modules that are on then.
fn left_on(ran: &Ran) -> &str {
    let last = ran.text().lines().last();
    let left = last.filter(|last| last.starts_with("The board is left with "));
    left.expect("how many modules are on")
}

/// What stands above it: the frames that have a report.
fn frames(ran: &Ran) -> Vec<&str> {
    let (frames, _) = ran.text().split_once("\n\n").expect("an empty line");
    frames.lines().collect()
}

/// A line of `log --explain` without the text of a beacon. What a greeting says stays.
fn without_text(line: &str) -> &str {
    if line.contains("  greet ") {
        return line;
    }
    let begin = line.find("EMS ").unwrap_or(line.len());
    let line = &line[..begin];
    let line = line.trim_end_matches(": ").trim_end_matches(", the last ");
    line.trim_end_matches(", ")
}

/// With room for every report a pass comes as far as a log, and the same is told of
/// every frame but for the text of its beacon.
#[test]
fn with_room_for_all_it_is_told_as_single_calls_are() {
    for (stream, log) in vectors() {
        let log = fs::read_to_string(&log).expect("a log");
        let refused = log.lines().find_map(|line| line.split_once(" refused "));
        let ran = run(&["uplink", &stream]).status(if refused.is_some() { 2 } else { 0 });
        let explained = run(&["log", "--explain", &stream]);
        assert_eq!(ran.err, explained.err);
        let mut lines: Vec<&str> = explained.text().lines().map(without_text).collect();
        if refused.is_some() {
            lines.pop();
        }
        assert_eq!(frames(&ran), lines, "{stream}");
        let reports = log.lines().count() - 1 - usize::from(refused.is_some());
        assert!(
            verdict(&ran)[0]
                .replace(',', "")
                .starts_with(&format!("{reports} report")),
            "{stream}"
        );
        if let Some((n, answer)) = refused {
            let stop = verdict(&ran)[1].replace(',', "");
            assert!(
                stop.starts_with(&format!("The pass stops before frame {n} ")),
                "{stop}"
            );
            assert!(stop.contains(&format!("`: {answer} ")), "{stop}");
        }
    }
}

/// What `ems frames` writes is what the call takes; what it answers, how many reports
/// there are, and the image that is left, are the call's.
#[test]
fn the_answer_is_that_of_one_call_with_the_bytes_of_frames() {
    for name in [
        "dawn",
        "morning",
        "quiet-radio",
        "school",
        "shorted",
        "sister-craft-a",
        "starts-and-shorts",
        "twenty-minutes",
    ] {
        let script = format!("examples/{name}.pass");
        let bytes = run(&["frames", &script, "-o", "-"]).status(0).out;
        for room in [0, 10, 11, 12, 21, 22, 1_000, 2_048, 1_000_000] {
            let mut craft = Craft::fresh();
            let (given, reported) = craft.pass(&bytes, &mut vec![0; room]);
            let image = place("after.bin");
            let args = ["uplink", &script, "--room", &room.to_string(), "-o", &image];
            let ran = run(&args).status(if given == answer::DONE { 0 } else { 2 });
            let verdict = verdict(&ran);
            let (report, back) = (
                if reported == 1 {
                    "report comes"
                } else {
                    "reports come"
                },
                REPORT_BYTES * reported,
            );
            let said = verdict[0].replace(',', "");
            let wanted = format!("{reported} {report} back {back} bytes of a room of {room}");
            assert!(said.starts_with(&wanted), "{said} is not {wanted}");
            let stopped = verdict.get(1).map(|stop| stop.replace(',', ""));
            let why = stopped.is_some_and(|stop| {
                let n = format!("The pass stops before frame {} ", reported + 1);
                stop.starts_with(&n) && stop.contains(&format!("`: {given} "))
            });
            assert_eq!(why, given != answer::DONE, "{verdict:?}");
            assert_eq!(
                fs::read(&image).expect("an image"),
                craft.image(),
                "{name}, {room}"
            );
        }
    }
}

#[test]
fn a_pass_that_is_done_says_so() {
    let ran = handed("antennas deployed\nbattery 7800\ntick 3\n", &[]).status(0);
    assert_eq!(
        ran.text(),
        "    time      frame  what was sent, and what came of it
00:00:00          1  antennas deployed: done, antennas deployed
00:00:00          2  battery 7800: done, tension 7,800 mV
00:00:01          3  tick: waiting is over, settling begins
00:00:03          5  2 ticks, frames 4 to 5: nothing changed

5 reports come back, 55 bytes: one for every frame.
The board is left with 0 modules on.
"
    );
    assert!(ran.err.is_empty());
    let ran = handed("tick\n", &["--room", "256"]).status(0);
    assert_eq!(
        verdict(&ran),
        ["1 report comes back, 11 bytes of a room of 256: one for every frame."]
    );
    let ran = handed("# nothing\n", &["--room", "0"]).status(0);
    assert_eq!(
        verdict(&ran),
        ["0 reports come back, 0 bytes of a room of 0: one for every frame."]
    );
}

/// Last come the modules that are on: how many by the call, and which by the on mask of
/// the image that it leaves; also where the pass stops before its end.
#[test]
fn it_ends_with_the_modules_that_are_on() {
    let begin = "antennas deployed\nbattery 7800\n";
    let left = |script: &str, status: i32, said: &str| {
        let ran = handed(&format!("{begin}{script}"), &[]).status(status);
        assert_eq!(left_on(&ran), format!("The board is left with {said}."));
    };
    left("tick 901\n", 0, "0 modules on");
    let core = "4 modules on: MCS, COMM1, COMM2 and I2C";
    left("tick 902\n", 0, core);
    left("tick 902\nbattery 4999\n", 2, core);
    let off = "order ground 1 COMM1 off\norder ground 2 COMM2 off\norder ground 3 I2C off\n";
    left(&format!("tick 901\n{off}tick\n"), 0, "1 module on: MCS");
    let on = "order ground 4 PAYLOAD on\n";
    let camera = format!("tick 931\n{on}tick\n");
    left(
        &camera,
        0,
        "5 modules on: MCS, COMM1, COMM2, PAYLOAD and I2C",
    );
    left(&format!("tick 931\n{on}tick 6 shorts PAYLOAD\n"), 0, core);
    // With room for all reports but the last, the camera is not on yet.
    let room = (934 * REPORT_BYTES).to_string();
    let ran = handed(&format!("{begin}{camera}"), &["--room", &room]).status(2);
    assert_eq!(left_on(&ran), format!("The board is left with {core}."));
}

/// A greeting's beacons are told without their text, as others are; one that can't be
/// keyed stops the pass, with the keyer's reason.
#[test]
fn a_greeting_goes_up_with_a_pass() {
    let safe = "antennas deployed\nbattery 7800\ntick 931\n";
    let script = format!("{safe}greet ground 21 3 \"HELLO FROM 4B\"\ntick 240\n");
    let ran = handed(&script, &[]).status(0);
    assert_eq!(
        frames(&ran)[9..],
        [
            "00:15:31        934  greet ground 21 3 \"HELLO FROM 4B\": done, the greeting \
             \"HELLO FROM 4B\" is kept, for 3 beacons",
            "00:18:00      1,083  149 ticks, frames 935 to 1,083: nothing changed; \
             2 extended beacons",
            "00:18:01      1,084  tick: the greeting goes out for the last time; \
             extended beacon due",
            "00:19:31      1,174  90 ticks, frames 1,085 to 1,174: nothing changed; \
             1 complete beacon",
        ]
    );
    let ran = handed("greet ground 21 3 \"Hello\"\ntick\n", &[]).status(2);
    let why = "6, the greeting can't be keyed: a character is outside the alphabet: \
               `e`, character 2; it has 0 to 9, A to Z, the space, `,`, `.`, `/` and `?`";
    assert_eq!(
        verdict(&ran)[1],
        format!("The pass stops before frame 1, line 1, `greet ground 21 3 \"Hello\"`: {why}.")
    );
    ran.says(&format!(
        "`greet ground 21 3 \"Hello\"`, is refused: {why}\n"
    ));
}

/// 8, 9 and 10 are reports, and stop nothing.
#[test]
fn what_is_answered_stops_nothing() {
    let script = "order ground 5 MCS on\norder ground 5 MCS on\norder ground 4 MCS on\n\
                  order ground 6 PAYLOAD on\nbattery 7800\n";
    let ran = handed(script, &[]).status(0);
    let frames = frames(&ran);
    assert_eq!(frames.len(), 6);
    for (line, said) in frames[2..]
        .iter()
        .zip(["8, 5 is", "9, 4 is", "10, PAYLOAD is", "done"])
    {
        assert!(line.contains(&format!(": {said}")), "{line}");
    }
}

/// Before each frame that is refused, with the reason that `log` gives.
#[test]
fn a_bad_frame_stops_it_where_it_stands() {
    let stops = |bad: &str, said: &str, left: &str| {
        let script = format!("battery 7800\n# what follows is bad\n{bad}\nbattery 7900\n");
        let ran = handed(&script, &[]).status(2);
        let lines = verdict(&ran);
        assert_eq!(lines[0], "1 report comes back, 11 bytes.");
        assert_eq!(
            lines[1],
            format!("The pass stops before frame 2, line 3, `{bad}`: {said}.")
        );
        assert_eq!(lines[2], format!("Not worked: {left}, from byte 3 on."));
        assert_eq!(frames(&ran).len(), 2);
        // After 4 and 5 nobody can tell how many frames there are.
        let known = said.starts_with(['6', '7']);
        assert_eq!(lines.len(), if known { 4 } else { 3 });
        assert!(lines.get(3).is_none_or(|room| {
            *room == "For a report on every frame, 3 in all, it takes 33 bytes of room."
        }));
        ran.says(&format!(
            "standard input, line 3: frame 2, `{bad}`, is refused: {said}\n"
        ));
    };
    stops(
        "raw 77",
        "4, no frame that is read begins with this byte",
        "4 of its 7 bytes",
    );
    let range = "6, a field is outside its range, or descend is above ascend";
    stops("battery 4999", range, "6 of its 9 bytes");
    stops("thresholds ground 1 7000 7001", range, "11 of its 14 bytes");
    let payload = "7, the payload asks for what only the ground may";
    stops("order payload 1 MCS on", payload, "9 of its 12 bytes");
    // A tail that is cut off, and bytes instead of a script.
    let ran = fed(&["uplink", "-"], &[1, 0, 4, 1, 0]).status(2);
    assert_eq!(
        verdict(&ran)[1..],
        [
            "The pass stops before frame 2, byte 2, `raw 04 01 00`: 5, the length is not the kind's total.",
            "Not worked: 3 of its 5 bytes, from byte 2 on.",
        ]
    );
}

/// Room is looked at before the frame itself is.
#[test]
fn room_that_runs_out_stops_it_before_a_bad_frame_does() {
    let script = "tick 2\nbattery 4999\ntick\n";
    let room = "2, there is no room for the report";
    let range = "`battery 4999`: 6, a field is outside its range, or descend is above ascend";
    let more = format!("With more room it would stop before frame 3, line 2, {range}.");
    let all = "For a report on every frame, 4 in all, it takes 44 bytes of room.";
    for (given, n, line, frame, left) in [
        ("0", 1, 1, "tick", "9 of its 9 bytes, from byte 0 on"),
        ("10", 1, 1, "tick", "9 of its 9 bytes, from byte 0 on"),
        ("21", 2, 1, "tick", "7 of its 9 bytes, from byte 2 on"),
        (
            "32",
            3,
            2,
            "battery 4999",
            "5 of its 9 bytes, from byte 4 on",
        ),
    ] {
        let ran = handed(script, &["--room", given]).status(2);
        assert_eq!(
            verdict(&ran)[1..],
            [
                format!("The pass stops before frame {n}, line {line}, `{frame}`: {room}."),
                format!("Not worked: {left}."),
                more.clone(),
                all.to_string(),
            ]
        );
        ran.says(&format!(
            "line {line}: frame {n}, `{frame}`, is refused: {room}\n"
        ));
    }
    let ran = handed(script, &["--room", "33"]).status(2);
    assert_eq!(
        verdict(&ran)[1],
        format!("The pass stops before frame 3, line 2, {range}.")
    );
    // Where nothing else would stop it, nothing else is said.
    let ran = handed("tick 2\n", &["--room", "11"]).status(2);
    assert_eq!(
        verdict(&ran)[2..],
        [
            "Not worked: 2 of its 4 bytes, from byte 2 on.",
            "For a report on every frame, 2 in all, it takes 22 bytes of room.",
        ]
    );
}

/// A pass that is cut at a frame, and handed over in two calls, is the same pass; also
/// where a module has spent a try, and its seconds run.
#[test]
fn the_next_pass_goes_on_from_the_image() {
    let script = fs::read_to_string(root().join("examples/shorted.pass")).expect("a script");
    let bytes = fed(&["frames", "-", "-o", "-"], script.as_bytes())
        .status(0)
        .out;
    let (whole, half, rest) = (place("whole.bin"), place("half.bin"), place("rest.bin"));
    let all = handed(&script, &["-o", &whole]).status(0);
    let said = |ran: &Ran| -> Vec<String> {
        let lines = frames(ran).into_iter().skip(1);
        let told = lines.map(|line| line[21..].to_string());
        told.filter(|line| !line.contains("nothing changed"))
            .collect()
    };
    for room in ["12320", "15000"] {
        let first = handed(&script, &["--room", room, "-o", &half]).status(2);
        let cut = verdict(&first)[2];
        let (_, byte) = cut.split_once("from byte ").expect("where the rest begins");
        let digits: String = byte.chars().filter(char::is_ascii_digit).collect();
        let tail = &bytes[digits.parse().expect("a number")..];
        let next = fed(&["uplink", "-", "--image", &half, "-o", &rest], tail).status(0);
        assert_eq!(
            fs::read(&rest).expect("an image"),
            fs::read(&whole).expect("an image")
        );
        assert_eq!([said(&first), said(&next)].concat(), said(&all));
    }
    // The seconds of the first cut.
    handed(&script, &["--room", "12320", "-o", &half]).status(2);
    run(&["image", &half])
        .status(0)
        .prints("PAYLOAD        on, 4 tries left, 33 of 60 seconds, requested\n");
}

/// After a flight the board is known; of an image alone, less is.
#[test]
fn it_begins_where_it_is_told_to() {
    let before = "antennas deployed\nbattery 7800\ntick 931\norder ground 17 PAYLOAD on for 20 min\ntick 600\n";
    let before = scratch("before.pass", before);
    let image = place("before.bin");
    run(&["uplink", &before, "-o", &image]).status(0);
    let pass = scratch(
        "next.pass",
        "order ground 17 PAYLOAD off\norder payload 0 PAYLOAD off\ntick 600\n",
    );
    let next = |from: &[&str]| run(&[&["uplink", &pass], from].concat()).status(0);
    for (from, over) in [
        (["--after", &before], "20 minutes"),
        (["--image", &image], "10 minutes"),
    ] {
        next(&from)
            .prints("00:00:00          1  order ground 17 PAYLOAD off: 8, 17 is a repeat of ground's last number: nothing moved\n")
            .prints("          2  order payload 0 PAYLOAD off: 8, 0 is the number that a board begins with: nothing moved\n")
            .prints(&format!("00:10:00        602  tick: PAYLOAD's {over} are over: requested off; PAYLOAD off"));
    }
    // And at the fresh start there is nothing to repeat.
    next(&[]).prints("1  order ground 17 PAYLOAD off: done, nothing changed\n");
}

/// Who makes one call for all frames has no image to form a beacon's text from.
#[test]
fn a_beacon_is_due_and_has_no_text() {
    let ran = handed("antennas deployed\nbattery 7800\ntick 1200\n", &[]).status(0);
    assert!(
        ran.text()
            .contains(": nothing changed; 4 complete beacons\n"),
        "{}",
        ran.text()
    );
    assert!(!ran.text().contains("EMS"), "{}", ran.text());
    let script = "antennas deployed\nbattery 7800\ntick 960\norder ground 1 PAYLOAD on\ntick\n";
    handed(script, &[])
        .status(0)
        .prints("tick: PAYLOAD on; complete beacon due\n");
}

#[test]
fn an_image_that_is_none_is_told_why() {
    let image = place("fresh.bin");
    handed("", &["-o", &image]).status(0);
    let mut bytes = fs::read(&image).expect("an image");
    assert_eq!(bytes, Craft::fresh().image());
    bytes[7] = 2;
    let wrong = |bytes: &[u8], why: &str| {
        let file = scratch("wrong.bin", bytes);
        let ran = handed("tick\n", &["--image", &file]).status(1).says(why);
        assert!(ran.out.is_empty());
    };
    wrong(
        &bytes,
        "wrong.bin: no state has this image: antennas is 2, not 0 or 1\n",
    );
    wrong(
        &bytes[..70],
        "wrong.bin has 70 bytes, and an image of version 6 has 71\n",
    );
    // The on mask has PAYLOAD, and nothing else has changed.
    let mut bytes = *Craft::fresh().image();
    bytes[53] = 0x10;
    wrong(
        &bytes,
        "wrong.bin: no state has this image: on mask is 10, with PAYLOAD, which is off, \
         5 tries left, not requested\n",
    );
}

#[test]
fn what_comes_before_has_to_be_flyable() {
    let before = scratch("before.pass", "tick\nbattery 1\n");
    let ran = handed("tick\n", &["--after", &before]).status(2);
    assert!(ran.out.is_empty());
    ran.says("before.pass, line 2: frame 2, `battery 1`, is refused: 6");
}

#[test]
fn files_are_not_in_each_other_s_way() {
    let pass = scratch("a.pass", "tick\n");
    let image = place("a.bin");
    run(&["uplink", &pass, "-o", &image]).status(0);
    let wrong = |args: &[&str], why: &str| {
        let ran = run(&[&["uplink"], args].concat()).status(1).says(why);
        assert!(ran.out.is_empty());
    };
    wrong(
        &[&pass, "-o", &pass],
        "a.pass: is the input, which would be lost",
    );
    wrong(
        &[&pass, "--after", &pass, "-o", &pass],
        "a.pass: is the input, which would be lost",
    );
    wrong(
        &[&pass, "--image", &image, "-o", &image],
        "a.bin: is the input, which would be lost",
    );
    wrong(&[&pass, "-o", "-"], "name a file after -o");
    wrong(
        &["-", "--image", "-"],
        "standard input can be the pass or what comes before it, not both",
    );
    wrong(
        &["-", "--after", "-"],
        "standard input can be the pass or what comes before it, not both",
    );
    for args in [
        &[&pass, "--image", &image, "--after", &pass][..],
        &[&pass, "--room", "-1"],
        &[&pass, "--room", "many"],
        &[&pass, "--room"],
    ] {
        run(&[&["uplink"], args].concat()).status(1);
    }
    bash("$ems uplink examples/dawn.pass >&-")
        .status(1)
        .says("ems: standard output: is closed");
}

/// A slip of some digits takes neither memory nor hours.
#[test]
fn what_is_no_pass_is_not_taken_for_one() {
    let ran = handed("tick 4294967295\n", &[]).status(1);
    ran.says("standard input has over 4,000,000 bytes of frames: no pass is so long\n");
    handed("tick 86400\n", &["--room", "18446744073709551615"]).status(0);
}

#[test]
fn text_that_is_taken_for_bytes_is_told_what_to_type() {
    let file = scratch("notes.txt", "tick 3\n");
    run(&["uplink", &file])
        .status(2)
        .says("is refused: 4, no frame that is read begins with this byte; ");
    run(&["uplink", &file])
        .status(2)
        .says("notes.txt looks like text: `--as script` takes it for a pass script\n");
    run(&["uplink", &file, "--as", "script"]).status(0);
}
