//! `ems log --explain`: the tries of a module, as they are spent and come back.

mod common;

use common::fed;

/// What is told after SBAND1 is requested on in SAFE, line by line; times and numbers
/// of frames are left out, and so is what fell due in quiet ticks.
fn told(script: &str) -> Vec<String> {
    let script =
        format!("antennas deployed\nbattery 7800\ntick 931\norder ground 1 SBAND1 on\n{script}");
    let ran = fed(
        &["log", "--explain", "--as", "script", "-"],
        script.as_bytes(),
    );
    let ran = ran.status(0);
    let lines = ran.text().lines().map(|line| line.split_at(21).1);
    let after = lines.skip_while(|line| !line.starts_with("order ground 1 "));
    let told = after.skip(1).map(|line| match line.split_once(" ticks, ") {
        Some((ticks, _)) => format!("{ticks} ticks: nothing changed"),
        None => line.to_string(),
    });
    told.collect()
}

/// It comes up cleanly, and shorts a second later.
const START_AND_SHORT: &str = "tick\ntick shorts SBAND1\n";

#[test]
fn a_short_while_on_takes_a_try_and_a_start_gives_none() {
    assert_eq!(
        told(&START_AND_SHORT.repeat(5)),
        [
            "tick: SBAND1 on",
            "tick shorts SBAND1: SBAND1 off, shorted, 4 tries left",
            "tick: SBAND1 on, 4 tries left",
            "tick shorts SBAND1: SBAND1 off, shorted, 3 tries left",
            "tick: SBAND1 on, 3 tries left",
            "tick shorts SBAND1: SBAND1 off, shorted, 2 tries left",
            "tick: SBAND1 on, 2 tries left",
            "tick shorts SBAND1: SBAND1 off, shorted, 1 try left",
            "tick: SBAND1 on, 1 try left",
            "tick shorts SBAND1: SBAND1 failed, 600 seconds to wait",
        ]
    );
    // At its start as well.
    assert_eq!(
        told("tick\ntick 6 shorts SBAND1\n")[1..],
        [
            "tick shorts SBAND1: SBAND1 off, shorted, 4 tries left",
            "tick shorts SBAND1: SBAND1 shorted at its start, 3 tries left",
            "tick shorts SBAND1: SBAND1 shorted at its start, 2 tries left",
            "tick shorts SBAND1: SBAND1 shorted at its start, 1 try left",
            "tick shorts SBAND1: SBAND1 failed, 600 seconds to wait",
            "tick shorts SBAND1: nothing changed",
        ]
    );
}

#[test]
fn a_failed_module_starts_with_one_try_every_602_seconds() {
    let failed = START_AND_SHORT.repeat(5);
    let again = [
        "600 ticks: nothing changed",
        "tick: SBAND1 on, 1 try left",
        "tick shorts SBAND1: SBAND1 failed, 600 seconds to wait",
    ];
    let script = format!("{failed}{}", "tick 601\ntick shorts SBAND1\n".repeat(3));
    assert_eq!(told(&script)[10..], again.repeat(3));
    assert_eq!(
        told(&format!("{failed}tick 600\ntick shorts SBAND1\n"))[10..],
        [
            "600 ticks: nothing changed",
            "tick shorts SBAND1: SBAND1 shorted at its start, 600 seconds to wait",
        ]
    );
}

/// The tick that starts it is not one of the 60, and seconds alone are no change.
#[test]
fn tries_that_come_back_are_told_after_60_seconds() {
    let back = [
        "59 ticks: nothing changed",
        "tick: SBAND1 has all 5 tries again",
    ];
    let short = format!("{START_AND_SHORT}tick\n");
    assert_eq!(told(&format!("{short}tick 60\n"))[3..], back);
    assert_eq!(told(&format!("{short}tick 59\n"))[3..], back[..1]);
    assert_eq!(
        told(&format!("{short}tick 600\n"))[3..],
        [back[0], back[1], "540 ticks: nothing changed"]
    );
    // From the one try of a module that had failed.
    let failed = START_AND_SHORT.repeat(5);
    assert_eq!(told(&format!("{failed}tick 661\n"))[12..], back);
    // A short before that takes one more, and another 60 are counted.
    assert_eq!(
        told(&format!("{short}tick 59\ntick shorts SBAND1\ntick 61\n"))[4..],
        [
            "tick shorts SBAND1: SBAND1 off, shorted, 3 tries left",
            "tick: SBAND1 on, 3 tries left",
            back[0],
            back[1],
        ]
    );
}

#[test]
fn a_module_that_is_switched_off_keeps_its_tries_and_says_so() {
    let off = "order ground 2 SBAND1 off\n";
    let short = format!("{START_AND_SHORT}tick 30\n{off}");
    let kept = format!("{short}tick\norder ground 3 SBAND1 on\ntick\n");
    assert_eq!(
        told(&kept)[5..],
        [
            "tick: SBAND1 off, 4 tries left",
            "order ground 3 SBAND1 on: done, SBAND1 requested on",
            "tick: SBAND1 on, 4 tries left",
        ]
    );
    // The short goes first.
    assert_eq!(
        told(&format!("{short}tick shorts SBAND1\n"))[5..],
        ["tick shorts SBAND1: SBAND1 off, shorted, 3 tries left"]
    );
    // With all five, nothing is said of them.
    assert_eq!(
        told(&format!("tick 100\n{off}tick\n")),
        [
            "tick: SBAND1 on",
            "99 ticks: nothing changed",
            "order ground 2 SBAND1 off: done, SBAND1 requested off",
            "tick: SBAND1 off",
        ]
    );
}

#[test]
fn modules_with_the_same_tries_are_told_of_together() {
    let both = "order ground 2 PAYLOAD on\ntick\n";
    assert_eq!(
        told(&format!("{both}tick 2 shorts PAYLOAD,SBAND1\ntick 61\n"))[1..],
        [
            "tick: PAYLOAD and SBAND1 on",
            "tick shorts PAYLOAD,SBAND1: PAYLOAD and SBAND1 off, shorted, 4 tries left",
            "tick shorts PAYLOAD,SBAND1: PAYLOAD and SBAND1 shorted at their start, 3 tries left",
            "tick: PAYLOAD and SBAND1 on, 3 tries left",
            "59 ticks: nothing changed",
            "tick: PAYLOAD and SBAND1 have all 5 tries again",
        ]
    );
    let one = format!("{both}tick shorts SBAND1\ntick\nbattery 6900\ntick 27\n");
    let down = told(&one).pop().expect("a crossing");
    assert!(
        down.ends_with("; PAYLOAD off; SBAND1 off, 4 tries left"),
        "{down}"
    );
}
