//! `ems compare`: premises, conclusions, statuses.

mod common;

use common::{fed, place, run, scratch, Ran};

/// Two scripts, compared.
fn compared(name: &str, a: &str, b: &str) -> Ran {
    let a = scratch(&format!("{name}-a.pass"), a.as_bytes());
    let b = scratch(&format!("{name}-b.pass"), b.as_bytes());
    run(&["compare", &a, &b])
}

/// What is said of the core four, up to whether it holds.
const CORE: &str = "\n  core       of MCS, COMM1, COMM2 and I2C, shorted or not, \
                    both have the same requested, on and failed: ";

#[test]
fn the_same_flight_never_differs() {
    let ran = run(&["compare", "examples/dawn.pass", "examples/dawn.pass"]).status(0);
    assert!(ran.text().contains("\nThey never differ.\n"));
    assert_eq!(ran.text().matches(": holds\n").count(), 4);
}

/// A greeting is a frame like others: with the same one the promise holds, also where
/// one craft has no beacon for it, and with another one it is not spoken of.
#[test]
fn greetings_are_among_the_same_frames() {
    let flight = |millivolts: &str, greeting: &str| {
        format!(
            "antennas deployed\nbattery {millivolts}\ngreet ground 1 5 \"{greeting}\"\ntick 1500\n"
        )
    };
    let (low, high) = (flight("7000", "HELLO"), flight("7800", "HELLO"));
    let ran = compared("greeted", &low, &high).status(0);
    assert_eq!(ran.text().matches(": holds\n").count(), 4);
    let ran = compared("differently", &low, &flight("7800", "HELLo")).status(3);
    ran.says("frame 3, the frames are not the same: `greet ground 1 5 \"HELLO\"` on A, `greet ground 1 5 \"HELLo\"` on B");
}

#[test]
fn a_lower_reading_on_b_breaks_the_premises() {
    let ran = run(&[
        "compare",
        "examples/sister-craft-b.pass",
        "examples/sister-craft-a.pass",
    ]);
    let ran = ran
        .status(3)
        .says("the premises do not hold: frame 2, B's reading is lower");
    assert_eq!(
        ran.text().matches(": DOES NOT HOLD: frame 4,240, ").count(),
        3
    );
    // No reading tells the two apart by a core module.
    ran.prints(&format!("{CORE}holds\n"));
}

#[test]
fn a_reading_out_of_range_breaks_the_premises() {
    let ran = compared("range", "battery 9000\ntick\n", "battery 9001\ntick\n").status(3);
    ran.says("frame 1, B's reading is out of range: `battery 9000` on A, `battery 9001` on B");
    let ran = compared("both", "battery 4999\n", "battery 4999\n").status(3);
    ran.says("A's reading is out of range");
}

#[test]
fn other_frames_break_the_premises() {
    let ran = compared("other", "tick 3\nantennas deployed\n", "tick 4\n").status(3);
    ran.says("frame 4, the frames are not the same: `antennas deployed` on A, `tick` on B");
    compared("short", "tick 2\n", "tick 3\n")
        .status(3)
        .says("frame 3, only B has a frame here, `tick`");
    compared("long", "tick 2\n", "tick\n")
        .status(3)
        .says("frame 2, only A has a frame here, `tick`");
}

#[test]
fn a_frame_refused_on_both_ends_the_flights() {
    let ran = compared("refused", "tick\nantennas 2\n", "tick\nantennas 2\n").status(2);
    let ran = ran.prints("hold: 2 frames, the same on both").prints(
        "So it is promised that after each of the first 2 frames, where the comparison ended:\n",
    );
    ran.says("on both craft: ")
        .says("line 2: frame 2, `antennas 2`, is refused: 6, a field");
}

/// Where it ended early, nothing is said of every frame.
#[test]
fn a_comparison_that_stops_says_how_far_it_came() {
    let ran = compared(
        "early",
        "tick\nantennas 2\ntick 5\n",
        "tick\nantennas 2\ntick 5\n",
    );
    let ran = ran.status(2);
    assert!(!ran.text().contains("after every frame"), "{}", ran.text());
    let ran = compared("short", "tick 2\n", "tick 3\n").status(3);
    ran.prints("So nothing is promised, and after each of the first 2 frames, where the comparison ended:\n");
    let ran = compared("whole", "tick 2\n", "tick 2\n").status(0);
    ran.prints("So it is promised that after every frame:\n");
}

#[test]
fn a_comparison_goes_on_after_6_and_7_if_that_is_wanted() {
    let flight = |reading: u16| {
        format!("antennas deployed\nbattery {reading}\nantennas 2\ntick 931\norder payload 1 MCS on\ntick\n")
    };
    let a = scratch("going-a.pass", flight(7_000));
    let b = scratch("going-b.pass", flight(8_000));
    let ran = run(&["compare", "--keep-going", &a, &b]).status(2);
    let ran = ran
        .prints("hold: 936 frames, the same on both but for 1 of 1 battery reading, all in range")
        .prints("after every frame:\n")
        .prints("frames 934 to 936, 00:15:31 to 00:15:32\n");
    assert_eq!(
        ran.err.matches("ems: on both craft: ").count(),
        2,
        "{}",
        ran.err
    );
    // Refused on one alone, the premises don't hold, and the rest is shown.
    let b = scratch("going-b.pass", flight(9_001));
    let ran = run(&["compare", "--keep-going", &a, &b]).status(3);
    ran.prints("after every frame:\n")
        .says("B's reading is out of range");
}

#[test]
fn one_stream_is_not_two_craft() {
    fed(&["compare", "-", "-"], b"\x01\x00")
        .status(1)
        .says("standard input can be one of the two craft, not both");
    fed(&["compare", "examples/dawn.pass", "-"], b"\x01\x00").status(3);
}

#[test]
fn both_files_can_be_taken_for_scripts() {
    let (a, b) = (scratch("a.txt", "tick 3\n"), scratch("b.txt", "tick 3\n"));
    let ran = run(&["compare", &a, &b]).status(2);
    ran.says("a.txt looks like text: `--as script` takes it for a pass script");
    run(&["compare", "--as", "script", &a, &b]).status(0);
    // Also where it is the premises that don't hold.
    let b = scratch("b.txt", "antennas deployed\n");
    let ran = run(&["compare", &a, &b]).status(3);
    assert!(
        ran.err.contains("looks like text: `--as script`"),
        "{}",
        ran.err
    );
}

#[test]
fn a_module_that_saw_a_short_is_not_spoken_of() {
    let start = "antennas deployed\nbattery 8000\ntick 931\norder ground 1 ADCS on\n";
    let ran = compared(
        "short-seen",
        &format!("{start}tick 2 shorts ADCS"),
        &format!("{start}tick 2 shorts ADCS"),
    );
    ran.status(0)
        .prints("on         of all but ADCS, which saw a short, all that A has on, B has: holds\n");
    let ran = compared("no-short", start, start).status(0);
    ran.prints("on         of all eight, which saw no short, all that A has on, B has: holds\n");
}

/// In `core` it is spoken of.
#[test]
fn a_core_module_that_saw_a_short_is_the_same_on_both() {
    let start = "antennas deployed\nbattery 8000\ntick 931\n";
    let shorted = format!("{start}tick 5 shorts COMM1\ntick 10\n");
    compared("core-short", &shorted, &shorted)
        .status(0)
        .prints("on         of all but COMM1, which saw a short, all that A has on, B has: holds\n")
        .prints(&format!("{CORE}holds\n"));
    // With shorts on A alone the premises don't hold, and it shows here alone.
    compared("short-at-a", &shorted, &format!("{start}tick 15\n"))
        .status(3)
        .prints("on         of all but COMM1, which saw a short, all that A has on, B has: holds\n")
        .prints(&format!(
            "{CORE}DOES NOT HOLD: frame 934, different in COMM1\n"
        ));
}

/// COMM2 is ordered off where A is in RECOVERY and B in SAFE; then A is back in SAFE, by
/// a way up that B has not.
#[test]
fn a_radio_that_is_ordered_off_is_off_on_both() {
    let flight = |reading: u16| {
        format!(
            "antennas deployed\nbattery 8000\ntick 931\nbattery {reading}\ntick 30\n\
             order ground 1 COMM2 off\ntick 30\nbattery 8000\ntick 60\n"
        )
    };
    let ran = compared("quiet", &flight(6_900), &flight(7_100)).status(0);
    assert_eq!(ran.text().matches(": holds\n").count(), 4);
    // They differ in their modes, and in nothing else.
    let (shown, _) = ran
        .text()
        .split_once("\nThe premises hold: ")
        .expect("a verdict");
    let (_, differences) = shown.split_once('\n').expect("their names");
    assert_eq!(
        differences,
        "\nframes 964 to 1,025, 00:16:01 to 00:17:00\n             \
         A                           B\n  \
         mode       RECOVERY                    SAFE\n"
    );
    for craft in ["quiet-a.pass", "quiet-b.pass"] {
        let log = run(&["log", &place(craft)]).status(0);
        let ordered = log
            .text()
            .lines()
            .skip_while(|line| !line.contains(" 04 1 1 0 "));
        let masks: Vec<&str> = ordered
            .map(|line| line.splitn(7, ' ').nth(6).expect("masks"))
            .collect();
        assert_eq!(masks.len(), 92, "{craft}");
        assert!(masks[0].starts_with("23 27 00 "), "{craft}");
        assert!(
            masks[1..]
                .iter()
                .all(|masks| masks.starts_with("23 23 00 ")),
            "{craft}"
        );
    }
}

/// An order that B alone gets: the premises don't hold, and `core` says where it shows.
#[test]
fn another_order_for_a_core_module_shows_in_core() {
    let flight = |order: &str| {
        format!(
            "antennas deployed\nbattery 8000\ntick 931\norder ground 1 COMM2 off\ntick 60\n\
             order ground 2 {order}\ntick 60\n"
        )
    };
    let ran = compared("order-at-b", &flight("MCS on"), &flight("COMM2 on")).status(3);
    let ran = ran
        .prints(&format!("{CORE}DOES NOT HOLD: frame 995, different in COMM2\n"))
        .says("frame 995, the frames are not the same: `order ground 2 MCS on` on A, `order ground 2 COMM2 on` on B");
    assert_eq!(ran.text().matches(": holds\n").count(), 3);
    let ran = compared("two-at-b", &flight("MCS off"), &flight("COMM2 on")).status(3);
    ran.prints(&format!(
        "{CORE}DOES NOT HOLD: frame 995, different in MCS and COMM2\n"
    ));
}

/// The weaker craft loses its camera, and with it the end; on the stronger one the
/// twenty minutes run out. A second timed order comes too early on A alone.
#[test]
fn timed_orders_are_among_the_same_frames() {
    let flight = |reading: u16| {
        format!(
            "antennas deployed\nbattery 8000\ntick 931\norder ground 1 PAYLOAD on for 20 min\n\
             tick 60\nbattery {reading}\ntick 60\norder ground 2 ADCS on for 1 min\n\
             battery 8000\ntick 1200\n"
        )
    };
    let ran = compared("timed", &flight(6_900), &flight(7_100)).status(0);
    assert_eq!(ran.text().matches(": holds\n").count(), 4);
    ran.prints("hold: 2,257 frames, the same on both but for 1 of 3 battery readings")
        .prints(", 00:17:31: order ground 2 ADCS on for 1 min\n")
        .prints("  answer     10 not now                  0 done\n");
    // Other minutes are another frame.
    let order = |minutes: u16| format!("order ground 1 PAYLOAD on for {minutes} min\n");
    compared("minutes", &order(20), &order(21))
        .status(3)
        .says("the frames are not the same: `order ground 1 PAYLOAD on for 20 min` on A");
}
