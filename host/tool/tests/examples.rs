//! The examples: what is said of them, and their pictures in `docs/`.

mod common;

use common::picture::Picture;
use common::{is_file, root, run, scratch};
use std::fs;

/// Each with its picture's title.
const EXAMPLES: [(&str, &str); 9] = [
    ("dawn", "The night of the mission, as it goes now"),
    (
        "twenty-minutes",
        "The night of the mission, with an order that ends",
    ),
    ("orbit", "A day of fifteen orbits"),
    ("shorted", "Modules with a short"),
    ("starts-and-shorts", "A board that starts and shorts"),
    ("school", "A school's greeting on the beacon"),
    ("quiet-radio", "A radio that is quieted stays quiet"),
    ("sister-craft-a", "Sister craft A, the tired battery"),
    ("sister-craft-b", "Sister craft B, the fresh battery"),
];

#[test]
fn each_example_is_explained_as_expected() {
    for (name, _) in EXAMPLES {
        let ran = run(&["log", "--explain", &format!("examples/{name}.pass")]).status(0);
        is_file(&format!("host/tool/tests/expected/{name}.txt"), &ran.out);
    }
}

#[test]
fn each_picture_in_the_docs_is_what_is_drawn() {
    for (name, title) in EXAMPLES {
        let script = format!("examples/{name}.pass");
        let ran = run(&["plot", &script, "--title", title, "-o", "-"]).status(0);
        assert!(ran.out.len() < 150_000, "{name}: {} bytes", ran.out.len());
        is_file(&format!("docs/{name}.svg"), &ran.out);
    }
}

/// The panels' curves, each with its picture's title, and the status that the walk from
/// 3,000 mV on ends with.
const PANELS: [(&str, &str, i32); 2] = [
    ("panel", "The tracker on a panel in full sun", 0),
    ("shaded-panel", "The tracker on a panel with a shadow", 3),
];

/// Walks on a panel's curve, with further arguments.
fn tracked(name: &str, more: &[&str]) -> common::Ran {
    let curve = format!("examples/{name}.csv");
    let args = [
        "track", &curve, "--start", "3000", "--step", "100", "--calls", "200",
    ];
    run(&[&args[..], more].concat())
}

#[test]
fn each_panel_is_tracked_as_expected() {
    for (name, title, status) in PANELS {
        let ran = tracked(name, &[]).status(status);
        is_file(&format!("host/tool/tests/expected/{name}.txt"), &ran.out);
        let ran = tracked(name, &["--title", title, "-o", "-"]).status(status);
        assert!(ran.out.len() < 30_000, "{name}: {} bytes", ran.out.len());
        is_file(&format!("docs/{name}.svg"), &ran.out);
    }
}

/// What is said of `panel.csv`: the walk crosses the peak, and what is promised holds of
/// it.
#[test]
fn a_panel_in_full_sun_is_one_that_the_promise_speaks_of() {
    tracked("panel", &[])
        .status(0)
        .prints("Call 14 is the first to cross it, from 4,300 mV to 4,400 mV.\n")
        .prints("is between 4,200 mV and 4,500 mV: at most 160 mV from the peak, 1.6 steps.\n")
        .prints("from the peak: holds.\n");
}

/// What is said of `shaded-panel.csv`: the walk stays on the lower of two peaks; from
/// where the higher one is, on that.
#[test]
fn a_panel_with_a_shadow_has_two_peaks() {
    tracked("shaded-panel", &[])
        .status(3)
        .prints("The curve's peak is at 1,798 mV: 773.31 mW.\n")
        .prints(" Nor with 50,000 more.\n")
        .prints("\nSo nothing is promised.\n")
        .says("fall strictly past the peak, and from 3,000 mV to 3,100 mV they don't: 420 mW, then 434 mW");
    run(&["track", "examples/shaded-panel.csv", "--start", "1500"])
        .status(0)
        .prints("is between 1,700 mV and 1,900 mV: ")
        .prints("from the peak: holds.\n");
}

#[test]
fn the_sister_craft_are_compared_as_expected() {
    let (a, b) = (
        "examples/sister-craft-a.pass",
        "examples/sister-craft-b.pass",
    );
    let ran = run(&["compare", a, b]).status(0);
    is_file("host/tool/tests/expected/sister-craft.txt", &ran.out);
}

/// `morning.pass`, handed over in one call where `dawn.pass` ends.
const MORNING: [&str; 4] = [
    "uplink",
    "examples/morning.pass",
    "--after",
    "examples/dawn.pass",
];

#[test]
fn the_morning_s_pass_is_told_as_expected() {
    let ran = run(&MORNING).status(2);
    is_file("host/tool/tests/expected/morning.txt", &ran.out);
}

/// Its picture is that of both scripts, one after the other: a refused frame ends it
/// as it does the pass.
#[test]
fn the_morning_s_picture_is_what_is_drawn() {
    let script = |name: &str| fs::read(root().join(name)).expect("a script");
    let both = [
        script("examples/dawn.pass"),
        script("examples/morning.pass"),
    ]
    .concat();
    let both = scratch("both.pass", both);
    let title = "The morning after, in one call";
    let args = [
        "plot", &both, "--from", "09:15:00", "--title", title, "-o", "-",
    ];
    let ran = run(&args).status(2);
    is_file("docs/morning.svg", &ran.out);
}

/// The sentence on top of `morning.pass`: the repeat is told and goes on, the order
/// that only the ground may give stops the pass at its line, and less room sooner.
#[test]
fn in_the_morning_a_repeat_goes_on_and_the_payload_s_order_stops() {
    let script = fs::read_to_string(root().join("examples/morning.pass")).expect("a script");
    let line = script
        .lines()
        .position(|line| line.starts_with("order payload"));
    let line = line.expect("an order of the payload's") + 1;
    let ran = run(&MORNING)
        .status(2)
        .prints("order ground 18 PAYLOAD off: 8, 18 is a repeat of ground's last number")
        .prints("order ground 20 PAYLOAD on for 20 min: done, PAYLOAD requested on")
        .prints(&format!(
            "The pass stops before frame 245, line {line}, `order payload 1 SBAND1 on`: 7, "
        ))
        .prints("\n244 reports come back, ");
    assert!(
        !ran.text().contains("SBAND1 on for 10 min"),
        "{}",
        ran.text()
    );
    assert!(script.contains(&format!("before line {line}.")));
    run(&[&MORNING[..], &["--room", "2048"]].concat())
        .status(2)
        .prints("\n186 reports come back, 2,046 bytes of a room of 2,048.\n")
        .prints(", `tick`: 2, there is no room for the report.\n");
}

/// The sentence on top of `dawn.pass`, in its log.
#[test]
fn at_dawn_the_camera_stays_off() {
    let ran = run(&["log", "examples/dawn.pass"]).status(0);
    let lines: Vec<Vec<&str>> = ran
        .text()
        .lines()
        .map(|line| line.split(' ').collect())
        .collect();
    let orders = lines.iter().filter(|line| line[1] == "04");
    let answers: Vec<(&str, &str)> = orders.map(|line| (line[3], line[4])).collect();
    assert_eq!(
        answers,
        [("17", "0"), ("18", "0"), ("17", "9"), ("18", "8")]
    );
    let stale = lines
        .iter()
        .position(|line| line[4] == "9")
        .expect("a stale order");
    assert!(
        lines[stale..].iter().all(|line| line[7] == "27"),
        "a mission module is on"
    );
}

/// The sentence on top of `twenty-minutes.pass`, in its log: the camera is on for
/// twenty minutes, and off at dawn, and nobody has sent an "off".
#[test]
fn after_twenty_minutes_the_camera_is_off_though_nobody_said_so() {
    let shown = run(&["show", "examples/twenty-minutes.pass"]).status(0);
    let orders = shown
        .text()
        .lines()
        .filter(|line| line.starts_with("order "));
    assert!(orders
        .clone()
        .all(|line| line.starts_with("order ground 17 PAYLOAD on for 20 min")));
    assert_eq!(orders.count(), 2);
    let ran = run(&["log", "examples/twenty-minutes.pass"]).status(0);
    let lines: Vec<Vec<&str>> = ran
        .text()
        .lines()
        .map(|line| line.split(' ').collect())
        .collect();
    let orders = (0..lines.len()).filter(|&at| lines[at][1] == "06");
    let [ordered, dawn] = orders.collect::<Vec<usize>>()[..] else {
        panic!("two orders");
    };
    assert_eq!((lines[ordered][4], lines[dawn][4]), ("0", "8"));
    let seconds = |lines: &[Vec<&str>]| lines.iter().filter(|line| line[1] == "01").count();
    assert_eq!(seconds(&lines[ordered..dawn]), 10 * 3_600);
    let on: Vec<usize> = (0..lines.len())
        .filter(|&at| lines[at][7] == "37")
        .collect();
    assert_eq!((on[0], on.len()), (ordered + 1, 20 * 60 - 1));
    assert!(
        lines[ordered..].iter().all(|line| line[5] == "2"),
        "a mode keeps the camera off"
    );
}

/// The sentence on top of `starts-and-shorts.pass`, in its log: five starts in ten
/// seconds, one every 602 after that, none once it is ordered off; then it holds.
#[test]
fn a_board_that_starts_and_shorts_is_given_up_and_taken_back() {
    let ran = run(&["log", "examples/starts-and-shorts.pass"]).status(0);
    let lines: Vec<Vec<&str>> = ran
        .text()
        .lines()
        .map(|line| line.split(' ').collect())
        .collect();
    let ticks: Vec<&Vec<&str>> = lines.iter().filter(|line| line[1] == "01").collect();
    let ordered = ticks.iter().position(|tick| tick[6] == "67");
    let ordered = ordered.expect("SBAND1 is requested");
    let starts: Vec<usize> = (ordered..ticks.len())
        .filter(|&at| ticks[at][7] == "67" && ticks[at - 1][7] == "27")
        .map(|at| at - ordered)
        .collect();
    let first = (0..5).map(|n| 2 * n);
    let later = (1..=9).map(|n| 8 + 602 * n);
    let orbit = 99 * 60;
    let held = [2 * orbit, 2 * orbit + 90];
    assert_eq!(
        starts,
        first.chain(later).chain(held).collect::<Vec<usize>>()
    );
    let failed = |at: usize| ticks[ordered + at][8] == "40";
    assert!(!failed(8) && failed(9), "failed after ten seconds");
    assert!(
        (orbit..2 * orbit).all(failed),
        "left alone when ordered off"
    );
    // With the beacon's word on it, and with its tries.
    run(&["log", "--explain", "examples/starts-and-shorts.pass"])
        .status(0)
        .prints(": SBAND1 failed, 600 seconds to wait\n")
        .prints("the last EMS S 7600 27 40\n01:59:01      7,148  order ground 2 SBAND1 off: done")
        .prints("SBAND1's 1 minute is over: requested off; SBAND1 off, 1 try left; ")
        .prints("03:39:32     13,185  tick: SBAND1 on, 1 try left\n")
        .prints("03:40:32     13,245  tick: SBAND1 has all 5 tries again\n");
}

/// The sentence on top of `school.pass`: twelve beacons with the greeting, seven before
/// the eclipse and five after it, and what is kept meanwhile.
#[test]
fn a_school_s_greeting_goes_out_twelve_times() {
    let ran = run(&["beacon", "--all", "examples/school.pass"]).status(0);
    let due: Vec<(&str, &str)> = ran
        .text()
        .lines()
        .map(|line| line.split_at(20))
        .map(|(head, text)| (head[10..].trim(), text))
        .collect();
    let kinds: Vec<(&str, usize)> = due
        .chunk_by(|a, b| a.0 == b.0)
        .map(|same| (same[0].0, same.len()))
        .collect();
    assert_eq!(
        kinds,
        [
            ("complete", 4),
            ("extended", 7),
            ("basic", 7),
            ("extended", 5),
            ("complete", 3),
            ("extended", 2),
            ("complete", 5),
            ("extended", 3),
            ("complete", 2),
        ]
    );
    for (kind, text) in &due {
        let greets = text.ends_with(" HELLO FROM 4B") || text.ends_with(" 73 DE 4B");
        assert_eq!(greets, *kind == "extended", "{text}");
    }
    let class = due.iter().filter(|due| due.1.ends_with(" HELLO FROM 4B"));
    assert_eq!(class.count(), 12);
    run(&["log", "--explain", "examples/school.pass"])
        .status(0)
        .prints("greet ground 21 12 \"HELLO FROM 4B\": done, the greeting \"HELLO FROM 4B\" is kept, for 12 beacons\n")
        .prints("greet ground 21 12 \"HELLO FROM 4B\": 8, 21 is a repeat of ground's last number: nothing moved\n")
        .prints("7 basic beacons, the last EMS R 6950\n")
        .prints("RECOVERY to SAFE, tension 7,600 mV above ascend 7,400 mV; extended beacon due: EMS S 7600 27 00 HELLO FROM 4B\n")
        .prints("tick: the greeting goes out for the last time; extended beacon due: EMS S 7600 27 00 HELLO FROM 4B\n")
        .prints("greet ground 23 0 \"\": done, the greeting \"73 DE 4B\" is cleared\n");
}

/// The sentence on top of `quiet-radio.pass`, in its log: from the order's tick on until
/// the morning's order COMM2 is neither requested nor on, whatever the mode does and
/// whatever is sent again; a second after that order it is on.
#[test]
fn a_radio_that_is_quieted_stays_quiet_until_the_ground_wants_it_back() {
    let ran = run(&["log", "examples/quiet-radio.pass"]).status(0);
    let lines: Vec<Vec<&str>> = ran
        .text()
        .lines()
        .map(|line| line.split(' ').collect())
        .collect();
    let orders = (0..lines.len()).filter(|&at| lines[at][1] == "04");
    let [listed, quieted, again, morning] = orders.collect::<Vec<usize>>()[..] else {
        panic!("four orders");
    };
    let answers = [listed, quieted, again, morning].map(|at| (lines[at][3], lines[at][4]));
    assert_eq!(
        answers,
        [("40", "0"), ("41", "0"), ("40", "9"), ("42", "0")]
    );
    let masks = |at: usize| (lines[at][6], lines[at][7]);
    assert_eq!(masks(quieted), ("23", "27"));
    for at in quieted + 1..morning {
        assert_eq!(masks(at), ("23", "23"), "report {at}");
    }
    let modes: Vec<&str> = lines[quieted + 1..morning]
        .chunk_by(|a, b| a[5] == b[5])
        .map(|same| same[0][5])
        .collect();
    assert_eq!(modes, ["2", "1", "2", "1", "2", "1", "2", "1", "2"]);
    assert_eq!(
        (masks(morning), masks(morning + 1)),
        (("27", "23"), ("27", "27"))
    );
    // The one line that tells of a request is the morning's.
    let told = run(&["log", "--explain", "examples/quiet-radio.pass"]).status(0);
    let requests: Vec<&str> = told
        .text()
        .lines()
        .filter(|line| line.contains(" requested on"))
        .collect();
    assert_eq!(
        requests,
        ["07:35:00     27,314  order ground 42 COMM2 on: done, COMM2 requested on"]
    );
    // In the picture COMM2's lane is empty in between.
    let drawn = run(&["plot", "examples/quiet-radio.pass", "-o", "-"]).status(0);
    let picture = Picture::read(drawn.text());
    for state in ["requested", "on"] {
        let bars = picture.about(&format!("COMM2 {state}, "));
        let [before, after] = bars[..] else {
            panic!("{} bars", bars.len());
        };
        assert!(after.left - before.right > 600.0, "{before:?}, {after:?}");
    }
}

#[test]
fn a_picture_is_drawn_of_any_flight() {
    let flights = [
        ("empty", "", 0),
        ("one", "tick\n", 0),
        ("untimed", "order ground 1 MCS off\n", 0),
        ("refused", "tick 100\nbattery 9001\n", 2),
        ("<&>", "battery 9000\ntick 100000\n", 0),
    ];
    for (name, script, status) in flights {
        let file = scratch("flight.pass", script.as_bytes());
        let ran = run(&["plot", &file, "-o", "-", "--title", name]).status(status);
        assert!(ran.text().ends_with("</svg>\n"));
        assert!(
            !ran.text().contains("NaN") && !ran.text().contains("inf"),
            "{name}"
        );
        assert!(!ran.text().contains("<&>"));
    }
    let orders: String = (1..200)
        .map(|n| format!("order ground {n} MCS on\ntick\n"))
        .collect();
    let file = scratch("orders.pass", orders.as_bytes());
    let ran = run(&["plot", &file, "-o", "-"]).status(0);
    assert!(ran
        .text()
        .contains("and 159 more, as small marks without a number"));
    run(&["plot", &file, "-o", "/nowhere/x.svg"])
        .status(1)
        .says("/nowhere/x.svg: No such file");
}
