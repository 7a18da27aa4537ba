//! `ems plot`: what is on the pictures.

mod common;

use common::picture::{near, Drawn, Picture};
use common::{run, scratch};

/// No mark reaches over the panels' edges.
const EDGE: f64 = 0.0;

/// Antennas out, settled, and in SAFE from 00:15:31 on.
const SAFE: &str = "antennas deployed\nbattery 7800\ntick 961\n";

/// The picture of a script, drawn with further arguments.
fn drawn_with(script: &str, more: &[&str]) -> Picture {
    let file = scratch("flight.pass", script);
    let ran = run(&[&["plot", &file, "-o", "-"], more].concat()).status(0);
    Picture::read(ran.text())
}

fn drawn(script: &str) -> Picture {
    drawn_with(script, &[])
}

/// Where the hours of a picture stand, from its first to its last label.
fn x(picture: &Picture, second: f64, end: f64) -> f64 {
    let curve = picture.one("ascend");
    curve.left + curve.width() * second / end
}

/// The labels under the axis.
fn labels(picture: &Picture) -> Vec<&Drawn> {
    let unit = picture
        .texts()
        .find(|one| one.text.ends_with(" since the start"));
    let y = unit.expect("the axis has a unit").bottom - 17.0;
    let labels = picture.texts().filter(|one| (one.bottom - y).abs() < 0.01);
    labels.collect()
}

#[test]
fn flights_of_many_days_have_labels_of_days() {
    for (days, step) in [(17, 2), (40, 5)] {
        let picture = drawn(&format!("tick {}\n", days * 86_400));
        assert!(picture.says("days since the start"));
        let labels = labels(&picture);
        let wanted: Vec<String> = (0..=days / step).map(|n| (n * step).to_string()).collect();
        let given: Vec<&str> = labels.iter().map(|label| label.text.as_str()).collect();
        assert_eq!(given, wanted);
        for pair in labels.windows(2) {
            assert!(pair[1].left - pair[0].right > 8.0, "{}", pair[0].text);
        }
    }
}

#[test]
fn units_fit_the_flight() {
    for (seconds, unit, last) in [
        (12, "seconds", "12"),
        (3_600, "minutes", "60"),
        (6 * 3_600, "hours", "6"),
        (86_400, "hours", "24"),
    ] {
        let picture = drawn(&format!("tick {seconds}\n"));
        assert!(
            picture.says(&format!("{unit} since the start")),
            "{seconds}"
        );
        let labels = labels(&picture);
        assert_eq!(labels.last().expect("labels").text, last);
        assert!(labels.len() <= 16);
    }
}

/// A module that has failed and is ordered off: what it was asked for is seen
/// before and after.
#[test]
fn a_failed_module_shows_whether_it_is_requested() {
    let picture = drawn(&format!(
        "{SAFE}order ground 1 SBAND1 on\ntick 60\ntick 10 shorts SBAND1\n\
         order ground 2 SBAND1 off\ntick 3600\norder ground 3 SBAND1 on\ntick 60\n"
    ));
    let requested = picture.about("SBAND1 requested");
    assert_eq!(requested.len(), 2);
    let failed = picture.one("SBAND1 failed");
    assert!(failed.left < requested[0].right && failed.right > requested[1].left - 1.0);
    for frame in requested {
        assert!(frame.top < failed.top && frame.bottom > failed.bottom);
    }
    assert!(picture.says("requested and failed") && picture.says("failed"));
}

/// Orders of which the last three are not done.
fn many_orders() -> String {
    let done = (1..=200).map(|n| format!("order ground {n} MCS on\ntick 30\n"));
    format!(
        "{SAFE}{}order ground 200 I2C on\ntick\norder ground 7 COMM1 on\ntick\n\
         order payload 9 PAYLOAD on\nbattery 7000\ntick 60\norder payload 9 COMM1 on\n",
        done.collect::<String>()
    )
}

#[test]
fn what_was_not_done_is_numbered_first() {
    let file = scratch("orders.pass", many_orders());
    let ran = run(&["plot", &file, "-o", "-"]).status(2);
    let picture = Picture::read(ran.text());
    for listed in [
        "order ground 200 I2C on",
        "order ground 7 COMM1 on",
        "order payload 9 COMM1 on",
        "order ground 1 MCS on",
        "order ground 37 MCS on",
    ] {
        assert!(picture.says(listed), "{listed}");
    }
    assert!(!picture.says("order ground 38 MCS on"));
    assert!(picture.says("and 164 more, as small marks without a number"));
}

#[test]
fn orders_without_a_number_keep_their_shape() {
    // More than have numbers were not done.
    let repeats = "order ground 1 MCS on\ntick\n".repeat(50);
    let stale = "order ground 40000 MCS on\ntick\n".repeat(50);
    let picture = drawn(&format!(
        "{SAFE}order ground 1 MCS on\n{repeats}{stale}tick 7200\n"
    ));
    let small: Vec<&Drawn> = picture
        .drawn
        .iter()
        .filter(|one| one.about.contains("orders, "))
        .collect();
    let shapes: Vec<(&str, &str)> = small
        .iter()
        .map(|one| (one.element.as_str(), one.class.as_str()))
        .collect();
    assert!(shapes.contains(&("circle", "box")), "{shapes:?}");
    assert!(shapes.contains(&("path", "box")), "{shapes:?}");
    assert!(small.iter().all(|one| one.width() < 9.0));
}

#[test]
fn every_mark_and_bar_says_what_it_is() {
    for script in [
        "dawn",
        "orbit",
        "quiet-radio",
        "school",
        "shorted",
        "sister-craft-a",
        "starts-and-shorts",
        "twenty-minutes",
    ] {
        let ran = run(&["plot", &format!("examples/{script}.pass"), "-o", "-"]).status(0);
        let picture = Picture::read(ran.text());
        let behind = ["wait-light", "low-light"];
        let shapes = picture.drawn.iter().filter(|one| {
            let mark = ["rect", "circle"].contains(&one.element.as_str());
            let filled = ["solid", "box", "failed", "many", "band"].contains(&one.class.as_str());
            (mark || filled) && one.top >= picture.panels() && !behind.contains(&one.class.as_str())
        });
        let mut count = 0;
        for shape in shapes {
            assert!(!shape.about.is_empty(), "{script}: {shape:?}");
            count += 1;
        }
        assert!(count > 15, "{script}: {count}");
    }
    let ran = run(&["plot", "examples/dawn.pass", "-o", "-"]).status(0);
    let picture = Picture::read(ran.text());
    picture.one("3, 09:19:01: order ground 17 PAYLOAD on: 9 stale");
    picture.one("PAYLOAD on, 00:40:02 to 01:40:02");
}

#[test]
fn many_readings_are_a_band_under_the_thresholds() {
    let readings = (0..5_000).map(|n| format!("battery {}\ntick 5\n", 7_300 + n * 37 % 500));
    let script = format!("{SAFE}{}", readings.collect::<String>());
    let file = scratch("many.pass", script);
    let ran = run(&["plot", &file, "-o", "-"]).status(0);
    assert!(ran.out.len() < 100_000, "{} bytes", ran.out.len());
    let picture = Picture::read(ran.text());
    let place = |about: &str| picture.drawn.iter().position(|one| one.about == about);
    let band = place("tension, the least to the greatest").expect("a band");
    let (ascend, descend) = (
        place("ascend").expect("ascend"),
        place("descend").expect("descend"),
    );
    assert!(band < ascend && band < descend, "the thresholds are on top");
    let band = &picture.drawn[band];
    let ascend = &picture.drawn[ascend];
    assert!(band.top < ascend.top && band.bottom > ascend.bottom);
    assert!(picture
        .drawn
        .iter()
        .all(|one| one.class != "curve" || one.top < picture.panels()));
}

/// Half a minute of ten hours.
#[test]
fn a_narrow_recovery_is_seen() {
    let ran = run(&["plot", "examples/dawn.pass", "-o", "-"]).status(0);
    let picture = Picture::read(ran.text());
    let recovery = picture.one("RECOVERY, 00:15:01 to 00:15:31");
    assert!(recovery.width() >= 4.0, "{recovery:?}");
    let last = picture
        .drawn
        .iter()
        .rposition(|one| one.about.starts_with("SAFE"))
        .expect("SAFE");
    let own = picture
        .drawn
        .iter()
        .position(|one| one.about == recovery.about);
    assert!(own > Some(last), "nothing covers it");
}

/// Of twenty days, both the first quarter of an hour and the half minute after it.
#[test]
fn narrow_modes_at_one_place_are_all_seen() {
    let picture = drawn(&format!("{SAFE}tick 1728000\n"));
    let wait = picture.one("DEPLOY_WAIT, 00:00:00 to 00:15:01");
    let recovery = picture.one("RECOVERY, 00:15:01 to 00:15:31");
    assert!(wait.width() >= 4.0 && recovery.width() >= 4.0);
    assert!(wait.bottom <= recovery.top + 0.1 || wait.right <= recovery.left + 0.1);
}

#[test]
fn the_longest_stretch_of_each_mode_is_named() {
    for script in ["dawn", "orbit", "shorted", "starts-and-shorts"] {
        let ran = run(&["plot", &format!("examples/{script}.pass"), "-o", "-"]).status(0);
        let picture = Picture::read(ran.text());
        for mode in ["DEPLOY_WAIT", "RECOVERY", "SAFE"] {
            // Beside the legend's.
            let named = picture.texts().filter(|one| one.text == mode);
            assert!(named.count() >= 2, "{script}: {mode}");
        }
    }
}

#[test]
fn many_crossings_are_a_small_picture() {
    let crossings = "battery 5000\ntick 30\nbattery 9000\ntick 30\n".repeat(5_000);
    let file = scratch("crossings.pass", format!("{SAFE}{crossings}"));
    let ran = run(&["plot", &file, "-o", "-"]).status(0);
    assert!(ran.out.len() < 150_000, "{} bytes", ran.out.len());
    let picture = Picture::read(ran.text());
    assert!(!picture.about("RECOVERY ").is_empty());
}

#[test]
fn beacons_too_close_to_tell_are_bands_that_are_counted() {
    let ran = run(&["plot", "examples/orbit.pass", "-o", "-"]).status(0);
    let picture = Picture::read(ran.text());
    assert!(picture.says("1,319 complete") && picture.says("15 basic"));
    let bands = picture.about(" complete beacons, ");
    assert!(bands.len() < 5 && bands.iter().all(|one| one.element == "rect"));
    // Apart, each is a tick.
    let picture = drawn(&format!("{SAFE}tick 1200\n"));
    assert!(picture.says("21 complete"));
    assert_eq!(picture.about("complete beacon, ").len(), 21);
}

/// Three extended beacons, then complete ones: all are ticks, and those with the
/// greeting fly a flag.
#[test]
fn an_extended_beacon_flies_a_flag() {
    let greet = "greet ground 1 3 \"HELLO FROM 4B\"\n";
    let picture = drawn(&format!("{SAFE}{greet}tick 600\n"));
    assert!(picture.says("3 extended") && picture.says("8 complete"));
    let flags = picture.about("extended beacon, ");
    let said: Vec<&str> = flags.iter().map(|one| one.about.as_str()).collect();
    assert_eq!(
        said,
        [
            "extended beacon, 00:17:01",
            "extended beacon, 00:18:01",
            "extended beacon, 00:19:01",
        ]
    );
    let complete = picture.about("complete beacon, ");
    assert_eq!(complete.len(), 8);
    for (flag, second) in flags.iter().zip([1_021.0, 1_081.0, 1_141.0]) {
        assert_eq!(
            (flag.element.as_str(), flag.class.as_str()),
            ("path", "solid")
        );
        assert!(near(flag.left, x(&picture, second, 1_561.0)), "{flag:?}");
        assert!(near(flag.width(), 5.0) && near(flag.height(), complete[0].height()));
    }
    assert!(complete.iter().all(|tick| near(tick.width(), 0.0)));
    // The greeting is an order like others, in the list and under the pointer.
    assert!(picture.says(greet.trim_end()));
    picture.one("1, 00:16:01: greet ground 1 3 \"HELLO FROM 4B\": 0 done");
    picture.is_framed("three flags", EDGE);
}

/// In the last second of the picture a flag flies to the left.
#[test]
fn a_flag_at_the_edge_stays_within_the_panels() {
    let script = format!("{SAFE}greet ground 1 9 \"HI\"\ntick 180\n");
    for (from, to) in [("00:18:01", "00:19:01"), ("0", "00:19:01")] {
        let picture = drawn_with(&script, &["--from", from, "--to", to]);
        picture.is_framed(from, EDGE);
        let panel = picture.one("ascend");
        let last = picture.one("extended beacon, 00:19:01");
        assert!(near(last.right, panel.right) && near(last.width(), 5.0));
    }
}

#[test]
fn extended_is_in_the_legend_only_where_such_a_beacon_is_due() {
    let legend = |script: &str, more: &[&str]| drawn_with(script, more).says("extended");
    let greet = "greet ground 1 3 \"HI\"\n";
    assert!(!legend(&format!("{SAFE}tick 600\n"), &[]));
    // Kept and not due yet; kept in RECOVERY; cleared.
    assert!(!legend(&format!("{SAFE}{greet}tick 59\n"), &[]));
    assert!(!legend(
        &format!("antennas deployed\nbattery 7000\n{greet}tick 2000\n"),
        &[]
    ));
    assert!(!legend(
        &format!("{SAFE}{greet}greet ground 2 0 \"\"\ntick 600\n"),
        &[]
    ));
    // Of a flight in parts, the one in which it is due.
    let script = format!("{SAFE}{greet}tick 600\n");
    for (from, to, seen) in [
        ("0", "17m", false),
        ("17m", "18m", true),
        ("20m", "26m", false),
    ] {
        assert_eq!(
            legend(&script, &["--from", from, "--to", to]),
            seen,
            "{from}"
        );
    }
}

/// Of a day, a greeting of 255 beacons is one band, with a flag.
#[test]
fn extended_beacons_too_close_to_tell_are_a_band_with_a_flag() {
    let script = format!("{SAFE}tick 40000\ngreet ground 1 255 \"HI\"\ntick 45439\n");
    let file = scratch("day.pass", script);
    let ran = run(&["plot", &file, "-o", "-"]).status(0);
    assert!(ran.out.len() < 20_000, "{} bytes", ran.out.len());
    let picture = Picture::read(ran.text());
    assert!(picture.says("255 extended"));
    let [band, flag] = picture.about("255 extended beacons, 11:23:01 to 15:37:01")[..] else {
        panic!("one band and its flag");
    };
    assert_eq!(
        (band.element.as_str(), band.class.as_str()),
        ("rect", "many")
    );
    assert_eq!(
        (flag.element.as_str(), flag.class.as_str()),
        ("path", "solid")
    );
    assert!(near(flag.left, band.left) && flag.right < band.right);
    picture.is_framed("a band with a flag", EDGE);
}

#[test]
fn a_part_of_a_flight_is_drawn() {
    let script =
        format!("{SAFE}order ground 1 ADCS on\ntick 3600\norder ground 2 ADCS off\ntick 3600\n");
    let part = |from: &str, to: &str| drawn_with(&script, &["--from", from, "--to", to]);
    let picture = part("01:00:00", "90m");
    assert!(picture.says("01:00:00 to 01:30:00 of 02:16:01"));
    assert!(picture.says("order ground 2 ADCS off") && !picture.says("order ground 1 ADCS on"));
    // What begins outside begins at the edge, and says when it began.
    let on = picture.one("ADCS on, 00:16:02 to 01:16:02");
    let ascend = picture.one("ascend");
    assert_eq!(on.left, ascend.left);
    assert!((on.right - (ascend.left + ascend.width() * 962.0 / 1800.0)).abs() < 0.2);
    let labels = labels(&picture);
    assert_eq!(labels.first().map(|label| label.text.as_str()), Some("60"));
    // To the end and beyond is to the end.
    let picture = part("02:00:00", "99h");
    assert!(picture.says("02:00:00 to 02:16:01 of 02:16:01"));
}

#[test]
fn a_part_that_is_not_there_is_wrong_usage() {
    let file = scratch("flight.pass", SAFE);
    let plot = |more: &[&str]| run(&[&["plot", &file, "-o", "-"], more].concat()).status(1);
    plot(&["--from", "00:20:00"])
        .says("nothing is left from 00:20:00 on: the flight ends at 00:16:01");
    plot(&["--from", "10", "--to", "10"])
        .says("the picture would end at 00:00:10, and begin at 00:00:10");
    let ran = plot(&["--from", "soon"]);
    assert!(
        ran.err.contains("expected hours:minutes:seconds"),
        "{}",
        ran.err
    );
}

#[test]
fn nothing_leaves_the_frame() {
    let orders: String = (1..=60)
        .map(|n| format!("order ground {n} PAYLOAD on\n"))
        .collect();
    let shorts = "tick shorts PAYLOAD,SBAND1\n";
    let flights = [
        ("orders first", format!("{orders}{SAFE}")),
        ("orders last", format!("{SAFE}{orders}")),
        ("orders alone", orders.clone()),
        (
            "shorts at both ends",
            format!("{shorts}{SAFE}order ground 1 PAYLOAD on\ntick\n{shorts}{shorts}"),
        ),
        (
            "past a hundred hours",
            format!("{SAFE}tick 400000\n{orders}tick 2\nthresholds ground 99 9000 8999\n"),
        ),
        ("empty", String::new()),
    ];
    for (name, script) in &flights {
        for title in [
            "short",
            &"W".repeat(300),
            &"\u{706b}\u{661f}".repeat(100),
            &"on and on, ".repeat(50),
        ] {
            let picture = drawn_with(script, &["--title", title]);
            assert_eq!(picture.title, title, "{name}");
            picture.is_framed(name, EDGE);
        }
    }
}

#[test]
fn a_refused_frame_is_a_cross_where_it_happened_and_in_the_list() {
    let script =
        format!("{SAFE}tick 1000\nbattery 4999\ntick 1000\norder payload 3 MCS on\ntick 39\n");
    let file = scratch("refused.pass", script);
    // It ends the flight.
    let ran = run(&["plot", &file, "-o", "-"]).status(2);
    let picture = Picture::read(ran.text());
    let cross = picture.one("1, 00:32:41: battery 4999: refused: 6 bad field");
    assert_eq!(
        (cross.element.as_str(), cross.class.as_str()),
        ("path", "box")
    );
    assert!(cross.right > picture.one("ascend").right - 20.0);
    assert!(picture.says("battery 4999") && picture.says("refused: 6 bad field"));
    // The flight goes on.
    let ran = run(&["plot", &file, "-o", "-", "--keep-going"]).status(2);
    let picture = Picture::read(ran.text());
    let cross = picture.one("1, 00:32:41: battery 4999: refused: 6 bad field");
    assert!((cross.middle() - x(&picture, 1_961.0, 3_000.0)).abs() < 0.5);
    picture.one("2, 00:49:21: order payload 3 MCS on: refused: 7 not permitted");
    assert!(picture.says("refused: 7 not permitted"));
}

/// A day, in which a camera shorts for three seconds and is given up.
#[test]
fn shorts_and_tries_left_are_seen_in_a_day() {
    let script = format!(
        "{SAFE}order ground 1 PAYLOAD on\ntick 40000\ntick 3 shorts PAYLOAD\n\
         order ground 2 PAYLOAD off\ntick 20000\norder ground 3 PAYLOAD on\ntick 25436\n"
    );
    let picture = drawn(&script);
    let short = picture.one("PAYLOAD short, 11:22:41 to 11:22:44");
    assert!(short.width() >= 5.0 && short.height() >= 5.0, "{short:?}");
    assert!((short.middle() - x(&picture, 40_961.0, 86_400.0)).abs() < 0.5);
    // Off keeps them, and so does the start, until it was on for 60 seconds.
    let left = picture.one("PAYLOAD tries left: 4, 3 and 2, 11:22:42 to 16:57:05");
    assert_eq!(left.text, "2");
    assert!((left.left - x(&picture, 40_962.0, 86_400.0)).abs() < 0.5);
    assert!(picture.says("tries left"));
}

/// SBAND1 comes up cleanly and shorts ten seconds later, five times; then it holds.
#[test]
fn tries_left_are_seen_on_and_off_and_until_they_are_back() {
    let script = format!(
        "{SAFE}order ground 1 SBAND1 on\n{}tick 700\n",
        "tick 10\ntick shorts SBAND1\n".repeat(5)
    );
    let picture = drawn_with(&script, &["--from", "00:16:00"]);
    let left = picture.about("SBAND1 tries left");
    let said: Vec<(&str, &str)> = left
        .iter()
        .map(|one| (one.text.as_str(), one.about.as_str()))
        .collect();
    assert_eq!(
        said,
        [
            ("4", "SBAND1 tries left: 4, 00:16:12 to 00:16:23"),
            ("3", "SBAND1 tries left: 3, 00:16:23 to 00:16:34"),
            ("2", "SBAND1 tries left: 2, 00:16:34 to 00:16:45"),
            ("1", "SBAND1 tries left: 1, 00:16:45 to 00:16:56"),
            ("1", "SBAND1 tries left: 1, 00:26:57 to 00:27:57"),
        ]
    );
    // Each stands in its module's lane, under the bars, from where it begins on.
    let next = picture.texts().find(|one| one.text == "SBAND2");
    let next = next.expect("there is a lane for SBAND2").top;
    for (digit, second) in left.iter().zip([12.0, 23.0, 34.0, 45.0, 657.0]) {
        assert!(near(digit.left, x(&picture, second, 756.0)), "{digit:?}");
        let over = picture.about("SBAND1 on, ");
        assert!(over.iter().all(|bar| bar.bottom < digit.top), "{digit:?}");
        assert!(digit.bottom < next, "{digit:?}");
    }
    // A module with all five has no digit.
    assert!(picture.about("MCS tries left").is_empty());
    assert!(drawn(SAFE).about("tries left").is_empty());
}

/// The corners of the wedges that are about something, each as left, top left, right
/// and top right over the bottom.
fn wedge(picture: &Picture, about: &str) -> [f64; 4] {
    let one = picture.one(about);
    assert_eq!((one.element.as_str(), one.class.as_str()), ("path", "box"));
    let numbers: Vec<f64> = one
        .path
        .split(|c: char| c.is_ascii_alphabetic() || c == ' ')
        .filter_map(|number| number.parse().ok())
        .collect();
    let [x, bottom, _, begin, end_x, end, _, _] = numbers[..] else {
        panic!("{numbers:?} are no four corners");
    };
    [x, bottom - begin, end_x, bottom - end]
}

/// Twenty minutes of an hour, from 1,200 seconds on.
const TIMED: &str =
    "antennas deployed\nbattery 7800\ntick 1200\norder ground 1 PAYLOAD on for 20 min\n";

#[test]
fn a_running_end_is_a_wedge_down_to_where_it_comes() {
    let picture = drawn(&format!("{TIMED}tick 2400\n"));
    let about = "PAYLOAD's end at 00:40:00, running 00:20:00 to 00:40:00";
    let [left, tall, right, none] = wedge(&picture, about);
    assert!(
        near(left, x(&picture, 1_200.0, 3_600.0)) && near(right, x(&picture, 2_400.0, 3_600.0))
    );
    assert!(tall > 6.0 && none == 0.0, "{tall} to {none}");
    // It stands under the bar of its module, and the bar ends with it.
    let requested = picture.one("PAYLOAD requested, 00:20:00 to 00:40:00");
    let end = picture.one(about);
    assert!(near(requested.left, left) && near(requested.right, right));
    assert!(requested.bottom < end.top && end.top < requested.bottom + 10.0);
    let below = picture.one("I2C requested");
    assert!(end.bottom < below.top);
    assert!(picture.says("time left") && picture.says("order ground 1 PAYLOAD on for 20 min"));
}

#[test]
fn an_end_that_is_dropped_or_moved_is_a_wedge_that_is_cut_off() {
    let about = "PAYLOAD's end at 00:40:00, running 00:20:00 to 00:30:00";
    let half = |script: &str| -> Picture {
        let picture = drawn(&format!("{TIMED}tick 600\n{script}tick 1800\n"));
        let [left, tall, right, rest] = wedge(&picture, about);
        assert!(near(left, x(&picture, 1_200.0, 3_600.0)));
        assert!(near(right, x(&picture, 1_800.0, 3_600.0)));
        assert!((rest - tall / 2.0).abs() < 0.11, "{tall} to {rest}");
        picture
    };
    let picture = half("order ground 2 PAYLOAD on\n");
    assert_eq!(picture.about("PAYLOAD's end").len(), 1);
    picture.one("PAYLOAD requested, 00:20:00 to 01:00:00");
    let picture = half("order ground 2 PAYLOAD off\n");
    assert_eq!(picture.about("PAYLOAD's end").len(), 1);
    picture.one("PAYLOAD requested, 00:20:00 to 00:30:00");
    let picture = half("order payload 2 PAYLOAD on for 30 min\n");
    let [left, tall, right, none] = wedge(
        &picture,
        "PAYLOAD's end at 01:00:00, running 00:30:00 to 01:00:00",
    );
    assert!(
        near(left, x(&picture, 1_800.0, 3_600.0)) && near(right, x(&picture, 3_600.0, 3_600.0))
    );
    assert!(tall > 6.0 && none == 0.0);
    picture.one("PAYLOAD requested, 00:20:00 to 01:00:00");
    // A crossing down drops them all; 1,801 is the second that judges.
    let script = "order ground 2 ADCS on for 1440 min\ntick 600\nbattery 6000\ntick 3000\n";
    let picture = drawn(&format!("{TIMED}{script}"));
    let [_, tall, _, rest] = wedge(
        &picture,
        "PAYLOAD's end at 00:40:00, running 00:20:00 to 00:30:01",
    );
    assert!((rest - tall / 2.0).abs() < 0.11);
    let [_, tall, _, rest] = wedge(
        &picture,
        "ADCS's end at 24:20:00, running 00:20:00 to 00:30:01",
    );
    assert!(rest > 0.9 * tall && rest <= tall);
}

#[test]
fn the_end_of_a_failed_module_runs_on() {
    let picture = drawn(&format!("{TIMED}tick 2400 shorts PAYLOAD\n"));
    wedge(
        &picture,
        "PAYLOAD's end at 00:40:00, running 00:20:00 to 00:40:00",
    );
    let failed = picture.one("PAYLOAD failed, 00:20:05 to 01:00:00");
    assert!(failed.right > picture.one("PAYLOAD requested").right);
    let (end, short) = (picture.one("PAYLOAD's end"), picture.one("PAYLOAD short"));
    assert!(end.bottom <= short.top, "the two are in rows of their own");
}

#[test]
fn time_left_is_in_the_legend_only_where_an_end_is_running() {
    // Ordered on without an end, too early, and as a repeat.
    let plain = "order ground 1 PAYLOAD on\ntick\norder ground 1 ADCS on for 20 min\n";
    for script in [
        format!("{SAFE}{plain}tick 60\n"),
        format!("order ground 1 PAYLOAD on for 20 min\n{SAFE}"),
    ] {
        let picture = drawn(&script);
        assert!(!picture.says("time left") && picture.about("'s end").is_empty());
    }
    // Of a flight in parts, the one in which it runs.
    let script = format!("{TIMED}tick 2400\n");
    for (from, to, seen) in [
        ("0", "19m", false),
        ("30m", "35m", true),
        ("41m", "1h", false),
    ] {
        let picture = drawn_with(&script, &["--from", from, "--to", to]);
        assert_eq!(picture.says("time left"), seen, "{from} to {to}");
        assert_eq!(picture.about("PAYLOAD's end").len(), usize::from(seen));
    }
    // What is seen of it is as tall as the time that is left there.
    let picture = drawn_with(&script, &["--from", "30m", "--to", "35m"]);
    let [_, begin, _, end] = wedge(&picture, "PAYLOAD's end");
    assert!(
        (begin - 4.0).abs() < 0.11 && (end - 2.0).abs() < 0.11,
        "{begin} to {end}"
    );
}

/// Of a day, one minute is seen; and thousands of them are a small picture.
#[test]
fn short_ends_are_seen_in_long_flights() {
    let picture = drawn(&format!(
        "{SAFE}order ground 1 SBAND1 on for 1 min\ntick 85439\n"
    ));
    let end = picture.one("SBAND1's end at 00:17:01, running 00:16:01 to 00:17:01");
    assert!(end.width() >= 3.9 && end.height() > 6.0, "{end:?}");
    let minutes = (1..=5_000).map(|n| format!("order ground {n} SBAND1 on for 1 min\ntick 90\n"));
    let file = scratch(
        "ends.pass",
        format!("{SAFE}{}", minutes.collect::<String>()),
    );
    let ran = run(&["plot", &file, "-o", "-"]).status(0);
    assert!(ran.out.len() < 150_000, "{} bytes", ran.out.len());
    let picture = Picture::read(ran.text());
    let ends = picture.about("SBAND1's end set ");
    assert!(ends.len() > 50 && ends.len() < 250, "{}", ends.len());
    assert!(ends
        .iter()
        .all(|one| one.about.contains(" times, the last at ")));
    picture.is_framed("many ends", EDGE);
    // But for the last, which stays within the panels.
    for pair in ends[..ends.len() - 1].windows(2) {
        assert!(pair[0].right <= pair[1].left + 0.2, "{pair:?}");
    }
}

/// An order of minutes has room in the list, beside every answer.
#[test]
fn timed_orders_are_listed_whole() {
    let few = "order payload 65535 PAYLOAD on for 1440 min";
    let picture = drawn(&format!("{SAFE}{few}\n"));
    assert!(picture.says(few));
    let many = (1..=20).map(|n| format!("order payload {n} PAYLOAD on for 1440 min\ntick 100\n"));
    let picture = drawn(&format!("{SAFE}tick 400000\n{}", many.collect::<String>()));
    for n in 1..=20 {
        assert!(
            picture.says(&format!("order payload {n} PAYLOAD on for 1440 min")),
            "{n}"
        );
    }
    picture.is_framed("many timed orders", EDGE);
}

#[test]
fn control_characters_in_a_title_are_no_harm() {
    let title = "a\u{1b}[31m<b>&\u{7}c\u{fffe}";
    let picture = drawn_with("tick\n", &["--title", title]);
    assert_eq!(picture.title, "a\u{241b}[31m<b>&\u{2407}c\u{fffd}");
}

#[test]
fn an_empty_flight_lasts_no_time() {
    assert!(drawn("").says("0 frames, 00:00:00"));
    assert!(drawn("order ground 1 MCS off\n").says("1 frame, 00:00:00"));
    assert!(drawn("tick\n").says("1 frame, 00:00:01"));
}
