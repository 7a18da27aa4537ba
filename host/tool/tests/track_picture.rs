//! `ems track -o`: what is on the picture of a walk.

mod common;

use common::picture::{near, Drawn, Picture, PANELS};
use common::{place, run, scratch};
use std::fs;

const STRAIGHT: &str = "millivolts,milliamperes\n0,600\n6000,0\n";

/// A set point at an edge of the panels reaches over it by half its circle.
const EDGE: f64 = 4.0;

/// The picture of a walk that ends with a status.
fn drawn(curve: &str, more: &[&str], status: i32) -> Picture {
    let file = scratch("curve.csv", curve);
    let ran = run(&[&["track", &file, "-o", "-"], more].concat()).status(status);
    Picture::read(ran.text())
}

/// The shapes of a class that are about something.
fn of_class<'a>(picture: &'a Picture, class: &str) -> Vec<&'a Drawn> {
    let own = picture.drawn.iter().filter(|one| one.class == class);
    own.filter(|one| !one.about.is_empty()).collect()
}

/// The circles of the walk's set points.
fn set_points(picture: &Picture) -> Vec<&Drawn> {
    let circles = picture.drawn.iter().filter(|one| one.element == "circle");
    circles.filter(|one| !one.about.is_empty()).collect()
}

/// Everything is within the frame, and no two texts cover each other.
fn is_clear(name: &str, picture: &Picture) {
    picture.is_framed(name, EDGE);
    picture.has_clear_texts(name);
}

#[test]
fn the_walk_is_on_the_curve() {
    let picture = drawn(STRAIGHT, &["--start", "2450", "--calls", "50"], 0);
    assert_eq!(picture.title, "curve.csv");
    assert!(picture.says("50 calls from 2,450 mV in steps of 100 mV"));
    for text in [
        "the panel's voltage in millivolts",
        "calls",
        "power",
        "current",
        "peak",
        "800 mW",
        "600 mA",
    ] {
        assert!(picture.says(text), "{text}");
    }
    let power = picture.one("the panel's power");
    let current = picture.one("the panel's current");
    assert_eq!(
        (power.class.as_str(), current.class.as_str()),
        ("curve", "stem")
    );
    // 0 to 6,000 mV from edge to edge.
    for line in [power, current] {
        assert!(
            near(line.left, PANELS.0) && near(line.right, PANELS.1),
            "{line:?}"
        );
    }
    let x = |millivolts: f64| PANELS.0 + (PANELS.1 - PANELS.0) * millivolts / 6_000.0;
    let y = |milliwatts: f64| power.bottom - power.height() * milliwatts / 900.0;
    let circles = set_points(&picture);
    assert_eq!(circles.len(), 8);
    for (at, circle) in circles.iter().enumerate() {
        let millivolts = 2_450.0 + 100.0 * at as f64;
        assert!(near(circle.middle(), x(millivolts)), "{circle:?}");
        let read = millivolts * (600.0 - millivolts / 10.0).round() / 1_000.0;
        let middle = (circle.top + circle.bottom) / 2.0;
        assert!(near(middle, y(read)), "{circle:?}");
        // White before it crosses, black since then.
        let class = if at < 4 { "box" } else { "solid" };
        assert_eq!(circle.class, class, "{circle:?}");
    }
    assert_eq!(circles[0].about, "2,450 mV, 355 mA, 869.75 mW: 1 time");
    is_clear("straight", &picture);
}

#[test]
fn the_peak_and_two_steps_around_it_are_marked_on_both_panels() {
    let picture = drawn(STRAIGHT, &["--start", "2450", "--calls", "50"], 0);
    assert!(picture.says("peak, 3,000 mV, 900 mW"));
    let [over, beside] = picture.about("two steps around the peak, 2,800 mV to 3,200 mV")[..]
    else {
        panic!("two bands");
    };
    let [upright, level] = of_class(&picture, "ascend")[..] else {
        panic!("two lines");
    };
    let x = |millivolts: f64| PANELS.0 + (PANELS.1 - PANELS.0) * millivolts / 6_000.0;
    assert!(near(over.left, x(2_800.0)) && near(over.right, x(3_200.0)));
    assert!(near(upright.left, x(3_000.0)) && near(upright.width(), 0.0));
    assert!(near(upright.height(), over.height()));
    assert!(near(beside.width(), PANELS.1 - PANELS.0) && near(level.width(), beside.width()));
    assert!(near(level.top, (beside.top + beside.bottom) / 2.0));
    // The set point from call to call is within the band from the crossing on.
    let line = picture.one("the set point");
    assert!(line.bottom > beside.bottom && line.top >= beside.top);
    let crossing = picture.one("call 6 crosses the peak");
    assert!(near(
        crossing.left,
        PANELS.0 + (PANELS.1 - PANELS.0) * 6.0 / 50.0
    ));
    assert!(picture.says("call 6 crosses the peak"));
    let since = path(line);
    assert_eq!(since.len(), 51);
    for &(x, y) in &since[6..] {
        assert!(x >= crossing.left - 0.1 && y >= beside.top && y <= beside.bottom);
    }
}

/// The call that crosses is the first of those since then.
#[test]
fn a_set_point_is_black_from_the_crossing_on() {
    let classes = |calls: &str| -> Vec<String> {
        let picture = drawn(STRAIGHT, &["--start", "2850", "--calls", calls], 0);
        let circles = set_points(&picture);
        circles.iter().map(|one| one.class.clone()).collect()
    };
    assert_eq!(classes("1"), ["box", "box"]);
    assert_eq!(classes("2"), ["box", "box", "solid"]);
    assert_eq!(classes("3"), ["box", "box", "solid", "solid"]);
}

/// The corners of a line.
fn path(line: &Drawn) -> Vec<(f64, f64)> {
    let numbers = line.path.split(|c: char| "ML ".contains(c));
    let numbers: Vec<f64> = numbers.filter_map(|number| number.parse().ok()).collect();
    numbers.chunks(2).map(|pair| (pair[0], pair[1])).collect()
}

#[test]
fn a_walk_that_has_not_crossed_has_no_mark_for_it() {
    let picture = drawn(STRAIGHT, &["--start", "450", "--calls", "5"], 0);
    assert!(picture.about("crosses the peak").is_empty());
    assert!(set_points(&picture)
        .iter()
        .all(|circle| circle.class == "box"));
    is_clear("not crossed", &picture);
}

#[test]
fn a_refused_call_is_a_cross() {
    let strong = "millivolts,milliamperes\n0,1000\n2000,4000\n3000,6000\n4000,0\n";
    let picture = drawn(strong, &["--start", "1000", "--step", "500"], 2);
    let cross = picture.one("call 5 is refused: 16");
    assert_eq!(
        (cross.element.as_str(), cross.class.as_str()),
        ("path", "box")
    );
    assert!(picture.says("refused call"));
    is_clear("refused", &picture);
    assert!(!drawn(STRAIGHT, &["--start", "450"], 0).says("refused call"));
}

/// A million calls are a small picture, and so are set points too close to tell.
#[test]
fn long_walks_are_small_pictures() {
    let file = scratch("curve.csv", STRAIGHT);
    let long = [
        "track", &file, "--start", "2450", "--calls", "1000000", "-o", "-",
    ];
    let ran = run(&long).status(0);
    assert!(ran.out.len() < 60_000, "{} bytes", ran.out.len());
    let picture = Picture::read(ran.text());
    let band = picture.one("the set point, the lowest to the highest");
    assert_eq!(band.class, "band");
    is_clear("a million", &picture);
    let dark = "millivolts,milliamperes\n0,0\n";
    let picture = drawn(
        dark,
        &["--start", "0", "--step", "1", "--calls", "20000"],
        3,
    );
    assert!(set_points(&picture).len() < 130);
    assert!(!picture.about(" set points, ").is_empty());
    is_clear("by millivolts", &picture);
}

#[test]
fn no_walk_leaves_the_frame() {
    let far = "millivolts,milliamperes\n0,5000\n30000,4900.5\n30001,0\n";
    let low = "millivolts,milliamperes\n0,3000\n300,3000\n500,0\n";
    let weak = "millivolts,milliamperes\n0,0.4\n5,0\n";
    for (name, curve, more, status) in [
        (
            "one call",
            STRAIGHT,
            &["--start", "3000", "--calls", "1"][..],
            0,
        ),
        (
            "at the edge",
            STRAIGHT,
            &["--start", "0", "--step", "500"],
            0,
        ),
        ("past the last row", STRAIGHT, &["--start", "7000"], 3),
        ("to the end", far, &["--start", "15000", "--step", "499"], 0),
        ("to 0 mV", low, &["--start", "400", "--step=-499"], 0),
        ("weak", weak, &["--start", "0", "--step", "1"], 3),
        (
            "dark",
            "millivolts,milliamperes\n0,0\n",
            &["--start", "0"],
            3,
        ),
    ] {
        for title in ["short", &"W".repeat(300), "<&>"] {
            let args = [more, &["--title", title]].concat();
            let picture = drawn(curve, &args, status);
            assert_eq!(picture.title, title, "{name}");
            is_clear(name, &picture);
        }
    }
}

/// What is told of the walk is in the file for those who don't see it, and beside the
/// picture on standard output unless that is the picture's place.
#[test]
fn a_picture_has_the_words() {
    let file = scratch("curve.csv", STRAIGHT);
    let args = ["track", &file, "--start", "2450"];
    let words = run(&args).status(0);
    let picture = place("track.svg");
    let beside = run(&[&args[..], &["-o", &picture]].concat()).status(0);
    assert_eq!(beside.text(), words.text());
    let svg = fs::read_to_string(&picture).expect("the picture");
    let alone = run(&[&args[..], &["-o", "-"]].concat()).status(0);
    assert_eq!(alone.text(), svg);
    let begin = svg.find("<desc>").expect("a description") + "<desc>".len();
    assert!(
        svg[begin..].starts_with(words.text().trim_end()),
        "{}",
        &svg[begin..][..80]
    );
    assert!(!svg.contains("NaN") && !svg.contains("inf"));
}
