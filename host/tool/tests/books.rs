//! `ems books`: each module's seconds, in words, as a table and as a picture.

mod common;

use ::ems::Module;
use common::picture::{near, Drawn, Picture, PANELS};
use common::{bash, fed, is_file, place, root, run, scratch, Ran};
use std::fs;

/// A module's name, its seconds on, off and failed, and its share on in thousandths.
type Row = (String, [u64; 3], u64);

/// Antennas out, settled, and in SAFE from 00:15:31 on.
const SAFE: &str = "antennas deployed\nbattery 7800\ntick 961\n";

/// The books of a script, with further arguments.
fn kept(script: &str, more: &[&str]) -> Ran {
    let args = [&["books", "--as", "script", "-"], more].concat();
    fed(&args, script.as_bytes())
}

/// The rows of a table.
fn rows(table: &str) -> Vec<Row> {
    let mut lines = table.lines();
    assert_eq!(lines.next(), Some("module,on,off,failed,thousandths"));
    let row = |line: &str| {
        let (module, numbers) = line.split_once(',').expect(line);
        let numbers: Vec<u64> = numbers
            .split(',')
            .map(|number| number.parse().expect(line))
            .collect();
        let [on, off, failed, share] = numbers[..] else {
            panic!("{line}");
        };
        (module.to_string(), [on, off, failed], share)
    };
    lines.map(row).collect()
}

/// The rows of a script's table.
fn table(script: &str, more: &[&str]) -> Vec<Row> {
    let ran = kept(script, &[more, &["--table"]].concat()).status(0);
    rows(ran.text())
}

/// The seconds of all modules.
fn seconds(rows: &[Row]) -> Vec<[u64; 3]> {
    rows.iter().map(|row| row.1).collect()
}

fn example(name: &str) -> String {
    let path = root().join(format!("examples/{name}.pass"));
    fs::read_to_string(path).expect("an example")
}

#[test]
fn the_books_of_a_day_are_as_expected() {
    let title = "A day of fifteen orbits, in the books";
    let args = ["books", "examples/orbit.pass", "--title", title, "-o"];
    let picture = place("books.svg");
    let words = run(&[&args[..], &[&picture]].concat()).status(0);
    is_file("host/tool/tests/expected/orbit-books.txt", &words.out);
    let drawn = fs::read(&picture).expect("a picture");
    assert!(drawn.len() < 15_000, "{} bytes", drawn.len());
    is_file("docs/orbit-books.svg", &drawn);
    let alone = run(&[&args[..], &["-"]].concat()).status(0);
    assert!(alone.out == drawn, "the picture alone is another one");
}

/// Each number is the count of the ticks in whose report the module is such: on and failed
/// by the masks, and otherwise off.
#[test]
fn the_books_are_what_the_log_says() {
    for name in [
        "dawn",
        "orbit",
        "quiet-radio",
        "shorted",
        "starts-and-shorts",
        "twenty-minutes",
    ] {
        let script = format!("examples/{name}.pass");
        let log = run(&["log", &script]).status(0);
        let mut counted = [[0; 3]; Module::ALL.len()];
        let mut ticks = 0;
        for line in log.text().lines().skip(1) {
            let fields: Vec<&str> = line.split(' ').collect();
            if fields[1] != "01" {
                continue;
            }
            ticks += 1;
            let mask = |at: usize| u8::from_str_radix(fields[at], 16).expect(line);
            let (on, failed) = (mask(7), mask(8));
            for (module, counted) in Module::ALL.into_iter().zip(&mut counted) {
                let is = |mask: u8| mask & module.bit() != 0;
                let which = if is(on) {
                    0
                } else if is(failed) {
                    2
                } else {
                    1
                };
                counted[which] += 1;
            }
        }
        let ran = run(&["books", &script, "--table"]).status(0);
        let books = rows(ran.text());
        assert_eq!(seconds(&books), counted, "{name}");
        for (module, (name, [on, off, failed], share)) in Module::ALL.iter().zip(&books) {
            assert_eq!(name, module.name());
            assert_eq!(on + off + failed, ticks);
            let rounded_down = share * ticks <= 1_000 * on && 1_000 * on < (share + 1) * ticks;
            assert!(rounded_down, "{module}: {share} of {on} in {ticks}");
        }
    }
}

#[test]
fn words_say_what_the_table_says() {
    let script =
        format!("{SAFE}order ground 1 SBAND1 on\ntick 100\ntick 10 shorts SBAND1\ntick 12345\n");
    let words = kept(&script, &[]).status(0);
    let mut lines = words.text().lines();
    assert_eq!(
        lines.next(),
        Some("module   seconds on  seconds off  seconds failed  share on")
    );
    let books = table(&script, &[]);
    assert_eq!(books.len(), 8);
    for (module, seconds, share) in books {
        let line = lines.next().expect("a row");
        let words: Vec<String> = line
            .split_whitespace()
            .map(|word| word.replace(',', ""))
            .collect();
        let [on, off, failed] = seconds.map(|number| number.to_string());
        let share = format!("{}.{}", share / 10, share % 10);
        assert_eq!(words, [&module, &on, &off, &failed, &share, "%"]);
    }
    let last: Vec<&str> = lines.collect();
    let add_up = "Ticks done: 13,416, and each module's seconds add up to that.";
    assert_eq!(last, ["", add_up]);
}

#[test]
fn a_flight_without_a_tick_has_empty_books() {
    for script in ["", "battery 7800\norder ground 1 MCS off\n"] {
        for (_, seconds, share) in table(script, &[]) {
            assert_eq!((seconds, share), ([0; 3], 0));
        }
        kept(script, &[])
            .status(0)
            .prints("\nPAYLOAD           0            0               0     0.0 %\n")
            .prints("\nTicks done: 0, and each module's seconds add up to that.\n");
    }
    // In DEPLOY_WAIT everything is off, and that is counted.
    for (_, seconds, _) in table("tick\n", &[]) {
        assert_eq!(seconds, [0, 1, 0]);
    }
}

/// What comes before is not in the books: those of both parts together are the whole's.
#[test]
fn the_books_begin_where_the_flight_does() {
    let (before, next) = (example("dawn"), example("quiet-radio"));
    let file = scratch("before.pass", &before);
    let image = place("before.bin");
    run(&["uplink", &file, "-o", &image]).status(0);
    let first = seconds(&table(&before, &[]));
    let second = seconds(&table(&next, &["--after", &file]));
    let both = seconds(&table(&format!("{before}{next}"), &[]));
    for ((first, second), both) in first.iter().zip(&second).zip(&both) {
        assert_eq!([0, 1, 2].map(|at| first[at] + second[at]), *both);
    }
    assert_eq!(seconds(&table(&next, &["--image", &image])), second);
    // Another board than the fresh start's, which sits in DEPLOY_WAIT first.
    assert_ne!(seconds(&table(&next, &[])), second);
    let ran = kept(&next, &["--after", &file]).status(0);
    ran.prints("\nTicks done: 28,500, and each module's seconds add up to that.\n");
}

#[test]
fn what_comes_before_has_to_be_flyable() {
    let before = scratch("before.pass", "tick\nbattery 1\n");
    let ran = kept("tick\n", &["--after", &before]).status(2);
    assert!(ran.out.is_empty());
    ran.says("before.pass, line 2: frame 2, `battery 1`, is refused: 6");
    let wrong = scratch("wrong.bin", "tick");
    let ran = kept("tick\n", &["--image", &wrong]).status(1);
    assert!(ran.out.is_empty());
    ran.says("wrong.bin has 4 bytes, and an image of version 6 has 71\n");
}

/// The books are of what was flown; with `--keep-going` that is more.
#[test]
fn a_refused_frame_ends_the_books_as_it_ends_a_flight() {
    let script = "tick 3\nbattery 4999\ntick 4\norder payload 1 MCS on\ntick 5\nraw 77\ntick 6\n";
    let range = "line 2: frame 4, `battery 4999`, is refused: 6, a field";
    let ticks =
        |done: u64| format!("\nTicks done: {done}, and each module's seconds add up to that.\n");
    kept(script, &[]).status(2).prints(&ticks(3)).says(range);
    let ran = kept(script, &["--keep-going"]).status(2);
    let said: Vec<&str> = ran.err.lines().collect();
    assert_eq!(said.len(), 3);
    for (line, refused) in said.iter().zip([": 6, ", ": 7, ", ": 4, "]) {
        assert!(line.contains(refused), "{line}");
    }
    let ran = ran.prints(&ticks(12));
    assert_eq!(ran.text().lines().count(), 11);
    // There is a picture of it as well.
    let drawn = kept(script, &["-o", "-"]).status(2).says(range);
    assert!(Picture::read(drawn.text()).says("3 ticks done"));
    let file = scratch("notes.txt", "tick 3\n");
    run(&["books", &file])
        .status(2)
        .prints(&ticks(0))
        .says("notes.txt looks like text: `--as script` takes it for a pass script\n");
}

#[test]
fn files_are_not_in_each_other_s_way() {
    let flight = scratch("a.pass", "tick\n");
    let image = place("a.bin");
    run(&["uplink", &flight, "-o", &image]).status(0);
    let wrong = |args: &[&str], why: &str| {
        let ran = run(&[&["books"], args].concat()).status(1);
        assert!(ran.out.is_empty() && ran.err.contains(why), "{}", ran.err);
    };
    let lost = "is the input, which would be lost: name another file after -o";
    wrong(&[&flight, "-o", &flight], lost);
    wrong(
        &["examples/dawn.pass", "--after", &flight, "-o", &flight],
        lost,
    );
    wrong(&[&flight, "--image", &image, "-o", &image], lost);
    assert_eq!(fs::read(&flight).expect("the flight"), b"tick\n");
    let both = "standard input can be the pass or what comes before it, not both";
    wrong(&["-", "--after", "-"], both);
    wrong(&["-", "--image", "-"], both);
    wrong(&[&flight, "--after", &flight, "--image", &image], "--image");
    wrong(&[&flight, "--title", "no picture"], "--output");
    wrong(&["nowhere.pass"], "nowhere.pass: No such file");
    wrong(
        &[&flight, "--after", "nowhere.pass"],
        "nowhere.pass: No such file",
    );
    wrong(
        &[&flight, "-o", "/nowhere/x.svg"],
        "/nowhere/x.svg: No such file",
    );
    wrong(&[], "<FILE>");
    bash("$ems books examples/dawn.pass >&-")
        .status(1)
        .says("ems: standard output: is closed");
    // A script with a mistake takes no picture away.
    let picture = scratch("kept.svg", "old");
    let typo = scratch("typo.pass", "tock\n");
    run(&["books", &typo, "-o", &picture]).status(1);
    assert_eq!(fs::read(&picture).expect("the picture"), b"old");
    run(&["books", &flight, "-o", &picture]).status(0);
    assert!(fs::read(&picture).expect("the picture").len() > 1_000);
}

/// The picture of a script's books.
fn drawn(script: &str, more: &[&str]) -> Picture {
    let ran = kept(script, &[more, &["-o", "-"]].concat()).status(0);
    assert!(!ran.text().contains("NaN") && !ran.text().contains("inf"));
    Picture::read(ran.text())
}

/// A module's bar, from left to right.
fn bar<'a>(picture: &'a Picture, module: &str) -> Vec<&'a Drawn> {
    let own = picture.about(&format!("{module} "));
    // The white boxes in a pattern, behind a number, are lower than the bar.
    let tallest = own.iter().map(|part| part.height()).fold(0.0, f64::max);
    own.into_iter()
        .filter(|part| near(part.height(), tallest))
        .collect()
}

/// The seconds that a part says.
fn said(part: &Drawn) -> u64 {
    let (_, seconds) = part.about.split_once(", ").expect("seconds");
    let digits = seconds.chars().filter(char::is_ascii_digit);
    digits.collect::<String>().parse().expect("a number")
}

/// Black is on, cross-hatched failed, white off. A module's parts touch, say its seconds,
/// and are as wide as the panel together.
#[test]
fn bars_add_up() {
    for name in ["orbit", "shorted", "starts-and-shorts"] {
        let script = example(name);
        let picture = drawn(&script, &[]);
        for (module, [on, off, failed], share) in table(&script, &[]) {
            let parts = bar(&picture, &module);
            let wanted = [
                ("on", "solid", on),
                ("failed", "failed", failed),
                ("off", "box", off),
            ];
            let wanted: Vec<_> = wanted.into_iter().filter(|part| part.2 > 0).collect();
            assert_eq!(parts.len(), wanted.len(), "{name}, {module}");
            let mut x = PANELS.0;
            for (part, (state, class, seconds)) in parts.iter().zip(&wanted) {
                assert!(part.about.starts_with(&format!("{module} {state}, ")));
                assert_eq!((part.class.as_str(), said(part)), (*class, *seconds));
                assert!(near(part.left, x), "{part:?}");
                let to_scale = *seconds as f64 / (on + off + failed) as f64;
                let to_scale = to_scale * (PANELS.1 - PANELS.0);
                // Narrow ones are wider, at the widest one's cost.
                assert!((part.width() - to_scale).abs() < 7.0, "{part:?}");
                x = part.right;
            }
            assert!(near(x, PANELS.1), "{name}, {module}");
            let all: u64 = parts.iter().map(|part| said(part)).sum();
            assert_eq!(all, on + off + failed);
            let share = format!("{}.{} %", share / 10, share % 10);
            let beside = picture.texts().find(|text| {
                let level = text.bottom > parts[0].top && text.top < parts[0].bottom;
                level && text.left > PANELS.1
            });
            assert_eq!(beside.expect("a share").text, share, "{name}, {module}");
            assert!(picture.says(&module));
        }
        assert!(["on", "failed", "off", "share on", "seconds"]
            .iter()
            .all(|text| picture.says(text)));
        is_clear(name, &picture);
    }
}

/// One second of a day is seen.
#[test]
fn a_second_is_seen() {
    let script = format!("{SAFE}order ground 1 SBAND1 on\ntick 86400\ntick shorts SBAND1\n");
    let picture = drawn(&script, &[]);
    let once = drawn(
        "tick 86400\nantennas deployed\nbattery 7800\ntick 901\n",
        &[],
    );
    for (picture, module) in [(&picture, "SBAND1"), (&once, "MCS")] {
        let parts = bar(picture, module);
        assert!(parts.iter().all(|part| part.width() > 2.5), "{parts:?}");
        assert!(near(parts[parts.len() - 1].right, PANELS.1), "{parts:?}");
    }
    assert_eq!(bar(&once, "MCS")[0].about, "MCS on, 1 second");
}

/// Everything is within the frame, and no two texts cover each other.
fn is_clear(name: &str, picture: &Picture) {
    picture.is_framed(name, 0.0);
    picture.has_clear_texts(name);
}

#[test]
fn no_books_leave_the_frame() {
    let flights = [
        ("empty", String::new()),
        ("one", "tick\n".to_string()),
        (
            "twelve days",
            "antennas deployed\nbattery 7800\ntick 1000000\n".to_string(),
        ),
        (
            "failed",
            format!("{SAFE}order ground 1 ADCS on\ntick 90000 shorts ADCS\n"),
        ),
    ];
    for (name, script) in flights {
        for title in ["short", &"W".repeat(300), "<&>"] {
            let picture = drawn(&script, &["--title", title]);
            assert_eq!(picture.title, title, "{name}");
            is_clear(name, &picture);
        }
    }
    assert_eq!(drawn("tick\n", &[]).title, "standard input");
    assert!(drawn("tick 5\n", &[]).says("5 ticks done"));
}

/// What is told of the books is in the file for those who don't see it.
#[test]
fn a_picture_has_the_words() {
    let words = kept(SAFE, &[]).status(0);
    let picture = place("books.svg");
    let beside = kept(SAFE, &["-o", &picture]).status(0);
    assert_eq!(beside.text(), words.text());
    let beside = kept(SAFE, &["-o", &picture, "--table"]).status(0);
    assert_eq!(rows(beside.text()), table(SAFE, &[]));
    let svg = fs::read_to_string(&picture).expect("the picture");
    let begin = svg.find("<desc>").expect("a description") + "<desc>".len();
    assert!(svg[begin..].starts_with(words.text().trim_end()));
}
