//! The streams and cases of `tests/vectors` through the compiled library: the log
//! must be theirs, byte for byte, and so must all that a call leaves behind.
//! `vectors_books.rs` has the cases of the books.

mod board;
mod crossings;
mod masks;
mod wrong;

use board::board_of;
use cases::{modules_on, pass, track, Case};
use differential::sides::{Calls, Track, LIBRARY, MODEL};
use ems::{answer, Craft, REPORT_BYTES};
use model::track::Reading;
use std::fs;
use std::path::{Path, PathBuf};
use wrong::seconds::Step;

/// The log of a stream by a step.
fn log_by(step: Step, input: &[u8]) -> String {
    let mut image = *Craft::fresh().image();
    model::log_of(input, |frame| {
        let mut room = [0; REPORT_BYTES];
        match step(&mut image, frame, &mut room) {
            given if answer::has_report(given) => Ok(room),
            refusal => Err(refusal),
        }
    })
}

/// A stream of `tests/vectors`.
struct Stream {
    name: String,
    input: Vec<u8>,
    log: String,
}

fn streams() -> Vec<Stream> {
    let folder = Path::new(env!("CARGO_MANIFEST_DIR")).join("../../tests/vectors");
    let entries = fs::read_dir(folder).expect("tests/vectors is there");
    let paths = entries.map(|entry| entry.expect("its entries can be read").path());
    let streams = paths.filter(|path| path.extension().is_some_and(|end| end == "bin"));
    let read = |path: PathBuf| Stream {
        name: path.display().to_string(),
        input: fs::read(&path).expect("a stream"),
        log: fs::read_to_string(path.with_extension("log")).expect("its log"),
    };
    streams.map(read).collect()
}

#[test]
fn every_vector_gives_its_log() {
    let streams = streams();
    assert!(streams.len() >= 147, "only {} streams", streams.len());
    for stream in streams {
        let given = log_by(LIBRARY.step, &stream.input);
        assert!(given == stream.log, "{}", stream.name);
    }
}

/// In no stream does a module short about the second that brings its tries back.
const UNSEEN: [&str; 3] = [
    "takes a short in the 60th second from five tries",
    "brings the tries back after 59 seconds",
    "counts the second that starts it",
];

#[test]
fn every_other_wrong_second_gives_another_log_of_some_stream() {
    let streams = streams();
    for (name, step) in wrong::seconds::SECONDS {
        let differs = |stream: &Stream| log_by(step, &stream.input) != stream.log;
        let seen = streams.iter().any(differs);
        assert_eq!(seen, !UNSEEN.contains(&name), "{name}");
    }
}

/// These leave something else in the image, which no report shows; the last needs a
/// state that no frames lead to.
const UNHEARD: [&str; 4] = [
    "keeps the repeats of one with no text",
    "keeps the text of one with no repeats",
    "drops the message with its last repeat",
    "sends one with no text",
];

#[test]
fn every_other_wrong_greeting_gives_another_log_of_some_stream() {
    let streams = streams();
    let wrong = wrong::greetings::TAKEN.into_iter();
    for (name, step) in wrong.chain(wrong::greetings::SENT) {
        let differs = |stream: &Stream| log_by(step, &stream.input) != stream.log;
        let seen = streams.iter().any(differs);
        assert_eq!(seen, !UNHEARD.contains(&name), "{name}");
    }
}

/// From the fresh start none of the mission four gets to be requested in RECOVERY.
const UNREACHED: [&str; 3] = [
    "has in the requested mask what RECOVERY allows",
    "drops the mission four as the mode rises",
    "drops the mission four while in RECOVERY",
];

#[test]
fn every_other_frame_that_leaves_a_mask_gives_another_log_of_some_stream() {
    let streams = streams();
    for (name, step) in masks::frames::LEFT {
        let differs = |stream: &Stream| log_by(step, &stream.input) != stream.log;
        let seen = streams.iter().any(differs);
        assert_eq!(seen, !UNREACHED.contains(&name), "{name}");
    }
}

#[test]
fn every_other_wrong_judgement_gives_another_log_of_some_stream() {
    let streams = streams();
    for (name, step) in crossings::JUDGED {
        let differs = |stream: &Stream| log_by(step, &stream.input) != stream.log;
        let seen = streams.iter().any(differs);
        assert_eq!(seen, !UNREACHED.contains(&name), "{name}");
    }
}

/// The rule that wish 10 took away.
#[test]
fn the_former_rule_gives_another_log_of_three_streams() {
    let step = crossings::FORMER.1;
    let differs = |stream: &Stream| log_by(step, &stream.input) != stream.log;
    let differing = streams().into_iter().filter(differs);
    let mut names: Vec<String> = differing.map(|stream| stream.name).collect();
    names.sort_unstable();
    let wanted = [
        "crossings_at_equality_1",
        "mix_in_flight_1",
        "orders_each_mode_1",
    ];
    assert_eq!(names.len(), wanted.len(), "{names:?}");
    for (name, wanted) in names.iter().zip(wanted) {
        assert!(name.ends_with(&format!("/{wanted}.bin")), "{name}");
    }
}

#[test]
fn every_case_of_a_pass_comes_out() {
    let cases = pass::cases().expect("the cases are there");
    assert!(cases.len() >= 230, "only {} cases", cases.len());
    for case in cases {
        let checked = pass::check(&case, &board_of(LIBRARY), LIBRARY.pass);
        assert_eq!(checked, Ok(()));
    }
}

#[test]
fn every_wrong_pass_comes_out_otherwise_in_some_case() {
    let cases = pass::cases().expect("the cases are there");
    for (name, pass) in wrong::PASSES {
        let check = |case| pass::check(case, &board_of(MODEL), pass);
        let mut outcomes = cases.iter().map(check);
        assert!(outcomes.any(|outcome| outcome.is_err()), "{name}");
    }
}

/// What comes of a case of a count on a side.
fn counted(case: &Case, side: &Calls) -> cases::Result<()> {
    let count = |image: &[u8]| (side.modules_on)(image, &mut []);
    modules_on::check(case, &board_of(*side), count)
}

#[test]
fn every_case_of_a_count_comes_out() {
    let cases = modules_on::cases().expect("the cases are there");
    assert!(cases.len() >= 200, "only {} cases", cases.len());
    for case in cases {
        assert_eq!(counted(&case, &LIBRARY), Ok(()));
    }
}

/// In no case are two bits turned, or is a module on that is not requested, or that its mode
/// does not allow.
const UNCOUNTED: [&str; 5] = [
    "goes by the ones of each mask",
    "goes by the sum of the masks",
    "counts those requested and on",
    "leaves the mission four out in RECOVERY",
    "counts none in DEPLOY_WAIT",
];

#[test]
fn every_other_wrong_count_comes_out_otherwise_in_some_case() {
    let cases = modules_on::cases().expect("the cases are there");
    let counts = masks::counts::COUNTED.into_iter();
    let counts = counts
        .chain(masks::counts::REFUSED)
        .map(|(name, modules_on)| {
            let wrong = Calls {
                modules_on,
                ..MODEL
            };
            (name, wrong)
        });
    for (name, wrong) in counts.chain(masks::checks::TAKEN) {
        let mut outcomes = cases.iter().map(|case| counted(case, &wrong));
        let seen = outcomes.any(|outcome| outcome.is_err());
        assert_eq!(seen, !UNCOUNTED.contains(&name), "{name}");
    }
}

/// What comes of a case of the tracker on a side.
fn tracked(case: &Case, by: Track) -> cases::Result<()> {
    let reading = |[millivolts, milliamperes]: track::Reading| Reading {
        millivolts,
        milliamperes,
    };
    track::check(case, |before, after, set_point, step| {
        by(reading(before), reading(after), set_point, step)
    })
}

#[test]
fn every_case_of_the_tracker_comes_out() {
    let cases = track::cases().expect("the cases are there");
    assert!(cases.len() >= 250, "only {} cases", cases.len());
    for case in cases {
        assert_eq!(tracked(&case, LIBRARY.track), Ok(()));
    }
}

/// No case has a set point past its limit that is small in 16 bits.
const UNTRIED: [&str; 1] = ["looks at 16 bits of the set point"];

#[test]
fn every_other_wrong_tracker_comes_out_otherwise_in_some_case() {
    let cases = track::cases().expect("the cases are there");
    for (name, by) in wrong::all_trackers() {
        let mut outcomes = cases.iter().map(|case| tracked(case, by));
        let seen = outcomes.any(|outcome| outcome.is_err());
        assert_eq!(seen, !UNTRIED.contains(&name), "{name}");
    }
}
