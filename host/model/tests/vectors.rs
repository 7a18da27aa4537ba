//! The streams and cases of `tests/vectors`, made by an implementation that
//! shares nothing with this one: the log must be theirs, byte for byte, and so
//! must all that a call leaves behind.

use cases::{books, modules_on, pass, summary, track, Board};
use model::track::Reading;
use model::{calls, image};
use std::{fs, path::Path};

#[test]
fn every_vector_gives_its_log() {
    let folder = Path::new(env!("CARGO_MANIFEST_DIR")).join("../../tests/vectors");
    let mut streams: Vec<_> = fs::read_dir(&folder)
        .expect("tests/vectors is there")
        .map(|entry| entry.expect("its entries can be read").path())
        .filter(|path| path.extension().is_some_and(|end| end == "bin"))
        .collect();
    streams.sort();
    assert!(streams.len() >= 147, "only {} streams", streams.len());
    for stream in streams {
        let input = fs::read(&stream).expect("a stream");
        let wanted = fs::read_to_string(stream.with_extension("log")).expect("its log");
        let given = model::step_log(&input);
        let differs = wanted.lines().zip(given.lines()).find(|(w, g)| w != g);
        assert!(wanted == given, "{}: {differs:?}", stream.display());
    }
}

const MODEL: Board = Board {
    image_bytes: image::BYTES,
    fresh: calls::fresh,
    step: calls::step,
};

#[test]
fn every_case_of_a_pass_comes_out() {
    let cases = pass::cases().expect("the cases are there");
    assert!(cases.len() >= 230, "only {} cases", cases.len());
    for case in cases {
        assert_eq!(pass::check(&case, &MODEL, calls::pass), Ok(()));
    }
}

#[test]
fn every_case_of_a_count_comes_out() {
    let cases = modules_on::cases().expect("the cases are there");
    assert!(cases.len() >= 200, "only {} cases", cases.len());
    for case in cases {
        let checked = modules_on::check(&case, &MODEL, calls::modules_on);
        assert_eq!(checked, Ok(()));
    }
}

#[test]
fn every_case_of_the_books_comes_out() {
    let cases = books::cases().expect("the cases are there");
    assert!(cases.len() >= 190, "only {} cases", cases.len());
    for case in cases {
        let checked = books::check(&case, &MODEL, calls::step_books);
        assert_eq!(checked, Ok(()));
    }
}

#[test]
fn every_case_of_a_summary_comes_out() {
    let cases = summary::cases().expect("the cases are there");
    assert!(cases.len() >= 190, "only {} cases", cases.len());
    for case in cases {
        assert_eq!(summary::check(&case, calls::summary), Ok(()));
    }
}

#[test]
fn every_case_of_the_tracker_comes_out() {
    let reading = |[millivolts, milliamperes]: track::Reading| Reading {
        millivolts,
        milliamperes,
    };
    let cases = track::cases().expect("the cases are there");
    assert!(cases.len() >= 250, "only {} cases", cases.len());
    for case in cases {
        let checked = track::check(&case, |before, after, set_point, step| {
            calls::track(reading(before), reading(after), set_point, step)
        });
        assert_eq!(checked, Ok(()));
    }
}
