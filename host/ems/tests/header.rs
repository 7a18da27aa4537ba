//! The header and the wrapper say the same, and programs in C and C++ build
//! with the header and fly with the library.

use ems::{answer, units_for, Craft, Module};
use std::{path::Path, process::Command};

const HEADER: &str = include_str!("../../../include/ems.h");

/// A name's number in the header: `#define NAME n`, where n may be unsigned, or `NAME = n`.
fn number(name: &str) -> Option<usize> {
    HEADER.lines().find_map(|line| {
        let mut words = line.split_whitespace();
        match (words.next()?, words.next()?, words.next()?) {
            ("#define", own, value) if own == name => value.trim_end_matches('U').parse().ok(),
            (own, "=", value) if own == name => value.trim_end_matches(',').parse().ok(),
            _ => None,
        }
    })
}

#[test]
fn lengths_are_the_header_s() {
    for (name, value) in [
        ("EMS_IMAGE_BYTES", ems::IMAGE_BYTES),
        ("EMS_REPORT_BYTES", ems::REPORT_BYTES),
        ("EMS_BEACON_BASIC_BYTES", ems::BEACON_BASIC_BYTES),
        ("EMS_BEACON_COMPLETE_BYTES", ems::BEACON_COMPLETE_BYTES),
        ("EMS_BEACON_EXTENDED_BYTES", ems::BEACON_EXTENDED_BYTES),
        ("EMS_MESSAGE_BYTES", ems::MESSAGE_BYTES),
        ("EMS_TEXT_BYTES", ems::TEXT_BYTES),
    ] {
        assert_eq!(number(name), Some(value), "{name}");
    }
}

#[test]
fn the_tracker_s_limits_are_the_header_s() {
    for (name, value) in [
        ("EMS_MOST_MILLIVOLTS", ems::MOST_MILLIVOLTS),
        ("EMS_MOST_MILLIAMPERES", ems::MOST_MILLIAMPERES),
        ("EMS_LONGEST_STEP", ems::LONGEST_STEP.unsigned_abs()),
    ] {
        assert_eq!(number(name), Some(value as usize), "{name}");
    }
}

#[test]
fn the_books_numbers_are_the_header_s() {
    for (name, value) in [
        ("EMS_MODULES", Module::ALL.len()),
        ("EMS_BOOKS_NUMBERS", ems::BOOKS_NUMBERS),
        ("EMS_MOST_SECONDS", ems::MOST_SECONDS as usize),
    ] {
        assert_eq!(number(name), Some(value), "{name}");
    }
}

#[test]
fn the_version_is_the_header_s() {
    let version = Craft::fresh().image()[0];
    assert_eq!(number("EMS_IMAGE_VERSION"), Some(version.into()));
}

#[test]
fn answers_are_the_header_s() {
    for (name, value) in [
        ("EMS_DONE", answer::DONE),
        ("EMS_BAD_STATE", answer::BAD_STATE),
        ("EMS_SHORT_ROOM", answer::SHORT_ROOM),
        ("EMS_NO_INPUT", answer::NO_INPUT),
        ("EMS_UNKNOWN_KIND", answer::UNKNOWN_KIND),
        ("EMS_BAD_LENGTH", answer::BAD_LENGTH),
        ("EMS_BAD_FIELD", answer::BAD_FIELD),
        ("EMS_NOT_PERMITTED", answer::NOT_PERMITTED),
        ("EMS_REPEAT", answer::REPEAT),
        ("EMS_STALE", answer::STALE),
        ("EMS_NOT_NOW", answer::NOT_NOW),
        ("EMS_TEXT_TOO_LONG", answer::TEXT_TOO_LONG),
        ("EMS_NOT_KEYABLE", answer::NOT_KEYABLE),
        ("EMS_BAD_SPACE", answer::BAD_SPACE),
        ("EMS_NO_ROOM", answer::NO_ROOM),
        ("EMS_NOT_A_KEYING", answer::NOT_A_KEYING),
        ("EMS_OUT_OF_RANGE", answer::OUT_OF_RANGE),
        ("EMS_BOOKS_FULL", answer::BOOKS_FULL),
        ("EMS_NOT_BOOKS", answer::NOT_BOOKS),
        ("EMS_NO_MESSAGE", answer::NO_MESSAGE),
    ] {
        assert_eq!(number(name), Some(value.into()), "{name}");
    }
}

/// Builds a program of `tests` by a compiler, and gives what it prints.
fn print_of(source: &str, compiler: &str, language: &str, standard: &str) -> String {
    let package = Path::new(env!("CARGO_MANIFEST_DIR"));
    let program = Path::new(env!("CARGO_TARGET_TMPDIR")).join(format!("{source}{standard}"));
    let built = Command::new(compiler)
        .args(["-x", language, standard, "-pedantic", "-Wall", "-Wextra"])
        .args(["-Wconversion", "-Wsign-conversion", "-Werror", "-I"])
        .arg(package.join("../../include"))
        .arg(package.join("tests").join(source))
        .args(["-x", "none", "-L", env!("EMS_FLIGHT_DIR"), "-lflight", "-o"])
        .arg(&program)
        .status();
    let built = built.is_ok_and(|status| status.success());
    assert!(built, "{compiler} {standard}");
    let run = Command::new(program).output().expect("it runs");
    assert!(run.status.success());
    String::from_utf8_lossy(&run.stdout).into_owned()
}

const PRINT: &str = "\
0 81 03 00 00 00 00 00 27 00 00 00
5 02 0 04 10 07 0
EMS D 7800, 115 units
EMS D 7800 00 00 HI, SCHOOL, 329 units
0 4 on, 1 0 on
0 12000 -250, 16 12000 -250
";

/// The calls that the header declares.
fn declared() -> Vec<&'static str> {
    let calls = HEADER.lines().filter_map(|line| {
        let (name, _) = line.strip_prefix("uint8_t ")?.split_once('(')?;
        Some(name)
    });
    calls.collect()
}

#[test]
fn the_library_has_the_header_s_calls_and_no_other() {
    let archive = Path::new(env!("EMS_FLIGHT_DIR")).join("libflight.a");
    let symbols = Command::new("nm").arg(archive).output().expect("nm runs");
    let symbols = String::from_utf8_lossy(&symbols.stdout).into_owned();
    let names = symbols.lines().filter_map(|line| line.split_once(" T "));
    let mut names: Vec<&str> = names.map(|(_, name)| name).collect();
    let mut declared = declared();
    names.sort_unstable();
    declared.sort_unstable();
    assert_eq!(names, declared);
}

#[test]
fn a_c_program_flies() {
    assert_eq!(print_of("flight.c", "cc", "c", "-std=c99"), PRINT);
}

#[test]
fn a_cpp_program_flies() {
    assert_eq!(print_of("flight.c", "c++", "c++", "-std=c++11"), PRINT);
}

#[test]
fn the_room_set_aside_in_c_is_the_wrapper_s() {
    let row = |n| format!("{n} {0} {0}\n", units_for(n));
    let rows: String = (0..=ems::TEXT_BYTES).map(row).collect();
    let (two, twice_one) = (units_for(2), 2 * units_for(1));
    let wanted = rows + &format!("{two} {twice_one} {}\n", ems::UNITS_BYTES);
    for (compiler, language, standard) in [
        ("cc", "c", "-std=c99"),
        ("c++", "c++", "-std=c++98"),
        ("c++", "c++", "-std=c++11"),
    ] {
        let print = print_of("units_for.c", compiler, language, standard);
        assert_eq!(print, wanted, "{standard}");
    }
}

const BOOKS: &str = "\
0 | 0 1 0 | 0 1 0
0 | 0 2 0 | 0 2 0
0 | 0 3 0 | 0 3 0
0 | 1 3 0 | 0 4 0
0 | 2 3 0 | 0 5 0
17 | 1000000000000000 3 0 | 0 5 0
0 | 999 400 0
18 | 1000000000000000 3 0 | 0 5 0
18 | 0 0 0
";

/// The limit is a number of 64 bits in each of the languages.
#[test]
fn programs_in_c_and_cpp_keep_books() {
    for (compiler, language, standard) in [
        ("cc", "c", "-std=c99"),
        ("c++", "c++", "-std=c++98"),
        ("c++", "c++", "-std=c++11"),
    ] {
        let print = print_of("books.c", compiler, language, standard);
        assert_eq!(print, BOOKS, "{standard}");
    }
}

/// Whether a compiler takes the header by itself, and what it says of it.
/// Freestanding: a compiler for 64 bits has no other headers for 32 than its own.
fn taken(compiler: &str, language: &str, standard: &str, width: &str) -> (bool, String) {
    let header = Path::new(env!("CARGO_MANIFEST_DIR")).join("../../include/ems.h");
    let checked = Command::new(compiler)
        .args(["-x", language, standard, width, "-pedantic", "-Wall"])
        .args(["-Wextra", "-Werror", "-ffreestanding", "-fsyntax-only"])
        .arg(header)
        .output()
        .expect("it runs");
    let said = String::from_utf8_lossy(&checked.stderr).into_owned();
    (checked.status.success(), said)
}

#[test]
fn a_size_t_of_4_bytes_is_refused() {
    for (compiler, language, standard) in [
        ("cc", "c", "-std=c99"),
        ("cc", "c", "-std=c11"),
        ("cc", "c", "-std=c17"),
        ("c++", "c++", "-std=c++98"),
        ("c++", "c++", "-std=c++11"),
        ("c++", "c++", "-std=c++17"),
    ] {
        let of_8 = taken(compiler, language, standard, "-m64");
        assert_eq!(of_8, (true, String::new()), "{standard}");
        let (fine, said) = taken(compiler, language, standard, "-m32");
        let why = said.replace('_', " ");
        assert!(!fine && why.contains("lengths cross as 64 bits"), "{said}");
    }
}
