//! The cases of the books and of their summary in `tests/vectors/calls`, through the
//! compiled library; and the wrong calls that come out otherwise in some of them.

mod board;
mod books;

use board::board_of;
use books::{counts, moved, refusals, summaries};
use cases::{summary, Case};
use differential::sides::{StepBooks, Summary, LIBRARY, MODEL};

fn cases_of_books() -> Vec<Case> {
    let cases = cases::books::cases().expect("the cases are there");
    assert!(cases.len() >= 190, "only {} cases", cases.len());
    cases
}

fn cases_of_summaries() -> Vec<Case> {
    let cases = summary::cases().expect("the cases are there");
    assert!(cases.len() >= 190, "only {} cases", cases.len());
    cases
}

#[test]
fn every_case_of_the_books_comes_out() {
    for case in cases_of_books() {
        let checked = cases::books::check(&case, &board_of(LIBRARY), LIBRARY.step_books);
        assert_eq!(checked, Ok(()));
    }
}

#[test]
fn every_case_of_a_summary_comes_out() {
    for case in cases_of_summaries() {
        assert_eq!(summary::check(&case, LIBRARY.summary), Ok(()));
    }
}

/// No frames lead to a module that is on or has failed in DEPLOY_WAIT, and in no case has
/// one of the mission four failed in RECOVERY.
const UNSEEN: [&str; 2] = [
    "counts all as off in DEPLOY_WAIT",
    "counts the mission four as off in RECOVERY",
];

#[test]
fn every_other_wrong_step_with_books_comes_out_otherwise_in_some_case() {
    let cases = cases_of_books();
    let wrong: [&[(&str, StepBooks)]; 5] = [
        &refusals::LENT,
        &refusals::FULL,
        &moved::MOVED,
        &counts::COUNTED,
        &counts::OTHERS,
    ];
    for (name, step_books) in wrong.concat() {
        let check = |case| cases::books::check(case, &board_of(MODEL), step_books);
        let seen = cases.iter().map(check).any(|outcome| outcome.is_err());
        assert_eq!(seen, !UNSEEN.contains(&name), "{name}");
    }
}

/// In no case are books refused with another room than that of eight shares, and in none is
/// a share so near to the next thousandth.
const UNSUMMED: [&str; 5] = [
    "goes by floating point",
    "asks for room first",
    "asks for room before the limit",
    "leaves fewer than eight",
    "clears all that are lent",
];

#[test]
fn every_other_wrong_summary_comes_out_otherwise_in_some_case() {
    let cases = cases_of_summaries();
    let wrong: [&[(&str, Summary)]; 3] =
        [&summaries::SHARED, &summaries::REFUSED, &summaries::WRITTEN];
    for (name, by) in wrong.concat() {
        let check = |case| summary::check(case, by);
        let seen = cases.iter().map(check).any(|outcome| outcome.is_err());
        assert_eq!(seen, !UNSUMMED.contains(&name), "{name}");
    }
}
