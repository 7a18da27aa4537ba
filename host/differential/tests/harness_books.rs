//! The differential tests' own test, as `harness.rs`: steps with books and summaries that
//! are wrong are found, also where the model has the same fault.

mod books;
mod common;
mod told;

use books::{counts, moved, refusals, summaries};
use common::run;
use differential::sides::{Calls, StepBooks, Summary, MODEL};
use told::{frames, told};

const LENGTHS: &str = "books of every length";
const LIMITS: &str = "numbers of the books about their limit";
const SORTS: &str = "every on, off and failed in the books";
const FLIGHTS: &str = "flights in the books";
const FULL: &str = "books that fill up";
const SUMMARIES: &str = "summaries of every length";
const THOUSANDTHS: &str = "shares about every thousandth";
const SHARES: &str = "shares of any numbers";

/// What a group says of a step with books, where one side has it, and where both have.
fn told_of(group: &str, (name, step_books): (&str, StepBooks)) -> [String; 2] {
    let faulty = Calls {
        step_books,
        ..MODEL
    };
    let of_both = run(group, &[faulty, faulty]).expect_err(name);
    [told(group, faulty), of_both]
}

/// A wrong step with books is found by a group, and one frame shows it.
fn found(group: &str, wrong: &[(&str, StepBooks)]) {
    for wrong in wrong {
        for told in told_of(group, *wrong) {
            assert_eq!(frames(&told), 1, "{group}: {}\n{told}", wrong.0);
        }
    }
}

#[test]
fn every_wrong_length_is_found() {
    found(LENGTHS, &refusals::LENT);
}

/// On an image that is no good.
const BEFORE_1: &str = "goes before 1";

#[test]
fn every_wrong_limit_is_found() {
    let (before_1, others) = refusals::FULL.split_at(1);
    assert_eq!(before_1[0].0, BEFORE_1);
    found(LENGTHS, before_1);
    found(LIMITS, others);
}

#[test]
fn whatever_is_moved_at_a_refusal_is_found() {
    let (at_18, others): (Vec<_>, Vec<_>) = moved::MOVED
        .into_iter()
        .partition(|(name, _)| name.ends_with("at 18"));
    assert_eq!(at_18.len(), 2);
    found(LENGTHS, &at_18);
    found(LIMITS, &others);
}

#[test]
fn every_wrong_count_is_found() {
    found(SORTS, &counts::COUNTED);
    found(FLIGHTS, &counts::COUNTED);
}

#[test]
fn a_count_of_other_frames_is_found() {
    found(LIMITS, &counts::OTHERS);
    found(FLIGHTS, &counts::OTHERS);
}

/// Carries nothing past the 32nd bit.
fn counts_in_32_bits(image: &mut [u8], frame: &[u8], room: &mut [u8], books: &mut [u64]) -> u8 {
    let before = books.to_vec();
    let answer = model::calls::step_books(image, frame, room, books);
    for (number, before) in books.iter_mut().zip(before) {
        if *number > before && before as u32 == u32::MAX {
            *number -= 1 << 32;
        }
    }
    answer
}

#[test]
fn a_carry_that_is_lost_is_found() {
    let wrong: (&str, StepBooks) = ("counts in 32 bits", counts_in_32_bits);
    found(LIMITS, &[wrong]);
    found(SORTS, &[wrong]);
}

/// These are found where a frame is refused for full books and sent again.
#[test]
fn what_is_lost_as_books_fill_up_is_found() {
    let lost = [
        "moves the image at 17",
        "raises the others at 17",
        "clears the books at 17",
        "holds a full number",
        "goes back to 0",
    ];
    for name in lost {
        let wrong = common::named(&moved::MOVED, name);
        found(FULL, &[(name, wrong)]);
    }
    found(FULL, &refusals::FULL[6..10]);
}

/// What a group doesn't meet: a module with no second at all, and seconds so near to a
/// thousandth that a fraction is cut off.
const UNMET: [(&str, &str); 2] = [
    (THOUSANDTHS, "gives 1,000 of nothing"),
    (SHARES, "goes by floating point"),
];

/// A wrong summary is found by a group, unless it is one that the group doesn't meet.
fn found_in_summaries(group: &str, wrong: &[(&str, Summary)]) {
    for (name, summary) in wrong.iter().copied() {
        let faulty = Calls { summary, ..MODEL };
        for sides in [[faulty, MODEL], [faulty, faulty]] {
            match run(group, &sides) {
                Ok(_) => assert!(UNMET.contains(&(group, name)), "{group}: {name}"),
                Err(told) => {
                    let expected =
                        told.starts_with("summary: [") && !UNMET.contains(&(group, name));
                    assert!(expected, "{group}: {name}\n{told}");
                }
            }
        }
    }
}

#[test]
fn every_wrong_share_is_found() {
    found_in_summaries(THOUSANDTHS, &summaries::SHARED);
    found_in_summaries(SHARES, &summaries::SHARED);
}

#[test]
fn every_wrong_summary_that_is_refused_is_found() {
    found_in_summaries(SUMMARIES, &summaries::REFUSED);
    found_in_summaries(SUMMARIES, &summaries::WRITTEN);
}
