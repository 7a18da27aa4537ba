//! What the calls with books are to leave, read off the call without them and off the
//! numbers: the model has no part in it. And their failures, made short.

use crate::compare::books::{self, Entered, Summed};
use crate::compare::hex;
use crate::shrink::{shrink, Shot, NOT_TWICE};
use crate::sides::Calls;
use model::books::{MOST_SECONDS, NUMBERS};
use model::report::Report;
use model::table::{MODULES, TICK};
use std::fmt::Display;

/// A frame with its reply room, and the numbers lent.
pub type Entry = (Shot, Vec<u64>);

/// The numbers that a report's tick raises, one for each module; none of other frames.
pub fn raised(report: &Report) -> Vec<usize> {
    let modules = MODULES.iter().filter(|_| report.kind == TICK);
    let number = modules.map(|row| {
        let has = |mask: u8| mask & row.bit() != 0;
        let column = match (has(report.on), has(report.failed)) {
            (true, _) => 0,
            (false, false) => 1,
            (false, true) => 2,
        };
        3 * usize::from(row.number) + column
    });
    number.collect()
}

/// What a step with books is to leave, by what the step without leaves.
fn entered(calls: &Calls, image: &[u8], ((frame, room), books): &Entry) -> Entered {
    let still = |answer| Entered::still(image, books, answer);
    if books.len() != NUMBERS {
        return still(18);
    }
    let mut after = Entered::without(calls, image, frame, usize::from(*room), books);
    if matches!(after.answer(), 1..=6) {
        return after;
    }
    let raised = after.report().map_or(vec![], |report| raised(&report));
    let full = raised.iter().any(|place| books[*place] == MOST_SECONDS);
    if full || books.iter().any(|number| *number > MOST_SECONDS) {
        return still(17);
    }
    for place in raised {
        after.books_mut()[place] += 1;
    }
    after
}

/// Looks at a step with books: what it leaves, or what is told of it.
fn look(sides: &[Calls; 2], image: &[u8], entry: &Entry) -> Result<Entered, String> {
    let ((frame, room), books) = entry;
    let made = books::step(sides, image, frame, usize::from(*room), books);
    let given = made.map_err(|outcomes| of_both(&outcomes))?;
    let wanted = entered(&sides[0], image, entry);
    match given == wanted {
        true => Ok(given),
        false => Err(format!("given:   {given}\nwanted:  {wanted}")),
    }
}

/// The outcomes of both sides, a line each.
fn of_both<T: Display>([library, model]: &[T; 2]) -> String {
    format!("library: {library}\nmodel:   {model}")
}

/// Takes a frame with books; or tells of the call, made short.
pub fn enter(
    sides: &[Calls; 2],
    image: &[u8],
    shot: Shot,
    books: &[u64],
) -> Result<Entered, String> {
    let entry = (shot, books.to_vec());
    look(sides, image, &entry).map_err(|_| {
        let short = shrink(entry, |entry| look(sides, image, entry).is_err());
        let told = look(sides, image, &short).err();
        let ((frame, room), books) = short;
        format!(
            "with books from {}\n  {} (room {room})\nbooks:   {books:?}\n{}",
            hex(image),
            hex(&frame),
            told.unwrap_or_else(|| NOT_TWICE.into()),
        )
    })
}

/// Looks at a summary, with so many shares lent: what it leaves, or what is told of it.
fn look_at_summary(sides: &[Calls; 2], books: &[u64], lent: usize) -> Result<Summed, String> {
    let made = books::summary(sides, books, lent);
    let given = made.map_err(|outcomes| of_both(&outcomes))?;
    let zeros = |answer| Summed::of(answer, &[0; 8][..lent.min(8)]);
    let wanted = match books.len() {
        NUMBERS if books.iter().any(|number| *number > MOST_SECONDS) => zeros(17),
        NUMBERS if lent < MODULES.len() => Summed::of(14, &[]),
        NUMBERS => Summed::of(0, given.shares(8)),
        _ => zeros(18),
    };
    let mut shares = given.shares(8).iter().zip(books.chunks(3));
    let shared = shares.all(|(share, three)| most_thousandths(*share, three));
    match given == wanted && (shared || given.answer != 0) {
        true => Ok(given),
        false => Err(format!("given:   {given}")),
    }
}

/// Whether so many thousandths of three numbers are in the first, and no more; 0 of none.
fn most_thousandths(share: u16, three: &[u64]) -> bool {
    let total: u128 = three.iter().copied().map(u128::from).sum();
    let on = 1_000 * u128::from(three[0]);
    let share = u128::from(share);
    match total {
        0 => share == 0,
        _ => share * total <= on && on < (share + 1) * total,
    }
}

/// Makes a summary, with so many shares lent; or tells of the call, made short.
pub fn sum(sides: &[Calls; 2], books: &[u64], lent: usize) -> Result<Summed, String> {
    look_at_summary(sides, books, lent).map_err(|_| {
        let look = |(books, lent): &(Vec<u64>, usize)| look_at_summary(sides, books, *lent);
        let short = shrink((books.to_vec(), lent), |case| look(case).is_err());
        let told = look(&short).err();
        let (books, lent) = short;
        format!(
            "summary: {books:?}, {lent} shares lent\n{}",
            told.unwrap_or_else(|| NOT_TWICE.into()),
        )
    })
}
