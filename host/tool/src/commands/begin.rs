//! The board that a pass or a flight begins with: the fresh start's, or one of which is
//! said what came before.

use super::image;
use crate::args::{self, Begin};
use crate::board::Board;
use crate::failure::Failure;
use crate::flight::Flight;
use crate::output;
use std::path::Path;

/// Refuses files that are in each other's way: what is read next, what comes before it,
/// and where something is written, if that is so.
pub fn check(begin: &Begin, next: &Path, written: Option<&Path>) -> Result<(), Failure> {
    let standard = |path: &Path| path == Path::new("-");
    let before = begin.image.as_deref().or(begin.after.as_deref());
    if standard(next) && before.is_some_and(standard) {
        return Err(Failure::usage(
            "standard input can be the pass or what comes before it, not both",
        ));
    }
    let mut read = [Some(next), before].into_iter().flatten();
    written.map_or(Ok(()), |written| {
        read.try_for_each(|read| output::spare(read, written))
    })
}

/// The board to begin with, its frames and seconds counted from there.
pub fn board(begin: &Begin) -> Result<Board, Failure> {
    match (&begin.image, &begin.after) {
        (Some(file), _) => image::board(file),
        (None, Some(file)) => Ok(flown(file)?.counted_anew()),
        (None, None) => Ok(Board::fresh()),
    }
}

/// The board after a flight.
fn flown(file: &Path) -> Result<Board, Failure> {
    let (file, kind) = (file.to_path_buf(), None);
    let mut flight = Flight::open(&args::Flight { file, kind })?;
    while flight.step()?.is_some() {}
    flight.landed()
}
