//! The groups of cases, each with how many calls it makes on the library.

mod books;
mod crossings;
mod flights;
mod flights_in_books;
mod greetings;
mod images;
mod keying_room;
mod masks;
mod passes;
mod summaries;
mod texts;
mod timed;
mod tracks;
mod tries;
mod two_craft;

use crate::compare::{self, Stepped};
use crate::frames::Maker;
use crate::rng::Rng;
use crate::shrink::{flight, tell_counted, tell_flight, Shot};
use crate::sides::{Calls, Counted};
use model::report;
use model::state::{Mode, SETTLE_SECONDS};

/// The reply room that a report just fits.
const ROOM: u8 = report::BYTES as u8;

/// The modes, DEPLOY_WAIT with both its phases and its last second.
const MODES: [Mode; 5] = [
    Mode::Waiting(0),
    Mode::Settling(SETTLE_SECONDS),
    Mode::Settling(1),
    Mode::Recovery,
    Mode::Safe,
];

/// The calls that a group has made, or the telling of a difference.
pub type Verdict = Result<u64, String>;

/// A group: its name, and its cases from a seed.
pub type Group = (&'static str, fn(&[Calls; 2], &mut Rng) -> Verdict);

/// All groups.
pub const GROUPS: [Group; 51] = [
    ("fresh start, every length", images::fresh_starts),
    ("flights by the table", |sides, rng| {
        flights::of(sides, rng, Maker::Structured, 4_000_000)
    }),
    ("flights with damaged frames", |sides, rng| {
        flights::of(sides, rng, Maker::Mutated, 2_000_000)
    }),
    ("flights of any body", |sides, rng| {
        flights::of(sides, rng, Maker::ByKind, 1_000_000)
    }),
    ("flights of noise", |sides, rng| {
        flights::of(sides, rng, Maker::Noise, 500_000)
    }),
    ("the longest wait", flights::longest_wait),
    ("every room length", flights::rooms),
    ("every serial", flights::serials),
    ("timed orders about every limit", timed::timed_orders),
    ("ends that run out", timed::ends_run_out),
    ("the longest end", timed::longest_end),
    ("every power in every second", tries::every_power),
    ("modules that short", tries::modules_that_short),
    ("a board that starts and shorts", tries::starts_and_shorts),
    ("greetings about every limit", greetings::greetings),
    (
        "every byte in every place of a greeting",
        greetings::greeting_bytes,
    ),
    ("every message that is kept", greetings::kept_messages),
    ("messages that run out", greetings::messages_run_out),
    ("the most repeats", greetings::most_repeats),
    (
        "extended beacons in every room",
        greetings::extended_beacons,
    ),
    ("passes", passes::any_passes),
    ("passes stopped in every way", passes::stops),
    ("passes in every room", passes::pass_rooms),
    ("passes in parts", passes::passes_in_parts),
    ("every value of every image byte", images::image_bytes),
    ("every number of a mode, an end and a module", images::codes),
    ("damaged images", images::damaged_images),
    ("every three masks that agree", masks::every_mask),
    ("every bit of a mask turned", masks::turned_bits),
    (
        "modules changed with and without their masks",
        masks::changed_modules,
    ),
    ("frames that change the masks", masks::frames),
    (
        "requests about a crossing",
        crossings::requests_about_a_crossing,
    ),
    (
        "core modules ordered between crossings",
        crossings::core_ordered_between,
    ),
    ("two craft", two_craft::two_craft),
    ("books of every length", books::lengths),
    ("numbers of the books about their limit", books::limits),
    ("every on, off and failed in the books", books::every_sort),
    ("flights in the books", flights_in_books::flights),
    ("books that fill up", flights_in_books::full),
    ("summaries of every length", summaries::lengths),
    ("shares about every thousandth", summaries::thousandths),
    ("shares of any numbers", summaries::any),
    ("every text of up to 2 bytes", texts::short_texts),
    ("every byte in every place of a text", texts::every_place),
    ("every sign of up to 7 marks", texts::every_sign),
    ("texts of up to 70 bytes", texts::any_texts),
    (
        "texts in the room set aside for them",
        keying_room::texts_in_their_room,
    ),
    ("units damaged in one place", texts::damaged_units),
    ("the tracker about every limit", tracks::tracks),
    ("the tracker about both ends", tracks::track_ends),
    ("walks by the tracker", tracks::track_walks),
];

/// Flies; counts the steps, or tells.
fn fly(sides: &[Calls; 2], start: &[u8], shots: Vec<Shot>) -> Result<(u64, Vec<u8>), String> {
    match flight(sides, start, &shots) {
        Ok(image) => Ok((shots.len() as u64, image)),
        Err(_) => Err(tell_flight(sides, start, shots)),
    }
}

/// Makes a step, or tells.
fn step(sides: &[Calls; 2], image: &[u8], (frame, room): Shot) -> Result<Stepped, String> {
    compare::step(sides, image, &frame, room.into())
        .map_err(|_| tell_flight(sides, image, vec![(frame, room)]))
}

/// Makes a counted call, or tells.
fn call(
    sides: &[Calls; 2],
    call: fn(&Calls) -> Counted,
    input: &[u8],
    room: usize,
) -> Result<compare::Written, String> {
    compare::counted(sides, call, input, room)
        .map_err(|_| tell_counted(sides, call, input.to_vec(), room))
}

/// All that is asked of an image without a frame: its beacons, in rooms of a length
/// around theirs, and how many modules are on.
fn asked(sides: &[Calls; 2], rng: &mut Rng, image: &[u8]) -> Verdict {
    call(sides, |calls| calls.beacon_basic, image, rng.below(20))?;
    call(sides, |calls| calls.beacon_complete, image, rng.below(20))?;
    call(sides, |calls| calls.beacon_extended, image, rng.below(37))?;
    call(sides, |calls| calls.modules_on, image, 0)?;
    Ok(4)
}
