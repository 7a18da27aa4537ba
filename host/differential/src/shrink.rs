//! A failure made short, and told.

use crate::compare::{self, hex, Both, Passed};
use crate::sides::{Calls, Counted};
use model::{frame, image, report, State};
use quickcheck::Arbitrary;
use std::time::{Duration, Instant};

/// A frame, and the length of the reply room it gets.
pub type Shot = (Vec<u8>, u8);

/// The pieces of a pass, which stand end to end, and the length of its reply room.
pub type Pass = (Vec<Vec<u8>>, u8);

/// A call of the tracker: the readings before and after the last move, each its volts
/// and amps; the set point; the step.
pub type Move = ((u32, u32), (u32, u32), u32, i32);

/// What is said of a failure that is none the second time.
pub(crate) const NOT_TWICE: &str =
    "fails no more: the same call doesn't give the same result twice";

/// As long as a smaller case fails too, takes it; for ten seconds at most.
pub fn shrink<T: Arbitrary + PartialEq>(mut case: T, fails: impl Fn(&T) -> bool) -> T {
    let end = Instant::now() + Duration::from_secs(10);
    let smaller = |case: &T| {
        // The lowest number of all shrinks to itself in the end, over and over.
        let going_on = |other: &T| other != case && Instant::now() < end;
        case.shrink()
            .take_while(going_on)
            .find(|other| fails(other))
    };
    while let Some(other) = smaller(&case) {
        case = other;
    }
    case
}

/// Where the sides part: the frame's place, the image before it, the telling.
pub struct Parting {
    /// The frame's place among the flight's.
    pub place: usize,
    before: Vec<u8>,
    told: String,
}

/// Steps both sides through the frames: the image after the last, or where the
/// sides part.
pub fn flight(sides: &[Calls; 2], start: &[u8], shots: &[Shot]) -> Result<Vec<u8>, Parting> {
    let mut image = start.to_vec();
    for (place, (frame, room)) in shots.iter().enumerate() {
        let room = usize::from(*room).min(compare::LONGEST);
        match compare::step(sides, &image, frame, room) {
            Ok(after) => image.copy_from_slice(after.image()),
            Err(outcomes) => {
                let [library, model] = *outcomes;
                let told = format!(
                    "before:  {}\nframe:   {} (room {room})\nlibrary: {library}\nmodel:   {model}",
                    hex(&image),
                    hex(frame),
                );
                let before = image;
                return Err(Parting {
                    place,
                    before,
                    told,
                });
            }
        }
    }
    Ok(image)
}

/// The failure of a flight, made short. A flight from the fresh start keeps its
/// start, and tells how the fault is met; any other starts at the last image
/// before the fault.
pub fn tell_flight(sides: &[Calls; 2], start: &[u8], mut shots: Vec<Shot>) -> String {
    let mut start = start.to_vec();
    if let Err(parting) = flight(sides, &start, &shots) {
        shots.truncate(parting.place + 1);
        if start != image::save(&State::fresh()) {
            shots.drain(..parting.place);
            start = parting.before;
        }
    }
    let fails = |shots: &Vec<Shot>| flight(sides, &start, shots).is_err();
    let short = shrink(shots, fails);
    let mut told = format!("a flight from {}\n", hex(&start));
    for (frame, room) in &short {
        told += &format!("  {} (room {room})\n", hex(frame));
    }
    match flight(sides, &start, &short) {
        Err(parting) => told + &parting.told,
        Ok(_) => told + NOT_TWICE,
    }
}

/// The failure of a pass, made short: `made` gives two outcomes, and `names` says
/// what they are of. Frames that have nothing to do with it are flown before.
pub fn tell_pass(
    start: &[u8],
    (pieces, room): Pass,
    names: [&str; 2],
    made: impl Fn(&[u8], &[u8], usize) -> Both<Passed>,
) -> String {
    let made = |start: &[u8], (pieces, room): &Pass| {
        let room = usize::from(*room).min(compare::REPLIES);
        made(start, &pieces.concat(), room)
    };
    let mut start = start.to_vec();
    let mut case = (by_kind(&pieces.concat()), room);
    while let Some((next, later)) = without_first(&start, &case) {
        if made(&next, &later).is_ok() {
            break;
        }
        (start, case) = (next, later);
    }
    let short = shrink(case, |case| made(&start, case).is_err());
    let (pieces, room) = &short;
    let mut told = format!("a pass from {}, room {room}\n", hex(&start));
    for piece in pieces {
        told += &format!("  {}\n", hex(piece));
    }
    match made(&start, &short) {
        Err(outcomes) => {
            let [one, other] = *outcomes;
            told + &format!("{}: {one}\n{}: {other}", names[0], names[1])
        }
        Ok(_) => told + NOT_TWICE,
    }
}

/// Bytes as frames, each as long as its kind says; what is left as it is.
fn by_kind(mut bytes: &[u8]) -> Vec<Vec<u8>> {
    let mut frames = Vec::new();
    while !bytes.is_empty() {
        let (frame, rest) = frame::cut(bytes);
        frames.push(frame.to_vec());
        bytes = rest;
    }
    frames
}

/// A pass without its first frame, from the image after that, in the room that is
/// left; none where the frame gets no report.
fn without_first(start: &[u8], (frames, room): &Pass) -> Option<(Vec<u8>, Pass)> {
    let (first, rest) = frames.split_first()?;
    let left = room.checked_sub(report::BYTES as u8)?;
    let mut image = start.to_vec();
    let answer = model::calls::step(&mut image, first, &mut [0; report::BYTES]);
    matches!(answer, 0 | 8..=10).then(|| (image, (rest.to_vec(), left)))
}

/// The failure of a counted call, made short.
pub fn tell_counted(
    sides: &[Calls; 2],
    call: fn(&Calls) -> Counted,
    input: Vec<u8>,
    room: usize,
) -> String {
    let fails = |input: &Vec<u8>| compare::counted(sides, call, input, room).is_err();
    let short = shrink(input, fails);
    match compare::counted(sides, call, &short, room) {
        Err(outcomes) => {
            let [library, model] = *outcomes;
            let input = hex(&short);
            format!("input:   {input} (room {room})\nlibrary: {library}\nmodel:   {model}")
        }
        Ok(_) => NOT_TWICE.into(),
    }
}

/// The failure of a call of the tracker, made short.
pub fn tell_track(sides: &[Calls; 2], case: Move) -> String {
    let short = shrink(case, |case| compare::track(sides, *case).is_err());
    match compare::track(sides, short) {
        Err(outcomes) => {
            let [library, model] = *outcomes;
            let ((volts_before, amps_before), (volts_after, amps_after), set_point, step) = short;
            format!(
                "before:  {volts_before} mV, {amps_before} mA\n\
                 after:   {volts_after} mV, {amps_after} mA\n\
                 moved:   set point {set_point}, step {step}\n\
                 library: {library}\nmodel:   {model}"
            )
        }
        Ok(_) => NOT_TWICE.into(),
    }
}
