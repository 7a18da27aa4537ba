//! Two craft flown side by side, and what is promised of the second after every frame.

use crate::compare::{self, hex};
use crate::in_image::{self, CORE};
use crate::pairs::{second, Leg};
use crate::shrink::{shrink, tell_flight, NOT_TWICE};
use crate::sides::Calls;
use model::report;
use model::table::TICK;

/// The most shorts of a module of which something is promised.
pub const SHORTS_BORNE: u32 = 4;

/// A promise, by what breaks it.
#[derive(Clone, Copy, Debug, PartialEq, Eq, PartialOrd, Ord)]
pub enum Broken {
    /// The second's mode is worse.
    Mode,
    /// A module is requested in the first alone.
    Requested,
    /// One that was not shorted too often is on in the first alone.
    On,
    /// One of the core four is not the same in both: its request, power, tries or seconds.
    Core,
}

/// Both craft, and how often each module was reported shorted.
pub struct Pair {
    /// Their images.
    pub images: [Vec<u8>; 2],
    /// The shorts of each module.
    pub shorts: [u32; 8],
}

impl Pair {
    /// Both at the same image, before any short.
    pub fn at(start: &[u8]) -> Pair {
        Pair {
            images: [start.to_vec(), start.to_vec()],
            shorts: [0; 8],
        }
    }

    /// Sends a leg's frames once: the answers, or what is told of a craft on which the
    /// sides differ.
    pub fn step(&mut self, sides: &[Calls; 2], leg: &Leg) -> Result<[u8; 2], String> {
        let frames = [leg.0.clone(), second(leg)];
        let mut answers = [0; 2];
        for (own, frame) in frames.into_iter().enumerate() {
            let image = &mut self.images[own];
            match compare::step(sides, image, &frame, report::BYTES) {
                Ok(after) => {
                    image.copy_from_slice(after.image());
                    answers[own] = after.answer;
                }
                Err(_) => {
                    let shot = (frame, report::BYTES as u8);
                    return Err(tell_flight(sides, image, vec![shot]));
                }
            }
        }
        if let [TICK, shorts] = leg.0[..] {
            for (number, count) in self.shorts.iter_mut().enumerate() {
                *count += u32::from(shorts >> number & 1);
            }
        }
        Ok(answers)
    }

    /// The promises that are broken.
    pub fn broken(&self) -> Vec<Broken> {
        let [first, second] = &self.images;
        let alone = |mask: fn(&[u8]) -> u8| mask(first) & !mask(second);
        let borne = (0..8).filter(|number| self.shorts[*number] <= SHORTS_BORNE);
        let borne: u8 = borne.map(|number| 1 << number).sum();
        let core = (0..8).filter(|number| CORE >> number & 1 == 1);
        let mut core = core.map(|number| [first, second].map(|own| in_image::module(own, number)));
        let broken = [
            (in_image::mode(first) > in_image::mode(second), Broken::Mode),
            (alone(in_image::requested) != 0, Broken::Requested),
            (alone(in_image::on) & borne != 0, Broken::On),
            (core.any(|[own, other]| own != other), Broken::Core),
        ];
        let broken = broken.into_iter().filter(|(is_broken, _)| *is_broken);
        broken.map(|(_, promise)| promise).collect()
    }
}

/// Flies both craft: how many calls were made on each side, or what is told of the flight,
/// made short.
pub fn fly(sides: &[Calls; 2], start: &[u8], legs: Vec<Leg>) -> Result<u64, String> {
    match flown(sides, start, &legs) {
        Ok(calls) => Ok(calls),
        Err(Wrong::Sides(told)) => Err(told),
        Err(Wrong::Promise(..)) => Err(tell(sides, start, legs)),
    }
}

/// What can go wrong in a flight.
enum Wrong {
    /// The sides differ; what is told of it.
    Sides(String),
    /// A promise is broken, as these two craft are.
    Promise(Pair),
}

fn flown(sides: &[Calls; 2], start: &[u8], legs: &[Leg]) -> Result<u64, Wrong> {
    let mut pair = Pair::at(start);
    let mut calls = 0;
    for leg in legs {
        for _ in 0..leg.2 {
            pair.step(sides, leg).map_err(Wrong::Sides)?;
            if !pair.broken().is_empty() {
                return Err(Wrong::Promise(pair));
            }
            calls += 2;
        }
    }
    Ok(calls)
}

/// A flight in which a promise is broken, made short.
fn tell(sides: &[Calls; 2], start: &[u8], legs: Vec<Leg>) -> String {
    let breaks = |legs: &Vec<Leg>| matches!(flown(sides, start, legs), Err(Wrong::Promise(..)));
    let short = shrink(legs, breaks);
    let mut told = format!("two craft from {}\n", hex(start));
    told.extend(short.iter().map(told_leg));
    match flown(sides, start, &short) {
        Err(Wrong::Promise(pair)) => {
            let [first, second] = pair.images.each_ref().map(|image| hex(image));
            let (broken, shorts) = (pair.broken(), pair.shorts);
            told + &format!(
                "broken: {broken:?}, shorts {shorts:?}\nfirst:  {first}\nsecond: {second}"
            )
        }
        _ => told + NOT_TWICE,
    }
}

fn told_leg(leg: &Leg) -> String {
    let (frame, _, times) = leg;
    let other = match second(leg) {
        same if same == *frame => String::new(),
        other => format!(", on the second {}", hex(&other)),
    };
    let often = match times {
        1 => String::new(),
        _ => format!(", {times} times"),
    };
    format!("  {}{other}{often}\n", hex(frame))
}
