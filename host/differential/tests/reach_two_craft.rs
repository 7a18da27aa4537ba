//! How far the pairs of flights get: the craft are in the same mode and in different ones,
//! cross together and alone, are ordered while they are apart, and have modules on that
//! were shorted up to four times, and more often.

use differential::in_image::{self, CORE, RECOVERY, SAFE};
use differential::pairs::{self, second, Leg};
use differential::rng::Rng;
use differential::sides::MODEL;
use differential::two_craft::{Pair, SHORTS_BORNE};
use model::image;
use model::table::{BATTERY, KINDS, MISSION, ORDER, TICK, TIMED};
use std::collections::BTreeMap;

/// What a frame of both craft can meet.
#[derive(Clone, Copy, PartialEq, Eq, PartialOrd, Ord, Debug)]
enum Met {
    /// The craft are in these modes.
    Modes(u8, u8),
    /// The mode rises on the first, on the second, or on both.
    Rises([bool; 2]),
    /// It falls on the first, on the second, or on both.
    Falls([bool; 2]),
    /// A frame of this kind is answered so on the first and on the second.
    Answers { kind: u8, answers: [u8; 2] },
    /// The second reads as high, or higher.
    Reads { higher: bool },
    /// A core module is ordered so while the craft are in different modes, and that is news.
    OrderedApart { module: u8, on: bool },
    /// The first rises alone, with this core module not requested.
    RisesWithout { module: usize },
    /// The second falls alone, with this core module not requested.
    FallsWithout { module: usize },
    /// A module is on in the first after so many shorts; 5 for all more.
    OnAfter { module: usize, shorts: u32 },
    /// A module is shorted while the craft are in different modes; the how many-th time.
    ShortedApart { module: usize, shorts: u32 },
    /// One of the mission four that is on in the first alone.
    OnFirstAlone { module: usize },
    /// The same of one that was shorted once more often than is borne.
    OneShortTooMany,
    /// One of the mission four that is on in the second alone.
    OnSecondAlone { module: usize },
    /// The ends of one of the mission four differ.
    EndsApart { module: u8 },
}

fn bits(mask: u8) -> impl Iterator<Item = usize> {
    (0..8).filter(move |number| mask >> number & 1 == 1)
}

/// What a leg's frames have met that led both craft from some images to others.
fn met(leg: &Leg, answers: [u8; 2], before: &[Vec<u8>; 2], pair: &Pair) -> Vec<Met> {
    let had = before.each_ref().map(|own| in_image::mode(own));
    let has = pair.images.each_ref().map(|own| in_image::mode(own));
    let apart = had[0] != had[1];
    let mut met = vec![Met::Modes(has[0], has[1])];
    let crosses = |from, to| [0, 1].map(|own| (had[own], has[own]) == (from, to));
    let (rises, falls) = (crosses(RECOVERY, SAFE), crosses(SAFE, RECOVERY));
    let missing = CORE & !in_image::requested(&pair.images[0]);
    if rises != [false; 2] {
        met.push(Met::Rises(rises));
    }
    if falls != [false; 2] {
        met.push(Met::Falls(falls));
    }
    if rises == [true, false] {
        met.extend(bits(missing).map(|module| Met::RisesWithout { module }));
    }
    if falls == [false, true] {
        met.extend(bits(missing).map(|module| Met::FallsWithout { module }));
    }
    if let Some(&kind) = leg.0.first() {
        met.push(Met::Answers { kind, answers });
    }
    if leg.0.first() == Some(&BATTERY) && answers == [0; 2] {
        let higher = second(leg) != leg.0;
        met.push(Met::Reads { higher });
    }
    if let (&[ORDER, _, _, _, module, on], true) = (&leg.0[..], answers == [0; 2] && apart) {
        let was = in_image::requested(&before[0]) >> module & 1;
        if CORE >> module & 1 == 1 && was != on {
            let on = on == 1;
            met.push(Met::OrderedApart { module, on });
        }
    }
    let on = pair.images.each_ref().map(|own| in_image::on(own));
    for module in bits(on[0]) {
        let shorts = pair.shorts[module].min(SHORTS_BORNE + 1);
        met.push(Met::OnAfter { module, shorts });
    }
    for module in bits(on[0] & !on[1]) {
        met.push(Met::OnFirstAlone { module });
        if pair.shorts[module] == SHORTS_BORNE + 1 {
            met.push(Met::OneShortTooMany);
        }
    }
    met.extend(bits(on[1] & !on[0]).map(|module| Met::OnSecondAlone { module }));
    if let (&[TICK, shorts], true) = (&leg.0[..], apart) {
        met.extend(bits(shorts).map(|module| {
            let shorts = pair.shorts[module].min(SHORTS_BORNE + 1);
            Met::ShortedApart { module, shorts }
        }));
    }
    for (place, module) in MISSION.into_iter().enumerate() {
        let ends = pair.images.each_ref().map(|own| in_image::end(own, place));
        if ends[0] != ends[1] {
            met.push(Met::EndsApart { module });
        }
    }
    met
}

/// Flies pairs on the model: how often each is met.
fn flown() -> BTreeMap<Met, u32> {
    let mut rng = Rng::new(1);
    let mut all = BTreeMap::new();
    let start = pairs::start();
    for _ in 0..1_500 {
        let mut pair = Pair::at(&image::save(&start));
        for leg in pairs::flight(&mut rng, &start) {
            for _ in 0..leg.2 {
                let before = pair.images.clone();
                let stepped = pair.step(&[MODEL, MODEL], &leg);
                let answers = stepped.expect("no difference");
                for met in met(&leg, answers, &before, &pair) {
                    *all.entry(met).or_default() += 1;
                }
            }
        }
    }
    all
}

/// How often each is to be met.
const OFTEN: u32 = 10;

#[test]
fn pairs_of_flights_meet_it_all() {
    let met = flown();
    let mut wanted = vec![Met::OneShortTooMany];
    wanted.extend([false, true].map(|higher| Met::Reads { higher }));
    for (first, other) in [(0, 0), (RECOVERY, RECOVERY), (RECOVERY, SAFE), (SAFE, SAFE)] {
        wanted.push(Met::Modes(first, other));
    }
    for which in [[true, false], [false, true], [true, true]] {
        wanted.extend([Met::Rises(which), Met::Falls(which)]);
    }
    for kind in &KINDS {
        let kind = kind.byte;
        let answers = [0; 2];
        wanted.push(Met::Answers { kind, answers });
    }
    for kind in [ORDER, TIMED] {
        // Both or none are late or refused; one alone comes too early.
        for answers in [[10; 2], [10, 0], [8; 2], [9; 2], [7; 2], [6; 2], [5; 2]] {
            wanted.push(Met::Answers { kind, answers });
        }
    }
    for module in bits(CORE) {
        wanted.extend([Met::RisesWithout { module }, Met::FallsWithout { module }]);
        let module = module as u8;
        wanted.extend([false, true].map(|on| Met::OrderedApart { module, on }));
    }
    for module in 0..8 {
        wanted.extend((0..=SHORTS_BORNE + 1).map(|shorts| Met::OnAfter { module, shorts }));
        wanted.extend((1..=SHORTS_BORNE + 1).map(|shorts| Met::ShortedApart { module, shorts }));
    }
    for module in bits(!CORE) {
        wanted.extend([Met::OnFirstAlone { module }, Met::OnSecondAlone { module }]);
        let module = module as u8;
        wanted.push(Met::EndsApart { module });
    }
    for wanted in wanted {
        let times = met.get(&wanted).copied().unwrap_or(0);
        assert!(times >= OFTEN, "{wanted:?} is met {times} times");
    }
}
