//! How far the generators get: flights by the table meet every answer in every
//! mode, both crossings, all beacons, modules that fail and come back, timed orders
//! with every answer, and ends with all that becomes of them. Starts in any state
//! have ends that run, and run out, and modules on with all tries and seconds, in
//! every mode. Modules that short do so, start, and are switched off, with all tries,
//! about the second that brings them back. Passes stop at every place, for every
//! reason, in rooms about the end of every report. `reach_greetings.rs` has the greetings.

use differential::frames::{Maker, Stream};
use differential::rng::Rng;
use differential::{images, passes, shorting};
use model::state::{Mode, Power, CLEAN_SECONDS, END_SECONDS, FAILED_SECONDS, TRIES};
use model::table::{KINDS, MISSION, ORDER, TICK, TIMED};
use model::{frame, image, pass, report, step, State};
use std::collections::BTreeSet;

/// What can be met.
#[derive(PartialEq, Eq, PartialOrd, Ord, Debug)]
enum Met {
    Answer { mode: u8, answer: u8 },
    TimedAnswer { mode: u8, answer: u8 },
    Crossing { from: u8, to: u8 },
    Due(u8),
    FailedOn,
    FailedOff,
    Revived,
    End(Fate),
}

/// What becomes of a running end.
#[derive(PartialEq, Eq, PartialOrd, Ord, Debug)]
enum Fate {
    RanOut,
    RanOutFailed,
    DroppedByOn,
    DroppedByOff,
    Replaced,
    DroppedByCrossing,
}

/// What a frame has done to an end, if it has not left it or let it fall by 1.
fn fate(frame: &[u8], before: u32, after: u32, failed: bool, crossed: bool) -> Option<Fate> {
    match (frame, before, after) {
        (_, 0, _) => None,
        ([TICK, _], _, 0) if crossed => Some(Fate::DroppedByCrossing),
        ([TICK, _], 1, 0) if failed => Some(Fate::RanOutFailed),
        ([TICK, _], 1, 0) => Some(Fate::RanOut),
        ([ORDER, .., 1], _, 0) => Some(Fate::DroppedByOn),
        ([ORDER, .., 0], _, 0) => Some(Fate::DroppedByOff),
        ([TIMED, ..], _, _) if before != after => Some(Fate::Replaced),
        _ => None,
    }
}

/// A flight from the fresh start with the antennas out, its meetings noted.
fn fly(seed: u64, met: &mut BTreeSet<Met>) {
    let mut rng = Rng::new(seed);
    let mut stream = Stream::new(Maker::Structured);
    let mut state = State::fresh();
    state.antennas = true;
    for _ in 0..6_000 {
        let (frame, room) = stream.next(&mut rng);
        let before = state.clone();
        let result = step::step(&mut state, &frame, room.into());
        let answer = result.map_or_else(|refusal| refusal, |report| report.answer);
        let (from, to) = (before.mode.number(), state.mode.number());
        met.insert(Met::Answer { mode: from, answer });
        if frame.first() == Some(&TIMED) {
            met.insert(Met::TimedAnswer { mode: from, answer });
        }
        let ends = before.ends.into_iter().zip(state.ends);
        for ((old, new), module) in ends.zip(MISSION) {
            let power = state.modules[usize::from(module)].power;
            let failed = matches!(power, Power::Failed(_));
            let fate = fate(&frame, old, new, failed, from > to);
            met.extend(fate.map(Met::End));
        }
        if from != to {
            met.insert(Met::Crossing { from, to });
        }
        if let Ok(report) = result {
            met.insert(Met::Due(report.beacon));
        }
        for (old, new) in before.modules.iter().zip(&state.modules) {
            match (old.power, new.power) {
                (Power::On { .. }, Power::Failed(_)) => met.insert(Met::FailedOn),
                (Power::Off(_), Power::Failed(_)) => met.insert(Met::FailedOff),
                (Power::Failed(_), Power::On { .. }) => met.insert(Met::Revived),
                _ => false,
            };
        }
    }
}

#[test]
fn flights_by_the_table_meet_it_all() {
    let mut met = BTreeSet::new();
    for seed in 0..100 {
        fly(seed, &mut met);
    }
    let modes = [Mode::Waiting(0), Mode::Recovery, Mode::Safe].map(Mode::number);
    let mut wanted = BTreeSet::from([Met::FailedOn, Met::FailedOff, Met::Revived]);
    wanted.extend([(0, 1), (1, 2), (2, 1)].map(|(from, to)| Met::Crossing { from, to }));
    wanted.extend([0, 1, 2, 3].map(Met::Due));
    for mode in modes {
        wanted.extend([0, 2, 6, 7, 8, 9].map(|answer| Met::Answer { mode, answer }));
        wanted.extend([2, 6, 7, 8, 9].map(|answer| Met::TimedAnswer { mode, answer }));
        if mode != 2 {
            wanted.insert(Met::Answer { mode, answer: 10 });
        }
        let answer = if mode == 2 { 0 } else { 10 };
        wanted.insert(Met::TimedAnswer { mode, answer });
    }
    wanted.extend(
        [
            Fate::RanOut,
            Fate::RanOutFailed,
            Fate::DroppedByOn,
            Fate::DroppedByOff,
            Fate::Replaced,
            Fate::DroppedByCrossing,
        ]
        .map(Met::End),
    );
    let missing: Vec<_> = wanted.difference(&met).collect();
    assert!(missing.is_empty(), "not met: {missing:?}");
}

#[test]
fn starts_have_ends_in_every_mode() {
    let mut rng = Rng::new(1);
    let mut met = BTreeSet::new();
    for _ in 0..2_000 {
        let state = images::state(&mut rng);
        let mode = state.mode.number();
        for (end, module) in state.ends.into_iter().zip(MISSION) {
            let requested = state.modules[usize::from(module)].requested;
            met.insert((mode, module, end, requested));
        }
    }
    for mode in [0, 1, 2] {
        for module in MISSION {
            for end in [0, 1, 2, END_SECONDS - 1, END_SECONDS] {
                for requested in [false, true] {
                    let wanted = (mode, module, end, requested);
                    assert!(met.contains(&wanted), "not met: {wanted:?}");
                }
            }
        }
    }
}

#[test]
fn starts_have_modules_on_with_all_tries_and_seconds() {
    let mut rng = Rng::new(1);
    let mut met = BTreeSet::new();
    for _ in 0..40_000 {
        let state = images::state(&mut rng);
        for module in &state.modules {
            if let Power::On { tries, seconds } = module.power {
                met.insert((state.mode.number(), tries, seconds, module.requested));
            }
        }
    }
    for mode in [0, 1, 2] {
        for tries in 1..=TRIES {
            let counted = if tries == TRIES { 1 } else { CLEAN_SECONDS };
            for seconds in 0..counted {
                for requested in [false, true] {
                    let wanted = (mode, tries, seconds, requested);
                    assert!(met.contains(&wanted), "not met: {wanted:?}");
                }
            }
        }
    }
}

/// What can become of a module with so many tries in a second.
#[derive(PartialEq, Eq, PartialOrd, Ord, Debug)]
enum Second {
    Started(u16),
    ShortAsItStarts(u16),
    ShortWhileOn { tries: u16, seconds: u16 },
    SwitchedOff { tries: u16, seconds: u16 },
    AllBack(u16),
    FailedStarts,
    FailedShorts,
}

/// What a second has done to a module; none where it has left it, or let its seconds
/// grow or fall by 1.
fn second(before: Power, after: Power) -> Option<Second> {
    match (before, after) {
        (Power::Off(tries), Power::On { .. }) => Some(Second::Started(tries)),
        (Power::Off(tries), _) if before != after => Some(Second::ShortAsItStarts(tries)),
        (Power::On { tries, seconds }, Power::Off(left)) if left == tries => {
            Some(Second::SwitchedOff { tries, seconds })
        }
        (Power::On { tries, seconds }, Power::Off(_) | Power::Failed(_)) => {
            Some(Second::ShortWhileOn { tries, seconds })
        }
        (Power::On { tries, .. }, Power::On { tries: TRIES, .. }) if tries != TRIES => {
            Some(Second::AllBack(tries))
        }
        (Power::Failed(0), Power::On { .. }) => Some(Second::FailedStarts),
        (Power::Failed(0), Power::Failed(FAILED_SECONDS)) => Some(Second::FailedShorts),
        _ => None,
    }
}

#[test]
fn modules_that_short_meet_it_all() {
    let mut rng = Rng::new(1);
    let mut met = BTreeSet::new();
    for _ in 0..400 {
        let (mut state, shots) = shorting::flight(&mut rng);
        for (frame, room) in shots {
            let before = state.modules;
            let report = step::step(&mut state, &frame, room.into());
            assert!(report.is_ok(), "{frame:02X?}");
            let modules = before.iter().zip(&state.modules);
            met.extend(modules.filter_map(|(old, new)| second(old.power, new.power)));
        }
    }
    let mut wanted = BTreeSet::from([Second::FailedStarts, Second::FailedShorts]);
    for tries in 1..=TRIES {
        wanted.insert(Second::Started(tries));
        wanted.insert(Second::ShortAsItStarts(tries));
        let counted = if tries == TRIES { 1 } else { CLEAN_SECONDS };
        for seconds in [0, 58, 59].into_iter().filter(|own| *own < counted) {
            wanted.insert(Second::ShortWhileOn { tries, seconds });
            wanted.insert(Second::SwitchedOff { tries, seconds });
        }
    }
    wanted.extend((1..TRIES).map(Second::AllBack));
    let missing: Vec<_> = wanted.difference(&met).collect();
    assert!(missing.is_empty(), "not met: {missing:?}");
}

/// What passes can meet.
#[derive(PartialEq, Eq, PartialOrd, Ord, Debug)]
enum Pass {
    /// A stop, with or without reports before it and pieces behind it.
    Stop { answer: u8, first: bool, last: bool },
    /// An image that is none, with or without frames.
    BadImage { empty: bool },
    /// No room, so many bytes left, before a frame that has a refusal of its own.
    NoRoomBefore { left: usize, refusal: u8 },
    /// All frames done, so many of them.
    Whole(usize),
    /// An answer in a report that another one follows.
    GoesOnAfter(u8),
    /// A frame cut off after so many bytes.
    Tail { kind: u8, length: usize },
    /// So many bytes more than so many reports have.
    Room { reports: usize, more: isize },
}

/// Makes a pass on the model; notes what it meets.
fn note(start: &[u8], (pieces, room): &(Vec<Vec<u8>>, u8), met: &mut BTreeSet<Pass>) {
    let frames = pieces.concat();
    let empty = frames.is_empty();
    let Some(mut state) = image::load(start) else {
        met.insert(Pass::BadImage { empty });
        return;
    };
    let room = usize::from(*room);
    let passed = pass::pass(&mut state, &frames, room);
    let reported = passed.reports.len();
    let left = room - report::BYTES * reported;
    let rest = (0..reported).fold(&frames[..], |rest, _| frame::cut(rest).1);
    let next = frame::cut(rest).0;
    met.extend(match (passed.answer, frame::read(next)) {
        (0, _) => Some(Pass::Whole(reported)),
        (2, Err(refusal)) => Some(Pass::NoRoomBefore { left, refusal }),
        (5, _) => Some(Pass::Tail {
            kind: next[0],
            length: next.len(),
        }),
        _ => None,
    });
    met.insert(Pass::Stop {
        answer: passed.answer,
        first: reported == 0,
        last: reported + 1 >= pieces.len(),
    });
    let followed = passed.reports.iter().rev().skip(1);
    met.extend(followed.map(|report| Pass::GoesOnAfter(report.answer)));
    for reports in 0..=passes::MOST {
        let more = room as isize - (report::BYTES * reports) as isize;
        met.insert(Pass::Room { reports, more });
    }
}

#[test]
fn passes_meet_it_all() {
    let mut rng = Rng::new(1);
    let mut met = BTreeSet::new();
    for _ in 0..100_000 {
        let (start, case) = passes::case(&mut rng);
        note(&start, &case, &mut met);
    }
    let mut wanted = BTreeSet::new();
    for first in [false, true] {
        wanted.insert(Pass::BadImage { empty: first });
        wanted.extend([0, 5].map(|answer| Pass::Stop {
            answer,
            first,
            last: true,
        }));
        for last in [false, true] {
            wanted.extend([2, 4, 6, 7].map(|answer| Pass::Stop {
                answer,
                first,
                last,
            }));
        }
    }
    for left in 0..report::BYTES {
        wanted.extend([4, 5, 6, 7].map(|refusal| Pass::NoRoomBefore { left, refusal }));
    }
    wanted.extend((0..=passes::MOST).map(Pass::Whole));
    wanted.extend([0, 8, 9, 10].map(Pass::GoesOnAfter));
    for kind in &KINDS {
        let lengths = 1..kind.total;
        let kind = kind.byte;
        wanted.extend(lengths.map(|length| Pass::Tail { kind, length }));
    }
    for reports in 1..=passes::MOST {
        wanted.extend([-1, 0, 1].map(|more| Pass::Room { reports, more }));
    }
    wanted.extend((0..=12).map(|more| Pass::Room { reports: 0, more }));
    let missing: Vec<_> = wanted.difference(&met).collect();
    assert!(missing.is_empty(), "not met: {missing:?}");
}

/// What the stoppers are said to be refused with.
#[test]
fn stoppers_stop() {
    for tail in passes::TAILS.iter() {
        assert_eq!(frame::read(tail), Err(5), "{tail:02X?}");
    }
    let refusals = passes::REFUSED.iter().map(|piece| frame::read(piece).err());
    let refusals: BTreeSet<_> = refusals.collect();
    assert_eq!(refusals, BTreeSet::from([4, 6, 7].map(Some)));
}
