//! How far the tracker's groups get: each of its six numbers at every limit in a call that
//! is done, past every limit by itself, and all of them at once. Moves end before, at
//! and past either end, after every power, which differs by 1 or not at all. Walks go on
//! where they were, turn, stop at both ends and leave them, and cross a peak both ways:
//! one far from both ends, near either, and at one.

mod common;

use differential::rng::Rng;
use differential::sides::{Calls, MODEL};
use differential::tracks::{Climb, Panel, FAR, FAR_STEPS, MOVES};
use model::track::{track, Reading};
use std::cell::RefCell;
use std::cmp::Ordering;
use std::collections::BTreeSet;

/// The numbers of a call, as `include/ems.h` has them.
type Numbers = [i64; 6];

/// The least and the greatest of each.
const LIMITS: [(i64, i64); 6] = [
    (0, 20_000),
    (0, 5_000),
    (0, 20_000),
    (0, 5_000),
    (0, 20_000),
    (-500, 500),
];

/// Where the step stands among them.
const STEP: usize = 5;

/// The places of the numbers that are out of range.
fn refused(numbers: &Numbers) -> Vec<usize> {
    let within = |place: usize| {
        let (least, most) = LIMITS[place];
        let number = numbers[place];
        (least..=most).contains(&number) && (place != STEP || number != 0)
    };
    (0..6).filter(|place| !within(*place)).collect()
}

/// What a group can meet.
#[derive(PartialEq, Eq, PartialOrd, Ord, Debug)]
enum Met {
    /// A number in a call that is done.
    Taken { place: usize, number: i64 },
    /// A number that is out of range, and the only one.
    Alone { place: usize, number: i64 },
    /// So many numbers out of range.
    Refused(usize),
    /// Readings: how the power goes, whether by 1, and whether volts and amps are others.
    Power {
        power: Ordering,
        by_one: bool,
        others: bool,
    },
    /// A move up or down that gets so far past the end (below 0: short of it).
    End {
        up: bool,
        past: i64,
        power: Ordering,
    },
    /// A call with the set point and the step that the one before has left.
    GoesOn,
    /// A step that was turned, or not, and what the power did.
    Turned { turned: bool, power: Ordering },
    /// A stop at an end, and the next move away from it.
    LeavesEnd { upper: bool },
}

thread_local! {
    static MET: RefCell<BTreeSet<Met>> = const { RefCell::new(BTreeSet::new()) };
    static LAST: RefCell<Option<(u32, i32)>> = const { RefCell::new(None) };
}

/// The model's tracker; notes what it is called with.
fn noted(before: Reading, after: Reading, set_point: &mut u32, step: &mut i32) -> u8 {
    let (from, was) = (*set_point, *step);
    let answer = model::calls::track(before, after, set_point, step);
    let numbers: Numbers = [
        before.millivolts.into(),
        before.milliamperes.into(),
        after.millivolts.into(),
        after.milliamperes.into(),
        from.into(),
        was.into(),
    ];
    let last = LAST.replace(Some((*set_point, *step)));
    MET.with_borrow_mut(|met| {
        let out = refused(&numbers);
        assert_eq!(out.is_empty(), answer == 0, "{numbers:?}");
        if let [place] = out[..] {
            let number = numbers[place];
            met.insert(Met::Alone { place, number });
        }
        if !out.is_empty() {
            met.insert(Met::Refused(out.len()));
            return;
        }
        let at_limits = (0..6).filter(|place| {
            let (least, most) = LIMITS[*place];
            let number = numbers[*place];
            [least, least + 1, most - 1, most, -1, 1].contains(&number)
        });
        met.extend(at_limits.map(|place| Met::Taken {
            place,
            number: numbers[place],
        }));
        let power = after.power().cmp(&before.power());
        met.insert(Met::Power {
            power,
            by_one: after.power().abs_diff(before.power()) == 1,
            others: before != after,
        });
        let by = if power == Ordering::Less { -was } else { was };
        let to = numbers[4] + i64::from(by);
        let (up, past) = match by > 0 {
            true => (true, to - 20_000),
            false => (false, -to),
        };
        if past >= -2 {
            met.insert(Met::End { up, past, power });
        }
        let turned = *step != was;
        met.insert(Met::Turned { turned, power });
        if last == Some((from, was)) {
            met.insert(Met::GoesOn);
            if [0, 20_000].contains(&from) && *set_point != from {
                let upper = from != 0;
                met.insert(Met::LeavesEnd { upper });
            }
        }
    });
    answer
}

/// What a group meets on the model alone.
fn met_by(group: &str) -> BTreeSet<Met> {
    let noting = Calls {
        track: noted,
        ..MODEL
    };
    common::run(group, &[noting, MODEL]).expect("no difference");
    MET.take()
}

/// That all of these were met.
fn assert_met(met: &BTreeSet<Met>, wanted: impl IntoIterator<Item = Met>) {
    let wanted = BTreeSet::from_iter(wanted);
    let missing: Vec<_> = wanted.difference(met).collect();
    assert!(missing.is_empty(), "not met: {missing:?}");
}

const POWERS: [Ordering; 3] = [Ordering::Less, Ordering::Equal, Ordering::Greater];

#[test]
fn every_number_is_met_at_every_limit_and_past_it_by_itself() {
    let met = met_by("the tracker about every limit");
    let far = FAR.map(i64::from);
    let far_steps = FAR_STEPS.map(i64::from);
    for (place, (least, most)) in LIMITS.into_iter().enumerate() {
        let (taken, alone) = match place {
            STEP => (
                vec![least, -1, 1, most],
                [&[least - 1, 0, most + 1][..], &far_steps].concat(),
            ),
            _ => (
                vec![least, least + 1, most - 1, most],
                [&[most + 1][..], &far].concat(),
            ),
        };
        let taken = taken.into_iter().map(|number| Met::Taken { place, number });
        assert_met(&met, taken);
        let alone = alone.into_iter().map(|number| Met::Alone { place, number });
        assert_met(&met, alone);
    }
    assert_met(&met, (1..=6).map(Met::Refused));
    assert_met(&met, turns());
}

/// What becomes of a step: past an end it turns after a rise too, and twice after a
/// fall.
fn turns() -> impl Iterator<Item = Met> {
    let powers = POWERS.into_iter();
    powers.flat_map(|power| [false, true].map(|turned| Met::Turned { turned, power }))
}

#[test]
fn both_ends_are_met_from_before_to_past_them_after_every_power() {
    let met = met_by("the tracker about both ends");
    for power in POWERS {
        for up in [false, true] {
            let past = [-2, -1, 0, 1, 2, 250, 499, 500];
            assert_met(&met, past.map(|past| Met::End { up, past, power }));
        }
    }
    let falls_and_rises = [Ordering::Less, Ordering::Greater];
    for by_one in [false, true] {
        let powers = falls_and_rises.map(|power| Met::Power {
            power,
            by_one,
            others: true,
        });
        assert_met(&met, powers);
    }
    let alike = [false, true].map(|others| Met::Power {
        power: Ordering::Equal,
        by_one: false,
        others,
    });
    assert_met(&met, alike);
    assert_met(&met, turns());
}

#[test]
fn walks_go_on_turn_and_leave_both_ends() {
    let met = met_by("walks by the tracker");
    assert_met(&met, [Met::GoesOn]);
    assert_met(&met, [false, true].map(|upper| Met::LeavesEnd { upper }));
    assert_met(&met, turns());
}

/// That what is said of a panel is so: its power rises strictly to the peak, and falls
/// strictly for two steps past it, or up to the end.
#[test]
fn a_panel_has_one_peak() {
    let mut rng = Rng::new(1);
    for length in [1, 2, 49, 50, 250, 499, 500] {
        for _ in 0..100 {
            let panel = Panel::for_steps(&mut rng, length);
            let peak = panel.peak;
            assert!((1..=20_000).contains(&peak), "{panel:?}");
            let power = |set_point: u32| {
                let (volts, amps) = panel.at(set_point);
                assert_eq!(volts, set_point);
                assert!(amps <= 5_000, "{panel:?}");
                volts * amps
            };
            assert!((0..peak).all(|at| power(at) < power(at + 1)), "{panel:?}");
            let mut past = peak..(peak + 2 * length).min(20_000);
            assert!(past.all(|at| power(at) > power(at + 1)), "{panel:?}");
        }
    }
}

/// A peak may be a millivolt above 0; with the longest steps, a quarter of a step.
#[test]
fn the_lowest_peaks_are_near_the_end() {
    assert_eq!([1, 49, 500].map(Panel::least_peak), [1, 1, 125]);
    for length in 1..=500 {
        assert!(Panel::least_peak(length) <= length.div_ceil(4), "{length}");
    }
}

/// Where a peak is.
#[derive(Clone, Copy, PartialEq, Eq, PartialOrd, Ord, Debug)]
enum Place {
    /// Two steps or more from both ends.
    Between,
    /// Nearer than that to 0 or to 20,000.
    Near { upper: bool },
    /// A millivolt above 0: the lowest.
    Lowest,
    /// At 20,000.
    End,
}

impl Place {
    fn of(peak: u32, length: u32) -> Place {
        match (peak, 20_000 - peak) {
            (1, _) => Place::Lowest,
            (_, 0) => Place::End,
            (low, _) if low < 2 * length => Place::Near { upper: false },
            (_, high) if high < 2 * length => Place::Near { upper: true },
            _ => Place::Between,
        }
    }
}

/// What a climb can meet, in millivolts past the peak, of steps of a length.
#[derive(PartialEq, Eq, PartialOrd, Ord, Debug)]
enum Crossing {
    /// The first move across, upwards or downwards, past the peak or just to it.
    First { up: bool, past: bool },
    /// Later more than a step away, above or below.
    Strays { above: bool },
    /// Later stopped by an end.
    Stopped { upper: bool },
    /// Stopped by it in the first move across.
    FirstStopped { upper: bool },
}

/// What climbs meet, and where their peaks are.
fn met_by_climbs() -> BTreeSet<(Place, Crossing)> {
    let mut rng = Rng::new(1);
    let mut met = BTreeSet::new();
    for _ in 0..6_000 {
        let Climb {
            panel,
            mut set_point,
            mut step,
        } = Climb::new(&mut rng);
        let length = step.unsigned_abs();
        let place = Place::of(panel.peak, length);
        let reading = |set_point| {
            let (millivolts, milliamperes) = panel.at(set_point);
            Reading {
                millivolts,
                milliamperes,
            }
        };
        let mut before = reading(set_point);
        let mut crossed = false;
        for _ in 0..MOVES {
            let after = reading(set_point);
            let from = set_point;
            (set_point, step) = track(before, after, set_point, step).expect("a move");
            before = after;
            // Only an end makes a move shorter.
            let stopped = set_point.abs_diff(from) < length;
            let upper = set_point == 20_000;
            if crossed && set_point.abs_diff(panel.peak) > length {
                let above = set_point > panel.peak;
                met.insert((place, Crossing::Strays { above }));
            }
            if crossed && stopped {
                met.insert((place, Crossing::Stopped { upper }));
            }
            if !crossed && panel.crossed(from, set_point) {
                crossed = true;
                let (up, past) = (set_point > from, set_point != panel.peak);
                met.insert((place, Crossing::First { up, past }));
                if stopped {
                    met.insert((place, Crossing::FirstStopped { upper }));
                }
            }
        }
    }
    met
}

/// That climbs meet all of these.
fn assert_climbs_meet(wanted: &[(Place, Crossing)]) {
    let met = met_by_climbs();
    let missing: Vec<_> = wanted.iter().filter(|one| !met.contains(one)).collect();
    assert!(missing.is_empty(), "not met: {missing:?}");
}

#[test]
fn climbs_cross_the_peak_both_ways() {
    let near = [false, true].map(|upper| Place::Near { upper });
    let mut wanted = Vec::new();
    for place in [Place::Between, near[0], near[1]] {
        for up in [false, true] {
            let first = [false, true].map(|past| (place, Crossing::First { up, past }));
            wanted.extend(first);
            wanted.push((place, Crossing::Strays { above: up }));
        }
    }
    assert_climbs_meet(&wanted);
}

#[test]
fn climbs_are_stopped_past_a_peak_near_an_end() {
    let stopped = [false, true].map(|upper| {
        let place = Place::Near { upper };
        [
            (place, Crossing::FirstStopped { upper }),
            (place, Crossing::Stopped { upper }),
        ]
    });
    assert_climbs_meet(stopped.as_flattened());
}

#[test]
fn climbs_cross_the_lowest_peak_and_one_at_the_end() {
    let first = |up, past| Crossing::First { up, past };
    assert_climbs_meet(&[
        (Place::Lowest, first(true, true)),
        (Place::Lowest, first(false, false)),
        (Place::Lowest, first(false, true)),
        (Place::Lowest, Crossing::Strays { above: true }),
        (Place::Lowest, Crossing::Stopped { upper: false }),
        (Place::End, first(true, false)),
        (Place::End, first(false, true)),
        (Place::End, Crossing::FirstStopped { upper: true }),
        (Place::End, Crossing::Stopped { upper: true }),
    ]);
}
