//! How far the groups of the crossings get. Ticks meet every mask of requests as the mode
//! rises, falls, is judged and stays, and is not judged, at all tensions about a threshold,
//! with every module on, off and failed, shorted or not. Flights cross both ways with each
//! of the core four ordered off, and on, since the crossing before.

mod common;

use differential::crossings;
use differential::in_image::{CORE, RECOVERY, SAFE};
use differential::masks::Sort;
use differential::rng::Rng;
use differential::sides::{Calls, MODEL};
use model::state::{Mode, Power, CONTROL_TICKS};
use model::table::{MISSION, ORDER, TICK};
use model::{calls, image, step, State};
use std::cell::RefCell;
use std::cmp::Ordering;
use std::collections::BTreeMap;

/// What a tick does to the mode: from one to another, and whether it is judged.
type Turn = (u8, u8, bool);

const RISES: Turn = (RECOVERY, SAFE, true);
const FALLS: Turn = (SAFE, RECOVERY, true);
const TURNS: [Turn; 6] = [
    RISES,
    FALLS,
    (RECOVERY, RECOVERY, true),
    (SAFE, SAFE, true),
    (RECOVERY, RECOVERY, false),
    (SAFE, SAFE, false),
];

/// What a tick can meet.
#[derive(PartialEq, Eq, PartialOrd, Ord, Debug)]
enum Met {
    Requested(Turn, u8),
    /// The tension against ascend and descend; none is 0.
    Tension {
        from: u8,
        judged: bool,
        ascend: Ordering,
        descend: Ordering,
        none: bool,
    },
    Module {
        turn: Turn,
        number: usize,
        sort: Sort,
        requested: bool,
        short: bool,
    },
    /// An end of a requested module: of this many seconds, 2 for all more.
    End(Turn, u8, u32),
}

thread_local! {
    static MET: RefCell<BTreeMap<Met, u32>> = const { RefCell::new(BTreeMap::new()) };
}

fn sort(power: Power) -> Sort {
    match power {
        Power::On { .. } => Sort::On,
        Power::Off(_) => Sort::Off,
        Power::Failed(_) => Sort::Failed,
    }
}

/// What a tick has met that led from one state to another.
fn met(shorts: u8, before: &State, after: &State) -> Vec<Met> {
    let judged = before.control + 1 == CONTROL_TICKS;
    let turn = (before.mode.number(), after.mode.number(), judged);
    let mut met = vec![
        Met::Requested(turn, before.masks.requested),
        Met::Tension {
            from: turn.0,
            judged,
            ascend: before.tension.cmp(&before.ascend),
            descend: before.tension.cmp(&before.descend),
            none: before.tension == 0,
        },
    ];
    for (number, module) in before.modules.iter().enumerate() {
        met.push(Met::Module {
            turn,
            number,
            sort: sort(module.power),
            requested: module.requested,
            short: shorts >> number & 1 == 1,
        });
    }
    for (end, module) in before.ends.into_iter().zip(MISSION) {
        if before.masks.requested >> module & 1 == 1 {
            met.push(Met::End(turn, module, end.min(2)));
        }
    }
    met
}

#[test]
fn every_mask_of_requests_is_met_about_a_crossing() {
    let noting = Calls {
        step: |image, frame, room| {
            let before = image::load(image);
            let answer = calls::step(image, frame, room);
            if let (Some(before), Some(after), &[TICK, shorts]) =
                (before, image::load(image), frame)
            {
                MET.with_borrow_mut(|all| {
                    for met in met(shorts, &before, &after) {
                        *all.entry(met).or_default() += 1;
                    }
                });
            }
            answer
        },
        ..MODEL
    };
    common::run("requests about a crossing", &[noting, MODEL]).expect("no difference");
    let met = MET.take();
    let mut wanted = Vec::new();
    for turn in TURNS {
        wanted.extend((0..=u8::MAX).map(|requested| Met::Requested(turn, requested)));
        for number in 0..8 {
            for sort in differential::masks::SORTS {
                for (requested, short) in
                    [(false, false), (false, true), (true, false), (true, true)]
                {
                    wanted.push(Met::Module {
                        turn,
                        number,
                        sort,
                        requested,
                        short,
                    });
                }
            }
        }
        for module in MISSION {
            wanted.extend((0..=2).map(|seconds| Met::End(turn, module, seconds)));
        }
    }
    let (less, equal, more) = (Ordering::Less, Ordering::Equal, Ordering::Greater);
    for from in [RECOVERY, SAFE] {
        for judged in [false, true] {
            let tension = |ascend, descend, none| Met::Tension {
                from,
                judged,
                ascend,
                descend,
                none,
            };
            wanted.extend([
                tension(less, less, true),
                tension(less, less, false),
                tension(less, equal, false),
                tension(less, more, false),
                tension(equal, equal, false),
                tension(equal, more, false),
                tension(more, more, false),
            ]);
        }
    }
    for wanted in wanted {
        assert!(met.contains_key(&wanted), "not met: {wanted:?}");
    }
}

/// A core module that was ordered so since the crossing before, as the mode crosses to
/// another.
type Crossed = (u8, bool, u8);

#[test]
fn core_modules_are_ordered_off_and_on_between_crossings() {
    let mut rng = Rng::new(1);
    let mut met: BTreeMap<Crossed, u32> = BTreeMap::new();
    for _ in 0..1_000 {
        let (mut state, shots) = crossings::flight(&mut rng);
        let mut ordered: BTreeMap<u8, bool> = BTreeMap::new();
        let mut crossings = 0;
        for (frame, room) in shots {
            let before = state.mode;
            let report = step::step(&mut state, &frame, room.into());
            let answer = report.expect("each frame is reported on").answer;
            if let (&[ORDER, _, _, _, module, on], 0) = (&frame[..], answer) {
                ordered.insert(module, on == 1);
            }
            if state.mode == before {
                continue;
            }
            assert!(matches!(before, Mode::Recovery | Mode::Safe));
            crossings += 1;
            let core = ordered
                .iter()
                .filter(|(module, _)| CORE >> **module & 1 == 1);
            // The first crossing has none before it.
            for (module, on) in core.filter(|_| crossings > 1) {
                *met.entry((*module, *on, state.mode.number())).or_default() += 1;
            }
            ordered.clear();
        }
    }
    for module in [0, 1, 2, 5] {
        for on in [false, true] {
            for to in [RECOVERY, SAFE] {
                let times = met.get(&(module, on, to)).copied().unwrap_or(0);
                assert!(times >= 20, "{module} {on} {to}: {times} times");
            }
        }
    }
}
