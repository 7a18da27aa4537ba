//! Judgements of the mode that move requests in ways that look right.

use model::state::{Mode, CONTROL_TICKS};
use model::table::{MISSION, MODULES, TICK};
use model::{calls, image, State};

/// A step, as `ems_step` is called.
pub type Step = fn(&mut [u8], &[u8], &mut [u8]) -> u8;

/// What comes of a judgement.
#[derive(Clone, Copy, PartialEq, Eq)]
pub enum Judged {
    Rises,
    Falls,
    StaysInRecovery,
    StaysInSafe,
}
use Judged::{Falls, Rises, StaysInRecovery, StaysInSafe};

/// What a judgement does, and the step, by the requests that it leaves of those before it.
macro_rules! judges {
    ($name:literal, $rule:expr) => {
        ($name, |image, frame, room| by(image, frame, room, $rule))
    };
}

const CORE: u8 = 0x27;
const COMM2: u8 = 0x04;
const ADCS: u8 = 0x08;
const PAYLOAD: u8 = 0x10;
const SBAND1: u8 = 0x40;
const SBAND2: u8 = 0x80;

/// Document 01's rule, which wish 10 took away.
pub const FORMER: (&str, Step) =
    judges!("requests the core four as the mode rises", |judged, own| {
        right(judged, own) | if judged == Rises { CORE } else { 0 }
    });

/// What each does, and the step.
pub const JUDGED: [(&str, Step); 13] = [
    FORMER,
    judges!("requests COMM2 as the mode rises", |judged, own| {
        right(judged, own) | if judged == Rises { COMM2 } else { 0 }
    }),
    judges!("drops the mission four as the mode rises", |judged, own| {
        right(judged, own) & if judged == Rises { CORE } else { 0xFF }
    }),
    judges!("requests the core four as the mode falls", |judged, own| {
        right(judged, own) | if judged == Falls { CORE } else { 0 }
    }),
    judges!("drops the core four as the mode falls", |judged, own| {
        right(judged, own) & if judged == Falls { !CORE } else { 0xFF }
    }),
    judges!("drops COMM2 as the mode falls", |judged, own| {
        right(judged, own) & if judged == Falls { !COMM2 } else { 0xFF }
    }),
    judges!("forgets ADCS as the mode falls", |judged, own| {
        right(judged, own) | own & ADCS
    }),
    judges!("forgets PAYLOAD as the mode falls", |judged, own| {
        right(judged, own) | own & PAYLOAD
    }),
    judges!("forgets SBAND1 as the mode falls", |judged, own| {
        right(judged, own) | own & SBAND1
    }),
    judges!("forgets SBAND2 as the mode falls", |judged, own| {
        right(judged, own) | own & SBAND2
    }),
    judges!("requests the core four while in SAFE", |judged, own| {
        let safe = matches!(judged, Rises | StaysInSafe);
        right(judged, own) | if safe { CORE } else { 0 }
    }),
    judges!(
        "requests the core four in every judgement",
        |judged, own| { right(judged, own) | CORE }
    ),
    judges!("drops the mission four while in RECOVERY", |judged, own| {
        let recovery = matches!(judged, Falls | StaysInRecovery);
        right(judged, own) & if recovery { CORE } else { 0xFF }
    }),
];

/// The requests that a judgement leaves.
fn right(judged: Judged, own: u8) -> u8 {
    match judged {
        Falls => own & CORE,
        _ => own,
    }
}

/// A step in which a judgement leaves other requests, before the modules' second.
fn by(image: &mut [u8], frame: &[u8], room: &mut [u8], rule: fn(Judged, u8) -> u8) -> u8 {
    let before = image::load(image);
    let next = before.as_ref().and_then(judged);
    let (Some(mut state), Some(judged), [TICK, _]) = (before, next, frame) else {
        return calls::step(image, frame, room);
    };
    // What an end drops is gone before the judgement.
    let ended = state.ends.iter().zip(MISSION).filter(|(end, _)| **end == 1);
    let ended: u8 = ended.map(|(_, module)| 1 << module).sum();
    let requested = rule(judged, state.masks.requested & !ended);
    // The judgement itself leaves the core four's requests, and the mission four are off in
    // RECOVERY whatever is requested: so the modules' second is that of these requests.
    request(&mut state, requested);
    let mut bytes = image::save(&state);
    let answer = calls::step(&mut bytes, frame, room);
    if let (Some(mut after), 0) = (image::load(&bytes), answer) {
        request(&mut after, requested);
        image.copy_from_slice(&image::save(&after));
        room[7] = requested;
    }
    answer
}

/// What the next tick does to the mode, if it judges it.
fn judged(state: &State) -> Option<Judged> {
    if state.control + 1 < CONTROL_TICKS {
        return None;
    }
    match state.mode {
        Mode::Recovery if state.tension > state.ascend => Some(Rises),
        Mode::Recovery => Some(StaysInRecovery),
        Mode::Safe if state.tension < state.descend => Some(Falls),
        Mode::Safe => Some(StaysInSafe),
        Mode::Waiting(_) | Mode::Settling(_) => None,
    }
}

/// Sets all requests.
fn request(state: &mut State, requested: u8) {
    for (module, row) in state.modules.iter_mut().zip(&MODULES) {
        module.requested = requested & row.bit() != 0;
    }
    state.gather_masks();
}
