//! The state as 71 bytes, as `include/ems.h` lays them out.

use crate::masks::Masks;
use crate::message::{self, Message};
use crate::state::{Last, Mode, Module, Power, State, CLEAN_SECONDS};

/// The bytes of an image.
pub const BYTES: usize = 71;
/// The layout's version, an image's first byte.
pub const VERSION: u8 = 6;

/// Where the fields begin.
pub mod at {
    /// The layout's version.
    pub const VERSION: usize = 0;
    /// The mode, and the deploy phase with its seconds: 3 bytes.
    pub const MODE: usize = 1;
    /// The control count.
    pub const CONTROL: usize = 4;
    /// The beacon count: 2 bytes.
    pub const BEACON: usize = 5;
    /// Whether the antennas were last reported deployed.
    pub const ANTENNAS: usize = 7;
    /// The tension: 2 bytes.
    pub const TENSION: usize = 8;
    /// The upper threshold: 2 bytes.
    pub const ASCEND: usize = 10;
    /// The lower threshold: 2 bytes.
    pub const DESCEND: usize = 12;
    /// The ground's last serial: 2 bytes.
    pub const GROUND: usize = 14;
    /// The payload's last serial: 2 bytes.
    pub const PAYLOAD: usize = 16;
    /// The message's repeats.
    pub const REPEATS: usize = 18;
    /// The message's length.
    pub const LENGTH: usize = 19;
    /// The message's text with its filler: 16 bytes.
    pub const TEXT: usize = 20;
    /// The ends of the mission four, 4 bytes each.
    pub const ENDS: usize = 36;
    /// The requested mask.
    pub const REQUESTED: usize = 52;
    /// The on mask.
    pub const ON: usize = 53;
    /// The failed mask.
    pub const FAILED: usize = 54;
    /// The modules, 2 bytes each.
    pub const MODULES: usize = 55;
}

/// The numbers of modes and modules.
pub mod code {
    /// Settling is this and the seconds left; numbers up to it are the seconds waited.
    pub const SETTLING: u32 = 86_399;
    /// RECOVERY.
    pub const RECOVERY: u32 = 87_300;
    /// SAFE, the last number of a mode.
    pub const SAFE: u32 = 87_301;
    /// Off is this and the tries left; numbers up to it are on, 60 for each try
    /// after the first, and the seconds.
    pub const OFF: u16 = 240;
    /// Failed is this and the seconds left.
    pub const FAILED: u16 = 246;
    /// What a module's number has more when it is requested.
    pub const REQUESTED: u16 = 32_768;
}

/// Where each end begins.
fn ends() -> impl Iterator<Item = usize> {
    (at::ENDS..at::REQUESTED).step_by(4)
}

/// Where each module begins.
fn modules() -> impl Iterator<Item = usize> {
    (at::MODULES..BYTES).step_by(2)
}

/// A state's image.
pub fn save(state: &State) -> [u8; BYTES] {
    let mode = match state.mode {
        Mode::Waiting(waited) => waited,
        Mode::Settling(left) => code::SETTLING + left,
        Mode::Recovery => code::RECOVERY,
        Mode::Safe => code::SAFE,
    };
    let mut image = [0; BYTES];
    let mut put = |at: usize, bytes: &[u8]| image[at..at + bytes.len()].copy_from_slice(bytes);
    put(at::VERSION, &[VERSION]);
    put(at::MODE, &mode.to_le_bytes()[..3]);
    put(at::CONTROL, &[state.control]);
    put(at::BEACON, &state.beacon.to_le_bytes());
    put(at::ANTENNAS, &[state.antennas.into()]);
    put(at::TENSION, &state.tension.to_le_bytes());
    put(at::ASCEND, &state.ascend.to_le_bytes());
    put(at::DESCEND, &state.descend.to_le_bytes());
    put(at::GROUND, &state.last.ground.to_le_bytes());
    put(at::PAYLOAD, &state.last.payload.to_le_bytes());
    put(at::REPEATS, &[state.message.repeats]);
    put(at::LENGTH, &[state.message.length]);
    put(at::TEXT, &state.message.bytes);
    for (begin, end) in ends().zip(&state.ends) {
        put(begin, &end.to_le_bytes());
    }
    put(at::REQUESTED, &[state.masks.requested]);
    put(at::ON, &[state.masks.on]);
    put(at::FAILED, &[state.masks.failed]);
    for (begin, module) in modules().zip(&state.modules) {
        let power = match module.power {
            Power::On { tries, seconds } => CLEAN_SECONDS * (tries - 1) + seconds,
            Power::Off(tries) => code::OFF + tries,
            Power::Failed(seconds) => code::FAILED + seconds,
        };
        let requested = u16::from(module.requested) * code::REQUESTED;
        put(begin, &(requested + power).to_le_bytes());
    }
    image
}

/// The state in range that has exactly this image, if there is one: the guess
/// is saved again and must come out the same.
pub fn load(image: &[u8]) -> Option<State> {
    let image: &[u8; BYTES] = image.try_into().ok()?;
    let guess = guess(image);
    (guess.in_range() && save(&guess) == *image).then_some(guess)
}

/// The state that an image tells of; not checked further.
fn guess(image: &[u8; BYTES]) -> State {
    let number = |at: usize, bytes: usize| {
        let own = &image[at..at + bytes];
        own.iter().rfold(0, |n, &byte| 256 * n + u32::from(byte))
    };
    let two = |at: usize| number(at, 2) as u16;
    let mode = match number(at::MODE, 3) {
        code::SAFE => Mode::Safe,
        code::RECOVERY => Mode::Recovery,
        waited @ ..=code::SETTLING => Mode::Waiting(waited),
        settling => Mode::Settling(settling - code::SETTLING),
    };
    let mut text = [0; message::BYTES];
    text.copy_from_slice(&image[at::TEXT..at::ENDS]);
    let mut state = State {
        mode,
        control: image[at::CONTROL],
        beacon: two(at::BEACON),
        antennas: image[at::ANTENNAS] == 1,
        tension: two(at::TENSION),
        ascend: two(at::ASCEND),
        descend: two(at::DESCEND),
        last: Last {
            ground: two(at::GROUND),
            payload: two(at::PAYLOAD),
        },
        message: Message {
            repeats: image[at::REPEATS],
            length: image[at::LENGTH],
            bytes: text,
        },
        masks: Masks {
            requested: image[at::REQUESTED],
            on: image[at::ON],
            failed: image[at::FAILED],
        },
        ..State::fresh()
    };
    for (begin, end) in ends().zip(&mut state.ends) {
        *end = number(begin, 4);
    }
    for (begin, module) in modules().zip(&mut state.modules) {
        let requested = code::REQUESTED <= two(begin);
        let power = match two(begin) % code::REQUESTED {
            on @ ..=code::OFF => Power::On {
                tries: on / CLEAN_SECONDS + 1,
                seconds: on % CLEAN_SECONDS,
            },
            off @ ..code::FAILED => Power::Off(off - code::OFF),
            failed => Power::Failed(failed - code::FAILED),
        };
        *module = Module { power, requested };
    }
    state
}
