//! The state, the fresh start, and check 1's ranges.
//!
//! Numbers are kept as wide as the image holds them, so that a state out of
//! range can be told from the one it would be cut to.

use crate::masks::Masks;
use crate::message::Message;
use crate::table::{FROM_PAYLOAD, HIGHEST, LOWEST, MISSION, MODULES};

/// A module's power.
#[derive(Clone, Copy, Debug, PartialEq, Eq)]
pub enum Power {
    /// On.
    On {
        /// Tries left.
        tries: u16,
        /// Seconds in a row, after which it has all tries again; 0 while it has.
        seconds: u16,
    },
    /// Off, with tries left.
    Off(u16),
    /// Failed, with seconds left.
    Failed(u16),
}

/// A module, and whether it is requested.
#[derive(Clone, Copy, Debug, PartialEq, Eq)]
pub struct Module {
    /// What it is.
    pub power: Power,
    /// What it should be.
    pub requested: bool,
}

/// The mode; a deploy phase is had in DEPLOY_WAIT only.
#[derive(Clone, Copy, Debug, PartialEq, Eq)]
pub enum Mode {
    /// DEPLOY_WAIT, so many seconds waited.
    Waiting(u32),
    /// DEPLOY_WAIT, so many seconds left to settle.
    Settling(u32),
    /// RECOVERY.
    Recovery,
    /// SAFE.
    Safe,
}

impl Mode {
    /// The mode's number.
    pub fn number(self) -> u8 {
        match self {
            Mode::Waiting(_) | Mode::Settling(_) => 0,
            Mode::Recovery => 1,
            Mode::Safe => 2,
        }
    }

    /// Whether it is DEPLOY_WAIT.
    pub fn deploying(self) -> bool {
        self.number() == 0
    }
}

/// Each origin's last serial.
#[derive(Clone, Copy, Debug, PartialEq, Eq)]
pub struct Last {
    /// The ground's.
    pub ground: u16,
    /// The payload's.
    pub payload: u16,
}

impl Last {
    /// An origin's.
    pub fn of(self, origin: u8) -> u16 {
        match origin {
            FROM_PAYLOAD => self.payload,
            _ => self.ground,
        }
    }

    /// Sets an origin's.
    pub fn set(&mut self, origin: u8, serial: u16) {
        match origin {
            FROM_PAYLOAD => self.payload = serial,
            _ => self.ground = serial,
        }
    }
}

/// The most tries of a module.
pub const TRIES: u16 = 5;
/// Seconds in a row, on and without a short, that give a module all its tries.
pub const CLEAN_SECONDS: u16 = 60;
/// Seconds that a failed module is left alone.
pub const FAILED_SECONDS: u16 = 600;
/// Seconds of waiting after which the antennas are taken as deployed.
pub const WAIT_SECONDS: u32 = 86_400;
/// Seconds of settling.
pub const SETTLE_SECONDS: u32 = 900;
/// Ticks between two judgements of the mode.
pub const CONTROL_TICKS: u8 = 30;
/// Ticks between two basic beacons.
pub const BASIC_TICKS: u16 = 300;
/// Ticks between two complete or extended beacons.
pub const COMPLETE_TICKS: u16 = 60;
/// Seconds of the longest end.
pub const END_SECONDS: u32 = 86_400;

/// The whole state.
#[derive(Clone, Debug, PartialEq, Eq)]
pub struct State {
    /// The mode, with its phase.
    pub mode: Mode,
    /// The control count.
    pub control: u8,
    /// The beacon count.
    pub beacon: u16,
    /// Whether the antennas were last reported deployed.
    pub antennas: bool,
    /// The last tension, 0 before any.
    pub tension: u16,
    /// The tension above which RECOVERY ends.
    pub ascend: u16,
    /// The tension below which SAFE ends.
    pub descend: u16,
    /// The last serials.
    pub last: Last,
    /// The message that is kept for the beacon.
    pub message: Message,
    /// The ends of the mission four, in the order of [`MISSION`]: the seconds until
    /// the request goes off, 0 where none runs.
    pub ends: [u32; 4],
    /// The masks, kept beside the modules.
    pub masks: Masks,
    /// The modules by number.
    pub modules: [Module; 8],
}

impl State {
    /// The fresh start.
    pub fn fresh() -> State {
        let modules = MODULES.map(|row| Module {
            power: Power::Off(TRIES),
            requested: row.core,
        });
        State {
            mode: Mode::Waiting(0),
            control: 0,
            beacon: 0,
            antennas: false,
            tension: 0,
            ascend: 7_400,
            descend: 7_000,
            last: Last {
                ground: 0,
                payload: 0,
            },
            message: Message::NONE,
            ends: [0; 4],
            masks: Masks::of(&modules),
            modules,
        }
    }

    /// Whether the state passes check 1.
    pub fn in_range(&self) -> bool {
        let phase = match self.mode {
            Mode::Waiting(waited) => waited < WAIT_SECONDS,
            Mode::Settling(left) => (1..=SETTLE_SECONDS).contains(&left),
            Mode::Recovery | Mode::Safe => true,
        };
        let counts = self.control < CONTROL_TICKS && self.beacon < BASIC_TICKS;
        let still = !self.mode.deploying() || (self.control == 0 && self.beacon == 0);
        let volts = LOWEST..=HIGHEST;
        let tension = self.tension == 0 || volts.contains(&self.tension);
        let thresholds = volts.contains(&self.ascend)
            && volts.contains(&self.descend)
            && self.descend <= self.ascend;
        let modules = self.modules.iter().all(|module| match module.power {
            Power::On { tries, seconds } => {
                let counting = (1..TRIES).contains(&tries) && seconds < CLEAN_SECONDS;
                counting || (tries == TRIES && seconds == 0)
            }
            Power::Off(tries) => (1..=TRIES).contains(&tries),
            Power::Failed(left) => left <= FAILED_SECONDS,
        });
        let ends = self.ends.iter().all(|&end| end <= END_SECONDS);
        let message = self.message.in_range();
        let masks = self.masks == Masks::of(&self.modules);
        phase && counts && still && tension && thresholds && modules && ends && message && masks
    }

    /// Makes the masks anew, so that they are true of the modules.
    pub fn gather_masks(&mut self) {
        self.masks = Masks::of(&self.modules);
    }

    /// A module's end; none for one of the core four.
    pub fn end_of(&mut self, module: u8) -> Option<&mut u32> {
        let mut ends = self.ends.iter_mut().zip(MISSION);
        ends.find(|(_, own)| *own == module).map(|(end, _)| end)
    }
}
