//! The modes that the craft flies in.

use std::fmt;

/// A mode; the later in this list is the better one.
#[derive(Clone, Copy, Debug, PartialEq, Eq, PartialOrd, Ord, Hash)]
pub enum Mode {
    /// 0: waiting for the antennas, then settling; nothing is switched.
    DeployWait,
    /// 1: the core four only.
    Recovery,
    /// 2: all modules.
    Safe,
}

impl Mode {
    /// All modes, by number.
    pub const ALL: [Mode; 3] = [Mode::DeployWait, Mode::Recovery, Mode::Safe];

    /// The mode with a number, if there is one.
    pub fn of(number: u8) -> Option<Mode> {
        Mode::ALL.into_iter().find(|mode| mode.number() == number)
    }

    /// The mode's number, as reports and images have it.
    pub const fn number(self) -> u8 {
        self as u8
    }

    /// The mode's name, as the documents write it.
    pub const fn name(self) -> &'static str {
        match self {
            Mode::DeployWait => "DEPLOY_WAIT",
            Mode::Recovery => "RECOVERY",
            Mode::Safe => "SAFE",
        }
    }
}

impl fmt::Display for Mode {
    fn fmt(&self, f: &mut fmt::Formatter<'_>) -> fmt::Result {
        f.pad(self.name())
    }
}
