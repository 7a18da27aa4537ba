//! What a module's number in an image says.

use crate::words::count;

/// The tries of a module that has spent none.
const ALL_TRIES: u16 = 5;

/// A module's power.
#[derive(Clone, Copy, Debug, PartialEq, Eq)]
pub enum Power {
    /// With so many tries left, and so many of the seconds after which it has all of
    /// them again.
    On { tries: u16, seconds: u16 },
    /// With so many tries left.
    Off(u16),
    /// With so many seconds left.
    Failed(u16),
}

impl Power {
    /// The tries that a module has left, where it has spent some but not all.
    pub fn tries_left(self) -> Option<u16> {
        match self {
            Power::On { tries, .. } | Power::Off(tries) => Some(tries),
            Power::Failed(_) => None,
        }
        .filter(|&tries| tries < ALL_TRIES)
    }

    fn said(self) -> String {
        let left = |number: u16, what: &str| format!("{} left", count(u64::from(number), what));
        match self {
            Power::On { tries, seconds } if tries < ALL_TRIES => {
                format!("on, {}, {seconds} of 60 seconds", left(tries, "try"))
            }
            Power::On { tries, .. } => format!("on, {}", left(tries, "try")),
            Power::Off(tries) => format!("off, {}", left(tries, "try")),
            Power::Failed(seconds) => format!("failed, {}", left(seconds, "second")),
        }
    }
}

/// A module's power, and whether it is requested on.
#[derive(Clone, Copy, Debug, PartialEq, Eq)]
pub struct Supply {
    pub power: Power,
    pub requested: bool,
}

impl Supply {
    /// What a module's number says.
    pub fn of(number: u32) -> Option<Supply> {
        const REQUESTED: u16 = 32_768;
        let number = u16::try_from(number).ok()?;
        let power = match number % REQUESTED {
            on @ 0..=240 => Power::On {
                tries: 1 + on / 60,
                seconds: on % 60,
            },
            off @ 241..=245 => Power::Off(off - 240),
            failed @ 246..=846 => Power::Failed(failed - 246),
            _ => return None,
        };
        let requested = number >= REQUESTED;
        Some(Supply { power, requested })
    }

    /// All of it in words.
    pub fn said(self) -> String {
        let requested = if self.requested {
            "requested"
        } else {
            "not requested"
        };
        format!("{}, {requested}", self.power.said())
    }
}
