//! The modules that the board powers.

use std::fmt;

/// A module of the board. Its number is its byte in an order, and its bit in
/// the masks of a tick and a report.
#[derive(Clone, Copy, Debug, PartialEq, Eq, PartialOrd, Ord, Hash)]
pub enum Module {
    /// 0, core.
    Mcs,
    /// 1, core.
    Comm1,
    /// 2, core.
    Comm2,
    /// 3, mission.
    Adcs,
    /// 4, mission: the only one that the payload may order.
    Payload,
    /// 5, core.
    I2c,
    /// 6, mission.
    Sband1,
    /// 7, mission.
    Sband2,
}

impl Module {
    /// All modules, by number.
    pub const ALL: [Module; 8] = [
        Module::Mcs,
        Module::Comm1,
        Module::Comm2,
        Module::Adcs,
        Module::Payload,
        Module::I2c,
        Module::Sband1,
        Module::Sband2,
    ];

    /// The mask of the mission four, which are on in SAFE only and can be ordered on
    /// for some minutes; the fall into RECOVERY drops their requests. The others are the
    /// core four: requested from the fresh start on, and then as they are ordered.
    pub const MISSION: u8 =
        Module::Adcs.bit() | Module::Payload.bit() | Module::Sband1.bit() | Module::Sband2.bit();

    /// The module with a number, if there is one.
    pub fn of(number: u8) -> Option<Module> {
        let mut all = Module::ALL.into_iter();
        all.find(|module| module.number() == number)
    }

    /// The modules whose bits are set in a mask, by number.
    pub fn in_mask(mask: u8) -> impl Iterator<Item = Module> {
        let all = Module::ALL.into_iter();
        all.filter(move |module| mask & module.bit() != 0)
    }

    /// The module's number.
    pub const fn number(self) -> u8 {
        self as u8
    }

    /// The mask with the module's bit alone.
    pub const fn bit(self) -> u8 {
        1 << self.number()
    }

    /// The module's name, as the documents write it.
    pub const fn name(self) -> &'static str {
        match self {
            Module::Mcs => "MCS",
            Module::Comm1 => "COMM1",
            Module::Comm2 => "COMM2",
            Module::Adcs => "ADCS",
            Module::Payload => "PAYLOAD",
            Module::I2c => "I2C",
            Module::Sband1 => "SBAND1",
            Module::Sband2 => "SBAND2",
        }
    }
}

impl fmt::Display for Module {
    fn fmt(&self, f: &mut fmt::Formatter<'_>) -> fmt::Result {
        f.pad(self.name())
    }
}
