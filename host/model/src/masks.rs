//! The three masks that are kept beside the modules.

use crate::state::{Module, Power};
use crate::table::MODULES;

/// A bit for each module, in each mask.
#[derive(Clone, Copy, Debug, PartialEq, Eq)]
pub struct Masks {
    /// Those that are requested.
    pub requested: u8,
    /// Those that are on.
    pub on: u8,
    /// Those that have failed.
    pub failed: u8,
}

impl Masks {
    /// The masks that are true of some modules.
    pub fn of(modules: &[Module; 8]) -> Masks {
        Masks {
            requested: mask(modules, |module| module.requested),
            on: mask(modules, |module| matches!(module.power, Power::On { .. })),
            failed: mask(modules, |module| matches!(module.power, Power::Failed(_))),
        }
    }

    /// How many modules are on: the ones in the on mask.
    pub fn modules_on(&self) -> usize {
        self.on.count_ones() as usize
    }
}

/// The mask of the modules of which something holds.
fn mask(modules: &[Module; 8], holds: fn(&Module) -> bool) -> u8 {
    let rows = modules.iter().zip(&MODULES);
    rows.filter(|(module, _)| holds(module))
        .map(|(_, row)| row.bit())
        .sum()
}
