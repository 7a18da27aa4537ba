//! The layout of the image, as `include/ems.h` has it: a row for each field, and
//! what its number says. Every number has its low byte first.

use super::supply::Supply;
use crate::words::{count, thousands};
use ems::{Mode, Module, MESSAGE_BYTES};

/// The bytes of an image.
pub const BYTES: usize = 71;
/// The version of the layout: an image's first byte.
pub const LAYOUT: u32 = 6;

/// A field: its name, where it begins, its bytes, and what they say.
#[derive(Clone, Copy)]
pub struct Field {
    pub name: &'static str,
    pub at: usize,
    pub bytes: usize,
    pub says: Says,
}

/// What a field's bytes are.
#[derive(Clone, Copy)]
pub enum Says {
    /// A number.
    Number {
        /// What it says; none where no state has it.
        said: fn(u32) -> Option<String>,
        /// The numbers that states have.
        range: &'static str,
    },
    /// A text, as long as another field says, and zeros.
    Text,
    /// The modules whose bits are set.
    Mask,
}

pub const VERSION: Field = field("version", 0, 1, version, "6");
pub const MODE: Field = field("mode", 1, 3, mode, "0 to 87,301");
pub const CONTROL: Field = field("control", 4, 1, control, "0 to 29");
pub const BEACON: Field = field("beacon", 5, 2, beacon, "0 to 299");
pub const ANTENNAS: Field = field("antennas", 7, 1, antennas, "0 or 1");
pub const TENSION: Field = field("tension", 8, 2, tension, "0, or 5,000 to 9,000");
pub const ASCEND: Field = field("ascend", 10, 2, millivolts, "5,000 to 9,000");
pub const DESCEND: Field = field("descend", 12, 2, millivolts, "5,000 to 9,000");
pub const GROUND: Field = field("ground", 14, 2, serial, "any");
pub const PAYLOAD: Field = field("payload", 16, 2, serial, "any");
pub const REPEATS: Field = field("repeats", 18, 1, repeats, "any");
pub const LENGTH: Field = field("length", 19, 1, length, "0 to 16");
pub const TEXT: Field = Field {
    name: "message",
    at: 20,
    bytes: MESSAGE_BYTES,
    says: Says::Text,
};

/// The ends of the mission four.
const ENDS: [(Module, Field); 4] = [
    (Module::Adcs, end("ADCS's end", 36)),
    (Module::Payload, end("PAYLOAD's end", 40)),
    (Module::Sband1, end("SBAND1's end", 44)),
    (Module::Sband2, end("SBAND2's end", 48)),
];

pub const REQUESTED: Field = mask("requested mask", 52);
pub const ON: Field = mask("on mask", 53);
pub const FAILED: Field = mask("failed mask", 54);

/// The first of the modules; each next one follows the one before.
const MODULE: Field = field("", 55, 2, module, "0 to 846, nor so much and 32,768");

const fn field(
    name: &'static str,
    at: usize,
    bytes: usize,
    said: fn(u32) -> Option<String>,
    range: &'static str,
) -> Field {
    Field {
        name,
        at,
        bytes,
        says: Says::Number { said, range },
    }
}

const fn end(name: &'static str, at: usize) -> Field {
    field(name, at, 4, seconds_to_go, "0 to 86,400")
}

const fn mask(name: &'static str, at: usize) -> Field {
    Field {
        name,
        at,
        bytes: 1,
        says: Says::Mask,
    }
}

/// The fields before the ends.
const HEAD: [Field; 13] = [
    VERSION, MODE, CONTROL, BEACON, ANTENNAS, TENSION, ASCEND, DESCEND, GROUND, PAYLOAD, REPEATS,
    LENGTH, TEXT,
];

/// All fields, in their order.
pub fn fields() -> impl Iterator<Item = Field> {
    let ends = ENDS.map(|(_, field)| field);
    HEAD.into_iter()
        .chain(ends)
        .chain([REQUESTED, ON, FAILED])
        .chain(Module::ALL.map(of_module))
}

/// The field of a module's end; a core module has none.
pub fn of_end(module: Module) -> Option<Field> {
    let own = ENDS.into_iter().find(|(of, _)| *of == module);
    own.map(|(_, field)| field)
}

/// A module's field.
pub fn of_module(module: Module) -> Field {
    Field {
        name: module.name(),
        at: MODULE.at + MODULE.bytes * usize::from(module.number()),
        ..MODULE
    }
}

fn version(number: u32) -> Option<String> {
    (number == LAYOUT).then(|| LAYOUT.to_string())
}

fn mode(number: u32) -> Option<String> {
    Watch::of(number).map(Watch::said)
}

fn control(number: u32) -> Option<String> {
    (number < 30).then(|| format!("{number} of 30 seconds"))
}

fn beacon(number: u32) -> Option<String> {
    (number < 300).then(|| format!("{number} of 300 seconds"))
}

fn antennas(number: u32) -> Option<String> {
    match number {
        0 => Some("folded".to_string()),
        1 => Some("deployed".to_string()),
        _ => None,
    }
}

fn tension(number: u32) -> Option<String> {
    match number {
        0 => Some("no reading yet".to_string()),
        number => millivolts(number),
    }
}

fn millivolts(number: u32) -> Option<String> {
    let said = || format!("{} mV", thousands(u64::from(number)));
    (5_000..=9_000).contains(&number).then(said)
}

fn serial(number: u32) -> Option<String> {
    Some(format!("last number {number}"))
}

fn repeats(number: u32) -> Option<String> {
    Some(format!("{number} left"))
}

fn length(number: u32) -> Option<String> {
    let said = || count(u64::from(number), "character");
    (number as usize <= MESSAGE_BYTES).then(said)
}

fn seconds_to_go(number: u32) -> Option<String> {
    match number {
        0 => Some("none".to_string()),
        1..=86_400 => Some(format!("in {}", count(u64::from(number), "second"))),
        _ => None,
    }
}

fn module(number: u32) -> Option<String> {
    Supply::of(number).map(Supply::said)
}

/// The mode, and what a board in DEPLOY_WAIT does.
#[derive(Clone, Copy, Debug, PartialEq, Eq)]
pub enum Watch {
    /// For so many seconds, for the antennas.
    Waiting(u32),
    /// With so many seconds left.
    Settling(u32),
    Recovery,
    Safe,
}

impl Watch {
    /// What the mode's number says.
    pub fn of(number: u32) -> Option<Watch> {
        match number {
            0..=86_399 => Some(Watch::Waiting(number)),
            86_400..=87_299 => Some(Watch::Settling(number - 86_399)),
            87_300 => Some(Watch::Recovery),
            87_301 => Some(Watch::Safe),
            _ => None,
        }
    }

    fn said(self) -> String {
        let mode = self.mode();
        let seconds = |seconds: u32| count(u64::from(seconds), "second");
        match self {
            Watch::Waiting(waited) => {
                format!("{mode}, {} waited for the antennas", seconds(waited))
            }
            Watch::Settling(left) => format!("{mode}, settling, {} left", seconds(left)),
            Watch::Recovery | Watch::Safe => mode.to_string(),
        }
    }

    pub fn mode(self) -> Mode {
        match self {
            Watch::Waiting(_) | Watch::Settling(_) => Mode::DeployWait,
            Watch::Recovery => Mode::Recovery,
            Watch::Safe => Mode::Safe,
        }
    }
}
