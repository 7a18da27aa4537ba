//! The page's tables, each once: kinds of frames with their fields, modules. A
//! new kind or module is a new row here.

use crate::message;

/// A field of a frame's body: a big-endian number within a range.
pub struct Field {
    /// What the page calls it.
    pub name: &'static str,
    /// How many bytes it takes.
    pub bytes: usize,
    /// The least value that passes check 6.
    pub low: u16,
    /// The greatest value that passes check 6.
    pub high: u16,
}

/// A kind of frame.
pub struct Kind {
    /// The frame's first byte.
    pub byte: u8,
    /// What the page calls it.
    pub name: &'static str,
    /// The frame's length, kind included.
    pub total: usize,
    /// What follows the kind.
    pub fields: &'static [Field],
    /// The bytes of text that follow them.
    pub text: usize,
}

const fn field(name: &'static str, bytes: usize, low: u16, high: u16) -> Field {
    Field {
        name,
        bytes,
        low,
        high,
    }
}

/// The least tension and threshold, in millivolts.
pub const LOWEST: u16 = 5_000;
/// The greatest tension and threshold, in millivolts.
pub const HIGHEST: u16 = 9_000;

/// The origin of the ground, through MCS.
pub const FROM_GROUND: u8 = 1;
/// The origin of the payload.
pub const FROM_PAYLOAD: u8 = 2;

const ORIGIN: Field = field("origin", 1, FROM_GROUND as u16, FROM_PAYLOAD as u16);
const SERIAL: Field = field("serial", 2, 0, u16::MAX);

/// The kind that makes a second pass.
pub const TICK: u8 = 0x01;
/// The kind that brings a reading of the tension.
pub const BATTERY: u8 = 0x02;
/// The kind that brings the antennas' position.
pub const ANTENNAS: u8 = 0x03;
/// The kind that asks for a module, on or off.
pub const ORDER: u8 = 0x04;
/// The kind that sets both thresholds.
pub const THRESHOLDS: u8 = 0x05;
/// The kind that asks for a module of the mission four, on for some minutes.
pub const TIMED: u8 = 0x06;
/// The kind that brings a message for the beacon.
pub const GREETING: u8 = 0x07;
/// The kind of a report, which is only written.
pub const REPORT: u8 = 0x81;

/// The kinds that are read.
pub const KINDS: [Kind; 7] = [
    Kind {
        byte: TICK,
        name: "tick",
        total: 2,
        fields: &[field("shorts", 1, 0, 0xFF)],
        text: 0,
    },
    Kind {
        byte: BATTERY,
        name: "battery",
        total: 3,
        fields: &[field("tension", 2, LOWEST, HIGHEST)],
        text: 0,
    },
    Kind {
        byte: ANTENNAS,
        name: "antennas",
        total: 2,
        fields: &[field("deployed", 1, 0, 1)],
        text: 0,
    },
    Kind {
        byte: ORDER,
        name: "order",
        total: 6,
        fields: &[
            ORIGIN,
            SERIAL,
            field("module", 1, 0, MODULES.len() as u16 - 1),
            field("wanted", 1, 0, 1),
        ],
        text: 0,
    },
    Kind {
        byte: THRESHOLDS,
        name: "thresholds",
        total: 8,
        fields: &[
            ORIGIN,
            SERIAL,
            field("ascend", 2, LOWEST, HIGHEST),
            field("descend", 2, LOWEST, HIGHEST),
        ],
        text: 0,
    },
    Kind {
        byte: TIMED,
        name: "timed order",
        total: 7,
        fields: &[
            ORIGIN,
            SERIAL,
            // Of what lies between, one is of the core four: `frame::read` refuses it.
            field("module", 1, MISSION[0] as u16, MISSION[3] as u16),
            field("minutes", 2, 1, 1_440),
        ],
        text: 0,
    },
    Kind {
        byte: GREETING,
        name: "greeting",
        total: 22,
        fields: &[
            ORIGIN,
            SERIAL,
            field("repeats", 1, 0, 0xFF),
            field("length", 1, 0, message::BYTES as u16),
        ],
        text: message::BYTES,
    },
];

/// The kind with this first byte, if it is one that is read.
pub fn kind(byte: u8) -> Option<&'static Kind> {
    KINDS.iter().find(|kind| kind.byte == byte)
}

/// A module's place among the others.
pub struct ModuleRow {
    /// Its number: its place in the state, and its bit in a mask.
    pub number: u8,
    /// Its name in source document 001.
    pub name: &'static str,
    /// Whether it is of the core four; the others are the mission four.
    pub core: bool,
}

impl ModuleRow {
    /// The mask with its bit alone.
    pub fn bit(&self) -> u8 {
        1 << self.number
    }
}

const fn module(number: u8, name: &'static str, core: bool) -> ModuleRow {
    ModuleRow { number, name, core }
}

/// The modules by number.
pub const MODULES: [ModuleRow; 8] = [
    module(0, "MCS", true),
    module(1, "COMM1", true),
    module(2, "COMM2", true),
    module(3, "ADCS", false),
    module(PAYLOAD, "PAYLOAD", false),
    module(5, "I2C", true),
    module(6, "SBAND1", false),
    module(7, "SBAND2", false),
];

/// The mission four, whose requests can have an end.
pub const MISSION: [u8; 4] = [3, PAYLOAD, 6, 7];

/// The one module that the payload may order.
pub const PAYLOAD: u8 = 4;
