//! The kinds of frames and their fields. A new kind is a new row.

use ems::{Module, MESSAGE_BYTES};

/// How a field is written in a pass script.
#[derive(Clone, Copy, Debug, PartialEq, Eq)]
pub enum Written {
    /// As a decimal number.
    Number,
    /// As a decimal number from the least to the greatest: a person has chosen it,
    /// and another one is a slip. What the board refuses is written as bytes.
    Within(u64, u64),
    /// By the name of its value; or as a number, so that a script can hold what
    /// the board refuses.
    Named(&'static [(u8, &'static str)]),
    /// As names of modules with commas between, after the field's own name; left
    /// out where no bit is set.
    Modules,
    /// As the field's own name: a word that stands for no byte, and an example of
    /// how it is used.
    Word(&'static str),
    /// As a text in double quotes. Its bytes are a length and the text, filled up with
    /// zeros.
    Quoted,
}

/// A field of a frame: a big-endian number, or a text with its length.
#[derive(Debug)]
pub struct Field {
    pub name: &'static str,
    pub bytes: usize,
    pub written: Written,
}

/// A kind of frame.
#[derive(Debug)]
pub struct Kind {
    /// The frame's first byte.
    pub byte: u8,
    /// What it is called.
    pub name: &'static str,
    /// What a line of a pass script begins with that sends it.
    pub word: &'static str,
    /// The word in it that tells it from another kind whose lines begin alike.
    pub told_by: Option<&'static str>,
    /// What follows the kind's byte.
    pub fields: &'static [Field],
    /// Whether a number after the name says how often it is sent.
    pub repeats: bool,
}

impl Field {
    /// The greatest number that its bytes hold.
    pub fn greatest(&self) -> u64 {
        (1 << (8 * self.bytes)) - 1
    }

    /// The most bytes that a text in it has, beside its length.
    pub fn longest(&self) -> usize {
        self.bytes - 1
    }
}

impl Kind {
    /// The frame's length, kind included.
    pub fn total(&self) -> usize {
        1 + self.fields.iter().map(|field| field.bytes).sum::<usize>()
    }

    /// Whether its frames have a sender and a number.
    pub fn is_numbered(&self) -> bool {
        self.fields.iter().any(|field| field.name == ORIGIN.name)
    }
}

const fn number(name: &'static str, bytes: usize) -> Field {
    let written = Written::Number;
    Field {
        name,
        bytes,
        written,
    }
}

const fn named(name: &'static str, names: &'static [(u8, &'static str)]) -> Field {
    let written = Written::Named(names);
    Field {
        name,
        bytes: 1,
        written,
    }
}

const fn modules(name: &'static str) -> Field {
    let written = Written::Modules;
    Field {
        name,
        bytes: 1,
        written,
    }
}

const fn word(name: &'static str) -> Field {
    let written = Written::Word("on for 20 min");
    Field {
        name,
        bytes: 0,
        written,
    }
}

const fn quoted(name: &'static str, longest: usize) -> Field {
    let written = Written::Quoted;
    Field {
        name,
        bytes: 1 + longest,
        written,
    }
}

/// Who sends orders.
const ORIGINS: [(u8, &str); 2] = [(1, "ground"), (2, "payload")];

const ORIGIN: Field = named("origin", &ORIGINS);
const SERIAL: Field = number("serial", 2);

/// The modules' numbers and names.
const MODULES: [(u8, &str); Module::ALL.len()] = names_of(u8::MAX);
/// Those of the mission four.
const MISSION: [(u8, &str); Module::MISSION.count_ones() as usize] = names_of(Module::MISSION);

/// The numbers and names of a mask's modules.
const fn names_of<const N: usize>(mask: u8) -> [(u8, &'static str); N] {
    let mut rows = [(0, ""); N];
    let (mut row, mut i) = (0, 0);
    while i < Module::ALL.len() {
        let module = Module::ALL[i];
        if mask & module.bit() != 0 {
            rows[row] = (module.number(), module.name());
            row += 1;
        }
        i += 1;
    }
    rows
}

const fn kind(byte: u8, name: &'static str, fields: &'static [Field]) -> Kind {
    let repeats = false;
    Kind {
        byte,
        name,
        word: name,
        told_by: None,
        fields,
        repeats,
    }
}

/// The kind that makes a second pass.
pub const TICK: u8 = 0x01;
/// The kind that brings a reading of the tension.
pub const BATTERY: u8 = 0x02;
/// The kind that brings the antennas' position.
const ANTENNAS: u8 = 0x03;
/// The kind that asks for a module, on or off.
pub const ORDER: u8 = 0x04;
/// The kind that sets both thresholds.
const THRESHOLDS: u8 = 0x05;
/// The kind that asks for a module to be on for some minutes.
pub const TIMED: u8 = 0x06;
/// The kind that brings a text for the beacon.
pub const GREETING: u8 = 0x07;

/// The minutes of a timed order.
const MINUTES: Field = Field {
    written: Written::Within(1, 1_440),
    ..number("minutes", 2)
};

/// The kinds that are read.
pub const KINDS: [Kind; 7] = [
    Kind {
        repeats: true,
        ..kind(TICK, "tick", &[modules("shorts")])
    },
    kind(BATTERY, "battery", &[number("millivolts", 2)]),
    kind(
        ANTENNAS,
        "antennas",
        &[named("position", &[(0, "folded"), (1, "deployed")])],
    ),
    kind(
        ORDER,
        "order",
        &[
            ORIGIN,
            SERIAL,
            named("module", &MODULES),
            named("wanted", &[(0, "off"), (1, "on")]),
        ],
    ),
    kind(
        THRESHOLDS,
        "thresholds",
        &[ORIGIN, SERIAL, number("ascend", 2), number("descend", 2)],
    ),
    Kind {
        word: "order",
        told_by: Some("for"),
        ..kind(
            TIMED,
            "timed order",
            &[
                ORIGIN,
                SERIAL,
                named("module", &MISSION),
                word("on"),
                word("for"),
                MINUTES,
                word("min"),
            ],
        )
    },
    Kind {
        word: "greet",
        ..kind(
            GREETING,
            "greeting",
            &[
                ORIGIN,
                SERIAL,
                number("repeats", 1),
                quoted("text", MESSAGE_BYTES),
            ],
        )
    },
];

/// The shorts of a frame that is a tick; none of any other.
pub fn shorts(frame: &[u8]) -> u8 {
    match frame {
        [TICK, mask] => *mask,
        _ => 0,
    }
}

/// The module that a frame orders, if it is a timed order for one.
pub fn timed(frame: &[u8]) -> Option<Module> {
    match frame {
        [TIMED, _, _, _, module, ..] => Module::of(*module),
        _ => None,
    }
}

/// The text that a frame would have the board keep, if it is a greeting that has room
/// for as much as it says.
pub fn greeted(frame: &[u8]) -> Option<&[u8]> {
    match frame {
        [GREETING, _, _, _, _, length, text @ ..] => text.get(..usize::from(*length)),
        _ => None,
    }
}

/// The numbers of those who send orders.
pub fn origins() -> impl Iterator<Item = u8> {
    ORIGINS.into_iter().map(|(number, _)| number)
}

/// The name of a sender, if there is one with this number.
pub fn origin(number: u8) -> Option<&'static str> {
    let named = ORIGINS.iter().find(|row| row.0 == number);
    named.map(|&(_, name)| name)
}

/// The kind with this first byte, if it is one that is read.
pub fn kind_of(byte: u8) -> Option<&'static Kind> {
    KINDS.iter().find(|kind| kind.byte == byte)
}
