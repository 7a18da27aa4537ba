//! Frames in: checks 3 to 7.

use crate::message::Message;
use crate::table::{
    self, Kind, ANTENNAS, BATTERY, FROM_PAYLOAD, GREETING, MISSION, ORDER, PAYLOAD, THRESHOLDS,
    TICK, TIMED,
};

/// Who a frame comes from, and its serial.
#[derive(Clone, Copy, Debug, PartialEq, Eq)]
pub struct Sender {
    /// The ground or the payload.
    pub origin: u8,
    /// The frame's serial.
    pub serial: u16,
}

/// What a frame asks for.
#[derive(Clone, Copy, Debug, PartialEq, Eq)]
pub enum Body {
    /// A second has passed, with these shorts.
    Tick(u8),
    /// A reading of the tension.
    Battery(u16),
    /// The antennas' latest report.
    Antennas(bool),
    /// A module's request.
    Order {
        /// The module's number.
        module: u8,
        /// Whether it is wanted on.
        on: bool,
    },
    /// Both thresholds.
    Thresholds {
        /// The upper one.
        ascend: u16,
        /// The lower one.
        descend: u16,
    },
    /// A module's request, on for some minutes.
    Timed {
        /// The module's number.
        module: u8,
        /// How long.
        minutes: u16,
    },
    /// A message for the beacon.
    Greeting(Message),
}

/// A frame that has passed checks 3 to 7.
#[derive(Clone, Copy, Debug, PartialEq, Eq)]
pub struct Frame {
    /// Its first byte.
    pub kind: u8,
    /// Its sender; none where no serial is carried.
    pub sender: Option<Sender>,
    /// What it asks for.
    pub body: Body,
}

/// Reads a frame, or gives the first refusal that applies.
pub fn read(input: &[u8]) -> Result<Frame, u8> {
    let kind_byte = *input.first().ok_or(3)?;
    let kind = table::kind(kind_byte).ok_or(4)?;
    if input.len() != kind.total {
        return Err(5);
    }
    let (values, text) = fields(kind, &input[1..]);
    let in_range = |(field, value): (&table::Field, &u16)| (field.low..=field.high).contains(value);
    if !kind.fields.iter().zip(&values).all(in_range) {
        return Err(6);
    }
    let frame = build(kind, &values, text).ok_or(4)?;
    match frame.body {
        Body::Thresholds { ascend, descend } if descend > ascend => return Err(6),
        Body::Timed { module, .. } if !MISSION.contains(&module) => return Err(6),
        Body::Greeting(message) if !message.in_range() => return Err(6),
        _ => {}
    }
    if frame
        .sender
        .is_some_and(|sender| sender.origin == FROM_PAYLOAD)
        && !for_payload(frame.body)
    {
        return Err(7);
    }
    Ok(frame)
}

/// The frame at the front of some bytes, by its kind, and the rest of them. One
/// that is cut off, or of unknown kind, is all that is left: it is refused.
pub fn cut(input: &[u8]) -> (&[u8], &[u8]) {
    let kind = input.first().and_then(|&byte| table::kind(byte));
    let total = kind.map_or(input.len(), |kind| kind.total);
    input.split_at(total.min(input.len()))
}

/// The numbers of a body, one for each field, and the text behind them.
fn fields<'a>(kind: &Kind, mut body: &'a [u8]) -> (Vec<u16>, &'a [u8]) {
    let mut values = Vec::new();
    for field in kind.fields {
        let (own, rest) = body.split_at(field.bytes);
        values.push(own.iter().fold(0, |n, &byte| 256 * n + u16::from(byte)));
        body = rest;
    }
    (values, body)
}

/// A frame of its fields' values and its text; none where the table has a row that
/// no rule speaks of yet.
fn build(kind: &Kind, values: &[u16], text: &[u8]) -> Option<Frame> {
    let byte = |value: u16| value.to_be_bytes()[1];
    let sender = |origin, serial| {
        let origin = byte(origin);
        Some(Sender { origin, serial })
    };
    let (sender, body) = match (kind.byte, values) {
        (TICK, &[shorts]) => (None, Body::Tick(byte(shorts))),
        (BATTERY, &[tension]) => (None, Body::Battery(tension)),
        (ANTENNAS, &[deployed]) => (None, Body::Antennas(deployed == 1)),
        (ORDER, &[origin, serial, module, wanted]) => {
            let module = byte(module);
            let on = wanted == 1;
            (sender(origin, serial), Body::Order { module, on })
        }
        (THRESHOLDS, &[origin, serial, ascend, descend]) => {
            let body = Body::Thresholds { ascend, descend };
            (sender(origin, serial), body)
        }
        (TIMED, &[origin, serial, module, minutes]) => {
            let module = byte(module);
            (sender(origin, serial), Body::Timed { module, minutes })
        }
        (GREETING, &[origin, serial, repeats, length]) => {
            let message = Message {
                repeats: byte(repeats),
                length: byte(length),
                bytes: text.try_into().ok()?,
            };
            (sender(origin, serial), Body::Greeting(message))
        }
        _ => return None,
    };
    Some(Frame {
        kind: kind.byte,
        sender,
        body,
    })
}

/// Whether the payload may ask for this.
fn for_payload(body: Body) -> bool {
    match body {
        Body::Order { module, .. } | Body::Timed { module, .. } => module == PAYLOAD,
        _ => false,
    }
}
