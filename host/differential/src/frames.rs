//! Frames from a seed: by the rules and at their edges, damaged, and noise.

use crate::messages;
use crate::rng::Rng;
use crate::shrink::Shot;
use model::message;
use model::report;
use model::state::Last;
use model::table::{self, Field, Kind, KINDS};
use model::State;

/// How the frames of a stream are made.
#[derive(Clone, Copy, PartialEq, Eq)]
pub enum Maker {
    /// By the table, ticks mostly, fields in range mostly.
    Structured,
    /// The same with bytes changed, dropped, added, or frames run together.
    Mutated,
    /// A kind and a length that are right, and any body.
    ByKind,
    /// Any bytes.
    Noise,
}

/// What a stream keeps from one frame to the next, so that it gets somewhere.
pub struct Stream {
    maker: Maker,
    last: Last,
    shorts: u8,
}

impl Stream {
    /// A new stream.
    pub fn new(maker: Maker) -> Stream {
        Stream {
            maker,
            last: State::fresh().last,
            shorts: 0,
        }
    }

    /// A stream for a board with these last serials, so that its orders are fresh.
    pub fn after(self, last: Last) -> Stream {
        Stream { last, ..self }
    }

    /// The next frame, with its reply room.
    pub fn next(&mut self, rng: &mut Rng) -> Shot {
        let frame = match self.maker {
            Maker::Structured => self.structured(rng),
            Maker::Mutated => self.mutated(rng),
            Maker::ByKind => {
                let kind = rng.one(&KINDS);
                let mut frame = rng.bytes(kind.total);
                frame[0] = kind.byte;
                frame
            }
            Maker::Noise => {
                let length = rng.below(26);
                rng.bytes(length)
            }
        };
        let room = match rng.below(20) {
            0 => rng.below(13),
            1 => rng.below(60),
            _ => report::BYTES,
        };
        (frame, room as u8)
    }

    fn structured(&mut self, rng: &mut Rng) -> Vec<u8> {
        let often = match rng.below(8) {
            0 => None,
            1 => table::kind(rng.pick(&[table::ORDER, table::TIMED, table::GREETING])),
            _ => table::kind(table::TICK),
        };
        let kind = often.unwrap_or_else(|| rng.one(&KINDS));
        self.of_kind(rng, kind)
    }

    /// A frame by the table.
    pub fn of_kind(&mut self, rng: &mut Rng, kind: &Kind) -> Vec<u8> {
        let mut frame = vec![kind.byte];
        for field in kind.fields {
            let value = match field.name {
                "shorts" => self.shorts(rng),
                "serial" => self.serial(rng, frame[1]),
                // Few enough that the flight sees the end.
                "minutes" if rng.once_in(2) => rng.between(1, 3),
                "repeats" if rng.once_in(2) => rng.between(0, 3),
                _ => value(rng, field),
            };
            frame.extend(&value.to_be_bytes()[2 - field.bytes..]);
        }
        if kind.text > 0 {
            text(rng, &mut frame);
        }
        frame
    }

    /// Shorts that stay for a while, so that tries run out.
    fn shorts(&mut self, rng: &mut Rng) -> u16 {
        match rng.below(40) {
            0 => self.shorts = rng.byte(),
            1 => self.shorts = rng.byte() & rng.byte() & rng.byte(),
            2..=4 => self.shorts = 0,
            _ => {}
        }
        let glitch = if rng.once_in(30) { rng.byte() } else { 0 };
        u16::from(self.shorts ^ glitch)
    }

    /// A serial that is mostly the next of its origin.
    fn serial(&mut self, rng: &mut Rng, origin: u8) -> u16 {
        let distance = match rng.below(12) {
            0 => 0,
            1 => rng.between(32_766, 32_769),
            2 => rng.word(),
            3 => rng.between(2, 9),
            4 => 0_u16.wrapping_sub(rng.between(1, 9)),
            _ => 1,
        };
        let serial = self.last.of(origin).wrapping_add(distance);
        if distance < 32_768 {
            self.last.set(origin, serial);
        }
        serial
    }

    fn mutated(&mut self, rng: &mut Rng) -> Vec<u8> {
        let mut frame = self.structured(rng);
        for _ in 0..rng.below(3) {
            let place = rng.below(frame.len() + 1);
            match rng.below(6) {
                0 => frame.truncate(place),
                1 => frame.insert(place, rng.byte()),
                2 => frame.extend(self.structured(rng)),
                3 if place < frame.len() => frame[place] ^= 1 << rng.below(8),
                4 if place < frame.len() => {
                    frame[place] = rng.pick(&[0, 1, 2, 3, 7, 8, 0x81, 0xFF])
                }
                _ if place < frame.len() => frame[place] = rng.byte(),
                _ => {}
            }
        }
        frame
    }
}

/// A field's value: mostly in range, often at an end, sometimes outside.
fn value(rng: &mut Rng, field: &Field) -> u16 {
    let most = if field.bytes == 1 { 0xFF } else { u16::MAX };
    match rng.below(16) {
        0 => field.low,
        1 => field.high,
        2 => field.high.saturating_add(rng.between(0, 1)).min(most),
        3 => field.low.saturating_sub(rng.between(0, 1)),
        4 if rng.once_in(4) => rng.between(0, most),
        _ => rng.between(field.low, field.high),
    }
}

/// Puts a text behind the repeats and the length of a greeting: mostly one of that
/// length that can be keyed, with its filler; else one with something wrong.
fn text(rng: &mut Rng, frame: &mut Vec<u8>) {
    let said = frame.last().map_or(0, |&length| length.into());
    let length = message::BYTES.min(said);
    let mut message = messages::of_length(rng, 0, length);
    if rng.once_in(8) {
        let fault = rng.pick(&messages::faults(length));
        message = messages::with(rng, message, fault);
    }
    frame.extend(message.bytes);
}
