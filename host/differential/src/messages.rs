//! Messages from a seed: within their limits, at the limits' ends, and with one thing
//! wrong.

use crate::rng::Rng;
use crate::texts;
use model::message::{self, Message};

/// What can be wrong with a message.
#[derive(Clone, Copy, Debug, PartialEq, Eq, PartialOrd, Ord)]
pub enum Fault {
    /// A length beyond the last.
    Length,
    /// A byte of the text that is not of the alphabet, in this place.
    Byte(usize),
    /// A space first, last, or next to one that stands in the place before.
    Space(usize),
    /// A byte past the text that is not 0, in this place.
    Filler(usize),
}

/// A message within its limits; none, the shortest, the longest, and repeats at both
/// ends are as likely as all between.
pub fn good(rng: &mut Rng) -> Message {
    let any_length = rng.below(message::BYTES + 1);
    let length = rng.pick(&[0, 1, 2, message::BYTES - 1, message::BYTES, any_length]);
    let any = rng.byte();
    let repeats = rng.pick(&[0, 1, 2, u8::MAX, any]);
    of_length(rng, repeats, length)
}

/// A message within its limits, with these repeats and a text of so many bytes.
pub fn of_length(rng: &mut Rng, repeats: u8, length: usize) -> Message {
    let mut bytes = [0; message::BYTES];
    bytes[..length].copy_from_slice(&texts::of_length(rng, length));
    Message {
        repeats,
        length: length as u8,
        bytes,
    }
}

/// What stands of a message in a greeting, behind the serial.
pub fn body(message: &Message) -> Vec<u8> {
    let head = [message.repeats, message.length];
    [&head[..], &message.bytes].concat()
}

/// The faults that a message with a text of so many bytes can have.
pub fn faults(length: usize) -> Vec<Fault> {
    let text = (0..length).flat_map(|place| [Fault::Byte(place), Fault::Space(place)]);
    let filler = (length..message::BYTES).map(Fault::Filler);
    [Fault::Length]
        .into_iter()
        .chain(text)
        .chain(filler)
        .collect()
}

/// A message with one thing wrong, any that it can have.
pub fn bad(rng: &mut Rng) -> Message {
    let good = good(rng);
    let fault = rng.pick(&faults(good.length.into()));
    with(rng, good, fault)
}

/// A good message with a fault that it can have.
pub fn with(rng: &mut Rng, mut message: Message, fault: Fault) -> Message {
    let length = usize::from(message.length);
    match fault {
        Fault::Length => {
            let beyond = rng.between(message::BYTES as u16 + 1, 0xFF) as u8;
            message.length = rng.pick(&[message::BYTES as u8 + 1, beyond, u8::MAX]);
        }
        Fault::Byte(place) => message.bytes[place] = texts::beside(rng),
        Fault::Space(place) => texts::misplace_space(&mut message.bytes[..length], place),
        Fault::Filler(place) => {
            let any = rng.between(1, 0xFF) as u8;
            message.bytes[place] = rng.pick(&[1, b' ', b'E', any]);
        }
    }
    message
}
