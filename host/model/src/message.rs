//! The message that the extended beacon sends: what is kept of a greeting.

use crate::morse;

/// The bytes of a message's text, its filler included.
pub const BYTES: usize = 16;

/// A message, and how often it is still to be sent.
#[derive(Clone, Copy, Debug, PartialEq, Eq)]
pub struct Message {
    /// With how many more beacons it is sent.
    pub repeats: u8,
    /// How many of the bytes are its text.
    pub length: u8,
    /// The text, and the filler past it.
    pub bytes: [u8; BYTES],
}

impl Message {
    /// None: all zeros.
    pub const NONE: Message = Message {
        repeats: 0,
        length: 0,
        bytes: [0; BYTES],
    };

    /// Whether the length, the text and the filler are within their limits. Repeats
    /// have none.
    pub fn in_range(&self) -> bool {
        let parts = self.bytes.split_at_checked(self.length.into());
        parts.is_some_and(|(text, filler)| {
            morse::check(text).is_ok() && filler.iter().all(|&byte| byte == 0)
        })
    }

    /// What is kept of a greeting with this message: without a text, or with no
    /// beacon to send it with, it clears what was there.
    pub fn kept(self) -> Message {
        match (self.repeats, self.length) {
            (0, _) | (_, 0) => Message::NONE,
            _ => self,
        }
    }

    /// The text; none if there is no message.
    pub fn text(&self) -> Option<&[u8]> {
        let text = self.bytes.get(..self.length.into())?;
        (!text.is_empty()).then_some(text)
    }

    /// Takes one of the repeats for a beacon; whether there was one to take, and a
    /// text to send.
    pub fn sent(&mut self) -> bool {
        let due = self.text().is_some() && self.repeats > 0;
        if due {
            self.repeats -= 1;
        }
        due
    }
}
