//! Reports out.

use crate::frame::{Frame, Sender};
use crate::state::State;
use crate::table;

/// The bytes of a report.
pub const BYTES: usize = 11;

/// A report's fields, in the page's order.
#[derive(Clone, Copy, Debug, PartialEq, Eq)]
pub struct Report {
    /// The kind answered.
    pub kind: u8,
    /// Its origin, 0 where it has none.
    pub origin: u8,
    /// Its serial, 0 where it has none.
    pub serial: u16,
    /// The answer.
    pub answer: u8,
    /// The mode after the frame.
    pub mode: u8,
    /// The requested mask after the frame.
    pub requested: u8,
    /// The on mask after the frame.
    pub on: u8,
    /// The failed mask after the frame.
    pub failed: u8,
    /// The beacon that is due.
    pub beacon: u8,
}

impl Report {
    /// The report of a frame that has led to this state.
    pub fn of(state: &State, frame: &Frame, answer: u8, due: u8) -> Report {
        let nobody = Sender {
            origin: 0,
            serial: 0,
        };
        let sender = frame.sender.unwrap_or(nobody);
        Report {
            kind: frame.kind,
            origin: sender.origin,
            serial: sender.serial,
            answer,
            mode: state.mode.number(),
            requested: state.masks.requested,
            on: state.masks.on,
            failed: state.masks.failed,
            beacon: due,
        }
    }

    /// The report as a frame.
    pub fn bytes(&self) -> [u8; BYTES] {
        let [high, low] = self.serial.to_be_bytes();
        [
            table::REPORT,
            self.kind,
            self.origin,
            high,
            low,
            self.answer,
            self.mode,
            self.requested,
            self.on,
            self.failed,
            self.beacon,
        ]
    }

    /// The fields of a report's bytes; the first of them is not looked at.
    pub fn from_bytes(bytes: &[u8; BYTES]) -> Report {
        let [_, kind, origin, high, low, answer, mode, requested, on, failed, beacon] = *bytes;
        Report {
            kind,
            origin,
            serial: u16::from_be_bytes([high, low]),
            answer,
            mode,
            requested,
            on,
            failed,
            beacon,
        }
    }
}
