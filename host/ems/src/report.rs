//! What comes back from the board.

use crate::REPORT_BYTES;
use std::fmt;

/// The first byte of a report.
pub const REPORT_KIND: u8 = 0x81;

/// What a report says. The numbers are those of the bytes, also where a report
/// was damaged on its way: [`Mode::of`](crate::Mode::of), [`Beacon::of`] and
/// [`answer`](crate::answer) know the ones that a board sends, and
/// [`Module::in_mask`](crate::Module::in_mask) reads the masks.
#[derive(Clone, Copy, Debug, PartialEq, Eq)]
pub struct Report {
    /// The kind that is answered.
    pub kind: u8,
    /// The frame's origin; 0 where its kind has none.
    pub origin: u8,
    /// The frame's serial; 0 where its kind has none.
    pub serial: u16,
    /// The answer.
    pub answer: u8,
    /// The mode after the frame.
    pub mode: u8,
    /// The modules requested on after the frame, as a mask.
    pub requested: u8,
    /// The modules that are on after the frame, as a mask.
    pub on: u8,
    /// The modules that have failed after the frame, as a mask.
    pub failed: u8,
    /// The beacon that this tick makes due; 0 for none.
    pub beacon: u8,
}

impl Report {
    /// The report that these bytes are; none if they have another length or
    /// another first byte.
    pub fn read(bytes: &[u8]) -> Option<Report> {
        let bytes: &[u8; REPORT_BYTES] = bytes.try_into().ok()?;
        let [first, kind, origin, high, low, answer, mode, requested, on, failed, beacon] = *bytes;
        (first == REPORT_KIND).then_some(Report {
            kind,
            origin,
            serial: u16::from_be_bytes([high, low]),
            answer,
            mode,
            requested,
            on,
            failed,
            beacon,
        })
    }

    /// The bytes that are read as this report.
    pub fn bytes(&self) -> [u8; REPORT_BYTES] {
        let [high, low] = self.serial.to_be_bytes();
        [
            REPORT_KIND,
            self.kind,
            self.origin,
            high,
            low,
            self.answer,
            self.mode,
            self.requested,
            self.on,
            self.failed,
            self.beacon,
        ]
    }
}

/// A beacon that a tick makes due.
#[derive(Clone, Copy, Debug, PartialEq, Eq, PartialOrd, Ord, Hash)]
pub enum Beacon {
    /// 1: its text is [`Craft::beacon_basic`](crate::Craft::beacon_basic)'s.
    Basic = 1,
    /// 2: its text is [`Craft::beacon_complete`](crate::Craft::beacon_complete)'s.
    Complete = 2,
    /// 3: its text is [`Craft::beacon_extended`](crate::Craft::beacon_extended)'s.
    Extended = 3,
}

impl Beacon {
    /// All beacons, by number.
    pub const ALL: [Beacon; 3] = [Beacon::Basic, Beacon::Complete, Beacon::Extended];

    /// The beacon with a number, if there is one.
    pub fn of(number: u8) -> Option<Beacon> {
        let mut all = Beacon::ALL.into_iter();
        all.find(|beacon| beacon.number() == number)
    }

    /// The beacon's number in a report.
    pub const fn number(self) -> u8 {
        self as u8
    }

    /// What the beacon is called.
    pub const fn name(self) -> &'static str {
        match self {
            Beacon::Basic => "basic",
            Beacon::Complete => "complete",
            Beacon::Extended => "extended",
        }
    }
}

impl fmt::Display for Beacon {
    fn fmt(&self, f: &mut fmt::Formatter<'_>) -> fmt::Result {
        f.pad(self.name())
    }
}
