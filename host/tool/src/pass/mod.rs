//! A whole pass, as it is handed to the board in one call.

mod worked;

pub use worked::Worked;

use crate::args;
use crate::failure::Failure;
use crate::source::Place;
use crate::stream::{Sent, Stream};
use crate::tables::kind_of;
use crate::words::thousands;
use ems::REPORT_BYTES;

/// The most bytes that are taken for one pass: over three weeks of ticks.
const MOST: usize = 4_000_000;

/// Frames end to end.
pub struct Pass {
    /// The file's name, as it was given.
    pub name: String,
    pub bytes: Vec<u8>,
    /// Where the frames begin, in the bytes and in the file.
    begins: Vec<(usize, Place)>,
    /// Whether each of them has a kind that is read, and its length.
    whole: bool,
    /// What to try where it is no pass at all, if it looks so.
    pub hint: Option<String>,
}

impl Pass {
    pub fn collect(flight: &args::Flight) -> Result<Pass, Failure> {
        let mut stream = Stream::open(flight)?;
        let mut pass = Pass {
            name: stream.name().to_string(),
            bytes: Vec::new(),
            begins: Vec::new(),
            whole: true,
            hint: stream.hint(),
        };
        while stream.advance()? {
            let Sent { place, frame, .. } = stream.sent(0);
            let kind = kind_of(frame[0]);
            pass.whole &= kind.is_some_and(|kind| kind.total() == frame.len());
            pass.begins.push((pass.bytes.len(), place));
            pass.bytes.extend(frame);
            if pass.bytes.len() > MOST {
                let (name, most) = (pass.name, thousands(MOST as u64));
                let message = format!("{name} has over {most} bytes of frames: no pass is so long");
                return Err(Failure::usage(message));
            }
        }
        Ok(pass)
    }

    /// How many frames there are; none where nobody can tell.
    pub fn count(&self) -> Option<usize> {
        self.whole.then_some(self.begins.len())
    }

    /// Room enough for a report on each frame.
    pub fn room(&self) -> usize {
        REPORT_BYTES * self.begins.len()
    }

    /// The byte at which a frame begins, from 0.
    pub fn begin(&self, at: usize) -> usize {
        self.begins
            .get(at)
            .map_or(self.bytes.len(), |&(begin, _)| begin)
    }

    /// The frames, one after the other.
    pub fn frames(&self) -> impl Iterator<Item = Sent<'_>> + '_ {
        (0..self.begins.len()).filter_map(|at| self.sent(at))
    }

    /// A frame, from 0.
    pub fn sent(&self, at: usize) -> Option<Sent<'_>> {
        let &(begin, place) = self.begins.get(at)?;
        Some(Sent {
            n: at as u64 + 1,
            place,
            frame: &self.bytes[begin..self.begin(at + 1)],
        })
    }
}
