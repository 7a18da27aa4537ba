//! A stream of bytes cut into frames by kind, the way `step-log` cuts them. What
//! no kind tells the length of is one byte.

use crate::args::Flight;
use crate::failure::Failure;
use crate::progress::Progress;
use crate::source::{self, Place, Source};
use crate::tables::kind_of;

/// Frames, one after the other.
pub struct Stream {
    source: Source,
    progress: Progress,
    frame: Vec<u8>,
    place: Place,
}

/// A frame as it is sent: its number, from 1, where it begins, and its bytes.
pub struct Sent<'a> {
    pub n: u64,
    pub place: Place,
    pub frame: &'a [u8],
}

impl Stream {
    pub fn open(flight: &Flight) -> Result<Stream, Failure> {
        let source = source::open(flight)?;
        let progress = Progress::new(source.length);
        Ok(Stream {
            source,
            progress,
            frame: Vec::new(),
            place: Place::Byte(0),
        })
    }

    /// Cuts off the next frame; false if there is none.
    pub fn advance(&mut self) -> Result<bool, Failure> {
        self.frame.clear();
        let Some((kind, place)) = self.byte()? else {
            return Ok(false);
        };
        self.place = place;
        self.frame.push(kind);
        let total = kind_of(kind).map_or(1, |kind| kind.total());
        while self.frame.len() < total {
            match self.byte()? {
                Some((byte, _)) => self.frame.push(byte),
                None => break,
            }
        }
        self.progress.advance(self.frame.len());
        Ok(true)
    }

    /// The frame that was cut off last.
    pub fn frame(&self) -> &[u8] {
        &self.frame
    }

    /// That frame, as the one with a number.
    pub fn sent(&self, n: u64) -> Sent<'_> {
        let (place, frame) = (self.place, &self.frame);
        Sent { n, place, frame }
    }

    /// The file's name, as it was given.
    pub fn name(&self) -> &str {
        &self.source.name
    }

    /// What to try where the stream is no stream of frames, if it looks so.
    pub fn hint(&self) -> Option<String> {
        let name = self.name();
        let looks = self.source.looks_like_text;
        looks.then(|| format!("{name} looks like text: `--as script` takes it for a pass script"))
    }

    fn byte(&mut self) -> Result<Option<(u8, Place)>, Failure> {
        let next = self.source.bytes.next().transpose();
        next.map_err(|error| Failure::file(&self.source.name, &error))
    }
}
