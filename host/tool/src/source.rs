//! Bytes from a script, a file or standard input, each with its place.

use crate::args::{As, Flight};
use crate::closed;
use crate::failure::Failure;
use crate::script::{Script, Sending};
use crate::words::{thousands, visible};
use std::fmt;
use std::fs::File;
use std::io::{self, BufRead, BufReader, Read};
use std::path::Path;

/// Where a byte comes from.
#[derive(Clone, Copy, Debug, PartialEq, Eq)]
pub enum Place {
    /// A line of a script, from 1.
    Line(usize),
    /// So many bytes from the start.
    Byte(u64),
}

impl fmt::Display for Place {
    fn fmt(&self, f: &mut fmt::Formatter<'_>) -> fmt::Result {
        match *self {
            Place::Line(line) => write!(f, "line {}", thousands(line as u64)),
            Place::Byte(byte) => write!(f, "byte {}", thousands(byte)),
        }
    }
}

/// Bytes with their places.
pub struct Source {
    /// The file's name, as it was given.
    pub name: String,
    /// How many bytes there are, if that is known.
    pub length: Option<u64>,
    pub bytes: Box<dyn Iterator<Item = io::Result<(u8, Place)>>>,
    /// Whether it looks like a text that nobody said is to be taken as bytes.
    pub looks_like_text: bool,
}

/// Opens a flight's file: a script by its ending, or as is said; `-` is standard
/// input.
pub fn open(flight: &Flight) -> Result<Source, Failure> {
    let opened = Opened::at(&flight.file)?;
    match flight.kind.unwrap_or_else(|| As::of(&flight.file)) {
        As::Script => opened.script(),
        As::Bytes => opened.bytes(flight.kind.is_none()),
    }
}

/// The whole content of a file.
pub fn whole(path: &Path) -> Result<(String, Vec<u8>), Failure> {
    Opened::at(path)?.whole()
}

/// A file that is being read.
struct Opened {
    name: String,
    file: Box<dyn Read>,
    /// How many bytes there are, if that is known.
    length: Option<u64>,
}

impl Opened {
    fn at(path: &Path) -> Result<Opened, Failure> {
        if path == Path::new("-") {
            return Opened::standard();
        }
        let name = visible(&path.to_string_lossy());
        let failed = |error: io::Error| Failure::file(&name, &error);
        let file = File::open(path).map_err(failed)?;
        let about = file.metadata().map_err(failed)?;
        if about.is_dir() {
            return Err(Failure::usage(format!("{name}: is a directory")));
        }
        let length = about.is_file().then_some(about.len());
        let file = Box::new(file);
        Ok(Opened { name, file, length })
    }

    fn standard() -> Result<Opened, Failure> {
        let name = "standard input".to_string();
        if closed::input() {
            return Err(Failure::usage(format!("{name}: is closed")));
        }
        Ok(Opened {
            name,
            file: Box::new(io::stdin()),
            length: None,
        })
    }

    fn whole(mut self) -> Result<(String, Vec<u8>), Failure> {
        let mut content = Vec::new();
        let read = self.file.read_to_end(&mut content);
        read.map_err(|error| Failure::file(&self.name, &error))?;
        Ok((self.name, content))
    }

    /// The frames that a script sends.
    fn script(self) -> Result<Source, Failure> {
        let (name, content) = self.whole()?;
        let script = Script::read(content).map_err(|mistakes| mistakes.failure(&name))?;
        let length = Some(script.length);
        let sent = Sending::new(script);
        Ok(Source {
            name,
            length,
            bytes: Box::new(sent.map(|(byte, line)| Ok((byte, Place::Line(line))))),
            looks_like_text: false,
        })
    }

    /// The bytes as they are; whether they look like text is asked where nobody
    /// has said that they are bytes.
    fn bytes(self, unsaid: bool) -> Result<Source, Failure> {
        let Opened { name, file, length } = self;
        let mut file = BufReader::new(file);
        let begin = file.fill_buf();
        let begin = begin.map_err(|error| Failure::file(&name, &error))?;
        let looks_like_text = unsaid && is_like_text(begin);
        let places = (0..).map(Place::Byte);
        let bytes = file.bytes().zip(places);
        Ok(Source {
            name,
            length,
            bytes: Box::new(bytes.map(|(byte, place)| Ok((byte?, place)))),
            looks_like_text,
        })
    }
}

/// Whether a begin of bytes looks like text: there are no control characters in
/// it but those of lines, and every frame begins with one.
fn is_like_text(begin: &[u8]) -> bool {
    let text = match std::str::from_utf8(begin) {
        Ok(text) => text,
        // The last character may be cut off.
        Err(error) if error.error_len().is_none() => {
            std::str::from_utf8(&begin[..error.valid_up_to()]).unwrap_or_default()
        }
        Err(_) => return false,
    };
    let of_lines = |c: char| matches!(c, '\t' | '\n' | '\r');
    let letters = text.chars().any(char::is_alphanumeric);
    letters && text.chars().all(|c| !c.is_control() || of_lines(c))
}

#[cfg(test)]
mod tests {
    use super::is_like_text;

    #[test]
    fn text_is_told_from_frames() {
        assert!(is_like_text(b"# a pass\r\n\ttick 3\n"));
        assert!(is_like_text("# \u{e9}".as_bytes()));
        assert!(is_like_text(&"tick # \u{706b}".as_bytes()[..9]));
        assert!(!is_like_text(b""));
        assert!(!is_like_text(b"\x01\x00"));
        assert!(!is_like_text(b"tick\x00"));
        assert!(!is_like_text(b"\x81tick"));
        assert!(!is_like_text(b"###"));
    }
}
