//! The command line: every command with what it is for and an example.

mod help;
mod time;

use clap::{Args, Parser, Subcommand, ValueEnum};
use ems::TEXT_BYTES;
use std::path::{Path, PathBuf};
use time::time;

/// What will the board do if this is sent to it, and why did it do that?
#[derive(Debug, Parser)]
#[command(name = "ems", version, after_help = help::MAIN)]
pub struct Line {
    #[command(subcommand)]
    pub command: Command,
}

#[derive(Debug, Subcommand)]
pub enum Command {
    /// What the board answers, a line a frame
    #[command(after_help = help::LOG)]
    Log(Log),
    /// Turns a pass script into the bytes of its frames
    #[command(after_help = help::FRAMES)]
    Frames(Frames),
    /// What comes of a pass that is handed to the board in one call
    #[command(after_help = help::UPLINK)]
    Uplink(Uplink),
    /// Turns bytes back into a pass script, damaged ones too
    #[command(after_help = help::SHOW)]
    Show(Show),
    /// Draws the flight as an SVG picture
    #[command(after_help = help::PLOT)]
    Plot(Plot),
    /// Each module's seconds on, off and failed, and its share on
    #[command(after_help = help::BOOKS)]
    Books(Books),
    /// The beacon's text that falls due at or after the flight's end
    #[command(after_help = help::BEACON)]
    Beacon(Beacon),
    /// Keys a text in Morse, as sound or as units
    #[command(after_help = help::KEY)]
    Key(Key),
    /// Reads units back to the text that they are the keying of
    #[command(after_help = help::READ)]
    Read(Read),
    /// The room and the time that keying needs at most, before the text is known
    #[command(after_help = help::ROOM)]
    Room(Room),
    /// Two craft side by side: where they differ, and whether the stronger keeps up
    #[command(after_help = help::COMPARE)]
    Compare(Compare),
    /// A board's image in words: what a caller keeps over a reset
    #[command(after_help = help::IMAGE)]
    Image(Image),
    /// The panel tracker on a panel's curve: where the set point goes, and stays
    #[command(after_help = help::TRACK)]
    Track(Track),
}

/// A flight: what is sent to a board from the fresh start on.
#[derive(Args, Debug)]
pub struct Flight {
    /// A pass script (*.pass), a file of frames, or `-` for frames from standard input
    pub file: PathBuf,
    /// Takes the file for this, whatever its name
    #[arg(long = "as", value_name = "WHAT")]
    pub kind: Option<As>,
}

/// What a file holds.
#[derive(Clone, Copy, Debug, PartialEq, Eq, ValueEnum)]
pub enum As {
    Script,
    Bytes,
}

impl As {
    /// What a file of this name holds.
    pub fn of(path: &Path) -> As {
        match path.extension() {
            Some(ending) if ending.eq_ignore_ascii_case("pass") => As::Script,
            _ => As::Bytes,
        }
    }
}

#[derive(Args, Debug)]
pub struct Log {
    #[command(flatten)]
    pub flight: Flight,
    /// In words, with ticks in which nothing happens taken together
    #[arg(long)]
    pub explain: bool,
    /// As bytes, each frame (>) with its report (<), the same ones in a row taken together
    #[arg(long, conflicts_with = "explain")]
    pub hex: bool,
    /// With --explain: flies on after a frame that is refused with 6 or 7
    #[arg(long, requires = "explain", conflicts_with = "hex")]
    pub keep_going: bool,
}

/// For the commands that may go on after a refusal.
#[derive(Args, Debug)]
pub struct KeepGoing {
    /// Flies on after a frame that is refused with 6 or 7
    #[arg(long)]
    pub keep_going: bool,
}

/// For the commands that may begin elsewhere than at the fresh start.
#[derive(Args, Debug)]
pub struct Begin {
    /// The board begins with this image, instead of the fresh start's
    #[arg(long, value_name = "FILE", conflicts_with = "after")]
    pub image: Option<PathBuf>,
    /// The board begins as it is after this flight
    #[arg(long, value_name = "FLIGHT")]
    pub after: Option<PathBuf>,
}

#[derive(Args, Debug)]
pub struct Frames {
    /// The pass script
    pub script: PathBuf,
    /// Where the bytes go; `-` is standard output
    #[arg(short, long, value_name = "FILE")]
    pub output: PathBuf,
}

#[derive(Args, Debug)]
pub struct Uplink {
    #[command(flatten)]
    pub flight: Flight,
    /// The bytes of room that the reports have [default: enough for every frame's]
    #[arg(long, value_name = "BYTES")]
    pub room: Option<usize>,
    #[command(flatten)]
    pub begin: Begin,
    /// Where the image goes that the board ends with
    #[arg(short, long, value_name = "FILE")]
    pub output: Option<PathBuf>,
}

#[derive(Args, Debug)]
pub struct Show {
    #[command(flatten)]
    pub flight: Flight,
}

#[derive(Args, Debug)]
pub struct Plot {
    #[command(flatten)]
    pub flight: Flight,
    /// Where the picture goes; `-` is standard output
    #[arg(short, long, value_name = "FILE")]
    pub output: PathBuf,
    /// The picture's title [default: the flight's file name]
    #[arg(long, value_name = "TEXT")]
    pub title: Option<String>,
    /// Where the picture begins: 01:30:00, 5400 or 90m (s, m, h, d)
    #[arg(long, value_name = "TIME", value_parser = time)]
    pub from: Option<u64>,
    /// Where the picture ends [default: with the flight]
    #[arg(long, value_name = "TIME", value_parser = time)]
    pub to: Option<u64>,
    #[command(flatten)]
    pub going: KeepGoing,
}

#[derive(Args, Debug)]
pub struct Books {
    #[command(flatten)]
    pub flight: Flight,
    #[command(flatten)]
    pub begin: Begin,
    /// Where the picture goes; `-` is standard output, and then nothing else goes there
    #[arg(short, long, value_name = "FILE")]
    pub output: Option<PathBuf>,
    /// The picture's title [default: the flight's file name]
    #[arg(long, value_name = "TEXT", requires = "output")]
    pub title: Option<String>,
    /// A row of CSV for each module, instead of words
    #[arg(long)]
    pub table: bool,
    #[command(flatten)]
    pub going: KeepGoing,
}

#[derive(Args, Debug)]
pub struct Beacon {
    #[command(flatten)]
    pub flight: Flight,
    /// Every beacon that falls due in the flight, with its time and kind
    #[arg(long)]
    pub all: bool,
    /// The extended beacon's text at the flight's end, due or not, if a greeting is kept
    #[arg(long, conflicts_with = "all")]
    pub extended: bool,
    #[command(flatten)]
    pub going: KeepGoing,
}

/// For the commands that go by how fast a text is keyed.
#[derive(Args, Debug)]
pub struct Speed {
    /// Words a minute, 1 to 100: a unit lasts 1,200 ms divided by it
    #[arg(long, default_value_t = 18, value_parser = clap::value_parser!(u32).range(1..=100))]
    pub wpm: u32,
}

#[derive(Args, Debug)]
pub struct Key {
    /// The text
    pub text: String,
    /// Where the sound (or the units) go; `-` is standard output
    #[arg(short, long, value_name = "FILE", required_unless_present = "units")]
    pub output: Option<PathBuf>,
    /// Units as text instead of sound: 1 key down, 0 key up
    #[arg(long)]
    pub units: bool,
    #[command(flatten)]
    pub speed: Speed,
    /// The tone in hertz, 50 to 10,000
    #[arg(long, value_name = "HZ", default_value_t = 700,
          value_parser = clap::value_parser!(u32).range(50..=10_000))]
    pub tone: u32,
}

#[derive(Args, Debug)]
pub struct Read {
    /// Units as text, 1 key down and 0 key up; `-` is standard input
    pub file: PathBuf,
}

#[derive(Args, Debug)]
pub struct Room {
    /// How many characters the text has, 1 to 64 [default: those of the board's own texts]
    #[arg(value_parser = clap::value_parser!(u8).range(1..=TEXT_BYTES as i64))]
    pub characters: Vec<u8>,
    #[command(flatten)]
    pub speed: Speed,
}

#[derive(Args, Debug)]
pub struct Compare {
    /// The craft with the weaker battery
    pub a: PathBuf,
    /// The same flight with battery readings as high or higher
    pub b: PathBuf,
    /// Takes both files for this, whatever their names
    #[arg(long = "as", value_name = "WHAT")]
    pub kind: Option<As>,
    #[command(flatten)]
    pub going: KeepGoing,
}

#[derive(Args, Debug)]
pub struct Image {
    /// The image; `-` is standard input
    #[arg(required_unless_present = "after")]
    pub file: Option<PathBuf>,
    /// The bytes are written in hex, with blanks and line ends between or not
    #[arg(long, requires = "file")]
    pub hex: bool,
    /// The image of a board after this flight, instead of a file's
    #[arg(long, value_name = "FLIGHT", conflicts_with = "file")]
    pub after: Option<PathBuf>,
    /// Takes the flight for this, whatever its name
    #[arg(long = "as", value_name = "WHAT", requires = "after")]
    pub kind: Option<As>,
    /// Flies on after a frame that is refused with 6 or 7
    #[arg(long, requires = "after")]
    pub keep_going: bool,
}

#[derive(Args, Debug)]
pub struct Track {
    /// The panel's curve, rows of millivolts and milliamperes; `-` is standard input
    pub curve: PathBuf,
    /// The set point before the first call, in millivolts
    #[arg(long, value_name = "MV")]
    pub start: u32,
    /// The step of the first call in millivolts: with a minus it goes down
    #[arg(
        long,
        value_name = "MV",
        default_value_t = 100,
        allow_negative_numbers = true
    )]
    pub step: i32,
    /// How many calls are made, 1 to 1,000,000
    #[arg(long, value_name = "N", default_value_t = 200,
          value_parser = clap::value_parser!(u32).range(1..=1_000_000))]
    pub calls: u32,
    /// Where the picture goes; `-` is standard output, and then nothing else goes there
    #[arg(short, long, value_name = "FILE")]
    pub output: Option<PathBuf>,
    /// The picture's title [default: the curve's file name]
    #[arg(long, value_name = "TEXT", requires = "output")]
    pub title: Option<String>,
    /// A row of CSV for the start and for each call, instead of words
    #[arg(long)]
    pub table: bool,
}
