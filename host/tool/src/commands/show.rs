//! `ems show`: bytes as a pass script with comments. It makes the same bytes
//! again, whatever they are.

use crate::args::Show;
use crate::board::Board;
use crate::failure::Failure;
use crate::output::Output;
use crate::refusal::reason;
use crate::report;
use crate::script;
use crate::source;
use crate::tables::{kind_of, loses_the_cut, Kind};
use ems::{Report, REPORT_BYTES, REPORT_KIND};
use std::io::{self, Write};

/// Where comments begin.
const MARGIN: usize = 40;

/// Bytes of unknown kinds that are shown on one line.
const ROW: usize = 12;

const LOST: &str =
    "# The board reads nothing after this. Where frames begin from here on is a guess.";

pub fn run(show: &Show) -> Result<(), Failure> {
    let bytes = bytes(show)?;
    let mut output = Output::standard()?;
    let (mut at, mut lost) = (0, false);
    while at < bytes.len() {
        let rest = &bytes[at..];
        let piece = &rest[..length(rest)];
        let times = repeats(rest, piece);
        let comment = about(piece);
        line(&mut output, piece, times, at, &comment)?;
        at += times * piece.len();
        if !lost && at < bytes.len() && is_lost_after(piece) {
            lost = true;
            writeln!(output, "{LOST}")?;
        }
    }
    Ok(output.flush()?)
}

/// The bytes to show: those that a script sends, if that is what the file holds.
fn bytes(show: &Show) -> Result<Vec<u8>, Failure> {
    let source = source::open(&show.flight)?;
    let name = source.name;
    if source.looks_like_text {
        return Err(Failure::usage(format!(
            "{name} looks like text: `--as script` shows what it sends as a pass script, \
             `--as bytes` takes it for frames"
        )));
    }
    let bytes: io::Result<Vec<u8>> = source.bytes.map(|byte| Ok(byte?.0)).collect();
    bytes.map_err(|error| Failure::file(&name, &error))
}

/// How many of the bytes belong together: a frame, a report, or what begins with
/// no known kind up to what does.
fn length(bytes: &[u8]) -> usize {
    let total = match bytes[0] {
        REPORT_KIND => REPORT_BYTES,
        byte => match kind_of(byte) {
            Some(kind) => kind.total(),
            None => {
                let known = |&byte: &u8| byte == REPORT_KIND || kind_of(byte).is_some();
                let unknown = bytes.iter().position(known).unwrap_or(bytes.len());
                unknown.min(ROW)
            }
        },
    };
    total.min(bytes.len())
}

/// How often a piece that can be repeated in a script comes in a row.
fn repeats(bytes: &[u8], piece: &[u8]) -> usize {
    let whole = |kind: &&Kind| kind.repeats && kind.total() == piece.len();
    if kind_of(piece[0]).filter(whole).is_none() {
        return 1;
    }
    let pieces = bytes.chunks(piece.len()).take(u32::MAX as usize);
    pieces.take_while(|next| *next == piece).count()
}

/// The board's word on a piece: whether it would refuse it, and for what. The
/// checks 3 to 7 look at nothing but the frame, so a fresh board knows.
fn refusal(piece: &[u8]) -> Option<u8> {
    Board::fresh().step(piece).outcome.err()
}

/// Whether nobody can tell where the next frame begins.
fn is_lost_after(piece: &[u8]) -> bool {
    refusal(piece).is_some_and(loses_the_cut) && Report::read(piece).is_none()
}

/// What a comment says of a piece.
fn about(piece: &[u8]) -> String {
    if let Some(report) = Report::read(piece) {
        return report::in_words(&report);
    }
    let refused = |refusal| format!("refused: {refusal}, {}", reason(piece, refusal));
    refusal(piece).map(refused).unwrap_or_default()
}

/// A line of the script: the piece, how often, where it begins, what about it.
fn line(
    output: &mut Output,
    piece: &[u8],
    times: usize,
    at: usize,
    comment: &str,
) -> io::Result<()> {
    let mut text = script::in_words(piece);
    if times > 1 {
        let name = text.find(' ').unwrap_or(text.len());
        text.insert_str(name, &format!(" {times}"));
    }
    let comment = format!("# {at:06X}  {comment}");
    text.push(' ');
    writeln!(output, "{text:MARGIN$}{}", comment.trim_end())
}
