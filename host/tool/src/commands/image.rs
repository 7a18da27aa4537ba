//! `ems image`: a board's image in words.

use crate::args;
use crate::board::Board;
use crate::failure::{Failure, USAGE};
use crate::flight::Flight;
use crate::image::{fields, Field, Image, BYTES, LAYOUT};
use crate::output::Output;
use crate::source;
use crate::words::{count, hex, visible};
use ems::Craft;
use std::io::{self, Write};
use std::path::Path;

/// Bytes on a line.
const ROW: usize = 4;

pub fn run(args: &args::Image) -> Result<(), Failure> {
    match (&args.file, &args.after) {
        (Some(file), _) => read(file, args.hex),
        (None, Some(flight)) => after(flight, args),
        (None, None) => Err(Failure::usage("an image or --after is missing")),
    }
}

/// The image in a file; it may be none.
fn read(file: &Path, is_hex: bool) -> Result<(), Failure> {
    let (name, content) = source::whole(file)?;
    let bytes = match is_hex {
        true => unhexed(&name, &content)?,
        false => content,
    };
    let image = Image::maybe(&bytes).ok_or_else(|| other_length(&name, &bytes))?;
    let board = saved(&name, &image);
    let mut output = Output::standard()?;
    print(&mut output, &image)?;
    if let Ok(board) = &board {
        count_on(&mut output, board)?;
    }
    output.flush()?;
    board.map(|_| ())
}

/// The board that an image in a file was saved from.
pub fn board(file: &Path) -> Result<Board, Failure> {
    let (name, bytes) = source::whole(file)?;
    let image = Image::maybe(&bytes).ok_or_else(|| other_length(&name, &bytes))?;
    saved(&name, &image)
}

/// The board that an image was saved from.
fn saved(name: &str, image: &Image) -> Result<Board, Failure> {
    let craft = Craft::from_image(image.whole());
    craft.map(Board::of).ok_or_else(|| no_state(name, image))
}

/// Why an image is no state's: all that is wrong with it.
fn no_state(name: &str, image: &Image) -> Failure {
    let wrong = |(field, why): &(Field, String)| {
        let (field, shown) = (field.name, image.shown(field));
        format!("{name}: no state has this image: {field} is {shown}, {why}")
    };
    Failure {
        status: USAGE,
        messages: image.faults().iter().map(wrong).collect(),
    }
}

/// The image of a board after a flight.
fn after(file: &Path, args: &args::Image) -> Result<(), Failure> {
    let (file, kind) = (file.to_path_buf(), args.kind);
    let mut flight = Flight::going(&args::Flight { file, kind }, args.keep_going)?;
    while flight.step()?.is_some() {}
    let mut output = Output::standard()?;
    print(&mut output, &flight.board.image())?;
    count_on(&mut output, &flight.board)?;
    output.flush()?;
    flight.end()
}

/// Every field: where it begins, its bytes, its name, and what it says. A long one's
/// bytes go on in lines of their own.
fn print(output: &mut Output, image: &Image) -> io::Result<()> {
    writeln!(output, "at  bytes        field          says")?;
    for field in fields() {
        let strange = || format!("{}, which no state has", image.shown(&field));
        let said = image.says(&field).unwrap_or_else(strange);
        let mut about = format!(" {:14} {said}", field.name);
        for (row, bytes) in image.bytes(&field).chunks(ROW).enumerate() {
            let (at, bytes) = (field.at + ROW * row, hex(bytes));
            let line = format!("{at:>2}  {bytes:12}{about}");
            writeln!(output, "{}", line.trim_end())?;
            about.clear();
        }
    }
    Ok(())
}

/// How many modules are on, as the board counts them.
fn count_on(output: &mut Output, board: &Board) -> io::Result<()> {
    let on = count(board.modules_on() as u64, "module");
    writeln!(output, "\nThe board has {on} on.")
}

/// The bytes that a text has in hexadecimal digits, with blanks between or none.
fn unhexed(name: &str, text: &[u8]) -> Result<Vec<u8>, Failure> {
    let digits = text.iter().filter(|byte| !byte.is_ascii_whitespace());
    let digits: Vec<u8> = digits.copied().collect();
    let value = |digit: &u8| char::from(*digit).to_digit(16);
    if let Some(at) = digits.iter().position(|digit| value(digit).is_none()) {
        let found = String::from_utf8_lossy(&digits[at..digits.len().min(at + 1)]).into_owned();
        let message = format!("{name}: `{}` is no hexadecimal digit", visible(&found));
        return Err(Failure::usage(message));
    }
    let pairs = digits.chunks(2).map(|pair| {
        let pair = pair.iter().filter_map(value);
        pair.fold(0, |byte, digit| 16 * byte + digit as u8)
    });
    match digits.len() % 2 {
        0 => Ok(pairs.collect()),
        _ => Err(Failure::usage(format!(
            "{name}: the last byte has one digit"
        ))),
    }
}

/// Bytes that are too few or too many; and what they may be.
fn other_length(name: &str, bytes: &[u8]) -> Failure {
    let length = count(bytes.len() as u64, "byte");
    let message = format!("{name} has {length}, and an image of version {LAYOUT} has {BYTES}");
    let is_text = |byte: &u8| byte.is_ascii_hexdigit() || byte.is_ascii_whitespace();
    let like_hex = !bytes.is_empty() && bytes.iter().all(is_text);
    let hint = like_hex.then_some("; it looks like hex: `--hex` reads it so");
    Failure::usage(message + hint.unwrap_or_default())
}
