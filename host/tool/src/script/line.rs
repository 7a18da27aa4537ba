//! One line of a script.

use super::expected::Expected;
use super::fields::{decimal, value};
use super::quoted;
use super::reader::{Reader, Wrong};
use super::Line;
use crate::tables::{Field, Kind, Written, KINDS};

/// What a line sends, if it isn't empty or a comment.
pub fn parse(number: usize, text: &str) -> Result<Option<Line>, Wrong<'_>> {
    let mut reader = Reader::new(number, text);
    if reader.peek().is_none() {
        return Ok(None);
    }
    let (bytes, times, end) = if reader.peek().is_some_and(|word| same(word, RAW)) {
        (raw(&mut reader)?, 1, Expected::End(None))
    } else {
        let ahead = reader.clone();
        let kind = reader.take(|word| kind_named(word, &ahead), Expected::Frame)?;
        let (bytes, times) = frame(&mut reader, kind)?;
        (bytes, times, Expected::End(other_word(kind)))
    };
    if reader.peek().is_some() {
        return Err(reader.wrong(end));
    }
    Ok(Some(Line {
        number,
        bytes,
        times,
    }))
}

/// What a line of bytes begins with.
pub const RAW: &str = "raw";

/// Capitals or not, it is the same word.
fn same(word: &str, name: &str) -> bool {
    word.eq_ignore_ascii_case(name)
}

/// The kind that a word begins a line of; of two, the one whose own word is ahead.
fn kind_named(word: &str, ahead: &Reader) -> Option<&'static Kind> {
    let is_ahead = |own: &str| ahead.has(|word| same(word, own));
    let named = KINDS.iter().filter(|kind| same(word, kind.word));
    named
        .filter(|kind| kind.told_by.is_none_or(is_ahead))
        .max_by_key(|kind| kind.told_by.is_some())
}

/// The word that would make another kind of a line.
fn other_word(kind: &Kind) -> Option<&'static str> {
    let mut alike = KINDS.iter().filter(|other| other.word == kind.word);
    alike
        .find_map(|other| other.told_by)
        .filter(|_| kind.told_by.is_none())
}

/// The bytes of a kind's frame, and how often it is sent.
fn frame<'a>(reader: &mut Reader<'a>, kind: &'static Kind) -> Result<(Vec<u8>, u32), Wrong<'a>> {
    let numeric = |word: &str| word.starts_with(|c: char| c.is_ascii_digit());
    let counted = kind.repeats && reader.peek().is_some_and(numeric);
    let times = match counted {
        true => reader.take(how_often, Expected::Times)?,
        false => 1,
    };
    let mut bytes = vec![kind.byte];
    for field in kind.fields {
        if field.written == Written::Quoted {
            bytes.extend(text(reader, field)?);
            continue;
        }
        let by_name = field.written == Written::Modules;
        let given = if by_name && reader.peek().is_none() {
            0
        } else {
            if by_name {
                let times = kind.repeats && !counted;
                let is_name = |word: &str| same(word, field.name).then_some(());
                reader.take(is_name, Expected::Name { field, times })?;
            }
            reader.take(|word| value(field, word), Expected::Value(field))?
        };
        bytes.extend(&given.to_be_bytes()[8 - field.bytes..]);
    }
    Ok((bytes, times))
}

/// The bytes of a field that is written as a text.
fn text<'a>(reader: &mut Reader<'a>, field: &'static Field) -> Result<Vec<u8>, Wrong<'a>> {
    match quoted::bytes(field, reader.peek().unwrap_or_default()) {
        Ok(bytes) => {
            reader.skip();
            Ok(bytes)
        }
        Err(why) => Err(reader.wrong(Expected::Quoted { field, why })),
    }
}

/// A number of times, from 1.
fn how_often(word: &str) -> Option<u32> {
    let times = decimal(word, u64::from(u32::MAX))?;
    u32::try_from(times).ok().filter(|&times| times > 0)
}

/// The bytes of a `raw` line.
fn raw<'a>(reader: &mut Reader<'a>) -> Result<Vec<u8>, Wrong<'a>> {
    reader.skip();
    let mut bytes = Vec::new();
    while bytes.is_empty() || reader.peek().is_some() {
        bytes.push(reader.take(byte, Expected::Byte)?);
    }
    Ok(bytes)
}

fn byte(word: &str) -> Option<u8> {
    let digits = word.len() == 2 && word.bytes().all(|byte| byte.is_ascii_hexdigit());
    u8::from_str_radix(word, 16).ok().filter(|_| digits)
}
