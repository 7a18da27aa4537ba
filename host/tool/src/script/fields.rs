//! A frame's fields as words of a script, and back.

use super::quoted;
use crate::tables::{kind_of, Field, Kind, Written};
use crate::words;
use ems::Module;

/// The value of a field's word; a text has none.
pub fn value(field: &Field, word: &str) -> Option<u64> {
    match field.written {
        Written::Number => decimal(word, field.greatest()),
        Written::Within(least, greatest) => {
            decimal(word, greatest).filter(|&number| number >= least)
        }
        Written::Word(_) => word.eq_ignore_ascii_case(field.name).then_some(0),
        Written::Named(names) => {
            let named = names.iter().find(|row| row.1.eq_ignore_ascii_case(word));
            named.map_or_else(
                || decimal(word, field.greatest()),
                |&(number, _)| Some(u64::from(number)),
            )
        }
        Written::Modules => word.split(',').try_fold(0, |mask, name| {
            let mut all = Module::ALL.into_iter();
            let module = all.find(|module| module.name().eq_ignore_ascii_case(name))?;
            Some(mask | u64::from(module.bit()))
        }),
        Written::Quoted => None,
    }
}

/// A number in digits only, up to a greatest one.
pub fn decimal(word: &str, greatest: u64) -> Option<u64> {
    let digits = !word.is_empty() && word.bytes().all(|byte| byte.is_ascii_digit());
    let number = word.parse().ok().filter(|_| digits)?;
    (number <= greatest).then_some(number)
}

/// A frame as a line of a script, without what says how often: in words if there
/// are words for it, else as bytes.
pub fn in_words(frame: &[u8]) -> String {
    match kind_of(frame[0]).filter(|kind| has_words(kind, frame)) {
        Some(kind) => {
            let words = words_of(kind, frame);
            let words = words.into_iter().map(|(_, word)| format!(" {word}"));
            kind.word.to_string() + &words.collect::<String>()
        }
        None => format!("raw {}", words::hex(frame)),
    }
}

/// Whether a line of words sends this frame: it is whole, its numbers are within
/// what may be written, and its text can be.
fn has_words(kind: &Kind, frame: &[u8]) -> bool {
    let fits = |(field, bytes): (&Field, &[u8])| match field.written {
        Written::Within(least, greatest) => (least..=greatest).contains(&number(bytes)),
        Written::Quoted => quoted::word(bytes).is_some(),
        _ => true,
    };
    kind.total() == frame.len() && parts(kind, frame).all(fits)
}

/// The word for one field of a frame; nothing where there is none.
pub fn word_of(frame: &[u8], name: &str) -> String {
    let words = kind_of(frame[0]).map(|kind| words_of(kind, frame));
    let mut words = words.into_iter().flatten();
    let found = words.find(|(field, _)| *field == name);
    found.map(|(_, word)| word).unwrap_or_default()
}

/// The names and words of a frame's fields, but for those that are left out.
fn words_of(kind: &Kind, frame: &[u8]) -> Vec<(&'static str, String)> {
    let words = parts(kind, frame)
        .filter_map(|(field, bytes)| word(field, bytes).map(|word| (field.name, word)));
    words.collect()
}

/// A frame's fields with their bytes.
fn parts<'a>(kind: &Kind, frame: &'a [u8]) -> impl Iterator<Item = (&'static Field, &'a [u8])> {
    let mut rest = &frame[1..];
    kind.fields.iter().map(move |field| {
        let (bytes, after) = rest.split_at(field.bytes.min(rest.len()));
        rest = after;
        (field, bytes)
    })
}

/// The number that a field's bytes are.
fn number(bytes: &[u8]) -> u64 {
    let digits = bytes.iter();
    digits.fold(0, |value, &byte| value << 8 | u64::from(byte))
}

/// A field as it is written; nothing where it is left out.
fn word(field: &Field, bytes: &[u8]) -> Option<String> {
    match field.written {
        Written::Number | Written::Within(..) => Some(number(bytes).to_string()),
        Written::Word(_) => Some(field.name.to_string()),
        Written::Named(names) => {
            let value = number(bytes);
            let named = names.iter().find(|row| u64::from(row.0) == value);
            Some(named.map_or_else(|| value.to_string(), |&(_, name)| name.to_string()))
        }
        Written::Modules => {
            let mask = number(bytes) as u8;
            let names = words::modules(mask).join(",");
            (mask != 0).then(|| format!("{} {names}", field.name))
        }
        Written::Quoted => quoted::word(bytes),
    }
}
