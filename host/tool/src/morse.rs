//! Why a text isn't keyed or units aren't read, in words. What is keyed how is
//! asked of the library.

use crate::tables::meaning;
use crate::words::{count, list, thousands, visible};
use ems::{answer, TEXT_BYTES, UNITS_BYTES};

/// What is said of a text that is refused.
pub fn unkeyed(text: &str, refusal: u8) -> String {
    format!("the text is refused: {refusal}, {}", why(text, refusal))
}

/// Why bytes are no text that is keyed; nothing, if they are.
pub fn fault(text: &[u8]) -> Option<String> {
    let (given, _) = ems::key(text, &mut [0; UNITS_BYTES]);
    (given != answer::DONE).then(|| why(&String::from_utf8_lossy(text), given))
}

/// Why a text is refused: the limit, the alphabet or the place, where it is that.
fn why(text: &str, refusal: u8) -> String {
    let more = match refusal {
        answer::TEXT_TOO_LONG => {
            let bytes = count(text.len() as u64, "byte");
            format!(
                ": it has {bytes}, and {} is the most",
                thousands(TEXT_BYTES as u64)
            )
        }
        answer::NOT_KEYABLE => format!(": {}", stranger(text)),
        answer::BAD_SPACE => format!(": character {}", thousands(bad_space(text))),
        _ => String::new(),
    };
    meaning(refusal).to_string() + &more
}

/// The first character that can't be keyed, and those that can.
fn stranger(text: &str) -> String {
    let keyable = |c: &char| {
        let mut bytes = [0; 4];
        c.encode_utf8(&mut bytes).bytes().all(is_keyable)
    };
    let found = text.chars().zip(1..).find(|(c, _)| !keyable(c));
    let at = found.map(|(c, at)| {
        let c = visible(&c.to_string());
        format!("`{c}`, character {}; ", thousands(at))
    });
    at.unwrap_or_default() + "it has " + &alphabet()
}

/// Where the first space is that is first, last or doubled.
fn bad_space(text: &str) -> u64 {
    let keyed =
        |end: usize| ems::key(&text.as_bytes()[..end], &mut [0; UNITS_BYTES]).0 == answer::DONE;
    let spaces = text.bytes().enumerate().filter(|(_, byte)| *byte == b' ');
    let bad = spaces
        .map(|(at, _)| at)
        .find(|&at| at == 0 || at + 1 == text.len() || !keyed(at));
    bad.map_or(0, |at| at as u64 + 1)
}

/// Whether the library keys a byte, in a text where it may stand.
fn is_keyable(byte: u8) -> bool {
    ems::key(&[byte], &mut [0; UNITS_BYTES]).0 != answer::NOT_KEYABLE
}

/// The characters that are keyed: figures and letters, in a row as `A to Z`, then
/// the others one by one.
fn alphabet() -> String {
    let mut all: Vec<u8> = (0..=u8::MAX).filter(|&byte| is_keyable(byte)).collect();
    all.sort_by_key(|byte| !byte.is_ascii_alphanumeric());
    let rows = all.chunk_by(|a, b| a + 1 == *b && b.is_ascii_alphanumeric());
    let named: Vec<String> = rows.map(named).collect();
    list(&named)
}

/// Characters in a row.
fn named(row: &[u8]) -> String {
    match row {
        [b' '] => "the space".to_string(),
        [one] => format!("`{}`", char::from(*one)),
        [first, .., last] => format!("{} to {}", char::from(*first), char::from(*last)),
        [] => String::new(),
    }
}

/// Where units stop being a keying.
#[derive(Debug, PartialEq, Eq)]
pub enum Unread {
    /// After the last: they end too early.
    TooEarly,
    /// At this one, from 0: no keying goes on so.
    Wrong(usize),
    /// At this one, from 0: the text would be too long.
    TooLong(usize),
}

/// Looks where units leave what any text is keyed as: signs are put to a text,
/// one by one, as long as the text's keying is how the units begin.
pub fn unread(units: &[u8]) -> Unread {
    let mut text = Vec::new();
    let mut at = 0;
    loop {
        let longer = continuations(&text);
        let agree = |text: &Vec<u8>| agreement(&keying(text), units);
        at = longer.iter().map(agree).max().unwrap_or(0).max(at);
        // A sign may be how another one begins: the longest fits.
        let fitting = longer
            .into_iter()
            .filter(|text| units.starts_with(&keying(text)));
        match fitting.max_by_key(|text| keying(text).len()) {
            Some(longest) => text = longest,
            None => break,
        }
    }
    if at == units.len() {
        Unread::TooEarly
    } else if text.len() == TEXT_BYTES {
        Unread::TooLong(at)
    } else {
        Unread::Wrong(at)
    }
}

/// A text with one sign more, in the same word or in a new one.
fn continuations(text: &[u8]) -> Vec<Vec<u8>> {
    let signs = (0..=u8::MAX).filter(|&byte| byte != b' ' && is_keyable(byte));
    let in_both = signs.flat_map(|sign| [vec![sign], vec![b' ', sign]]);
    let longer = in_both.map(|end| [text, &end].concat());
    longer.filter(|text| !keying(text).is_empty()).collect()
}

/// A text's keying; empty for a text that isn't keyed.
fn keying(text: &[u8]) -> Vec<u8> {
    let mut room = [0; UNITS_BYTES];
    let (_, count) = ems::key(text, &mut room);
    room[..count].to_vec()
}

/// How many units two rows have in common at their begin.
fn agreement(a: &[u8], b: &[u8]) -> usize {
    a.iter().zip(b).take_while(|(a, b)| a == b).count()
}

#[cfg(test)]
mod tests {
    use super::*;

    #[test]
    fn the_alphabet_is_the_library_s() {
        let all = "0 to 9, A to Z, the space, `,`, `.`, `/` and `?`";
        assert_eq!(alphabet(), all);
    }

    #[test]
    fn the_first_wrong_unit_is_found() {
        let mut units = keying(b"EMS R 7000");
        assert_eq!(units.len(), 119);
        // Every unit turned around, and every begin: what is found is a unit that
        // no text has there.
        for wrong in 0..units.len() {
            units[wrong] ^= 1;
            let mut room = [0; TEXT_BYTES];
            if ems::read(&units, &mut room).0 != answer::DONE {
                let found = match unread(&units) {
                    Unread::Wrong(at) | Unread::TooLong(at) => at,
                    Unread::TooEarly => units.len(),
                };
                // At most a sign later.
                assert!((wrong..wrong + 22).contains(&found), "unit {wrong}");
            }
            units[wrong] ^= 1;
        }
        assert_eq!(unread(&units[..118]), Unread::TooEarly);
        assert_eq!(unread(&[1, 1]), Unread::TooEarly);
        assert_eq!(unread(&[1, 2]), Unread::Wrong(1));
        assert_eq!(unread(&[0]), Unread::Wrong(0));
        assert_eq!(unread(&[1, 1, 1, 1]), Unread::Wrong(3));
    }

    #[test]
    fn more_than_a_text_holds_is_said() {
        let mut units = keying(&[b'E'; TEXT_BYTES]);
        let length = units.len();
        units.extend([0, 0, 0, 1]);
        // Another last sign would have one more unit of these.
        assert_eq!(unread(&units), Unread::TooLong(length + 1));
    }
}
