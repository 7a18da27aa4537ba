//! A text in double quotes, as a field's bytes, and back.

use crate::tables::Field;
use crate::words::visible;

/// What a text stands between, and never has in it.
pub const QUOTE: char = '"';

/// Why a word is no text for a field.
#[derive(Clone, Copy, Debug, PartialEq, Eq)]
pub enum Unquoted {
    /// It begins with no quote.
    Unopened,
    /// It ends with none.
    Unclosed,
    /// It has so many bytes, which are more than the field has room for.
    TooLong(usize),
}

/// The bytes of a field that a word is the text of: its length, and the text as it
/// stands, filled up with zeros.
pub fn bytes(field: &Field, word: &str) -> Result<Vec<u8>, Unquoted> {
    let opened = word.strip_prefix(QUOTE).ok_or(Unquoted::Unopened)?;
    let text = opened.strip_suffix(QUOTE).ok_or(Unquoted::Unclosed)?;
    let length = u8::try_from(text.len()).ok();
    let length = length.filter(|_| text.len() <= field.longest());
    let mut bytes = vec![length.ok_or(Unquoted::TooLong(text.len()))?];
    bytes.extend(text.bytes());
    bytes.resize(field.bytes, 0);
    Ok(bytes)
}

/// The word for a field's bytes; none where no line of a script can have it.
pub fn word(bytes: &[u8]) -> Option<String> {
    let (&length, room) = bytes.split_first()?;
    let text = room.get(..usize::from(length))?;
    let filled = room[text.len()..].iter().all(|&byte| byte == 0);
    let text = std::str::from_utf8(text).ok().filter(|_| filled)?;
    let plain = visible(text) == text && !text.contains(QUOTE);
    plain.then(|| format!("{QUOTE}{text}{QUOTE}"))
}

#[cfg(test)]
mod tests {
    use super::*;
    use crate::tables::{kind_of, GREETING};

    /// The field of a greeting's text.
    fn field() -> &'static Field {
        let fields = kind_of(GREETING).map(|kind| kind.fields);
        fields.and_then(<[Field]>::last).expect("a greeting's text")
    }

    #[test]
    fn a_text_is_its_length_and_its_bytes_and_zeros() {
        let mut wanted = vec![13];
        wanted.extend(b"HELLO FROM 4B\0\0\0");
        let word = "\"HELLO FROM 4B\"";
        assert_eq!(bytes(field(), word), Ok(wanted.clone()));
        assert_eq!(super::word(&wanted).as_deref(), Some(word));
        assert_eq!(bytes(field(), "\"\""), Ok(vec![0; 17]));
        assert_eq!(super::word(&[0; 17]).as_deref(), Some("\"\""));
        assert_eq!(bytes(field(), "HELLO"), Err(Unquoted::Unopened));
        assert_eq!(bytes(field(), "\""), Err(Unquoted::Unclosed));
        assert_eq!(bytes(field(), "\"HELLO"), Err(Unquoted::Unclosed));
        let long = |length: usize| bytes(field(), &format!("\"{}\"", "A".repeat(length)));
        assert!(long(16).is_ok());
        for length in [17, 255, 256, 1_000] {
            assert_eq!(long(length), Err(Unquoted::TooLong(length)));
        }
    }

    /// Every byte in a text, past it, and as its length: what has a word is that
    /// word's bytes, and what moves a cursor or breaks a line has none.
    #[test]
    fn a_word_is_read_as_the_bytes_that_it_is_for() {
        let mut all = [0; 17];
        all[..6].copy_from_slice(b"\x05HELLO");
        for at in 0..all.len() {
            for byte in 0..=u8::MAX {
                let mut changed = all;
                changed[at] = byte;
                let word = super::word(&changed);
                let printable = (b' '..=b'~').contains(&byte) && byte != b'"';
                let spoken = match at {
                    0 => byte == 5,
                    1..=5 => printable,
                    _ => byte == 0,
                };
                // A length past the text has zeros in it.
                assert_eq!(word.is_some(), spoken, "{byte} at {at}");
                let again = word.map(|word| bytes(field(), &word));
                assert!(again.is_none_or(|again| again == Ok(changed.to_vec())));
            }
        }
        let accented = "\"ÉCOLE\"";
        let bytes = bytes(field(), accented).expect("it has room");
        assert_eq!(bytes[0], 6);
        assert_eq!(super::word(&bytes).as_deref(), Some(accented));
    }
}
