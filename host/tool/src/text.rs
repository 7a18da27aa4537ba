//! A file's content as text, or where it is none.

use crate::mistake::{Mistake, Mistakes, Wrong};
use std::fmt::Display;

/// A content as text, without the mark that some editors put first; or where it is
/// none. No text has a byte 0 in it, and every stream of ticks has.
pub fn text(content: Vec<u8>, expected: impl Display) -> Result<String, Mistakes> {
    let mut text = match String::from_utf8(content) {
        Ok(text) => text,
        Err(error) => {
            let from = error.utf8_error().valid_up_to();
            return Err(not_text(error.as_bytes(), from, expected));
        }
    };
    if let Some(from) = text.find('\0') {
        return Err(not_text(text.as_bytes(), from, expected));
    }
    if text.starts_with('\u{FEFF}') {
        text.remove(0);
    }
    Ok(text)
}

/// Bytes that are no text from a place on.
fn not_text(bytes: &[u8], from: usize, expected: impl Display) -> Mistakes {
    let before = String::from_utf8_lossy(&bytes[..from]);
    let last = before.rsplit('\n').next().unwrap_or_default();
    let mut mistakes = Mistakes::new();
    mistakes.add(|| {
        Mistake::of(&Wrong {
            line: 1 + before.matches('\n').count(),
            text: last,
            at: last.len(),
            word: Some(""),
            expected,
        })
    });
    mistakes
}
