//! Keyers and readers that take the wrong signs, in ways that look right.

use differential::sides::Counted;
use model::calls;

/// What each does, and the call.
pub const KEYERS: [(&str, Counted); 6] = [
    (
        "keys a full stop as a comma, and a comma as a full stop",
        |text, units| calls::key(&turned(text, b'.', b','), units),
    ),
    ("keys no punctuation", |text, units| {
        calls::key(&with(text, b".,?/", b'~'), units)
    }),
    ("keys no slash", |text, units| {
        calls::key(&with(text, b"/", b'~'), units)
    }),
    ("keys `;` too", |text, units| {
        calls::key(&with(text, b";", b','), units)
    }),
    ("keys `!` too", |text, units| {
        calls::key(&with(text, b"!", b'?'), units)
    }),
    ("keys `-` as a slash", |text, units| {
        calls::key(&with(text, b"-", b'/'), units)
    }),
];

/// What each does with signs of the alphabet, and the call.
pub const READERS: [(&str, Counted); 3] = [
    (
        "reads a full stop as a comma, and a comma as a full stop",
        |units, text| {
            let (answer, count) = calls::read(units, text);
            let read = turned(&text[..count], b'.', b',');
            text[..count].copy_from_slice(&read);
            (answer, count)
        },
    ),
    ("reads no six marks", |units, text| {
        reads_none_of(units, text, b".,?")
    }),
    ("reads no slash", |units, text| {
        reads_none_of(units, text, b"/")
    }),
];

/// What each does with a sign that no byte has, and the call.
pub const GUESSERS: [(&str, Counted); 3] = [
    ("reads `;` too", |units, text| {
        reads_too(units, text, "-.-.-.", b';')
    }),
    ("reads six dots as five", |units, text| {
        reads_too(units, text, "......", b'5')
    }),
    ("reads seven marks by the last six", |units, text| {
        reads_too(units, text, "-.-.-.-", b'.')
    }),
];

/// A text with two bytes in each other's place.
fn turned(text: &[u8], one: u8, other: u8) -> Vec<u8> {
    let turn = |byte: &u8| match *byte {
        byte if byte == one => other,
        byte if byte == other => one,
        byte => byte,
    };
    text.iter().map(turn).collect()
}

/// A text with another byte in place of some.
fn with(text: &[u8], some: &[u8], another: u8) -> Vec<u8> {
    let put = |byte: &u8| if some.contains(byte) { another } else { *byte };
    text.iter().map(put).collect()
}

/// Refuses units of a text that has one of some bytes.
fn reads_none_of(units: &[u8], text: &mut [u8], some: &[u8]) -> (u8, usize) {
    let heard = model::morse::read(units);
    if heard.is_ok_and(|text| text.iter().any(|byte| some.contains(byte))) {
        return (15, 0);
    }
    calls::read(units, text)
}

/// Takes a sign that no byte has, by itself, for a byte's.
fn reads_too(units: &[u8], text: &mut [u8], sign: &str, byte: u8) -> (u8, usize) {
    let mark = |mark: &u8| if *mark == b'-' { vec![1; 3] } else { vec![1] };
    let marks: Vec<Vec<u8>> = sign.as_bytes().iter().map(mark).collect();
    if units != marks.join(&0) || text.is_empty() {
        return calls::read(units, text);
    }
    text[0] = byte;
    (0, 1)
}
