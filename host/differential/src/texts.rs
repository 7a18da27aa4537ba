//! Texts and units from a seed.

use crate::rng::Rng;
use model::morse::TEXT_BYTES;

const SIGNS: &[u8] = b"ABCDEFGHIJKLMNOPQRSTUVWXYZ0123456789.,?/";

/// Those whose signs take most units.
const LONGEST: &[u8] = b"0,";

/// Bytes that are not of the alphabet: those beside one that is, two in lower case,
/// and `;`.
const BESIDE: &[u8] = b"+-:>@[az;";

/// A text of one word, of so many bytes.
pub fn word(rng: &mut Rng, length: usize) -> Vec<u8> {
    (0..length).map(|_| rng.pick(SIGNS)).collect()
}

/// A byte that is not of the alphabet.
pub fn beside(rng: &mut Rng) -> u8 {
    rng.pick(BESIDE)
}

/// A text that can be keyed, of up to 64 bytes.
pub fn good(rng: &mut Rng) -> Vec<u8> {
    let any_length = rng.below(65);
    let length = rng.pick(&[0, 1, 2, 3, 10, 16, 63, 64, any_length]);
    of_length(rng, length)
}

/// A text that can be keyed, of so many bytes.
pub fn of_length(rng: &mut Rng, length: usize) -> Vec<u8> {
    let mut text: Vec<u8> = Vec::new();
    while text.len() < length {
        let inner = text.last().is_some_and(|&b| b != b' ') && text.len() + 1 < length;
        let space = inner && rng.once_in(5);
        text.push(if space { b' ' } else { rng.pick(SIGNS) });
    }
    text
}

/// Any text of up to 70 bytes: good, with a few bytes wrong, too long, or noise.
pub fn any(rng: &mut Rng) -> Vec<u8> {
    let mut text = good(rng);
    match rng.below(6) {
        0 => {
            let length = rng.below(71);
            return rng.bytes(length);
        }
        1 => {
            let length = 60 + rng.below(11);
            text.resize(length, rng.pick(b"E0 e"));
        }
        2 | 3 if !text.is_empty() => {
            let place = rng.below(text.len());
            let any_byte = rng.byte();
            let beside = beside(rng);
            text[place] = rng.pick(&[b' ', beside, beside, any_byte]);
        }
        _ => {}
    }
    text
}

/// A text, and what keying it answers where there is room enough.
pub type Judged = (Vec<u8>, u8);

/// Texts of so many bytes, of every sort: one character alone; the longest signs, these
/// with a few others, and any, with spaces from none to every second place; and one thing
/// wrong, in every place.
pub fn of_every_sort(rng: &mut Rng, length: usize) -> Vec<Judged> {
    let alike = SIGNS.iter().map(|sign| vec![*sign; length]);
    let mut texts: Vec<Judged> = alike.map(|text| (text, 0)).collect();
    for spaces in 0..=length.saturating_sub(1) / 2 {
        let longest = spaced(rng, LONGEST, length, spaces);
        let others = with_others(rng, longest.clone());
        let any = spaced(rng, SIGNS, length, spaces);
        texts.extend([longest, others, any].map(|text| (text, 0)));
    }
    for place in 0..length {
        let mut wrong = of_length(rng, length);
        let (beside, above) = (beside(rng), rng.byte() | 0x80);
        wrong[place] = rng.pick(&[beside, above, 0]);
        let mut spaced = of_length(rng, length);
        misplace_space(&mut spaced, place);
        texts.extend([(wrong, 12), (spaced, 13)]);
    }
    if length > TEXT_BYTES {
        texts.iter_mut().for_each(|(_, answer)| *answer = 11);
    }
    texts
}

/// A text of some signs that can be keyed, of so many bytes, so many of them spaces, which
/// have to be fewer than the signs.
fn spaced(rng: &mut Rng, signs: &[u8], length: usize, mut spaces: usize) -> Vec<u8> {
    let mut text = Vec::new();
    for places in (0..length - spaces).rev() {
        text.push(rng.pick(signs));
        // So many places between two signs are left.
        if spaces > 0 && rng.below(places) < spaces {
            text.push(b' ');
            spaces -= 1;
        }
    }
    text
}

/// A text with other signs in up to three places.
fn with_others(rng: &mut Rng, mut text: Vec<u8>) -> Vec<u8> {
    for _ in 0..3 {
        let place = rng.below(text.len().max(1));
        if let Some(byte) = text.get_mut(place).filter(|byte| **byte != b' ') {
            *byte = rng.pick(SIGNS);
        }
    }
    text
}

/// Puts a space where none may be: first, last, or next to another.
pub fn misplace_space(text: &mut [u8], place: usize) {
    text[place] = b' ';
    if place > 0 && place + 1 < text.len() {
        text[place - 1] = b' ';
    }
}

/// The units of every sign of so many marks, whether a byte has it or not.
pub fn signs_of(marks: usize) -> impl Iterator<Item = Vec<u8>> {
    let units = move |dashes: usize| {
        let mark = |place| match dashes >> place & 1 {
            0 => vec![1],
            _ => vec![1; 3],
        };
        (0..marks).map(mark).collect::<Vec<_>>().join(&0)
    };
    (0..1 << marks).map(units)
}

/// Damages units in one place.
pub fn damage(rng: &mut Rng, units: &mut Vec<u8>) {
    let place = rng.below(units.len() + 1);
    match rng.below(5) {
        0 if place < units.len() => units[place] ^= 1,
        1 if place < units.len() => units[place] = rng.byte(),
        2 if place < units.len() => drop(units.remove(place)),
        3 => units.truncate(place),
        _ => units.insert(place, rng.pick(&[0, 1, 1, 0, 2])),
    }
}
