//! The bound on keying room: zeros and commas need all of it, and no text needs more.

use model::morse::{key, most_units, SIGNS, TEXT_BYTES};

/// The units that a text needs, if it is keyed.
fn need(text: &[u8]) -> Option<usize> {
    key(text).ok().map(|units| units.len())
}

#[test]
fn zeros_and_commas_need_all_of_it() {
    for characters in 1..=TEXT_BYTES {
        for byte in [b'0', b','] {
            let text = vec![byte; characters];
            assert_eq!(need(&text), Some(22 * characters - 3), "{characters}");
            assert_eq!(need(&text), Some(most_units(characters)), "{characters}");
        }
    }
    assert_eq!(need(&[]), Some(most_units(0)));
}

#[test]
fn no_text_of_up_to_2_bytes_needs_more() {
    for first in 0..=u8::MAX {
        assert!(need(&[first]) <= Some(most_units(1)), "{first}");
        for second in 0..=u8::MAX {
            let text = [first, second];
            assert!(need(&text) <= Some(most_units(2)), "{text:?}");
        }
    }
}

/// A sign's units: 1 for a dot, 3 for a dash, 1 between any two.
fn length(sign: &str) -> usize {
    let dashes = sign.matches('-').count();
    sign.len() + 2 * dashes + sign.len() - 1
}

/// The most units of a text so far, by its last character.
struct Most {
    /// It is a sign.
    sign: usize,
    /// It is a space, whose gap is yet to come; no text begins with one.
    space: Option<usize>,
}

/// The most units of any text of so many characters, 1 or more, worked out from the table
/// of signs, character by character: no text is left out.
fn longest(characters: usize) -> usize {
    let signs = || SIGNS.iter().map(|(_, sign)| length(sign));
    let mut most = Most {
        sign: signs().max().unwrap_or_default(),
        space: None,
    };
    for _ in 1..characters {
        let gaps = [Some(most.sign + 3), most.space.map(|units| units + 7)];
        let before = gaps.into_iter().flatten();
        let behind = before.flat_map(|units| signs().map(move |sign| units + sign));
        most = Most {
            sign: behind.max().unwrap_or_default(),
            // Behind a space there is no other.
            space: Some(most.sign),
        };
    }
    // No text ends in a space.
    most.sign
}

#[test]
fn it_is_the_most_of_all_texts_of_each_length() {
    for characters in 1..=TEXT_BYTES {
        assert_eq!(longest(characters), most_units(characters), "{characters}");
    }
}

/// That the most is worked out as texts are keyed: all of up to 3 characters.
#[test]
fn the_longest_is_that_of_texts_which_are_keyed() {
    let bytes: Vec<u8> = SIGNS.iter().map(|(byte, _)| *byte).chain([b' ']).collect();
    let mut texts = vec![Vec::new()];
    for characters in 1..=3 {
        let more = |text: Vec<u8>| bytes.iter().map(move |byte| [&text[..], &[*byte]].concat());
        texts = texts.into_iter().flat_map(more).collect();
        let most = texts.iter().filter_map(|text| need(text)).max();
        assert_eq!(most, Some(longest(characters)), "{characters}");
    }
}
