//! How far the texts get that are keyed in the room set aside for them. Those of every
//! length meet this room, a byte less and a byte more, and others, with every answer that
//! they can get there; and what they need, and a byte less. Among them are each character
//! alone, every number of spaces, and one thing wrong in every place.

mod common;

use differential::sides::{Calls, MODEL};
use model::morse::{self, SIGNS};
use std::cell::RefCell;
use std::collections::BTreeSet;

/// What a text can meet, or have.
#[derive(PartialEq, Eq, PartialOrd, Ord, Debug)]
enum Met {
    /// An answer in a room that is so much over the one set aside.
    Aside { over: isize, answer: u8 },
    /// An answer in a room that is so much over what it needs.
    Needed { over: isize, answer: u8 },
    /// This character alone.
    Alike(u8),
    /// So many spaces, among the longest signs alone or others too.
    Spaces { spaces: usize, longest: bool },
    /// A byte that is not of the alphabet, in this place.
    Byte(usize),
    /// A space in this place, where none may be.
    Space(usize),
}

thread_local! {
    /// With the length of the text.
    static MET: RefCell<BTreeSet<(usize, Met)>> = const { RefCell::new(BTreeSet::new()) };
}

/// How much a room is over another: 2 for all that is more, and as much below.
fn over(room: usize, other: usize) -> isize {
    (room as isize - other as isize).clamp(-2, 2)
}

/// What a text that can be keyed has.
fn of_good(text: &[u8]) -> Vec<Met> {
    let (spaces, signs): (Vec<u8>, Vec<u8>) = text.iter().partition(|byte| **byte == b' ');
    let mut met = vec![Met::Spaces {
        spaces: spaces.len(),
        longest: signs.iter().all(|byte| b"0,".contains(byte)),
    }];
    if text.windows(2).all(|two| two[0] == two[1]) {
        met.extend(text.first().copied().map(Met::Alike));
    }
    met
}

/// The spaces of a text that are first, last, or behind another.
fn of_bad_spaces(text: &[u8]) -> Vec<Met> {
    let bad = |place: &usize| {
        let behind = place.checked_sub(1).map(|before| text[before]);
        let last = place + 1 == text.len();
        text[*place] == b' ' && (last || behind.is_none_or(|byte| byte == b' '))
    };
    (0..text.len()).filter(bad).map(Met::Space).collect()
}

/// The model's keyer; notes what it is called with.
fn noted(text: &[u8], room: &mut [u8]) -> (u8, usize) {
    let (answer, count) = model::calls::key(text, room);
    let aside = morse::most_units(text.len().min(64));
    let over_aside = over(room.len(), aside);
    let mut met = match morse::key(text) {
        Ok(units) => {
            let over = over(room.len(), units.len());
            let mut met = of_good(text);
            met.push(Met::Needed { over, answer });
            met
        }
        Err(12) => {
            let wrong = |byte: &u8| *byte != b' ' && morse::check(&[*byte]).is_err();
            let place = text.iter().position(wrong);
            place.into_iter().map(Met::Byte).collect()
        }
        Err(13) => of_bad_spaces(text),
        Err(_) => Vec::new(),
    };
    met.push(Met::Aside {
        over: over_aside,
        answer,
    });
    let met = met.into_iter().map(|met| (text.len(), met));
    MET.with_borrow_mut(|all| all.extend(met));
    (answer, count)
}

/// What texts of so many characters have to meet, and to have.
fn wanted(characters: usize) -> Vec<Met> {
    let (short, enough) = ([-2, -1], [0, 1, 2]);
    let aside = |over, answer| Met::Aside { over, answer };
    match characters {
        0 => return enough.map(|over| aside(over, 0)).into(),
        65.. => return [-2, -1, 0, 1, 2].map(|over| aside(over, 11)).into(),
        _ => {}
    }
    let mut met = Vec::new();
    for answer in [0, 12, 13] {
        met.extend(short.map(|over| aside(over, answer)));
        met.extend(enough.map(|over| aside(over, answer)));
    }
    met.extend(short.map(|over| aside(over, 14)));
    met.extend([(-1, 14), (0, 0)].map(|(over, answer)| Met::Needed { over, answer }));
    met.extend(SIGNS.map(|(byte, _)| Met::Alike(byte)));
    for spaces in 0..=(characters - 1) / 2 {
        met.extend([false, true].map(|longest| Met::Spaces { spaces, longest }));
    }
    for place in 0..characters {
        met.extend([Met::Byte(place), Met::Space(place)]);
    }
    met
}

#[test]
fn texts_of_every_length_meet_it_all() {
    let noting = Calls {
        key: noted,
        ..MODEL
    };
    let group = "texts in the room set aside for them";
    common::run(group, &[noting, MODEL]).expect("no difference");
    let met = MET.take();
    for characters in 0..=70 {
        for wanted in wanted(characters) {
            let wanted = (characters, wanted);
            assert!(met.contains(&wanted), "not met: {wanted:?}");
        }
    }
}
