//! The room that is set aside for a text's units before the text is known: the model's,
//! and what the library fills with zeros.

use ems::{answer, key, units_for, TEXT_BYTES, UNITS_BYTES};

#[test]
fn the_room_is_the_model_s() {
    assert_eq!(TEXT_BYTES, model::morse::TEXT_BYTES);
    for characters in 0..=TEXT_BYTES {
        let most = model::morse::most_units(characters);
        assert_eq!(units_for(characters), most, "{characters}");
    }
}

#[test]
fn zeros_take_all_of_it_and_do_with_nothing_less() {
    for characters in 0..=TEXT_BYTES {
        let zeros = vec![b'0'; characters];
        let mut room = vec![0; units_for(characters)];
        let keyed = key(&zeros, &mut room);
        assert_eq!(keyed, (answer::DONE, room.len()), "{characters}");
        if let Some((_, less)) = room.split_last_mut() {
            let refused = key(&zeros, less);
            assert_eq!(refused, (answer::NO_ROOM, 0), "{characters}");
        }
    }
}

#[test]
fn a_length_that_no_text_has_gets_no_less() {
    let last = usize::MAX / 22;
    for characters in [TEXT_BYTES + 1, last, last + 1, usize::MAX] {
        assert!(units_for(characters) > UNITS_BYTES, "{characters}");
    }
}
