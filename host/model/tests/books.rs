//! Seconds in the books: what is counted, what is refused and in which order, on either
//! side of each number; and the shares on.

use model::books::{MOST_SECONDS, NUMBERS};
use model::image::{self, at};
use model::state::{Mode, Power};
use model::{calls, State};

const MOST: u64 = MOST_SECONDS;

const ON: Power = Power::On {
    tries: 5,
    seconds: 0,
};

/// A second, with MCS shorted.
const TICK: [u8; 2] = [0x01, 0x01];

/// A board in SAFE whose MCS is on, COMM1 off and not requested, COMM2 failed, and so on.
fn board() -> State {
    let mut state = State::fresh();
    (state.mode, state.tension) = (Mode::Safe, 8_000);
    for (number, module) in state.modules.iter_mut().enumerate() {
        module.power = [ON, Power::Off(2), Power::Failed(9)][number % 3];
        module.requested = number % 3 != 1;
    }
    state.gather_masks();
    state
}

/// What a call leaves: its answer, and whether image, room and books are as they were.
fn taken(state: &State, frame: &[u8], books: &mut [u64]) -> (u8, [bool; 3]) {
    let before = (image::save(state), [7; 11], books.to_vec());
    let (mut image, mut room) = (before.0, before.1);
    let answer = calls::step_books(&mut image, frame, &mut room, books);
    let kept = [image == before.0, room == before.1, books == before.2];
    (answer, kept)
}

/// Books of zeros, but for one number.
fn with(place: usize, number: u64) -> [u64; NUMBERS] {
    let mut books = [0; NUMBERS];
    books[place] = number;
    books
}

#[test]
fn a_tick_counts_each_module_as_it_is_found_after_it() {
    let mut books = [100; NUMBERS];
    assert_eq!(taken(&board(), &TICK, &mut books), (0, [false; 3]));
    let mut wanted = [100; NUMBERS];
    // MCS shorts and is off then; ADCS and SBAND1 stay on; the others stay as they are.
    for number in [1, 4, 8, 9, 13, 17, 18, 22] {
        wanted[number] += 1;
    }
    assert_eq!(books, wanted);
}

#[test]
fn a_tick_in_deploy_wait_counts_all_as_they_are() {
    let mut books = [0; NUMBERS];
    assert_eq!(taken(&State::fresh(), &TICK, &mut books).0, 0);
    for (place, number) in books.into_iter().enumerate() {
        assert_eq!(number, u64::from(place % 3 == 1), "{place}");
    }
    let mut state = board();
    (state.mode, state.control) = (Mode::Waiting(7), 0);
    let mut books = [0; NUMBERS];
    assert_eq!(taken(&state, &TICK, &mut books).0, 0);
    let counted: Vec<usize> = (0..NUMBERS).filter(|place| books[*place] == 1).collect();
    assert_eq!(counted, [0, 4, 8, 9, 13, 17, 18, 22]);
}

/// A reading, the antennas, orders that are done, late and too early, thresholds.
#[test]
fn no_other_frame_touches_the_books() {
    let early = State {
        mode: Mode::Recovery,
        ..board()
    };
    for (state, frame, answer) in [
        (board(), &[0x02, 0x1F, 0x40][..], 0),
        (board(), &[0x03, 1], 0),
        (board(), &[0x04, 1, 0, 1, 0, 0], 0),
        (board(), &[0x04, 1, 0, 0, 0, 0], 8),
        (board(), &[0x04, 1, 0xFF, 0xFF, 0, 0], 9),
        (early, &[0x04, 1, 0, 1, 4, 1], 10),
        (board(), &[0x05, 1, 0, 1, 0x1C, 0xE8, 0x1B, 0x58], 0),
        (board(), &[0x06, 1, 0, 1, 4, 0, 1], 0),
    ] {
        for number in [0, MOST] {
            let mut books = [number; NUMBERS];
            let (given, [_, room, books]) = taken(&state, frame, &mut books);
            assert_eq!((given, room, books), (answer, false, true), "{frame:02X?}");
        }
    }
}

/// The frames that get no report, by their answers.
const REFUSED: [(&[u8], u8); 5] = [
    (&[], 3),
    (&[0x08], 4),
    (&[0x01], 5),
    (&[0x02, 0x13, 0x87], 6),
    (&[0x04, 2, 0, 1, 3, 1], 7),
];

#[test]
fn a_number_above_the_most_goes_between_6_and_7() {
    let early = State {
        mode: Mode::Recovery,
        ..board()
    };
    for place in 0..NUMBERS {
        for number in [MOST + 1, u64::MAX] {
            let refused = |state: &State, frame: &[u8]| {
                let (answer, kept) = taken(state, frame, &mut with(place, number));
                assert_eq!(kept, [true; 3], "{place} {frame:02X?}");
                answer
            };
            for (frame, answer) in REFUSED {
                let wanted = if answer == 7 { 17 } else { answer };
                assert_eq!(refused(&board(), frame), wanted);
            }
            // A tick, a reading, a repeat, a stale order, one that comes too early.
            assert_eq!(refused(&board(), &TICK), 17);
            assert_eq!(refused(&board(), &[0x02, 0x1F, 0x40]), 17);
            assert_eq!(refused(&board(), &[0x04, 1, 0, 0, 0, 0]), 17);
            assert_eq!(refused(&board(), &[0x04, 1, 0xFF, 0xFF, 0, 0]), 17);
            assert_eq!(refused(&early, &[0x04, 1, 0, 1, 4, 1]), 17);
        }
    }
}

/// Only the numbers that this tick would raise are looked at.
#[test]
fn a_tick_is_refused_where_it_would_take_a_number_above_the_most() {
    let raised = [1, 4, 8, 9, 13, 17, 18, 22];
    for place in 0..NUMBERS {
        for (number, full) in [(MOST - 1, false), (MOST, true)] {
            let mut books = with(place, number);
            let (answer, kept) = taken(&board(), &TICK, &mut books);
            let wanted = match full && raised.contains(&place) {
                true => (17, [true; 3]),
                false => (0, [false; 3]),
            };
            assert_eq!((answer, kept), wanted, "{place} {number}");
        }
    }
}

#[test]
fn other_than_24_numbers_go_before_all() {
    let bad = [0xFF; image::BYTES];
    for lent in (0..=30).chain([48]) {
        for number in [0, MOST + 1] {
            let wanted = |answer| if lent == NUMBERS { answer } else { 18 };
            let mut books = vec![number; lent];
            let (mut image, mut room) = (bad, [7; 11]);
            let answer = calls::step_books(&mut image, &TICK, &mut room, &mut books);
            assert_eq!(answer, wanted(1), "{lent}");
            assert_eq!((image, room), (bad, [7; 11]));
            assert_eq!(books, vec![number; lent]);
            for (frame, answer) in &REFUSED[..4] {
                let (given, kept) = taken(&board(), frame, &mut books);
                assert_eq!((given, kept), (wanted(*answer), [true; 3]), "{lent}");
            }
        }
    }
}

#[test]
fn a_room_that_is_too_short_goes_before_the_limit() {
    for number in [0, MOST + 1] {
        let mut image = image::save(&board());
        let mut books = [number; NUMBERS];
        let answer = calls::step_books(&mut image, &TICK, &mut [7; 10], &mut books);
        assert_eq!((answer, books), (2, [number; NUMBERS]));
        assert_eq!(image, image::save(&board()));
    }
}

/// 17 uses up no serial: the order is done once the books are begun anew.
#[test]
fn a_frame_that_is_refused_for_full_books_is_taken_later() {
    let order = [0x04, 1, 0, 9, 4, 0];
    let mut image = image::save(&board());
    let (mut room, mut books) = ([7; 11], with(5, MOST + 1));
    assert_eq!(
        calls::step_books(&mut image, &order, &mut room, &mut books),
        17
    );
    books.fill(0);
    assert_eq!(
        calls::step_books(&mut image, &order, &mut room, &mut books),
        0
    );
    assert_eq!(
        calls::step_books(&mut image, &order, &mut room, &mut books),
        8
    );
    assert_eq!(image[at::GROUND], 9);
}

/// The shares of books in which each module has the same three numbers.
fn share(three: [u64; 3]) -> u16 {
    let books = [three; 8].concat();
    let mut shares = [7; 9];
    assert_eq!(calls::summary(&books, &mut shares), 0, "{three:?}");
    assert_eq!(shares, [[shares[0]; 8].as_slice(), &[7]].concat()[..]);
    shares[0]
}

#[test]
fn a_share_is_rounded_down() {
    for (three, wanted) in [
        ([0, 0, 0], 0),
        ([1, 0, 0], 1_000),
        ([0, 1, 0], 0),
        ([0, 0, 1], 0),
        ([1, 1, 1], 333),
        ([2, 1, 0], 666),
        ([1, 999, 0], 1),
        ([1, 0, 1_000], 0),
        ([999, 0, 1], 999),
        ([1_000, 1, 0], 999),
        ([MOST, 0, 0], 1_000),
        ([MOST, 1, 0], 999),
        ([MOST, MOST, MOST], 333),
        ([1, MOST, MOST], 0),
        ([MOST - 1, MOST, 1], 499),
        ([MOST, MOST, 0], 500),
    ] {
        assert_eq!(share(three), wanted, "{three:?}");
    }
}

#[test]
fn each_module_has_its_own_share() {
    let mut books = [0; NUMBERS];
    for module in 0..8 {
        books[3 * module] = module as u64;
        books[3 * module + 1] = 4;
        books[3 * module + 2] = 1;
    }
    let mut shares = [0; 8];
    assert_eq!(calls::summary(&books, &mut shares), 0);
    assert_eq!(shares, [0, 166, 285, 375, 444, 500, 545, 583]);
}

#[test]
fn a_summary_that_is_refused_gives_zeros_as_far_as_there_are_shares() {
    let above = with(23, MOST + 1);
    for (books, answer) in [
        (&[0; 23][..], 18),
        (&[0; 25], 18),
        (&[], 18),
        (&[u64::MAX; 23], 18),
        (&above, 17),
        (&[u64::MAX; 24], 17),
    ] {
        for lent in 0..=10 {
            let mut shares = [7; 12];
            assert_eq!(calls::summary(books, &mut shares[..lent]), answer);
            let zeros = lent.min(8);
            assert_eq!(shares[..zeros], vec![0; zeros], "{lent}");
            assert_eq!(shares[zeros..], vec![7; 12 - zeros], "{lent}");
        }
    }
}

#[test]
fn fewer_than_eight_shares_are_no_room() {
    for lent in 0..8 {
        let mut shares = [7; 8];
        assert_eq!(calls::summary(&[MOST; NUMBERS], &mut shares[..lent]), 14);
        assert_eq!(shares, [7; 8]);
    }
}
