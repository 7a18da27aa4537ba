//! The wrapper's books: each argument goes to its own place, and comes back.

use ems::{answer, calls, summary, Craft, Module, BOOKS_NUMBERS, MOST_SECONDS, REPORT_BYTES};

/// A second without shorts.
const TICK: [u8; 2] = [0x01, 0];

/// A craft in RECOVERY whose core four are on.
fn in_recovery() -> Craft {
    let mut craft = Craft::fresh();
    craft.report_on(&[0x03, 1]).expect("a report");
    for _ in 0..902 {
        craft.report_on(&TICK).expect("a report");
    }
    craft
}

/// A craft, a room and books, as a call leaves them; and its answer.
fn taken(craft: &Craft, frame: &[u8], books: &[u64]) -> (u8, Craft, [u8; REPORT_BYTES], Vec<u64>) {
    let (mut craft, mut room, mut books) = (craft.clone(), [7; REPORT_BYTES], books.to_vec());
    let answer = craft.step_books(frame, &mut room, &mut books);
    (answer, craft, room, books)
}

#[test]
fn without_17_and_18_it_is_the_step_without_books() {
    let start = in_recovery();
    for frame in [
        &TICK[..],
        &[0x02, 0x1E, 0x78],
        &[0x04, 1, 0, 1, 2, 0],
        &[0x04, 1, 0, 1, 4, 1],
        &[0x04, 1, 0, 0, 4, 0],
        &[0x04, 1, 0x80, 0, 4, 0],
        &[0x04, 2, 0, 1, 3, 1],
        &[0x81],
        &[],
    ] {
        let (mut craft, mut room) = (start.clone(), [7; REPORT_BYTES]);
        let answer = craft.step(frame, &mut room);
        let (given, own, reply, _) = taken(&start, frame, &[5; BOOKS_NUMBERS]);
        assert_eq!((given, own, reply), (answer, craft, room), "{frame:02X?}");
    }
}

#[test]
fn each_module_is_counted_in_its_own_numbers() {
    let start = in_recovery();
    let begun: Vec<u64> = (100..).take(BOOKS_NUMBERS).collect();
    // MCS shorts.
    let (answer, craft, room, books) = taken(&start, &[0x01, Module::Mcs.bit()], &begun);
    assert_eq!(answer, answer::DONE);
    assert_eq!(craft.modules_on(), 3);
    assert_eq!(room[8], !Module::MISSION & !Module::Mcs.bit());
    for module in Module::ALL {
        let first = 3 * usize::from(module.number());
        let on = room[8] & module.bit() != 0;
        let mut wanted = begun[first..first + 3].to_vec();
        wanted[usize::from(!on)] += 1;
        assert_eq!(books[first..first + 3], wanted, "{module}");
    }
}

#[test]
fn full_books_and_none_leave_everything() {
    let start = in_recovery();
    let mut above = [0; BOOKS_NUMBERS];
    above[23] = MOST_SECONDS + 1;
    let most = [MOST_SECONDS; BOOKS_NUMBERS];
    for (books, frame, wanted) in [
        (&[0; 23][..], &TICK[..], answer::NOT_BOOKS),
        (&[0; 25], &TICK, answer::NOT_BOOKS),
        (&[], &[], answer::NOT_BOOKS),
        (&above, &TICK, answer::BOOKS_FULL),
        (&above, &[0x04, 1, 0, 1, 2, 0], answer::BOOKS_FULL),
        (&above, &[0x04, 2, 0, 1, 3, 1], answer::BOOKS_FULL),
        (&above, &[], answer::NO_INPUT),
        (&most, &TICK, answer::BOOKS_FULL),
    ] {
        let left = (wanted, start.clone(), [7; REPORT_BYTES], books.to_vec());
        assert_eq!(taken(&start, frame, books), left, "{frame:02X?}");
    }
    // At the limit, and not raised by it.
    let (answer, ..) = taken(&start, &[0x04, 1, 0, 1, 2, 0], &most);
    assert_eq!(answer, answer::DONE);
}

/// 18 goes before 1, and 1 before 17.
#[test]
fn an_image_that_is_none_is_refused_between_them() {
    for (lent, wanted) in [(23, answer::NOT_BOOKS), (24, answer::BAD_STATE)] {
        let (mut image, mut room, mut books) = ([0xFF; 71], [7; 11], vec![u64::MAX; lent]);
        let answer = calls::step_books(&mut image, &TICK, &mut room, &mut books);
        assert_eq!((answer, image, room), (wanted, [0xFF; 71], [7; 11]));
    }
}

#[test]
fn a_share_is_in_thousandths_of_a_module_s_own_three() {
    let mut books = [0; BOOKS_NUMBERS];
    books[9..12].copy_from_slice(&[1, 1, 1]);
    books[21..].copy_from_slice(&[MOST_SECONDS; 3]);
    books[21] -= 1;
    let mut shares = [7; 9];
    assert_eq!(summary(&books, &mut shares), answer::DONE);
    assert_eq!(shares, [0, 0, 0, 333, 0, 0, 0, 333, 7]);
    let mut seven = [7; 7];
    assert_eq!(summary(&books, &mut seven), answer::NO_ROOM);
    assert_eq!(seven, [7; 7]);
}

#[test]
fn no_share_is_left_where_the_books_are_refused() {
    let mut above = [1; BOOKS_NUMBERS];
    above[0] = MOST_SECONDS + 1;
    for (books, wanted) in [
        (&above[..], answer::BOOKS_FULL),
        (&above[1..], answer::NOT_BOOKS),
    ] {
        for lent in [0, 5, 8, 9] {
            let mut shares = vec![7; lent];
            assert_eq!(summary(books, &mut shares), wanted);
            let left = shares.iter().skip(8).all(|share| *share == 7);
            assert!(left && shares.iter().take(8).all(|share| *share == 0));
        }
    }
}
