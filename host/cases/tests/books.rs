//! The cases of the books and of the summary: all that a call leaves is looked at.

use cases::{books, read, summary, Board};

/// A board whose step writes a frame's bytes to the room and to the image, and answers
/// with the first of them.
const COPYING: Board = Board {
    image_bytes: 71,
    fresh: |_| 0,
    step,
};

fn step(image: &mut [u8], frame: &[u8], room: &mut [u8]) -> u8 {
    image[..frame.len()].copy_from_slice(frame);
    room[..frame.len()].copy_from_slice(frame);
    frame.first().copied().unwrap_or(3)
}

/// The same with books: a frame that begins with 17 moves nothing; a done one adds its
/// length to the first number.
fn with_books(image: &mut [u8], frame: &[u8], room: &mut [u8], books: &mut [u64]) -> u8 {
    match frame.first() {
        Some(17) => 17,
        _ => {
            let answer = step(image, frame, room);
            if answer == 0 {
                books[0] += frame.len() as u64;
            }
            answer
        }
    }
}

/// What is said of a case by such a step.
fn said(lines: &str, step_books: books::StepBooks) -> Result<(), String> {
    let words = [
        "from", "image", "books", "frames", "room", "answers", "report", "after",
    ];
    let cases = read(lines, &words).expect("a case");
    books::check(&cases[0], &COPYING, step_books)
}

/// A report's bytes, as long as one is.
const REPORT: &str = "0001020304050607080910";

/// A case of three calls: one that is done, one that is refused for its books, and one
/// that is late, with this in the place of its end.
fn case(end: &str) -> String {
    let frames = format!("{REPORT} 11 0801020304050607080910");
    format!("from -\nbooks 5*2\nframes {frames}\nroom 11\n{end}\n")
}

const END: &str = "answers 0 17 8\nreport 0801020304050607080910\nafter 16 5";

#[test]
fn all_that_calls_with_books_leave_is_looked_at() {
    assert_eq!(said(&case(END), with_books), Ok(()));
    for (part, other, wrong) in [
        ("0 17 8", "0 17 0", "answer 8"),
        ("0 17 8", "17*3", "answer 0"),
        ("report 08", "report 09", "report [08, "),
        ("after 16 5", "after 16 6", "books [16, 5, "),
        ("after 16 5", "after 16", "books [16, 5, "),
        ("after 16 5", "after 16 5*2", "books [16, 5, "),
    ] {
        let lines = case(&END.replace(part, other));
        let told = said(&lines, with_books).expect_err(other);
        let wanted = format!("case at line 1: {wrong}");
        assert!(told.starts_with(&wanted), "{other}: {told}");
    }
    let lines = case(&END.replace("0 17 8", "0 17"));
    let told = "line 5: answers is not one for each frame";
    assert_eq!(said(&lines, with_books), Err(told.into()));
}

#[test]
fn a_call_with_books_that_leaves_something_else_is_told() {
    let wrong: [books::StepBooks; 4] = [
        // At 17 the image, and the room.
        |image, frame, room, books| {
            image[70] ^= u8::from(frame == [17]);
            with_books(image, frame, room, books)
        },
        |image, frame, room, books| {
            room[10] ^= u8::from(frame == [17]);
            with_books(image, frame, room, books)
        },
        // Otherwise than without books.
        |image, frame, room, books| {
            let answer = with_books(image, frame, room, books);
            image[70] ^= u8::from(answer == 0);
            answer
        },
        |image, frame, room, books| {
            let answer = with_books(image, frame, room, books);
            room[10] ^= u8::from(answer == 8);
            answer
        },
    ];
    for step_books in wrong {
        let told = said(&case(END), step_books).expect_err("it is told");
        assert!(told.contains("not as it should be: "), "{told}");
    }
}

/// A lone dash is one call with no bytes, and no books where it stands for them.
#[test]
fn nothing_is_lent_or_sent_where_a_dash_stands() {
    let none = "from -\nbooks -\nframes -\nroom 11\nanswers 3\nreport -\nafter -\n";
    let told = said(none, |image, frame, room, books| {
        assert!(frame.is_empty() && books.is_empty());
        step(image, frame, room)
    });
    assert_eq!(told, Ok(()));
}

/// What is said of a case of a summary, by one that writes how many numbers there are to
/// all shares but the last.
fn summed(lines: &str) -> Result<(), String> {
    let cases = read(lines, &["books", "shares_len", "answer", "shares"]).expect("a case");
    summary::check(&cases[0], |books, shares| {
        if let Some((_, shares)) = shares.split_last_mut() {
            shares.fill(books.len() as u16);
        }
        shares.len() as u8
    })
}

#[test]
fn all_that_a_summary_leaves_is_looked_at() {
    for lines in [
        "books 7*24\nshares_len 3\nanswer 3\nshares 24*2\n",
        "books -\nshares_len 2\nanswer 2\nshares 0\n",
        "books 18446744073709551615\nshares_len 0\nanswer 0\nshares -\n",
    ] {
        assert_eq!(summed(lines), Ok(()), "{lines}");
    }
    for end in [
        "answer 4\nshares 24*2",
        "answer 3\nshares 24 25",
        "answer 3\nshares 24",
        "answer 3\nshares 24*3",
        "answer 3\nshares -",
    ] {
        let told = summed(&format!("books 7*24\nshares_len 3\n{end}\n"));
        let wanted = "case at line 1: (3, [24, 24, ";
        assert!(told.is_err_and(|told| told.starts_with(wanted)), "{end}");
    }
}

#[test]
fn what_is_no_number_is_told() {
    for books in ["x", "1 -1", "18446744073709551616", "0x1"] {
        let lines = format!("books {books}\nshares_len 8\nanswer 0\nshares 0*8\n");
        let told = "line 1: books is not numbers";
        assert_eq!(summed(&lines), Err(told.into()), "{books}");
    }
}
