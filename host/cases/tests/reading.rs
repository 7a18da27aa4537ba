//! How a file of cases is read, and that nothing in it is passed over.

use cases::{modules_on, read, track, Board, Line};

const WORDS: [&str; 2] = ["frames", "room"];

/// The lines of a text, a case after the other.
fn lines(text: &str) -> Vec<Vec<Line>> {
    let cases = read(text, &WORDS).expect("cases");
    cases.into_iter().map(|case| case.lines).collect()
}

/// What is said of a text that is none of cases.
fn said(text: &str) -> String {
    read(text, &WORDS).expect_err("no cases")
}

#[test]
fn blank_lines_part_the_cases() {
    let text = "# head\n\nframes 01\nroom 1\n\n\n# between\nroom 2\n# inside\nroom 3\n";
    let numbers = lines(text).into_iter().map(|case| {
        let numbers = case.into_iter().map(|line| line.number);
        numbers.collect::<Vec<usize>>()
    });
    assert_eq!(numbers.collect::<Vec<_>>(), [vec![3, 4], vec![8, 10]]);
}

#[test]
fn a_value_stands_as_often_as_it_says() {
    let case = &lines("frames 0100*3 021F40 03*1\n")[0];
    assert_eq!(case[0].values, ["0100", "0100", "0100", "021F40", "03"]);
    let frames = case[0].frames().expect("bytes");
    assert_eq!(frames[3..], [vec![0x02, 0x1F, 0x40], vec![0x03]]);
    assert_eq!(case[0].bytes().expect("bytes")[..4], [1, 0, 1, 0]);
}

#[test]
fn a_lone_dash_is_nothing() {
    let case = &lines("frames -\n")[0];
    assert_eq!(case[0].bytes(), Ok(vec![]));
    assert!(case[0].value().is_err());
}

#[test]
fn what_is_no_value_is_told() {
    for line in [
        "frames",
        "frames *3",
        "frames 01*",
        "frames 01*0",
        "frames 01*x",
    ] {
        assert!(said(line).starts_with("line 1: "), "{line}");
    }
    for bytes in ["0", "010", "0G", "+1", "é", "-"] {
        let case = &lines(&format!("frames 00 {bytes}\n"))[0];
        let said = "line 1: frames is not bytes in hex";
        assert_eq!(case[0].bytes(), Err(said.into()), "{bytes}");
    }
    for numbers in ["1 2", "x", "-1", "1.5", "256"] {
        let case = &lines(&format!("room {numbers}\n"))[0];
        assert!(case[0].number::<u8>().is_err(), "{numbers}");
    }
}

#[test]
fn a_word_that_is_not_known_is_told() {
    assert_eq!(said("frames 01\nrooms 3\n"), "line 2: no word rooms");
    assert_eq!(said(" frames 01\n # comment\n"), "line 2: no word #");
}

#[test]
fn a_word_stands_once_where_it_should() {
    let cases = read("room 1\nroom 2\n\nframes 01\n", &WORDS).expect("cases");
    let twice = "line 2: room a second time";
    assert_eq!(cases[0].one("room"), Err(twice.into()));
    assert_eq!(cases[0].optional("room"), Err(twice.into()));
    let without = "line 4: a case without room";
    assert_eq!(cases[1].one("room"), Err(without.into()));
    assert_eq!(cases[1].optional("room"), Ok(None));
}

/// What is said of a case of the tracker, by one that adds the step.
fn tracked(line: &str) -> Result<(), String> {
    let cases = read(line, &["track"]).expect("a case");
    track::check(&cases[0], |before, after, set_point, step| {
        assert_eq!((before, after), ([1, 2], [3, 4]), "{line}");
        *set_point = set_point.wrapping_add_signed(*step);
        *step = -*step;
        7
    })
}

#[test]
fn all_that_a_tracker_leaves_is_looked_at() {
    assert_eq!(tracked("track 1 2 3 4 50 -6 = 7 44 6\n"), Ok(()));
    for wrong in ["8 44 6", "7 45 6", "7 44 -6"] {
        let said = tracked(&format!("track 1 2 3 4 50 -6 = {wrong}\n"));
        assert_eq!(said, Err("line 1: (7, 44, 6)".into()), "{wrong}");
    }
}

#[test]
fn what_is_no_case_of_a_tracker_is_told() {
    for line in [
        "track 1 2 3 4 50 -6",
        "track 1 2 3 4 50 -6 =",
        "track 1 2 3 4 50 = 7 44 6",
        "track 1 2 3 4 50 -6 = 7 44",
        "track 1 2 3 4 50 -6 = 7 44 6 8",
        "track 1 2 3 4 50 -6 7 44 6",
    ] {
        let said = "line 1: track is not six numbers, `=` and three";
        assert_eq!(tracked(line), Err(said.into()), "{line}");
    }
    for line in [
        "track 1 2 3 4 -50 -6 = 7 44 6",
        "track x 2 3 4 50 -6 = 7 44 6",
        "track 1 2 3 4 50 2147483648 = 7 44 6",
        "track 1 2 3 4 50 -6 = 256 44 6",
    ] {
        let said = "line 1: track is not numbers";
        assert_eq!(tracked(line), Err(said.into()), "{line}");
    }
}

/// A board whose images are zeros, whatever it takes.
const ZEROS: Board = Board {
    image_bytes: 71,
    fresh: |_| 0,
    step: |_, _, _| 0,
};

/// What is said of a case of a count, by one that answers an image's length and counts
/// what its masks are, one behind the other.
fn counted(lines: &str) -> Result<(), String> {
    let words = ["from", "image", "damage", "answer", "count"];
    let cases = read(lines, &words).expect("a case");
    modules_on::check(&cases[0], &ZEROS, |image| {
        let masks = image[52..55].iter();
        let count = masks.fold(0, |count, mask| 256 * count + usize::from(*mask));
        (image.len() as u8, count)
    })
}

#[test]
fn a_count_is_asked_of_the_image_that_is_told() {
    for lines in [
        "from 0100*3 0301\nanswer 71\ncount 0\n",
        "from -\nimage short\nanswer 70\ncount 0\n",
        "from -\nimage damaged\nanswer 71\ncount 16777215\n",
        "from -\ndamage requested 01\nanswer 71\ncount 65536\n",
        "from -\ndamage on 04\nanswer 71\ncount 1024\n",
        "from -\ndamage failed 81\nanswer 71\ncount 129\n",
    ] {
        assert_eq!(counted(lines), Ok(()), "{lines}");
    }
    for lines in [
        "from -\nanswer 72\ncount 0\n",
        "from -\nanswer 71\ncount 1\n",
    ] {
        let said = "case at line 1: (71, 0)";
        assert_eq!(counted(lines), Err(said.into()), "{lines}");
    }
}

#[test]
fn what_is_no_damage_is_told() {
    for damage in ["off 04", "on", "on 4", "on 0400", "on 04 04", "on XX", "-"] {
        let said = "line 2: damage is not a mask and a byte in hex";
        let lines = format!("from -\ndamage {damage}\nanswer 71\ncount 0\n");
        assert_eq!(counted(&lines), Err(said.into()), "{damage}");
    }
}
