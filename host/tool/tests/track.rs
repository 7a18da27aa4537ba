//! `ems track`: the walk, what is told of it, premises, conclusion, statuses.

mod common;

use common::{fed, place, run, scratch, Ran};
use model::track::{track, Reading};
use std::fs;

/// A panel whose current falls in a straight line from 0 mV on: the power, and what is
/// read of it by 100 mV, rises strictly up to 3,000 mV and falls strictly from there.
const STRAIGHT: &str = "millivolts,milliamperes\n0,600\n6000,0\n";

/// A curve, walked on with further arguments.
fn tracked(curve: &str, more: &[&str]) -> Ran {
    let file = scratch("curve.csv", curve);
    run(&[&["track", &file], more].concat())
}

/// The numbers of a table's rows.
fn rows(table: &str) -> Vec<Vec<i64>> {
    let mut lines = table.lines();
    assert_eq!(
        lines.next(),
        Some("call,millivolts,milliamperes,microwatts,step")
    );
    let numbers = |line: &str| {
        line.split(',')
            .map(|cell| cell.parse().expect(line))
            .collect()
    };
    lines.map(numbers).collect()
}

#[test]
fn the_first_crossing_and_the_stay_are_told() {
    let ran = tracked(STRAIGHT, &["--start", "2450", "--calls", "50"]).status(0);
    assert!(ran.err.is_empty(), "{}", ran.err);
    assert_eq!(
        ran.text(),
        "The curve's peak is at 3,000 mV: 900 mW.\n\
         Call 6 is the first to cross it, from 2,950 mV to 3,050 mV.\n\
         From then on the set point is between 2,850 mV and 3,150 mV: at most 150 mV from \
         the peak, 1.5 steps.\n\
         On average the panel gives 99.9 % of the peak's power there.\n\
         \n\
         The premises hold: the readings at 8 set points rise strictly up to the peak and \
         fall strictly past it.\n\
         So it is promised that from call 6 on the set point is less than two steps, 200 mV, \
         from the peak: holds.\n"
    );
}

/// From above, and with a step down from below: it turns, and comes back.
#[test]
fn a_step_may_go_down() {
    tracked(STRAIGHT, &["--start", "4000", "--step", "-100"])
        .status(0)
        .prints("Call 10 is the first to cross it, from 3,100 mV to 3,000 mV.\n")
        .prints("between 2,900 mV and 3,100 mV: at most 100 mV from the peak, 1 step.\n");
    // Down to 2,650 mV, and up from there.
    tracked(STRAIGHT, &["--start", "2750", "--step", "-100"])
        .status(0)
        .prints("Call 5 is the first to cross it, from 2,950 mV to 3,050 mV.\n");
    tracked(STRAIGHT, &["--start", "3200", "--step=-50"])
        .status(0)
        .prints("less than two steps, 100 mV, from the peak: holds.\n");
}

/// A move that starts at the peak crosses it, and one that ends there.
#[test]
fn the_peak_itself_is_on_both_sides() {
    for (step, to, then) in [("100", "3,100", "2,900"), ("-100", "2,900", "3,100")] {
        let (low, high) = if to < then { (to, then) } else { (then, to) };
        tracked(STRAIGHT, &["--start", "3000", "--step", step])
            .status(0)
            .prints(&format!(
                "Call 1 is the first to cross it, from 3,000 mV to {to} mV.\n"
            ))
            .prints(&format!("is between {low} mV and {high} mV: "));
    }
    tracked(STRAIGHT, &["--start", "2800"])
        .status(0)
        .prints("Call 2 is the first to cross it, from 2,900 mV to 3,000 mV.\n");
}

/// How many calls are missing is what it takes.
#[test]
fn a_peak_that_is_not_reached_takes_more_calls() {
    let calls = |calls: &str| tracked(STRAIGHT, &["--start", "450", "--calls", calls]);
    calls("20")
        .status(0)
        .prints(
            "The walk does not come to it in 20 calls: the set point is between 450 mV and \
             2,450 mV, at last 2,450 mV, 550 mV below the peak. It comes there with 6 more calls.\n",
        )
        .prints("\nSo it is promised that once it crosses it stays less than two steps, 200 mV, from the peak.\n");
    calls("25")
        .status(0)
        .prints("50 mV below the peak. It comes there with 1 more call.\n");
    calls("26")
        .status(0)
        .prints("Call 26 is the first to cross it, from 2,950 mV to 3,050 mV.\n");
    // From above, past an end: at 0 it stands still for a call, and turns back.
    tracked(
        STRAIGHT,
        &["--start", "50", "--step", "-100", "--calls", "1"],
    )
    .status(0)
    .prints("at last 0 mV, 3,000 mV below the peak. It comes there with 31 more calls.\n");
    tracked(
        STRAIGHT,
        &["--start", "50", "--step", "-100", "--calls", "32"],
    )
    .status(0)
    .prints("Call 32 is the first to cross it, from 2,900 mV to 3,000 mV.\n");
}

/// Every row is the rule's answer to the two rows before it, on a walk that comes to
/// both ends.
#[test]
fn a_table_has_each_call() {
    let dark = "millivolts,milliamperes\n0,0\n";
    let walks = [
        (STRAIGHT, 2_450, 100, 300),
        (STRAIGHT, 5_990, -37, 300),
        (STRAIGHT, 100, -500, 300),
        (dark, 19_700, 70, 600),
    ];
    for (curve, start, step, calls) in walks {
        let [from, by, count] = [start, step, calls].map(|number: i64| number.to_string());
        let file = scratch("curve.csv", curve);
        let step_said = format!("--step={by}");
        let args = [
            "track", &file, "--start", &from, &step_said, "--calls", &count, "--table",
        ];
        let ran = run(&args);
        let rows = rows(ran.text());
        assert_eq!(rows.len() as i64, calls + 1);
        assert_eq!((rows[0][1], rows[0][4]), (start, step));
        for (at, row) in rows.iter().enumerate() {
            assert_eq!(row[0], at as i64);
            assert_eq!(row[3], row[1] * row[2]);
            if at == 0 {
                continue;
            }
            let reading = |at: usize| Reading {
                millivolts: rows[at][1] as u32,
                milliamperes: rows[at][2] as u32,
            };
            let (before, after) = (reading(at.saturating_sub(2)), reading(at - 1));
            let set_point = after.millivolts;
            let wanted = track(before, after, set_point, rows[at - 1][4] as i32);
            let given = (row[1] as u32, row[4] as i32);
            assert_eq!(wanted, Ok(given), "{curve}: call {at}");
        }
    }
    // The words are left out, and what is wrong is not.
    let ran = tracked(dark, &["--start", "19700", "--table"]).status(3);
    assert!(ran.err.contains("the premises do not hold"), "{}", ran.err);
    assert!(!ran.text().contains("peak"), "{}", ran.text());
}

/// A meter reads whole milliamperes, a half as the next one.
#[test]
fn readings_are_rounded() {
    let curve = "millivolts,milliamperes\n0,100.5\n1000,100.4999\n2000,99.5\n3000,0\n";
    let ran = tracked(
        curve,
        &["--start", "0", "--step", "500", "--calls", "4", "--table"],
    );
    let read: Vec<i64> = rows(ran.text()).iter().map(|row| row[2]).collect();
    assert_eq!(read[..5], [101, 100, 100, 100, 100]);
    assert_eq!(rows(ran.text())[4][1], 2_000);
}

/// On a flat top, where power doesn't fall, the walk goes on to its end and strays: that
/// is told, and that nothing is promised.
#[test]
fn a_flat_top_is_not_spoken_of() {
    // 3,300 mW at 5,000, at 5,500 and at 6,000 mV.
    let flat = "millivolts,milliamperes\n0,700\n4500,700\n5000,660\n5500,600\n6000,550\n\
                6500,400\n7000,0\n";
    tracked(flat, &["--start", "4000", "--step", "500"])
        .status(3)
        .prints("The curve's peak is at 5,250 mV: 3,307.5 mW.\n")
        .prints("is between 4,500 mV and 6,500 mV: at most 1,250 mV from the peak, 2.5 steps.\n")
        .prints(
            "The premises do not hold: the readings must fall strictly past the peak, and from \
             5,500 mV to 6,000 mV they don't: 3,300 mW, then 3,300 mW.\n\
             So nothing is promised, and from call 3 on the set point is less than two steps, \
             1,000 mV, from the peak: DOES NOT HOLD: call 5, 6,500 mV, 1,250 mV from the peak.\n",
        )
        .says("curve.csv: the premises do not hold: the readings must fall strictly past");
}

/// A lower peak past the highest one holds the walk.
#[test]
fn two_peaks_are_not_spoken_of() {
    let two = "millivolts,milliamperes\n0,400\n2000,400\n4000,100\n8000,50\n8100,0\n";
    tracked(two, &["--start", "8000", "--step", "-500", "--calls", "20"])
        .status(3)
        .prints("The walk does not come to it in 20 calls: ")
        .prints(" Nor with 50,000 more.\n")
        .prints("\nSo nothing is promised.\n")
        .says("from 5,500 mV to 6,000 mV they don't: 445.5 mW, then 450 mW");
}

/// In the dark there is no peak, wherever a walk came by, and past the last row nothing
/// falls.
#[test]
fn the_dark_is_not_spoken_of() {
    let dark = "millivolts,milliamperes\n0,0\n";
    for walk in [
        &["--start", "3000"][..],
        &["--start", "0", "--step", "-100", "--calls", "1"],
        &["--start", "20000", "--calls", "1"],
    ] {
        tracked(dark, walk)
            .status(3)
            .prints("The curve's peak is at 0 mV: 0 mW.\n")
            .prints("The panel gives no power at all.\n")
            .says("the premises do not hold: there is no peak, as the panel gives no power\n");
    }
    tracked(STRAIGHT, &["--start", "7000", "--calls", "10"])
        .status(3)
        .prints("at last 8,000 mV, 5,000 mV above the peak. It comes there with 291 more calls.\n")
        .prints("\nSo nothing is promised.\n")
        .says("from 7,000 mV to 7,100 mV they don't: 0 mW, then 0 mW");
}

/// A walk that is spoken of, and holds: where the peak is, and what else is told.
fn holds(curve: &str, walk: [&str; 2], peak: &str, told: &[&str]) {
    let step = format!("--step={}", walk[1]);
    let ran = tracked(curve, &["--start", walk[0], &step])
        .status(0)
        .prints(&format!("The curve's peak is at {peak} mV: "));
    let ran = told.iter().fold(ran, |ran, told| ran.prints(told));
    assert!(ran.text().ends_with(" from the peak: holds.\n"));
}

/// Two steps from 0 mV, a millivolt less, and much less.
#[test]
fn a_peak_near_the_lower_end_is_spoken_of() {
    let low = "millivolts,milliamperes\n0,3000\n998,2500\n1000,2400\n1200,0\n";
    for step in ["499", "500"] {
        holds(low, ["500", step], "998", &["The premises hold: "]);
    }
    // Less than a step: the first move stops at 0 mV, and the second as well.
    let lower = "millivolts,milliamperes\n0,3000\n300,3000\n500,0\n";
    let told = [
        "Call 1 is the first to cross it, from 400 mV to 0 mV.\n",
        "is between 0 mV and 998 mV: at most 698 mV from the peak, 1.4 steps.\n",
    ];
    holds(lower, ["400", "-499"], "300", &told);
    // A millivolt from the end: the walk goes to two steps less a millivolt from it.
    let lowest = "millivolts,milliamperes\n0,5000\n1,5000\n2,40\n100,40\n200,10\n201,0\n";
    let told = ["is between 0 mV and 200 mV: at most 199 mV from the peak, 1.99 steps.\n"];
    holds(lowest, ["0", "100"], "1", &told);
}

/// As near to 20,000 mV, and at it.
#[test]
fn a_peak_near_the_upper_end_is_spoken_of() {
    for (peak, told) in [("19000", "19,000"), ("19001", "19,001")] {
        let high = format!("millivolts,milliamperes\n0,100\n{peak},100\n20400,0\n");
        holds(&high, ["17700", "500"], told, &["The premises hold: "]);
    }
    // Less than a step: the first move stops at 20,000 mV, and the second as well.
    let higher = "millivolts,milliamperes\n0,100\n19700,100\n20100,0\n";
    let told = [
        "Call 1 is the first to cross it, from 19,600 mV to 20,000 mV.\n",
        "is between 19,000 mV and 20,000 mV: at most 700 mV from the peak, 1.4 steps.\n",
    ];
    holds(higher, ["19600", "500"], "19,700", &told);
    // A panel that gives more past the last set point: there, and stopped there.
    let highest = "millivolts,milliamperes\n0,100\n30000,100\n30001,0\n";
    for (start, from) in [("10000", "19,500"), ("10100", "19,600")] {
        let crossing = format!("Call 20 is the first to cross it, from {from} mV to 20,000 mV.\n");
        let stay = "is between 19,500 mV and 20,000 mV: at most 500 mV from the peak, 1 step.\n";
        holds(highest, [start, "500"], "20,000", &[&crossing, stay]);
    }
}

/// With steps of 1 mV whole milliamperes can't tell one set point from the next.
#[test]
fn steps_too_short_for_the_meter_are_not_spoken_of() {
    let fine = [
        "track",
        "examples/panel.csv",
        "--start",
        "4200",
        "--step",
        "1",
    ];
    run(&fine)
        .status(3)
        .says("the readings must rise strictly up to the peak, and from ");
}

/// Panels with a knee, strong and weak, whose peak is anywhere, near 0 mV or near 20,000,
/// walked on from anywhere in steps of any length: wherever the premises hold, so does
/// the conclusion.
#[test]
fn no_walk_that_the_promise_speaks_of_strays() {
    let mut state: u64 = 7;
    // Knuth's multiplier; the high bits are the better ones.
    let mut below = |limit: u64| {
        state = state
            .wrapping_mul(6_364_136_223_846_793_005)
            .wrapping_add(1);
        (state >> 33) % limit
    };
    // Of panels near 0 mV, near 20,000 and anywhere: how many hold; of those, in how many
    // the peak is less than two steps from the end; and in how many the walk came there.
    let [mut held, mut near, mut came] = [[0; 3]; 3];
    for case in 0..900 {
        let place = case % 3;
        let end = match place {
            0 => 10 + below(1_000),
            1 => 20_001 + below(1_500),
            _ => 2_000 + below(18_000),
        };
        let (knee, start) = match place {
            1 => (19_000 + below(end - 19_000), 20_000 - below(5_000)),
            _ => (end * (50 + below(40)) / 100, below(end)),
        };
        let light = 20 + below(4_980);
        let bent = light * (70 + below(30)) / 100;
        let curve = format!("millivolts,milliamperes\n0,{light}\n{knee},{bent}\n{end},0\n");
        let length = 1 + below(500);
        let step = length as i64 * if below(2) == 0 { 1 } else { -1 };
        let [start, step] = [start.to_string(), format!("--step={step}")];
        let ran = tracked(&curve, &["--start", &start, &step, "--calls", "400"]);
        assert!(
            [0, 3].contains(&ran.status),
            "{curve}{start} {step}: {}",
            ran.err
        );
        if ran.status == 3 || !ran.text().ends_with(" from the peak: holds.\n") {
            continue;
        }
        let peak = peak_told(ran.text());
        let (away, at_end) = match place {
            0 => (peak, "is between 0 mV and "),
            _ => (20_000 - peak, " and 20,000 mV: "),
        };
        held[place] += 1;
        near[place] += u32::from(away < 2 * length);
        came[place] += u32::from(away < 2 * length && ran.text().contains(at_end));
    }
    assert!(held.iter().all(|held| *held > 100), "{held:?}");
    assert!(near[..2].iter().all(|near| *near > 50), "{near:?}");
    assert!(came[..2].iter().all(|came| *came > 30), "{came:?}");
}

/// Where the peak is told to be.
fn peak_told(text: &str) -> u64 {
    let told = text.strip_prefix("The curve's peak is at ");
    let (millivolts, _) = told.and_then(|told| told.split_once(" mV: ")).expect(text);
    millivolts.replace(',', "").parse().expect(text)
}

/// Each limit, and past it: the library's 16, and which number it is.
#[test]
fn what_is_out_of_range_is_refused_with_16() {
    let at = |start: &str, step: &str| {
        let step = format!("--step={step}");
        tracked(STRAIGHT, &["--start", start, &step, "--calls", "3"])
    };
    let why = "curve.csv: call 1 is refused: 16, a reading, set point or step is out of range: ";
    let set_point = |is: &str| format!("the set point is {is} mV, and may be 0 to 20,000 mV");
    let step = |is: &str| format!("the step is {is} millivolts, and may be 1 to 500 either way\n");
    at("20001", "100")
        .status(2)
        .says(&format!("{why}{}\n", set_point("20,001")));
    for (given, said) in [("0", "0"), ("501", "501"), ("-501", "-501")] {
        let ran = at("3000", given).status(2);
        ran.says(&format!("{why}{}", step(said)));
    }
    let ran = at("4294967295", "-2147483648").status(2);
    assert_eq!(ran.text(), "The curve's peak is at 3,000 mV: 900 mW.\n");
    let both = [set_point("4,294,967,295"), step("-2,147,483,648")].join("; ");
    ran.says(&format!("{why}{both}"));
    // At the limits a call is done; what the promise asks for is another matter.
    for (start, step) in [
        ("0", "500"),
        ("20000", "500"),
        ("3000", "1"),
        ("3000", "-1"),
        ("3000", "-500"),
    ] {
        let ran = at(start, step);
        assert!(!ran.err.contains("refused"), "{start} {step}: {}", ran.err);
        ran.prints("The premises ");
    }
}

/// A current above 5,000 mA stops the walk where it comes to it; what was done is told.
#[test]
fn a_current_out_of_range_is_refused_where_the_walk_comes_to_it() {
    let strong = "millivolts,milliamperes\n0,1000\n2000,4000\n3000,6000\n4000,0\n";
    let args = ["--start", "1000", "--step", "500", "--calls", "9"];
    let current = "the current at 3,000 mV is 6,000 mA, and may be 0 to 5,000 mA\n";
    tracked(strong, &args)
        .status(2)
        .prints("Call 4 is the first to cross it, from 2,500 mV to 3,000 mV.\n")
        .prints("\nCall 5 is refused: the walk ends there.\n")
        .says(&format!(
            "call 5 is refused: 16, a reading, set point or step is out of range: {current}"
        ));
    let ran = tracked(
        strong,
        &["--start", "1000", "--step", "500", "--calls", "2"],
    )
    .status(0);
    ran.prints("1,000 mV below the peak. It comes there with 2 more calls.\n");
    // A reading at the limit is taken: 5,000.4 mA is read as 5,000.
    let at_limit = "millivolts,milliamperes\n0,5001\n1000,5000.4\n2000,0\n";
    let ran = tracked(
        at_limit,
        &["--start", "1000", "--step", "10", "--calls", "1"],
    );
    assert!(!ran.err.contains("refused"), "{}", ran.err);
    let ran = tracked(at_limit, &["--start", "0", "--calls", "9"]).status(2);
    ran.says("call 1 is refused: 16, a reading, set point or step is out of range: the current at 0 mV is 5,001 mA, and may be 0 to 5,000 mA\n");
}

/// Where the first call is refused there is no walk, and no picture.
#[test]
fn a_walk_that_does_not_begin_is_not_drawn() {
    let picture = place("track.svg");
    tracked(
        STRAIGHT,
        &["--start", "3000", "--step", "0", "-o", &picture],
    )
    .status(2);
    assert!(fs::metadata(&picture).is_err());
    tracked(STRAIGHT, &["--start", "3000", "-o", &picture])
        .status(0)
        .prints("The premises hold: ");
    assert!(fs::metadata(&picture).is_ok());
}

#[test]
fn wrong_usage_of_the_tracker_is_told() {
    for more in [
        &[][..],
        &["--start", "-1"],
        &["--start", "3.5"],
        &["--start", "3000", "--calls", "0"],
        &["--start", "3000", "--calls", "1000001"],
        &["--start", "3000", "--step", "fast"],
        &["--start", "3000", "--title", "a picture without a file"],
    ] {
        let ran = tracked(STRAIGHT, more).status(1);
        assert!(!ran.err.is_empty() && ran.out.is_empty(), "{more:?}");
    }
    run(&["track", "nowhere.csv", "--start", "3000"])
        .status(1)
        .says("nowhere.csv: No such file");
    let file = scratch("kept.csv", STRAIGHT);
    run(&["track", &file, "--start", "3000", "-o", &file])
        .status(1)
        .says("is the input, which would be lost");
    assert_eq!(fs::read_to_string(&file).expect("it is there"), STRAIGHT);
}

#[test]
fn a_curve_may_come_from_standard_input() {
    fed(&["track", "-", "--start", "2450"], STRAIGHT.as_bytes())
        .status(0)
        .prints("Call 6 is the first to cross it");
    fed(&["track", "-", "--start", "2450"], b"0,1\n")
        .status(1)
        .says_first("ems: standard input:1:1: expected the head line: millivolts,milliamperes");
}
