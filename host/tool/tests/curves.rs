//! The files of panels' curves: what is wrong with one, and how the examples are made.

mod common;

use common::{fed, root, run, scratch, Ran};
use std::fs;

const HEAD: &str = "millivolts,milliamperes";

/// A file's content, walked on.
fn read(content: impl AsRef<[u8]>) -> Ran {
    let file = scratch("curve.csv", content);
    run(&["track", &file, "--start", "3000"])
}

/// Asserts that a content has one mistake: its line and column, what was expected there,
/// and what the carets point at.
fn has_mistake(content: &str, place: &str, expected: &str, pointed: &str) {
    let ran = read(content).status(1);
    let lines: Vec<&str> = ran.err.lines().collect();
    let [said, line, carets] = lines[..] else {
        panic!("{content:?}: {}", ran.err);
    };
    let wanted = format!("curve.csv:{place}: expected {expected}");
    assert!(said.ends_with(&wanted), "{content:?}: {said}");
    let at = carets.find('^').expect("it is pointed at");
    let shown: String = line.chars().skip(at).take(carets.len() - at).collect();
    assert_eq!(shown, pointed, "{content:?}");
    assert!(ran.out.is_empty());
}

#[test]
fn a_curve_is_read_with_comments_blanks_and_capitals() {
    let plain = read(format!("{HEAD}\n0,600\n6000,0\n")).status(0);
    for same in [
        "# a panel\n\nMillivolts, Milliamperes # the head\n0,600\n\n  6000 ,\t0.000 # the end\n",
        "millivolts,milliamperes\r\n0,600.0\r\n6000,0\r\n",
        "\u{feff}millivolts,milliamperes\n0,600\n2000,400\n6000,0",
        "millivolts,milliamperes\n0,600\n6000,0\n7000,0\n",
    ] {
        let ran = read(same).status(0);
        assert_eq!(ran.text(), plain.text(), "{same:?}");
    }
}

#[test]
fn a_mistake_is_told_with_its_line_and_column() {
    let head = "the head line: millivolts,milliamperes";
    has_mistake("0,600\n6000,0\n", "1:1", head, "0");
    has_mistake(
        "# volts\nmillivolts,amperes\n0,6\n6,0\n",
        "2:12",
        head,
        "amperes",
    );
    has_mistake("millivolts\n0,6\n6,0\n", "1:11", head, "");
    has_mistake(
        "millivolts,milliamperes,watts\n0,6\n6,0\n",
        "1:25",
        head,
        "watts",
    );
    let row = |row: &str| format!("{HEAD}\n0,600\n{row}\n6000,0\n");
    let volts = "millivolts: a number 0 to 4,294,967,295";
    has_mistake(&row("3.5,300"), "3:1", volts, "3.5");
    has_mistake(&row("  -3,300"), "3:3", volts, "-3");
    has_mistake(&row(",300"), "3:1", volts, ",");
    has_mistake(&row("4294967296,300"), "3:1", volts, "4294967296");
    has_mistake(&row("3000;300"), "3:1", volts, "3000;300");
    let amperes = "milliamperes: a number 0 to 4,294,967,295, as in 459.5";
    has_mistake(&row("3000,-1"), "3:6", amperes, "-1");
    has_mistake(&row("3000, 1e3"), "3:7", amperes, "1e3");
    has_mistake(&row("3000,4294967295.1"), "3:6", amperes, "4294967295.1");
    has_mistake(&row("3000,300."), "3:6", amperes, "300.");
    has_mistake(&row("3000,.5"), "3:6", amperes, ".5");
    has_mistake(&row("3000,inf"), "3:6", amperes, "inf");
    has_mistake(&row("3000,"), "3:6", amperes, "");
    has_mistake(&row("3000"), "3:5", "a comma and milliamperes", "");
    has_mistake(&row("3000 # 300"), "3:5", "a comma and milliamperes", " ");
    has_mistake(&row("3000,300,900"), "3:10", "the end of the line", "900");
    let more = "more millivolts than in the row before, 0";
    has_mistake(&row("0,500"), "3:1", more, "0");
    has_mistake(
        &row("3000,300\n2999,301"),
        "4:1",
        "more millivolts than in the row before, 3,000",
        "2999",
    );
}

#[test]
fn a_curve_begins_at_0_and_ends_where_no_current_flows() {
    let first = "0: the first row has the current at 0 mV";
    has_mistake(&format!("{HEAD}\n100,600\n6000,0\n"), "2:1", first, "100");
    let last = "0: at the last row's voltage no current flows any more";
    has_mistake(
        &format!("{HEAD}\n0,600\n6000,0.1 # nearly\n"),
        "3:6",
        last,
        "0.1",
    );
    has_mistake(&format!("{HEAD}\n0,600"), "2:3", last, "600");
    has_mistake(
        &format!("{HEAD}\n"),
        "2:1",
        "a row: millivolts,milliamperes",
        "",
    );
    let head = "the head line: millivolts,milliamperes";
    has_mistake("# nothing\n", "2:1", head, "");
    has_mistake("", "1:1", head, "");
}

#[test]
fn many_mistakes_are_cut_after_ten() {
    let rows: String = (1..=25).map(|n| format!("{n},x\n")).collect();
    let ran = read(format!("{HEAD}\n0,1\n{rows}")).status(1);
    assert_eq!(ran.err.matches("curve.csv:").count(), 11);
    assert!(ran.err.contains("curve.csv:3:3: "), "{}", ran.err);
    assert!(ran.err.ends_with("curve.csv: and 15 more\n"), "{}", ran.err);
}

#[test]
fn a_file_that_is_no_text_is_told() {
    for content in [
        &b"millivolts,milliamperes\n0,\xFF\n"[..],
        b"millivolts,milliamperes\n0,\0",
    ] {
        let ran = read(content).status(1);
        assert!(
            ran.err.contains("curve.csv:2:3: expected text in UTF-8\n"),
            "{}",
            ran.err
        );
    }
    let ran = fed(&["track", "-", "--start", "3000"], b"\x01\x00").status(1);
    assert!(
        ran.err.contains("standard input:1:2: expected text"),
        "{}",
        ran.err
    );
}

/// An example's parameters, as its head has them.
struct Parameters(String);

impl Parameters {
    fn of(file: &str) -> Parameters {
        Parameters(fs::read_to_string(root().join(file)).expect("the example"))
    }

    /// `#   IL = 0.46 A   what it is`, and nothing else of that name.
    fn get(&self, name: &str) -> f64 {
        let begin = format!("#   {name} = ");
        let mut found = self.0.lines().filter_map(|line| line.strip_prefix(&begin));
        let value = found.next().and_then(|rest| rest.split(' ').next());
        let value = value.and_then(|value| value.parse().ok());
        assert!(found.next().is_none(), "{name} stands there twice");
        value.unwrap_or_else(|| panic!("there is no {name}"))
    }

    /// The thermal voltage of the junctions in series, with their ideality.
    fn thermal(&self) -> f64 {
        let [number, ideality] = ["N", "n"].map(|name| self.get(name));
        number * ideality * self.get("k") * self.get("T") / self.get("q")
    }

    /// The rows in volts and amperes.
    fn rows(&self) -> Vec<(f64, f64)> {
        let lines = self.0.lines().filter(|line| !line.starts_with('#'));
        let cells = lines.skip(1).filter_map(|line| line.split_once(','));
        let number = |text: &str| text.parse::<f64>().expect("a number") / 1_000.0;
        cells
            .map(|(volts, amperes)| (number(volts), number(amperes)))
            .collect()
    }
}

/// Asserts that each row is a formula's, to the three places that it has, and the last
/// one the first whole millivolt at which no current flows.
fn is_made_by(example: &Parameters, current: impl Fn(f64) -> f64) {
    let rows = example.rows();
    assert!(rows.len() > 80, "{} rows", rows.len());
    let (last, rows) = rows.split_last().expect("rows");
    for &(volts, amperes) in rows {
        let wanted = current(volts);
        assert!(
            (amperes - wanted).abs() < 0.000_000_501,
            "{volts} V: {wanted} A"
        );
    }
    assert_eq!(last.1, 0.0);
    assert!(
        current(last.0) <= 0.0 && current(last.0 - 0.001) > 0.0,
        "{} V",
        last.0
    );
}

#[test]
fn the_panel_is_what_its_formula_gives() {
    let panel = Parameters::of("examples/panel.csv");
    assert!(panel
        .0
        .contains("#   I = IL - I0 * (exp(V / (N * n * k * T / q)) - 1)\n"));
    let [light, saturation] = ["IL", "I0"].map(|name| panel.get(name));
    let thermal = panel.thermal();
    is_made_by(&panel, |volts| {
        light - saturation * ((volts / thermal).exp() - 1.0)
    });
}

/// The formula has the voltage at a current, which falls as that rises: halving finds the
/// current at a voltage.
#[test]
fn the_shaded_panel_is_what_its_formula_gives() {
    let panel = Parameters::of("examples/shaded-panel.csv");
    assert!(panel.0.contains(
        "#   V = v(IL) + max(v(IS), -VB),   v(L) = N * n * k * T / q * ln((L - I) / I0 + 1)\n"
    ));
    let [lit, shaded, drop, saturation] = ["IL", "IS", "VB", "I0"].map(|name| panel.get(name));
    let thermal = panel.thermal();
    let cell = |light: f64, current: f64| match (light - current) / saturation + 1.0 {
        inner if inner > 0.0 => thermal * inner.ln(),
        _ => f64::NEG_INFINITY,
    };
    let volts = |current: f64| cell(lit, current) + cell(shaded, current).max(-drop);
    is_made_by(&panel, |wanted| {
        let (mut low, mut high) = (-saturation, lit);
        for _ in 0..200 {
            let middle = (low + high) / 2.0;
            match volts(middle) > wanted {
                true => low = middle,
                false => high = middle,
            }
        }
        (low + high) / 2.0
    });
    // It is the other panel, but for the shadow.
    let whole = Parameters::of("examples/panel.csv");
    for same in ["IL", "I0", "n", "T", "k", "q"] {
        assert_eq!(panel.get(same), whole.get(same), "{same}");
    }
    assert_eq!(2.0 * panel.get("N"), whole.get("N"));
}
