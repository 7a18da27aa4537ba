//! A report in words, and what in it no board says.

use crate::tables::{self, kind_of, Kind, ORDER, TICK, TIMED};
use crate::words::{list, modules};
use ems::{answer, Beacon, Mode, Report};

/// A report in words; where no board sends it, why.
pub fn in_words(report: &Report) -> String {
    let kind = kind_of(report.kind);
    let name = kind.map_or_else(|| format!("{:02X}", report.kind), |kind| kind.name.into());
    let order = match (report.origin, report.serial) {
        (0, 0) => String::new(),
        (origin, serial) => format!(" {} {serial}", sender(origin)),
    };
    let mask = |name: &str, mask: u8| format!("{name} {mask:02X} {}", modules(mask).join(","));
    let mut parts = vec![
        format!("a report: {name}{order}: {}", tables::answer(report.answer)),
        tables::mode(report.mode),
        mask("requested", report.requested),
        mask("on", report.on),
        mask("failed", report.failed),
        format!("{} beacon", tables::beacon(report.beacon)),
    ];
    let wrong = impossible(report, kind);
    if !wrong.is_empty() {
        parts.push(format!("no board sends this: {}", list(&wrong)));
    }
    let parts: Vec<&str> = parts.iter().map(|part| part.trim_end()).collect();
    parts.join("; ")
}

fn sender(origin: u8) -> String {
    tables::origin(origin).map_or_else(|| origin.to_string(), str::to_string)
}

/// What a report has that no board's report has: numbers that stand for nothing,
/// and numbers that don't go together.
fn impossible(report: &Report, kind: Option<&Kind>) -> Vec<String> {
    let wrong = match kind {
        Some(kind) => strangers(report).into_iter().chain(quarrels(report, kind)),
        None => return vec!["no such kind is answered".to_string()],
    };
    wrong.collect()
}

/// Numbers that stand for nothing.
fn strangers(report: &Report) -> Vec<String> {
    let checks = [
        (
            !answer::has_report(report.answer),
            format!("answer {} has no report", report.answer),
        ),
        (
            Mode::of(report.mode).is_none(),
            format!("there is no mode {}", report.mode),
        ),
        (
            report.beacon != 0 && Beacon::of(report.beacon).is_none(),
            format!("there is no beacon {}", report.beacon),
        ),
    ];
    found(checks)
}

/// Numbers that don't go together.
fn quarrels(report: &Report, kind: &Kind) -> Vec<String> {
    let (mode, due) = (Mode::of(report.mode), Beacon::of(report.beacon));
    let numbered = kind.is_numbered();
    let unsent = !numbered && (report.origin, report.serial) != (0, 0);
    let (done, not_now) = (
        report.answer == answer::DONE,
        report.answer == answer::NOT_NOW,
    );
    let of_a_number = matches!(report.answer, answer::REPEAT | answer::STALE);
    let both = report.on & report.failed;
    let its_mode = due.map(|due| match due {
        Beacon::Basic => Mode::Recovery,
        Beacon::Complete | Beacon::Extended => Mode::Safe,
    });
    let checks = [
        (unsent, "this kind has no origin and no serial".to_string()),
        (
            numbered && tables::origin(report.origin).is_none(),
            format!("there is no origin {}", report.origin),
        ),
        (
            of_a_number && !numbered || not_now && ![ORDER, TIMED].contains(&kind.byte),
            "this kind has no such answer".to_string(),
        ),
        (
            not_now && mode == Some(Mode::Safe),
            "in SAFE it is never too early".to_string(),
        ),
        (
            kind.byte == TIMED && done && mode.is_some() && mode != Some(Mode::Safe),
            format!("it is not done in {}", tables::mode(report.mode)),
        ),
        (
            both != 0,
            format!("{} on and failed at once", list(&modules(both))),
        ),
        (
            due.is_some() && kind.byte != TICK,
            "only a tick makes a beacon due".to_string(),
        ),
        (
            mode.is_some() && its_mode.is_some_and(|its| mode != Some(its)),
            format!("no such beacon is due in {}", tables::mode(report.mode)),
        ),
    ];
    found(checks)
}

/// Those that apply.
fn found<const N: usize>(checks: [(bool, String); N]) -> Vec<String> {
    let found = checks.into_iter().filter(|(applies, _)| *applies);
    found.map(|(_, what)| what).collect()
}
