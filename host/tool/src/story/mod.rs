//! What a frame did to a board, in words: the difference of two images, and the
//! answer.

mod ends;
mod greeting;
mod powers;

use crate::board::Step;
use crate::image::{Image, Phase};
use crate::script::word_of;
use crate::tables::{self, shorts};
use crate::words::{list, modules, thousands};
use ems::{answer, Report};
use ends::Ends;
use std::cmp::Ordering;

/// What a frame changed, from one image to the next.
pub fn changes(frame: &[u8], step: &Step) -> Vec<String> {
    let (before, after) = (&step.before, &step.after);
    let ends = Ends::of(step);
    let mut said = Vec::new();
    if after.deployed() != before.deployed() {
        let position = if after.deployed() {
            "deployed"
        } else {
            "folded"
        };
        said.push(format!("antennas {position}"));
    }
    if after.tension() != before.tension() {
        said.push(format!("tension {}", millivolts(after.tension())));
    }
    if after.ascend() != before.ascend() {
        said.push(format!("ascend {}", millivolts(after.ascend())));
    }
    if after.descend() != before.descend() {
        said.push(format!("descend {}", millivolts(after.descend())));
    }
    if after.phase() == Phase::Settling && before.phase() == Phase::Waiting {
        said.push("waiting is over, settling begins".to_string());
    }
    said.extend(ends.came);
    if after.mode() != before.mode() {
        said.push(crossing(before, after));
    }
    said.extend(requests(before, after, ends.told));
    said.extend(ends.others);
    said.extend(powers::changes(before, after, shorts(frame)));
    said.extend(greeting::change(step));
    said
}

fn millivolts(number: u16) -> String {
    format!("{} mV", thousands(u64::from(number)))
}

/// A change of mode, with the numbers that it was judged by.
fn crossing(before: &Image, after: &Image) -> String {
    let (from, to) = (tables::mode(before.mode()), tables::mode(after.mode()));
    let modes = format!("{from} to {to}");
    if before.phase() != Phase::Over {
        format!("{modes}, settling is over")
    } else if after.mode() > before.mode() {
        format!(
            "{modes}, {}",
            judged(after.tension(), "ascend", after.ascend())
        )
    } else {
        format!(
            "{modes}, {}",
            judged(after.tension(), "descend", after.descend())
        )
    }
}

/// How the tension stands to a threshold.
fn judged(tension: u16, name: &str, threshold: u16) -> String {
    let stands = match tension.cmp(&threshold) {
        Ordering::Less => "below",
        Ordering::Equal => "at",
        Ordering::Greater => "above",
    };
    let (tension, threshold) = (millivolts(tension), millivolts(threshold));
    format!("tension {tension} {stands} {name} {threshold}")
}

/// The modules whose requests changed, but for those of which it is told already.
fn requests(before: &Image, after: &Image, told: u8) -> Vec<String> {
    let changed = (before.requests() ^ after.requests()) & !told;
    [("on", after.requests()), ("off", before.requests())]
        .into_iter()
        .filter(|(_, mask)| changed & mask != 0)
        .map(|(wanted, mask)| format!("{} requested {wanted}", list(&modules(changed & mask))))
        .collect()
}

/// What came of a frame that has a report: the answer, and what changed.
pub fn outcome(frame: &[u8], step: &Step, report: &Report) -> String {
    let serial = report.serial;
    match report.answer {
        answer::DONE => {
            let changes = changes(frame, step);
            if changes.is_empty() {
                "done, nothing changed".to_string()
            } else {
                format!("done, {}", changes.join("; "))
            }
        }
        answer::REPEAT => match last_number(step, report) {
            Some((origin, _)) => {
                format!("8, {serial} is a repeat of {origin}'s last number: nothing moved")
            }
            None => format!("8, {serial} is the number that a board begins with: nothing moved"),
        },
        answer::STALE => match last_number(step, report) {
            Some((origin, last)) => {
                format!("9, {serial} is stale, {origin}'s last number was {last}: nothing moved")
            }
            None => {
                let begin = step.before.serial(report.origin);
                format!("9, {serial} is stale beside the {begin} that a board begins with: nothing moved")
            }
        },
        answer::NOT_NOW => {
            let (module, mode) = (word_of(frame, "module"), tables::mode(report.mode));
            format!("10, {module} is not switched on in {mode}; {serial} is used up")
        }
        other => tables::answer(other),
    }
}

/// The sender of a frame and its last number, if the board has had one from it.
fn last_number(step: &Step, report: &Report) -> Option<(&'static str, u16)> {
    let origin = tables::origin(report.origin).filter(|_| step.numbered)?;
    Some((origin, step.before.serial(report.origin)))
}
