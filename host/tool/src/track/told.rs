//! A walk in words.

use super::{millivolts, milliwatts, Crossing, Curve, Peak, Promise, Stay, Walk};
use crate::words::{count, rounded, thousands};

/// So many more calls are tried where the walk has not come to the peak: with steps of
/// 1 mV, enough to go to both ends.
const FURTHER: u32 = 50_000;

/// The peak, when the walk came to it and where it stayed, and what is promised of it.
pub fn told(curve: &Curve, peak: &Peak, walk: &Walk, promise: &Promise) -> String {
    let (at, power) = (millivolts(peak.set_point), milliwatts(peak.milliwatts));
    let mut text = format!("The curve's peak is at {at}: {power}.\n");
    if walk.calls() == 0 {
        return text;
    }
    let crossing = Crossing::of(walk, peak);
    text += &match crossing {
        Some(crossing) => crossed(&crossing, peak, walk),
        None => uncrossed(curve, peak, walk),
    };
    let since = crossing.map_or(0, |crossing| crossing.call);
    text += &share(since, curve, peak, walk);
    if let Some(refused) = walk.refused {
        let call = thousands(u64::from(refused.call));
        text += &format!("Call {call} is refused: the walk ends there.\n");
    }
    format!("{text}\n{}", promise.verdict())
}

/// Where the walk crossed, and where it stayed.
fn crossed(crossing: &Crossing, peak: &Peak, walk: &Walk) -> String {
    let Crossing { call, from, to } = *crossing;
    let stay = Stay::since(call, walk, peak);
    let steps = match rounded(f64::from(stay.farthest) / f64::from(walk.length()), 2).as_str() {
        "1" => "1 step".to_string(),
        steps => format!("{steps} steps"),
    };
    let [from, to, low, high] = [from, to, stay.low, stay.high].map(millivolts);
    let (call, farthest) = (thousands(call as u64), millivolts(stay.farthest));
    format!(
        "Call {call} is the first to cross it, from {from} to {to}.\n\
         From then on the set point is between {low} and {high}: at most {farthest} from \
         the peak, {steps}.\n"
    )
}

/// How far the walk came, and when it would come to the peak: the library is asked.
fn uncrossed(curve: &Curve, peak: &Peak, walk: &Walk) -> String {
    let (stay, last) = (Stay::since(0, walk, peak), walk.last().set_point);
    let side = match last < peak.set_point {
        true => "below",
        false => "above",
    };
    let calls = count(walk.calls() as u64, "call");
    let away = millivolts(last.abs_diff(peak.set_point));
    let [low, high, last] = [stay.low, stay.high, last].map(millivolts);
    let later = match walk.refused {
        Some(_) => String::new(),
        None => later(curve, peak, walk),
    };
    format!(
        "The walk does not come to it in {calls}: the set point is between {low} and {high}, \
         at last {last}, {away} {side} the peak.{later}\n"
    )
}

/// Whether the walk would come to the peak with more calls, and with how many.
fn later(curve: &Curve, peak: &Peak, walk: &Walk) -> String {
    let (start, calls) = (walk.first(), walk.calls());
    let longer = u32::try_from(calls).map_or(u32::MAX, |calls| calls.saturating_add(FURTHER));
    let longer = Walk::on(curve, start.set_point, start.step, longer);
    match (Crossing::of(&longer, peak), longer.refused) {
        (Some(crossing), _) => {
            let more = count((crossing.call - calls) as u64, "more call");
            format!(" It comes there with {more}.")
        }
        (None, Some(refused)) => {
            let call = thousands(u64::from(refused.call));
            format!(" Nor does it later: call {call} is refused.")
        }
        (None, None) => format!(" Nor with {} more.", thousands(u64::from(FURTHER))),
    }
}

/// What the panel gives on average, beside its peak.
fn share(since: usize, curve: &Curve, peak: &Peak, walk: &Walk) -> String {
    if peak.milliwatts == 0.0 {
        return "The panel gives no power at all.\n".to_string();
    }
    let points = &walk.points[since..];
    let all: f64 = points
        .iter()
        .map(|point| curve.power(point.set_point))
        .sum();
    let share = 100.0 * all / points.len() as f64 / peak.milliwatts;
    let share = rounded(share, 1);
    format!("On average the panel gives {share} % of the peak's power there.\n")
}
