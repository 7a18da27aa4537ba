//! `ems track`: the panel tracker on a panel's curve. It checks what the promise of two
//! steps asks of the walk, and shows what it promises.

use super::plot::title;
use crate::args::Track;
use crate::failure::{Failure, CONCLUSIONS, PREMISES};
use crate::output::{self, Output};
use crate::plot::tracker::{draw, Tracked};
use crate::source;
use crate::track::{table, told, Crossing, Curve, Promise, Walk};
use std::io::Write;
use std::path::Path;

pub fn run(track: &Track) -> Result<(), Failure> {
    if let Some(output) = &track.output {
        output::spare(&track.curve, output)?;
    }
    let (name, content) = source::whole(&track.curve)?;
    let curve = Curve::read(content).map_err(|mistakes| mistakes.failure(&name))?;
    let walk = Walk::on(&curve, track.start, track.step, track.calls);
    let peak = curve.peak();
    let promise = Promise::of(&walk, &peak);
    let told = told(&curve, &peak, &walk, &promise);
    // Where the first call is refused there is no walk to draw.
    if let Some(path) = track.output.as_deref().filter(|_| walk.calls() > 0) {
        let tracked = Tracked {
            curve: &curve,
            peak,
            walk: &walk,
            crossing: Crossing::of(&walk, &peak),
        };
        let title = title(track.title.as_deref(), &track.curve, &name);
        let mut output = Output::at(path)?;
        output.write_all(draw(&tracked, &title, &told).as_bytes())?;
        output.flush()?;
    }
    if track.output.as_deref() != Some(Path::new("-")) {
        let mut output = Output::standard()?;
        match track.table {
            true => table(&mut output, &walk)?,
            false => output.write_all(told.as_bytes())?,
        }
        output.flush()?;
    }
    ended(&name, &walk, &promise)
}

/// The status: what was refused first, then premises, then conclusions.
fn ended(name: &str, walk: &Walk, promise: &Promise) -> Result<(), Failure> {
    if let Some(refused) = walk.refused {
        return Err(refused.failure(name));
    }
    if let Err(why) = promise.premises() {
        let message = format!("{name}: the premises do not hold: {why}");
        return Err(Failure::new(PREMISES, message));
    }
    if let Err(what) = promise.conclusions() {
        let message = format!("{name}: the conclusion does not hold: {what}");
        return Err(Failure::new(CONCLUSIONS, message));
    }
    Ok(())
}
