//! What a call costs. `host/bench/run` has it measured beside the C version and
//! the model, and written to `docs/PERFORMANCE.md`; `host/bench/check` holds the
//! library's part against `host/bench/budget`. Both set this program up.

#![forbid(unsafe_code)]

mod budget;
mod library;
mod measure;
mod page;
mod stack;
mod streams;
mod tables;

use measure::{Bench, Result};
use std::{env, fs, process::ExitCode};
use streams::streams;

fn main() -> ExitCode {
    let arguments: Vec<String> = env::args().skip(1).collect();
    let words: Vec<&str> = arguments.iter().map(String::as_str).collect();
    let done = match words[..] {
        [] => run(),
        ["check"] => check(),
        // How this program is its own driver of the model.
        [place, calls] => drive(place, calls),
        _ => Err("no such arguments".into()),
    };
    match done {
        Ok(()) => ExitCode::SUCCESS,
        Err(error) => {
            eprintln!("bench: {error}");
            ExitCode::FAILURE
        }
    }
}

/// Measures everything, and writes it to the page.
fn run() -> Result<()> {
    let bench = Bench::new()?;
    let tables = tables::measured(&bench)?;
    let place = bench.package.join("../../docs/PERFORMANCE.md");
    let page = page::rewritten(&fs::read_to_string(&place)?, &tables)?;
    Ok(fs::write(place, page)?)
}

/// Measures the library, and holds it against its budget.
fn check() -> Result<()> {
    let bench = Bench::new()?;
    let budget = budget::rows(&fs::read_to_string(bench.package.join("budget"))?)?;
    let measured = library::costs(&bench)?;
    println!("budget  measured");
    for row in &measured {
        let budget = budget::amount(&budget, &row.name).map(|amount| amount.to_string());
        println!(
            "{:>6}  {:>8}  {}",
            budget.unwrap_or_default(),
            row.amount,
            row.name
        );
    }
    match budget::complaints(&budget, &measured) {
        found if found.is_empty() => Ok(()),
        found => Err(format!("host/bench/budget isn't kept\n{}", found.join("\n")).into()),
    }
}

/// Drives the model through a stream, and prints what `drive.c` prints.
fn drive(place: &str, calls: &str) -> Result<()> {
    let place: usize = place.parse()?;
    let streams = streams();
    let stream = streams.get(place).ok_or("no such stream")?;
    let (nanoseconds, sum) = streams::drive(stream, calls.parse()?);
    println!("{nanoseconds} {sum}");
    Ok(())
}
