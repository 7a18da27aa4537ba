//! The compiled library against the model: all groups, ten million calls and
//! more, from a seed that is printed.
//!
//! `EMS_SEED=n` runs again what a printed seed has run.

use differential::groups::GROUPS;
use differential::rng::Rng;
use differential::sides::{LIBRARY, MODEL};
use std::process::ExitCode;
use std::time::{Instant, SystemTime, UNIX_EPOCH};

/// The calls that a whole run makes at least.
const CALLS: u64 = 10_000_000;

fn main() -> ExitCode {
    let seed = seed();
    println!("\nlibrary against model, EMS_SEED={seed}");
    println!(
        "{:>10}  {:>7}  {:>20}  group",
        "calls", "seconds", "its seed"
    );
    let start = Instant::now();
    let mut calls = 0;
    for (place, (name, run)) in GROUPS.iter().enumerate() {
        let own_seed = seed.wrapping_add(place as u64);
        let began = Instant::now();
        match run(&[LIBRARY, MODEL], &mut Rng::new(own_seed)) {
            Ok(made) => {
                let seconds = began.elapsed().as_secs_f64();
                println!("{made:>10}  {seconds:>7.1}  {own_seed:>20}  {name}");
                calls += made;
            }
            Err(told) => {
                println!("DIFFERENCE in \"{name}\", seed {own_seed}:\n{told}");
                return ExitCode::FAILURE;
            }
        }
    }
    let seconds = start.elapsed().as_secs_f64();
    println!("{calls:>10}  {seconds:>7.1}  no difference\n");
    if calls < CALLS {
        println!("fewer than {CALLS} calls");
        return ExitCode::FAILURE;
    }
    ExitCode::SUCCESS
}

/// The seed asked for, or one from the clock.
fn seed() -> u64 {
    let asked = std::env::var("EMS_SEED").ok();
    asked.and_then(|seed| seed.parse().ok()).unwrap_or_else(|| {
        let now = SystemTime::now().duration_since(UNIX_EPOCH);
        now.map_or(0, |since| since.as_micros() as u64)
    })
}
