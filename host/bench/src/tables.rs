//! The tables of `docs/PERFORMANCE.md`: the library, the C version and the
//! model, measured in one run.

use crate::library::{BY_VALUE, EXPORTED};
use crate::measure::{self, Bench, Program, Result};
use crate::stack;
use crate::streams::{streams, Stream};
use std::env;
use std::path::{Path, PathBuf};

/// Lines that are printed as they are found, and kept for the page.
#[derive(Default)]
struct Lines(String);

impl Lines {
    fn push(&mut self, line: impl AsRef<str>) {
        println!("{}", line.as_ref());
        self.0 += line.as_ref();
        self.0 += "\n";
    }
}

/// Measures everything: what the page has of it.
pub fn measured(bench: &Bench) -> Result<String> {
    let library = bench.library_driver()?;
    let c_objects = bench.c_objects()?;
    let c = bench.c_driver(&c_objects)?;
    let mut lines = Lines::default();
    lines.push(format!("Measured on {}.", measure::today()?));
    lines.push("");
    calls(bench, &library, &c, &mut lines)?;
    lines.push("");
    growth(bench, &library, &mut lines)?;
    lines.push("");
    sizes(bench, &library, &c, &c_objects, &mut lines)?;
    Ok(lines.0)
}

/// The cost of a call, stream by stream.
fn calls(bench: &Bench, library: &Path, c: &Path, lines: &mut Lines) -> Result<()> {
    lines.push(
        "| call | instructions: library | of it by value | C | model | library / C | \
         ns: library | C | model |",
    );
    lines.push("|---|---:|---:|---:|---:|---:|---:|---:|---:|");
    let own = env::current_exe()?;
    for (place, stream) in streams().iter().enumerate() {
        let file = bench.stream_file(place, stream)?;
        let programs = [
            Program::new(library, file.clone()),
            Program::new(c, file),
            Program::new(&own, place.to_string()),
        ];
        lines.push(row(stream, &programs)?);
    }
    Ok(())
}

/// The stream's row, once all sides agree on what they have done.
fn row(stream: &Stream, programs: &[Program; 3]) -> Result<String> {
    let timed = match stream.call {
        b's' | b'b' | b't' | b'n' | b'm' => 1_000_000,
        _ => 20_000,
    };
    let mut counts = Vec::new();
    let mut times = Vec::new();
    let mut sums = Vec::new();
    for program in programs {
        counts.push(program.instructions_a_call(stream)?);
        let (nanoseconds, sum) = program.best_of_five(timed)?;
        times.push(nanoseconds / timed as f64);
        sums.push(sum);
    }
    if sums.iter().any(|sum| *sum != sums[0]) {
        return Err(format!("{}: the sides differ, {sums:?}", stream.name).into());
    }
    let [library, c, model] = counts[..] else {
        return Err("not three programs".into());
    };
    Ok(format!(
        "| {} | {library:.0} | {} | {c:.0} | {model:.0} | {:.2} | {:.1} | {:.1} | {:.1} |",
        stream.name,
        by_value(stream, &programs[0])?,
        library / c,
        times[0],
        times[1],
        times[2]
    ))
}

/// What the library's step takes by value, of a stream of frames.
fn by_value(stream: &Stream, library: &Program) -> Result<String> {
    Ok(match stream.call {
        b's' | b'b' | b'p' | b'o' => {
            let instructions = library.instructions_within(BY_VALUE, stream)?;
            format!("{instructions:.0}")
        }
        _ => String::new(),
    })
}

/// Ten times the frames, on the library.
fn growth(bench: &Bench, library: &Path, lines: &mut Lines) -> Result<()> {
    lines.push("| call | instructions of 100,000 over those of 10,000 |");
    lines.push("|---|---:|");
    for (place, stream) in streams().iter().enumerate() {
        if !matches!(stream.call, b's' | b'b') {
            continue;
        }
        let program = Program::new(library, bench.stream_file(place, stream)?);
        let base = program.instructions(1_000)?;
        let ten = program.instructions(11_000)? - base;
        let hundred = program.instructions(101_000)? - base;
        lines.push(format!("| {} | {:.3} |", stream.name, hundred / ten));
        if !(9.9..=10.1).contains(&(hundred / ten)) {
            return Err(format!("{}: not ten times the cost", stream.name).into());
        }
    }
    Ok(())
}

/// Bytes of code, of constants and of stack. The C version has no beacon but the
/// extended one.
fn sizes(
    bench: &Bench,
    library: &Path,
    c: &Path,
    c_objects: &[PathBuf],
    lines: &mut Lines,
) -> Result<()> {
    lines.push("| bytes | library | C |");
    lines.push("|---|---:|---:|");
    let archive = std::slice::from_ref(&bench.archive);
    lines.push(format!(
        "| code and constants (`size`: text) | {} | {} |",
        measure::code_bytes(archive)?,
        measure::code_bytes(c_objects)?
    ));
    lines.push(format!(
        "| constants of it (`size -A`: `.rodata`) | {} | {} |",
        measure::constant_bytes(archive)?,
        measure::constant_bytes(c_objects)?
    ));
    let theirs = stack::depths(&measure::disassembly(c)?);
    for (name, own) in stack::depths(&measure::disassembly(library)?) {
        let Some(call) = name.strip_prefix(EXPORTED) else {
            continue;
        };
        let peer = theirs.get(&format!("peer_{call}"));
        let peer = peer.map_or("none".into(), u64::to_string);
        lines.push(format!(
            "| stack of `{call}`, callees included (disassembly) | {own} | {peer} |"
        ));
    }
    for (function, bytes) in measure::stack_usage(c_objects)? {
        lines.push(format!(
            "| stack by `gcc -fstack-usage`: `{function}` | | {bytes} |"
        ));
    }
    Ok(())
}
