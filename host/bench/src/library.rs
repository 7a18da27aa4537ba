//! The library by itself: all of it that has a budget.

use crate::budget::{Row, CONSTANTS};
use crate::measure::{self, Bench, Program, Result};
use crate::stack;
use crate::streams::{self, streams, Stream};

/// How the names of its calls begin, and no other function's.
pub const EXPORTED: &str = "ems_";

/// Its step by value, as it is named there: what a step costs without the image.
pub const BY_VALUE: &str = "supervisor::step::step";

/// What it costs: instructions a call, bytes of code and of constants, bytes of
/// stack.
pub fn costs(bench: &Bench) -> Result<Vec<Row>> {
    let driver = bench.library_driver()?;
    let mut rows = Vec::new();
    let mut row = |name: String, amount| rows.push(Row { amount, name });
    for (place, stream) in streams().iter().enumerate() {
        let program = Program::new(&driver, bench.stream_file(place, stream)?);
        agrees(&program, stream)?;
        let instructions = program.instructions_a_call(stream)?;
        row(stream.name.into(), instructions.round() as u64);
    }
    let archive = std::slice::from_ref(&bench.archive);
    row("code and constants".into(), measure::code_bytes(archive)?);
    row(CONSTANTS.into(), measure::constant_bytes(archive)?);
    for (call, depth) in stack::depths(&measure::disassembly(&driver)?) {
        if call.starts_with(EXPORTED) {
            row(format!("stack of {call}"), depth);
        }
    }
    Ok(rows)
}

/// Whether it does on a stream what the model does: one that refused its image
/// would be cheap.
fn agrees(program: &Program, stream: &Stream) -> Result<()> {
    let (_, given) = program.timed(stream.counted)?;
    let (_, wanted) = streams::drive(stream, stream.counted);
    match given == wanted {
        true => Ok(()),
        false => Err(format!("{}: library and model differ", stream.name).into()),
    }
}
