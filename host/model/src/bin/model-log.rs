//! Reads frames on standard input and prints the page's log.

use std::io::{stdin, stdout, Read, Result, Write};

fn main() -> Result<()> {
    let mut input = Vec::new();
    stdin().read_to_end(&mut input)?;
    stdout().write_all(model::step_log(&input).as_bytes())
}
