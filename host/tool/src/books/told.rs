//! Books in words, and as a table that other programs read.

use super::Books;
use crate::words::thousands;
use std::io::{self, Write};

/// What stands over the columns.
const HEADS: [&str; 5] = [
    "module",
    "seconds on",
    "seconds off",
    "seconds failed",
    "share on",
];

/// A row for each module, and whether they add up.
pub fn told(books: &Books) -> String {
    let mut rows = vec![HEADS.map(str::to_string)];
    for row in &books.rows {
        let [on, off, failed] = [row.on, row.off, row.failed].map(thousands);
        rows.push([row.module.to_string(), on, off, failed, row.share()]);
    }
    let widest = |column: usize| rows.iter().map(|row| row[column].len()).max();
    let [name, numbers @ ..] = [0, 1, 2, 3, 4].map(|column| widest(column).unwrap_or_default());
    let mut text = String::new();
    for [module, cells @ ..] in &rows {
        text += &format!("{module:name$}");
        for (cell, wide) in cells.iter().zip(numbers) {
            text += &format!("  {cell:>wide$}");
        }
        text += "\n";
    }
    let ticks = thousands(books.ticks);
    let add_up = "each module's seconds add up to that";
    let sums = match books.adds_up() {
        Ok(()) => format!("{ticks}, and {add_up}"),
        Err(whose) => format!("{ticks}. That {add_up} DOES NOT HOLD: {whose}"),
    };
    format!("{text}\nTicks done: {sums}.\n")
}

/// A row of CSV for each module.
pub fn table(output: &mut impl Write, books: &Books) -> io::Result<()> {
    writeln!(output, "module,on,off,failed,thousandths")?;
    for row in &books.rows {
        let (module, share) = (row.module, row.share);
        let (on, off, failed) = (row.on, row.off, row.failed);
        writeln!(output, "{module},{on},{off},{failed},{share}")?;
    }
    Ok(())
}
