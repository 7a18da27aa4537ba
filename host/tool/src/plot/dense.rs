//! A value with more changes than a panel has columns: a line would be a smear.

use super::svg::polygon;
use super::{LEFT, RIGHT};

/// The columns of a panel.
pub const COLUMNS: usize = (RIGHT - LEFT) as usize;

/// The shape between the highest and the lowest place of every column, of stretches
/// that are each from one place to another at a height.
pub fn band(stretches: impl Iterator<Item = (f64, f64, f64)>) -> String {
    let mut columns: [Option<(f64, f64)>; COLUMNS + 1] = [None; COLUMNS + 1];
    let column = |x: f64| (x - LEFT) as usize;
    for (from, to, y) in stretches {
        for seen in &mut columns[column(from)..=column(to)] {
            let (top, bottom) = seen.unwrap_or((y, y));
            *seen = Some((top.min(y), bottom.max(y)));
        }
    }
    let seen = columns.iter().enumerate().filter_map(|(at, seen)| {
        let x = LEFT + at as f64;
        seen.map(|(top, bottom)| (x, top, bottom))
    });
    let seen: Vec<(f64, f64, f64)> = seen.collect();
    let over = seen.iter().map(|&(x, top, _)| (x, top));
    let under = seen.iter().rev().map(|&(x, _, bottom)| (x, bottom));
    polygon(&over.chain(under).collect::<Vec<(f64, f64)>>())
}
