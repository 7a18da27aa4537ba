//! What the library may cost, and what was measured held against it.

use crate::measure::Result;
use std::collections::BTreeSet;

/// The row of the bytes of constants, which has nothing to spare: the area that
/// they stand in is full.
pub const CONSTANTS: &str = "constants";

/// A row of the budget, or of what was measured.
#[derive(Debug, PartialEq)]
pub struct Row {
    /// Instructions a call, or bytes.
    pub amount: u64,
    /// What takes them.
    pub name: String,
}

/// The rows of a budget as `host/bench/budget` is written: an amount and a name
/// to a line, but for empty lines and those that begin with `#`.
pub fn rows(text: &str) -> Result<Vec<Row>> {
    let mut rows = Vec::new();
    let mut names = BTreeSet::new();
    for line in text.lines().map(str::trim) {
        if line.is_empty() || line.starts_with('#') {
            continue;
        }
        let (amount, name) = line.split_once(' ').ok_or_else(|| no_row(line))?;
        let amount = amount.parse().map_err(|_| no_row(line))?;
        let name = name.trim_start().to_string();
        if !names.insert(name.clone()) {
            return Err(format!("the budget has '{name}' twice").into());
        }
        rows.push(Row { amount, name });
    }
    Ok(rows)
}

fn no_row(line: &str) -> String {
    format!("the budget's line '{line}' is not an amount and a name")
}

/// The amount of a row, if it is there.
pub fn amount(rows: &[Row], name: &str) -> Option<u64> {
    rows.iter()
        .find(|row| row.name == name)
        .map(|row| row.amount)
}

/// The most that a row may cost: a tenth over its budget.
fn most(budget: u64, name: &str) -> u64 {
    match name {
        CONSTANTS => budget,
        _ => 11 * budget / 10,
    }
}

/// What is wrong, a line each: a row that is over its budget by more than it
/// may, one that has none, and a budget for what isn't measured.
pub fn complaints(budget: &[Row], measured: &[Row]) -> Vec<String> {
    let mut found = Vec::new();
    for Row { amount: cost, name } in measured {
        match amount(budget, name) {
            None => found.push(format!("{name}: {cost} measured, and no budget")),
            Some(budget) if *cost > most(budget, name) => {
                let over = cost - budget;
                let percent = 100.0 * over as f64 / budget as f64;
                found.push(format!(
                    "{name}: budget {budget}, measured {cost}, over by {over} ({percent:.1} %)"
                ));
            }
            Some(_) => {}
        }
    }
    for Row {
        amount: budget,
        name,
    } in budget
    {
        if amount(measured, name).is_none() {
            found.push(format!("{name}: budget {budget}, and nothing measured"));
        }
    }
    found
}

#[cfg(test)]
mod tests {
    use super::*;

    fn row(amount: u64, name: &str) -> Row {
        let name = name.to_string();
        Row { amount, name }
    }

    /// What is said of a tick with a budget of 1,000.
    fn said_of(cost: u64) -> Vec<String> {
        complaints(&[row(1_000, "tick")], &[row(cost, "tick")])
    }

    #[test]
    fn over_by_up_to_a_tenth_is_kept() {
        for cost in [0, 500, 1_000, 1_090, 1_100] {
            assert!(said_of(cost).is_empty(), "{cost}");
        }
    }

    #[test]
    fn over_by_more_is_not() {
        let said = ["tick: budget 1000, measured 1110, over by 110 (11.0 %)"];
        assert_eq!(said_of(1_110), said);
        assert_eq!(said_of(1_101).len(), 1);
    }

    #[test]
    fn constants_have_nothing_to_spare() {
        let said_of = |cost| complaints(&[row(356, CONSTANTS)], &[row(cost, CONSTANTS)]);
        assert!(said_of(356).is_empty());
        let said = ["constants: budget 356, measured 357, over by 1 (0.3 %)"];
        assert_eq!(said_of(357), said);
    }

    #[test]
    fn each_row_has_its_own_budget() {
        let budget = [row(1_000, "tick"), row(100, "order")];
        let measured = [row(1_000, "order"), row(100, "tick")];
        let said = ["order: budget 100, measured 1000, over by 900 (900.0 %)"];
        assert_eq!(complaints(&budget, &measured), said);
    }

    #[test]
    fn a_row_without_a_budget_is_told() {
        let said = ["tick: 7 measured, and no budget"];
        assert_eq!(complaints(&[], &[row(7, "tick")]), said);
    }

    #[test]
    fn a_budget_without_a_row_is_told() {
        let said = ["tick: budget 7, and nothing measured"];
        assert_eq!(complaints(&[row(7, "tick")], &[]), said);
    }

    #[test]
    fn a_budget_is_read() {
        let text = "# head\n\n   7  order, done\n1200 tick (2)\n";
        let wanted = vec![row(7, "order, done"), row(1_200, "tick (2)")];
        assert_eq!(rows(text).ok(), Some(wanted));
    }

    #[test]
    fn what_is_no_budget_is_not_read() {
        for text in ["7", "tick", "tick 7", "-7 tick", "7 tick\n8  tick"] {
            assert!(rows(text).is_err(), "{text}");
        }
    }
}
