//! What became of the modules, in words.

use crate::image::{Image, Power};
use crate::words::{count, list};
use ems::Module;

/// The modules whose power changed, those with the same fate together.
pub fn changes(before: &Image, after: &Image, shorts: u8) -> Vec<String> {
    let mut fates: Vec<(Fate, Vec<String>)> = Vec::new();
    for module in Module::ALL {
        let short = shorts & module.bit() != 0;
        let Some(fate) = Fate::of(before.power(module), after.power(module), short) else {
            continue;
        };
        let module = module.to_string();
        match fates.iter_mut().find(|(other, _)| *other == fate) {
            Some((_, modules)) => modules.push(module),
            None => fates.push((fate, vec![module])),
        }
    }
    let said = fates.iter().map(|(fate, modules)| fate.said(modules));
    said.collect()
}

/// What became of a module in a tick.
#[derive(PartialEq, Eq)]
enum Fate {
    /// On, off or failed, in these words.
    Is(String),
    /// Tried, and shorted; with what is left.
    ShortedAtStart(String),
    /// It has so many tries, and had spent some of them.
    AllTries(u16),
}

impl Fate {
    /// Nothing where only its seconds ran.
    fn of(before: Power, after: Power, short: bool) -> Option<Fate> {
        let left = left(after);
        match (before, after) {
            (Power::On { .. }, Power::On { tries, .. }) => {
                let back = before.tries_left().is_some() && after.tries_left().is_none();
                back.then_some(Fate::AllTries(tries))
            }
            (Power::Off(was), Power::Off(is)) => (is < was).then_some(Fate::ShortedAtStart(left)),
            (Power::Failed(was), Power::Failed(is)) => {
                (is > was).then_some(Fate::ShortedAtStart(left))
            }
            (_, Power::On { .. }) => Some(Fate::Is(format!("on{left}"))),
            (_, Power::Off(_)) if short => Some(Fate::Is(format!("off, shorted{left}"))),
            (_, Power::Off(_)) => Some(Fate::Is(format!("off{left}"))),
            (_, Power::Failed(_)) => Some(Fate::Is(format!("failed{left}"))),
        }
    }

    /// What is said of the modules that have it.
    fn said(&self, modules: &[String]) -> String {
        let (has, its) = match modules {
            [_] => ("has", "its"),
            _ => ("have", "their"),
        };
        let modules = list(modules);
        match self {
            Fate::Is(said) => format!("{modules} {said}"),
            Fate::ShortedAtStart(left) => format!("{modules} shorted at {its} start{left}"),
            Fate::AllTries(tries) => format!("{modules} {has} all {tries} tries again"),
        }
    }
}

/// What is said of the tries that are left, where some are spent, or of the seconds.
fn left(power: Power) -> String {
    let tries = |tries: u16| format!(", {} left", count(u64::from(tries), "try"));
    match power {
        Power::Failed(seconds) => format!(", {} to wait", count(u64::from(seconds), "second")),
        power => power.tries_left().map(tries).unwrap_or_default(),
    }
}
