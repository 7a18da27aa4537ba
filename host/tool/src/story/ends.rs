//! What became of the modules' ends, in words.

use crate::board::Step;
use crate::words::{count, list};
use ems::Module;

/// What is said of the modules' ends.
#[derive(Default)]
pub struct Ends {
    /// Of those that came.
    pub came: Vec<String>,
    /// Of those that were set, moved or dropped.
    pub others: Vec<String>,
    dropped: Vec<String>,
    /// The modules of whose requests this tells as well, as a mask.
    pub told: u8,
}

impl Ends {
    pub fn of(step: &Step) -> Ends {
        let mut ends = Ends::default();
        for module in Module::ALL {
            ends.look_at(step, module);
        }
        match &ends.dropped[..] {
            [] => {}
            [module] => ends.others.push(format!("{module}'s end is dropped")),
            modules => ends
                .others
                .push(format!("the ends of {} are dropped", list(modules))),
        }
        ends
    }

    fn look_at(&mut self, step: &Step, module: Module) {
        let (before, after) = (step.before.end(module), step.after.end(module));
        // Nothing is said where only its seconds ran.
        if before == after || step.is_tick() && after > 0 {
            return;
        }
        let changed = (step.before.requests() ^ step.after.requests()) & module.bit();
        let time = minutes(after);
        match (before, after) {
            // Its last second has passed.
            (1, 0) if step.is_tick() && changed != 0 => {
                self.told |= changed;
                self.came.push(over(module, step.times.of(module)));
            }
            (_, 0) => self.dropped.push(module.to_string()),
            (0, _) if changed != 0 => {
                self.told |= changed;
                let said = format!("{module} requested on for {time}");
                self.others.push(said);
            }
            (0, _) => self
                .others
                .push(format!("{module}'s end is set: in {time}")),
            _ => self
                .others
                .push(format!("{module}'s end is moved: in {time}")),
        }
    }
}

fn over(module: Module, seconds: u32) -> String {
    let are = if seconds == 60 { "is" } else { "are" };
    format!("{module}'s {} {are} over: requested off", minutes(seconds))
}

/// Seconds as whole minutes, if that is what they are.
fn minutes(seconds: u32) -> String {
    match seconds % 60 {
        0 => count(u64::from(seconds / 60), "minute"),
        _ => count(u64::from(seconds), "second"),
    }
}
