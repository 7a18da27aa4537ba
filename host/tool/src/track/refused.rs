//! A call that was refused, in words: which number is out of which range.

use super::millivolts;
use crate::failure::{Failure, REFUSED};
use crate::tables::meaning;
use crate::words::{count, thousands};
use ems::{Reading, LONGEST_STEP, MOST_MILLIAMPERES, MOST_MILLIVOLTS};

/// The call, and what it was given. The set point is what the meter reads after the
/// move; what it read before was taken by the call before.
#[derive(Clone, Copy, Debug)]
pub struct Refused {
    pub call: u32,
    pub answer: u8,
    pub reading: Reading,
    pub step: i32,
}

impl Refused {
    /// How a command ends with it.
    pub fn failure(&self, file: &str) -> Failure {
        let (call, answer) = (thousands(u64::from(self.call)), self.answer);
        let mut message = format!(
            "{file}: call {call} is refused: {answer}, {}",
            meaning(answer)
        );
        let faults = self.faults();
        if !faults.is_empty() {
            message += &format!(": {}", faults.join("; "));
        }
        Failure::new(REFUSED, message)
    }

    /// Every number that is out of its range.
    fn faults(&self) -> Vec<String> {
        let Reading {
            millivolts: set_point,
            milliamperes,
        } = self.reading;
        let mut faults = Vec::new();
        if set_point > MOST_MILLIVOLTS {
            let (is, most) = (millivolts(set_point), millivolts(MOST_MILLIVOLTS));
            faults.push(format!("the set point is {is}, and may be 0 to {most}"));
        }
        if milliamperes > MOST_MILLIAMPERES {
            let (at, is) = (millivolts(set_point), u64::from(milliamperes));
            let (is, most) = (thousands(is), thousands(u64::from(MOST_MILLIAMPERES)));
            faults.push(format!(
                "the current at {at} is {is} mA, and may be 0 to {most} mA"
            ));
        }
        let length = u64::from(self.step.unsigned_abs());
        if length == 0 || self.step.unsigned_abs() > LONGEST_STEP.unsigned_abs() {
            let (sign, most) = (if self.step < 0 { "-" } else { "" }, LONGEST_STEP);
            let is = count(length, "millivolt");
            faults.push(format!(
                "the step is {sign}{is}, and may be 1 to {most} either way"
            ));
        }
        faults
    }
}
