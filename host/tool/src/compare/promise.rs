//! The two-craft promise: what it asks of two flights, and what it says of them.

use crate::script::in_words;
use crate::tables::{mode, shorts, BATTERY};
use crate::words::{count, list, modules, thousands};
use ems::{Module, Report};

/// The core four: no crossing moves their requests, and both modes that one leads to
/// allow them.
const CORE: u8 = !Module::MISSION;

/// A frame as it was sent, and what came of it.
type Sent<'a> = (&'a [u8], Result<Report, u8>);

/// What has been seen of the two flights so far.
#[derive(Default)]
pub struct Promise {
    /// The frames that were sent to both.
    frames: u64,
    /// Whether there was more that they were not sent.
    stopped: bool,
    /// Modules that saw a short, as a mask.
    shorted: u8,
    readings: u64,
    higher: u64,
    /// Why the flights are not those that are spoken of, first of all.
    premises: Option<String>,
    /// Where each conclusion first didn't hold.
    mode: Option<String>,
    requested: Option<String>,
    on: Option<String>,
    core: Option<String>,
}

impl Promise {
    /// Looks at what was sent to A and B as frame n.
    pub fn sent(&mut self, n: u64, a: Sent, b: Sent) {
        let wrong = match (reading(a.0), reading(b.0)) {
            (Some(first), Some(second)) => {
                self.readings += 1;
                self.higher += u64::from(second > first);
                out_of_range(a, "A")
                    .or_else(|| out_of_range(b, "B"))
                    .or_else(|| (second < first).then(|| "B's reading is lower".to_string()))
            }
            _ => (a.0 != b.0).then(|| "the frames are not the same".to_string()),
        };
        if let Some(wrong) = wrong {
            let (a, b) = (in_words(a.0), in_words(b.0));
            self.not_spoken_of(n, format!("{wrong}: `{a}` on A, `{b}` on B"));
        }
        self.shorted |= shorts(a.0);
        self.frames = n;
    }

    /// The flights are not looked at any further.
    pub fn stop(&mut self) {
        self.stopped = true;
    }

    /// The flights are not those that are spoken of, from frame n on.
    pub fn not_spoken_of(&mut self, n: u64, why: String) {
        let said = || format!("frame {}, {why}", thousands(n));
        self.premises.get_or_insert_with(said);
    }

    /// Looks at what the two boards report after frame n.
    pub fn found(&mut self, n: u64, a: &Report, b: &Report) {
        if a.mode > b.mode {
            let (a, b) = (mode(a.mode), mode(b.mode));
            let said = || format!("frame {}, A in {a} and B in {b}", thousands(n));
            self.mode.get_or_insert_with(said);
        }
        let n = thousands(n);
        let alone = |mask: u8| format!("frame {n}, {} at A alone", list(&modules(mask)));
        let requested = a.requested & !b.requested;
        if requested != 0 {
            self.requested.get_or_insert_with(|| alone(requested));
        }
        let on = a.on & !b.on & !self.shorted;
        if on != 0 {
            self.on.get_or_insert_with(|| alone(on));
        }
        let differ = (a.requested ^ b.requested) | (a.on ^ b.on) | (a.failed ^ b.failed);
        let core = differ & CORE;
        if core != 0 {
            let said = || format!("frame {n}, different in {}", list(&modules(core)));
            self.core.get_or_insert_with(said);
        }
    }

    /// Whether the flights are those that are spoken of; else why not.
    pub fn premises(&self) -> Result<(), &str> {
        self.premises.as_deref().map_or(Ok(()), Err)
    }

    /// Whether all that is promised holds; else what doesn't.
    pub fn conclusions(&self) -> Result<(), &str> {
        let broken = [&self.mode, &self.requested, &self.on, &self.core];
        let first = broken.into_iter().find_map(|at| at.as_deref());
        first.map_or(Ok(()), Err)
    }

    /// All of it in words.
    pub fn verdict(&self) -> String {
        let premises = match &self.premises {
            Some(why) => format!("do not hold: {why}"),
            None => format!(
                "hold: {}, the same on both but for {} of {}, all in range, none lower on B",
                count(self.frames, "frame"),
                thousands(self.higher),
                count(self.readings, "battery reading"),
            ),
        };
        let holds = |broken: &Option<String>| match broken {
            Some(at) => format!("DOES NOT HOLD: {at}"),
            None => "holds".to_string(),
        };
        let unshorted = match self.shorted {
            0 => "all eight, which saw no short".to_string(),
            shorted => format!("all but {}, which saw a short", list(&modules(shorted))),
        };
        let promised = match self.premises {
            Some(_) => "nothing is promised, and",
            None => "it is promised that",
        };
        format!(
            "The premises {premises}.\nSo {promised} {}:\n  \
             mode       B's is as good as A's or better: {}\n  \
             requested  of all eight, all that A has requested, B has: {}\n  \
             on         of {unshorted}, all that A has on, B has: {}\n  \
             core       of {}, shorted or not, both have the same requested, on and failed: {}\n",
            self.looked_at(),
            holds(&self.mode),
            holds(&self.requested),
            holds(&self.on),
            list(&modules(CORE)),
            holds(&self.core),
        )
    }

    /// The frames after which the two were compared.
    fn looked_at(&self) -> String {
        match (self.stopped, self.frames) {
            (false, _) => "after every frame".to_string(),
            (true, 1) => "after the first frame, where the comparison ended".to_string(),
            (true, frames) => format!(
                "after each of the first {} frames, where the comparison ended",
                thousands(frames)
            ),
        }
    }
}

/// The tension in a battery frame.
fn reading(frame: &[u8]) -> Option<u16> {
    match frame {
        [BATTERY, high, low] => Some(u16::from_be_bytes([*high, *low])),
        _ => None,
    }
}

/// A reading that the library refused.
fn out_of_range(sent: Sent, which: &str) -> Option<String> {
    sent.1
        .is_err()
        .then(|| format!("{which}'s reading is out of range"))
}

#[cfg(test)]
mod tests {
    use super::*;

    /// A report with these masks.
    fn report([requested, on, failed]: [u8; 3]) -> Report {
        let bytes = [0x81, 1, 0, 0, 0, 0, 2, requested, on, failed, 0];
        Report::read(&bytes).expect("a report")
    }

    /// Which conclusions don't hold of these masks, where these modules saw a short.
    fn broken(a: [u8; 3], b: [u8; 3], shorted: u8) -> [bool; 4] {
        let mut promise = Promise {
            shorted,
            ..Promise::default()
        };
        promise.found(1, &report(a), &report(b));
        let Promise {
            mode,
            requested,
            on,
            core,
            ..
        } = promise;
        [mode, requested, on, core].map(|broken| broken.is_some())
    }

    /// One module more in one mask of A or of B, for every module and mask.
    #[test]
    fn each_conclusion_speaks_of_its_masks_and_modules() {
        const NONE: [u8; 3] = [0; 3];
        for module in Module::ALL {
            let bit = module.bit();
            let core = CORE & bit != 0;
            for mask in 0..3 {
                let mut one = NONE;
                one[mask] = bit;
                let lost = [false, mask == 0, mask == 1, core];
                assert_eq!(broken(one, NONE, 0), lost, "{module} at A, mask {mask}");
                let short = [false, mask == 0, false, core];
                assert_eq!(broken(one, NONE, bit), short, "{module}, shorted");
                let more = [false, false, false, core];
                assert_eq!(broken(NONE, one, 0), more, "{module} at B, mask {mask}");
                assert_eq!(broken(one, one, 0), [false; 4], "{module} at both");
            }
        }
    }
}
