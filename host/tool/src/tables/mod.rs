//! The interface's names and sizes, each once: kinds with their fields, origins,
//! answers. There is no rule, and no range but that of a timed order's minutes:
//! those are the library's. Modules, modes and beacons are the wrapper's.

mod frames;
mod names;

pub use frames::{
    greeted, kind_of, origin, origins, shorts, timed, Field, Kind, Written, BATTERY, GREETING,
    KINDS, ORDER, TICK, TIMED,
};
pub use names::{answer, beacon, loses_the_cut, may_be_passed_over, meaning, mode};

/// The library is asked whether it sees the same.
#[cfg(test)]
mod tests {
    use super::*;
    use crate::script::in_words;
    use ems::{answer, Craft, Module, REPORT_BYTES};

    fn answer_to(frame: &[u8]) -> u8 {
        Craft::fresh().step(frame, &mut [0; REPORT_BYTES])
    }

    #[test]
    fn the_kinds_are_those_that_the_library_reads() {
        for byte in 0..=u8::MAX {
            let unknown = answer_to(&[byte]) == answer::UNKNOWN_KIND;
            assert_eq!(unknown, kind_of(byte).is_none(), "kind {byte:02X}");
        }
    }

    #[test]
    fn the_totals_are_the_library_s() {
        for kind in &KINDS {
            for length in 1..64 {
                let mut frame = vec![0; length];
                frame[0] = kind.byte;
                let bad = answer_to(&frame) == answer::BAD_LENGTH;
                assert_eq!(bad, length != kind.total(), "{}, {length} bytes", kind.name);
            }
        }
    }

    /// A line of a script has the minutes, and the names of modules, that the
    /// library takes, and no others.
    #[test]
    fn a_timed_order_s_words_are_those_that_the_library_takes() {
        let written = |module: u8, minutes: u16| {
            let [high, low] = minutes.to_be_bytes();
            let frame = [TIMED, 1, 0, 17, module, high, low];
            let refused = answer_to(&frame) == answer::BAD_FIELD;
            (in_words(&frame), refused)
        };
        for minutes in 0..=u16::MAX {
            let (line, refused) = written(Module::Payload.number(), minutes);
            let named = line == format!("order ground 17 PAYLOAD on for {minutes} min");
            assert_eq!(named, !refused, "{line}");
        }
        for module in 0..=u8::MAX {
            let (line, refused) = written(module, 20);
            let named = Module::of(module)
                .is_some_and(|module| line == format!("order ground 17 {module} on for 20 min"));
            assert_eq!(named, !refused, "{line}");
        }
    }
}
