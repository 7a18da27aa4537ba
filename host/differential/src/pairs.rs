//! Frames for two craft from a seed: the same on both, but that the second's battery
//! reads as high or higher.

use crate::crossings::tensions;
use crate::frames::{Maker, Stream};
use crate::rng::Rng;
use crate::shrink::Shot;
use model::table::{
    ANTENNAS, BATTERY, FROM_GROUND, FROM_PAYLOAD, HIGHEST, KINDS, LOWEST, MISSION, ORDER, PAYLOAD,
    TICK, TIMED,
};
use model::{report, step, State};

/// The first craft's frame; how many millivolts more the second's has, if it is a reading;
/// and how many times they are sent.
pub type Leg = (Vec<u8>, u16, u8);

/// The second craft's frame of a leg: the first's, or a reading as high or higher, where
/// the first's is a reading in range. Then both are.
pub fn second((frame, more, _): &Leg) -> Vec<u8> {
    let reading = match frame[..] {
        [BATTERY, high, low] => u16::from_be_bytes([high, low]),
        _ => return frame.clone(),
    };
    if !(LOWEST..=HIGHEST).contains(&reading) {
        return frame.clone();
    }
    battery(HIGHEST.min(reading.saturating_add(*more)))
}

fn battery(reading: u16) -> Vec<u8> {
    let [high, low] = reading.to_be_bytes();
    vec![BATTERY, high, low]
}

/// Frames that lead both craft from the fresh start to the last seconds of settling.
pub fn lead_in() -> Vec<Shot> {
    let antennas = vec![ANTENNAS, 1];
    let ticks = vec![vec![TICK, 0]; 895];
    let frames = [antennas].into_iter().chain(ticks);
    frames.map(|frame| (frame, report::BYTES as u8)).collect()
}

/// The state that they lead to, from which all pairs fly.
pub fn start() -> State {
    let mut state = State::fresh();
    for (frame, room) in lead_in() {
        let report = step::step(&mut state, &frame, room.into());
        report.expect("each frame is reported on");
    }
    state
}

/// Legs for two craft in that state: so many that the mode is judged now and then, or some
/// dozen times.
pub fn flight(rng: &mut Rng, start: &State) -> Vec<Leg> {
    let mut board = Board {
        first: start.clone(),
    };
    let legs = rng.pick(&[20, 60, 120]);
    (0..legs).map(|_| board.next(rng)).collect()
}

/// What the frames are chosen by: the first craft, whose thresholds and last serials are
/// the second's too.
struct Board {
    first: State,
}

impl Board {
    fn next(&mut self, rng: &mut Rng) -> Leg {
        let any = rng.between(1, 35) as u8;
        let leg = match rng.below(20) {
            0..=7 => (vec![TICK, 0], 0, rng.pick(&[1, 2, 30, any])),
            8 => (vec![TICK, shorts(rng)], 0, rng.between(1, 6) as u8),
            9..=11 => self.reading(rng),
            12..=17 => (self.order(rng), 0, 1),
            18 => (self.by_the_table(rng), 0, 1),
            _ => (self.stream(Maker::Mutated).next(rng).0, 0, 1),
        };
        for _ in 0..leg.2 {
            // One that is refused leaves the craft as it is.
            let _ = step::step(&mut self.first, &leg.0, report::BYTES);
        }
        leg
    }

    /// A stream whose serials go on from the board's.
    fn stream(&self, maker: Maker) -> Stream {
        Stream::new(maker).after(self.first.last)
    }

    /// Two readings about the thresholds, or anywhere: often so that the craft are judged
    /// differently.
    fn reading(&self, rng: &mut Rng) -> Leg {
        let mut one = || {
            let any = rng.between(LOWEST, HIGHEST);
            let about = rng.pick(&tensions(&self.first));
            rng.pick(&[LOWEST, HIGHEST, about, about, any])
        };
        let (one, other) = (one(), one());
        (battery(one.min(other)), one.abs_diff(other), 1)
    }

    /// A fresh order: for one of the core four, for COMM2 most often, for one of the
    /// mission four, or of the payload; the last two with an end or without.
    fn order(&self, rng: &mut Rng) -> Vec<u8> {
        let (origin, module) = match rng.below(5) {
            0 | 1 => (FROM_GROUND, rng.pick(&[0, 1, 2, 2, 2, 5])),
            2 | 3 => (FROM_GROUND, rng.pick(&MISSION)),
            _ => (FROM_PAYLOAD, PAYLOAD),
        };
        let serial = self.first.last.of(origin).wrapping_add(1);
        let [high, low] = serial.to_be_bytes();
        let mut order = vec![ORDER, origin, high, low, module];
        if !MISSION.contains(&module) {
            order.push(rng.pick(&[0, 1]));
        } else if rng.once_in(2) {
            order.push(rng.pick(&[0, 1, 1]));
        } else {
            order[0] = TIMED;
            order.extend([0, rng.between(1, 3) as u8]);
        }
        order
    }

    /// A frame of any kind, its fields in range mostly; the same on both craft.
    fn by_the_table(&self, rng: &mut Rng) -> Vec<u8> {
        let kind = rng.one(&KINDS);
        self.stream(Maker::Structured).of_kind(rng, kind)
    }
}

/// The shorts of one module, of two, or of any.
fn shorts(rng: &mut Rng) -> u8 {
    let (one, other) = (1 << rng.below(8), 1 << rng.below(8));
    let any = rng.byte();
    rng.pick(&[one, one, one | other, any])
}
