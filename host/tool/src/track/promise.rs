//! What is promised of a walk: what the promise asks of it, and what it says.

use super::{millivolts, milliwatts, Crossing, Peak, Point, Stay, Walk};
use crate::words::{count, thousands};

/// The promise, held against a walk.
pub struct Promise {
    /// Of how many set points there are readings.
    visited: u64,
    /// Two steps.
    room: u32,
    /// Why the walk is not one that is spoken of.
    premises: Option<String>,
    /// The call that first crossed the peak, and where the walk strayed after that.
    crossed: Option<(usize, Option<String>)>,
}

impl Promise {
    pub fn of(walk: &Walk, peak: &Peak) -> Promise {
        let visited = walk.visited();
        let room = walk.length().saturating_mul(2);
        let crossed = Crossing::of(walk, peak).map(|Crossing { call, .. }| {
            let stay = Stay::since(call, walk, peak);
            (call, (stay.farthest >= room).then(|| strayed(&stay, walk)))
        });
        let premises = dark(peak).or_else(|| not_one_peak(&visited, peak));
        Promise {
            visited: visited.len() as u64,
            room,
            premises,
            crossed,
        }
    }

    /// Whether the walk is one that is spoken of; else why not.
    pub fn premises(&self) -> Result<(), &str> {
        self.premises.as_deref().map_or(Ok(()), Err)
    }

    /// Whether what is promised holds; else where it doesn't.
    pub fn conclusions(&self) -> Result<(), &str> {
        let strayed = self
            .crossed
            .as_ref()
            .and_then(|(_, strayed)| strayed.as_deref());
        strayed.map_or(Ok(()), Err)
    }

    /// All of it in words.
    pub fn verdict(&self) -> String {
        let premises = match &self.premises {
            Some(why) => format!("do not hold: {why}"),
            None => format!(
                "hold: the readings at {} rise strictly up to the peak and fall strictly \
                 past it",
                count(self.visited, "set point"),
            ),
        };
        format!("The premises {premises}.\nSo {}.\n", self.promised())
    }

    fn promised(&self) -> String {
        let near = format!(
            "less than two steps, {}, from the peak",
            millivolts(self.room)
        );
        let (call, strayed) = match (&self.crossed, &self.premises) {
            (Some(crossed), _) => crossed,
            (None, Some(_)) => return "nothing is promised".to_string(),
            (None, None) => return format!("it is promised that once it crosses it stays {near}"),
        };
        let promised = match self.premises {
            Some(_) => "nothing is promised, and",
            None => "it is promised that",
        };
        let holds = match strayed {
            Some(at) => format!("DOES NOT HOLD: {at}"),
            None => "holds".to_string(),
        };
        let call = thousands(*call as u64);
        format!("{promised} from call {call} on the set point is {near}: {holds}")
    }
}

/// Where a walk was farthest from the peak.
fn strayed(stay: &Stay, walk: &Walk) -> String {
    let set_point = millivolts(walk.points[stay.call].set_point);
    let (call, away) = (thousands(stay.call as u64), millivolts(stay.farthest));
    format!("call {call}, {set_point}, {away} from the peak")
}

/// At 0 mV there is no power, and so no peak: it is only found there in the dark.
fn dark(peak: &Peak) -> Option<String> {
    let none = peak.set_point == 0;
    none.then(|| "there is no peak, as the panel gives no power".to_string())
}

/// Two set points beside each other whose readings don't rise up to the peak, or don't
/// fall past it. Between those around the peak there is nothing to ask.
fn not_one_peak(visited: &[Point], peak: &Peak) -> Option<String> {
    visited.windows(2).find_map(|ends| {
        let [a, b] = [ends[0], ends[1]];
        let (strict, should) = if b.set_point <= peak.set_point {
            (a.microwatts() < b.microwatts(), "rise strictly up to")
        } else if a.set_point >= peak.set_point {
            (a.microwatts() > b.microwatts(), "fall strictly past")
        } else {
            return None;
        };
        (!strict).then(|| {
            let [low, high] = [a, b].map(|point| millivolts(point.set_point));
            let [first, then] = [a, b].map(|point| milliwatts(point.milliwatts()));
            format!(
                "the readings must {should} the peak, and from {low} to {high} they don't: \
                 {first}, then {then}"
            )
        })
    })
}

#[cfg(test)]
pub mod tests {
    use super::*;
    use ems::Reading;

    pub fn peak(set_point: u32) -> Peak {
        let milliwatts = 1_000.0;
        Peak {
            set_point,
            milliwatts,
        }
    }

    /// A walk that no library made, over a power with its one peak at 3,000 mV.
    pub fn walk(set_points: &[u32]) -> Walk {
        let point = |&set_point: &u32| Point {
            set_point,
            reading: Reading {
                millivolts: 100,
                milliamperes: 5_000_u32.saturating_sub(set_point.abs_diff(3_000)),
            },
            step: 100,
        };
        Walk {
            points: set_points.iter().map(point).collect(),
            refused: None,
        }
    }

    /// It is proved that this is never seen.
    #[test]
    fn a_walk_that_strays_contradicts_the_promise() {
        let walk = walk(&[2_900, 3_000, 3_100, 3_200, 3_201, 3_300]);
        let promise = Promise::of(&walk, &peak(3_000));
        assert_eq!(promise.premises(), Ok(()));
        let strayed = "call 5, 3,300 mV, 300 mV from the peak";
        assert_eq!(promise.conclusions(), Err(strayed));
        assert!(promise.verdict().ends_with(&format!(
            "\nSo it is promised that from call 1 on the set point is less than two \
             steps, 200 mV, from the peak: DOES NOT HOLD: {strayed}.\n"
        )));
    }

    #[test]
    fn two_steps_are_straying_and_a_millivolt_less_is_not() {
        for (far, strays) in [(2_801, false), (3_199, false), (2_800, true), (3_200, true)] {
            let promise = Promise::of(&walk(&[2_900, 3_000, far]), &peak(3_000));
            assert_eq!(promise.premises(), Ok(()));
            assert_eq!(promise.conclusions().is_err(), strays, "{far}");
            let holds = promise.verdict().ends_with(" from the peak: holds.\n");
            assert_eq!(holds, !strays, "{far}");
        }
    }

    /// From a millivolt above 0 mV to 20,000 mV. At 0 mV there is none.
    #[test]
    fn a_peak_may_be_near_an_end_or_at_it() {
        for at in [1, 199, 200, 19_800, 19_801, 20_000] {
            let promise = Promise::of(&walk(&[at]), &peak(at));
            assert_eq!(promise.premises(), Ok(()), "{at}");
        }
        let promise = Promise::of(&walk(&[0]), &peak(0));
        let why = "there is no peak, as the panel gives no power";
        assert_eq!(promise.premises(), Err(why));
    }

    /// Nearer than two steps there is less than that on one side; on the other a walk can
    /// stray.
    #[test]
    fn two_steps_from_a_peak_near_an_end_are_straying() {
        for (at, ends, far) in [
            (150, [149, 0], 350),
            (1, [1, 0], 201),
            (19_850, [19_851, 20_000], 19_650),
            (20_000, [20_000, 20_000], 19_800),
        ] {
            let judged = |set_points: &[u32]| {
                let mut walk = walk(set_points);
                for point in &mut walk.points {
                    point.reading.milliamperes = 5_000 - point.set_point.abs_diff(at);
                }
                let promise = Promise::of(&walk, &peak(at));
                assert_eq!(promise.premises(), Ok(()), "{at}");
                promise.conclusions().is_ok()
            };
            assert!(judged(&[at, ends[0], ends[1]]), "{at}");
            let inside = if far > at { far - 1 } else { far + 1 };
            assert!(judged(&[at, ends[1], inside]), "{at}");
            assert!(!judged(&[at, ends[1], far]), "{at}");
        }
    }

    /// What is not strict is told, below the peak, at it and past it; what is the same
    /// on both sides of it is not.
    #[test]
    fn readings_rise_strictly_and_fall_strictly() {
        let mut walk = walk(&[2_900, 2_950, 3_050, 3_100]);
        let mut judged = |at: usize, milliamperes: u32| {
            walk.points[at].reading.milliamperes = milliamperes;
            let judged = Promise::of(&walk, &peak(3_000));
            judged.premises().err().unwrap_or_default().to_string()
        };
        assert_eq!(judged(1, 4_950), "");
        assert!(judged(1, 4_900).contains("rise strictly up to the peak, and from 2,900 mV to "));
        assert!(judged(1, 4_899).contains(": 490 mW, then 489.9 mW"));
        assert_eq!(judged(1, 4_901), "");
        assert!(judged(3, 4_950).contains("fall strictly past the peak, and from 3,050 mV to "));
        assert_eq!(judged(3, 4_949), "");
    }

    /// A walk that comes by the peak itself is asked for that too.
    #[test]
    fn the_peak_is_higher_than_its_neighbours() {
        for (at, from) in [(0, "2,900"), (2, "3,000")] {
            let mut walk = walk(&[2_900, 3_000, 3_100]);
            assert_eq!(Promise::of(&walk, &peak(3_000)).premises(), Ok(()));
            walk.points[at].reading.milliamperes = 5_000;
            let promise = Promise::of(&walk, &peak(3_000));
            let why = promise.premises().expect_err("it is as high");
            assert!(why.contains(&format!("from {from} mV to ")), "{why}");
        }
    }
}
