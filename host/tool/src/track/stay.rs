//! When a walk comes to the peak, and where it stays from then on.

use super::{Peak, Walk};

/// The first move that starts on one side of the peak, or at it, and ends on the other,
/// or at it.
#[derive(Clone, Copy, Debug, PartialEq, Eq)]
pub struct Crossing {
    /// The call that made it, from 1.
    pub call: usize,
    pub from: u32,
    pub to: u32,
}

impl Crossing {
    pub fn of(walk: &Walk, peak: &Peak) -> Option<Crossing> {
        let moves = walk.points.windows(2).enumerate();
        let mut moves = moves.map(|(at, ends)| Crossing {
            call: at + 1,
            from: ends[0].set_point,
            to: ends[1].set_point,
        });
        moves.find(|one| {
            let (low, high) = (one.from.min(one.to), one.from.max(one.to));
            (low..=high).contains(&peak.set_point)
        })
    }
}

/// The set points from a call on.
#[derive(Clone, Copy, Debug, PartialEq, Eq)]
pub struct Stay {
    pub low: u32,
    pub high: u32,
    /// How far from the peak at most, in millivolts, and after which call first.
    pub farthest: u32,
    pub call: usize,
}

impl Stay {
    pub fn since(call: usize, walk: &Walk, peak: &Peak) -> Stay {
        let set_point = walk.points[call].set_point;
        let mut stay = Stay {
            low: set_point,
            high: set_point,
            farthest: set_point.abs_diff(peak.set_point),
            call,
        };
        for (at, point) in walk.points.iter().enumerate().skip(call) {
            stay.low = stay.low.min(point.set_point);
            stay.high = stay.high.max(point.set_point);
            let away = point.set_point.abs_diff(peak.set_point);
            if away > stay.farthest {
                (stay.farthest, stay.call) = (away, at);
            }
        }
        stay
    }
}

#[cfg(test)]
mod tests {
    use super::*;
    use crate::track::promise::tests::{peak, walk};

    #[test]
    fn a_crossing_may_start_or_end_at_the_peak() {
        let crossing = |set_points: &[u32]| {
            let crossing = Crossing::of(&walk(set_points), &peak(3_000));
            crossing.map(|one| one.call)
        };
        assert_eq!(crossing(&[2_800, 2_900, 2_999]), None);
        assert_eq!(crossing(&[3_200, 3_100, 3_001]), None);
        assert_eq!(crossing(&[2_900, 3_000]), Some(1));
        assert_eq!(crossing(&[3_100, 3_000]), Some(1));
        assert_eq!(crossing(&[3_000, 2_900]), Some(1));
        assert_eq!(crossing(&[2_750, 2_850, 2_950, 3_050, 2_950]), Some(3));
        assert_eq!(crossing(&[3_000]), None);
    }

    #[test]
    fn a_stay_is_between_the_lowest_and_the_highest() {
        let walk = walk(&[2_700, 2_900, 3_100, 2_900, 2_850, 3_150]);
        let stay = Stay::since(2, &walk, &peak(3_000));
        assert_eq!((stay.low, stay.high), (2_850, 3_150));
        assert_eq!((stay.farthest, stay.call), (150, 4));
    }
}
