//! From numbers to places along a panel's edge, and the round ones to write there.

/// Numbers from the least to the greatest, and where these two stand.
pub struct Scale {
    numbers: (f64, f64),
    places: (f64, f64),
}

impl Scale {
    pub fn new(numbers: (f64, f64), places: (f64, f64)) -> Scale {
        Scale { numbers, places }
    }

    /// Where a number stands; those outside stand at the edge.
    pub fn at(&self, number: f64) -> f64 {
        let ((least, greatest), (from, to)) = (self.numbers, self.places);
        let part = (number.clamp(least, greatest) - least) / (greatest - least);
        from + (to - from) * part
    }

    /// Round numbers with their places, by ones, twos or fives: no more than a few.
    pub fn round(&self, few: u64) -> Vec<(u64, f64)> {
        let (least, greatest) = self.numbers;
        let mut steps = (0..18).flat_map(|zeros| [1, 2, 5].map(|n| n * 10_u64.pow(zeros)));
        let fits = |step: &u64| (greatest - least) / (*step as f64) <= few as f64;
        let step = steps.find(fits).unwrap_or(u64::MAX);
        let first = (least / step as f64).ceil() as u64;
        let numbers = (first..).map(|n| n.saturating_mul(step));
        let within = numbers.take_while(|&number| number as f64 <= greatest);
        within
            .map(|number| (number, self.at(number as f64)))
            .collect()
    }
}

#[cfg(test)]
mod tests {
    use super::*;

    #[test]
    fn labels_are_round_and_few() {
        let round = |least: f64, greatest: f64| -> Vec<u64> {
            let scale = Scale::new((least, greatest), (0.0, 100.0));
            scale
                .round(8)
                .into_iter()
                .map(|(number, _)| number)
                .collect()
        };
        assert_eq!(round(0.0, 200.0), [0, 50, 100, 150, 200]);
        assert_eq!(round(2_923.0, 4_617.0), [3_000, 3_500, 4_000, 4_500]);
        assert_eq!(round(0.0, 1.0), [0, 1]);
        assert_eq!(round(0.0, 1_000_000.0).len(), 6);
        for greatest in 1..5_000 {
            let count = round(0.0, f64::from(greatest)).len();
            assert!((2..=9).contains(&count), "{greatest}: {count}");
        }
    }

    #[test]
    fn what_is_outside_stands_at_the_edge() {
        let scale = Scale::new((10.0, 20.0), (300.0, 100.0));
        assert_eq!(scale.at(10.0), 300.0);
        assert_eq!(scale.at(15.0), 200.0);
        assert_eq!(scale.at(25.0), 100.0);
        assert_eq!(scale.at(0.0), 300.0);
    }
}
