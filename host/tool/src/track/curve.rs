//! A panel's curve: the current that it gives at each voltage.

use ems::{Reading, MOST_MILLIVOLTS};

/// A place of the curve that its file has.
#[derive(Clone, Copy, Debug, PartialEq)]
pub struct Row {
    pub millivolts: u32,
    pub milliamperes: f64,
}

/// The rows, with straight lines between them. They rise in voltage from 0 on; at the
/// last one no current flows any more.
#[derive(Debug)]
pub struct Curve(Vec<Row>);

/// The set point at which a panel gives the most.
#[derive(Clone, Copy, Debug)]
pub struct Peak {
    pub set_point: u32,
    pub milliwatts: f64,
}

impl Curve {
    pub fn of(rows: Vec<Row>) -> Curve {
        Curve(rows)
    }

    /// The milliamperes at a voltage: none past the last row.
    pub fn current(&self, millivolts: u32) -> f64 {
        let next = self.0.partition_point(|row| row.millivolts <= millivolts);
        let (Some(a), Some(b)) = (self.0[..next].last(), self.0.get(next)) else {
            return 0.0;
        };
        let part = f64::from(millivolts - a.millivolts) / f64::from(b.millivolts - a.millivolts);
        a.milliamperes + (b.milliamperes - a.milliamperes) * part
    }

    /// The milliwatts at a voltage.
    pub fn power(&self, millivolts: u32) -> f64 {
        f64::from(millivolts) * self.current(millivolts) / 1_000.0
    }

    /// What a meter reads at a set point, in whole numbers: the voltage is the set
    /// point's own.
    pub fn reading(&self, set_point: u32) -> Reading {
        Reading {
            millivolts: set_point,
            milliamperes: self.current(set_point).round() as u32,
        }
    }

    /// The peak over all set points; of several that are as high, the first.
    pub fn peak(&self) -> Peak {
        let mut peak = Peak {
            set_point: 0,
            milliwatts: 0.0,
        };
        for set_point in 0..=MOST_MILLIVOLTS {
            let milliwatts = self.power(set_point);
            if milliwatts > peak.milliwatts {
                peak = Peak {
                    set_point,
                    milliwatts,
                };
            }
        }
        peak
    }

    /// The voltage of the last row.
    pub fn end(&self) -> u32 {
        self.0.last().map_or(0, |row| row.millivolts)
    }
}

#[cfg(test)]
mod tests {
    use super::*;

    fn curve(rows: &[(u32, f64)]) -> Curve {
        let row = |&(millivolts, milliamperes): &(u32, f64)| Row {
            millivolts,
            milliamperes,
        };
        Curve::of(rows.iter().map(row).collect())
    }

    #[test]
    fn between_rows_there_are_straight_lines_and_past_the_last_nothing() {
        let curve = curve(&[(0, 400.5), (1_000, 400.5), (3_000, 100.0), (4_000, 0.0)]);
        for (millivolts, milliamperes) in [
            (0, 400.5),
            (999, 400.5),
            (2_000, 250.25),
            (3_000, 100.0),
            (3_999, 0.1),
            (4_000, 0.0),
            (u32::MAX, 0.0),
        ] {
            let given = curve.current(millivolts);
            assert!((given - milliamperes).abs() < 1e-9, "{millivolts}: {given}");
        }
        // A half goes up.
        assert_eq!(curve.reading(500).milliamperes, 401);
        assert_eq!(curve.reading(2_000).milliamperes, 250);
        assert_eq!(curve.reading(25_000).millivolts, 25_000);
    }

    /// The product of a voltage and of a current that falls in a straight line is
    /// greatest in the middle.
    #[test]
    fn the_peak_is_where_the_power_is_greatest() {
        let peak = curve(&[(0, 600.0), (6_000, 0.0)]).peak();
        assert_eq!((peak.set_point, peak.milliwatts), (3_000, 900.0));
        // A panel that gives most past the last set point, and one in the dark.
        let peak = curve(&[(0, 1_000.0), (50_000, 0.0)]).peak();
        assert_eq!(peak.set_point, MOST_MILLIVOLTS);
        assert_eq!(curve(&[(0, 0.0)]).peak().milliwatts, 0.0);
    }
}
