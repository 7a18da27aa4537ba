//! Keyed units as a WAV file: what a listener hears.
//!
//! One byte a unit, as `ems_key` writes them: 1 key down, 0 key up. A unit lasts
//! [`UNIT_MS`] / WPM milliseconds, which makes `PARIS ` (50 units) come out so many
//! times a minute.

#![forbid(unsafe_code)]
#![deny(missing_docs)]

use std::f64::consts::PI;

/// The milliseconds of a unit at one word a minute.
pub const UNIT_MS: u32 = 1_200;

/// Samples in a second.
pub const RATE: u32 = 22_050;

/// Seconds over which a tone rises and falls: short beside a unit, and long
/// enough not to click.
const EDGE: f64 = 0.003;

/// Units of silence before and after: a word's gap and a little more, so that a
/// listener who goes by the gaps he hears takes it for one.
const SILENCE: f64 = 8.0;

/// The loudest sample, well below what 16 bits hold.
const LOUDEST: f64 = 20_000.0;

/// The units as a WAV file: 16 bit, mono. A speed of 0 is taken as 1.
pub fn wav(units: &[u8], wpm: u32, tone_hz: u32) -> Vec<u8> {
    let samples = samples(units, wpm.max(1), tone_hz);
    let length = 2 * samples.len() as u32;
    let mut file = header(length);
    file.extend(samples.iter().flat_map(|sample| sample.to_le_bytes()));
    file
}

/// The milliseconds that so many units last, rounded up. A speed of 0 is taken as 1.
pub fn milliseconds(units: usize, wpm: u32) -> u64 {
    let at_one = units as u64 * u64::from(UNIT_MS);
    at_one.div_ceil(u64::from(wpm.max(1)))
}

/// The seconds of one unit.
fn unit_seconds(wpm: u32) -> f64 {
    f64::from(UNIT_MS) / 1_000.0 / f64::from(wpm)
}

/// The header of a file with so many bytes of samples.
fn header(length: u32) -> Vec<u8> {
    let mut header = Vec::from(*b"RIFF");
    header.extend((36 + length).to_le_bytes());
    header.extend(b"WAVEfmt ");
    header.extend(16_u32.to_le_bytes()); // the format's bytes
    header.extend(1_u16.to_le_bytes()); // plain samples
    header.extend(1_u16.to_le_bytes()); // mono
    header.extend(RATE.to_le_bytes());
    header.extend((2 * RATE).to_le_bytes()); // bytes a second
    header.extend(2_u16.to_le_bytes()); // bytes a sample
    header.extend(16_u16.to_le_bytes()); // bits a sample
    header.extend(b"data");
    header.extend(length.to_le_bytes());
    header
}

/// The samples: silence, the runs of units, silence.
fn samples(units: &[u8], wpm: u32, tone_hz: u32) -> Vec<i16> {
    let unit = unit_seconds(wpm);
    let silence = vec![0; count(SILENCE * unit)];
    let mut samples = silence.clone();
    // Ends are counted from the start, so that no run's rounding adds up.
    let (mut begin, mut passed) = (0, 0);
    for run in units.chunk_by(|a, b| a == b) {
        passed += run.len();
        let end = count(passed as f64 * unit);
        let key_down = run[0] == 1;
        samples.extend((begin..end).map(|at| {
            if key_down {
                tone(at, (at - begin).min(end - 1 - at), tone_hz)
            } else {
                0
            }
        }));
        begin = end;
    }
    samples.extend(silence);
    samples
}

/// The samples in so many seconds.
fn count(seconds: f64) -> usize {
    (seconds * f64::from(RATE)).round() as usize
}

/// A sample of the tone, so many samples away from the nearer edge.
fn tone(at: usize, from_edge: usize, hz: u32) -> i16 {
    let seconds = |samples: usize| samples as f64 / f64::from(RATE);
    let risen = (seconds(from_edge) / EDGE).min(1.0);
    let envelope = (1.0 - (PI * risen).cos()) / 2.0;
    let wave = (2.0 * PI * f64::from(hz) * seconds(at)).sin();
    (LOUDEST * envelope * wave) as i16
}

#[cfg(test)]
mod tests {
    use super::*;

    #[test]
    fn a_word_lasts_as_long_as_paris_timing_says() {
        // 50 units at 12 WPM: five seconds, and the silence before and after.
        let file = wav(&[1; 50], 12, 700);
        let samples = (file.len() - 44) / 2;
        assert_eq!(samples, count(5.0) + 2 * count(SILENCE * 0.1));
        assert_eq!(file[40..44], (2 * samples as u32).to_le_bytes());
    }

    #[test]
    fn milliseconds_are_enough_for_the_units_and_less_than_one_too_many() {
        assert_eq!(milliseconds(50, 12), 5_000);
        assert_eq!(milliseconds(1, 7), 172);
        assert_eq!(milliseconds(0, 7), 0);
        assert_eq!(milliseconds(3, 0), 3_600);
        for (units, wpm) in (1..=1_405).flat_map(|units| [(units, 1), (units, 18), (units, 97)]) {
            let exact = 1_000.0 * units as f64 * unit_seconds(wpm);
            let over = milliseconds(units, wpm) as f64 - exact;
            assert!((-1e-6..1.0).contains(&over), "{units} at {wpm} WPM");
        }
    }

    #[test]
    fn key_up_is_silent_and_edges_are_soft() {
        let heard = samples(&[0, 1, 0], 12, 700);
        let lead = count(SILENCE * 0.1);
        let unit = count(0.1);
        assert!(heard[..lead + unit].iter().all(|&s| s == 0));
        assert!(heard[lead + unit + 3].abs() < 1_000);
        let loudest = heard.iter().max();
        assert!(loudest.is_some_and(|&s| s > 19_000));
    }
}
