//! A time on the command line.

/// What may follow a number of seconds, minutes, hours or days.
const UNITS: [(char, u64); 4] = [('s', 1), ('m', 60), ('h', 3_600), ('d', 86_400)];

/// Seconds since the start, from `hours:minutes:seconds` or a number with a unit.
pub fn time(text: &str) -> Result<u64, String> {
    let seconds = if text.contains(':') {
        clock(text)
    } else {
        number(text)
    };
    seconds.ok_or_else(|| "expected hours:minutes:seconds, or a number of s, m, h or d".to_string())
}

fn clock(text: &str) -> Option<u64> {
    let parts: Option<Vec<u64>> = text.split(':').map(digits).collect();
    let [hours, minutes, seconds] = parts?[..] else {
        return None;
    };
    let fits = minutes < 60 && seconds < 60;
    let hours = hours.checked_mul(3_600).filter(|_| fits)?;
    hours.checked_add(60 * minutes + seconds)
}

fn number(text: &str) -> Option<u64> {
    let with_unit = |&(unit, seconds)| Some((text.strip_suffix(unit)?, seconds));
    let (number, seconds) = UNITS.iter().find_map(with_unit).unwrap_or((text, 1));
    digits(number)?.checked_mul(seconds)
}

fn digits(text: &str) -> Option<u64> {
    let digits = text.bytes().all(|byte| byte.is_ascii_digit());
    text.parse().ok().filter(|_| digits)
}

#[cfg(test)]
mod tests {
    use super::time;

    #[test]
    fn times_are_read_as_they_are_written() {
        assert_eq!(time("01:30:05"), Ok(5_405));
        assert_eq!(time("100:00:00"), Ok(360_000));
        assert_eq!(time("5400"), Ok(5_400));
        assert_eq!(time("90m"), Ok(5_400));
        assert_eq!(time("3d"), Ok(259_200));
        for wrong in [
            "",
            "m",
            "1:2",
            "00:60:00",
            "+3",
            "1h30m",
            "90mm",
            "-1",
            "99999999999999999999d",
        ] {
            assert!(time(wrong).is_err(), "{wrong}");
        }
    }
}
