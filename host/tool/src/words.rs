//! Numbers, lists, times and texts as people read them. A number that a program
//! may read, such as the place `file:line:column`, has no commas.

use ems::Module;

/// `7450` as `7,450`.
pub fn thousands(number: u64) -> String {
    let digits = number.to_string();
    let mut text = String::new();
    for (at, digit) in digits.chars().enumerate() {
        if at > 0 && (digits.len() - at).is_multiple_of(3) {
            text.push(',');
        }
        text.push(digit);
    }
    text
}

/// A number that is not negative, with so many places at most: `1894.41` as `1,894.41`.
pub fn rounded(number: f64, places: usize) -> String {
    let text = format!("{number:.places$}");
    let (whole, decimals) = text.split_once('.').unwrap_or((&text, ""));
    let whole = whole.parse().map_or_else(|_| whole.to_string(), thousands);
    match decimals.trim_end_matches('0') {
        "" => whole,
        decimals => format!("{whole}.{decimals}"),
    }
}

/// `a, b and c`.
pub fn list(items: &[String]) -> String {
    match items {
        [] => "none".to_string(),
        [one] => one.clone(),
        [most @ .., last] => format!("{} and {last}", most.join(", ")),
    }
}

/// The modules of a mask.
pub fn modules(mask: u8) -> Vec<String> {
    Module::in_mask(mask)
        .map(|module| module.to_string())
        .collect()
}

/// Seconds since the start as `hours:minutes:seconds`.
pub fn clock(seconds: u64) -> String {
    let (hours, minutes) = (seconds / 3_600, seconds / 60 % 60);
    format!("{hours:02}:{minutes:02}:{:02}", seconds % 60)
}

/// `1 tick`, `30 ticks`, `1 try`, `3 tries`.
pub fn count(number: u64, what: &str) -> String {
    let number_of = thousands(number);
    match what.strip_suffix('y') {
        _ if number == 1 => format!("{number_of} {what}"),
        Some(begin) if !begin.ends_with(['a', 'e', 'o', 'u']) => format!("{number_of} {begin}ies"),
        _ => format!("{number_of} {what}s"),
    }
}

/// Bytes as two upper-case digits each, spaces between.
pub fn hex(bytes: &[u8]) -> String {
    let bytes: Vec<String> = bytes.iter().map(|byte| format!("{byte:02X}")).collect();
    bytes.join(" ")
}

/// A text on one line that moves no cursor and breaks no file.
pub fn visible(text: &str) -> String {
    text.chars().map(shown).collect()
}

/// The same of a text that has lines and tabs.
pub fn visible_lines(text: &str) -> String {
    let kept = |c: char| matches!(c, '\n' | '\t');
    text.chars()
        .map(|c| if kept(c) { c } else { shown(c) })
        .collect()
}

/// A character as it is shown: Unicode's picture of a control character, its
/// replacement for what has none or turns the line around.
fn shown(character: char) -> char {
    const PICTURES: u32 = 0x2400;
    match character {
        '\0'..='\x1F' => char::from_u32(PICTURES + u32::from(character)).unwrap_or_default(),
        '\x7F' => '\u{2421}',
        '\u{80}'..='\u{9F}'
        | '\u{200E}'..='\u{200F}'
        | '\u{2028}'..='\u{202E}'
        | '\u{2066}'..='\u{2069}'
        | '\u{FFFE}'..='\u{FFFF}' => char::REPLACEMENT_CHARACTER,
        other => other,
    }
}

#[cfg(test)]
mod tests {
    use super::*;

    #[test]
    fn control_characters_are_shown_and_do_nothing() {
        assert_eq!(
            visible("a\x1B[31m\0\t\r\n"),
            "a\u{241B}[31m\u{2400}\u{2409}\u{240D}\u{240A}"
        );
        assert_eq!(visible("\x7F\u{9B}\u{202E}"), "\u{2421}\u{FFFD}\u{FFFD}");
        assert_eq!(visible("É 火 ✚"), "É 火 ✚");
        assert_eq!(visible_lines("a\n\tb\r"), "a\n\tb\u{240D}");
    }

    #[test]
    fn numbers_have_thousands_and_things_their_plural() {
        assert_eq!(thousands(999), "999");
        assert_eq!(thousands(1_234_567), "1,234,567");
        assert_eq!(rounded(1_894.41, 3), "1,894.41");
        assert_eq!(rounded(2.0, 2), "2");
        assert_eq!(rounded(99.96, 1), "100");
        assert_eq!(rounded(1_500.0, 0), "1,500");
        assert_eq!(count(1, "try"), "1 try");
        assert_eq!(count(1_290, "try"), "1,290 tries");
        assert_eq!(count(0, "frame"), "0 frames");
        assert_eq!(clock(100 * 3_600 + 61), "100:01:01");
    }
}
