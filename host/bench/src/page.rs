//! The part of a page that the bench writes; the rest is written by hand.

use crate::measure::Result;

const BEGIN: &str = "<!-- host/bench/run writes from here on -->\n";
const END: &str = "<!-- up to here -->\n";

/// The page with another part between its two marks.
pub fn rewritten(page: &str, part: &str) -> Result<String> {
    let parted = page.split_once(BEGIN).and_then(|(head, rest)| {
        let (_, tail) = rest.split_once(END)?;
        Some((head, tail))
    });
    let (head, tail) = parted.ok_or("the page hasn't the two marks")?;
    Ok(format!("{head}{BEGIN}\n{part}\n{END}{tail}"))
}

#[cfg(test)]
mod tests {
    use super::*;

    #[test]
    fn what_is_written_by_hand_stays() {
        let page = format!("head\n{BEGIN}old\n{END}tail\n");
        let wanted = format!("head\n{BEGIN}\nnew\n\n{END}tail\n");
        assert_eq!(rewritten(&page, "new\n").ok(), Some(wanted));
    }

    #[test]
    fn a_page_without_both_marks_is_left_alone() {
        for page in ["head\n", BEGIN, END, &format!("{END}{BEGIN}")] {
            assert!(rewritten(page, "new\n").is_err(), "{page}");
        }
    }

    #[test]
    fn the_page_of_the_repository_has_them() {
        let page = include_str!("../../../docs/PERFORMANCE.md");
        assert!(rewritten(page, "new\n").is_ok());
    }
}
