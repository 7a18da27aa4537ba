//! The cases of `summary.txt`: each module's share on, from the books.

use crate::{read, text, Case, Result};

/// All cases of the file.
pub fn cases() -> Result<Vec<Case>> {
    let words = ["books", "shares_len", "answer", "shares"];
    read(&text("summary.txt")?, &words)
}

/// The modules, and so the shares that are written.
const MODULES: usize = 8;
/// What stands in the shares before a call, there and behind their end.
const BEFORE: u16 = 0xA5A5;

/// Makes the call of a case: what came out otherwise, if it did.
pub fn check(case: &Case, summary: impl Fn(&[u64], &mut [u16]) -> u8) -> Result<()> {
    let books: Vec<u64> = case.one("books")?.numbers()?;
    let lent: usize = case.one("shares_len")?.number()?;
    let mut shares = vec![BEFORE; lent + MODULES];
    let answer = summary(&books, &mut shares[..lent]);
    let mut wanted: Vec<u16> = case.one("shares")?.numbers()?;
    wanted.resize(shares.len(), BEFORE);
    let given = (answer, shares);
    match given == (case.one("answer")?.number()?, wanted) {
        true => Ok(()),
        false => Err(format!("case at line {}: {given:?}", case.place())),
    }
}
