//! Summaries that give other shares, that refuse otherwise, and that write something else
//! as they refuse.

use differential::sides::Summary;
use model::books::{MOST_SECONDS as MOST, NUMBERS};
use model::calls;

/// What a summary does, and the summary, by a module's share of the books.
macro_rules! shares {
    ($name:literal, $rule:expr) => {
        ($name, |books, shares| {
            let answer = calls::summary(books, shares);
            if answer == 0 {
                let rule: fn(&[u64], usize) -> u64 = $rule;
                for (module, share) in shares.iter_mut().take(8).enumerate() {
                    *share = rule(books, module) as u16;
                }
            }
            answer
        })
    };
}

/// Those that give other shares.
pub const SHARED: [(&str, Summary); 17] = [
    shares!("rounds up", |books, module| {
        let [on, off, failed] = three(books, module);
        (1_000 * on).div_ceil((on + off + failed).max(1))
    }),
    shares!("rounds to the nearest", |books, module| {
        let [on, off, failed] = three(books, module);
        let total = on + off + failed;
        share(2_000 * on + total, 2 * total)
    }),
    shares!("counts hundredths", |books, module| {
        let [on, off, failed] = three(books, module);
        share(100 * on, on + off + failed)
    }),
    shares!("rounds to hundredths", |books, module| {
        let [on, off, failed] = three(books, module);
        10 * share(100 * on, on + off + failed)
    }),
    shares!("leaves the failed out", |books, module| {
        let [on, off, _] = three(books, module);
        share(1_000 * on, on + off)
    }),
    shares!("leaves the off out", |books, module| {
        let [on, _, failed] = three(books, module);
        share(1_000 * on, on + failed)
    }),
    shares!("gives the share off", |books, module| {
        let [on, off, failed] = three(books, module);
        share(1_000 * off, on + off + failed)
    }),
    shares!("gives the share failed", |books, module| {
        let [on, off, failed] = three(books, module);
        share(1_000 * failed, on + off + failed)
    }),
    shares!("gives what the others leave", |books, module| {
        let [on, off, failed] = three(books, module);
        let others = share(1_000 * (off + failed), on + off + failed);
        1_000 - others
    }),
    shares!("gives 1,000 of nothing", |books, module| {
        let [on, off, failed] = three(books, module);
        match on + off + failed {
            0 => 1_000,
            total => share(1_000 * on, total),
        }
    }),
    shares!("adds a second", |books, module| {
        let [on, off, failed] = three(books, module);
        share(1_000 * on, on + off + failed + 1)
    }),
    shares!("divides first", |books, module| {
        let [on, off, failed] = three(books, module);
        share(on, ((on + off + failed) / 1_000).max(1))
    }),
    shares!("has 32 bits", |books, module| {
        let [on, off, failed] = three(books, module).map(|number| number & 0xFFFF_FFFF);
        share(1_000 * on, on + off + failed)
    }),
    shares!("goes by floating point", |books, module| {
        let [on, off, failed] = three(books, module).map(|number| number as f64);
        (on / (on + off + failed) * 1_000.0) as u64
    }),
    shares!("stops at 999", |books, module| {
        let [on, off, failed] = three(books, module);
        share(1_000 * on, on + off + failed).min(999)
    }),
    shares!("has them by on, off and failed", |books, module| {
        let [on, off, failed] = [0, 8, 16].map(|first| books[first + module]);
        share(1_000 * on, on + off + failed)
    }),
    shares!("has the modules from the last on", |books, module| {
        let [on, off, failed] = three(books, 7 - module);
        share(1_000 * on, on + off + failed)
    }),
];

/// A module's numbers.
fn three(books: &[u64], module: usize) -> [u64; 3] {
    [0, 1, 2].map(|column| books[3 * module + column])
}

fn share(part: u64, total: u64) -> u64 {
    part.checked_div(total).unwrap_or(0)
}

/// Those that refuse otherwise.
pub const REFUSED: [(&str, Summary); 13] = [
    ("asks for room first", |books, shares| match shares.len() {
        0..8 => 14,
        _ => calls::summary(books, shares),
    }),
    ("asks for room before the limit", |books, shares| {
        match (books.len(), shares.len()) {
            (NUMBERS, 0..8) => 14,
            _ => calls::summary(books, shares),
        }
    }),
    ("asks for the limit first", |books, shares| {
        match (calls::summary(books, shares), above(books, MOST)) {
            (18, true) => 17,
            (answer, _) => answer,
        }
    }),
    ("takes 23 numbers", |books, shares| match books.len() {
        23 => calls::summary(&[books, &[0]].concat(), shares),
        _ => calls::summary(books, shares),
    }),
    ("takes more than 24", |books, shares| {
        calls::summary(&books[..books.len().min(NUMBERS)], shares)
    }),
    ("refuses at the limit", |books, shares| {
        let full = books.len() == NUMBERS && above(books, MOST - 1);
        match full {
            true => calls::summary(&[u64::MAX; NUMBERS], shares),
            false => calls::summary(books, shares),
        }
    }),
    ("takes one above the limit", |books, shares| {
        let full = books.len() == NUMBERS && above(books, MOST + 1);
        match full {
            true => calls::summary(books, shares),
            false => calls::summary(&held(books), shares),
        }
    }),
    (
        "asks for the limit of the seconds on alone",
        |books, shares| {
            let mut own = held(books);
            for (own, on) in own.iter_mut().zip(books).step_by(3) {
                *own = *on;
            }
            calls::summary(&own, shares)
        },
    ),
    ("takes large numbers for ones below 0", |books, shares| {
        let own = books.iter().map(|number| match *number as i64 {
            ..0 => 0,
            _ => *number,
        });
        calls::summary(&own.collect::<Vec<u64>>(), shares)
    }),
    ("leaves the last number out", |books, shares| {
        let mut own = books.to_vec();
        if let Some(last) = own.last_mut() {
            *last = (*last).min(MOST);
        }
        calls::summary(&own, shares)
    }),
    ("takes 7 shares", |books, shares| match shares.len() {
        7 => {
            let mut own = [0; 8];
            let answer = calls::summary(books, &mut own);
            shares.copy_from_slice(&own[..7]);
            answer
        }
        _ => calls::summary(books, shares),
    }),
    ("wants a share more", |books, shares| match shares.len() {
        8 => match calls::summary(books, shares) {
            0 => 14,
            refusal => refusal,
        },
        _ => calls::summary(books, shares),
    }),
    ("gives no refusal", |books, shares| {
        calls::summary(books, shares);
        0
    }),
];

fn above(books: &[u64], limit: u64) -> bool {
    books.iter().any(|number| *number > limit)
}

/// The numbers, none above the limit.
fn held(books: &[u64]) -> Vec<u64> {
    books.iter().map(|number| (*number).min(MOST)).collect()
}

/// Those that write something else as they refuse, or behind what they give.
pub const WRITTEN: [(&str, Summary); 8] = [
    ("leaves the shares at 18", |books, shares| {
        left(18, books, shares)
    }),
    ("leaves the shares at 17", |books, shares| {
        left(17, books, shares)
    }),
    ("leaves fewer than eight", |books, shares| {
        match shares.len() {
            0..8 => calls::summary(books, &mut shares.to_vec()),
            _ => calls::summary(books, shares),
        }
    }),
    ("clears all that are lent", |books, shares| {
        let answer = calls::summary(books, shares);
        if matches!(answer, 17 | 18) {
            shares.fill(0);
        }
        answer
    }),
    ("clears those behind the eighth", |books, shares| {
        let answer = calls::summary(books, shares);
        shares.iter_mut().skip(8).for_each(|share| *share = 0);
        answer
    }),
    ("clears seven", |books, shares| {
        let last = shares.get(7).copied();
        let answer = calls::summary(books, shares);
        if let (17 | 18, Some(last)) = (answer, last) {
            shares[7] = last;
        }
        answer
    }),
    ("writes zeros at 14", |books, shares| {
        let answer = calls::summary(books, shares);
        if answer == 14 {
            shares.fill(0);
        }
        answer
    }),
    ("writes what there is room for", |books, shares| {
        let mut own = [0; 8];
        let answer = calls::summary(books, shares);
        if answer == 14 {
            calls::summary(books, &mut own);
            shares.copy_from_slice(&own[..shares.len()]);
        }
        answer
    }),
];

/// A summary that leaves the shares at a refusal.
fn left(refusal: u8, books: &[u64], shares: &mut [u16]) -> u8 {
    let before = shares.to_vec();
    let answer = calls::summary(books, shares);
    if answer == refusal {
        shares.copy_from_slice(&before);
    }
    answer
}
