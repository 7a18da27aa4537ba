//! Summaries of the books: of every length, with numbers about their limit in every place;
//! shares about every thousandth, and of any numbers.

use super::Verdict;
use crate::bookkeeping::sum;
use crate::books::{self, ABOUT};
use crate::compare::books::{MOST_LENT, MOST_SHARES};
use crate::rng::Rng;
use crate::sides::Calls;
use model::books::MOST_SECONDS;

/// The shares that a summary has room for just so.
const SHARES: usize = 8;

/// None to 30 numbers, with one about its limit in every place, and none to 10 shares.
pub fn lengths(sides: &[Calls; 2], rng: &mut Rng) -> Verdict {
    let mut made = 0;
    while made < 200_000 {
        for lent in 0..=MOST_LENT {
            for place in 0..lent.max(1) {
                for number in ABOUT {
                    for shares in 0..=MOST_SHARES {
                        let mut books = books::of_length(rng, lent);
                        if let Some(own) = books.get_mut(place) {
                            *own = number;
                        }
                        sum(sides, &books, shares)?;
                        made += 1;
                    }
                }
            }
        }
    }
    Ok(made)
}

/// Every share from 0 to 1,000 of every module: just so many thousandths, and all but a
/// second of the next.
pub fn thousandths(sides: &[Calls; 2], rng: &mut Rng) -> Verdict {
    let mut made = 0;
    while made < 500_000 {
        for share in 0..=1_000 {
            let threes: [[u64; 3]; SHARES] = std::array::from_fn(|_| books::three(rng, share));
            sum(sides, threes.as_flattened(), SHARES)?;
            made += 1;
        }
    }
    Ok(made)
}

/// Numbers about what a share can turn at.
const EDGES: [u64; 12] = [
    0,
    1,
    2,
    3,
    499,
    999,
    1_000,
    1_001,
    u32::MAX as u64,
    MOST_SECONDS / 2,
    MOST_SECONDS - 1,
    MOST_SECONDS,
];

/// Every three of the edges, for every module, beside any numbers; for all modules at once;
/// and any numbers alone.
pub fn any(sides: &[Calls; 2], rng: &mut Rng) -> Verdict {
    let mut made = 0;
    while made < 400_000 {
        for on in EDGES {
            for off in EDGES {
                for failed in EDGES {
                    for module in 0..SHARES {
                        let mut books = books::good(rng);
                        books[3 * module..3 * module + 3].copy_from_slice(&[on, off, failed]);
                        sum(sides, &books, SHARES)?;
                        made += 1;
                    }
                    sum(sides, [[on, off, failed]; SHARES].as_flattened(), SHARES)?;
                    sum(sides, &books::good(rng), SHARES)?;
                    made += 2;
                }
            }
        }
    }
    Ok(made)
}
