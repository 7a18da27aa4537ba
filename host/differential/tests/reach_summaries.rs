//! How far the groups of the summary get. Every other length than 24, and every number that
//! is above its limit in every place, meet every room for shares; so do books that are good.
//! Every share of every module is met, at its least second on and at its most.

mod common;

use differential::compare::books::{MOST_LENT, MOST_SHARES};
use differential::sides::{Calls, MODEL};
use model::books::{MOST_SECONDS as MOST, NUMBERS};
use model::calls;
use std::cell::RefCell;
use std::collections::BTreeSet;

/// What a summary can meet.
#[derive(Clone, Copy, PartialEq, Eq, PartialOrd, Ord, Debug)]
enum Met {
    /// So many numbers, one of them above the limit or none, and so many shares.
    Lent {
        lent: usize,
        above: bool,
        shares: usize,
    },
    /// 24 numbers, this one alone at the limit or above it, and so many shares.
    Number {
        place: usize,
        above: bool,
        shares: usize,
    },
    /// A module's share, where a second less on gives less, or a second more on gives
    /// more.
    Share {
        module: usize,
        share: u64,
        edge: Edge,
    },
    /// A module of which these numbers are not 0.
    Counted { module: usize, which: [bool; 3] },
}

#[derive(Clone, Copy, PartialEq, Eq, PartialOrd, Ord, Debug)]
enum Edge {
    Least,
    Most,
}

thread_local! {
    static MET: RefCell<BTreeSet<Met>> = const { RefCell::new(BTreeSet::new()) };
}

/// The share that so many seconds on are of a total.
fn share(on: u64, total: u64) -> Option<u64> {
    (1_000 * on).checked_div(total)
}

/// Notes what a summary meets.
fn note(books: &[u64], shares: usize) {
    let lent = books.len();
    let above = books.iter().any(|number| *number > MOST);
    let mut met = vec![Met::Lent {
        lent,
        above,
        shares,
    }];
    if lent == NUMBERS {
        let mut high = (0..NUMBERS).filter(|place| books[*place] >= MOST);
        if let (Some(place), None) = (high.next(), high.next()) {
            met.push(Met::Number {
                place,
                above,
                shares,
            });
        }
    }
    for (module, three) in books
        .chunks(3)
        .enumerate()
        .filter(|_| !above && lent == NUMBERS)
    {
        let which = [0, 1, 2].map(|column| three[column] != 0);
        met.push(Met::Counted { module, which });
        let (on, total) = (three[0], three.iter().sum());
        if let Some(own) = share(on, total) {
            let less = on.checked_sub(1).and_then(|on| share(on, total));
            let edges = [
                (less.is_none_or(|less| less < own), Edge::Least),
                (
                    share(on + 1, total).is_some_and(|more| more > own),
                    Edge::Most,
                ),
            ];
            let edges = edges.into_iter().filter(|(is, _)| *is);
            met.extend(edges.map(|(_, edge)| Met::Share {
                module,
                share: own,
                edge,
            }));
        }
    }
    MET.with_borrow_mut(|all| all.extend(met));
}

/// What a group has met.
fn met(group: &str) -> BTreeSet<Met> {
    let noting = Calls {
        summary: |books, shares| {
            note(books, shares.len());
            calls::summary(books, shares)
        },
        ..MODEL
    };
    common::run(group, &[noting, MODEL]).expect("no difference");
    MET.take()
}

#[test]
fn every_length_and_every_place_meets_every_room() {
    let met = met("summaries of every length");
    for shares in 0..=MOST_SHARES {
        for above in [false, true] {
            for lent in 0..=MOST_LENT {
                let wanted = Met::Lent {
                    lent,
                    above,
                    shares,
                };
                // None is above where there is none.
                assert_eq!(met.contains(&wanted), lent > 0 || !above, "{wanted:?}");
            }
            for place in 0..NUMBERS {
                let wanted = Met::Number {
                    place,
                    above,
                    shares,
                };
                assert!(met.contains(&wanted), "not met: {wanted:?}");
            }
        }
    }
}

#[test]
fn every_share_of_every_module_is_met_at_both_edges() {
    let met = met("shares about every thousandth");
    for module in 0..8 {
        for share in 0..=1_000 {
            for edge in [Edge::Least, Edge::Most] {
                let wanted = Met::Share {
                    module,
                    share,
                    edge,
                };
                assert!(met.contains(&wanted), "not met: {wanted:?}");
            }
        }
    }
}

#[test]
fn numbers_are_0_and_not_in_every_way() {
    let met = met("shares of any numbers");
    for module in 0..8 {
        for ways in 0..8 {
            let which = [0, 1, 2].map(|column| ways >> column & 1 == 1);
            let wanted = Met::Counted { module, which };
            assert!(met.contains(&wanted), "not met: {wanted:?}");
        }
    }
}
