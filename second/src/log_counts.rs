//! The lengths of logs and the entries used that cases reached.

use crate::compare::named_rows;
use crate::log::{self, ENTRY, MOST_NUMBERS, WRAPS, WRAPS_TWICE};
use std::collections::HashMap;

/// A name, and whether a log of so many numbers with so many entries used has it.
type Kind = (&'static str, fn(usize, u64) -> bool);

/// What an accepted log is. With two numbers an entry, 131,072 would be the most.
const ACCEPTED: [Kind; 7] = [
    ("empty", |length, _| length == 0),
    ("of even length", |length, _| length > 0 && length % 2 == 0),
    ("of odd length", |length, _| length % 2 == 1),
    ("above 131,072 numbers", |length, _| {
        length > 131_072 && length < MOST_NUMBERS
    }),
    ("of 196,608 numbers", |length, _| length == MOST_NUMBERS),
    ("of just the entries used", |length, used| {
        used > 0 && log::is_full(length, used)
    }),
    ("with one entry free", |length, used| {
        log::room(length, used) == 1
    }),
];

/// What is wrong with a refused one, and what would not be if it were worked out in another way.
const REFUSED: [Kind; 14] = [
    ("3k + 1 numbers", |length, _| length % ENTRY == 1),
    ("3k + 2 numbers", |length, _| length % ENTRY == 2),
    ("1 number free", |length, used| free(length, used) == 1),
    ("2 numbers free", |length, used| free(length, used) == 2),
    ("4 numbers free", |length, used| free(length, used) == 4),
    ("5 numbers free", |length, used| free(length, used) == 5),
    ("196,609 numbers", |length, _| length == MOST_NUMBERS + 1),
    ("196,611 numbers", |length, _| {
        length == MOST_NUMBERS + ENTRY
    }),
    ("one entry short", |length, used| {
        free(length, used) == -(ENTRY as i128)
    }),
    ("more entries short", |length, used| {
        free(length, used) < -(ENTRY as i128)
    }),
    ("twice the entries used fit", |length, used| {
        whole(length) && 2 * used as u128 <= length as u128
    }),
    (
        "three times the entries used fit in 32 bits alone",
        |length, used| {
            let low = log::numbers_wrap(used) as u32;
            whole(length) && used < WRAPS && low as usize <= length
        },
    ),
    ("three times the entries used wraps", |length, used| {
        whole(length) && (WRAPS..WRAPS_TWICE).contains(&used) && wraps_inside(length, used)
    }),
    (
        "three times the entries used wraps twice",
        |length, used| whole(length) && used >= WRAPS_TWICE && wraps_inside(length, used),
    ),
];

#[derive(Default)]
pub struct Counts {
    by_name: HashMap<String, u64>,
}

impl Counts {
    /// Notes a log that is tested.
    pub fn note(&mut self, length: usize, used: u64) {
        if log::in_range(length, used) {
            self.add_all(&ACCEPTED, accepted, length, used);
        } else {
            self.add_all(&REFUSED, refused, length, used);
        }
    }

    fn add_all(&mut self, kinds: &[Kind], name: fn(&str) -> String, length: usize, used: u64) {
        for (kind, _) in kinds.iter().filter(|(_, is)| is(length, used)) {
            *self.by_name.entry(name(kind)).or_default() += 1;
        }
    }

    /// Every count by name.
    pub fn rows(&self) -> Vec<(String, u64)> {
        let mut names: Vec<String> = ACCEPTED.iter().map(|(kind, _)| accepted(kind)).collect();
        names.extend(REFUSED.iter().map(|(kind, _)| refused(kind)));
        named_rows(&self.by_name, names)
    }
}

fn accepted(kind: &str) -> String {
    format!("logs accepted, {kind}")
}

fn refused(kind: &str) -> String {
    format!("logs refused 4, {kind}")
}

/// The numbers that entries used leave of a log, below 0 where they are more.
fn free(length: usize, used: u64) -> i128 {
    length as i128 - ENTRY as i128 * used as i128
}

fn whole(length: usize) -> bool {
    log::is_whole(length) && length <= MOST_NUMBERS
}

/// Whether the entries used fit where their numbers are worked out modulo 2^64.
fn wraps_inside(length: usize, used: u64) -> bool {
    log::numbers_wrap(used) <= length as u64
}
