//! Points about totals, worked by hand.

use crate::run_counts::RunCounts;
use crate::totals::{Totals, SUMS};
use crate::totals_cases::{describe_place, Case};
use crate::words::{put_number, put_word, WORD};

const MOST: u64 = u64::MAX;

struct Point {
    name: &'static str,
    totals: Totals,
    /// Counts, and what adding them gives: the answer, the totals, the share.
    added: Vec<([u64; 12], u32, Totals, [u64; 2])>,
}

/// Totals with packets, VIF words and NOPs, and QWC of ID 0 and 7.
fn totals(packets: u64, words: u64, nops: u64, refe: u64, end: u64) -> Totals {
    [packets, words, nops, refe, 0, 0, 0, 0, 0, 0, end]
}

/// Counts likewise, the steps first.
fn counts(steps: u64, packets: u64, words: u64, nops: u64, refe: u64, end: u64) -> [u64; 12] {
    [steps, packets, words, nops, refe, 0, 0, 0, 0, 0, 0, end]
}

fn points() -> Vec<Point> {
    let none = [0; 12];
    vec![
        Point {
            name: "nothing",
            totals: [0; SUMS],
            added: vec![(none, 0, [0; SUMS], [0, 1])],
        },
        // A start by an end tag: 5 steps, 4 words, 3 NOPs, QWC 1; then the same once more: 6 of 8.
        Point {
            name: "two runs",
            totals: [0; SUMS],
            added: vec![
                (counts(5, 0, 4, 3, 0, 1), 0, totals(0, 4, 3, 0, 1), [3, 4]),
                (counts(5, 0, 4, 3, 0, 1), 0, totals(0, 8, 6, 0, 2), [3, 4]),
                (counts(9, 2, 4, 0, 5, 0), 0, totals(2, 12, 6, 5, 2), [1, 2]),
            ],
        },
        // Each of the eleven by its place: 1 to 11, and 10 times that.
        Point {
            name: "each in its place",
            totals: [1, 2, 3, 4, 5, 6, 7, 8, 9, 10, 11],
            added: vec![(
                [1_000, 10, 20, 30, 40, 50, 60, 70, 80, 90, 100, 110],
                0,
                [11, 22, 33, 44, 55, 66, 77, 88, 99, 110, 121],
                // 33 over 22.
                [3, 2],
            )],
        },
        // 2^64 - 4 and 3 are 2^64 - 1; 1 more is too much, and the packets stay as they are.
        Point {
            name: "a sum at its end",
            totals: totals(7, 1, 0, 0, MOST - 3),
            added: vec![
                (
                    counts(1, 1, 0, 0, 0, 3),
                    0,
                    totals(8, 1, 0, 0, MOST),
                    [0, 1],
                ),
                (
                    counts(1, 1, 0, 0, 0, 1),
                    54,
                    totals(8, 1, 0, 0, MOST),
                    [0, 1],
                ),
                (
                    counts(1, 1, 9, 6, 0, 0),
                    0,
                    totals(9, 10, 6, 0, MOST),
                    [3, 5],
                ),
            ],
        },
        // The steps are no sum.
        Point {
            name: "steps beyond all bounds",
            totals: totals(MOST, 0, 0, 0, 0),
            added: vec![
                (
                    counts(MOST, 0, 2, 2, 0, 0),
                    0,
                    totals(MOST, 2, 2, 0, 0),
                    [1, 1],
                ),
                (
                    counts(MOST, 0, 1, 0, 0, 0),
                    0,
                    totals(MOST, 3, 2, 0, 0),
                    [2, 3],
                ),
                (
                    counts(MOST, 1, 1, 0, 0, 0),
                    54,
                    totals(MOST, 3, 2, 0, 0),
                    [2, 3],
                ),
            ],
        },
        // 2^63 + 2^63 is 2^64.
        Point {
            name: "twice 2^63",
            totals: totals(0, 1 << 63, 0, 0, 0),
            added: vec![
                (
                    counts(0, 0, 1 << 63, 1, 0, 0),
                    54,
                    totals(0, 1 << 63, 0, 0, 0),
                    [0, 1],
                ),
                (
                    counts(0, 0, (1 << 63) - 1, 1 << 63, 0, 0),
                    0,
                    totals(0, MOST, 1 << 63, 0, 0),
                    // An odd number and a power of 2.
                    [1 << 63, MOST],
                ),
            ],
        },
        // 3 x 2^62 over 2^62.
        Point {
            name: "more NOPs than words",
            totals: totals(0, 1 << 62, 3 << 62, 0, 0),
            added: vec![(none, 0, totals(0, 1 << 62, 3 << 62, 0, 0), [3, 1])],
        },
        Point {
            name: "NOPs without words",
            totals: totals(0, 0, 5, 0, 0),
            added: vec![(none, 0, totals(0, 0, 5, 0, 0), [0, 1])],
        },
        // 2^64 - 1 is 65,537 x 281,470,681,808,895.
        Point {
            name: "the greatest words",
            totals: totals(0, MOST, 65_537, 0, 0),
            added: vec![(
                none,
                0,
                totals(0, MOST, 65_537, 0, 0),
                [1, 281_470_681_808_895],
            )],
        },
        Point {
            name: "no additions",
            totals: [3; SUMS],
            added: Vec::new(),
        },
    ]
}

impl Point {
    fn case(&self) -> Case {
        let added = self.added.iter();
        Case {
            totals: self.totals,
            added: added.map(|added| RunCounts::of_numbers(added.0)).collect(),
        }
    }

    fn wanted(&self) -> Vec<u8> {
        let mut out = Vec::new();
        for (_, answer, totals, share) in &self.added {
            put_word(&mut out, *answer);
            totals.iter().for_each(|&sum| put_number(&mut out, sum));
            share
                .iter()
                .for_each(|&number| put_number(&mut out, number));
        }
        out
    }
}

/// The points as a case file.
pub fn file() -> Vec<u8> {
    let mut file = Vec::new();
    points()
        .iter()
        .for_each(|point| point.case().write(&mut file));
    file
}

/// Compares a program's results for the points with what they have to be; hands back how many
/// points there are.
pub fn check(results: &[u8]) -> Result<usize, String> {
    let mut at = 0;
    for point in points() {
        let wanted = point.wanted();
        let given = &results[at.min(results.len())..(at + wanted.len()).min(results.len())];
        let differs = (0..wanted.len()).find(|&i| given.get(i) != Some(&wanted[i]));
        if let Some(byte) = differs {
            let place = describe_place(byte / WORD);
            return Err(format!("point \"{}\": {place} is wrong", point.name));
        }
        at += wanted.len();
    }
    match results.len() - at {
        0 => Ok(points().len()),
        more => Err(format!("{more} bytes after the points")),
    }
}

#[cfg(test)]
mod tests {
    use super::*;
    use crate::totals_cases::results;
    use crate::totals_counts::Counts;

    #[test]
    fn our_own() {
        let own = results(&file(), &mut Counts::default());
        assert_eq!(own.broken, None);
        assert_eq!(check(&own.bytes), Ok(10));
        for at in 0..own.bytes.len() {
            let mut wrong = own.bytes.clone();
            wrong[at] ^= 1;
            assert!(check(&wrong).is_err());
        }
        assert!(check(&own.bytes[..own.bytes.len() - 1]).is_err());
        assert!(check(&[&own.bytes[..], &[0]].concat()).is_err());
    }
}
