//! The workshop's totals over many runs, and the share of NOPs.

use crate::refusals;
use crate::run_counts::RunCounts;

/// The sums: packets closed, VIF words, NOPs, and QWC by ID.
pub const SUMS: usize = 11;

pub type Totals = [u64; SUMS];

/// Where VIF words and NOPs stand.
const WORDS: usize = 1;
const NOPS: usize = 2;

/// What a run adds to each sum; its steps play no part.
fn added(counts: &RunCounts) -> [u64; SUMS] {
    let mut added = [0; SUMS];
    added[..3].copy_from_slice(&[counts.packets, counts.words, counts.nops]);
    added[3..].copy_from_slice(&counts.qwc);
    added
}

/// Adds the counts of a run. Refused where a sum would pass 2^64 - 1; then no sum changes.
pub fn add_totals(totals: &mut Totals, counts: &RunCounts) -> Result<(), u32> {
    let added = added(counts);
    let sums: [u128; SUMS] = std::array::from_fn(|i| totals[i] as u128 + added[i] as u128);
    if sums.iter().any(|&sum| sum > u64::MAX as u128) {
        return Err(refusals::TOTAL);
    }
    *totals = sums.map(|sum| sum as u64);
    Ok(())
}

/// NOPs over VIF words in lowest terms; 0 over 1 where there are no words.
pub fn nop_share(totals: &Totals) -> (u64, u64) {
    let (nops, words) = (totals[NOPS] as u128, totals[WORDS] as u128);
    if words == 0 {
        return (0, 1);
    }
    let by = gcd(nops, words);
    ((nops / by) as u64, (words / by) as u64)
}

/// The greatest number that divides both, of which not both are 0.
fn gcd(mut a: u128, mut b: u128) -> u128 {
    while b > 0 {
        (a, b) = (b, a % b);
    }
    a
}

#[cfg(test)]
mod tests {
    use super::*;

    fn of(words: u64, nops: u64) -> Totals {
        let mut totals = [7; SUMS];
        (totals[WORDS], totals[NOPS]) = (words, nops);
        totals
    }

    /// The greatest common divisor by trying all.
    #[test]
    fn small_shares() {
        for words in 0..60 {
            for nops in 0..60 {
                let share = nop_share(&of(words, nops));
                if words == 0 {
                    assert_eq!(share, (0, 1));
                    continue;
                }
                let by = (1..=60).rev().find(|by| words % by == 0 && nops % by == 0);
                let by = by.unwrap();
                assert_eq!(share, (nops / by, words / by));
            }
        }
    }

    /// 2^64 - 1 = 3 x 5 x 17 x 257 x 641 x 65,537 x 6,700,417.
    #[test]
    fn large_shares() {
        let most = u64::MAX;
        assert_eq!(nop_share(&of(most, most)), (1, 1));
        assert_eq!(nop_share(&of(most, 0)), (0, 1));
        assert_eq!(nop_share(&of(most, 1)), (1, most));
        assert_eq!(nop_share(&of(1, most)), (most, 1));
        assert_eq!(nop_share(&of(most, most - 1)), (most - 1, most));
        assert_eq!(
            nop_share(&of(most, 3 * 6_700_417)),
            (1, 5 * 17 * 257 * 641 * 65_537)
        );
        assert_eq!(nop_share(&of(1 << 63, 3 << 62)), (3, 2));
    }

    /// Each sum at 2^64 - 1 takes 0 and no more, and none changes.
    #[test]
    fn each_sum() {
        for at in 0..SUMS {
            let mut totals = [5; SUMS];
            totals[at] = u64::MAX - 1;
            let mut numbers = [9; 12];
            numbers[0] = u64::MAX;
            numbers[at + 1] = 1;
            let counts = RunCounts::of_numbers(numbers);
            assert_eq!(add_totals(&mut totals, &counts), Ok(()));
            let full = totals;
            let wanted = std::array::from_fn(|i| if i == at { u64::MAX } else { 14 });
            assert_eq!(full, wanted);
            assert_eq!(add_totals(&mut totals, &counts), Err(54));
            assert_eq!(totals, full);
        }
    }
}
