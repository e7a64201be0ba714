//! The request's sentences about totals, each on what additions gave.

use crate::refusals;
use crate::totals::SUMS;
use crate::totals_cases::{Added, Case};

/// The sentence that an outcome breaks; none where it keeps all.
pub fn broken(case: &Case, outcome: &[Added]) -> Option<String> {
    if outcome.len() != case.added.len() {
        return Some("another number of additions".to_string());
    }
    let mut before = case.totals;
    for (at, (counts, added)) in case.added.iter().zip(outcome).enumerate() {
        let numbers = counts.numbers();
        let passes = (0..SUMS).any(|i| before[i] > u64::MAX - numbers[i + 1]);
        let found = wrong_addition(added, passes, |i| before[i].wrapping_add(numbers[i + 1]))
            .or_else(|| (passes && added.totals != before).then_some("54, and a sum changed"))
            .or_else(|| wrong_share(added));
        if let Some(told) = found {
            return Some(format!("addition {at}: {told}"));
        }
        before = added.totals;
    }
    None
}

/// "54 if a sum would pass 2^64 - 1", else "exact sums".
fn wrong_addition(added: &Added, passes: bool, sum: impl Fn(usize) -> u64) -> Option<&'static str> {
    let wanted = if passes { refusals::TOTAL } else { 0 };
    if added.answer != wanted {
        return Some("54 and the sums");
    }
    let exact = passes || (0..SUMS).all(|i| added.totals[i] == sum(i));
    (!exact).then_some("a sum is not exact")
}

/// "the NOP share as two whole numbers in lowest terms (0 over 1 when no words)".
fn wrong_share(added: &Added) -> Option<&'static str> {
    let [_, words, nops, ..] = added.totals;
    let (over, under) = added.share;
    if words == 0 {
        return (added.share != (0, 1)).then_some("no words, and not 0 over 1");
    }
    if under == 0 || over as u128 * words as u128 != under as u128 * nops as u128 {
        return Some("another share");
    }
    (!coprime(over, under)).then_some("not in lowest terms")
}

/// Whether nothing but 1 divides both, by halving and taking away.
fn coprime(mut a: u64, mut b: u64) -> bool {
    if a == 0 || b == 0 {
        return a == 1 || b == 1;
    }
    if a % 2 == 0 && b % 2 == 0 {
        return false;
    }
    a >>= a.trailing_zeros();
    b >>= b.trailing_zeros();
    while a != b {
        if a < b {
            (a, b) = (b, a);
        }
        a -= b;
        a >>= a.trailing_zeros();
    }
    a == 1
}

#[cfg(test)]
mod tests {
    use super::*;
    use crate::run_counts::RunCounts;
    use crate::totals_cases::outcome;
    use crate::totals_generate::cases;

    #[test]
    fn nothing_is_broken() {
        for made in cases(4, 400) {
            assert_eq!(broken(&made.case, &outcome(&made.case)), None);
        }
    }

    #[test]
    fn coprime_numbers() {
        for (a, b, wanted) in [
            (0, 1, true),
            (1, 0, true),
            (0, 2, false),
            (1, 1, true),
            (2, 2, false),
            (6, 35, true),
            (6, 33, false),
            (u64::MAX, u64::MAX - 1, true),
            (u64::MAX, 65_537, false),
        ] {
            assert_eq!(coprime(a, b), wanted, "{a}, {b}");
        }
    }

    /// Two additions, the second refused.
    #[test]
    fn shams_are_found() {
        let mut totals = [0; SUMS];
        (totals[1], totals[2], totals[9]) = (10, 4, u64::MAX - 3);
        let mut numbers = [1; 12];
        (numbers[2], numbers[3], numbers[10]) = (8, 2, 3);
        let counts = RunCounts::of_numbers(numbers);
        let case = Case {
            totals,
            added: vec![counts; 2],
        };
        let right = outcome(&case);
        assert_eq!((right[0].answer, right[1].answer), (0, 54));
        assert_eq!(right[0].share, (1, 3));
        let shams: [(&str, fn(&mut Vec<Added>)); 8] = [
            ("another number of additions", |o| {
                o.pop();
            }),
            ("addition 0: 54 and the sums", |o| o[0].answer = 54),
            ("addition 1: 54 and the sums", |o| o[1].answer = 0),
            ("addition 0: a sum is not exact", |o| o[0].totals[0] += 1),
            ("addition 1: 54, and a sum changed", |o| {
                o[1].totals[10] += 1
            }),
            ("addition 0: another share", |o| o[0].share = (1, 4)),
            ("addition 0: another share", |o| o[0].share = (0, 0)),
            ("addition 0: not in lowest terms", |o| o[0].share = (6, 18)),
        ];
        for (wanted, sham) in shams {
            let mut wrong = right.clone();
            sham(&mut wrong);
            assert_eq!(broken(&case, &wrong), Some(wanted.to_string()));
        }
    }
}
