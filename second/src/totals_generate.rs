//! Totals cases from a seed.

use crate::comparison;
use crate::random::Random;
use crate::run_counts::{RunCounts, NUMBERS};
use crate::totals::{Totals, SUMS};
use crate::totals_cases::{Case, MOST_ADDITIONS};

/// Where VIF words and NOPs stand among the totals.
const WORDS: usize = 1;
const NOPS: usize = 2;
/// The cases that are stored for the proved program; none has many additions.
pub const STORED: u64 = 110;
/// One case in so many has many additions.
const MANY_EVERY: u64 = 500;

/// A case, and the kind that it is of.
pub type Made = comparison::Made<Case>;

type Maker = fn(&mut Random) -> Case;

pub const KINDS: [(&str, Maker); 11] = [
    ("counts of runs", of_runs),
    ("one sum just full", |r| near(r, 1, 0)),
    ("one sum one too many", |r| near(r, 1, 1)),
    ("several sums just full", |r| near(r, 4, 0)),
    ("several sums one too many", |r| near(r, 4, 1)),
    ("all sums full", full),
    ("any numbers", any),
    ("shares with a great common divisor", great_divisor),
    ("no words", no_words),
    ("more NOPs than words", more_nops),
    ("no additions", |r| Case {
        totals: some_totals(r),
        added: Vec::new(),
    }),
];

pub const MANY: &str = "many additions";

/// A file of so many cases.
pub fn generate(seed: u64, count: u64) -> Vec<u8> {
    let mut file = Vec::new();
    cases(seed, count)
        .iter()
        .for_each(|made| made.case.write(&mut file));
    file
}

pub fn cases(seed: u64, count: u64) -> Vec<Made> {
    let mut random = Random::new(seed);
    let made = (0..count).map(|index| {
        if index % MANY_EVERY == MANY_EVERY / 2 {
            let case = many(&mut random, index / MANY_EVERY == 0);
            return Made { name: MANY, case };
        }
        let (name, maker) = KINDS[index as usize % KINDS.len()];
        let case = maker(&mut random);
        Made { name, case }
    });
    made.collect()
}

/// A number of any length in bits.
fn number(random: &mut Random) -> u64 {
    let bits = random.below(65) as u32;
    match bits {
        0 => 0,
        bits => random.number() >> (64 - bits),
    }
}

fn some_totals(random: &mut Random) -> Totals {
    std::array::from_fn(|_| number(random) >> 1)
}

/// Counts as of a run: fewer NOPs than words than steps.
fn run_counts(random: &mut Random) -> RunCounts {
    let steps = random.below(100_000);
    let words = random.below(steps + 1);
    let mut qwc = [0; 8];
    for _ in 0..random.below(4) {
        qwc[random.below(8) as usize] += random.below(65_536);
    }
    RunCounts {
        steps,
        packets: random.below(steps / 4 + 1),
        words,
        nops: random.below(words + 1),
        qwc,
    }
}

fn of_runs(random: &mut Random) -> Case {
    let count = random.within(1..=12);
    Case {
        totals: [0; SUMS],
        added: (0..count).map(|_| run_counts(random)).collect(),
    }
}

/// Counts that bring so many of the sums to 2^64 - 1, or beyond it; then others.
fn near(random: &mut Random, sums: u64, beyond: u64) -> Case {
    let mut totals = some_totals(random);
    let mut numbers: [u64; NUMBERS] = run_counts(random).numbers();
    for _ in 0..sums {
        let at = random.below(SUMS as u64) as usize;
        let few = random.within(1..=9);
        totals[at] = random.pick(&[u64::MAX - few, u64::MAX, u64::MAX >> 1, few, totals[at]]);
        let room = u64::MAX - totals[at];
        let more = random.pick(&[1, 1, few]) * beyond;
        numbers[at + 1] = room.saturating_add(more);
    }
    numbers[0] = random.pick(&[numbers[0], u64::MAX]);
    let mut added = vec![RunCounts::of_numbers(numbers)];
    // Room again for nothing but zeros, or for counts that leave the full sums out.
    let mut rest = run_counts(random).numbers();
    for at in 0..SUMS {
        let sum = totals[at].checked_add(numbers[at + 1]);
        if sum == Some(u64::MAX) && random.percent(70) {
            rest[at + 1] = 0;
        }
    }
    added.push(RunCounts::of_numbers(rest));
    added.push(RunCounts::default());
    Case { totals, added }
}

fn full(random: &mut Random) -> Case {
    let mut one = [0; NUMBERS];
    one[random.within(1..=SUMS as u64) as usize] = 1;
    let most = [u64::MAX; NUMBERS];
    let steps = [u64::MAX, 0, 0, 0, 0, 0, 0, 0, 0, 0, 0, 0];
    let numbers = [steps, one, most, steps];
    Case {
        totals: [u64::MAX; SUMS],
        added: numbers.map(RunCounts::of_numbers).to_vec(),
    }
}

fn any(random: &mut Random) -> Case {
    let count = random.within(1..=5);
    let mut counts = || RunCounts::of_numbers(std::array::from_fn(|_| number(random)));
    let added = (0..count).map(|_| counts()).collect();
    Case {
        totals: std::array::from_fn(|_| number(random)),
        added,
    }
}

/// Totals, and counts of this many words and NOPs alone.
fn of_share(random: &mut Random, totals: (u64, u64), counts: &[(u64, u64)]) -> Case {
    let mut all = some_totals(random);
    (all[WORDS], all[NOPS]) = totals;
    let of = |&(words, nops): &(u64, u64)| RunCounts {
        words,
        nops,
        ..RunCounts::default()
    };
    Case {
        totals: all,
        added: counts.iter().map(of).collect(),
    }
}

/// Words and NOPs that a great number divides.
fn great_divisor(random: &mut Random) -> Case {
    let (odd, long) = (number(random) | 1, random.number() >> 8);
    let by = random.pick(&[
        1 << 62,
        3 << 61,
        6_700_417 * 65_537 * 641,
        (1 << 61) - 1,
        odd,
        long,
    ]);
    let by = by.max(1);
    let most = u64::MAX / by;
    let words = by * random.within(1..=most.min(1_000));
    let nops = by * random.below(most.min(1_000) + 1);
    let half = (words / 2, nops / 2);
    match random.below(3) {
        0 => of_share(random, (words, nops), &[(0, 0)]),
        1 => of_share(random, (0, 0), &[(words, nops)]),
        _ => of_share(random, half, &[(words - half.0, nops - half.1)]),
    }
}

fn no_words(random: &mut Random) -> Case {
    let some = number(random);
    let nops = random.pick(&[0, 1, some, u64::MAX]);
    of_share(random, (0, nops), &[(0, 0), (0, 0), (1, 0)])
}

fn more_nops(random: &mut Random) -> Case {
    let words = number(random).max(1);
    let more = number(random).max(words);
    let nops = random.pick(&[words, more, u64::MAX]);
    of_share(random, (words, nops), &[(0, 0), (1, 0)])
}

/// As many additions as a case may have, or many.
fn many(random: &mut Random, most: bool) -> Case {
    let count = match most {
        true => MOST_ADDITIONS as u64,
        false => random.within(1_000..=2_000),
    };
    let mut case = of_runs(random);
    case.added = (0..count).map(|_| run_counts(random)).collect();
    case.totals[random.below(SUMS as u64) as usize] = u64::MAX - random.below(1 << 20);
    case
}

#[cfg(test)]
mod tests {
    use super::*;
    use crate::totals_cases::results;
    use crate::totals_counts::Counts;

    #[test]
    fn a_seed_gives_one_file() {
        let file = generate(9, 100);
        assert!(file == generate(9, 100));
        assert!(file != generate(10, 100));
        let given = results(&file, &mut Counts::default());
        assert_eq!((given.damage, given.broken), (None, None));
        assert_eq!(given.starts.len(), 100);
    }
}
