//! Another program's totals results against our own.

use crate::compare::{case_at, Program};
use crate::comparison::{file_of, kind_rows, sums, Comparison, ReachedByKind, Rows};
use crate::damaged::{Damage, Files, Spoilt};
use crate::random::Random;
use crate::totals_cases::{
    self, case_starts, describe_case, describe_place, first_case, Case, HEADER, MOST_ADDITIONS,
    RESULT,
};
use crate::totals_counts::Counts;
use crate::totals_generate::{cases, Made, KINDS, MANY};
use crate::totals_points;
use crate::words::WORD;

/// Cases that are given to the program at once.
const BATCH: usize = 500;
const DAMAGE: Damage = Damage {
    header: HEADER * WORD,
    first: &[-1, 0],
    before_end: &[1, 4],
    later: &[-4, -1, 0, 1, 95],
    cut_cases: |last| vec![last / 2, last],
    spoilt_cases: |last| vec![0, last / 2, last],
    spoil,
};

type Reached = ReachedByKind<Counts>;

const COMPARISON: Comparison<Vec<Made>, Reached> = Comparison {
    cases,
    compare_cases: |program, cases, reached| {
        reached.compare_batches(cases, BATCH, Case::write, |file, first, counts| {
            compare_file(program, file, first, counts)
        })
    },
    damaged: |cases, random| damaged(cases, random),
    compare_file: |program, file| compare_file(program, file, 0, &mut Counts::default()),
    compare_more: |_, _, _, _| Ok(()),
    rows: |all| sums(all, rows),
};

/// Compares on the points worked by hand, on the cases of each seed and on damaged files made
/// from them.
pub fn compare(program: &Program, seeds: &[u64], count: u64) -> Result<(), String> {
    let points = totals_points::file();
    let point_count = totals_points::check(&program.run(&points)?)?;
    compare_file(program, &points, 0, &mut Counts::default())?;
    COMPARISON.compare(program, seeds, count, &[("points", point_count)])
}

fn rows(reached: &Reached) -> Rows {
    let kinds = KINDS.iter().map(|&(name, _)| name).chain([MANY]);
    [reached.counts.rows(), kind_rows(kinds, &reached.made)].concat()
}

/// Made from short cases.
fn damaged(cases: &[Made], random: &mut Random) -> Files {
    let short = cases.iter().filter(|made| made.case.added.len() < 6);
    let file = file_of(short.take(6), Case::write);
    DAMAGE.files(&file, &case_starts(&file), random)
}

/// Compares on a file whose cases are counted from `first`.
fn compare_file(
    program: &Program,
    file: &[u8],
    first: usize,
    counts: &mut Counts,
) -> Result<(), String> {
    let own = totals_cases::results(file, counts);
    own.compare(program, file, first, |index, at| tell(file, index, at))
}

/// A word of a case's result, and the case.
fn tell(file: &[u8], index: usize, at_word: usize) -> (String, String) {
    let case = case_at(file, index, first_case);
    let told = describe_case(&case, at_word / RESULT);
    (describe_place(at_word), told)
}

fn spoil(spoilt: &mut Spoilt) {
    spoilt.limits(&[("n", 1, MOST_ADDITIONS)]);
    spoilt.one_off("n", 1);
}

#[cfg(test)]
mod tests {
    use super::*;
    use crate::compare::zeros;
    use crate::totals_cases::results;

    #[test]
    fn every_count_is_reached() {
        let mut counts = Counts::default();
        let given = results(&file_of(&cases(1, 2_000), Case::write), &mut counts);
        assert_eq!((given.damage, given.broken), (None, None));
        assert_eq!(zeros(&counts.rows()), Vec::<&str>::new());
    }

    #[test]
    fn damaged_files_have_a_line() {
        let own = |file: &[u8]| results(file, &mut Counts::default());
        let damaged = |cases: &[Made]| damaged(cases, &mut Random::new(2));
        let made = damaged(&cases(2, 30));
        assert_eq!(own(&made[0].1).bytes, []);
        let lines = made.iter().filter(|(_, bytes)| own(bytes).damage.is_some());
        assert!(lines.count() > 30);
        assert_eq!(own(&made[1].1).bytes, b"damaged case 0\n");
        assert_eq!(damaged(&[]).len(), 1);
    }

    #[test]
    fn a_difference_is_named() {
        let file = file_of(&cases(3, 3), Case::write);
        let given = results(&file, &mut Counts::default());
        let start = given.starts[2];
        let mut theirs = given.bytes.clone();
        let at = start + WORD * RESULT;
        theirs[at] ^= 1;
        let told = given.explain(&theirs, at, 500, |index, at| tell(&file, index, at));
        assert!(
            told.starts_with("case 502: addition 1, the answer: "),
            "{told}"
        );
    }
}
