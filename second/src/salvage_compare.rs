//! Another program's salvage results against our own.

use crate::compare::{case_at, Program};
use crate::comparison::{file_of, kind_rows, sums, Comparison, ReachedByKind, Rows};
use crate::damaged::{Damage, Files, Spoilt};
use crate::random::Random;
use crate::salvage_cases::{
    self, case_starts, describe_case, describe_place, first_case, Case, HEADER,
};
use crate::salvage_counts::Counts;
use crate::salvage_generate::{cases, Made, KINDS, LARGE_KINDS};
use crate::salvage_points;
use crate::words::WORD;

/// Cases that are given to the program at once.
const BATCH: usize = 250;
const DAMAGE: Damage = Damage {
    header: HEADER * WORD,
    first: &[-1, 0],
    before_end: &[1],
    later: &[-4, -1, 0, 1],
    cut_cases: |last| vec![last / 2, last],
    spoilt_cases: |last| vec![0, last / 2, last],
    spoil,
};

type Reached = ReachedByKind<Counts>;

const COMPARISON: Comparison<Vec<Made>, Reached> = Comparison {
    cases,
    compare_cases: |program, cases, reached| {
        reached.compare_batches(cases, BATCH, Case::write, |file, first, counts| {
            compare_file(program, file, first, counts)
        })
    },
    damaged: |cases, random| damaged(cases, random),
    compare_file: |program, file| compare_file(program, file, 0, &mut Counts::default()),
    compare_more: |_, _, _, _| Ok(()),
    rows: |all| sums(all, rows),
};

/// Compares on the points worked by hand, on the cases of each seed and on damaged files made
/// from them.
pub fn compare(program: &Program, seeds: &[u64], count: u64) -> Result<(), String> {
    let points = salvage_points::file();
    salvage_points::check(&program.run(&points)?)?;
    compare_file(program, &points, 0, &mut Counts::default())?;
    let points = salvage_points::points().len();
    COMPARISON.compare(program, seeds, count, &[("points", points)])
}

fn rows(reached: &Reached) -> Rows {
    let kinds = KINDS.iter().chain(&LARGE_KINDS).map(|&(name, _)| name);
    [reached.counts.rows(), kind_rows(kinds, &reached.made)].concat()
}

/// Made from short cases.
fn damaged(cases: &[Made], random: &mut Random) -> Files {
    let is_short = |made: &&Made| (1..600).contains(&made.case.sheet.len());
    let file = file_of(cases.iter().filter(is_short).take(6), Case::write);
    DAMAGE.files_of_sheets(&file, &case_starts(&file), random)
}

/// Compares on a file whose cases are counted from `first`.
fn compare_file(
    program: &Program,
    file: &[u8],
    first: usize,
    counts: &mut Counts,
) -> Result<(), String> {
    let own = salvage_cases::results(file, counts);
    own.compare(program, file, first, |index, at| tell(file, index, at))
}

/// A word of a case's result, and the case.
fn tell(file: &[u8], index: usize, at_word: usize) -> (String, String) {
    let case = case_at(file, index, first_case);
    (describe_place(&case, at_word), describe_case(&case))
}

fn spoil(spoilt: &mut Spoilt) {
    spoilt.limits(&[
        ("S", 1, salvage_cases::MOST_SHEET),
        ("O", 2, salvage_cases::MOST_OUTPUT),
        ("R", 3, salvage_cases::MOST_LIST),
    ]);
    spoilt.bytes_off("S", 1);
}

#[cfg(test)]
mod tests {
    use super::*;
    use crate::case_results::Results;
    use crate::compare::zeros;
    use crate::damaged::filling_not_zero;
    use crate::salvage_cases::results;

    fn own(file: &[u8]) -> Results {
        results(file, &mut Counts::default())
    }

    #[test]
    fn every_count_is_reached() {
        let mut counts = Counts::default();
        let given = results(&file_of(&cases(1, 2_000), Case::write), &mut counts);
        assert_eq!((given.damage, given.broken), (None, None));
        assert_eq!(zeros(&counts.rows()), Vec::<&str>::new());
    }

    #[test]
    fn damaged_files_have_a_line() {
        let damaged = |cases: &[Made]| damaged(cases, &mut Random::new(2));
        let made = damaged(&cases(2, 30));
        assert_eq!(own(&made[0].1).bytes, []);
        let lines = made.iter().filter(|(_, bytes)| own(bytes).damage.is_some());
        assert!(lines.count() > 40);
        let (name, cut) = &made[1];
        assert_eq!(name, "cut after 1 bytes");
        assert_eq!(own(cut).bytes, b"damaged case 0\n");
        assert_eq!(damaged(&[]).len(), 2);
    }

    #[test]
    fn filling_is_ignored() {
        let file = file_of(&cases(1, 20), Case::write);
        let filled = filling_not_zero(&file, &case_starts(&file), DAMAGE.header);
        let mut zeros = Vec::new();
        let mut rest = &filled[..];
        while let Some((case, length)) = first_case(rest) {
            case.write(&mut zeros);
            rest = &rest[length..];
        }
        assert!(rest.is_empty() && filled != zeros);
        assert!(own(&filled).bytes == own(&zeros).bytes);
    }

    #[test]
    fn a_difference_is_named() {
        let all = cases(3, 5);
        let file = file_of(&all, Case::write);
        let given = own(&file);
        let start = given.starts[3];
        let mut theirs = given.bytes.clone();
        theirs[start + WORD] ^= 1;
        let told = given.explain(&theirs, start + WORD, 250, |index, at| {
            tell(&file, index, at)
        });
        assert!(told.starts_with("case 253: the bytes written: "), "{told}");
        let told = given.explain(&given.bytes[..start], start, 0, |index, at| {
            tell(&file, index, at)
        });
        assert!(
            told.starts_with("case 3: the answer: cut after 0 bytes"),
            "{told}"
        );
        let end = given.bytes.len();
        theirs.push(0);
        let told = given.explain(&theirs, end, 0, |index, at| tell(&file, index, at));
        assert!(told.starts_with("differs after the results of 5 cases"));
    }
}
