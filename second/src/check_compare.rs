//! Another program's check results against our own.

use crate::case_results::Results;
use crate::check_cases::{
    self, case_starts, describe_case, describe_place, first_case, Case, HEADER,
};
use crate::check_counts::{Counts, VERDICTS};
use crate::check_generate::{cases, Made, KINDS, LARGE_KINDS};
use crate::check_points;
use crate::compare::{case_at, Program};
use crate::comparison::{file_of, sums, Comparison};
use crate::damaged::{Damage, Files, Spoilt};
use crate::memory::cases::{MOST_CODE, MOST_DATA, MOST_LOG, MOST_MAIN};
use crate::random::Random;
use crate::words::{word, WORD};
use std::collections::HashMap;

/// Cases that are given to the program at once.
const BATCH: usize = 250;
const DAMAGE: Damage = Damage {
    header: HEADER * WORD,
    first: &[-1, 0],
    before_end: &[1, 4],
    later: &[-4, -1, 0, 1],
    cut_cases: |last| vec![last / 2, last],
    spoilt_cases: |last| vec![0, last],
    spoil,
};

/// What the kinds of cases came to: how often each kind of verdict.
type Came = HashMap<(&'static str, u32), u64>;

const COMPARISON: Comparison<Vec<Made>, Reached> = Comparison {
    cases,
    compare_cases: |program, cases, reached| compare_batches(program, cases, reached),
    damaged: |cases, random| damaged(cases, random),
    compare_file: |program, file| {
        compare_file(program, file, 0, &mut Counts::default())?;
        Ok(())
    },
    compare_more: |_, _, _, _| Ok(()),
    rows: |all| sums(all, Reached::rows),
};

/// Compares on the points worked by hand, on the cases of each seed and on damaged files made
/// from them.
pub fn compare(program: &Program, seeds: &[u64], count: u64) -> Result<(), String> {
    let points = check_points::file();
    check_points::check(&program.run(&points)?)?;
    compare_file(program, &points, 0, &mut Counts::default())?;
    let points = check_points::points().len();
    COMPARISON.compare(program, seeds, count, &[("points", points)])
}

#[derive(Default)]
struct Reached {
    counts: Counts,
    came: Came,
}

impl Reached {
    fn rows(&self) -> Vec<(String, u64)> {
        [self.counts.rows(), rows_of_kinds(&self.came)].concat()
    }
}

fn compare_batches(program: &Program, cases: &[Made], reached: &mut Reached) -> Result<(), String> {
    for (i, batch) in cases.chunks(BATCH).enumerate() {
        let file = file_of(batch, Case::write);
        let own = compare_file(program, &file, i * BATCH, &mut reached.counts)?;
        note_verdicts(batch, &own, &mut reached.came);
    }
    Ok(())
}

/// Made from short cases.
fn damaged(cases: &[Made], random: &mut Random) -> Files {
    let is_short = |made: &&Made| {
        let case = &made.case;
        (1..300).contains(&case.sheet.len()) && case.main.len() < 300
    };
    let file = file_of(cases.iter().filter(is_short).take(4), Case::write);
    DAMAGE.files_of_sheets(&file, &case_starts(&file), random)
}

/// The kinds of cases with the verdicts that they have to come to.
fn rows_of_kinds(came: &Came) -> Vec<(String, u64)> {
    let mut rows = Vec::new();
    for &(name, _, verdicts) in KINDS.iter().chain(&LARGE_KINDS) {
        for &verdict in verdicts {
            let count = came.get(&(name, verdict)).copied().unwrap_or(0);
            rows.push((format!("{name}: {}", VERDICTS[verdict as usize]), count));
        }
    }
    rows
}

fn note_verdicts(cases: &[Made], own: &Results, came: &mut Came) {
    for (made, &start) in cases.iter().zip(&own.starts) {
        let verdict = word(&own.bytes[start..], 0);
        *came.entry((made.name, verdict)).or_default() += 1;
    }
}

/// Compares on a file whose cases are counted from `first`; hands back the results, which are both
/// programs'.
fn compare_file(
    program: &Program,
    file: &[u8],
    first: usize,
    counts: &mut Counts,
) -> Result<Results, String> {
    let own = check_cases::results(file, counts);
    own.compare(program, file, first, |index, at| tell(file, index, at))?;
    Ok(own)
}

/// A word of a case's result, and the case.
fn tell(file: &[u8], index: usize, at_word: usize) -> (String, String) {
    let case = case_at(file, index, first_case);
    (describe_place(&case, at_word), describe_case(&case))
}

fn spoil(spoilt: &mut Spoilt) {
    spoilt.limits(&[
        ("S", 1, check_cases::MOST_SHEET),
        ("M", 2, MOST_MAIN),
        ("P", 3, spoilt.held(2) / 4),
        ("D", 4, MOST_DATA),
        ("C", 5, MOST_CODE),
        ("L", 6, MOST_LOG),
    ]);
    spoilt.bytes_off("S", 1);
    let words = 4 * spoilt.held(3);
    spoilt.word("M for just what is given", 2, words);
    let less = words.saturating_sub(1);
    spoilt.word("M a byte less than what is given", 2, less);
}

#[cfg(test)]
mod tests {
    use super::*;
    use crate::check_cases::results;
    use crate::compare::zeros;
    use crate::damaged::filling_not_zero;

    fn own(file: &[u8]) -> Results {
        results(file, &mut Counts::default())
    }

    #[test]
    fn every_count_is_reached() {
        let (mut counts, mut came) = (Counts::default(), Came::new());
        for seed in [1, 2] {
            let cases = cases(seed, 2_000);
            for batch in cases.chunks(BATCH) {
                let given = results(&file_of(batch, Case::write), &mut counts);
                assert_eq!((given.damage, &given.broken), (None, &None));
                note_verdicts(batch, &given, &mut came);
            }
        }
        let rows = [counts.rows(), rows_of_kinds(&came)].concat();
        assert_eq!(zeros(&rows), Vec::<&str>::new());
    }

    #[test]
    fn damaged_files_have_a_line() {
        let damaged = |cases: &[Made]| damaged(cases, &mut Random::new(2));
        let made = damaged(&cases(2, 30));
        assert_eq!(own(&made[0].1).bytes, []);
        let lines = made.iter().filter(|(_, bytes)| own(bytes).damage.is_some());
        assert!(lines.count() > 40);
        let (name, cut) = &made[1];
        assert_eq!(name, "cut after 1 bytes");
        assert_eq!(own(cut).bytes, b"damaged case 0\n");
        assert_eq!(damaged(&[]).len(), 2);
    }

    #[test]
    fn filling_is_ignored() {
        let file = file_of(&cases(1, 20), Case::write);
        let filled = filling_not_zero(&file, &case_starts(&file), DAMAGE.header);
        let mut zeros = Vec::new();
        let mut rest = &filled[..];
        while let Some((case, length)) = first_case(rest) {
            case.write(&mut zeros);
            rest = &rest[length..];
        }
        assert!(rest.is_empty() && filled != zeros);
        assert!(own(&filled).bytes == own(&zeros).bytes);
    }

    #[test]
    fn a_difference_is_named() {
        let all = cases(3, 5);
        let file = file_of(&all, Case::write);
        let given = own(&file);
        let start = given.starts[3];
        let mut theirs = given.bytes.clone();
        theirs[start + 3 * WORD] ^= 1;
        let told = given.explain(&theirs, start + 3 * WORD, 250, |index, at| {
            tell(&file, index, at)
        });
        assert!(told.starts_with("case 253: the offset, word 0: "), "{told}");
    }
}
