//! Another program's sheet results against our own.

use crate::compare::{case_at, Program};
use crate::comparison::{sums, Comparison};
use crate::damaged::{some_cases, Damage, Files, Spoilt};
use crate::group_points;
use crate::memory::cases::{MOST_CODE, MOST_DATA, MOST_LOG, MOST_MAIN};
use crate::random::Random;
use crate::sheet_cases::{self, case_starts, describe_case, describe_place, first_case, HEADER};
use crate::sheet_counts::Counts;
use crate::sheet_generate::generate;
use crate::sheet_points::{self, Expected};
use crate::words::{word, WORD};

/// Cases that are given to the program at once.
const BATCH: usize = 250;
/// Cases whose filling is changed, for each length of it.
const FILLED: usize = 10;
const DAMAGE: Damage = Damage {
    header: HEADER * WORD,
    first: &[-1, 0, 3],
    before_end: &[1],
    later: &[-4, -1, 0, 1, 4],
    cut_cases: |last| vec![last / 2, last],
    spoilt_cases: |last| vec![0, last / 2, last],
    spoil,
};

const COMPARISON: Comparison<Vec<u8>, Counts> = Comparison {
    cases: generate,
    compare_cases: |program, file, counts| compare_batches(program, file, counts),
    damaged: |file, random| damaged(file, random),
    compare_file: |program, file| compare_file(program, file, 0, &mut Counts::default()),
    compare_more: |_, _, _, _| Ok(()),
    rows: |all| sums(all, Counts::rows),
};

/// Compares on the bench points, on the cases of each seed and on damaged files made
/// from them.
pub fn compare(program: &Program, seeds: &[u64], count: u64) -> Result<(), String> {
    let points = sheet_points::expected();
    compare_points(program, &points)?;
    let group_points = group_points::expected();
    compare_points(program, &group_points)?;
    let points = [
        ("bench points", points.len()),
        ("points about groups", group_points.len()),
    ];
    COMPARISON.compare(program, seeds, count, &points)
}

fn compare_points(program: &Program, points: &[Expected]) -> Result<(), String> {
    let file = sheet_points::file(points);
    sheet_points::check(points, &program.run(&file)?)?;
    compare_file(program, &file, 0, &mut Counts::default())
}

fn compare_batches(program: &Program, file: &[u8], counts: &mut Counts) -> Result<(), String> {
    let mut bounds: Vec<usize> = case_starts(file).into_iter().step_by(BATCH).collect();
    bounds.push(file.len());
    for (i, ends) in bounds.windows(2).enumerate() {
        compare_file(program, &file[ends[0]..ends[1]], i * BATCH, counts)?;
    }
    Ok(())
}

/// Made from the first two cases and up to four in a row from anywhere.
fn damaged(file: &[u8], random: &mut Random) -> Files {
    let starts = case_starts(file);
    let head = starts.len().min(2);
    let first = random.within(head as u64..=starts.len() as u64) as usize;
    let some = some_cases(file, &starts, head, first, 4);
    let mut made = DAMAGE.files(&some, &case_starts(&some), random);
    made.push(("filling not zero".to_string(), filling_not_zero(file)));
    made
}

/// Compares on a file whose cases are counted from `first`.
fn compare_file(
    program: &Program,
    file: &[u8],
    first: usize,
    counts: &mut Counts,
) -> Result<(), String> {
    let own = sheet_cases::results(file, counts);
    own.compare(program, file, first, |index, at| tell(file, index, at))
}

/// A word of a case's result, and the case.
fn tell(file: &[u8], index: usize, at_word: usize) -> (String, String) {
    let case = case_at(file, index, first_case);
    (describe_place(&case, at_word), describe_case(&case))
}

fn spoil(spoilt: &mut Spoilt) {
    spoilt.limits(&[
        ("S", 1, sheet_cases::MOST_SHEET),
        ("O", 2, sheet_cases::MOST_OUTPUT),
        ("M", 3, MOST_MAIN),
        ("D", 5, MOST_DATA),
        ("C", 6, MOST_CODE),
        ("L", 7, MOST_LOG),
    ]);
    spoilt.bytes_off("S", 1);
}

/// Cases of a file whose sheets end inside a word, with the bytes that fill it up not zero.
fn filling_not_zero(file: &[u8]) -> Vec<u8> {
    let mut bounds = case_starts(file);
    bounds.push(file.len());
    let mut left = [0, FILLED, FILLED, FILLED];
    let mut bytes = Vec::new();
    for ends in bounds.windows(2) {
        let case = &file[ends[0]..ends[1]];
        let length = word(case, 1) as usize;
        if left[length % WORD] > 0 {
            left[length % WORD] -= 1;
            bytes.extend(&case[..HEADER * WORD + length]);
            bytes.resize(bytes.len().next_multiple_of(WORD), 0x9E);
        }
    }
    bytes
}

#[cfg(test)]
mod tests {
    use super::*;
    use crate::case_results::Results;
    use crate::compare::zeros;
    use crate::sheet_cases::results;
    use crate::words::number;

    fn own(file: &[u8]) -> Results {
        results(file, &mut Counts::default())
    }

    #[test]
    fn every_count_is_reached() {
        let mut counts = Counts::default();
        let given = results(&generate(1, 2_000), &mut counts);
        assert_eq!((given.damage, given.broken), (None, None));
        assert_eq!(zeros(&counts.rows()), Vec::<&str>::new());
    }

    #[test]
    fn damaged_files_have_a_line() {
        let damaged = |file: &[u8]| damaged(file, &mut Random::new(2));
        let made = damaged(&generate(2, 12));
        assert_eq!(own(&made[0].1).bytes, []);
        let lines = made.iter().filter(|(_, bytes)| own(bytes).damage.is_some());
        assert!(lines.count() > 50);
        let (name, cut) = &made[1];
        assert_eq!(name, "cut after 1 bytes");
        assert_eq!(own(cut).bytes, b"damaged case 0\n");
        assert_eq!(damaged(&[]).len(), 2);
    }

    #[test]
    fn filling_is_ignored() {
        let filled = filling_not_zero(&generate(1, 2_000));
        assert_eq!(case_starts(&filled).len(), 3 * FILLED);
        let mut zeros = Vec::new();
        let mut rest = &filled[..];
        while let Some((case, length)) = first_case(rest) {
            case.write(&mut zeros);
            rest = &rest[length..];
        }
        assert!(filled != zeros && own(&filled).bytes == own(&zeros).bytes);
    }

    #[test]
    fn a_difference_is_named() {
        let file = generate(3, 5);
        let given = own(&file);
        let start = given.starts[3];
        let (case, _) = first_case(&file[case_starts(&file)[3]..]).unwrap();
        let parts = sheet_cases::layout(&case);
        let words = |pieces: &[(&str, usize)]| pieces.iter().map(|p| p.1).sum::<usize>();
        // The second word of the state block.
        let first_three: usize = parts[..3].iter().map(|part| words(part)).sum();
        let run = start + WORD * first_three;
        let at = run + WORD * (26 + 1);
        let mut theirs = given.bytes.clone();
        theirs[at] ^= 1;
        let told = given.explain(&theirs, at, 250, |index, at| tell(&file, index, at));
        let head = "case 253: part 4 (build and run), word 27 of the part, state block word 1: ";
        assert!(told.starts_with(head), "{told}");
        let told = given.explain(&theirs, run + WORD * 4, 250, |index, at| {
            tell(&file, index, at)
        });
        let head = "case 253: part 4 (build and run), word 4 of the part, counts word 2: ";
        assert!(told.starts_with(head), "{told}");
        let (steps, packets) = (
            number(&given.bytes[run..], 2),
            number(&given.bytes[run..], 4),
        );
        assert!(told.contains(&format!("after {steps} steps, {packets} packets closed")));
        let told = given.explain(&given.bytes[..start], start, 0, |index, at| {
            tell(&file, index, at)
        });
        assert!(
            told.starts_with("case 3: part 1 (the builder), word 0"),
            "{told}"
        );
        assert!(told.contains("cut after 0 bytes of the result"));
        let end = given.bytes.len();
        theirs.push(0);
        let told = given.explain(&theirs, end, 0, |index, at| tell(&file, index, at));
        assert!(told.starts_with("differs after the results of 5 cases"));
    }
}
