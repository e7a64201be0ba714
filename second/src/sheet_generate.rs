//! Sheet cases from a seed.

use crate::capture_generate::spoil;
use crate::chain::State;
use crate::group_edges::{group_case, group_edge_cases};
use crate::log;
use crate::memory;
use crate::memory::cases::{MOST_LOG, MOST_MAIN};
use crate::random::Random;
use crate::sheet;
use crate::sheet_cases::{Case, MOST_OUTPUT};
use crate::sheet_edges::edge_cases;
use crate::sheet_random::{
    any_state, case_around, damaged_sheet, good_record, random_sheet, sheet_of, shorten_memories,
    CODE, DATA, GS, START,
};
use crate::state_block::{set_used, write_state};

/// One case in so many is large.
const LARGE_EVERY: u64 = 300;
const LARGE_FIRST: u64 = 150;
const LARGE_KINDS: u64 = 7;
/// The most start records of a sheet.
const MOST_STARTS: usize = sheet::MOST_SHEET / sheet::HEADER;

/// A file of so many cases.
pub fn generate(seed: u64, count: u64) -> Vec<u8> {
    let mut random = Random::new(seed);
    let edges = edge_cases(&mut random);
    let mut next_edge = edges.iter().cycle();
    let group_edges = group_edge_cases(&mut random);
    let mut next_group_edge = group_edges.iter();
    let mut file = Vec::new();
    for index in 0..count {
        if index % LARGE_EVERY == LARGE_FIRST {
            let kind = seed % LARGE_KINDS + index / LARGE_EVERY;
            large_case(&mut random, kind).write(&mut file);
            continue;
        }
        // So many in every hundred, in mixed order.
        match 37 * (index % 100) % 100 {
            0..=39 => usual_case(&mut random).write(&mut file),
            // Each of the edges once.
            40..=57 => match next_group_edge.next() {
                Some(case) => case.write(&mut file),
                None => group_case(&mut random).write(&mut file),
            },
            58..=91 => next_edge.next().expect("there are edges").write(&mut file),
            _ => odd_case(&mut random).write(&mut file),
        }
    }
    file
}

/// A case that is whole.
fn usual_case(random: &mut Random) -> Case {
    let sheet = random_sheet(random);
    case_around(random, sheet)
}

/// A damaged sheet, any state in range, or a case with something spoilt.
fn odd_case(random: &mut Random) -> Case {
    match random.below(8) {
        0..=2 => {
            let sheet = damaged_sheet(random);
            let mut case = case_around(random, sheet);
            if random.percent(75) {
                shorten_memories(random, &mut case);
            }
            case
        }
        3..=5 => {
            let mut case = usual_case(random);
            let state = any_state(random, case.main_length);
            let used = case.used();
            case.state = write_state(&State { used, ..state });
            if random.percent(20) {
                case.allowance = random.below(sheet::steps(&case.sheet).unwrap_or(1));
            }
            case
        }
        _ => {
            let mut case = usual_case(random);
            spoil_case(random, &mut case);
            case
        }
    }
}

fn spoil_case(random: &mut Random, case: &mut Case) {
    let few = random.within(1..=20) as u32;
    let any = random.word();
    match random.below(8) {
        0 => case.main_length = case.main_length.saturating_sub(few),
        1 => case.main_length += few,
        2 => case.address = random.pick(&[few, 16 * few, any, any & 0x7FFF_FFF0]),
        3 => case.log_length = case.log_length.saturating_sub(few),
        4 => set_used(
            &mut case.state,
            random.pick(&[few as u64, any as u64, log::WRAPS]),
        ),
        5 => case.allowance = random.below(sheet::steps(&case.sheet).unwrap_or(1)),
        _ => spoil(random, &mut case.state),
    }
}

/// Cases with long sheets or memories, by turns.
fn large_case(random: &mut Random, kind: u64) -> Case {
    match kind % LARGE_KINDS {
        0 => most_starts(random),
        1 => longest_sheet(random),
        2 => {
            let mut case = usual_case(random);
            case.main_length = random.pick(&[1_048_577, 1_048_592, MOST_MAIN]);
            case
        }
        3 => longest_log(random),
        4 => {
            let mut case = usual_case(random);
            case.log_length = MOST_LOG;
            case
        }
        5 => longest_main(random),
        _ => {
            let mut case = usual_case(random);
            case.output_length = random.pick(&[1_048_576, 1_048_577, 1_048_592, MOST_OUTPUT]);
            case
        }
    }
}

/// 21,845 start records, at the end of the longest main memory.
fn most_starts(random: &mut Random) -> Case {
    let sheet = (0..MOST_STARTS).flat_map(|_| good_record(random, START, 0));
    let sheet: Vec<u8> = sheet.collect();
    let mut case = case_around(random, sheet);
    let chain = sheet::chain_length(&case.sheet).unwrap_or(16) as u32;
    case.main_length = memory::MOST_MAIN as u32;
    case.address = case.main_length - chain;
    let short = random.pick(&[0, 0, 0, 1]);
    case.log_length = log::length(case.used() + MOST_STARTS as u64 - short);
    case
}

/// A sheet of exactly 131,072 bytes.
fn longest_sheet(random: &mut Random) -> Case {
    let (kinds, n): (&[u8], u8) = match random.below(5) {
        0 => (&[DATA], 255),
        1 => (&[CODE], 255),
        2 => (&[GS], 255),
        3 => (&[START], 0),
        _ => (&[DATA, CODE, GS, START], 0),
    };
    let sheet = sheet_of(random, sheet::MOST_SHEET, kinds, n);
    case_around(random, sheet)
}

/// The longest log, with just enough room or plenty.
fn longest_log(random: &mut Random) -> Case {
    let mut case = usual_case(random);
    let entries = sheet::entries(&case.sheet).unwrap_or(0);
    case.log_length = log::MOST_NUMBERS as u32;
    let most = log::MOST_ENTRIES - entries;
    let any = random.below(most);
    set_used(&mut case.state, random.pick(&[most, most, any]));
    case
}

/// A usual chain in the longest main memory: at its end, or one quadword too far.
fn longest_main(random: &mut Random) -> Case {
    let mut case = usual_case(random);
    let chain = sheet::chain_length(&case.sheet).unwrap_or(16) as u32;
    case.main_length = memory::MOST_MAIN as u32;
    case.address = case.main_length - chain + random.pick(&[0, 0, 16]);
    case
}

#[cfg(test)]
mod tests {
    use super::*;
    use crate::sheet_cases::{first_case, layout, results};
    use crate::sheet_check::{foretold, End};
    use crate::sheet_counts::Counts;
    use crate::words::WORD;

    fn cases(file: &[u8]) -> Vec<Case> {
        let mut cases = Vec::new();
        let mut rest = file;
        while !rest.is_empty() {
            let (case, length) = first_case(rest).expect("generated cases are whole");
            cases.push(case);
            rest = &rest[length..];
        }
        cases
    }

    #[test]
    fn many_runs_are_whole_and_results_short() {
        let cases = cases(&generate(5, 2_000));
        assert_eq!(cases.len(), 2_000);
        let whole = |case: &&Case| foretold(case) == Some(End::Whole);
        let wholes = cases.iter().filter(whole).count();
        assert!(wholes >= 900, "{wholes}");
        let bytes = |case: &Case| {
            let parts = layout(case);
            let words = parts.iter().flatten().map(|(_, words)| words);
            WORD * words.sum::<usize>()
        };
        let average = cases.iter().map(bytes).sum::<usize>() / cases.len();
        assert!(average < 72_000, "{average}");
    }

    #[test]
    fn large_cases() {
        let mut random = Random::new(1);
        let starts = large_case(&mut random, 0);
        assert_eq!(starts.sheet.len(), 131_070);
        assert_eq!(sheet::chain_length(&starts.sheet), Ok(699_056));
        assert_eq!(starts.address, 1_048_576 - 699_056);
        assert_eq!(large_case(&mut random, 1).sheet.len(), 131_072);
        assert!(large_case(&mut random, 2).main_length > 1_048_576);
        let most = log::MOST_NUMBERS as u32;
        assert_eq!(large_case(&mut random, 3).log_length, most);
        assert!(large_case(&mut random, 4).log_length > most);
        assert_eq!(large_case(&mut random, 5).main_length, 1_048_576);
        assert!(large_case(&mut random, 6).output_length >= 1_048_576);
    }

    #[test]
    fn a_seed_gives_one_file() {
        let file = generate(9, 40);
        assert!(file == generate(9, 40));
        assert!(file != generate(10, 40));
        let mut counts = Counts::default();
        let given = results(&file, &mut counts);
        assert_eq!((given.damage, given.broken), (None, None));
        assert_eq!(given.starts.len(), 40);
    }
}
