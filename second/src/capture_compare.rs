//! Another program's capture results against our own.

use crate::capture_cases::{
    self, case_starts, describe_case, describe_result, first_case, Case, Results, HEADER,
};
use crate::capture_counts::{self, Counts};
use crate::capture_cut_check;
use crate::capture_cut_counts;
use crate::capture_cuts::{self, Family};
use crate::capture_generate::{cases, file_of};
use crate::capture_long_cases;
use crate::capture_long_counts;
use crate::compare::{case_at, ends, lengths, Program};
use crate::comparison::{sums, Comparison, Rows};
use crate::count_points;
use crate::damaged::{three_and_some, Damage, Files, Spoilt};
use crate::memory::cases::{
    MOST_CODE, MOST_DATA, MOST_LOG, MOST_MAIN, MOST_VIF0_CODE, MOST_VIF0_DATA,
};
use crate::packet_points;
use crate::path_points;
use crate::random::Random;
use crate::set_points;
use crate::why_points;
use crate::words::WORD;

/// Damaged files with longer runs are left out.
const MOST_STEPS: u64 = 1_000_000;
const DAMAGE: Damage = Damage {
    header: HEADER * WORD,
    first: &[-1, 0, 3],
    before_end: &[1],
    later: &[-4, -1, 0, 4, 16],
    cut_cases: |last| vec![1, last / 2, last],
    spoilt_cases: |last| vec![0, 1, last / 2, last],
    spoil,
};

const COMPARISON: Comparison<Vec<Case>, Reached> = Comparison {
    cases,
    compare_cases: |program, cases, reached| {
        compare_file(program, &file_of(cases), &mut reached.counts)?;
        Ok(())
    },
    damaged: |cases, random| damaged(cases, random),
    compare_file: |program, file| {
        compare_file(program, file, &mut Counts::default())?;
        Ok(())
    },
    compare_more: |program, seed, cases, reached| compare_more(program, seed, cases, reached),
    rows: Reached::rows_of_all,
};

/// Compares on the cases of each seed, which have the points worked by hand among them, on damaged
/// files made from them, on some of them with their last run in parts, and on long captures.
pub fn compare(program: &Program, seeds: &[u64], runs: u64) -> Result<(), String> {
    let points = [
        (
            "points about packets and paths",
            packet_points::check()? + path_points::check()?,
        ),
        ("points about sets", set_points::check()?),
        ("points about whys", why_points::check()?),
        ("points about counts", count_points::check()?),
    ];
    COMPARISON.compare(program, seeds, runs, &points)
}

#[derive(Default)]
struct Reached {
    counts: Counts,
    cuts: capture_cut_counts::Counts,
    long: capture_long_counts::Counts,
    /// Runs in parts.
    in_parts: u64,
}

impl Reached {
    /// The sums; what is said of the lengths of runs is said of all runs.
    fn rows_of_all(all: &[Reached]) -> Rows {
        let lengths = all.iter().flat_map(|reached| reached.counts.lengths());
        let of_lengths = capture_counts::length_rows(lengths.collect());
        let mut rows = sums(all, Reached::rows);
        for (name, count) in &mut rows {
            let found = of_lengths.iter().find(|(of_lengths, _)| of_lengths == name);
            *count = found.map_or(*count, |&(_, found)| found);
        }
        rows
    }

    fn rows(&self) -> Rows {
        let in_parts = "runs in parts that give what the uncut run gives".to_string();
        let mut rows = [self.counts.rows(), self.cuts.rows(), self.long.rows()].concat();
        rows.push((in_parts, self.in_parts));
        rows
    }
}

/// Made from the first three cases and up to nine in a row from anywhere.
fn damaged(cases: &[Case], random: &mut Random) -> Files {
    let file = file_of(cases);
    let some = three_and_some(&file, &case_starts(&file), 9, random);
    let mut made = DAMAGE.files(&some, &case_starts(&some), random);
    // A changed case may loop under an allowance that was meant for another.
    made.retain(|(_, bytes)| capture_cases::ends_within(bytes, MOST_STEPS));
    made
}

/// Compares on long captures and on runs in parts.
fn compare_more(
    program: &Program,
    seed: u64,
    cases: &[Case],
    reached: &mut Reached,
) -> Result<(), String> {
    compare_long(program, seed, &mut reached.long).map_err(|e| format!("long captures: {e}"))?;
    let mut families = capture_cuts::families(seed, cases, &mut reached.cuts);
    families.extend(capture_long_cases::families(seed, &mut reached.cuts));
    reached.in_parts +=
        compare_parts(program, &families).map_err(|e| format!("runs in parts: {e}"))?;
    Ok(())
}

fn compare_long(
    program: &Program,
    seed: u64,
    counts: &mut capture_long_counts::Counts,
) -> Result<(), String> {
    let cases = capture_long_cases::cases(seed);
    cases.iter().for_each(|case| counts.note_case(case));
    compare_file(program, &file_of(&cases), &mut Counts::default())?;
    Ok(())
}

/// Compares the results, then checks that parts give what the uncut run gives; hands back how many
/// runs in parts there are.
fn compare_parts(program: &Program, families: &[Family]) -> Result<u64, String> {
    let file = capture_cuts::file_of(families);
    let results = compare_file(program, &file, &mut Counts::default())?;
    capture_cut_check::check(families, &results)
}

/// Hands back the results, which are both programs'.
fn compare_file(program: &Program, file: &[u8], counts: &mut Counts) -> Result<Results, String> {
    let own = capture_cases::results(file, counts);
    if let Some((case, call, told)) = &own.broken {
        return Err(format!("our own case {case}, call {call}: {told}"));
    }
    program.agrees(file, &own.bytes, |theirs, at| {
        explain(file, &own, theirs, at)
    })?;
    Ok(own)
}

fn explain(file: &[u8], own: &Results, theirs: &[u8], at: usize) -> String {
    if let Some(ends) = ends(theirs, &own.bytes, own.damage, at) {
        let case = own.starts.last().map_or(0, |start| start.case);
        return format!("differs after the last result, that of case {case}: {ends}");
    }
    let lengths = lengths(theirs, &own.bytes);
    let index = own.starts.partition_point(|start| start.offset <= at) - 1;
    let start = &own.starts[index];
    let case = case_at(file, start.case, first_case);
    let call = &case.calls[start.call];
    format!(
        "case {}, call {}: results differ at byte {at}, word {} of the result ({lengths})\n  \
         program: {}\n  ours: {}\n  the case and our last steps:\n{}",
        start.case,
        start.call,
        (at - start.offset) / WORD,
        describe_result(&theirs[start.offset..], call, &case),
        describe_result(&own.bytes[start.offset..], call, &case),
        describe_case(&case, start.call)
    )
}

fn spoil(spoilt: &mut Spoilt) {
    spoilt.limits(&[
        ("M", 1, MOST_MAIN),
        ("P", 2, spoilt.held(1) / 4),
        ("D", 3, MOST_DATA),
        ("C", 4, MOST_CODE),
        ("L", 5, MOST_LOG),
        ("mode", 8, 1),
        ("n", 9, capture_cases::MOST_CALLS),
        ("D0", 10, MOST_VIF0_DATA),
        ("C0", 11, MOST_VIF0_CODE),
    ]);
    for (name, at) in [("M", 1), ("P", 2), ("n", 9)] {
        spoilt.one_off(name, at);
    }
    let too_short = (4 * spoilt.held(2)).saturating_sub(1);
    spoilt.word("M just too short for P", 1, too_short);
    let calls = spoilt.held(9) as usize;
    if calls > 0 {
        for kind in [0, 3, 4, 5, 257, 259, 260, u32::MAX] {
            spoilt.word(&format!("first call of kind {kind}"), HEADER, kind);
        }
        for kind in [0, 3, 4, 5] {
            let last = HEADER + 4 * (calls - 1);
            spoilt.word(&format!("last call of kind {kind}"), last, kind);
        }
    }
}

#[cfg(test)]
mod tests {
    use super::*;
    use crate::words::number;

    #[test]
    fn packets_are_told() {
        let mut file = Vec::new();
        let cases = packet_points::in_captures();
        cases.iter().for_each(|case| case.write(&mut file));
        let own = capture_cases::results(&file, &mut Counts::default());
        // A run that closes two packets.
        let packets = |offset: usize| number(&own.bytes[offset..], 3);
        let mut starts = own.starts.iter().map(|start| start.offset);
        let start = starts.find(|&offset| packets(offset) == 2).unwrap();
        let steps = number(&own.bytes[start..], 1);
        let mut theirs = own.bytes.clone();
        let at = start + 3 * WORD;
        theirs[at] = 5;
        let told = explain(&file, &own, &theirs, at);
        assert!(told.contains(", word 3 of the result"), "{told}");
        for (whose, packets) in [("program", 5), ("ours", 2)] {
            let line = format!("{whose}: answer 0, {steps} steps, {packets} packets closed, ");
            assert!(told.contains(&line), "{told}");
        }
    }
}
