//! Another program's GIF results against our own.

use crate::compare::{ends, lengths, Program};
use crate::comparison::{sums, Comparison};
use crate::damaged::{three_and_some, Damage, Spoilt};
use crate::gif_cases::{
    self, case_starts, describe_case, describe_result, Results, HEADER, NUMBER_AT,
};
use crate::gif_counts::Counts;
use crate::gif_generate::generate;
use crate::memory::cases::MOST_LOG;
use crate::packet_points;
use crate::path_points;

const DAMAGE: Damage = Damage {
    header: HEADER,
    first: &[-4, -1, 0, 1, 15, 16, 17, 47],
    before_end: &[1],
    later: &[-1, 0, 8, 16, 31],
    cut_cases: |last| vec![1, last / 2, last],
    spoilt_cases: |last| vec![0, 1, last / 2, last],
    spoil,
};

const COMPARISON: Comparison<Vec<u8>, Counts> = Comparison {
    cases: generate,
    compare_cases: |program, file, counts| compare_file(program, file, counts),
    damaged: |file, random| {
        let some = three_and_some(file, &case_starts(file), 17, random);
        DAMAGE.files(&some, &case_starts(&some), random)
    },
    compare_file: |program, file| compare_file(program, file, &mut Counts::default()),
    compare_more: |_, _, _, _| Ok(()),
    rows: |all| sums(all, Counts::rows),
};

/// Compares on the cases of each seed, which have the points worked by hand among them, and on
/// damaged files made from them.
pub fn compare(program: &Program, seeds: &[u64], quadwords: u64) -> Result<(), String> {
    let points = packet_points::check()? + path_points::check()?;
    let points = [("points about packets and paths", points)];
    COMPARISON.compare(program, seeds, quadwords, &points)
}

fn compare_file(program: &Program, file: &[u8], counts: &mut Counts) -> Result<(), String> {
    let own = gif_cases::results(file, counts);
    program.agrees(file, &own.bytes, |theirs, at| {
        explain(file, &own, theirs, at)
    })
}

fn explain(file: &[u8], own: &Results, theirs: &[u8], at: usize) -> String {
    if let Some(ends) = ends(theirs, &own.bytes, own.damage, at) {
        let case = own.starts.last().map_or(0, |start| start.case);
        return format!("differs after the last result, that of case {case}: {ends}");
    }
    let lengths = lengths(theirs, &own.bytes);
    let index = own.starts.partition_point(|start| start.offset <= at) - 1;
    let start = &own.starts[index];
    let from = case_starts(file)[start.case];
    format!(
        "case {}, quadword {}: results differ at byte {at} ({lengths})\n  program: {}\n  ours: {}\n  \
         the case to this quadword:\n{}",
        start.case,
        start.quadword,
        describe_result(&theirs[start.offset..]),
        describe_result(&own.bytes[start.offset..]),
        describe_case(&file[from..], start.quadword)
    )
}

fn spoil(spoilt: &mut Spoilt) {
    spoilt.word("mark 0", 0, 0);
    spoilt.limits(&[("n", 1, gif_cases::MOST_QUADWORDS), ("L", 2, MOST_LOG)]);
    spoilt.one_off("n", 1);
    for path in [0, 1, 4, 5, 0x102, 0x10003, u32::MAX] {
        spoilt.word(&format!("path {path}"), NUMBER_AT, path);
    }
    spoilt.word("the other path", NUMBER_AT, 5 - spoilt.held(NUMBER_AT));
}
