//! Another program's VIF results against our own.

use crate::compare::{case_at, ends, lengths, Program};
use crate::comparison::{sums, Comparison};
use crate::damaged::{three_and_some, Damage, Spoilt};
use crate::memory::cases::{MOST_CODE, MOST_DATA, MOST_LOG};
use crate::packet_points;
use crate::path_points;
use crate::vif_cases::{
    self, case_starts, describe_case, describe_group, first_case, Results, GROUPS, HEADER, MODEL,
    MOST_CALLS, NUMBER, WORDS,
};
use crate::vif_counts::Counts;
use crate::vif_generate::generate;
use crate::vif_points;
use crate::words::WORD;

const DAMAGE: Damage = Damage {
    header: HEADER * WORD,
    first: &[-1, 0, 3],
    before_end: &[1],
    later: &[-4, -1, 0, 4, 5],
    cut_cases: |last| vec![1, last / 2, last],
    spoilt_cases: |last| vec![0, 1, last / 2, last],
    spoil,
};

const COMPARISON: Comparison<Vec<u8>, Counts> = Comparison {
    cases: generate,
    compare_cases: |program, file, counts| compare_file(program, file, counts),
    damaged: |file, random| {
        let some = three_and_some(file, &case_starts(file), 17, random);
        DAMAGE.files(&some, &case_starts(&some), random)
    },
    compare_file: |program, file| compare_file(program, file, &mut Counts::default()),
    compare_more: |_, _, _, _| Ok(()),
    rows: |all| sums(all, Counts::rows),
};

/// Compares on the cases of each seed, which have the points worked by hand among them, and on
/// damaged files made from them.
pub fn compare(program: &Program, seeds: &[u64], words: u64) -> Result<(), String> {
    let points = vif_points::check()? + packet_points::check()? + path_points::check()?;
    let points = [("points worked by hand", points)];
    COMPARISON.compare(program, seeds, words, &points)
}

fn compare_file(program: &Program, file: &[u8], counts: &mut Counts) -> Result<(), String> {
    let own = vif_cases::results(file, counts);
    program.agrees(file, &own.bytes, |theirs, at| {
        explain(file, &own, theirs, at)
    })
}

fn explain(file: &[u8], own: &Results, theirs: &[u8], at: usize) -> String {
    if let Some(ends) = ends(theirs, &own.bytes, own.damage, at) {
        let case = own.starts.last().map_or(0, |start| start.case);
        return format!("differs after the last result, that of case {case}: {ends}");
    }
    let lengths = lengths(theirs, &own.bytes);
    let index = own.starts.partition_point(|start| start.offset <= at) - 1;
    let start = &own.starts[index];
    let case = case_at(file, start.case, first_case);
    let answer = (at - start.offset) / WORD;
    let place = if answer < start.calls {
        format!("call {answer}")
    } else {
        format!("after its {} calls", start.calls)
    };
    let end = own
        .starts
        .get(index + 1)
        .filter(|next| next.case == start.case);
    let end = end.map_or(case.words.len(), |next| next.first_word);
    format!(
        "case {}, group {}, {place}: results differ at byte {at} ({lengths})\n  program: {}\n  ours: {}\n  \
         the case and the words of this group:\n{}",
        start.case,
        start.group,
        describe_group(&theirs[start.offset..], start.calls),
        describe_group(&own.bytes[start.offset..], start.calls),
        describe_case(&case, start.first_word, end)
    )
}

fn spoil(spoilt: &mut Spoilt) {
    spoilt.limits(&[
        ("D", 1, MOST_DATA),
        ("C", 2, MOST_CODE),
        ("L", 3, MOST_LOG),
        ("first number", NUMBER, 3),
        ("g", GROUPS, vif_cases::MOST_GROUPS),
        ("n", WORDS, vif_cases::MOST_WORDS),
        ("unit", MODEL, 1),
    ]);
    spoilt.one_off("g", GROUPS);
    spoilt.one_off("n", WORDS);
    let (groups, words) = (spoilt.held(GROUPS), spoilt.held(WORDS));
    spoilt.word("n four more", WORDS, words + 4);
    spoilt.word("n four less", WORDS, words.saturating_sub(4));
    let number = spoilt.held(NUMBER);
    spoilt.word("first number one more", NUMBER, number + 1);
    if groups > 0 {
        let last = HEADER + groups as usize - 1;
        spoilt.word("first group at its limit", HEADER, MOST_CALLS);
        spoilt.word("first group above its limit", HEADER, MOST_CALLS + 1);
        spoilt.word("last group the greatest", last, u32::MAX);
    }
}
