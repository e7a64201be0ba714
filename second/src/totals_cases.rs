//! Totals case files and their results.

use crate::case_results::Results;
use crate::compare;
use crate::run_counts::{self, RunCounts};
use crate::totals::{add_totals, nop_share, Totals, SUMS};
use crate::totals_counts::Counts;
use crate::totals_sentences::broken;
use crate::words::{number, put_number, put_word, word, WORD};

pub const MARK: u32 = 0x314F_5454;
pub const MOST_ADDITIONS: u32 = 65_535;
/// The words of a case before what is added.
pub const HEADER: usize = 2 + 2 * SUMS;
/// The words of an addition's result.
pub const RESULT: usize = 1 + 2 * SUMS + 4;

#[derive(Clone, PartialEq, Eq, Debug)]
pub struct Case {
    /// The totals at first.
    pub totals: Totals,
    pub added: Vec<RunCounts>,
}

impl Case {
    pub fn write(&self, out: &mut Vec<u8>) {
        put_word(out, MARK);
        put_word(out, self.added.len() as u32);
        self.totals.iter().for_each(|&sum| put_number(out, sum));
        self.added.iter().for_each(|counts| counts.write(out));
    }
}

/// What an addition gave.
#[derive(Clone, Copy, PartialEq, Eq, Debug)]
pub struct Added {
    pub answer: u32,
    pub totals: Totals,
    /// NOPs over VIF words of these totals.
    pub share: (u64, u64),
}

impl Added {
    fn write(&self, out: &mut Vec<u8>) {
        put_word(out, self.answer);
        self.totals.iter().for_each(|&sum| put_number(out, sum));
        put_number(out, self.share.0);
        put_number(out, self.share.1);
    }
}

/// What each addition of a case gives, on what the one before left.
pub fn outcome(case: &Case) -> Vec<Added> {
    let mut totals = case.totals;
    let add = |counts: &RunCounts| {
        let answer = add_totals(&mut totals, counts).err().unwrap_or(0);
        Added {
            answer,
            totals,
            share: nop_share(&totals),
        }
    };
    case.added.iter().map(add).collect()
}

/// The first case of the bytes and its length; none where it is damaged.
pub fn first_case(bytes: &[u8]) -> Option<(Case, usize)> {
    if bytes.len() < HEADER * WORD || word(bytes, 0) != MARK || word(bytes, 1) > MOST_ADDITIONS {
        return None;
    }
    let additions = word(bytes, 1) as usize;
    let end = HEADER + run_counts::WORDS * additions;
    if bytes.len() < end * WORD {
        return None;
    }
    let counts = (HEADER..end).step_by(run_counts::WORDS);
    let case = Case {
        totals: std::array::from_fn(|i| number(bytes, 2 + 2 * i)),
        added: counts.map(|at| RunCounts::read(bytes, at)).collect(),
    };
    Some((case, end * WORD))
}

/// The results of a case file, each checked.
pub fn results(file: &[u8], counts: &mut Counts) -> Results {
    let mut checked = None;
    let mut results = Results::of(file, first_case, |index, case: Case, out| {
        let outcome = outcome(&case);
        outcome.iter().for_each(|added| added.write(out));
        if checked.is_none() {
            checked = broken(&case, &outcome).map(|told| (index, told));
        }
        counts.note(&case, &outcome);
    });
    results.broken = checked;
    results
}

/// Where each case of a file starts, a damaged last one too.
pub fn case_starts(file: &[u8]) -> Vec<usize> {
    compare::case_starts(file, |bytes| Some(first_case(bytes)?.1))
}

/// The names of the sums.
pub const NAMES: [&str; SUMS] = [
    "packets closed",
    "VIF words",
    "NOPs",
    "QWC of refe",
    "QWC of cnt",
    "QWC of next",
    "QWC of ref",
    "QWC of refs",
    "QWC of call",
    "QWC of ret",
    "QWC of end",
];

/// Names a word of a case's result.
pub fn describe_place(at: usize) -> String {
    let (addition, at) = (at / RESULT, at % RESULT);
    let place = match at {
        0 => "the answer".to_string(),
        1.. if at <= 2 * SUMS => format!("{}, word {}", NAMES[(at - 1) / 2], (at - 1) % 2),
        _ => format!("the NOP share, word {}", at - 1 - 2 * SUMS),
    };
    format!("addition {addition}, {place}")
}

/// A case and our own answers, in words to read.
pub fn describe_case(case: &Case, addition: usize) -> String {
    let outcome = outcome(case);
    let before = match addition.checked_sub(1).and_then(|at| outcome.get(at)) {
        Some(added) => added.totals,
        None => case.totals,
    };
    format!(
        "    {} additions; addition {addition}: totals {before:X?}\n    added {:X?}\n    ours: {:X?}",
        case.added.len(),
        case.added.get(addition).map(RunCounts::numbers),
        outcome.get(addition),
    )
}

#[cfg(test)]
mod tests {
    use super::*;

    fn case() -> Case {
        Case {
            totals: [1, 10, 2, u64::MAX, 0, 0, 0, 0, 0, 0, 1 << 40],
            added: vec![
                RunCounts::of_numbers([99, 1, 2, 1, 0, 5, 0, 0, 0, 0, 0, 7]),
                RunCounts::of_numbers([1, 1, 2, 1, 1, 5, 0, 0, 0, 0, 0, 7]),
            ],
        }
    }

    /// The words of docs/FORMATS.md.
    #[test]
    fn a_case_and_its_result() {
        let mut file = Vec::new();
        case().write(&mut file);
        assert_eq!(&file[..4], b"TTO1");
        assert_eq!(file.len(), WORD * (2 + 22 + 48));
        assert_eq!(word(&file, 1), 2);
        assert_eq!([2, 4, 6].map(|at| number(&file, at)), [1, 10, 2]);
        assert_eq!(number(&file, 22), 1 << 40);
        assert_eq!([24, 26, 28, 30].map(|at| number(&file, at)), [99, 1, 2, 1]);
        assert_eq!(first_case(&file), Some((case(), file.len())));
        let given = results(&file, &mut Counts::default());
        assert_eq!((given.damage, given.broken), (None, None));
        // 12 words with 3 NOPs; then refused by the refe sum, with nothing changed.
        let after = [2, 12, 3, u64::MAX, 5, 0, 0, 0, 0, 0, (1 << 40) + 7];
        let mut wanted = Vec::new();
        for answer in [0, 54] {
            put_word(&mut wanted, answer);
            after.iter().for_each(|&sum| put_number(&mut wanted, sum));
            put_number(&mut wanted, 1);
            put_number(&mut wanted, 4);
        }
        assert_eq!(given.bytes, wanted);
    }

    #[test]
    fn damaged_cases() {
        let mut file = Vec::new();
        case().write(&mut file);
        for length in 0..file.len() {
            assert_eq!(first_case(&file[..length]), None);
        }
        let mut empty = Vec::new();
        let none = Case {
            added: Vec::new(),
            ..case()
        };
        none.write(&mut empty);
        assert_eq!(empty.len(), WORD * HEADER);
        let given = results(&empty, &mut Counts::default());
        assert_eq!((given.bytes, given.starts), (vec![], vec![0]));
        empty[4..8].copy_from_slice(&65_536_u32.to_le_bytes());
        empty.resize(WORD * (HEADER + run_counts::WORDS * 65_536), 0);
        assert_eq!(first_case(&empty), None);
        empty[4..8].copy_from_slice(&65_535_u32.to_le_bytes());
        assert_eq!(first_case(&empty).unwrap().0.added.len(), 65_535);
    }

    #[test]
    fn places() {
        for (at, name) in [
            (0, "addition 0, the answer"),
            (1, "addition 0, packets closed, word 0"),
            (22, "addition 0, QWC of end, word 1"),
            (23, "addition 0, the NOP share, word 0"),
            (26, "addition 0, the NOP share, word 3"),
            (27, "addition 1, the answer"),
        ] {
            assert_eq!(describe_place(at), name);
        }
        assert!(describe_case(&case(), 1).contains("answer: 36"));
    }
}
