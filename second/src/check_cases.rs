//! Check case files and their results.

use crate::case_results::Results;
use crate::check::{check, Checked};
use crate::check_counts::Counts;
use crate::check_sentences::broken;
use crate::compare;
use crate::memory::cases::{MOST_CODE, MOST_DATA, MOST_LOG, MOST_MAIN};
use crate::run_counts;
use crate::sheet_cases::{put_bytes, Filled};
use crate::words::{number, put_number, put_word, word, WORD};

pub const MARK: u32 = 0x3148_4354;
pub const MOST_SHEET: u32 = 131_088;
/// The words of a case before its sheet.
pub const HEADER: usize = 11;

#[derive(Clone, PartialEq, Eq, Debug)]
pub struct Case {
    pub sheet: Vec<u8>,
    pub main_length: u32,
    /// The words of main memory that are given, from address 0; the rest is zero.
    pub main: Vec<u32>,
    pub data_length: u32,
    pub code_length: u32,
    pub log_length: u32,
    pub fill: u64,
    pub allowance: u64,
}

impl Case {
    pub fn write(&self, out: &mut Vec<u8>) {
        put_word(out, MARK);
        put_word(out, self.sheet.len() as u32);
        put_word(out, self.main_length);
        put_word(out, self.main.len() as u32);
        put_word(out, self.data_length);
        put_word(out, self.code_length);
        put_word(out, self.log_length);
        put_number(out, self.fill);
        put_number(out, self.allowance);
        put_bytes(out, &self.sheet);
        self.main.iter().for_each(|&w| put_word(out, w));
    }

    /// VIF1's memories and the log at first.
    pub fn memories(&self) -> Filled {
        Filled::of(
            self.fill,
            self.data_length,
            self.code_length,
            self.log_length,
        )
    }

    /// Main memory, filled up with zeros.
    pub fn main(&self) -> Vec<u8> {
        let given = self.main.iter().flat_map(|word| word.to_le_bytes());
        let mut main: Vec<u8> = given.collect();
        main.resize(self.main_length as usize, 0);
        main
    }
}

/// What a case gave.
#[derive(Clone, PartialEq, Eq)]
pub struct Outcome {
    pub checked: Checked,
    pub memories: Filled,
}

impl Outcome {
    pub fn new(case: &Case) -> Outcome {
        let mut memories = case.memories();
        let main = case.main();
        Outcome {
            checked: check(&case.sheet, &mut memories.lend(&main), case.allowance),
            memories,
        }
    }

    pub fn write(&self, out: &mut Vec<u8>) {
        let verdict = self.checked.verdict;
        put_word(out, verdict.kind());
        put_number(out, verdict.number());
        put_word(out, verdict.offset() as u32);
        put_number(out, self.checked.used);
        self.checked.counts.write(out);
        self.memories.write(out);
    }
}

/// The first case of the bytes and its length; none where it is damaged.
pub fn first_case(bytes: &[u8]) -> Option<(Case, usize)> {
    if bytes.len() < HEADER * WORD {
        return None;
    }
    let head = |at: usize| word(bytes, at);
    let limits = [
        (1, MOST_SHEET),
        (2, MOST_MAIN),
        (3, head(2) / 4),
        (4, MOST_DATA),
        (5, MOST_CODE),
        (6, MOST_LOG),
    ];
    if head(0) != MARK || limits.iter().any(|&(at, most)| head(at) > most) {
        return None;
    }
    let sheet_at = HEADER * WORD;
    let main_at = sheet_at + (head(1) as usize).next_multiple_of(WORD);
    let end = main_at + WORD * head(3) as usize;
    if bytes.len() < end {
        return None;
    }
    let main = &bytes[main_at..end];
    let case = Case {
        sheet: bytes[sheet_at..sheet_at + head(1) as usize].to_vec(),
        main_length: head(2),
        main: (0..head(3) as usize).map(|at| word(main, at)).collect(),
        data_length: head(4),
        code_length: head(5),
        log_length: head(6),
        fill: number(bytes, 7),
        allowance: number(bytes, 9),
    };
    Some((case, end))
}

/// The results of a case file, each checked.
pub fn results(file: &[u8], counts: &mut Counts) -> Results {
    let mut checked = None;
    let mut results = Results::of(file, first_case, |index, case, out| {
        let outcome = Outcome::new(&case);
        outcome.write(out);
        if checked.is_none() {
            checked = broken(&case, &outcome).map(|told| (index, told));
        }
        counts.note(&case, &outcome);
    });
    results.broken = checked;
    results
}

/// Where each case of a file starts, a damaged last one too.
pub fn case_starts(file: &[u8]) -> Vec<usize> {
    compare::case_starts(file, |bytes| Some(first_case(bytes)?.1))
}

/// The pieces of a result with their words.
fn layout(case: &Case) -> [(&'static str, usize); 8] {
    [
        ("the kind", 1),
        ("the number", 2),
        ("the offset", 1),
        ("the entries used", 2),
        ("the counts", run_counts::WORDS),
        ("data memory", case.data_length as usize),
        ("code memory", case.code_length.div_ceil(4) as usize),
        ("the log", 2 * case.log_length as usize),
    ]
}

/// Names a word of a case's result.
pub fn describe_place(case: &Case, mut at: usize) -> String {
    for (name, words) in layout(case) {
        if at < words {
            return format!("{name}, word {at}");
        }
        at -= words;
    }
    "after the log".to_string()
}

/// A case and our own verdict, in words to read.
pub fn describe_case(case: &Case) -> String {
    let shown = &case.sheet[..case.sheet.len().min(96)];
    let chain = &case.main[..case.main.len().min(64)];
    let dots = |all: usize, shown: usize| if shown < all { " .." } else { "" };
    format!(
        "    S {}, M {}, P {}, D {}, C {}, L {}, fill {:016X}, allowance {}\n    our verdict: {:?}\n    \
         sheet: {shown:02X?}{}\n    main memory: {chain:08X?}{}",
        case.sheet.len(),
        case.main_length,
        case.main.len(),
        case.data_length,
        case.code_length,
        case.log_length,
        case.fill,
        case.allowance,
        Outcome::new(case).checked,
        dots(case.sheet.len(), shown.len()),
        dots(case.main.len(), chain.len()),
    )
}

#[cfg(test)]
mod tests {
    use super::*;
    use crate::check::Verdict;
    use crate::sheet::{CODE_BYTES, DATA_WORDS};

    const STEP: u64 = 0x9E37_79B9_7F4A_7C15;
    const FILL: u64 = 0x1122_3344_5566_7788;
    /// The words of a result before the memories.
    const HEAD: usize = 6 + 24;

    /// A start at 5: MSCAL alone in an end tag's payload, with an interrupt or without.
    fn case(code: u32) -> Case {
        Case {
            sheet: vec![0x9E, 0x51, 4, 0, 5, 0],
            main_length: 48,
            main: vec![0x7000_0001, 0, 0, 0, code],
            data_length: DATA_WORDS as u32,
            code_length: CODE_BYTES as u32,
            log_length: 3,
            fill: FILL,
            allowance: 5,
        }
    }

    fn own(case: &Case) -> Vec<u8> {
        let mut file = Vec::new();
        case.write(&mut file);
        results(&file, &mut Counts::default()).bytes
    }

    fn words(bytes: &[u8]) -> Vec<u32> {
        (0..bytes.len() / WORD).map(|at| word(bytes, at)).collect()
    }

    /// The words of docs/FORMATS.md.
    #[test]
    fn a_case_and_its_result() {
        let mut file = Vec::new();
        case(0x1400_0005).write(&mut file);
        assert_eq!(&file[..4], b"TCH1");
        let head = [6, 48, 5, 4_096, 16_384, 3, 0x5566_7788, 0x1122_3344, 5, 0];
        assert_eq!(words(&file)[1..11], head);
        assert_eq!(words(&file)[11..13], [0x0004_519E, 5]);
        assert_eq!(words(&file)[13..], [0x7000_0001, 0, 0, 0, 0x1400_0005]);
        assert_eq!(first_case(&file).unwrap(), (case(0x1400_0005), file.len()));
        // Accepted: 1 entry; 5 steps (the tag and four words), no packet, 4 VIF words, 3 NOPs, and 1 as
        // QWC of end.
        let result = own(&case(0x1400_0005));
        assert_eq!(words(&result)[..6], [0, 0, 0, 0, 1, 0]);
        let counts = |at: usize| {
            (0..12)
                .map(|i| number(&result, at + 2 * i))
                .collect::<Vec<_>>()
        };
        assert_eq!(counts(6), [5, 0, 4, 3, 0, 0, 0, 0, 0, 0, 0, 1]);
        assert_eq!(result.len(), WORD * (HEAD + 4_096 + 4_096 + 6));
        let filled = |add: u64, i: u64| STEP.wrapping_mul(i).wrapping_add(FILL + add);
        for i in [0, 1, 4_095] {
            assert_eq!(word(&result, HEAD + i), filled(0, i as u64) as u32);
        }
        let code = &result[WORD * (HEAD + 4_096)..];
        for i in [0, 1, 16_383] {
            assert_eq!(code[i], filled(1, i as u64) as u8);
        }
        let log = &code[16_384..];
        assert_eq!(words(log), [0, 0, 256, 0, 5, 0]);
        // With bit 31 the run answers 91 after two steps, and the log is as the run left it.
        let result = own(&case(0x9400_0005));
        assert_eq!(words(&result)[..8], [2, 91, 0, 0, 1, 0, 2, 0]);
        assert_eq!(
            run_counts::RunCounts::read(&result, 6).numbers(),
            [2, 0, 1, 0, 0, 0, 0, 0, 0, 0, 0, 1]
        );
        assert_eq!(words(&result)[HEAD + 8_192..], [0, 0, 256, 0, 5, 0]);
    }

    /// A refusal leaves the log's fill, and has the record's offset.
    #[test]
    fn refused() {
        let mut case = case(0x1400_0005);
        case.sheet.extend([0x9E, 0x51, 9, 0, 0, 0, 0]);
        let result = own(&case);
        assert_eq!(words(&result)[..4], [1, 41, 0, 6]);
        assert_eq!(words(&result)[4..HEAD], [0; 26]);
        for i in 0..3 {
            let wanted = STEP.wrapping_mul(i as u64).wrapping_add(FILL + 2);
            assert_eq!(number(&result, HEAD + 8_192 + 2 * i), wanted);
        }
        // Lengths in words, bytes and numbers that are no whole words.
        case.code_length = 6;
        let result = own(&case);
        assert_eq!(words(&result)[..4], [1, 3, 0, 0]);
        assert_eq!(words(&result)[4..HEAD], [0; 26]);
        assert_eq!(result.len(), WORD * (HEAD + 4_096 + 2 + 6));
        assert_eq!(result[WORD * (HEAD + 4_096) + 6..][..2], [0, 0]);
    }

    #[test]
    fn damaged_cases() {
        let mut file = Vec::new();
        case(0).write(&mut file);
        for length in 0..file.len() {
            assert_eq!(first_case(&file[..length]), None);
        }
        let spoiled = |at: usize, value: u32| {
            let mut bytes = file.clone();
            bytes[WORD * at..][..WORD].copy_from_slice(&value.to_le_bytes());
            first_case(&bytes)
        };
        for (at, value) in [
            (0, MARK ^ 1),
            (1, 131_089),
            (2, 1_048_609),
            (2, 19),
            (3, 13),
            (4, 4_101),
            (5, 16_393),
            (6, 196_617),
        ] {
            assert_eq!(spoiled(at, value), None, "{at}");
        }
        let [main, data, code, log] = [(2, 1_048_608), (4, 4_100), (5, 16_392), (6, 196_616)]
            .map(|(at, value)| spoiled(at, value).unwrap().0);
        assert_eq!((main.main_length, data.data_length), (1_048_608, 4_100));
        assert_eq!((code.code_length, log.log_length), (16_392, 196_616));
        assert_eq!(spoiled(2, 20).unwrap().0.main(), case(0).main()[..20]);
        let spoiled = [&file[..], &[1]].concat();
        let given = results(&spoiled, &mut Counts::default());
        assert!(given.bytes.ends_with(b"damaged case 1\n"));
    }

    #[test]
    fn places() {
        let case = case(0);
        for (at, name) in [
            (0, "the kind, word 0"),
            (2, "the number, word 1"),
            (3, "the offset, word 0"),
            (5, "the entries used, word 1"),
            (7, "the counts, word 1"),
            (29, "the counts, word 23"),
            (30, "data memory, word 0"),
            (30 + 4_096, "code memory, word 0"),
            (30 + 8_192, "the log, word 0"),
            (30 + 8_198, "after the log"),
        ] {
            assert_eq!(describe_place(&case, at), name);
        }
        let told = describe_case(&case);
        assert!(told.contains("Entries(0)"), "{told}");
        assert_eq!(Outcome::new(&case).checked.verdict, Verdict::Entries(0));
    }
}
