//! GIF case files and their results.

use crate::compare;
use crate::gif::{self, Path, PathNumber};
use crate::gif_counts::Counts;
use crate::log;
use crate::memory::cases::MOST_LOG;
use crate::refusals;
use crate::state_block::{describe_path, read_path, write_path, PathBlock, PATH_WORDS};
use crate::words::{self, number, put_number, put_quadword, put_word, word, QUADWORD, WORD};

pub const MARK: u32 = 0x3249_4754;
pub const MOST_QUADWORDS: u32 = 65_535;
/// The words of a case with the path's number, and at which the path block starts.
pub const NUMBER_AT: usize = 7;
const PATH_AT: usize = 8;
/// The bytes of a case before its quadwords.
pub const HEADER: usize = (PATH_AT + PATH_WORDS) * WORD;
/// The words of a result at which the path block and the changes start.
const RESULT_PATH_AT: usize = 3;
const CHANGES_AT: usize = RESULT_PATH_AT + PATH_WORDS;
const FILL_STEP: u64 = 0x9E37_79B9_7F4A_7C15;
/// Answered where a packet was closed.
pub const CLOSED: u32 = 512;

#[derive(Clone)]
pub struct Case {
    pub log_length: u32,
    pub used: u64,
    pub fill: u64,
    pub number: PathNumber,
    pub block: PathBlock,
    pub quadwords: Vec<u128>,
}

impl Case {
    pub fn write(&self, out: &mut Vec<u8>) {
        put_word(out, MARK);
        put_word(out, self.quadwords.len() as u32);
        put_word(out, self.log_length);
        put_number(out, self.used);
        put_number(out, self.fill);
        put_word(out, self.number as u32);
        for &w in &self.block {
            put_word(out, w);
        }
        for &quadword in &self.quadwords {
            put_quadword(out, quadword);
        }
    }
}

/// Number `index` of a log with this fill.
pub fn fill_number(fill: u64, index: u64) -> u64 {
    fill.wrapping_add(index.wrapping_mul(FILL_STEP))
}

/// What stands while the quadwords of a case are given.
pub struct Standing {
    /// None where the case's block exists in no path.
    pub path: Option<Path>,
    pub number: PathNumber,
    given: PathBlock,
    pub used: u64,
    pub log: Vec<u64>,
}

impl Standing {
    pub fn new(case: &Case) -> Standing {
        Standing {
            path: read_path(&case.block),
            number: case.number,
            given: case.block,
            used: case.used,
            log: (0..case.log_length as u64)
                .map(|i| fill_number(case.fill, i))
                .collect(),
        }
    }

    /// Gives a quadword; hands back whether it closed a packet, or the refusal.
    pub fn take(&mut self, quadword: u128) -> Result<bool, u32> {
        match &mut self.path {
            Some(path) => {
                let (used, log) = (&mut self.used, &mut self.log);
                gif::take(self.number, path, used, log, quadword)
            }
            None if !log::in_range(self.log.len(), self.used) => Err(refusals::LOG),
            None => Err(refusals::RANGE),
        }
    }

    pub fn block(&self) -> PathBlock {
        match &self.path {
            Some(path) => write_path(path),
            None => self.given,
        }
    }
}

/// Where the result of a quadword starts.
pub struct Start {
    pub offset: usize,
    pub case: usize,
    pub quadword: usize,
}

#[derive(Default)]
pub struct Results {
    pub bytes: Vec<u8>,
    pub starts: Vec<Start>,
    /// Where the line about a damaged case starts.
    pub damage: Option<usize>,
}

/// The first case of the bytes.
enum Found {
    Whole(Case, usize),
    /// With the quadwords that are whole, if any.
    Damaged(Option<Case>),
}

/// The path of a case; none where its header is cut or has a mark, limit or path that is wrong.
fn path_number(bytes: &[u8]) -> Option<PathNumber> {
    let right = bytes.len() >= HEADER
        && word(bytes, 0) == MARK
        && word(bytes, 1) <= MOST_QUADWORDS
        && word(bytes, 2) <= MOST_LOG;
    right.then(|| PathNumber::from_number(word(bytes, NUMBER_AT)))?
}

fn first_case(bytes: &[u8]) -> Found {
    let Some(path_number) = path_number(bytes) else {
        return Found::Damaged(None);
    };
    let data = &bytes[HEADER..];
    let wanted = word(bytes, 1) as usize * QUADWORD;
    let there = wanted.min(data.len());
    let case = Case {
        log_length: word(bytes, 2),
        used: number(bytes, 3),
        fill: number(bytes, 5),
        number: path_number,
        block: std::array::from_fn(|i| word(bytes, PATH_AT + i)),
        quadwords: words::quadwords(&data[..there]),
    };
    if there == wanted {
        Found::Whole(case, HEADER + wanted)
    } else {
        Found::Damaged(Some(case))
    }
}

/// The results of a case file.
pub fn results(file: &[u8], counts: &mut Counts) -> Results {
    let mut results = Results::default();
    let mut rest = file;
    let mut index = 0;
    while !rest.is_empty() {
        match first_case(rest) {
            Found::Whole(case, length) => {
                run_case(&case, index, &mut results, counts);
                rest = &rest[length..];
            }
            Found::Damaged(case) => {
                if let Some(case) = case {
                    run_case(&case, index, &mut results, counts);
                }
                results.damage = Some(results.bytes.len());
                results
                    .bytes
                    .extend_from_slice(format!("damaged case {index}\n").as_bytes());
                return results;
            }
        }
        index += 1;
    }
    results
}

/// Where each case of a file starts, a damaged last one too.
pub fn case_starts(file: &[u8]) -> Vec<usize> {
    compare::case_starts(file, |bytes| match first_case(bytes) {
        Found::Whole(_, length) => Some(length),
        Found::Damaged(_) => None,
    })
}

fn run_case(case: &Case, index: usize, results: &mut Results, counts: &mut Counts) {
    let mut standing = Standing::new(case);
    let mut log_before = standing.log.clone();
    counts.cases += 1;
    for (i, &quadword) in case.quadwords.iter().enumerate() {
        results.starts.push(Start {
            offset: results.bytes.len(),
            case: index,
            quadword: i,
        });
        let path_before = standing.path;
        let used_before = standing.used;
        let taken = standing.take(quadword);
        let changes = changes(&log_before, &standing.log);
        write_result(&mut results.bytes, answer(taken), &standing, &changes);
        counts.note(
            path_before.as_ref(),
            used_before,
            quadword,
            taken,
            &standing,
            &changes,
        );
        for &(at, value) in &changes {
            log_before[at] = value;
        }
    }
}

/// The word that a result gives for a quadword.
fn answer(taken: Result<bool, u32>) -> u32 {
    match taken {
        Ok(closed) => closed as u32 * CLOSED,
        Err(refusal) => refusal,
    }
}

fn write_result(out: &mut Vec<u8>, answer: u32, standing: &Standing, changes: &[(usize, u64)]) {
    put_word(out, answer);
    put_number(out, standing.used);
    for w in standing.block() {
        put_word(out, w);
    }
    put_word(out, changes.len() as u32);
    for &(at, value) in changes {
        put_word(out, at as u32);
        put_number(out, value);
    }
}

/// The numbers that differ, with their index and new value.
fn changes(before: &[u64], after: &[u64]) -> Vec<(usize, u64)> {
    const PIECE: usize = 1024;
    let mut found = Vec::new();
    for (i, (old, new)) in before.chunks(PIECE).zip(after.chunks(PIECE)).enumerate() {
        if old != new {
            for (j, (a, b)) in old.iter().zip(new).enumerate() {
                if a != b {
                    found.push((i * PIECE + j, *b));
                }
            }
        }
    }
    found
}

fn describe_answer(answer: u32) -> String {
    let closed = if answer == CLOSED {
        ", packet closed"
    } else {
        ""
    };
    format!("answer {answer}{closed}")
}

/// The result that starts at the head of the bytes, in words to read.
pub fn describe_result(bytes: &[u8]) -> String {
    if bytes.len() < (CHANGES_AT + 1) * WORD {
        return format!(
            "cut after {} bytes: {}",
            bytes.len(),
            String::from_utf8_lossy(bytes).escape_debug()
        );
    }
    let block = std::array::from_fn(|i| word(bytes, RESULT_PATH_AT + i));
    let count = word(bytes, CHANGES_AT);
    let mut text = format!(
        "{}, entries used {}\n    {}\n    {} numbers changed",
        describe_answer(word(bytes, 0)),
        number(bytes, 1),
        describe_path(&block),
        count
    );
    for i in 0..count as usize {
        let at = CHANGES_AT + 1 + 3 * i;
        if bytes.len() < (at + 3) * WORD {
            text.push_str("\n    cut here");
            break;
        }
        if i == 8 {
            text.push_str("\n    and more");
            break;
        }
        text.push_str(&format!(
            "\n    number {} = {:016X}",
            word(bytes, at),
            number(bytes, at + 1)
        ));
    }
    text
}

/// A case in hexadecimal, from its header to quadword `last`.
pub fn describe_case(bytes: &[u8], last: usize) -> String {
    let header = &bytes[..bytes.len().min(HEADER)];
    let data = &bytes[header.len()..];
    let shown = data
        .len()
        .min(last.saturating_add(1).saturating_mul(QUADWORD));
    let mut text = String::new();
    for line in header
        .chunks(QUADWORD)
        .chain(data[..shown].chunks(QUADWORD))
    {
        text.push_str("    ");
        for piece in line.chunks(WORD) {
            for byte in piece {
                text.push_str(&format!("{byte:02X}"));
            }
            text.push(' ');
        }
        text.pop();
        text.push('\n');
    }
    text
}

#[cfg(test)]
mod tests {
    use super::*;
    use crate::gif_generate::PRE;
    use crate::state_block::IDLE_PATH;

    fn own(case: &Case) -> Vec<u8> {
        let mut file = Vec::new();
        case.write(&mut file);
        results(&file, &mut Counts::default()).bytes
    }

    /// A tag with EOP and NLOOP 0, one with an A+D write, the write, and one that has no room.
    #[test]
    fn words_of_results() {
        let tag = 0x0000_0000_0000_000E_1000_0000_0000_8001;
        let case = Case {
            log_length: log::length(1),
            used: 0,
            fill: 0,
            number: PathNumber::Three,
            block: IDLE_PATH,
            quadwords: vec![0x8000, tag, 7 | 0x42 << 64, tag, 8],
        };
        let given = own(&case);
        let idle = [0x3F80_0000, 0, 0, 0, 0, 0, 0, 0, 0];
        let held = [0x3F80_0000, 1, 0, 1, 1, 1, 0xE, 0, 1];
        let one = |answer: u32, used: u32, path: [u32; 9], changes: &[u32]| {
            [&[answer, used, 0][..], &path, changes].concat()
        };
        let expected = [
            one(512, 0, idle, &[0]),
            one(0, 0, held, &[0]),
            one(512, 1, idle, &[3, 0, 3, 0, 1, 0x42, 0, 2, 7, 0]),
            one(0, 1, held, &[0]),
            one(31, 1, held, &[0]),
        ];
        let words: Vec<u32> = (0..given.len() / WORD).map(|at| word(&given, at)).collect();
        assert_eq!(words, expected.concat());
        assert!(describe_result(&given).starts_with("answer 512, packet closed, entries"));
    }

    #[test]
    fn paths_of_cases() {
        let case = |number| Case {
            log_length: log::length(1),
            used: 0,
            fill: 0,
            number,
            block: IDLE_PATH,
            quadwords: vec![1 | PRE],
        };
        for (number, path) in [(PathNumber::Two, 2), (PathNumber::Three, 3)] {
            let mut file = Vec::new();
            case(number).write(&mut file);
            assert_eq!((file.len(), word(&file, 7)), (4 * (17 + 4), path));
            let given = results(&file, &mut Counts::default()).bytes;
            // The first number of the log.
            assert_eq!([13, 14, 15].map(|at| word(&given, at)), [0, path, 0]);
            for wrong in [0, 1, 4, 258, u32::MAX] {
                file[28..32].copy_from_slice(&wrong.to_le_bytes());
                let given = results(&file, &mut Counts::default()).bytes;
                assert_eq!(given, b"damaged case 0\n");
            }
        }
    }
}
