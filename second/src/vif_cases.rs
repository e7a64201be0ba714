//! VIF case files and their results.

use crate::compare;
use crate::filled::{self, UnitMemories};
use crate::gif::Path;
use crate::gif_cases::CLOSED;
use crate::memory::cases::{MOST_CODE, MOST_DATA, MOST_LOG};
use crate::model::Model;
use crate::refusals;
use crate::state_block::{
    describe_path, describe_unit, read_path, read_unit, write_path, write_unit, PathBlock,
    UnitBlock, PATH_WORDS, UNIT_WORDS,
};
use crate::vif::{self, Given, Unit};
use crate::vif_counts::{Call, Counts, UnitCounts};
use crate::words::{number, put_number, put_word, word, WORD};

pub const MARK: u32 = 0x3349_5654;
pub const MOST_GROUPS: u32 = 65_535;
pub const MOST_WORDS: u32 = 262_144;
pub const MOST_CALLS: u32 = 65_535;
/// The words of a case at which its blocks start.
const UNIT_AT: usize = 8;
const PATH_AT: usize = UNIT_AT + UNIT_WORDS;
/// The words of a case with the first word's number, the groups, the words and the unit.
pub const NUMBER: usize = PATH_AT + PATH_WORDS;
pub const GROUPS: usize = NUMBER + 1;
pub const WORDS: usize = GROUPS + 1;
pub const MODEL: usize = WORDS + 1;
/// The words of a case before its groups.
pub const HEADER: usize = MODEL + 1;
/// After the answers of a group.
const ANSWERS_END: u32 = u32::MAX;
/// Added to a refusal's number.
pub const REFUSED: u32 = 65_536;
/// Added where a code with its bit 31 set was completed.
pub const INTERRUPT: u32 = 256;

#[derive(Clone)]
pub struct Case {
    pub model: Model,
    pub data_length: u32,
    pub code_length: u32,
    pub log_length: u32,
    pub used: u64,
    pub fill: u64,
    pub unit: UnitBlock,
    pub path: PathBlock,
    /// The number of the first word in its quadword.
    pub number: u32,
    pub groups: Vec<u32>,
    pub words: Vec<u32>,
}

impl Case {
    pub fn write(&self, out: &mut Vec<u8>) {
        put_word(out, MARK);
        put_word(out, self.data_length);
        put_word(out, self.code_length);
        put_word(out, self.log_length);
        put_number(out, self.used);
        put_number(out, self.fill);
        let last = [
            self.number,
            self.groups.len() as u32,
            self.words.len() as u32,
            (self.model == Model::Vif1) as u32,
        ];
        for &w in self.unit.iter().chain(&self.path).chain(&last) {
            put_word(out, w);
        }
        for &w in self.groups.iter().chain(&self.words) {
            put_word(out, w);
        }
    }

    /// What the unit is given with word `at`.
    pub fn given(&self, at: usize) -> Given {
        match (self.number + at as u32) % 4 {
            0 => Given::Quadword(
                (0..4).fold(0, |all, i| all | (self.words[at + i] as u128) << (32 * i)),
            ),
            number => Given::Word {
                number,
                word: self.words[at],
            },
        }
    }
}

/// What stands while the words of a case are given.
pub struct Standing {
    /// None where a block of the case exists in no unit or path.
    pub both: Option<(Unit, Path)>,
    given: (UnitBlock, PathBlock),
    model: Model,
    pub used: u64,
    pub data: Vec<u32>,
    pub code: Vec<u8>,
    pub log: Vec<u64>,
}

impl Standing {
    pub fn new(case: &Case) -> Standing {
        let memories = UnitMemories::new(case.fill, case.data_length, case.code_length);
        Standing {
            both: read_both(case.model, &case.unit, &case.path),
            given: (case.unit, case.path),
            model: case.model,
            used: case.used,
            data: memories.data,
            code: memories.code,
            log: filled::log(case.fill, case.log_length),
        }
    }

    /// Gives a word; answers as a result says it.
    pub fn take(&mut self, given: Given) -> u32 {
        let taken = match &mut self.both {
            Some((unit, path)) => vif::take(
                unit,
                path,
                given,
                &mut self.data,
                &mut self.code,
                &mut self.log,
                &mut self.used,
            ),
            None => Err(self.refusal()),
        };
        match taken {
            Ok(taken) => {
                let added = taken.interrupt as u32 * INTERRUPT + taken.closed as u32 * CLOSED;
                taken.quadword as u32 + added
            }
            Err(refusal) => REFUSED + refusal,
        }
    }

    /// The refusal where a block exists in no unit or path.
    fn refusal(&self) -> u32 {
        let (data, code, log) = (self.data.len(), self.code.len(), self.log.len());
        let checked = vif::check_lengths(self.model, data, code, log, self.used);
        checked.err().unwrap_or(refusals::RANGE)
    }

    pub fn blocks(&self) -> (UnitBlock, PathBlock) {
        match &self.both {
            Some((unit, path)) => (write_unit(unit), write_path(path)),
            None => self.given,
        }
    }

    /// Writes unit and path as blocks and reads them back.
    pub fn restore(&mut self) {
        let (unit, path) = self.blocks();
        self.both = read_both(self.model, &unit, &path);
    }
}

/// None where a block exists in no unit or path.
fn read_both(model: Model, unit: &UnitBlock, path: &PathBlock) -> Option<(Unit, Path)> {
    read_unit(model, unit).zip(read_path(path))
}

/// A code memory by words, the last one filled up with zero bytes.
pub fn code_words(code: &[u8]) -> Vec<u32> {
    code.chunks(WORD)
        .map(|chunk| {
            let mut bytes = [0; 4];
            bytes[..chunk.len()].copy_from_slice(chunk);
            u32::from_le_bytes(bytes)
        })
        .collect()
}

/// Where the result of a group starts.
pub struct Start {
    pub offset: usize,
    pub case: usize,
    pub group: usize,
    /// The words given before the group, and its calls.
    pub first_word: usize,
    pub calls: usize,
}

#[derive(Default)]
pub struct Results {
    pub bytes: Vec<u8>,
    pub starts: Vec<Start>,
    /// Where the line about a damaged case starts.
    pub damage: Option<usize>,
}

/// Whether the numbers in a case's header are within their limits.
fn limits_kept(bytes: &[u8]) -> bool {
    let limits = [
        (1, MOST_DATA),
        (2, MOST_CODE),
        (3, MOST_LOG),
        (NUMBER, 3),
        (GROUPS, MOST_GROUPS),
        (WORDS, MOST_WORDS),
        (MODEL, 1),
    ];
    limits.iter().all(|&(at, most)| word(bytes, at) <= most)
}

/// The first case of the bytes and its length; none where it is damaged.
pub fn first_case(bytes: &[u8]) -> Option<(Case, usize)> {
    if bytes.len() < HEADER * WORD {
        return None;
    }
    let (first, count) = (word(bytes, NUMBER), word(bytes, WORDS));
    if word(bytes, 0) != MARK || !limits_kept(bytes) || (first + count) % 4 != 0 {
        return None;
    }
    let groups_end = HEADER + word(bytes, GROUPS) as usize;
    let end = groups_end + count as usize;
    if bytes.len() < end * WORD {
        return None;
    }
    let words =
        |from: usize, to: usize| -> Vec<u32> { (from..to).map(|i| word(bytes, i)).collect() };
    let case = Case {
        model: match word(bytes, MODEL) {
            0 => Model::Vif0,
            _ => Model::Vif1,
        },
        data_length: word(bytes, 1),
        code_length: word(bytes, 2),
        log_length: word(bytes, 3),
        used: number(bytes, 4),
        fill: number(bytes, 6),
        unit: std::array::from_fn(|i| word(bytes, UNIT_AT + i)),
        path: std::array::from_fn(|i| word(bytes, PATH_AT + i)),
        number: first,
        groups: words(HEADER, groups_end),
        words: words(groups_end, end),
    };
    if case.groups.iter().any(|&calls| calls > MOST_CALLS) {
        return None;
    }
    Some((case, end * WORD))
}

/// The results of a case file.
pub fn results(file: &[u8], counts: &mut Counts) -> Results {
    let mut results = Results::default();
    let mut rest = file;
    let mut index = 0;
    while !rest.is_empty() {
        let Some((case, length)) = first_case(rest) else {
            results.damage = Some(results.bytes.len());
            let line = format!("damaged case {index}\n");
            results.bytes.extend_from_slice(line.as_bytes());
            return results;
        };
        run_case(&case, index, &mut results, counts);
        rest = &rest[length..];
        index += 1;
    }
    results
}

/// Where each case of a file starts, a damaged last one too.
pub fn case_starts(file: &[u8]) -> Vec<usize> {
    compare::case_starts(file, |bytes| Some(first_case(bytes)?.1))
}

fn run_case(case: &Case, index: usize, results: &mut Results, counts: &mut Counts) {
    let mut standing = Standing::new(case);
    let mut shown = ShownUnit::new(&standing.data, &standing.code);
    let mut shown_log = standing.log.clone();
    let mut at = 0;
    let counts = counts.of(case.model);
    counts.note_case(case);
    for (group, &calls) in case.groups.iter().enumerate() {
        let offset = results.bytes.len();
        let first_word = at;
        let mut done = 0;
        while done < calls && at < case.words.len() {
            let answer = make_call(case, at, done == 0, &mut standing, counts);
            put_word(&mut results.bytes, answer);
            at += if taken_quadword(answer) { 4 } else { 1 };
            done += 1;
        }
        counts.note_group(&standing, done, at == case.words.len());
        results.starts.push(Start {
            offset,
            case: index,
            group,
            first_word,
            calls: done as usize,
        });
        let out = &mut results.bytes;
        put_word(out, ANSWERS_END);
        put_number(out, standing.used);
        let (unit, path) = standing.blocks();
        for &w in unit.iter().chain(&path) {
            put_word(out, w);
        }
        shown.write_changes(out, &standing.data, &standing.code);
        write_changes(out, &mut shown_log, &standing.log, put_number);
        standing.restore();
    }
    counts.note_end(&standing, at < case.words.len());
}

/// Gives word `at` and hands back the answer.
fn make_call(
    case: &Case,
    at: usize,
    restored: bool,
    standing: &mut Standing,
    counts: &mut UnitCounts,
) -> u32 {
    let (before, used_before) = (standing.both, standing.used);
    let given = case.given(at);
    let answer = standing.take(given);
    counts.note(&Call {
        before,
        used_before,
        given,
        number: (case.number + at as u32) % 4,
        answer,
        now: standing,
        restored,
        first: at == 0,
    });
    answer
}

/// A unit's memories by words, as the last result showed them.
pub struct ShownUnit {
    data: Vec<u32>,
    code: Vec<u32>,
}

impl ShownUnit {
    pub fn new(data: &[u32], code: &[u8]) -> ShownUnit {
        ShownUnit {
            data: data.to_vec(),
            code: code_words(code),
        }
    }

    /// Writes what is not as it was shown.
    pub fn write_changes(&mut self, out: &mut Vec<u8>, data: &[u32], code: &[u8]) {
        write_changes(out, &mut self.data, data, put_word);
        write_changes(out, &mut self.code, &code_words(code), put_word);
    }
}

/// Whether an answer says that a quadword was taken.
pub fn taken_quadword(answer: u32) -> bool {
    answer < REFUSED && answer & 1 == 1
}

/// Writes what differs and makes `before` the same as `now`.
pub fn write_changes<T: Copy + PartialEq>(
    out: &mut Vec<u8>,
    before: &mut [T],
    now: &[T],
    put: impl Fn(&mut Vec<u8>, T),
) {
    const PIECE: usize = 512;
    let count_at = out.len();
    let mut count = 0;
    put_word(out, 0);
    for (i, (old, new)) in before.chunks_mut(PIECE).zip(now.chunks(PIECE)).enumerate() {
        if old == new {
            continue;
        }
        for (j, (a, b)) in old.iter_mut().zip(new).enumerate() {
            if a != b {
                put_word(out, (i * PIECE + j) as u32);
                put(out, *b);
                *a = *b;
                count += 1;
            }
        }
    }
    out[count_at..count_at + WORD].copy_from_slice(&u32::to_le_bytes(count));
}

/// The result of a group that starts at the head of the bytes, in words to read.
pub fn describe_group(bytes: &[u8], calls: usize) -> String {
    let have = bytes.len() / WORD;
    let mut text = String::from("answers");
    let shown_from = calls.saturating_sub(12);
    for i in 0..calls.min(have) {
        if i == 0 && shown_from > 0 {
            text.push_str(" ..");
        }
        if i >= shown_from {
            text.push_str(&format!(" {}", describe_answer(word(bytes, i))));
        }
    }
    // After the answers come the mark of their end, the entries used and the blocks.
    let unit_at = calls + 3;
    let path_at = unit_at + UNIT_WORDS;
    let changes_at = path_at + PATH_WORDS;
    if have < changes_at {
        text.push_str("\n    cut here");
        return text;
    }
    text.push_str(&format!(
        "\n    after the answers {:08X}; entries used {}\n    {}\n    {}",
        word(bytes, calls),
        number(bytes, calls + 1),
        describe_unit(&std::array::from_fn(|i| word(bytes, unit_at + i))),
        describe_path(&std::array::from_fn(|i| word(bytes, path_at + i))),
    ));
    text.push_str(&describe_changes(bytes, changes_at).0);
    text
}

/// The changes of the three memories from word `at` on, and the word after them;
/// none where the bytes end before.
pub fn describe_changes(bytes: &[u8], mut at: usize) -> (String, Option<usize>) {
    let have = bytes.len() / WORD;
    let mut text = String::new();
    for (name, size) in [("data", 2), ("code", 2), ("log", 3)] {
        if have <= at {
            text.push_str("\n    cut here");
            return (text, None);
        }
        let count = word(bytes, at) as usize;
        text.push_str(&format!("\n    {name}: {count} changed"));
        for i in 0..count.min(12) {
            let item = at + 1 + size * i;
            if have < item + size {
                text.push_str(", cut here");
                return (text, None);
            }
            let value = if size == 2 {
                format!("{:08X}", word(bytes, item + 1))
            } else {
                format!("{:016X}", number(bytes, item + 1))
            };
            text.push_str(&format!(", {} = {value}", word(bytes, item)));
        }
        if count > 12 {
            text.push_str(", ..");
        }
        at = at.saturating_add(1 + size * count);
    }
    (text, Some(at))
}

fn describe_answer(answer: u32) -> String {
    if let 65_537..=65_600 = answer {
        return format!("refused-{}", answer - REFUSED);
    }
    if answer & !(1 | INTERRUPT | CLOSED) != 0 {
        return format!("{answer:08X}");
    }
    let taken = ["word", "quadword"][answer as usize & 1];
    let added = [(INTERRUPT, "+interrupt"), (CLOSED, "+closed")];
    let added = added.iter().filter(|(bit, _)| answer & bit != 0);
    added.fold(taken.to_string(), |text, (_, name)| text + name)
}

/// The head of a case and its words from `first` to before `end`.
pub fn describe_case(case: &Case, first: usize, end: usize) -> String {
    let mut text = format!(
        "    {}, D {}, C {}, L {}, entries used {}, fill {:016X}, first number {}, {} groups, {} words\n    {}\n    {}\n    words from {first}:",
        case.model.name(),
        case.data_length,
        case.code_length,
        case.log_length,
        case.used,
        case.fill,
        case.number,
        case.groups.len(),
        case.words.len(),
        describe_unit(&case.unit),
        describe_path(&case.path),
    );
    let end = end.min(case.words.len());
    let from = first.max(end.saturating_sub(64));
    if from > first {
        text.push_str(" ..");
    }
    for at in from..end {
        let number = (case.number as usize + at) % 4;
        if number == 0 || at == from {
            text.push_str(&format!("\n    {at:>6}.{number}"));
        }
        text.push_str(&format!(" {:08X}", case.words[at]));
    }
    text
}

#[cfg(test)]
mod tests {
    use super::*;
    use crate::state_block::RESET_UNIT;
    use crate::vif_generate::plain_case;

    /// A code with its bit 31 set takes three tags without data; the first has no EOP.
    #[test]
    fn answers_of_direct() {
        for command in [0xD0, 0xD1] {
            let mut case = plain_case(Model::Vif1, RESET_UNIT, 0, 3);
            let tags = [0, 0x8000, 0x8000].map(|low| [low, 0x1000_0000, 0xE, 0]);
            case.words = [&[command << 24 | 3], &tags.concat()[..]].concat();
            case.groups = vec![4];
            let mut file = Vec::new();
            case.write(&mut file);
            let given = results(&file, &mut Counts::default()).bytes;
            let answers: Vec<u32> = (0..4).map(|at| word(&given, at)).collect();
            assert_eq!(answers, [0, 1, 513, 769]);
            let told = describe_group(&given, 4);
            let head = "answers word quadword quadword+closed quadword+interrupt+closed\n";
            assert!(told.starts_with(head), "{told}");
        }
    }
}
