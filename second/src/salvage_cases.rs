//! Salvage case files and their results.

use crate::case_results::Results;
use crate::compare;
use crate::gif_cases::fill_number;
use crate::salvage::{salvage, Written};
use crate::salvage_check::broken;
use crate::salvage_counts::Counts;
use crate::sheet_cases::put_bytes;
use crate::words::{number, put_number, put_word, word, WORD};

pub const MARK: u32 = 0x3156_5354;
pub const MOST_SHEET: u32 = 131_088;
pub const MOST_OUTPUT: u32 = 131_088;
pub const MOST_LIST: u32 = 65_536;
/// The words of a case before its sheet.
pub const HEADER: usize = 6;
/// The words of a result before the output.
const HEAD: usize = 3;

#[derive(Clone, PartialEq, Eq, Debug)]
pub struct Case {
    pub sheet: Vec<u8>,
    pub output_length: u32,
    /// The list of ranges in numbers.
    pub list_length: u32,
    pub fill: u64,
}

impl Case {
    pub fn write(&self, out: &mut Vec<u8>) {
        put_word(out, MARK);
        put_word(out, self.sheet.len() as u32);
        put_word(out, self.output_length);
        put_word(out, self.list_length);
        put_number(out, self.fill);
        put_bytes(out, &self.sheet);
    }

    fn filled(&self, add: u64, length: u32) -> impl Iterator<Item = u64> {
        let from = self.fill.wrapping_add(add);
        (0..length as u64).map(move |i| fill_number(from, i))
    }

    /// The output at first.
    pub fn output(&self) -> Vec<u8> {
        let numbers = self.filled(3, self.output_length);
        numbers.map(|number| number as u8).collect()
    }

    /// The list at first.
    pub fn list(&self) -> Vec<u64> {
        self.filled(2, self.list_length).collect()
    }
}

/// What a case gave.
#[derive(Clone, PartialEq, Eq)]
pub struct Outcome {
    pub answer: Result<Written, u32>,
    pub output: Vec<u8>,
    pub list: Vec<u64>,
}

impl Outcome {
    pub fn new(case: &Case) -> Outcome {
        let (mut output, mut list) = (case.output(), case.list());
        Outcome {
            answer: salvage(&case.sheet, &mut output, &mut list),
            output,
            list,
        }
    }

    pub fn write(&self, out: &mut Vec<u8>) {
        let (answer, bytes, ranges) = match self.answer {
            Ok(written) => (0, written.bytes, written.ranges),
            Err(refusal) => (refusal, 0, 0),
        };
        put_word(out, answer);
        put_word(out, bytes as u32);
        put_word(out, ranges as u32);
        put_bytes(out, &self.output);
        self.list.iter().for_each(|&x| put_number(out, x));
    }
}

/// The first case of the bytes and its length; none where it is damaged.
pub fn first_case(bytes: &[u8]) -> Option<(Case, usize)> {
    if bytes.len() < HEADER * WORD {
        return None;
    }
    let head = |at: usize| word(bytes, at);
    let limits = [(1, MOST_SHEET), (2, MOST_OUTPUT), (3, MOST_LIST)];
    if head(0) != MARK || limits.iter().any(|&(at, most)| head(at) > most) {
        return None;
    }
    let length = head(1) as usize;
    let rest = &bytes[HEADER * WORD..];
    let filled = length.next_multiple_of(WORD);
    if rest.len() < filled {
        return None;
    }
    let case = Case {
        sheet: rest[..length].to_vec(),
        output_length: head(2),
        list_length: head(3),
        fill: number(bytes, 4),
    };
    Some((case, HEADER * WORD + filled))
}

/// The results of a case file, each checked.
pub fn results(file: &[u8], counts: &mut Counts) -> Results {
    let mut checked = None;
    let mut results = all_results(file, |index, case, outcome| {
        if checked.is_none() {
            checked = broken(case, outcome).map(|told| (index, told));
        }
        counts.note(case, outcome);
    });
    results.broken = checked;
    results
}

/// The results of a case file as they are.
pub fn plain_results(file: &[u8]) -> Vec<u8> {
    all_results(file, |_, _, _| {}).bytes
}

fn all_results(file: &[u8], mut watch: impl FnMut(usize, &Case, &Outcome)) -> Results {
    Results::of(file, first_case, |index, case, out| {
        let outcome = Outcome::new(&case);
        outcome.write(out);
        watch(index, &case, &outcome);
    })
}

/// Where each case of a file starts, a damaged last one too.
pub fn case_starts(file: &[u8]) -> Vec<usize> {
    compare::case_starts(file, |bytes| Some(first_case(bytes)?.1))
}

/// Names a word of a case's result.
pub fn describe_place(case: &Case, at: usize) -> String {
    let output = case.output_length.div_ceil(4) as usize;
    match at {
        0 => "the answer".to_string(),
        1 => "the bytes written".to_string(),
        2 => "the ranges written".to_string(),
        _ if at < HEAD + output => format!("output word {}", at - HEAD),
        _ => {
            let list = at - HEAD - output;
            format!("list number {}, word {}", list / 2, list % 2)
        }
    }
}

/// A case and our own answer, in words to read.
pub fn describe_case(case: &Case) -> String {
    let shown = &case.sheet[..case.sheet.len().min(96)];
    format!(
        "    S {}, O {}, R {}, fill {:016X}\n    our answer: {:?}\n    sheet: {shown:02X?}{}",
        case.sheet.len(),
        case.output_length,
        case.list_length,
        case.fill,
        Outcome::new(case).answer,
        if shown.len() < case.sheet.len() {
            " .."
        } else {
            ""
        },
    )
}

#[cfg(test)]
mod tests {
    use super::*;

    fn case() -> Case {
        Case {
            sheet: vec![7, 0x9E, 0x51, 4, 0, 5, 0, 0x9E],
            output_length: 9,
            list_length: 5,
            fill: 0x1122_3344_5566_7788,
        }
    }

    /// The words of docs/FORMATS.md.
    #[test]
    fn a_case_and_its_result() {
        let mut file = Vec::new();
        case().write(&mut file);
        let words = |bytes: &[u8]| -> Vec<u32> {
            (0..bytes.len() / WORD).map(|at| word(bytes, at)).collect()
        };
        assert_eq!(&file[..4], b"TSV1");
        assert_eq!(
            words(&file)[1..],
            [8, 9, 5, 0x5566_7788, 0x1122_3344, 0x0451_9E07, 0x9E00_0500]
        );
        let step = 0x9E37_79B9_7F4A_7C15_u64;
        let fill = |add: u64, i: u64| {
            step.wrapping_mul(i)
                .wrapping_add(0x1122_3344_5566_7788 + add)
        };
        let mut wanted = Vec::new();
        for word in [0, 6, 2] {
            put_word(&mut wanted, word);
        }
        wanted.extend([0x9E, 0x51, 4, 0, 5, 0]);
        wanted.extend([
            fill(3, 6) as u8,
            fill(3, 7) as u8,
            fill(3, 8) as u8,
            0,
            0,
            0,
        ]);
        for number in [0, 1, 7, 1, fill(2, 4)] {
            put_number(&mut wanted, number);
        }
        let given = results(&file, &mut Counts::default());
        assert_eq!(words(&given.bytes), words(&wanted));
        assert_eq!((given.damage, given.broken), (None, None));
        assert_eq!(plain_results(&file), given.bytes);
    }

    #[test]
    fn a_case_there_and_back() {
        for length in 0..9 {
            let mut case = case();
            case.sheet.truncate(length);
            let mut file = Vec::new();
            case.write(&mut file);
            assert_eq!(first_case(&file), Some((case, file.len())));
            for cut in 0..file.len() {
                assert_eq!(first_case(&file[..cut]), None);
            }
        }
    }
}
