//! The results of cases that are each told whole, beside another program's.

use crate::compare::{ends, lengths, Program};
use crate::words::{word, WORD};

#[derive(Default)]
pub struct Results {
    pub bytes: Vec<u8>,
    /// Where the result of each case starts.
    pub starts: Vec<usize>,
    /// Where the line about a damaged case starts.
    pub damage: Option<usize>,
    /// The first case whose result is not what the papers say of it, and what is wrong.
    pub broken: Option<(usize, String)>,
}

impl Results {
    /// The results of a file's cases up to a damaged one; `write` adds that of a case.
    pub fn of<C>(
        file: &[u8],
        first_case: impl Fn(&[u8]) -> Option<(C, usize)>,
        mut write: impl FnMut(usize, C, &mut Vec<u8>),
    ) -> Results {
        let mut results = Results::default();
        let mut rest = file;
        while !rest.is_empty() {
            let index = results.starts.len();
            let Some((case, length)) = first_case(rest) else {
                results.damage = Some(results.bytes.len());
                let line = format!("damaged case {index}\n");
                results.bytes.extend_from_slice(line.as_bytes());
                return results;
            };
            results.starts.push(results.bytes.len());
            write(index, case, &mut results.bytes);
            rest = &rest[length..];
        }
        results
    }

    /// What is wrong with our own result, if anything; cases are counted from `first`.
    pub fn sound(&self, first: usize) -> Result<(), String> {
        match &self.broken {
            Some((case, told)) => Err(format!("case {}: our own result: {told}", first + case)),
            None => Ok(()),
        }
    }

    /// Compares with a program on the same file; `tell` gives the words for a place in the result of
    /// a case, by both numbers, and for the case.
    pub fn compare(
        &self,
        program: &Program,
        file: &[u8],
        first: usize,
        tell: impl Fn(usize, usize) -> (String, String),
    ) -> Result<(), String> {
        self.sound(first)?;
        program.agrees(file, &self.bytes, |theirs, at| {
            self.explain(theirs, at, first, tell)
        })
    }

    /// The first difference, at a byte, in words.
    pub fn explain(
        &self,
        theirs: &[u8],
        at: usize,
        first: usize,
        tell: impl Fn(usize, usize) -> (String, String),
    ) -> String {
        if let Some(ends) = ends(theirs, &self.bytes, self.damage, at) {
            let cases = self.starts.len();
            return format!("differs after the results of {cases} cases: {ends}");
        }
        let index = self.starts.partition_point(|&start| start <= at) - 1;
        let start = self.starts[index];
        let at_word = (at - start) / WORD;
        let (place, case) = tell(index, at_word);
        format!(
            "case {}: {place}: {}, ours {} ({})\n  the case:\n{case}",
            first + index,
            word_at(&theirs[start.min(theirs.len())..], at_word),
            word_at(&self.bytes[start..], at_word),
            lengths(theirs, &self.bytes),
        )
    }
}

/// A word of a result, or what is left there.
fn word_at(bytes: &[u8], at: usize) -> String {
    match bytes.get(WORD * at..WORD * at + WORD) {
        Some(bytes) => format!("{:08X}", word(bytes, 0)),
        None => format!("cut after {} bytes of the result", bytes.len()),
    }
}
