//! What a run counts over its completed steps.

use crate::chain::Step;
use crate::words::{number, put_number};

/// The tags' IDs.
pub const IDS: usize = 8;
/// The numbers of a run's counts.
pub const NUMBERS: usize = 4 + IDS;
/// Their words in a file.
pub const WORDS: usize = 2 * NUMBERS;

#[derive(Clone, Copy, PartialEq, Eq, Debug, Default)]
pub struct RunCounts {
    pub steps: u64,
    /// Packets closed.
    pub packets: u64,
    /// Words taken by a VIF unit one by one, tag words and payload too.
    pub words: u64,
    /// Words decoded as the code NOP.
    pub nops: u64,
    /// The sums of QWC of the tags read, by ID.
    pub qwc: [u64; IDS],
}

impl RunCounts {
    /// Counts a completed step.
    #[inline]
    pub fn count(&mut self, step: &Step) {
        self.steps += 1;
        match step {
            Step::Tag(tag) => self.qwc[tag.id as usize] += tag.qwc as u64,
            Step::TagWord(taken) | Step::Payload(taken) => {
                self.packets += taken.closed as u64;
                self.words += !taken.quadword as u64;
                self.nops += taken.nop as u64;
            }
            Step::Path3 { closed } => self.packets += *closed as u64,
        }
    }

    /// In the order of docs/FORMATS.md.
    pub fn numbers(&self) -> [u64; NUMBERS] {
        let mut numbers = [0; NUMBERS];
        numbers[..4].copy_from_slice(&[self.steps, self.packets, self.words, self.nops]);
        numbers[4..].copy_from_slice(&self.qwc);
        numbers
    }

    pub fn of_numbers(numbers: [u64; NUMBERS]) -> RunCounts {
        let [steps, packets, words, nops, qwc @ ..] = numbers;
        RunCounts {
            steps,
            packets,
            words,
            nops,
            qwc,
        }
    }

    pub fn write(&self, out: &mut Vec<u8>) {
        self.numbers().iter().for_each(|&n| put_number(out, n));
    }

    /// Those that start at a word.
    pub fn read(bytes: &[u8], at: usize) -> RunCounts {
        RunCounts::of_numbers(std::array::from_fn(|i| number(bytes, at + 2 * i)))
    }

    /// The counts of two runs, one after the other.
    pub fn plus(&self, next: &RunCounts) -> RunCounts {
        let (first, next) = (self.numbers(), next.numbers());
        RunCounts::of_numbers(std::array::from_fn(|i| first[i] + next[i]))
    }
}

/// The names of the numbers.
pub const NAMES: [&str; NUMBERS] = [
    "steps",
    "packets closed",
    "VIF words",
    "NOPs",
    "QWC of refe",
    "QWC of cnt",
    "QWC of next",
    "QWC of ref",
    "QWC of refs",
    "QWC of call",
    "QWC of ret",
    "QWC of end",
];

/// The counts in words to read; of QWC those that are not 0.
pub fn describe(counts: &RunCounts) -> String {
    let all = NAMES.iter().zip(counts.numbers()).enumerate();
    let shown = all.filter(|(i, (_, number))| *i < 4 || *number > 0);
    let parts: Vec<String> = shown.map(|(_, (name, n))| format!("{n} {name}")).collect();
    parts.join(", ")
}
