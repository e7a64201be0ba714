//! Damaged files made from a whole one.

use crate::random::Random;
use crate::words::{word, WORD};

/// Files, each with a name.
pub type Files = Vec<(String, Vec<u8>)>;

/// How the files of one kind of cases are damaged.
pub struct Damage {
    /// Bytes of a case's header.
    pub header: usize,
    /// Cuts about the end of the first header.
    pub first: &'static [isize],
    /// Cuts before the end of the file.
    pub before_end: &'static [usize],
    /// Cuts about the end of the header of each of some cases.
    pub later: &'static [isize],
    /// The cases that are cut, by the number of the last one.
    pub cut_cases: fn(usize) -> Vec<usize>,
    /// The cases in which words are changed, by the number of the last one.
    pub spoilt_cases: fn(usize) -> Vec<usize>,
    /// Changes words of a case.
    pub spoil: fn(&mut Spoilt),
}

impl Damage {
    /// None of the file, the file cut, and the file with words of some cases changed.
    pub fn files(&self, file: &[u8], starts: &[usize], random: &mut Random) -> Files {
        let mut made = vec![("empty".to_string(), Vec::new())];
        let Some(last) = starts.len().checked_sub(1) else {
            return made;
        };
        let cut = (self.cut_cases)(last).into_iter().map(|case| starts[case]);
        made.extend(self.cuts(file, cut, random));
        for index in (self.spoilt_cases)(last) {
            let mut spoilt = Spoilt::new(file, starts[index], index);
            (self.spoil)(&mut spoilt);
            made.extend(spoilt.made);
        }
        made
    }

    /// The same, and the file with the bytes that fill up its sheets not zero.
    pub fn files_of_sheets(&self, file: &[u8], starts: &[usize], random: &mut Random) -> Files {
        let mut made = self.files(file, starts, random);
        let filled = filling_not_zero(file, starts, self.header);
        made.push(("filling not zero".to_string(), filled));
        made
    }

    /// The file cut near its start and its end, and in cases that start at these places.
    fn cuts(&self, file: &[u8], starts: impl Iterator<Item = usize>, random: &mut Random) -> Files {
        let about = |start: usize, cuts: &'static [isize]| {
            let end = start + self.header;
            cuts.iter().map(move |&cut| end.saturating_add_signed(cut))
        };
        let mut places = vec![1, 3, 4, 8];
        places.extend(about(0, self.first));
        places.extend(self.before_end.iter().map(|before| file.len() - before));
        for start in starts {
            places.extend([start + 1, start + 4]);
            places.extend(about(start, self.later));
            places.push(random.below(file.len() as u64) as usize);
        }
        let cut = |at: usize| {
            let at = at.min(file.len());
            (format!("cut after {at} bytes"), file[..at].to_vec())
        };
        places.into_iter().map(cut).collect()
    }
}

/// Files in which one word of a case is changed.
pub struct Spoilt<'a> {
    file: &'a [u8],
    /// Where the case starts, and its number.
    start: usize,
    index: usize,
    made: Files,
}

impl<'a> Spoilt<'a> {
    /// Those with another mark.
    fn new(file: &'a [u8], start: usize, index: usize) -> Spoilt<'a> {
        let mut spoilt = Spoilt {
            file,
            start,
            index,
            made: Files::new(),
        };
        let mark = spoilt.held(0);
        spoilt.word("mark with its first bit flipped", 0, mark ^ 1);
        spoilt.word("mark with its last bit flipped", 0, mark ^ 1 << 31);
        spoilt
    }

    /// A word of the case.
    pub fn held(&self, at: usize) -> u32 {
        word(&self.file[self.start..], at)
    }

    /// Another value for a word, where the file has that word.
    pub fn word(&mut self, name: &str, at: usize, value: u32) {
        let at = self.start + WORD * at;
        if at + WORD <= self.file.len() {
            let mut bytes = self.file.to_vec();
            bytes[at..at + WORD].copy_from_slice(&value.to_le_bytes());
            let name = format!("case {}, {name}", self.index);
            self.made.push((name, bytes));
        }
    }

    /// Values about the limits of some words.
    pub fn limits(&mut self, limits: &[(&str, usize, u32)]) {
        for &(name, at, most) in limits {
            self.word(&format!("{name} at its limit"), at, most);
            self.word(&format!("{name} one above its limit"), at, most + 1);
            self.word(&format!("{name} the greatest"), at, u32::MAX);
        }
    }

    pub fn one_off(&mut self, name: &str, at: usize) {
        let held = self.held(at);
        self.word(&format!("{name} one more"), at, held + 1);
        self.word(&format!("{name} one less"), at, held.saturating_sub(1));
    }

    /// Some bytes less and more, in and beyond a word.
    pub fn bytes_off(&mut self, name: &str, at: usize) {
        let held = self.held(at);
        for by in 1..=4 {
            self.word(&format!("{name} {by} less"), at, held.saturating_sub(by));
            self.word(&format!("{name} {by} more"), at, held + by);
        }
    }
}

/// The first `head` cases of a file and up to `most` in a row from the case `first` on.
pub fn some_cases(
    file: &[u8],
    starts: &[usize],
    head: usize,
    first: usize,
    most: usize,
) -> Vec<u8> {
    let start = |case: usize| starts.get(case).copied().unwrap_or(file.len());
    [
        &file[..start(head)],
        &file[start(first)..start(first + most)],
    ]
    .concat()
}

/// The first three cases of a file and up to `most` in a row from anywhere.
pub fn three_and_some(file: &[u8], starts: &[usize], most: usize, random: &mut Random) -> Vec<u8> {
    let first = random.within(3..=starts.len() as u64 - 1) as usize;
    some_cases(file, starts, 3, first, most)
}

/// Each case of a file, by its start, with its sheet ending 1 to 3 bytes inside a word and the bytes
/// that fill it up not zero. Word 1 of a header is the sheet's length; the sheet is next to the
/// header.
pub fn filling_not_zero(file: &[u8], starts: &[usize], header: usize) -> Vec<u8> {
    let ends = starts.iter().skip(1).copied().chain([file.len()]);
    let mut bytes = Vec::new();
    for (&start, end) in starts.iter().zip(ends) {
        let case = &file[start..end];
        let length = word(case, 1) as usize;
        let whole = length / WORD * WORD;
        for take in 1..WORD {
            bytes.extend(&case[..WORD]);
            bytes.extend(((whole + take) as u32).to_le_bytes());
            bytes.extend(&case[2 * WORD..header + whole]);
            bytes.extend(&[0x9E, 0x51, 4][..take]);
            bytes.resize(bytes.len().next_multiple_of(WORD), 0x9E);
            bytes.extend(&case[header + length.next_multiple_of(WORD)..]);
        }
    }
    bytes
}
