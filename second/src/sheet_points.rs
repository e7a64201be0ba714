//! The scope document's bench points about sheets, with literal values.

use crate::chain::State;
use crate::log::{self, ENTRY};
use crate::sheet::{CODE_BYTES, DATA_WORDS};
use crate::sheet_cases::{describe_place, put_bytes, Case, Filled};
use crate::state_block::{
    chain_word, path_word, set_used, unit_word, write_state, PATH2, STATE_WORDS, VIF1,
};
use crate::words::{put_number, put_word, WORD};

const OUTPUT: u32 = 256;
const MAIN: u32 = 288;
const ADDRESS: u32 = 32;
const ENTRIES: u64 = 4;
const FILL: u64 = 0x0123_4567_89AB_CDEF;

/// A sheet and what it has to give from the reset state.
pub struct Point {
    pub name: &'static str,
    pub sheet: &'static [u8],
    pub chain: &'static [u32],
    pub steps: u64,
    pub packets: u64,
    /// VIF words, NOPs, and the sum of QWC of the cnt tags; the end tag's is 0.
    pub taken: [u64; 3],
    /// The words of data memory that change.
    pub data: &'static [(usize, u32)],
    /// The words of code memory that change, by their byte address divided by 4.
    pub code: &'static [(usize, u32)],
    pub log: &'static [[u64; ENTRY]],
    /// The words of the state block that are not as after a reset, TADR and entries
    /// used left out.
    pub state: &'static [(usize, u32)],
}

pub const ENDED: (usize, u32) = (chain_word::ENDED, 1);

pub fn points() -> [Point; 5] {
    [
        empty(),
        start_at_5(),
        data_at_1023(),
        one_gs_write(),
        code_at_2047(),
    ]
}

fn empty() -> Point {
    Point {
        name: "empty sheet",
        sheet: &[],
        chain: &[0x7000_0000, 0, 0, 0],
        steps: 1,
        packets: 0,
        taken: [0, 0, 0],
        data: &[],
        code: &[],
        log: &[],
        state: &[ENDED],
    }
}

#[rustfmt::skip]
fn start_at_5() -> Point {
    Point {
        name: "9E 51 04 00 05 00",
        sheet: &[0x9E, 0x51, 0x04, 0x00, 0x05, 0x00],
        chain: &[
            0x1000_0001, 0, 0, 0,
            0, 0, 0, 0x1400_0005,
            0x7000_0000, 0, 0, 0,
        ],
        steps: 6,
        packets: 0,
        taken: [4, 3, 1],
        data: &[],
        code: &[],
        log: &[[0, 256, 5]],
        // DBF flips.
        state: &[ENDED, (VIF1 + unit_word::DBF, 1)],
    }
}

#[rustfmt::skip]
fn data_at_1023() -> Point {
    Point {
        name: "kind 1 at 1,023, n 2",
        sheet: &[
            0x9E, 0x51, 0x01, 0x02, 0xFF, 0x03,
            0x01, 0x02, 0x03, 0x04, 0x05, 0x06, 0x07, 0x08,
            0x09, 0x0A, 0x0B, 0x0C, 0x0D, 0x0E, 0x0F, 0x10,
            0x11, 0x12, 0x13, 0x14, 0x15, 0x16, 0x17, 0x18,
            0xFC, 0xFD, 0xFE, 0xFF, 0x00, 0x00, 0x00, 0x80,
        ],
        chain: &[
            0x1000_0003, 0, 0, 0,
            0, 0x0100_0101, 0x0500_0000, 0x6C02_03FF,
            0x0403_0201, 0x0807_0605, 0x0C0B_0A09, 0x100F_0E0D,
            0x1413_1211, 0x1817_1615, 0xFFFE_FDFC, 0x8000_0000,
            0x7000_0000, 0, 0, 0,
        ],
        steps: 14,
        packets: 0,
        taken: [12, 1, 3],
        data: &[
            (4_092, 0x0403_0201), (4_093, 0x0807_0605),
            (4_094, 0x0C0B_0A09), (4_095, 0x100F_0E0D),
            (0, 0x1413_1211), (1, 0x1817_1615), (2, 0xFFFE_FDFC), (3, 0x8000_0000),
        ],
        code: &[],
        log: &[],
        // CL 1, WL 1.
        state: &[ENDED, (VIF1 + unit_word::CL, 1), (VIF1 + unit_word::WL, 1)],
    }
}

#[rustfmt::skip]
fn one_gs_write() -> Point {
    Point {
        name: "kind 3, n 1",
        sheet: &[
            0x9E, 0x51, 0x03, 0x01, 0x00, 0x00,
            0x01, 0x02, 0x03, 0x04, 0x05, 0x06, 0x07, 0x88,
            0x47, 0x00, 0x00, 0x00, 0x00, 0x00, 0x00, 0x00,
        ],
        chain: &[
            0x1000_0003, 0, 0, 0,
            0, 0, 0, 0x5000_0002,
            0x0000_8001, 0x1000_0000, 0x0000_000E, 0,
            0x0403_0201, 0x8807_0605, 0x0000_0047, 0,
            0x7000_0000, 0, 0, 0,
        ],
        steps: 8,
        packets: 1,
        taken: [4, 3, 3],
        data: &[],
        code: &[],
        log: &[[2, 0x47, 0x8807_0605_0403_0201]],
        // Q of path 2.
        state: &[ENDED, (PATH2 + path_word::Q, 0x3F80_0000)],
    }
}

#[rustfmt::skip]
fn code_at_2047() -> Point {
    Point {
        name: "kind 2 at 2,047, two instructions",
        sheet: &[
            0x9E, 0x51, 0x02, 0x02, 0xFF, 0x07,
            0x01, 0x02, 0x03, 0x04, 0x05, 0x06, 0x07, 0x08,
            0x09, 0x0A, 0x0B, 0x0C, 0xFD, 0xFE, 0xFF, 0x80,
        ],
        chain: &[
            0x1000_0002, 0, 0, 0,
            0, 0, 0, 0x4A02_07FF,
            0x0403_0201, 0x0807_0605, 0x0C0B_0A09, 0x80FF_FEFD,
            0x7000_0000, 0, 0, 0,
        ],
        steps: 10,
        packets: 0,
        taken: [8, 3, 2],
        data: &[],
        code: &[
            (4_094, 0x0403_0201), (4_095, 0x0807_0605),
            (0, 0x0C0B_0A09), (1, 0x80FF_FEFD),
        ],
        log: &[],
        state: &[ENDED],
    }
}

impl Point {
    pub fn case(&self) -> Case {
        Case {
            sheet: self.sheet.to_vec(),
            output_length: OUTPUT,
            main_length: MAIN,
            address: ADDRESS,
            data_length: DATA_WORDS as u32,
            code_length: CODE_BYTES as u32,
            log_length: log::length(ENTRIES),
            fill: FILL,
            allowance: u64::MAX,
            state: write_state(&State::reset()),
        }
    }

    /// The whole result.
    pub fn expected(&self) -> Vec<u8> {
        let case = self.case();
        let length = 4 * self.chain.len() as u32;
        let used = self.log.len() as u64;
        let mut out = Vec::new();
        [0, length, length]
            .iter()
            .for_each(|&w| put_word(&mut out, w));
        put_bytes(&mut out, &self.with_chain(case.output(), 0));

        put_number(&mut out, 0);
        put_number(&mut out, self.steps);

        put_number(&mut out, 0);
        put_number(&mut out, used);
        self.memories(&case).write(&mut out);

        put_number(&mut out, 0);
        let [words, nops, qwc] = self.taken;
        let counts = [self.steps, self.packets, words, nops, 0, qwc];
        counts.iter().for_each(|&n| put_number(&mut out, n));
        (2..8).for_each(|_| put_number(&mut out, 0));
        let mut state = [0; STATE_WORDS];
        state[chain_word::CHANNEL] = 1;
        state[chain_word::TADR] = ADDRESS + length - 16;
        set_used(&mut state, used);
        self.state.iter().for_each(|&(at, w)| state[at] = w);
        state.iter().for_each(|&w| put_word(&mut out, w));
        self.memories(&case).write(&mut out);
        put_bytes(&mut out, &self.with_chain(case.main(), ADDRESS as usize));
        out
    }

    fn with_chain(&self, mut bytes: Vec<u8>, at: usize) -> Vec<u8> {
        for (i, word) in self.chain.iter().enumerate() {
            let at = at + WORD * i;
            bytes[at..at + WORD].copy_from_slice(&word.to_le_bytes());
        }
        bytes
    }

    fn memories(&self, case: &Case) -> Filled {
        let mut memories = Filled::new(case);
        self.data.iter().for_each(|&(at, w)| memories.data[at] = w);
        for &(at, word) in self.code {
            memories.code[WORD * at..WORD * at + WORD].copy_from_slice(&word.to_le_bytes());
        }
        let logged = self.log.concat();
        memories.log[..logged.len()].copy_from_slice(&logged);
        memories
    }
}

/// A case, its name and its whole result.
pub struct Expected {
    pub name: &'static str,
    pub case: Case,
    pub result: Vec<u8>,
}

/// The bench points with their results.
pub fn expected() -> Vec<Expected> {
    let points = points();
    let with_result = |point: &Point| Expected {
        name: point.name,
        case: point.case(),
        result: point.expected(),
    };
    points.iter().map(with_result).collect()
}

/// The cases of all points.
pub fn file(points: &[Expected]) -> Vec<u8> {
    let mut file = Vec::new();
    points.iter().for_each(|point| point.case.write(&mut file));
    file
}

/// Tests the results of `file` against the literal values.
pub fn check(points: &[Expected], results: &[u8]) -> Result<(), String> {
    let mut rest = results;
    for point in points {
        let (own, after) = rest.split_at(point.result.len().min(rest.len()));
        if let Some(at) = crate::compare::first_difference(&point.result, own) {
            return Err(explain(point, own, at));
        }
        rest = after;
    }
    match rest.len() {
        0 => Ok(()),
        more => Err(format!("points: {more} bytes after the last result")),
    }
}

fn explain(point: &Expected, given: &[u8], at: usize) -> String {
    let from = at - at % WORD;
    let value = |bytes: &[u8]| match bytes.get(from..from + WORD) {
        Some(word) => format!("{:08X}", u32::from_le_bytes(word.try_into().unwrap())),
        None => format!("cut after {} bytes", bytes.len()),
    };
    format!(
        "point {}: {}: {} instead of {}",
        point.name,
        describe_place(&point.case, at / WORD),
        value(given),
        value(&point.result)
    )
}

#[cfg(test)]
mod tests {
    use super::*;
    use crate::sheet_cases;
    use crate::sheet_counts::Counts;

    fn own() -> Vec<u8> {
        let results = sheet_cases::results(&file(&expected()), &mut Counts::default());
        assert_eq!((results.damage, results.broken), (None, None));
        results.bytes
    }

    #[test]
    fn own_results() {
        assert_eq!(check(&expected(), &own()), Ok(()));
        let lengths: Vec<usize> = points().iter().map(|p| 4 * p.chain.len()).collect();
        assert_eq!(lengths, [16, 48, 80, 80, 64]);
    }

    #[test]
    fn any_changed_byte_is_found() {
        let results = own();
        for at in (0..results.len()).step_by(7_919) {
            let mut changed = results.clone();
            changed[at] ^= 0x10;
            assert!(check(&expected(), &changed).is_err());
        }
        assert!(check(&expected(), &results[..results.len() - 1]).is_err());
        assert!(check(&expected(), &[&results[..], &[0]].concat()).is_err());
    }
}
