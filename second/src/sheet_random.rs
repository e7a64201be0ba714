//! Sheets by chance, and cases around them.

use crate::capture_generate::{add_junk, random_state};
use crate::chain::{self, Pending, State};
use crate::gif::Place;
use crate::log;
use crate::memory::MOST_MAIN;
use crate::model::Model;
use crate::random::Random;
use crate::sheet::{self, record_bytes, Kind, CODE_BYTES, DATA_WORDS, INSTRUCTIONS, QUADWORDS};
use crate::sheet_cases::Case;
use crate::state_block::{write_state, StateBlock};
use crate::vif::Unit;
use crate::vif_generate::{random_code, Taste};
use crate::words::put_word;

/// Usual sheets that are longer than this get start records only.
const USUAL: usize = 1_200;
/// What records always can make up to an even length.
const FILLING: usize = 18;

pub const DATA: u8 = 1;
pub const CODE: u8 = 2;
pub const GS: u8 = 3;
pub const START: u8 = 4;

pub fn random_bytes(random: &mut Random, count: usize) -> Vec<u8> {
    (0..count).map(|_| random.word() as u8).collect()
}

/// Words that mean something to VIF1.
fn codes(random: &mut Random, bytes: usize) -> Vec<u8> {
    let taste = Taste {
        interrupt_percent: 0,
        illegal_percent: 4,
        b_percent: 0,
        unpack_percent: 30,
        long_percent: 2,
    };
    let mut out = Vec::new();
    while out.len() < bytes {
        let interrupt = (random.percent(6) as u32) << 31;
        let number = (out.len() / 4 % 4) as u32;
        let unit = Unit::reset(Model::Vif1);
        let code = random_code(random, &unit, number, &taste);
        put_word(&mut out, code | interrupt);
    }
    out
}

/// A body that a record of this kind may have.
pub fn random_body(random: &mut Random, kind: u8, n: u8) -> Vec<u8> {
    let length = Kind::from_number(kind).map_or(0, |kind| kind.body_length(n));
    let mut body = match random.below(10) {
        0 => vec![0; length],
        1 => vec![0xFF; length],
        2..=3 => codes(random, length),
        _ => random_bytes(random, length),
    };
    if kind == GS {
        for entry in body.chunks_mut(16) {
            entry[9..].fill(0);
        }
    }
    body
}

/// A legal address, often one from which n go round the end.
pub fn random_address(random: &mut Random, kind: u8, n: u8) -> u16 {
    let limit = match kind {
        DATA => QUADWORDS as u64,
        CODE | START => INSTRUCTIONS as u64,
        _ => return 0,
    };
    let address = match random.below(8) {
        0 => 0,
        1 => limit - 1,
        2..=3 => limit - random.within(1..=n as u64 + 2),
        4..=5 => random.below(32),
        _ => random.below(limit),
    };
    address as u16
}

fn random_count(random: &mut Random) -> u8 {
    let any = random.within(1..=255);
    let few = random.within(1..=12);
    random.pick(&[1, 1, 1, 2, 2, 3, 3, few, few, few, few, few, any, 254, 255]) as u8
}

/// A record that is accepted.
pub fn good_record(random: &mut Random, kind: u8, n: u8) -> Vec<u8> {
    let address = random_address(random, kind, n);
    let body = random_body(random, kind, n);
    record_bytes(kind, n, address, &body)
}

pub fn random_record(random: &mut Random) -> Vec<u8> {
    let kind = random.pick(&[DATA, CODE, GS, START]);
    let n = match kind {
        START => 0,
        _ => random_count(random),
    };
    good_record(random, kind, n)
}

/// A sheet that is accepted.
pub fn random_sheet(random: &mut Random) -> Vec<u8> {
    let records = match random.below(40) {
        0..=1 => 0,
        2..=13 => 1,
        14..=33 => random.within(2..=5),
        34..=38 => random.within(6..=20),
        _ => random.within(20..=120),
    };
    let mut sheet = Vec::new();
    for _ in 0..records {
        let next = random_record(random);
        sheet.extend(if sheet.len() + next.len() > USUAL && !sheet.is_empty() {
            good_record(random, START, 0)
        } else {
            next
        });
    }
    sheet
}

/// A sheet of exactly so many bytes, an even number: records of the kinds given with
/// this n, or with any where it is 0, and a few to make up the length.
pub fn sheet_of(random: &mut Random, length: usize, kinds: &[u8], n: u8) -> Vec<u8> {
    let mut sheet = Vec::new();
    loop {
        let next = match (random.pick(kinds), n) {
            (START, _) => good_record(random, START, 0),
            (kind, 0) => {
                let n = random_count(random);
                good_record(random, kind, n)
            }
            (kind, n) => good_record(random, kind, n),
        };
        if sheet.len() + next.len() + FILLING > length {
            break;
        }
        sheet.extend(next);
    }
    fill_up(random, &mut sheet, length);
    sheet
}

fn fill_up(random: &mut Random, sheet: &mut Vec<u8>, length: usize) {
    while sheet.len() < length {
        let left = length - sheet.len();
        let instructions = if left % 8 == 6 { (left - 6) / 8 } else { 0 };
        sheet.extend(match instructions {
            0 => good_record(random, START, 0),
            1..=255 => good_record(random, CODE, instructions as u8),
            _ => good_record(random, CODE, 200),
        });
    }
}

/// A sheet with some bytes changed, added or taken away.
pub fn damaged_sheet(random: &mut Random) -> Vec<u8> {
    let mut sheet = random_sheet(random);
    for _ in 0..random.within(1..=3) {
        if sheet.is_empty() {
            sheet = random_bytes(random, 8);
        }
        let at = random.below(sheet.len() as u64) as usize;
        // Often in a header that is likely to be met.
        let at = if random.percent(40) { at % 6 } else { at };
        let any = random.word() as u8;
        match random.below(8) {
            0..=3 if at < sheet.len() => sheet[at] ^= 1 << (any & 7),
            4 if at < sheet.len() => sheet[at] = any,
            5 => sheet.insert(at.min(sheet.len()), any),
            6 if at < sheet.len() => {
                sheet.remove(at);
            }
            _ => sheet.truncate(sheet.len() - (any as usize % 9).min(sheet.len())),
        }
    }
    sheet
}

/// A case around a sheet. Where the sheet is accepted, the run is whole.
pub fn case_around(random: &mut Random, sheet: Vec<u8>) -> Case {
    let some = 16 * random.within(1..=12) as usize;
    let chain = sheet::chain_length(&sheet).unwrap_or(some) as u32;
    let entries = sheet::entries(&sheet).unwrap_or(2);
    let steps = sheet::steps(&sheet).unwrap_or(40);
    let (address, main_length) = random_place(random, chain);
    let few = random.below(12);
    let used = random.pick(&[0, 0, 1, few]);
    let spare = random.pick(&[0, 0, 1, few, 20]);
    Case {
        output_length: random_output(random, chain),
        main_length,
        address,
        data_length: DATA_WORDS as u32,
        code_length: CODE_BYTES as u32,
        log_length: log::length(used + entries + spare),
        fill: random.number(),
        allowance: enough(random, steps),
        state: clean_block(random, main_length, used),
        sheet,
    }
}

/// An address and a main memory that the chain fits into.
fn random_place(random: &mut Random, chain: u32) -> (u32, u32) {
    let before = 16 * random.within(1..=8) as u32;
    let after = 16 * random.within(1..=8) as u32;
    let address = random.pick(&[0, before, before]);
    let end = address + chain;
    (address, random.pick(&[end, end + after]))
}

fn random_output(random: &mut Random, chain: u32) -> u32 {
    let many = random.within(2..=200) as u32;
    let fewer = random.below(chain as u64) as u32;
    random.pick(&[
        chain,
        chain,
        chain,
        chain - 1,
        chain - 16,
        0,
        15,
        16,
        chain + 1,
        chain + 16,
        chain + many,
        chain + many,
        fewer,
    ])
}

/// An allowance that is enough for the steps.
pub fn enough(random: &mut Random, steps: u64) -> u64 {
    let few = random.within(1..=9);
    random.pick(&[
        steps,
        steps,
        steps + 1,
        steps + few,
        (few << 32) | (steps / 2),
        1 << 63,
        u64::MAX,
        u64::MAX,
    ])
}

fn clean_block(random: &mut Random, main_length: u32, used: u64) -> StateBlock {
    let state = State {
        used,
        ..clean_state(random, main_length)
    };
    let mut block = write_state(&state);
    if random.percent(8) {
        add_junk(random, &mut block);
    }
    block
}

/// A state in range with nothing waiting and path 2 idle.
fn clean_state(random: &mut Random, main_length: u32) -> State {
    if random.percent(3) {
        return State::reset();
    }
    let mut state = any_state(random, main_length);
    state.vif1.waiting = None;
    state.path2.place = Place::Idle;
    if random.percent(50) {
        state.path2.q = random.word();
    }
    state
}

/// A state in range; pending words may lie outside main memory.
pub fn any_state(random: &mut Random, main_length: u32) -> State {
    let length = random.pick(&[main_length.max(16), MOST_MAIN as u32]);
    let mut state = random_state(random, length);
    if random.percent(3) {
        state.payload = Some(Pending {
            address: 0xFFFF_FFF0,
            words: random.pick(&[4, 8, chain::MOST_PENDING]),
        });
    }
    state
}

/// Makes data and code memory wrong, so that the result is short.
pub fn shorten_memories(random: &mut Random, case: &mut Case) {
    case.data_length = random.pick(&[0, 0, 1, 4]);
    case.code_length = random.pick(&[0, 0, 1, 6]);
}

#[cfg(test)]
mod tests {
    use super::*;
    use crate::sheet_check::{foretold, End};

    #[test]
    fn usual_cases_are_whole() {
        let mut random = Random::new(7);
        for _ in 0..400 {
            let sheet = random_sheet(&mut random);
            let case = case_around(&mut random, sheet);
            assert_eq!(foretold(&case), Some(End::Whole));
        }
    }

    #[test]
    fn sheets_of_a_length() {
        let mut random = Random::new(8);
        let all = [DATA, CODE, GS, START];
        for length in (18..3_000).step_by(2).chain([131_070, 131_072]) {
            for (kinds, n) in [(&all[..], 0), (&[START], 0), (&[DATA], 255)] {
                let sheet = sheet_of(&mut random, length, kinds, n);
                assert_eq!(sheet.len(), length);
                assert!(sheet::records(&sheet).is_ok());
            }
        }
    }

    #[test]
    fn damage_is_mostly_refused() {
        let mut random = Random::new(9);
        let refused = (0..400)
            .filter(|_| sheet::steps(&damaged_sheet(&mut random)).is_err())
            .count();
        assert!((150..390).contains(&refused), "{refused}");
    }
}
