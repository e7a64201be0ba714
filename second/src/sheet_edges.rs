//! Sheet cases at the edges: each refusal at each place, lengths, states, addresses.

use crate::capture_generate::field_blocks;
use crate::chain::State;
use crate::gif::{Format, Path, Place, Tag};
use crate::gif_generate::{random_held_block, random_no_path_block};
use crate::log;
use crate::memory;
use crate::memory::cases::{MOST_CODE, MOST_DATA};
use crate::model::Model;
use crate::random::Random;
use crate::sheet::{self, record_bytes, CODE_BYTES, DATA_WORDS, INSTRUCTIONS, QUADWORDS};
use crate::sheet_cases::Case;
use crate::sheet_random::{
    any_state, case_around, good_record, random_bytes, random_record, random_sheet, sheet_of,
    shorten_memories, CODE, DATA, GS, START,
};
use crate::state_block::{
    chain_word, put_part, set_used, unit_word, write_path, write_state, write_unit, StateBlock,
    PATH2, PATHS, UNPACK, VIF0, VIF1, ZERO_ON_VIF0,
};
use crate::vif::{Mpg, Payload, Unit, Waiting};
use crate::vif_generate::{code_word, random_waiting_unit, stmask_block, NOT_ONE};
use crate::words::put_word;

/// The right lengths of the memories, as cases give them.
const DATA_LENGTH: u32 = DATA_WORDS as u32;
const CODE_LENGTH: u32 = CODE_BYTES as u32;

const KINDS: [u8; 4] = [DATA, CODE, GS, START];
/// Cases with a block from the list of fields.
const FIELD_CASES: usize = 60;

/// All edge cases, in any order.
pub fn edge_cases(random: &mut Random) -> Vec<Case> {
    let mut edges = Edges {
        random,
        cases: Vec::new(),
    };
    edges.add_marks();
    edges.add_kinds();
    edges.add_counts();
    edges.add_addresses();
    edges.add_cuts();
    edges.add_pads();
    edges.add_too_long();
    edges.add_records_wrong_together();
    edges.add_outputs();
    edges.add_lengths();
    edges.add_logs();
    edges.add_cases_wrong_together();
    edges.add_states();
    edges.add_channel_0();
    edges.add_waiting_codes();
    edges.add_bodies_as_codes();
    edges.add_uploads();
    edges.add_packets();
    edges.add_places();
    edges.add_allowances();
    edges.shuffled()
}

struct Edges<'a> {
    random: &'a mut Random,
    cases: Vec<Case>,
}

impl Edges<'_> {
    fn shuffled(mut self) -> Vec<Case> {
        for at in (1..self.cases.len()).rev() {
            let other = self.random.below(at as u64 + 1) as usize;
            self.cases.swap(at, other);
        }
        self.cases
    }

    /// A case for a sheet; mostly only the builder and the steps look at it.
    fn add_sheet(&mut self, sheet: Vec<u8>) {
        let mut case = case_around(self.random, sheet);
        if self.cases.len() % 5 != 0 {
            shorten_memories(self.random, &mut case);
        }
        self.cases.push(case);
    }

    /// Accepted records: one to three.
    fn some_records(&mut self) -> Vec<u8> {
        let count = self.random.within(1..=3);
        (0..count)
            .flat_map(|_| {
                let kind = self.random.pick(&KINDS);
                let n = self.random.within(1..=5) as u8;
                good_record(self.random, kind, if kind == START { 0 } else { n })
            })
            .collect()
    }

    /// The bad record as the first, and after others; mostly others follow where they can.
    fn add_bad(&mut self, bad: &[u8], is_last: bool) {
        for later in [false, true] {
            let mut sheet = Vec::new();
            if later {
                sheet = self.some_records();
            }
            sheet.extend(bad);
            if !is_last && self.random.percent(60) {
                sheet.extend(self.some_records());
            }
            self.add_sheet(sheet);
        }
    }

    /// An accepted record of any kind.
    fn record(&mut self) -> Vec<u8> {
        random_record(self.random)
    }

    /// A case that is whole, with at least one log entry.
    fn whole_case(&mut self) -> Case {
        let mut sheet = random_sheet(self.random);
        if sheet::entries(&sheet) == Ok(0) {
            sheet.extend(good_record(self.random, START, 0));
        }
        case_around(self.random, sheet)
    }

    fn add_marks(&mut self) {
        for (at, flip) in [(0, 1), (0, 0x80), (0, 0xFF), (1, 1), (1, 0x80), (1, 0xFF)] {
            let mut bad = self.record();
            bad[at] ^= flip;
            self.add_bad(&bad, false);
        }
        for mark in [[0x51, 0x9E], [0, 0], [0xFF, 0xFF]] {
            let mut bad = self.record();
            bad[..2].copy_from_slice(&mark);
            self.add_bad(&bad, false);
        }
    }

    fn add_kinds(&mut self) {
        for kind in [0, 5, 6, 0x11, 0x81, 0x84, 0xFF] {
            let mut bad = self.record();
            bad[2] = kind;
            self.add_bad(&bad, false);
        }
    }

    fn add_counts(&mut self) {
        for kind in [DATA, CODE, GS] {
            let body = self.random.pick(&[0, 16]);
            let body = random_bytes(self.random, body);
            self.add_bad(&record_bytes(kind, 0, 0, &body), false);
        }
        for n in [1, 2, 255] {
            let body = self.random.pick(&[0, 16]);
            let body = random_bytes(self.random, body);
            self.add_bad(&record_bytes(START, n, 7, &body), false);
        }
    }

    fn add_addresses(&mut self) {
        let (vectors, instructions) = (QUADWORDS as u16, INSTRUCTIONS as u16);
        let all: [(u8, &[u16]); 4] = [
            (DATA, &[vectors, vectors + 1, 2_047, 0x8000, 0xFFFF]),
            (CODE, &[instructions, 4_095, 0x8000, 0xFFFF]),
            (GS, &[1, 256, 1_024, 0xFFFF]),
            (START, &[instructions, instructions + 1, 0xFFFF]),
        ];
        for (kind, addresses) in all {
            for address in addresses {
                let n = if kind == START { 0 } else { 2 };
                let mut bad = good_record(self.random, kind, n);
                bad[4..6].copy_from_slice(&address.to_le_bytes());
                self.add_bad(&bad, false);
            }
        }
        // The last legal ones.
        let last = instructions - 1;
        for (kind, address) in [(DATA, vectors - 1), (CODE, last), (START, last)] {
            let n = if kind == START { 0 } else { 3 };
            let mut good = good_record(self.random, kind, n);
            good[4..6].copy_from_slice(&u16::to_le_bytes(address));
            self.add_bad(&good, false);
        }
    }

    /// Headers and bodies cut by the sheet's end.
    fn add_cuts(&mut self) {
        for bytes in 1..sheet::HEADER {
            for wrong in [0, 1] {
                let mut bad = self.record();
                bad.truncate(bytes);
                bad[bytes.min(2) - 1] ^= wrong;
                self.add_bad(&bad, true);
            }
        }
        for kind in [DATA, CODE, GS] {
            for n in [1, 2, 255] {
                let whole = good_record(self.random, kind, n);
                let body = whole.len() - sheet::HEADER;
                let more = self.random.within(2..=body as u64 - 1) as usize;
                for short in [1, more, body] {
                    self.add_bad(&whole[..whole.len() - short], true);
                }
            }
        }
    }

    /// Each pad byte of the first, the last and another entry.
    fn add_pads(&mut self) {
        for at in 9..16 {
            for (n, entry) in [(1, 0), (3, 0), (3, 2), (255, 254), (7, 3)] {
                let mut bad = good_record(self.random, GS, n);
                bad[sheet::HEADER + 16 * entry + at] = self.random.pick(&[1, 0x10, 0x80, 0xFF]);
                let mut sheet = Vec::new();
                if self.random.percent(50) {
                    sheet = self.some_records();
                }
                sheet.extend(bad);
                self.add_sheet(sheet);
            }
        }
    }

    /// Sheets of 131,073 to 131,088 bytes.
    fn add_too_long(&mut self) {
        for more in 1..=16 {
            let mut sheet = match more % 3 {
                0 => vec![0; sheet::MOST_SHEET],
                1 => sheet_of(self.random, sheet::MOST_SHEET, &[START], 0),
                _ => sheet_of(self.random, sheet::MOST_SHEET, &KINDS, 0),
            };
            sheet.extend(match more {
                6 => good_record(self.random, START, 0),
                14 => good_record(self.random, CODE, 1),
                _ => random_bytes(self.random, more),
            });
            self.add_sheet(sheet);
        }
    }

    /// Records with two things wrong or more.
    fn add_records_wrong_together(&mut self) {
        for wrong in 0..64u32 {
            if wrong.count_ones() >= 2 {
                let bad = self.wrong_record(wrong);
                let mut sheet = Vec::new();
                if self.random.percent(50) {
                    sheet = self.some_records();
                }
                sheet.extend(bad);
                self.add_sheet(sheet);
            }
        }
    }

    /// A record with what the bits 0 to 5 say wrong: mark, kind, count, address, body
    /// cut, pad; as far as they go together.
    fn wrong_record(&mut self, wrong: u32) -> Vec<u8> {
        let is = |i: u32| wrong >> i & 1 == 1;
        let kind = if is(5) { GS } else { self.random.pick(&KINDS) };
        let right = if kind == START { 0 } else { 2 };
        let n = match (is(2), kind) {
            (false, _) => right,
            (true, START) => self.random.within(1..=255) as u8,
            (true, _) => 0,
        };
        let mut record = good_record(self.random, kind, right);
        record[3] = n;
        if is(5) {
            let last = record.len() - 1;
            record[last - 16] = 1;
        }
        if is(3) {
            record[5] |= 0x80;
        }
        if is(4) && record.len() > sheet::HEADER {
            record.pop();
        }
        if is(1) {
            record[2] = self.random.pick(&[0, 5, 255]);
        }
        if is(0) {
            record[self.random.below(2) as usize] ^= 1;
        }
        record
    }

    fn add_outputs(&mut self) {
        let start = good_record(self.random, START, 0);
        let sheets = [
            Vec::new(),
            start,
            self.some_records(),
            random_sheet(self.random),
        ];
        for sheet in sheets {
            let chain = sheet::chain_length(&sheet).unwrap_or(0) as i64;
            for over in [0, -1, -15, -16, -17, 1, 2, 15, 16, 300] {
                self.add_output(&sheet, chain + over);
            }
            for length in [0, 1, 15, 16, 17] {
                self.add_output(&sheet, length);
            }
        }
    }

    fn add_output(&mut self, sheet: &[u8], length: i64) {
        self.add_sheet(sheet.to_vec());
        if let Some(case) = self.cases.last_mut() {
            case.output_length = length.max(0) as u32;
        }
    }

    /// Lengths of data, code and main memory from both sides.
    fn add_lengths(&mut self) {
        for length in [0, 1, DATA_LENGTH - 1, DATA_LENGTH + 1, MOST_DATA] {
            let mut case = self.whole_case();
            case.data_length = length;
            self.cases.push(case);
        }
        let code = CODE_LENGTH;
        for length in [0, 1, code - 1, code + 1, code + 2, code + 4, MOST_CODE] {
            let mut case = self.whole_case();
            case.code_length = length;
            self.cases.push(case);
        }
        for length in [0, 1, 4, 8, 15] {
            let mut case = self.whole_case();
            case.main_length = length;
            self.cases.push(case);
            let mut case = self.whole_case();
            case.main_length += length;
            self.cases.push(case);
        }
    }

    /// Logs that lack room or are refused.
    fn add_logs(&mut self) {
        for lacking in [0, 0, 1, 1, 1, 2, 2, 5, 1_000] {
            let sheet = [random_sheet(self.random), good_record(self.random, GS, 3)].concat();
            let mut case = case_around(self.random, sheet);
            let entries = sheet::entries(&case.sheet).unwrap_or(0);
            let room = entries.saturating_sub(lacking);
            case.log_length = log::length(case.used() + room);
            self.cases.push(case);
        }
        let [one, two, twenty] = [1, 2, 20].map(log::length);
        let most = log::MOST_NUMBERS as u32;
        let refused = [
            (0, 1),
            (one, 2),
            (one, log::WRAPS),
            (one, log::WRAPS_TWICE),
            (one, u64::MAX),
            // 1, 2, 4 and 5 numbers free.
            (one + 1, 1),
            (one + 2, 1),
            (two + 1, 1),
            (two + 2, 1),
            // Twice the entries used, and all but one of them.
            (two, 3),
            (twenty, 21),
            (twenty - 1, 20),
            (twenty, 1 << 32),
            (twenty, 0x5555_5556),
            (most + 1, 0),
            (most + one, 0),
        ];
        // And one that is longer than two numbers an entry would allow.
        for (length, used) in refused.into_iter().chain([(131_073, 0)]) {
            let mut case = self.whole_case();
            case.log_length = length;
            set_used(&mut case.state, used);
            self.cases.push(case);
        }
    }

    /// Every choice of what refuses build and run before its run.
    fn add_cases_wrong_together(&mut self) {
        for wrong in 0..128u32 {
            let is = |i: u32| wrong >> i & 1 == 1;
            if is(5) && is(6) || wrong.count_ones() < 2 {
                continue;
            }
            let mut case = self.whole_case();
            if is(5) {
                case = self.refused_sheet(case);
            }
            self.spoil_lengths(&mut case, wrong);
            if is(4) {
                self.spoil_start(&mut case);
            }
            if is(6) {
                let far = self.random.pick(&[0, 16, 1 << 20]);
                case.address |= case.main_length.next_multiple_of(16) + far;
            }
            self.cases.push(case);
        }
    }

    /// The same case with a sheet that is refused.
    fn refused_sheet(&mut self, mut case: Case) -> Case {
        let mut bad = self.record();
        match self.random.below(3) {
            0 => bad[0] ^= 1,
            1 => bad[2] = 9,
            _ => bad.truncate(5),
        }
        if self.random.percent(50) {
            case.sheet.clear();
        }
        case.sheet.extend(bad);
        case
    }

    /// Spoils main, data, code memory and log as the bits 0 to 3 say.
    fn spoil_lengths(&mut self, case: &mut Case, wrong: u32) {
        if wrong & 1 != 0 {
            case.main_length += self.random.pick(&[1, 4, 8, 15]);
        }
        if wrong & 2 != 0 {
            let right = DATA_LENGTH;
            case.data_length = self.random.pick(&[0, 1, right - 1, right + 1]);
        }
        if wrong & 4 != 0 {
            let right = CODE_LENGTH;
            case.code_length = self.random.pick(&[0, 1, right - 1, right + 1]);
        }
        if wrong & 8 != 0 {
            let entries = log::room(case.log_length as usize, 0);
            let used = self.random.pick(&[entries + 1, log::WRAPS]);
            set_used(&mut case.state, used);
        } else if (wrong & 0x11).count_ones() == 1 {
            // No room for any entry.
            case.log_length = log::length(case.used());
        }
    }

    /// Puts the state out of range, or the address.
    fn spoil_start(&mut self, case: &mut Case) {
        match self.random.below(6) {
            0 => case.address |= self.random.pick(&[1, 4, 8, 15]),
            1 => case.address |= 1 << 31,
            2 => case.state[chain_word::CHANNEL] = self.random.pick(&[3, 256]),
            3 => case.state[chain_word::TADR] = 8,
            4 => case.state[VIF0 + unit_word::TOPS] = 1,
            _ => case.state[chain_word::ENDED] = 2,
        }
    }

    /// State blocks in range, out of range and in no state.
    fn add_states(&mut self) {
        let blocks = field_blocks(self.random);
        for i in 0..FIELD_CASES {
            let mut block = self.random.pick(&blocks);
            // The first few with STMASK and other than one word due.
            if let Some(&due) = NOT_ONE.get(i) {
                put_part(&mut block, VIF1, &stmask_block(due));
            }
            self.add_block(block);
        }
        for (_, path_at) in PATHS {
            for _ in 0..3 {
                let mut block = write_state(&State::reset());
                let path = random_no_path_block(self.random);
                put_part(&mut block, path_at, &path);
                self.add_block(block);
            }
        }
    }

    /// States saved on channel 0: the lengths tested are VIF1's, the chain is VIF1's, and VIF0 is
    /// as it was.
    fn add_channel_0(&mut self) {
        let small = memory::VIF0;
        let (data, code) = (small.data_words() as u32, small.code_bytes() as u32);
        let right = (DATA_LENGTH, CODE_LENGTH);
        for lengths in [right, right, (data, code), (data, right.1), (right.0, code)] {
            for ended in [0, 2] {
                let vif0 = random_waiting_unit(self.random, Model::Vif0);
                let state = State {
                    channel: 0,
                    vif0,
                    ..State::reset()
                };
                let mut block = write_state(&state);
                block[chain_word::ENDED] = ended;
                self.add_block(block);
                if let Some(case) = self.cases.last_mut() {
                    (case.data_length, case.code_length) = lengths;
                }
            }
        }
        for register in ZERO_ON_VIF0 {
            let mut block = write_state(&State::reset());
            block[chain_word::CHANNEL] = self.random.below(3) as u32;
            block[VIF0 + register] = 1;
            self.add_block(block);
        }
    }

    fn add_block(&mut self, block: StateBlock) {
        let mut case = self.whole_case();
        let used = case.used();
        case.state = block;
        set_used(&mut case.state, used);
        self.cases.push(case);
    }

    /// Codes of every kind that wait, and tags on path 2.
    fn add_waiting_codes(&mut self) {
        let (waiting_at, due_at) = (VIF1 + unit_word::WAITING, VIF1 + unit_word::DUE);
        let mut seen = [0; UNPACK as usize + 1];
        while seen[1..].iter().any(|&count| count < 3) {
            let unit = random_waiting_unit(self.random, Model::Vif1);
            let mut block = write_state(&State {
                vif1: unit,
                ..State::reset()
            });
            let seen = &mut seen[block[waiting_at] as usize];
            *seen += 1;
            if *seen <= 3 {
                // Often little is due, so that the chain gets on.
                let due = self.random.within(1..=4) as u32;
                block[due_at] = block[due_at].min(due);
                self.add_block(block);
            }
        }
        for with_b in [false, false, false, true, true] {
            let sheet = [random_sheet(self.random), good_record(self.random, GS, 3)].concat();
            let mut case = case_around(self.random, sheet);
            let path = random_held_block(self.random);
            put_part(&mut case.state, PATH2, &path);
            if with_b {
                put_part(&mut case.state, PATH2, &write_path(&held(0xB, 3)));
            }
            self.cases.push(case);
        }
        for _ in 0..6 {
            let mut case = self.whole_case();
            let state = State {
                used: case.used(),
                ..any_state(self.random, case.main_length)
            };
            case.state = write_state(&state);
            self.cases.push(case);
        }
    }

    /// STROW takes the four codes, and what was a body is read as codes.
    fn add_bodies_as_codes(&mut self) {
        let words = [
            code_word(0x08, 0, 0),
            code_word(0x63, 1, 0),
            code_word(0x60, 1, 0),
            code_word(0x05, 0, 3),
            code_word(0x50, 0, 1),
            code_word(0x14, 0, 1),
            1 << 31 | code_word(0x07, 0, 9),
        ];
        for word in words {
            for kind in [DATA, CODE] {
                let mut body = Vec::new();
                put_word(&mut body, word);
                body.resize(32, 0);
                let n = if kind == DATA { 2 } else { 4 };
                let sheet = record_bytes(kind, n, 5, &body);
                let mut case = case_around(self.random, sheet);
                case.state = write_state(&strow_waits());
                // No room for MSCAL.
                case.log_length = 0;
                self.cases.push(case);
            }
        }
    }

    /// MPG in each word of a body that is read as codes, and one that waits with all or fewer of
    /// its words due, which goes on with word 0.
    fn add_uploads(&mut self) {
        for at in 0..4 {
            let mut words = [0; 8];
            words[at] = code_word(0x4A, 1, 0x7FF);
            let body: Vec<u8> = words.iter().flat_map(|w| w.to_le_bytes()).collect();
            let sheet = record_bytes(DATA, 2, 5, &body);
            let mut case = case_around(self.random, sheet);
            case.state = write_state(&strow_waits());
            self.cases.push(case);
        }
        for due in 1..=4 {
            let mut case = self.whole_case();
            let unit = Unit {
                waiting: Some(Waiting {
                    payload: Payload::Mpg(Mpg {
                        address: 0x7FF,
                        count: 2,
                    }),
                    interrupt: due % 2 == 0,
                    due,
                }),
                ..Unit::reset(Model::Vif1)
            };
            put_part(&mut case.state, VIF1, &write_unit(&unit));
            self.cases.push(case);
        }
    }

    /// Three GS records among others: runs cut round the steps that close their packets, a log
    /// that is full after some of them, and path 2 inside a tag with EOP.
    fn add_packets(&mut self) {
        let records = [(GS, 2), (DATA, 1), (GS, 1), (START, 0), (GS, 3)];
        let sheet: Vec<u8> = records
            .iter()
            .flat_map(|&(kind, n)| good_record(self.random, kind, n))
            .collect();
        // The packets are closed with the steps 8, 24 and 38.
        for allowance in [7, 8, 23, 24, 37] {
            let mut case = case_around(self.random, sheet.clone());
            case.allowance = allowance;
            self.cases.push(case);
        }
        for room in [2, 5] {
            let mut case = case_around(self.random, sheet.clone());
            case.log_length = log::length(case.used() + room);
            self.cases.push(case);
        }
        for due in [1, 2] {
            let mut case = case_around(self.random, sheet.clone());
            put_part(&mut case.state, PATH2, &write_path(&held(0xE, due)));
            self.cases.push(case);
        }
    }

    /// Addresses in main memory, right and wrong.
    fn add_places(&mut self) {
        for _ in 0..2 {
            let case = self.whole_case();
            let chain = sheet::chain_length(&case.sheet).unwrap_or(16) as u32;
            let main = chain + 64;
            let places = [
                (chain, 0),
                (main, 0),
                (main, 64),
                (main, 48),
                (main, 80),
                (main, 96),
                (chain - 16, 0),
                (chain - 16, 16),
                (16, 0),
                (main, main),
                (main, main + 16),
                (main, 1 << 20),
                (main, 0x7FFF_FFF0),
                (main, 1 << 31),
                (main, 0xFFFF_FFF0),
                (main, 1),
                (main, 4),
                (main, 8),
                (main, 15),
                (main, u32::MAX),
            ];
            for (main_length, address) in places {
                let mut case = case_around(self.random, case.sheet.clone());
                case.main_length = main_length;
                case.address = address;
                self.cases.push(case);
            }
        }
    }

    fn add_allowances(&mut self) {
        for _ in 0..3 {
            let case = self.whole_case();
            let steps = sheet::steps(&case.sheet).unwrap_or(1);
            let cut = self.random.below(steps);
            for allowance in [0, 1, cut, steps - 1, steps, steps + 1, 1 << 32, u64::MAX] {
                let mut case = case_around(self.random, case.sheet.clone());
                case.allowance = allowance;
                self.cases.push(case);
            }
        }
    }
}

/// A state in which STROW waits for four words.
fn strow_waits() -> State {
    State {
        vif1: Unit {
            waiting: Some(Waiting {
                payload: Payload::Strow,
                interrupt: false,
                due: 4,
            }),
            ..Unit::reset(Model::Vif1)
        },
        ..State::reset()
    }
}

/// A path with so many data quadwords due of a tag with EOP and one descriptor.
fn held(descriptor: u64, due: u32) -> Path {
    let tag = Tag {
        format: Format::Packed,
        nloop: 4,
        eop: true,
        nreg: 1,
        descriptors: descriptor,
    };
    Path {
        q: 7,
        place: Place::Data { tag, due },
    }
}

#[cfg(test)]
mod tests {
    use super::*;

    #[test]
    fn each_refusal_of_the_builder() {
        let cases = edge_cases(&mut Random::new(3));
        for number in 40..=47 {
            let met = cases.iter().any(|case| {
                let mut output = case.output();
                sheet::exported_number(&case.sheet, &mut output) == number
            });
            assert!(met, "{number}");
        }
        // As many as a file of 2,000 cases has.
        assert!(cases.len() <= 680, "{}", cases.len());
    }
}
