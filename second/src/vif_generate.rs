//! VIF cases from a seed.

use crate::gif::{Path, Place, Tag};
use crate::gif_generate::{
    edge_logs, random_block as random_gif_block, random_held_block, random_log,
    random_no_path_block, random_out_of_range_block, random_tag, tag_quadword, EOP, PRE,
};
use crate::log;
use crate::memory::cases::{MOST_CODE, MOST_DATA};
use crate::model::{Model, MODELS, ONLY_VIF1};
use crate::packet_points;
use crate::path_points;
use crate::random::Random;
use crate::refusals;
use crate::state_block::{
    self, first_unused, limit, path_word, unit_word, write_path, write_unit, PathBlock, UnitBlock,
    IDLE_PATH, RESET_UNIT, UNIT_WORDS,
};
use crate::unpack_counts::all_formats;
use crate::vif::{
    command_of, Code, Given, Mpg, Payload, Registers, Unit, Waiting, ADDRESSES, MOST_DIRECT,
    MOST_NUM, MPG_ADDRESSES,
};
use crate::vif_cases::{taken_quadword, Case, Standing, REFUSED};
use crate::vif_points;
use crate::vif_unpack::{Format, Unpack};

const FILL: u64 = 0x0123_4567_89AB_CDEF;
/// Words due that a waiting STMASK cannot have.
pub const NOT_ONE: [u32; 5] = [0, 2, 3, 257, u32::MAX];

/// A case file: the fixed cases, and cases by chance with about `words` words.
pub fn generate(seed: u64, words: u64) -> Vec<u8> {
    let mut random = Random::new(seed);
    let mut file = Vec::new();
    let mut cases = Vec::new();
    for model in MODELS {
        cases.extend(fixed_cases(model));
    }
    cases.extend(vif_points::all().iter().map(|point| point.case()));
    cases.extend(packet_points::in_vif_cases());
    cases.extend(path_points::in_vif_cases());
    for model in MODELS {
        add_edge_cases(&mut random, model, &mut cases);
    }
    cases.iter().for_each(|case| case.write(&mut file));
    let mut made = 0;
    while made < words {
        let case = random_case(&mut random, words - made);
        made += case.words.len().max(1) as u64;
        case.write(&mut file);
    }
    file
}

/// The word of a code with its bit 31 clear.
pub fn code_word(command: u32, num: u32, imm: u32) -> u32 {
    command << 24 | num << 16 | imm
}

pub fn stcycl(cl: u32, wl: u32) -> u32 {
    code_word(0x01, 0, cl | wl << 8)
}

/// A case under way: its words so far and what they led to.
struct Maker {
    case: Case,
    standing: Standing,
    calls: u32,
}

impl Maker {
    fn new(case: Case) -> Maker {
        Maker {
            standing: Standing::new(&case),
            case,
            calls: 0,
        }
    }

    /// A case with right lengths of the memories and no entries used.
    fn with(unit: &Unit, entries: u64, number: u32) -> Maker {
        Maker::new(plain_case(unit.model, write_unit(unit), entries, number))
    }

    fn unit(&self) -> Option<&Unit> {
        self.standing.both.as_ref().map(|(unit, _)| unit)
    }

    /// The number of the next word in its quadword.
    fn number(&self) -> u32 {
        (self.case.number + self.case.words.len() as u32) % 4
    }

    /// Whether the next call takes a quadword.
    fn wants_quadword(&self) -> bool {
        self.number() == 0 && self.waits_for_quadwords()
    }

    fn waits_for_quadwords(&self) -> bool {
        self.unit()
            .and_then(|unit| unit.waiting)
            .is_some_and(|waiting| matches!(waiting.payload, Payload::Direct | Payload::Directhl))
    }

    /// Gives a word; where a quadword is wanted, one with zeros above.
    fn word(&mut self, word: u32) -> u32 {
        if self.wants_quadword() {
            return self.quadword(word as u128);
        }
        let given = match self.number() {
            0 => Given::Quadword(word as u128),
            number => Given::Word { number, word },
        };
        self.case.words.push(word);
        self.calls += 1;
        self.standing.take(given)
    }

    /// Gives a quadword where one is wanted; where it is refused, its other words follow.
    fn quadword(&mut self, quadword: u128) -> u32 {
        let answer = self.standing.take(Given::Quadword(quadword));
        let words: [u32; 4] = std::array::from_fn(|i| (quadword >> (32 * i)) as u32);
        self.calls += 1;
        if taken_quadword(answer) {
            self.case.words.extend(words);
            return answer;
        }
        self.case.words.push(words[0]);
        for &w in &words[1..] {
            self.word(w);
        }
        answer
    }

    fn words(&mut self, words: &[u32]) {
        for &w in words {
            self.word(w);
        }
    }

    /// NOPs until the next word has the number.
    fn pad(&mut self, number: u32) {
        while self.number() != number {
            self.word(0);
        }
    }

    /// Payload until nothing waits, at most so many calls.
    fn run_out(&mut self, random: &mut Random, most: u32) {
        for _ in 0..most {
            if self.unit().is_none_or(|unit| unit.waiting.is_none()) {
                break;
            }
            if self.wants_quadword() {
                let quadword = random_quadword(random, self, 0);
                self.quadword(quadword);
            } else {
                let word = payload_word(random);
                self.word(word);
            }
        }
    }

    /// The case with all calls in one group.
    fn finish(mut self) -> Case {
        self.align();
        self.case.groups = vec![self.calls];
        self.case
    }

    /// The case with the first so many calls in one group and the others in another.
    fn finish_cut(mut self, first: u32) -> Case {
        self.align();
        self.case.groups = vec![first, self.calls - first];
        self.case
    }

    /// The case with groups by chance that hold all calls.
    fn finish_in_groups(mut self, random: &mut Random) -> Case {
        self.align();
        self.case.groups = random_groups(random, self.calls);
        self.case
    }

    /// The case with groups by chance; sometimes words are left over, sometimes groups.
    fn finish_loosely(mut self, random: &mut Random) -> Case {
        self.align();
        let calls = match random.below(20) {
            0 => random.below(self.calls as u64 + 1) as u32,
            1 => self.calls + random.within(1..=6) as u32,
            _ => self.calls,
        };
        self.case.groups = random_groups(random, calls);
        self.case
    }

    fn align(&mut self) {
        while self.number() != 0 {
            let nothing_waits = self.unit().is_some_and(|unit| unit.waiting.is_none());
            let word = if nothing_waits { 0 } else { 0x0101_0101 };
            self.word(word);
        }
    }
}

/// The right lengths of a unit's memories, as cases give them.
pub fn lengths(model: Model) -> (u32, u32) {
    let sizes = model.sizes();
    (sizes.data_words() as u32, sizes.code_bytes() as u32)
}

/// A case with room for so many entries in the log.
pub fn plain_case(model: Model, unit: UnitBlock, entries: u64, number: u32) -> Case {
    let (data_length, code_length) = lengths(model);
    Case {
        model,
        data_length,
        code_length,
        log_length: log::length(entries),
        used: 0,
        fill: FILL,
        unit,
        path: IDLE_PATH,
        number,
        groups: Vec::new(),
        words: Vec::new(),
    }
}

fn random_groups(random: &mut Random, calls: u32) -> Vec<u32> {
    let style = random.below(10);
    let mut left = calls;
    let mut groups = Vec::new();
    while left > 0 {
        let most = match style {
            0..=1 => 1,
            2..=4 => random.within(1..=4),
            5..=6 => random.within(1..=40),
            7 => random.pick(&[1, 1, 1, 60]),
            8 => random.within(0..=12),
            _ => 65_535,
        };
        let group = left.min(most as u32);
        groups.push(group);
        left -= group;
    }
    if random.percent(3) {
        groups.push(random.pick(&[0, 1, 65_535]));
    }
    groups
}

/// The bench points and other cases that are the same in every file.
fn fixed_cases(model: Model) -> Vec<Case> {
    let mut cases = unpack_points(model);
    // MPG at 2,047, two instructions.
    cases.push(fed(model, 0, &[0, code_word(0x4A, 2, 2_047), 1, 2, 3, 4]));
    // DIRECT as a sheet's kind 3 record has it.
    let mut maker = Maker::with(&Unit::reset(model), 2, 0);
    maker.words(&[0, 0, 0, code_word(0x50, 0, 2)]);
    maker.quadword(0x0000_0000_0000_000E_1000_0000_0000_8001);
    maker.quadword(0x0042_0000_0000_0000_7777);
    cases.push(maker.finish());
    cases.push(two_starts(model));
    // STMOD 3: refused 23, MODE stays.
    let stmod = |mode| code_word(0x05, 0, mode);
    let modes = [stmod(2), stmod(3), stmod(0xFFFF), stmod(1)];
    cases.push(fed(model, 0, &modes));
    // No groups, and no words.
    cases.push(plain_case(model, RESET_UNIT, 0, 0));
    let mut case = plain_case(model, RESET_UNIT, 1, 0);
    case.groups = vec![0, 3, 0];
    cases.push(case);
    // STMASK with other than one word due: refused, both blocks as given.
    for due in NOT_ONE {
        let mut case = plain_case(model, stmask_block(due), 4, due % 4);
        case.path[path_word::FIRST_HELD..].fill(due);
        let mut maker = Maker::new(case);
        maker.words(&[0, 0x0102_0304]);
        cases.push(maker.finish());
        let mut case = cases.last().unwrap().clone();
        case.data_length -= 1;
        case.groups = vec![1, 0, 2];
        cases.push(case);
    }
    cases
}

/// Words given to a unit after reset, with a log of so many entries.
fn fed(model: Model, entries: u64, words: &[u32]) -> Case {
    let mut maker = Maker::with(&Unit::reset(model), entries, 0);
    maker.words(words);
    maker.finish()
}

/// The bench points of UNPACK; where a MARK comes last, it shows that the payload has ended.
fn unpack_points(model: Model) -> Vec<Case> {
    let one = stcycl(1, 1);
    let s_8 = |imm| code_word(0x62, 1, imm);
    let s_32 = |num| code_word(0x60, num, 0);
    let mark = code_word(0x07, 0, 0x1234);
    let v3_8 = [0x8382_8180, 0x0786_0584, 0x8B0A_8908, 0xFF8E_0D8C];
    let v4_32: Vec<u32> = (0..1_024).map(|i| 0xC0DE_0000 + i).collect();
    let row = [
        code_word(0x30, 0, 0),
        u32::MAX,
        u32::MAX,
        u32::MAX,
        u32::MAX,
    ];
    let points: [&[&[u32]]; 7] = [
        // S-8 byte FF, then with USN.
        &[&[one, s_8(0), 0xFF, s_8(0x4001), 0xFF]],
        // V3-8, NUM 5: 4 words.
        &[&[one, code_word(0x6A, 5, 0)], &v3_8, &[mark]],
        // V4-32, NUM 0: 1,024 words.
        &[&[one, code_word(0x6C, 0, 0x3F0)], &v4_32, &[mark]],
        // V4-5 FFFF.
        &[&[one, code_word(0x6F, 1, 0), 0xFFFF]],
        // MODE 2, ROW FFFFFFFF, data 2.
        &[&[one, code_word(0x05, 0, 2)], &row, &[s_32(1), 2]],
        // CL 4, WL 2, NUM 4, A 0: 0, 1, 4, 5.
        &[&[stcycl(4, 2), s_32(4), 1, 2, 3, 4]],
        // CL 2, WL 3, NUM 4: accepted, three vectors.
        &[&[stcycl(2, 3), s_32(4), 1, 2, 3, mark]],
    ];
    let cases = points.iter().map(|words| fed(model, 0, &words.concat()));
    cases.collect()
}

/// MSCAL moves TOP, DBF and TOPS; the third has no room.
fn two_starts(model: Model) -> Case {
    fed(
        model,
        2,
        &[
            code_word(0x03, 0, 1_000),
            code_word(0x02, 0, 100),
            code_word(0x04, 0, 7),
            code_word(0x14, 0, 0xFFFF),
            code_word(0x04, 0, 8),
            code_word(0x17, 0, 0xFFFF),
            code_word(0x04, 0, 9),
            code_word(0x15, 0, 5),
        ],
    )
}

/// A block in which STMASK waits with so many words due, among words that mean nothing.
pub fn stmask_block(due: u32) -> UnitBlock {
    let mut block = RESET_UNIT;
    block[unit_word::WAITING] = state_block::STMASK;
    block[unit_word::DUE] = due;
    block[first_unused(state_block::STMASK)..].fill(7);
    block
}

fn add_edge_cases(random: &mut Random, model: Model, cases: &mut Vec<Case>) {
    add_length_cases(random, model, cases);
    add_path_cases(random, model, cases);
    add_field_cases(random, model, cases);
    add_waiting_cases(random, model, cases);
    add_command_cases(random, model, cases);
    add_unpack_cases(random, model, cases);
    add_tops_cases(random, model, cases);
    add_cycle_cases(random, model, cases);
    add_long_cases(random, model, cases);
    add_upload_cases(random, model, cases);
    if model == Model::Vif1 {
        add_direct_cases(random, cases);
        add_packet_cases(random, cases);
    }
    add_call_cases(random, model, cases);
}

/// A case of a few words, whatever its blocks are.
fn short_case(random: &mut Random, mut case: Case) -> Case {
    case.number = random.below(4) as u32;
    let mut maker = Maker::new(case);
    for _ in 0..random.within(1..=3) {
        if maker.wants_quadword() {
            maker.quadword(0);
        } else {
            let word = if random.percent(50) {
                0
            } else {
                payload_word(random)
            };
            maker.word(word);
        }
    }
    maker.finish_in_groups(random)
}

/// Each length from both sides, and several inputs wrong at once.
fn add_length_cases(random: &mut Random, model: Model, cases: &mut Vec<Case>) {
    let case = plain_case(model, RESET_UNIT, 4, 0);
    let ((data, code), (other_data, other_code)) = (lengths(model), lengths(model.other()));
    for data_length in [0, 1, data - 4, data - 1, data + 1, other_data, MOST_DATA] {
        let case = Case {
            data_length,
            ..case.clone()
        };
        cases.push(short_case(random, case));
    }
    let near = [code - 4, code - 1, code + 1, code + 4];
    for code_length in [&near[..], &[0, 1, other_code, MOST_CODE]].concat() {
        let case = Case {
            code_length,
            ..case.clone()
        };
        cases.push(short_case(random, case));
    }
    // The memories of the other unit.
    let lent = Case {
        data_length: other_data,
        code_length: other_code,
        ..case.clone()
    };
    cases.push(short_case(random, lent));
    for (log_length, used) in edge_logs() {
        let mut maker = Maker::new(Case {
            log_length,
            used,
            ..case.clone()
        });
        maker.words(&[code_word(0x14, 0, 3), code_word(0x17, 0, 3), 0, 0]);
        cases.push(maker.finish());
    }
    for wrong in 0..64 {
        let mut case = case.clone();
        spoil_case(random, &mut case, wrong);
        cases.push(short_case(random, case));
    }
}

/// Makes wrong what the bits 0 to 5 say: data memory, code memory, entries used, a register, the
/// path's range, a block that exists in no unit or path.
fn spoil_case(random: &mut Random, case: &mut Case, wrong: u32) {
    let bit = |i: u32| wrong >> i & 1 == 1;
    let (data, code) = lengths(case.model);
    if bit(0) {
        case.data_length = random.pick(&[data - 1, data + 1]);
    }
    if bit(1) {
        case.code_length = random.pick(&[code - 1, code + 1]);
    }
    if bit(2) {
        case.used = 5;
    }
    if bit(3) {
        case.unit[unit_word::MODE] = 3;
    }
    if bit(4) {
        case.path = random_out_of_range_block(random);
    }
    if bit(5) {
        match random.below(2) {
            0 => case.unit[unit_word::DBF] = 2,
            _ => case.path = random_no_path_block(random),
        }
    }
}

/// Paths out of range and in no path, beside a good unit.
fn add_path_cases(random: &mut Random, model: Model, cases: &mut Vec<Case>) {
    for _ in 0..20 {
        for path in [
            random_held_block(random),
            random_out_of_range_block(random),
            random_no_path_block(random),
        ] {
            let unit = random_waiting_unit(random, model);
            let mut case = plain_case(model, write_unit(&unit), 4, 0);
            // Words that mean nothing are kept beside a path that is none.
            case.unit[UNIT_WORDS - 1] = random.word();
            case.path = path;
            cases.push(short_case(random, case));
        }
    }
}

/// Each field of the unit block at its limits and just outside.
fn add_field_cases(random: &mut Random, model: Model, cases: &mut Vec<Case>) {
    for field in 0..unit_word::LIMITED {
        let limit = limit(model, field);
        let any = random.word() % 1_000;
        let values = [limit, limit + 1, limit + 1 + any, u32::MAX];
        let blocks = values.map(|value| changed(&RESET_UNIT, &[(field, value)]));
        add_blocks(random, model, cases, &blocks);
    }
    for code in [8, 9, 15, 256, 257, u32::MAX] {
        let unit = write_unit(&random_unit(random, model));
        let block = changed(&unit, &[(unit_word::WAITING, code)]);
        add_blocks(random, model, cases, &[block]);
    }
    let unused: Vec<UnitBlock> = (state_block::NONE..state_block::UNPACK)
        .map(block_with_unused)
        .collect();
    add_blocks(random, model, cases, &unused);
    for payload in some_payloads(random, model) {
        let blocks = payload_blocks(random, model, payload);
        add_blocks(random, model, cases, &blocks);
    }
    for format in all_formats() {
        let blocks = filling_blocks(random, model, format);
        add_blocks(random, model, cases, &blocks);
    }
}

fn add_blocks(random: &mut Random, model: Model, cases: &mut Vec<Case>, blocks: &[UnitBlock]) {
    for &block in blocks {
        let case = plain_case(model, block, 4, 0);
        cases.push(short_case(random, case));
    }
}

/// A block with some words changed.
fn changed(block: &UnitBlock, changes: &[(usize, u32)]) -> UnitBlock {
    let mut block = *block;
    for &(field, value) in changes {
        block[field] = value;
    }
    block
}

/// A block in which every word that means nothing for what waits is the greatest.
fn block_with_unused(waiting: u32) -> UnitBlock {
    let mut block = RESET_UNIT;
    block[unit_word::WAITING] = waiting;
    block[unit_word::INTERRUPT] = 1;
    block[unit_word::DUE] = 1;
    block[unit_word::ADDRESS] = MPG_ADDRESSES - 1;
    block[unit_word::COUNT] = MOST_NUM;
    block[first_unused(waiting)..].fill(u32::MAX);
    block
}

/// Blocks in which a payload waits, right but for a field at or over its limits.
fn payload_blocks(random: &mut Random, model: Model, payload: Payload) -> Vec<UnitBlock> {
    let mut unit = random_unit(random, model);
    set_cycle(&mut unit.registers, cycle_with_payload(random));
    let all = payload.all_units(&unit.registers);
    unit.waiting = Some(Waiting {
        payload,
        interrupt: random.percent(50),
        due: all,
    });
    let mut changes: Vec<Vec<(usize, u32)>> = Vec::new();
    for due in [0, 1, all, all + 1, u32::MAX] {
        changes.push(vec![(unit_word::DUE, due)]);
    }
    for interrupt in [2, u32::MAX] {
        changes.push(vec![(unit_word::INTERRUPT, interrupt)]);
    }
    let addresses = match payload {
        Payload::Mpg(_) => MPG_ADDRESSES,
        Payload::Unpack(_) => ADDRESSES,
        _ => 0,
    };
    if addresses > 0 {
        add_counted_changes(&mut changes, addresses);
    }
    if let Payload::Unpack(_) = payload {
        add_unpack_changes(&mut changes);
    }
    let good = write_unit(&unit);
    changes.iter().map(|list| changed(&good, list)).collect()
}

/// Addresses and counts at their limits, with one word due.
fn add_counted_changes(changes: &mut Vec<Vec<(usize, u32)>>, addresses: u32) {
    let mut add = |field, value| changes.push(vec![(field, value), (unit_word::DUE, 1)]);
    for address in [addresses - 1, addresses, u32::MAX] {
        add(unit_word::ADDRESS, address);
    }
    for count in [0, MOST_NUM, MOST_NUM + 1, 1 << 31, u32::MAX] {
        add(unit_word::COUNT, count);
    }
}

/// The fields that only UNPACK has, and the CL and WL beside it.
fn add_unpack_changes(changes: &mut Vec<Vec<(usize, u32)>>) {
    for format in [3, 7, 11, 16, 19, u32::MAX] {
        changes.push(vec![(unit_word::FORMAT, format), (unit_word::DUE, 1)]);
    }
    for field in [unit_word::USN, unit_word::M] {
        changes.push(vec![(field, 2)]);
        changes.push(vec![(field, u32::MAX)]);
    }
    for (cl, wl) in [
        (0, 0),
        (5, 0),
        (0, 1),
        (0, 255),
        (1, 255),
        (5, 6),
        (6, 6),
        (254, 255),
        (255, 255),
        (255, 1),
    ] {
        let due = (unit_word::DUE, 1);
        changes.push(vec![(unit_word::CL, cl), (unit_word::WL, wl), due]);
    }
}

/// Blocks in which an UNPACK waits beside a WL above CL, with the words due at the limits that
/// its vectors set, and at those that as many vectors as writes would set.
fn filling_blocks(random: &mut Random, model: Model, format: Format) -> Vec<UnitBlock> {
    let mut blocks = Vec::new();
    for (cl, wl) in [(1, 2), (2, 3), (3, 5), (1, 255), (254, 255)] {
        let count = random.pick(&[2, 3, 7, 12, 255, 256]);
        let unpack = random_unpack(random, model, format, count);
        let mut unit = random_unit(random, model);
        set_cycle(&mut unit.registers, stcycl(cl, wl));
        let all = unpack.all_words(unit.registers.cycle());
        let plain = format.words_of(count);
        for due in [1, all, all + 1, plain, plain + 1] {
            unit.waiting = Some(Waiting {
                payload: Payload::Unpack(unpack),
                interrupt: random.percent(50),
                due,
            });
            blocks.push(write_unit(&unit));
        }
    }
    blocks
}

/// Each kind of payload, UNPACK in each format.
fn some_payloads(random: &mut Random, model: Model) -> Vec<Payload> {
    let mut payloads = vec![
        Payload::Stmask,
        Payload::Strow,
        Payload::Stcol,
        Payload::Mpg(random_mpg(random, model, 4)),
        Payload::Direct,
        Payload::Directhl,
    ];
    for format in all_formats() {
        let count = random.within(1..=7) as u32;
        let unpack = random_unpack(random, model, format, count);
        payloads.push(Payload::Unpack(unpack));
    }
    payloads
}

/// Each waiting code with each number of units due, run to its end.
fn add_waiting_cases(random: &mut Random, model: Model, cases: &mut Vec<Case>) {
    let mut payloads = vec![Payload::Stmask, Payload::Strow, Payload::Stcol];
    for count in [1, 2, 5] {
        let end = near_end(random, model.sizes().instructions, MPG_ADDRESSES, 2);
        let address = random.pick(&[0, end, end]);
        payloads.push(Payload::Mpg(Mpg { address, count }));
    }
    for payload in payloads {
        let cycle = legal_cycle(random);
        add_each_due(random, model, cases, payload, cycle);
    }
    for format in all_formats() {
        for count in [1, 2, 3, 5] {
            for cycle in [skipping_cycle(random), filling_cycle(random)] {
                let unpack = random_unpack(random, model, format, count);
                add_each_due(random, model, cases, Payload::Unpack(unpack), cycle);
            }
        }
    }
    if model == Model::Vif1 {
        add_waiting_direct_cases(random, cases);
    }
}

fn add_waiting_direct_cases(random: &mut Random, cases: &mut Vec<Case>) {
    for payload in [Payload::Direct, Payload::Directhl] {
        for due in [1, 2, 3, MOST_DIRECT] {
            for number in 0..4 {
                let mut unit = random_unit(random, Model::Vif1);
                unit.waiting = Some(Waiting {
                    payload,
                    interrupt: random.percent(50),
                    due,
                });
                add_waiting_case(random, cases, &unit, number);
            }
        }
    }
}

/// A payload under this STCYCL with each number of words due.
fn add_each_due(
    random: &mut Random,
    model: Model,
    cases: &mut Vec<Case>,
    payload: Payload,
    cycle: u32,
) {
    let mut unit = random_unit(random, model);
    set_cycle(&mut unit.registers, cycle);
    for due in 1..=payload.all_units(&unit.registers) {
        unit.waiting = Some(Waiting {
            payload,
            interrupt: random.percent(50),
            due,
        });
        let number = random.below(4) as u32;
        add_waiting_case(random, cases, &unit, number);
    }
}

fn add_waiting_case(random: &mut Random, cases: &mut Vec<Case>, unit: &Unit, number: u32) {
    let mut maker = Maker::with(unit, 16, number);
    maker.run_out(random, 60);
    maker.word(code_word(0x07, 0, 0x4321));
    cases.push(maker.finish_in_groups(random));
}

/// Every CMD with bit 31 clear and set, with its payload.
fn add_command_cases(random: &mut Random, model: Model, cases: &mut Vec<Case>) {
    for interrupt in 0..2 {
        for (cl, wl) in [(1, 1), (7, 5), (1, 0), (0, 0), (3, 4), (0, 4)] {
            let cycle = stcycl(cl, wl);
            let mut maker = Maker::with(&random_unit(random, model), 32, 0);
            for command in 0..128 {
                maker.word(cycle);
                let num = random.within(1..=5) as u32;
                let imm = match command {
                    0x01 => cycle & 0xFFFF,
                    0x50 | 0x51 => random.within(1..=3) as u32,
                    _ => random.word() & 0xFFFF,
                };
                maker.word(interrupt << 31 | code_word(command, num, imm));
                maker.run_out(random, 100);
            }
            cases.push(maker.finish_in_groups(random));
        }
    }
}

/// Every format with every M, USN and MODE, under CL and WL of each kind.
fn add_unpack_cases(random: &mut Random, model: Model, cases: &mut Vec<Case>) {
    for format in all_formats() {
        for mode in 0..3 {
            for flags in 0..4 {
                let mut maker = Maker::with(&random_unit(random, model), 0, 0);
                for cycle in [
                    skipping_cycle(random),
                    filling_cycle(random),
                    cycle_without_payload(random),
                ] {
                    let num = random.pick(&[1, 2, 3, 4, 5, 7, 9, 13]);
                    give_modes(random, &mut maker, cycle, mode);
                    maker.word(unpack_word(random, model, format, flags, num));
                    maker.run_out(random, 100);
                }
                cases.push(maker.finish_in_groups(random));
            }
        }
    }
}

/// UNPACK with and without TOPS, in a format and with WL that are right or refused.
fn add_tops_cases(random: &mut Random, model: Model, cases: &mut Vec<Case>) {
    for (cl, wl) in [(1, 1), (3, 2), (2, 3), (0, 3), (0, 0), (5, 0)] {
        for command in [0x60, 0x6C, 0x7F, 0x63, 0x77, 0x7B] {
            let mut maker = Maker::with(&random_unit(random, model), 0, 0);
            maker.word(stcycl(cl, wl));
            for bits in [0x8000, 0xC000, 0, 0x4000] {
                let interrupt = (random.percent(40) as u32) << 31;
                let address = random.word() % ADDRESSES;
                maker.word(interrupt | code_word(command, 2, bits | address));
                maker.run_out(random, 20);
            }
            cases.push(maker.finish_in_groups(random));
        }
    }
}

/// STCYCL, STMOD and STMASK with a mask by chance.
fn give_modes(random: &mut Random, maker: &mut Maker, cycle: u32, mode: u32) {
    maker.words(&[cycle, code_word(0x05, 0, mode), code_word(0x20, 0, 0)]);
    let mask = random_mask(random);
    maker.word(mask);
}

/// CL and WL of every relation, each with NUM that ends at several places of a cycle.
fn add_cycle_cases(random: &mut Random, model: Model, cases: &mut Vec<Case>) {
    for (cl, wl) in [
        (0, 1),
        (0, 3),
        (0, 255),
        (1, 1),
        (1, 2),
        (1, 5),
        (1, 255),
        (2, 3),
        (3, 4),
        (3, 8),
        (4, 4),
        (7, 5),
        (254, 255),
        (255, 255),
        (255, 254),
        (255, 1),
    ] {
        for num in [1, cl, cl + 1, wl, wl + 1, 2 * wl - 1, 2 * wl, 0] {
            if num < MOST_NUM {
                add_cycle_case(random, model, cases, stcycl(cl, wl), num);
            }
        }
    }
}

/// An UNPACK under this STCYCL, run to its end; MARK shows that it ended.
fn add_cycle_case(random: &mut Random, model: Model, cases: &mut Vec<Case>, cycle: u32, num: u32) {
    let format = random.pick(&all_formats());
    let mode = random.below(3) as u32;
    let flags = random.below(4) as u32;
    let interrupt = (random.percent(50) as u32) << 31;
    let mut maker = Maker::with(&random_unit(random, model), 0, random.below(4) as u32);
    give_modes(random, &mut maker, cycle, mode);
    maker.word(interrupt | unpack_word(random, model, format, flags, num));
    maker.run_out(random, 1_024);
    maker.word(code_word(0x07, 0, 0x2345));
    cases.push(maker.finish_in_groups(random));
}

/// An UNPACK code: M is bit 0 of the flags, USN bit 1.
fn unpack_word(random: &mut Random, model: Model, format: Format, flags: u32, num: u32) -> u32 {
    let command = 0x60 | format.number() | (flags & 1) << 4;
    let end = near_end(random, model.sizes().quadwords, ADDRESSES, 12);
    let any = random.word() % ADDRESSES;
    let address = random.pick(&[0, any, any, end]);
    // The unused bits are free, and the one that adds TOPS where the unit has it.
    let free = if model.has_tops() { 0xBC00 } else { 0x3C00 };
    let rest = random.word() & free;
    code_word(command, num, address | rest | (flags >> 1) << 14)
}

/// An address of so many, at most a few before one from which a memory of this size starts again.
fn near_end(random: &mut Random, size: u32, addresses: u32, few: u64) -> u32 {
    let rounds = random.within(1..=(addresses / size) as u64) as u32;
    rounds * size - random.within(1..=few) as u32
}

/// MPG and every format of UNPACK with NUM 0.
fn add_long_cases(random: &mut Random, model: Model, cases: &mut Vec<Case>) {
    let mut maker = Maker::with(&random_unit(random, model), 0, 1);
    let address = random.word() & 0xFFFF;
    maker.word(code_word(0x4A, 0, address));
    maker.run_out(random, 512);
    maker.word(code_word(0x07, 0, 0x2345));
    cases.push(maker.finish_in_groups(random));
    for format in all_formats() {
        for cycle in [skipping_cycle(random), filling_cycle(random)] {
            let mut maker = Maker::with(&random_unit(random, model), 0, 0);
            let mode = random.pick(&[1, 2, 2]);
            give_modes(random, &mut maker, cycle, mode);
            let flags = random.below(4) as u32;
            maker.word(unpack_word(random, model, format, flags, 0));
            maker.run_out(random, 1_024);
            maker.word(code_word(0x07, 0, 0x2345));
            cases.push(maker.finish_in_groups(random));
        }
    }
}

/// MPG in each word, cut before and after its first payload word; where that is refused, the next
/// word is the first. Then MPG from blocks, in each word with each number of words due.
fn add_upload_cases(random: &mut Random, model: Model, cases: &mut Vec<Case>) {
    for number in 0..4 {
        for num in [1, 2, 5, 0] {
            for after in 0..3 {
                let interrupt = (random.percent(50) as u32) << 31;
                let address = random.word() & 0xFFFF;
                let mut maker = Maker::with(&random_unit(random, model), 0, number);
                maker.word(interrupt | code_word(0x4A, num, address));
                let code = maker.calls;
                maker.run_out(random, 513);
                maker.word(code_word(0x07, 0, 0x2345));
                cases.push(maker.finish_cut(code + after));
            }
        }
        for due in 1..=4 {
            let unit = upload_waits(random, model, due);
            add_waiting_case(random, cases, &unit, number);
        }
    }
}

/// A unit in which an MPG of two instructions waits with so many words due.
fn upload_waits(random: &mut Random, model: Model, due: u32) -> Unit {
    let mpg = random_mpg(random, model, 1);
    Unit {
        waiting: Some(Waiting {
            payload: Payload::Mpg(Mpg { count: 2, ..mpg }),
            interrupt: random.percent(50),
            due,
        }),
        ..random_unit(random, model)
    }
}

/// DIRECT in each word, with each kind of tag, refused in each way.
fn add_direct_cases(random: &mut Random, cases: &mut Vec<Case>) {
    for command in [0x50, 0x51] {
        for number in 0..4 {
            for imm in [0, 1, 2] {
                let interrupt = random.below(2) as u32;
                let mut maker = Maker::with(&random_unit(random, Model::Vif1), 8, 0);
                maker.pad(number);
                maker.word(interrupt << 31 | code_word(command, 0, imm));
                while !maker.wants_quadword() {
                    maker.word(random.word());
                }
                maker.run_out(random, 3);
                cases.push(maker.finish_in_groups(random));
            }
        }
        // PRE, PACKED, REGLIST and IMAGE without room, and descriptor B.
        let tags = [
            tag_quadword(1, 0, 1, 0xE) | PRE,
            tag_quadword(1, 0, 1, 0xE),
            tag_quadword(1, 1, 2, 0x21),
            tag_quadword(1, 2, 1, 0),
            tag_quadword(1, 0, 1, 0xB),
            tag_quadword(1, 1, 2, 0xB1),
        ];
        for tag in tags {
            for free in 0..3 {
                let mut case = plain_case(Model::Vif1, RESET_UNIT, 4, 3);
                case.used = 4 - free;
                let mut maker = Maker::new(case);
                maker.word(code_word(command, 0, 2));
                maker.quadword(tag);
                maker.quadword(random.quadword());
                cases.push(maker.finish_in_groups(random));
            }
        }
    }
}

/// A packet begun in one DIRECT or DIRECTHL and closed in another, each of which may end with an
/// interrupt; then a packet of which a block holds all but the last quadword.
fn add_packet_cases(random: &mut Random, cases: &mut Vec<Case>) {
    for codes in 0..4 {
        for quadwords in 1..4 {
            let mut maker = Maker::with(&random_unit(random, Model::Vif1), 4, 3);
            let mut give = |maker: &mut Maker, command: u32, given: &[u128]| {
                maker.pad(3);
                let interrupt = (random.percent(50) as u32) << 31;
                maker.word(interrupt | code_word(command, 0, given.len() as u32));
                given.iter().for_each(|&quadword| {
                    maker.quadword(quadword);
                });
            };
            let packet = [tag_quadword(3, 0, 1, 0xE) | EOP, 1, 2, 3];
            let (first, second) = packet.split_at(quadwords);
            give(&mut maker, 0x50 | codes & 1, first);
            give(&mut maker, 0x50 | codes >> 1, second);
            let calls = maker.calls;
            cases.push(maker.finish_cut(calls - quadwords as u32));
        }
    }
    for payload in [Payload::Direct, Payload::Directhl] {
        for due in 1..=2 {
            let unit = Unit {
                waiting: Some(Waiting {
                    payload,
                    interrupt: random.percent(50),
                    due,
                }),
                ..random_unit(random, Model::Vif1)
            };
            let mut case = plain_case(Model::Vif1, write_unit(&unit), 4, 0);
            case.path = last_due();
            let mut maker = Maker::new(case);
            maker.run_out(random, due);
            cases.push(maker.finish_in_groups(random));
        }
    }
}

/// A path with the last quadword due of a tag with EOP.
fn last_due() -> PathBlock {
    write_path(&Path {
        q: 0,
        place: Place::Data {
            tag: Tag::decode(tag_quadword(7, 2, 1, 0) | EOP),
            due: 1,
        },
    })
}

/// MSCAL, MSCALF and MSCNT with a log that has room for three more, and MSCNT again.
fn add_call_cases(random: &mut Random, model: Model, cases: &mut Vec<Case>) {
    for free in 0..4 {
        let unit = write_unit(&random_unit(random, model));
        let mut case = plain_case(model, unit, 20, 0);
        case.used = 20 - free;
        let mut maker = Maker::new(case);
        for command in [0x14, 0x15, 0x17, 0x17] {
            let (num, imm) = (random.word() & 255, random.word() & 0xFFFF);
            maker.word(code_word(command, num, imm));
            maker.word(code_word(0x04, 0, imm));
            maker.word(code_word(
                random.pick(&[0x02, 0x03, 0x07]),
                0,
                random.word() & 0xFFFF,
            ));
        }
        cases.push(maker.finish_in_groups(random));
    }
}

/// A random case of at most about `left` words.
fn random_case(random: &mut Random, left: u64) -> Case {
    let wanted = match random.below(20) {
        0 => random.below(3),
        1..=8 => random.within(1..=40),
        9..=15 => random.within(20..=160),
        16..=18 => random.within(100..=600),
        _ => random.within(500..=3_000),
    };
    let (mut log_length, used) = random_log(random);
    if wanted > 100 && used < 20 && log_length <= log::length(600) && random.percent(60) {
        log_length = log::length(random.within(100..=1_000));
    }
    let model = random.pick(&[Model::Vif0, Model::Vif1, Model::Vif1]);
    let mut case = Case {
        log_length,
        used,
        fill: random.number(),
        unit: random_unit_block(random, model),
        path: random_path_block(random),
        ..plain_case(model, RESET_UNIT, 0, random.below(4) as u32)
    };
    if random.percent(4) {
        spoil_lengths(random, &mut case);
    }
    let mut maker = Maker::new(case);
    fill_case(random, &mut maker, wanted.min(left.max(1)));
    maker.finish_loosely(random)
}

fn spoil_lengths(random: &mut Random, case: &mut Case) {
    let (data, code) = lengths(case.model);
    if random.percent(60) {
        case.data_length = random.pick(&[0, 1, data / 4, data - 4, data - 1, data + 1, MOST_DATA]);
    }
    if random.percent(60) {
        case.code_length = random.pick(&[0, 4, code / 8, code - 1, code + 1, code + 7, MOST_CODE]);
    }
}

/// Gives the case its words, fitted to where the unit stands at each.
fn fill_case(random: &mut Random, maker: &mut Maker, wanted: u64) {
    let taste = Taste::new(random);
    let mut left = wanted as i64;
    while left > 0 {
        let before = maker.case.words.len();
        let answer = if maker.wants_quadword() {
            let quadword = random_quadword(random, maker, taste.b_percent);
            maker.quadword(quadword)
        } else {
            let word = random_word(random, maker, &taste);
            maker.word(word)
        };
        left -= (maker.case.words.len() - before) as i64;
        match answer.saturating_sub(REFUSED) {
            refusals::DATA..=refusals::RANGE => left = left.min(random.below(3) as i64),
            refusals::DESCRIPTOR | refusals::ROOM if maker.waits_for_quadwords() => {
                left = left.min(random.below(9) as i64);
            }
            _ => {}
        }
    }
}

/// What a case has more or less of.
pub struct Taste {
    pub interrupt_percent: u64,
    pub illegal_percent: u64,
    pub b_percent: u64,
    pub unpack_percent: u64,
    pub long_percent: u64,
}

impl Taste {
    fn new(random: &mut Random) -> Taste {
        Taste {
            interrupt_percent: random.pick(&[0, 10, 10, 40]),
            illegal_percent: random.pick(&[0, 1, 4]),
            b_percent: random.pick(&[0, 0, 0, 0, 12]),
            unpack_percent: random.pick(&[15, 40, 60]),
            long_percent: random.pick(&[0, 0, 0, 5]),
        }
    }
}

/// The next word: a code, or a word of payload.
fn random_word(random: &mut Random, maker: &Maker, taste: &Taste) -> u32 {
    let number = maker.number();
    match maker.unit() {
        Some(unit) if unit.waiting.is_none() => {
            let interrupt = random.percent(taste.interrupt_percent) as u32;
            interrupt << 31 | random_code(random, unit, number, taste)
        }
        Some(unit) => match unit.waiting.unwrap().payload {
            Payload::Stmask => random_mask(random),
            _ => payload_word(random),
        },
        None => random.word(),
    }
}

/// A code with its bit 31 clear, for a unit in which none waits.
pub fn random_code(random: &mut Random, unit: &Unit, number: u32, taste: &Taste) -> u32 {
    if random.percent(taste.illegal_percent) {
        return illegal_code(random, unit.model);
    }
    loop {
        let word = legal_code(random, unit, number, taste);
        if unit.model.has(command_of(word)) {
            return word;
        }
    }
}

/// A code that VIF1 has.
fn legal_code(random: &mut Random, unit: &Unit, number: u32, taste: &Taste) -> u32 {
    let imm = random.word() & 0xFFFF;
    let num = random.word() & 0xFF;
    let direct_percent = if number == 3 { 30 } else { 1 };
    if random.percent(direct_percent) {
        return random_direct(random);
    }
    if random.percent(taste.unpack_percent) {
        return random_unpack_code(random, unit, taste);
    }
    let kinds = if goes_up(random, number) { 26 } else { 22 };
    match random.below(kinds) {
        0 => code_word(0x00, num, imm),
        1..=3 => random_cycle(random) | num << 16,
        4..=5 => code_word(0x02, num, imm),
        6..=7 => code_word(0x03, num, imm),
        8 => code_word(0x04, num, imm),
        9..=11 => {
            let mode = random.pick(&[0, 1, 1, 2, 2, 2]);
            code_word(0x05, num, imm & !3 | mode)
        }
        12 => code_word(0x06, num, imm),
        13 => code_word(0x07, num, imm),
        14 => code_word(random.pick(&[0x10, 0x11, 0x13]), num, imm),
        15..=17 => code_word(random.pick(&[0x14, 0x15, 0x17]), num, imm),
        18..=19 => code_word(0x20, num, imm),
        20 => code_word(0x30, num, imm),
        21 => code_word(0x31, num, imm),
        _ => mpg_code(random, unit.model, taste),
    }
}

fn mpg_code(random: &mut Random, model: Model, taste: &Taste) -> u32 {
    let mpg = random_mpg(random, model, 6);
    let num = if random.percent(taste.long_percent) {
        let any = random.word() & 0xFF;
        random.pick(&[0, any])
    } else {
        mpg.count
    };
    code_word(0x4A, num, mpg.address | random.word() & 0xF800)
}

/// Whether the word with this number may be an MPG: mostly where the first word of its payload is
/// taken.
fn goes_up(random: &mut Random, number: u32) -> bool {
    number % 2 == 1 || random.percent(8)
}

/// A code that is refused with 20, 21 or 23; on VIF0 with 26 too, where not with 22.
pub fn illegal_code(random: &mut Random, model: Model) -> u32 {
    let rest = random.word() & 0x00FF_FFFF;
    match random.below(if model.has_tops() { 6 } else { 8 }) {
        0 => code_word(0x05, 0, 0) | rest | 3,
        1 => {
            let command = random.pick(&[0x63, 0x67, 0x6B, 0x73, 0x77, 0x7B]);
            code_word(command, 0, 0) | rest
        }
        6.. => {
            let format = random.pick(&all_formats());
            let flags = random.below(4) as u32;
            0x8000 | unpack_word(random, model, format, flags, rest >> 16)
        }
        _ => loop {
            let near = random.pick(&[0x08, 0x12, 0x16, 0x21, 0x32, 0x4B, 0x49, 0x52, 0x5F, 0x0A]);
            let any = random.below(128) as u32;
            let missing = random.pick(&ONLY_VIF1);
            let word = code_word(random.pick(&[near, any, missing]), 0, 0) | rest;
            if Code::decode(model, word) == Err(refusals::COMMAND) {
                return word;
            }
        },
    }
}

fn random_direct(random: &mut Random) -> u32 {
    let quadwords = match random.below(20) {
        0 => 0,
        1 => random.word() & 0xFFFF,
        2..=8 => 1,
        9..=16 => random.within(2..=6) as u32,
        _ => random.within(1..=40) as u32,
    };
    let num = random.word() & 0xFF;
    code_word(random.pick(&[0x50, 0x51]), num, quadwords)
}

/// An UNPACK, or mostly STCYCL where the held CL and WL allow none.
fn random_unpack_code(random: &mut Random, unit: &Unit, taste: &Taste) -> u32 {
    if !unit.registers.cycle().is_legal() && random.percent(80) {
        return legal_cycle(random);
    }
    let formats = all_formats();
    let format = random.pick(&formats);
    let num = if random.percent(taste.long_percent) {
        random.pick(&[0, 0, 255, 128]).min(random.word() & 0xFF)
    } else {
        random_num(random)
    };
    let flags = random.below(4) as u32;
    unpack_word(random, unit.model, format, flags, num)
}

fn random_num(random: &mut Random) -> u32 {
    match random.below(30) {
        0..=24 => random.within(1..=9) as u32,
        25..=28 => random.within(1..=24) as u32,
        _ => random.within(1..=100) as u32,
    }
}

fn random_mpg(random: &mut Random, model: Model, most: u64) -> Mpg {
    let any = random.word() % MPG_ADDRESSES;
    let end = near_end(random, model.sizes().instructions, MPG_ADDRESSES, 4);
    Mpg {
        address: random.pick(&[any, any, 0, end]),
        count: random.within(1..=most) as u32,
    }
}

/// An UNPACK under way, with held words that no run need have left.
fn random_unpack(random: &mut Random, model: Model, format: Format, count: u32) -> Unpack {
    let any = random.word() % ADDRESSES;
    let end = near_end(random, model.sizes().quadwords, ADDRESSES, 6);
    Unpack {
        format,
        masked: random.percent(50),
        unsigned: random.percent(50),
        address: random.pick(&[any, 0, end]),
        count,
        held: std::array::from_fn(|_| payload_word(random)),
    }
}

/// STCYCL with WL up to CL.
pub fn skipping_cycle(random: &mut Random) -> u32 {
    let small = random.within(1..=9) as u32;
    let any = random.within(1..=255) as u32;
    let (cl, wl) = match random.below(12) {
        0..=1 => (1, 1),
        2..=3 => (small, small),
        4 => (any, any),
        5..=6 => (small + random.within(1..=6) as u32, small),
        7 => (any, 1),
        8 => (any, random.within(1..=any as u64) as u32),
        9 => (255, random.pick(&[1, 2, 3, 4, 5, 254, 255])),
        10 => (random.within(5..=12) as u32, 5),
        _ => (4, random.within(1..=4) as u32),
    };
    stcycl(cl, wl)
}

/// STCYCL with WL above CL, which is not 0.
pub fn filling_cycle(random: &mut Random) -> u32 {
    let small = random.within(1..=5) as u32;
    let any = random.within(1..=254) as u32;
    let (cl, wl) = match random.below(10) {
        0..=1 => (1, 2),
        2 => (2, 3),
        3..=5 => (small, small + random.within(1..=6) as u32),
        6 => (any, random.within(any as u64 + 1..=255) as u32),
        7 => (1, random.pick(&[4, 5, 255])),
        8 => (254, 255),
        _ => (small, 255),
    };
    stcycl(cl, wl)
}

/// STCYCL with CL 0, under which UNPACK is accepted without payload.
fn cycle_without_payload(random: &mut Random) -> u32 {
    let any = random.within(1..=255) as u32;
    stcycl(0, random.pick(&[1, 2, 3, 4, 5, 255, any]))
}

/// STCYCL under which UNPACK waits for payload.
fn cycle_with_payload(random: &mut Random) -> u32 {
    if random.percent(35) {
        filling_cycle(random)
    } else {
        skipping_cycle(random)
    }
}

/// STCYCL with CL and WL that UNPACK accepts.
pub fn legal_cycle(random: &mut Random) -> u32 {
    if random.percent(5) {
        cycle_without_payload(random)
    } else {
        cycle_with_payload(random)
    }
}

/// STCYCL with any CL and WL, mostly legal.
fn random_cycle(random: &mut Random) -> u32 {
    let any = random.word() & 0xFF;
    match random.below(25) {
        0 => stcycl(any, 0),
        1 => stcycl(any / 2, any / 2 + 1),
        2 => stcycl(any, random.word() & 0xFF),
        _ => legal_cycle(random),
    }
}

/// Sets CL and WL as a STCYCL does.
fn set_cycle(registers: &mut Registers, cycle: u32) {
    registers.cl = cycle & 0xFF;
    registers.wl = cycle >> 8 & 0xFF;
}

pub fn random_mask(random: &mut Random) -> u32 {
    let code = random.below(4) as u32;
    let any = random.word();
    match random.below(10) {
        // The same code everywhere.
        0 => code * 0x5555_5555,
        // Each row its own code, or each field.
        1 => 0xFFAA_5500u32.rotate_left(8 * code),
        2 => 0xE4E4_E4E4u32.rotate_left(2 * code),
        3 => 0xE493_4E39u32.rotate_left(8 * code),
        // One field of one row.
        4 => code << (2 * random.below(16)),
        _ => any,
    }
}

/// A word of payload, often at the edges of elements.
pub fn payload_word(random: &mut Random) -> u32 {
    let any = random.word();
    match random.below(16) {
        0 => 0,
        1 => u32::MAX,
        2 => 0x8000_7FFF,
        3 => 0x7FFF_8000,
        4 => 0x807F_807F,
        5 => 0x7F80_FF01,
        6 => any & 0x8080_8080,
        7 => 1 << random.below(32),
        _ => any,
    }
}

/// A quadword for path 2: a tag, or data.
fn random_quadword(random: &mut Random, maker: &Maker, b_percent: u64) -> u128 {
    let idle = maker
        .standing
        .both
        .as_ref()
        .is_some_and(|(_, path)| path.place == Place::Idle);
    if idle {
        let with_b = random.percent(b_percent);
        return random_tag(random, with_b);
    }
    match random.below(12) {
        0 => 0,
        1 => u128::MAX,
        _ => random.quadword(),
    }
}

/// A unit in range with nothing waiting.
pub fn random_unit(random: &mut Random, model: Model) -> Unit {
    let mut registers = Registers {
        itops: random.word() % ADDRESSES,
        itop: random.word() % ADDRESSES,
        mode: random.below(3) as u32,
        mark: random.word() & 0xFFFF,
        mask: random_mask(random),
        row: std::array::from_fn(|_| payload_word(random)),
        col: std::array::from_fn(|_| payload_word(random)),
        ..Registers::default()
    };
    if random.percent(85) {
        set_cycle(&mut registers, legal_cycle(random));
    } else {
        registers.cl = random.word() & 0xFF;
        let any = random.word() & 0xFF;
        registers.wl = random.pick(&[0, any, any]);
    }
    if model.has_tops() {
        registers.ofst = random.word() % ADDRESSES;
        registers.base = random.word() % ADDRESSES;
        registers.tops = random.word() % ADDRESSES;
        registers.top = random.word() % ADDRESSES;
        registers.dbf = random.percent(50);
        registers.mskpath3 = random.percent(50);
    }
    Unit {
        model,
        registers,
        waiting: None,
    }
}

/// A unit in range inside the payload of a code.
pub fn random_waiting_unit(random: &mut Random, model: Model) -> Unit {
    let mut unit = random_unit(random, model);
    let num = random_num(random);
    let count = random.pick(&[num, num, num, 256, 255]);
    let payload = match random.below(14) {
        4 | 5 if model == Model::Vif0 => Payload::Stcol,
        0 => Payload::Stmask,
        1 => Payload::Strow,
        2 => Payload::Stcol,
        3 => Payload::Mpg(Mpg {
            count,
            ..random_mpg(random, model, 1)
        }),
        4 => Payload::Direct,
        5 => Payload::Directhl,
        _ => {
            set_cycle(&mut unit.registers, cycle_with_payload(random));
            let formats = all_formats();
            let format = random.pick(&formats);
            Payload::Unpack(random_unpack(random, model, format, count))
        }
    };
    let all = payload.all_units(&unit.registers) as u64;
    let due = match random.below(4) {
        0 => all,
        1 => random.within(1..=all.min(4)),
        2 => random.within(1..=all.min(40)),
        _ => random.within(1..=all),
    };
    unit.waiting = Some(Waiting {
        payload,
        interrupt: random.percent(30),
        due: due as u32,
    });
    unit
}

pub fn random_unit_block(random: &mut Random, model: Model) -> UnitBlock {
    match random.below(100) {
        0..=24 => RESET_UNIT,
        25..=44 => write_unit(&random_unit(random, model)),
        45..=51 => {
            // Words that mean nothing for what waits.
            let mut block = write_unit(&random_waiting_unit(random, model));
            let waiting = block[unit_word::WAITING];
            if waiting == state_block::UNPACK {
                return block;
            }
            for word in &mut block[first_unused(waiting)..] {
                *word = random.word();
            }
            if random.percent(40) {
                block[unit_word::WAITING] = state_block::NONE;
            }
            block
        }
        52..=91 => write_unit(&random_waiting_unit(random, model)),
        92..=97 => random_spoiled_block(random, model),
        _ => std::array::from_fn(|_| random.word()),
    }
}

/// A block in range but for one or two of its words.
fn random_spoiled_block(random: &mut Random, model: Model) -> UnitBlock {
    let mut block = write_unit(&random_waiting_unit(random, model));
    let fields: Vec<usize> = (0..unit_word::LIMITED)
        .chain(unit_word::WAITING..unit_word::HELD)
        .collect();
    for _ in 0..random.within(1..=2) {
        let field = random.pick(&fields);
        let one_more = block[field].wrapping_add(1);
        block[field] = random.pick(&[
            0,
            2,
            3,
            256,
            257,
            1_024,
            2_048,
            65_536,
            65_537,
            u32::MAX,
            one_more,
        ]);
    }
    block
}

pub fn random_path_block(random: &mut Random) -> PathBlock {
    match random.below(100) {
        0..=59 => IDLE_PATH,
        60..=89 => random_held_block(random),
        90..=97 => random_gif_block(random),
        98 => random_out_of_range_block(random),
        _ => random_no_path_block(random),
    }
}
