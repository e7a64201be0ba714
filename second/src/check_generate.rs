//! Check cases from a seed.

use crate::chain::ALLOWANCE_USED;
use crate::check;
use crate::check_cases::{Case, MOST_SHEET};
use crate::check_chains::{laid_out, repeated, supplied, Quad, Stream};
use crate::check_sheets::{
    grouped, held_part, is_entry, narrow, other_body, overlapping, parts, short, short_part, some,
    with_entries, Parts,
};
use crate::comparison;
use crate::group_edges::group_edge_cases;
use crate::group_sheets::{any_tree, nested, sheet_of_tree};
use crate::log;
use crate::memory;
use crate::memory::cases::{MOST_CODE, MOST_DATA, MOST_LOG, MOST_MAIN};
use crate::random::Random;
use crate::sheet::{self, record_bytes, CODE_BYTES, DATA_WORDS};
use crate::sheet_edges::edge_cases;
use crate::sheet_random::{enough, good_record, random_sheet, sheet_of, CODE, DATA, GS, START};
use crate::vif_generate::code_word;
use std::collections::HashMap;

/// One case in so many is large.
const LARGE_EVERY: u64 = 50;
/// A run that has not ended after so many steps may be endless.
const MOST_STEPS: u64 = 30_000;

/// A case, and the kind that it is of.
pub type Made = comparison::Made<Case>;

type Maker = fn(&mut Random) -> Case;

/// The kinds of cases, each with the kinds of verdicts that it has to come to.
pub const KINDS: [(&str, Maker, &[u32]); 23] = [
    ("our own chain", own_chain, &[0]),
    ("our own chain of groups", own_groups, &[0]),
    ("a shorter chain", shorter, &[0]),
    ("calls for the repetitions of a group", calls, &[0, 6]),
    ("one bit of our chain changed", own_bit, &[0, 2, 3, 4, 5]),
    (
        "one bit of a shorter chain changed",
        shorter_bit,
        &[0, 2, 3, 4, 5],
    ),
    ("a cut chain", cut_chain, &[0, 2, 3, 4, 6]),
    ("main memory cut", cut_main, &[0, 2]),
    ("a chain for another sheet", another_sheet, &[3, 4, 5, 6]),
    (
        "a record left out, doubled, moved or changed",
        another_record,
        &[0, 3, 4, 5, 6],
    ),
    ("data first, then code, then entries", sorted, &[0]),
    (
        "writes over one another in another order",
        reordered,
        &[0, 3, 4, 5],
    ),
    ("records that change nothing, left out", held_left_out, &[0]),
    ("records that change something back", held_again, &[0, 3, 4]),
    ("an interrupt in an equal chain", interrupt, &[2]),
    ("a step that is refused", refused_step, &[2]),
    ("an entry that differs", another_entry, &[5]),
    ("more or fewer entries", more_entries, &[5, 6]),
    ("allowances round the steps", allowances, &[0, 2]),
    ("logs round the room", logs, &[0, 2, 6]),
    ("lengths that are refused", lengths, &[1]),
    ("sheets that are refused", refused_sheets, &[1]),
    ("an endless chain", endless, &[2]),
];

/// The kinds of large cases.
pub const LARGE_KINDS: [(&str, Maker, &[u32]); 8] = [
    ("the longest sheet", longest_sheet, &[0]),
    ("the longest chain", longest_chain, &[0]),
    ("a chain one record too long", too_long_chain, &[1]),
    ("a sheet above 131,072 bytes", too_long_sheet, &[1]),
    ("the longest main memory", longest_main, &[0]),
    ("main memory too long", too_long_main, &[1]),
    ("the longest log", longest_log, &[0]),
    ("a log too long", too_long_log, &[1]),
];

/// A file of so many cases.
pub fn generate(seed: u64, count: u64) -> Vec<u8> {
    let mut file = Vec::new();
    cases(seed, count)
        .iter()
        .for_each(|made| made.case.write(&mut file));
    file
}

pub fn cases(seed: u64, count: u64) -> Vec<Made> {
    let mut random = Random::new(seed);
    let mut refused = refused_edges(&mut random).into_iter();
    let (mut usual, mut large) = (0, seed as usize);
    let mut all = Vec::new();
    for index in 0..count {
        let (name, maker, _) = if index % LARGE_EVERY == LARGE_EVERY / 2 {
            large += 1;
            LARGE_KINDS[large % LARGE_KINDS.len()]
        } else {
            usual += 1;
            KINDS[usual % KINDS.len()]
        };
        let mut case = maker(&mut random);
        if name == "sheets that are refused" {
            // Each of the edges once.
            case.sheet = refused.next().unwrap_or(case.sheet);
        }
        all.push(Made { name, case });
    }
    all
}

/// The sheets at the edges that are refused; a few of each number come first.
fn refused_edges(random: &mut Random) -> Vec<Vec<u8>> {
    let edges = edge_cases(random).into_iter().map(|case| case.sheet);
    let groups = group_edge_cases(random).into_iter().map(|case| case.sheet);
    let short = edges.chain(groups).filter(|sheet| sheet.len() < 2_000);
    let mut all: Vec<(u32, Vec<u8>)> = short
        .filter_map(|sheet| Some((sheet::records(&sheet).err()?.0, sheet)))
        .collect();
    for at in (1..all.len()).rev() {
        all.swap(at, random.below(at as u64 + 1) as usize);
    }
    let mut met: HashMap<u32, usize> = HashMap::new();
    let mut turns: Vec<(usize, Vec<u8>)> = Vec::new();
    for (refusal, sheet) in all {
        let before = met.entry(refusal).or_default();
        turns.push(((*before).min(3), sheet));
        *before += 1;
    }
    turns.sort_by_key(|(turn, _)| *turn);
    turns.into_iter().map(|(_, sheet)| sheet).collect()
}

/// The chain that our builder makes, as quadwords.
fn built(sheet: &[u8]) -> Vec<Quad> {
    let mut chain = vec![0; sheet::chain_length(sheet).unwrap_or(16)];
    let length = sheet::build(sheet, &mut chain).unwrap_or(0);
    let word = |bytes: &[u8]| u32::from_le_bytes(bytes.try_into().unwrap());
    let quad = |bytes: &[u8]| std::array::from_fn(|i| word(&bytes[4 * i..4 * i + 4]));
    chain[..length].chunks(16).map(quad).collect()
}

fn supplied_parts(random: &mut Random, parts: &Parts) -> Vec<Quad> {
    let flat = parts.concat();
    let records = sheet::records(&flat).expect("good records");
    supplied(random, &records)
}

/// Our builder's chain or a shorter one, of the records.
fn some_chain(random: &mut Random, parts: &Parts) -> Vec<Quad> {
    match random.percent(50) {
        true => built(&parts.concat()),
        false => supplied_parts(random, parts),
    }
}

/// A case around a sheet and a chain, with room for the sheet's entries. The run comes to an end.
fn case_of(random: &mut Random, sheet: Vec<u8>, chain: &[Quad]) -> Case {
    let fill = random.number();
    case_filled(random, sheet, chain, fill)
}

fn case_filled(random: &mut Random, sheet: Vec<u8>, chain: &[Quad], fill: u64) -> Case {
    let entries = sheet::entries(&sheet).unwrap_or(2);
    let spare = random.pick(&[0, 0, 1, 2, 9]);
    let room = memory::MOST_MAIN as u32 - 16 * chain.len() as u32;
    let more = 16 * random.pick(&[0, 0, 1, 5]).min(room / 16);
    let mut case = Case {
        sheet,
        main_length: (16 * chain.len() as u32 + more).max(16),
        main: chain.concat(),
        data_length: DATA_WORDS as u32,
        code_length: CODE_BYTES as u32,
        log_length: log::length(entries + spare).min(log::MOST_NUMBERS as u32),
        fill,
        allowance: 0,
    };
    allow(random, &mut case);
    case
}

/// The steps after which the run ends; none where it may be endless.
fn steps_of(case: &Case) -> Option<u64> {
    let (main, mut memories) = (case.main(), case.memories());
    let most = MOST_STEPS.max(2 * sheet::steps(&case.sheet).unwrap_or(0));
    let (stop, _) = check::run(&mut memories.lend(&main), most);
    (stop.answer != ALLOWANCE_USED).then_some(stop.counts.steps)
}

/// An allowance that is enough, where any is.
fn allow(random: &mut Random, case: &mut Case) {
    case.allowance = match steps_of(case) {
        Some(steps) => enough(random, steps),
        None => random.below(MOST_STEPS),
    };
}

fn own_chain(random: &mut Random) -> Case {
    let sheet = match random.below(4) {
        0 => random_sheet(random),
        1 => narrow(random).concat(),
        2 => overlapping(random).concat(),
        _ => short(random).concat(),
    };
    let chain = built(&sheet);
    case_of(random, sheet, &chain)
}

fn own_groups(random: &mut Random) -> Case {
    let sheet = sheet_of_tree(&any_tree(random));
    let chain = built(&sheet);
    case_of(random, sheet, &chain)
}

fn shorter(random: &mut Random) -> Case {
    let sheet = match random.below(6) {
        0 => random_sheet(random),
        1 => sheet_of_tree(&any_tree(random)),
        2 => overlapping(random).concat(),
        _ => narrow(random).concat(),
    };
    let chain = supplied_parts(random, &parts(&sheet));
    case_of(random, sheet, &chain)
}

/// As many calls as the group has repetitions; sometimes one more or one less.
fn calls(random: &mut Random) -> Case {
    let parts = some(random);
    let times = random.within(2..=9) as u8;
    let flat = parts.concat();
    let records = sheet::records(&flat).expect("good records");
    let calls = times as usize + random.pick(&[0, 0, 0, 1, 2]) - random.pick(&[0, 0, 1]);
    let chain = repeated(random, &records, calls);
    case_of(random, grouped(&parts, times), &chain)
}

/// Changes one bit; half of the time in the first quadwords.
fn change_bit(random: &mut Random, chain: &mut [Quad]) {
    let all = chain.len() as u64;
    let at = match random.percent(50) {
        true => random.below(all),
        false => random.below(all.min(4)),
    };
    chain[at as usize][random.below(4) as usize] ^= 1 << random.below(32);
}

fn own_bit(random: &mut Random) -> Case {
    let sheet = some(random).concat();
    let mut chain = built(&sheet);
    change_bit(random, &mut chain);
    case_of(random, sheet, &chain)
}

fn shorter_bit(random: &mut Random) -> Case {
    let made = match random.percent(50) {
        true => narrow(random),
        false => some(random),
    };
    let mut chain = supplied_parts(random, &made);
    change_bit(random, &mut chain);
    case_of(random, made.concat(), &chain)
}

/// Zeros from a word on: a tag of zeros ends the chain.
fn cut_chain(random: &mut Random) -> Case {
    let made = some(random);
    let chain = some_chain(random, &made);
    let mut case = case_of(random, made.concat(), &chain);
    let words = random.below(case.main.len() as u64) as usize;
    let tags: Vec<usize> = (0..made.len())
        .map(|count| built(&made[..count].concat()).len() - 1)
        .collect();
    // Often where a tag of our own chain stands, or only what is zero at the end.
    let end = case
        .main
        .iter()
        .rposition(|&word| word != 0)
        .map_or(0, |at| at + 1);
    let tag = 4 * random.pick(&tags);
    let cut = random.pick(&[words, tag, end]);
    case.main.truncate(cut);
    allow(random, &mut case);
    case
}

/// A main memory that ends before the chain or with it.
fn cut_main(random: &mut Random) -> Case {
    let made = some(random);
    let chain = some_chain(random, &made);
    let mut case = case_of(random, made.concat(), &chain);
    let any = 16 * random.within(1..=chain.len() as u64) as u32;
    let all = 16 * chain.len() as u32;
    case.main_length = random.pick(&[any, any, all, all - 16]).max(16);
    case.main.truncate(case.main_length as usize / 4);
    allow(random, &mut case);
    case
}

fn another_sheet(random: &mut Random) -> Case {
    let (made, other) = (short(random), some(random));
    let chain = some_chain(random, &other);
    let mut case = case_of(random, made.concat(), &chain);
    let entries = sheet::entries(&other.concat()).unwrap_or(0);
    case.log_length = case.log_length.max(log::length(entries));
    allow(random, &mut case);
    case
}

fn another_record(random: &mut Random) -> Case {
    let made = some(random);
    let mut other = made.clone();
    let at = random.below(other.len() as u64) as usize;
    match random.below(6) {
        0 => {
            other.remove(at);
        }
        1 => other.insert(at, other[at].clone()),
        2 => {
            let part = other.remove(at);
            let to = random.below(other.len() as u64 + 1) as usize;
            other.insert(to, part);
        }
        3 => other.insert(at, short_part(random)),
        _ => change_part(random, &mut other[at]),
    }
    with_log_for(random, made, &other)
}

/// Another body or address of a record, which stays good.
fn change_part(random: &mut Random, part: &mut [u8]) {
    match part.len() - sheet::HEADER {
        0 => part[4] ^= 1 << random.below(8),
        body => {
            let any = random.below(body as u64) as usize;
            // Of an entry only value and register.
            let entry = any / 16 * 16 + random.below(9) as usize;
            let at = if part[2] == GS { entry } else { any };
            part[sheet::HEADER + at] ^= 1 << random.below(8);
        }
    }
}

/// A case of a sheet whose chain does other records, with a log for both.
fn with_log_for(random: &mut Random, sheet: Parts, other: &Parts) -> Case {
    let chain = some_chain(random, other);
    let mut case = case_of(random, sheet.concat(), &chain);
    let entries = sheet::entries(&other.concat()).unwrap_or(0);
    case.log_length = case.log_length.max(log::length(entries));
    allow(random, &mut case);
    case
}

/// The records by memory: what is left is the same.
fn sorted(random: &mut Random) -> Case {
    let made = match random.percent(50) {
        true => overlapping(random),
        false => [some(random), some(random)].concat(),
    };
    let mut other = made.clone();
    let turn = random.pick(&[[0, 1, 2], [2, 0, 1], [1, 2, 0]]);
    other.sort_by_key(|part| match part[2] {
        DATA => turn[0],
        CODE => turn[1],
        _ => turn[2],
    });
    with_log_for(random, made, &other)
}

fn reordered(random: &mut Random) -> Case {
    let made = overlapping(random);
    let mut other = made.clone();
    for at in (1..other.len()).rev() {
        other.swap(at, random.below(at as u64 + 1) as usize);
    }
    with_log_for(random, made, &other)
}

/// Records that write what the memories hold are left out of the chain.
fn held_left_out(random: &mut Random) -> Case {
    let fill = random.number();
    let kept: Parts = short(random)
        .into_iter()
        .filter(|part| is_entry(part))
        .collect();
    let mut made = kept.clone();
    for _ in 0..random.within(1..=4) {
        let at = random.below(made.len() as u64 + 1) as usize;
        made.insert(at, held_part(random, fill));
    }
    let chain = some_chain(random, &kept);
    case_filled(random, made.concat(), &chain, fill)
}

/// A record that changes something and one that changes it back: both left out, one, or turned round.
fn held_again(random: &mut Random) -> Case {
    let fill = random.number();
    let back = held_part(random, fill);
    let away = other_body(random, &back);
    let made = [away.clone(), back.clone()];
    let other = match random.below(4) {
        0 => vec![],
        1 => vec![away],
        2 => vec![back],
        _ => vec![back, away],
    };
    let chain = some_chain(random, &other);
    case_filled(random, made.concat(), &chain, fill)
}

/// Bit 31 of a code of an otherwise equal chain.
fn interrupt(random: &mut Random) -> Case {
    let made = some(random);
    let flat = made.concat();
    let records = sheet::records(&flat).expect("good records");
    if random.percent(50) {
        // A code of our own chain: a record's four, the last too.
        let mut chain = built(&flat);
        let record = random.below(made.len() as u64) as usize;
        let at = built(&made[..record].concat()).len();
        chain[at][random.below(4) as usize] |= 1 << 31;
        return case_of(random, flat.clone(), &chain);
    }
    // The first code, or a NOP put in before or after.
    let mut payload = Stream::of(random, &records).quads();
    match random.below(3) {
        0 => payload[0][0] |= 1 << 31,
        1 => payload.insert(0, [0, 0, 0, 1 << 31]),
        _ => payload.push([1 << 31, 0, 0, 0]),
    }
    let chain = laid_out(random, &payload);
    case_of(random, flat.clone(), &chain)
}

/// An equal chain with a step that is refused, after all of it or before.
fn refused_step(random: &mut Random) -> Case {
    let made = some(random);
    let mut other = made.clone();
    if random.percent(30) {
        let at = random.below(other.len() as u64) as usize;
        change_part(random, &mut other[at]);
    }
    let (flat, other) = (made.concat(), other.concat());
    let records = sheet::records(&other).expect("good records");
    let mut payload = Stream::of(random, &records).quads();
    let after = random.percent(50);
    if random.percent(40) {
        return refused_tag(random, flat.clone(), payload);
    }
    let piece = refused_codes(random);
    match after {
        true => payload.extend(piece),
        false => payload = [piece, payload].concat(),
    }
    let chain = laid_out(random, &payload);
    case_of(random, flat.clone(), &chain)
}

/// Quadwords of which a word or a GIF quadword is refused.
fn refused_codes(random: &mut Random) -> Vec<Quad> {
    let any = random.word() & 0xFFFF;
    let words = match random.below(7) {
        0 => [
            0,
            random.pick(&[0x0800_0000, 0x1200_0000, 0x5F00_0000]),
            0,
            0,
        ],
        1 => [
            0x0100_0101,
            random.pick(&[0x63, 0x67, 0x6B]) << 24 | any,
            0,
            0,
        ],
        2 => [0x0100_0001, 0x6C01_0000, 0, 0],
        3 => [code_word(0x05, 0, any | 3), 0, 0, 0],
        4 => [0, 0x5000_0001, 0, 0],
        5 => [0x4A01_0000 | any, 0, 0, 0],
        _ => [0, 0, 0, 0x5000_0002],
    };
    let mut piece = vec![words];
    if words[3] == 0x5000_0002 {
        // Descriptor B, at its data.
        piece.extend([
            [0x8001, random.pick(&[0, 1]) << 26 | 1 << 28, 0xB, 0],
            [1; 4],
        ]);
    }
    piece
}

/// The payload in a tag, and a tag after it that is refused.
fn refused_tag(random: &mut Random, sheet: Vec<u8>, payload: Vec<Quad>) -> Case {
    let quads = payload.len() as u32;
    let tag = |id: u32, qwc: u32, addr: u32| [id << 28 | qwc, addr, 0, 0];
    let here = 16 * (quads + 1);
    let mut chain = vec![tag(1, quads, 0)];
    chain.extend(payload);
    let id = random.pick(&[0, 2, 3, 4, 5]);
    match random.below(5) {
        0 => chain.push(tag(2, 0, 0x10_0000)),
        1 => chain.push(tag(id, 0, random.pick(&[4, 8, 1, 0x7FFF_FFFF]))),
        2 => chain.push(tag(id, 0, 1 << 31)),
        3 => chain.extend([tag(5, 0, here + 16), tag(5, 0, here + 32), tag(5, 0, 0)]),
        _ => chain.push(tag(random.pick(&[1, 3, 7]), 65_535, 16)),
    }
    case_of(random, sheet, &chain)
}

/// One entry is another: its register, its value, or a start in place of a write.
fn another_entry(random: &mut Random) -> Case {
    let made = with_entries(random);
    let mut other = made.clone();
    let entries: Vec<usize> = (0..made.len()).filter(|&at| is_entry(&made[at])).collect();
    let at = random.pick(&entries);
    let part = &mut other[at];
    let how = random.below(4);
    if part[2] == START && how == 0 {
        // The same value, to a register of path 2.
        let value = [part[4], part[5], 0, 0, 0, 0, 0, 0, 1, 0, 0, 0, 0, 0, 0, 0];
        *part = record_bytes(GS, 1, 0, &value);
    } else if part[2] == START && how == 1 {
        return other_start(random, made);
    } else if part[2] == GS && how == 0 {
        // The same value, or another, as a program start.
        let body = &mut other[at][sheet::HEADER..];
        if body.len() > 16 {
            body[8] ^= 1;
        } else {
            let address = u16::from_le_bytes([body[0], body[1]]) % 2_048;
            other[at] = record_bytes(START, 0, address, &[]);
        }
    } else {
        change_part(random, part);
    }
    with_log_for(random, made, &other)
}

/// MSCALF in place of MSCAL: another register, and all else the same.
fn other_start(random: &mut Random, made: Parts) -> Case {
    let mut chain = built(&made.concat());
    let mut at = 0;
    for part in &made {
        let next = built(part).len() - 1;
        if part[2] == START && (chain[at + 1][3] >> 24) == 0x14 {
            chain[at + 1][3] |= 1 << 24;
            break;
        }
        at += next;
    }
    case_of(random, made.concat(), &chain)
}

fn more_entries(random: &mut Random) -> Case {
    let made = with_entries(random);
    let entries: Vec<usize> = (0..made.len()).filter(|&at| is_entry(&made[at])).collect();
    let mut other = made.clone();
    match random.below(4) {
        0 => other.push(good_record(random, START, 0)),
        1 => other.push(good_record(random, GS, 2)),
        2 => {
            other.remove(random.pick(&entries));
        }
        _ => other.retain(|part| !is_entry(part)),
    }
    // Sometimes the sheet has more entries than the log.
    let mut case = with_log_for(random, made, &other);
    let written = sheet::entries(&other.concat()).unwrap_or(0);
    if random.percent(30) {
        case.log_length = log::length(written);
    }
    case
}

fn allowances(random: &mut Random) -> Case {
    let made = short(random);
    let chain = some_chain(random, &made);
    let mut case = case_of(random, made.concat(), &chain);
    let steps = steps_of(&case).expect("an equal chain ends");
    let any = random.below(steps);
    case.allowance = random.pick(&[
        steps,
        steps,
        steps + 1,
        steps - 1,
        steps - 1,
        any,
        0,
        u64::MAX,
    ]);
    case
}

fn logs(random: &mut Random) -> Case {
    let made = with_entries(random);
    let other = match random.percent(70) {
        true => made.clone(),
        false => made[..random.below(made.len() as u64) as usize].to_vec(),
    };
    let chain = some_chain(random, &other);
    let mut case = case_of(random, made.concat(), &chain);
    let entries = sheet::entries(&case.sheet).unwrap_or(0);
    let written = sheet::entries(&other.concat()).unwrap_or(0);
    let any = random.below(entries);
    let entries = random.pick(&[entries, entries, entries - 1, entries + 1, 0, any, written]);
    case.log_length = log::length(entries);
    if random.percent(10) {
        case.sheet.clear();
        case.main = vec![0x7000_0000];
        case.log_length = 0;
    }
    allow(random, &mut case);
    case
}

/// One to all of the four lengths wrong, the sheet often too.
fn lengths(random: &mut Random) -> Case {
    let made = short(random);
    let chain = some_chain(random, &made);
    let mut case = case_of(random, made.concat(), &chain);
    let few = random.within(1..=15) as u32;
    let which = random.pick(&[1, 1, 2, 2, 3, 4, 4, 4, 5, 6, 7, 8, 8, 8, 9, 10, 12, 15]);
    if which & 1 != 0 {
        case.main_length = random.pick(&[0, few, case.main_length + few, 8]);
        case.main.truncate(case.main_length as usize / 4);
    }
    if which & 2 != 0 {
        case.data_length = random.pick(&[0, 1, 4, 1_024, 4_095, 4_097, MOST_DATA]);
    }
    if which & 4 != 0 {
        case.code_length = random.pick(&[0, 1, 6, 4_096, 16_383, 16_385, MOST_CODE]);
    }
    if which & 8 != 0 {
        case.log_length += random.pick(&[1, 2]);
    }
    if random.percent(50) {
        case.sheet.push(random.pick(&[0, 0x9E]));
    }
    case
}

/// A good chain beside a sheet that is refused; mostly another sheet takes its place.
fn refused_sheets(random: &mut Random) -> Case {
    let made = some(random);
    let chain = some_chain(random, &made);
    let mut sheet = made.concat();
    match random.below(4) {
        0 => sheet.truncate(sheet.len() - 1),
        1 => sheet[0] ^= 1 << random.below(8),
        2 => sheet.extend(record_bytes(random.pick(&[5, 6, 0]), 1, 1, &[])),
        _ => sheet = nested(&[255; 8], &sheet),
    }
    case_of(random, sheet, &chain)
}

/// A chain that never ends; with allowances that it uses up.
fn endless(random: &mut Random) -> Case {
    let made = short(random);
    let mut chain = built(&made.concat());
    let last = chain.len() - 1;
    let to = 16 * random.below(last as u64 + 1) as u32;
    chain[last] = match made.iter().any(|part| is_entry(part)) {
        // What writes entries comes once.
        true => [0x2000_0000, 16 * last as u32, 0, 0],
        false => [0x2000_0000, random.pick(&[to, 16 * last as u32, 0]), 0, 0],
    };
    // A tag may be met inside a record: the run may be refused, or even end.
    case_of(random, made.concat(), &chain)
}

fn longest_sheet(random: &mut Random) -> Case {
    let (kinds, n): (&[u8], u8) = match random.below(4) {
        0 => (&[DATA], 255),
        1 => (&[CODE], 255),
        2 => (&[GS], 255),
        _ => (&[DATA, CODE, GS, START], 0),
    };
    let sheet = sheet_of(random, sheet::MOST_SHEET, kinds, n);
    let chain = match random.percent(50) {
        true => built(&sheet),
        false => supplied_parts(random, &parts(&sheet)),
    };
    case_of(random, sheet, &chain)
}

/// 1,048,576 bytes: 255 times 257 quadwords and the end tag. Sometimes the supplier calls instead.
fn longest_chain(random: &mut Random) -> Case {
    let data = good_record(random, DATA, 255);
    let sheet = nested(&[255], &data);
    let chain = match random.percent(50) {
        true => built(&sheet),
        false => {
            let records = sheet::records(&data).expect("a good record");
            repeated(random, &records, 255)
        }
    };
    case_of(random, sheet, &chain)
}

fn too_long_chain(random: &mut Random) -> Case {
    let data = good_record(random, DATA, 255);
    let start = good_record(random, START, 0);
    let sheet = [nested(&[255], &data), start].concat();
    let records = sheet::records(&data).expect("a good record");
    let chain = repeated(random, &records, 255);
    let mut case = case_of(random, sheet, &chain);
    case.allowance = random.number();
    case
}

fn too_long_sheet(random: &mut Random) -> Case {
    let mut sheet = sheet_of(random, sheet::MOST_SHEET, &[START], 0);
    let most = MOST_SHEET as usize;
    let more = random.within(1..=16) as usize;
    sheet.resize(
        random.pick(&[sheet::MOST_SHEET + 1, sheet::MOST_SHEET + more, most]),
        0x9E,
    );
    case_of(random, sheet, &[[0x7000_0000, 0, 0, 0]])
}

/// The longest main memory, the chain's end at its end.
fn longest_main(random: &mut Random) -> Case {
    let made = some(random);
    let chain = some_chain(random, &made);
    let mut case = case_of(random, made.concat(), &chain);
    case.main_length = memory::MOST_MAIN as u32;
    if random.percent(50) {
        // A refe at 0 whose payload is the last quadwords.
        let flat = made.concat();
        let records = sheet::records(&flat).expect("good records");
        let payload = Stream::of(random, &records).quads();
        let at = case.main_length - 16 * payload.len() as u32;
        case.main = vec![payload.len() as u32, at];
        case.main.resize(at as usize / 4, 0);
        case.main.extend(payload.concat());
        allow(random, &mut case);
    }
    case
}

fn too_long_main(random: &mut Random) -> Case {
    let made = short(random);
    let chain = some_chain(random, &made);
    let mut case = case_of(random, made.concat(), &chain);
    case.main_length = random.pick(&[1_048_577, 1_048_592, MOST_MAIN]);
    case.data_length = random.pick(&[0, 4_096]);
    case
}

fn longest_log(random: &mut Random) -> Case {
    let made = with_entries(random);
    let chain = some_chain(random, &made);
    let mut case = case_of(random, made.concat(), &chain);
    case.log_length = log::MOST_NUMBERS as u32;
    case
}

fn too_long_log(random: &mut Random) -> Case {
    let made = with_entries(random);
    let chain = some_chain(random, &made);
    let mut case = case_of(random, made.concat(), &chain);
    let most = log::MOST_NUMBERS as u32;
    case.log_length = random.pick(&[most + 1, most + 2, most + 3, most + 6, MOST_LOG]);
    case
}

#[cfg(test)]
mod tests {
    use super::*;
    use crate::check_cases::{results, Outcome};
    use crate::check_counts::Counts;

    #[test]
    fn a_seed_gives_one_file() {
        let file = generate(9, 100);
        assert!(file == generate(9, 100));
        assert!(file != generate(10, 100));
        let given = results(&file, &mut Counts::default());
        assert_eq!((given.damage, given.broken), (None, None));
        assert_eq!(given.starts.len(), 100);
    }

    /// What is made as equal is accepted, whatever is drawn.
    #[test]
    fn equal_chains_are_accepted() {
        let mut random = Random::new(5);
        for (name, maker, verdicts) in KINDS {
            if verdicts != [0] {
                continue;
            }
            for _ in 0..60 {
                let verdict = Outcome::new(&maker(&mut random)).checked.verdict;
                assert_eq!(verdict, check::Verdict::Accepted, "{name}");
            }
        }
    }
}
