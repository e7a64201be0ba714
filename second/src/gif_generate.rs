//! GIF cases from a seed.

use crate::gif::{Format, Path, Place, Tag, PATH_NUMBERS};
use crate::gif_cases::{fill_number, Case, Standing};
use crate::log;
use crate::memory::cases::MOST_LOG;
use crate::packet_points;
use crate::path_points;
use crate::random::Random;
use crate::state_block::{descriptors, path_word, write_path, PathBlock, IDLE_PATH};

/// Bits of a tag.
pub const EOP: u128 = 1 << 15;
pub const PRE: u128 = 1 << 46;

/// A case file of about `quadwords` quadwords.
pub fn generate(seed: u64, quadwords: u64) -> Vec<u8> {
    let mut random = Random::new(seed);
    let mut file = Vec::new();
    let mut made = 0;
    let edges = edge_cases(&mut random);
    let mut points = packet_points::in_gif_cases();
    points.extend(path_points::in_gif_cases());
    for case in fixed_cases().iter().chain(&points).chain(&edges) {
        made += case.quadwords.len() as u64;
        case.write(&mut file);
    }
    while made < quadwords {
        let case = random_case(&mut random, quadwords - made);
        made += case.quadwords.len().max(1) as u64;
        case.write(&mut file);
    }
    file
}

/// The quadword of a tag, with its unused bits zero.
pub fn tag_quadword(nloop: u64, flg: u64, nreg: u64, descriptors: u64) -> u128 {
    (nloop | flg << 58 | nreg << 60) as u128 | (descriptors as u128) << 64
}

/// Cases that are the same in every file, on each path.
fn fixed_cases() -> Vec<Case> {
    let case = |entries, used, quadwords: &[u128]| {
        PATH_NUMBERS.map(|number| Case {
            log_length: log::length(entries),
            used,
            fill: 0x0123_4567_89AB_CDEF,
            number,
            block: IDLE_PATH,
            quadwords: quadwords.to_vec(),
        })
    };
    let halves = |low: u128, high: u128| low | high << 64;
    let pre = PRE | 0x5A5 << 47;
    [
        // REGLIST, NREG 3, NLOOP 1: two quadwords, three writes.
        case(
            4,
            0,
            &[
                tag_quadword(1, 1, 3, 0x531),
                halves(0x1111, 0x2222),
                halves(0x3333, 0x4444),
            ],
        ),
        // IMAGE with one entry free: 31, nothing written.
        case(4, 3, &[tag_quadword(1, 2, 1, 0), halves(0x5555, 0x6666)]),
        // The GIF tag of a kind 3 record with one write.
        case(
            4,
            0,
            &[
                0x0000_0000_0000_000E_1000_0000_0000_8001,
                halves(0x7777, 0x42),
            ],
        ),
        // Each tag sets Q, also one without data.
        case(
            8,
            0,
            &[
                tag_quadword(1, 0, 2, 0x12),
                halves(0x8888, 0x1234_5678),
                halves(0x0000_0002_0000_0001, 0x0000_0004_0000_0003),
                tag_quadword(0, 0, 2, 0x12) | pre,
                tag_quadword(1, 0, 1, 0x1) | pre,
                halves(0x0000_0006_0000_0005, 0x0000_0008_0000_0007),
            ],
        ),
        // A PRE that doesn't fit, then a tag without it that does.
        case(
            0,
            0,
            &[
                tag_quadword(1, 0, 1, 0xF) | pre,
                tag_quadword(1, 0, 1, 0xF),
                0,
            ],
        ),
        // No quadwords at all.
        case(0, 0, &[]),
    ]
    .concat()
}

/// Each limit of the log and of held tags from both sides.
fn edge_cases(random: &mut Random) -> Vec<Case> {
    let mut cases = Vec::new();
    let mut add = |log_length, used, block, quadwords| {
        cases.push(Case {
            log_length,
            used,
            fill: 1,
            number: PATH_NUMBERS[cases.len() % 2],
            block,
            quadwords,
        });
    };
    for (log_length, used) in edge_logs() {
        let tag = Tag::decode(tag_quadword(3, 2, 1, 0));
        let quadwords = vec![random.quadword(), random.quadword()];
        add(log_length, used, held_block(0, &tag, 3), quadwords);
    }
    for format in [Format::Packed, Format::Reglist, Format::Image] {
        for nloop in [0, 1, 32_767, 32_768] {
            for nreg in [0, 1, 16, 17] {
                let tag = Tag {
                    format,
                    nloop,
                    eop: false,
                    nreg,
                    descriptors: 0x0123_4567_89AC_DEF0,
                };
                let all = tag.all_data() as u32;
                for due in [0, 1, all, all + 1] {
                    let quadwords = vec![random.quadword()];
                    add(log::length(2), 0, held_block(0, &tag, due), quadwords);
                }
            }
        }
    }
    cases
}

/// Lengths of logs and entries used at the limits of refusal 4.
pub fn edge_logs() -> Vec<(u32, u64)> {
    let [one, two, some] = [1, 2, 32].map(log::length);
    let most = log::MOST_NUMBERS as u32;
    let entries = log::MOST_ENTRIES;
    let mut logs = vec![(0, 0), (0, 1), (1, 0), (2, 0), (two, 3)];
    // From one number short of an entry to one short of three.
    logs.extend((one - 1..=two + 2).map(|length| (length, 1)));
    logs.extend((one - 1..=two + 2).map(|length| (length, 2)));
    let near = [log::WRAPS, log::WRAPS_TWICE].map(|used| [used - 1, used, used + 1]);
    logs.extend(near.concat().iter().map(|&used| (one, used)));
    // What 32 bits cannot hold, or not three times it.
    for used in [1 << 31, 1 << 32, 0x5555_5556, 0xAAAA_AAAB] {
        logs.push((some, used));
    }
    logs.extend([(one, u64::MAX), (some, u64::MAX)]);
    // Round the most where an entry has two numbers.
    logs.extend((131_071..=131_074).map(|length| (length, 43_690)));
    for length in [most - one, most - 2, most - 1, most + 1, most + 2] {
        logs.push((length, 0));
    }
    for free in 0..=3 {
        logs.push((most, entries - free));
    }
    logs.extend([(most, entries + 1), (most + one, 0)]);
    logs.extend([(most + one, entries + 1), (MOST_LOG, 0)]);
    logs
}

/// A random case of at most about `left` quadwords.
fn random_case(random: &mut Random, left: u64) -> Case {
    if left > 100_000 && random.below(40_000) == 0 {
        return long_case(random);
    }
    let (log_length, used) = random_log(random);
    let mut case = Case {
        log_length,
        used,
        fill: random.number(),
        number: random.pick(&PATH_NUMBERS),
        block: random_block(random),
        quadwords: Vec::new(),
    };
    if used < 1 << 32 && random.percent(30) {
        // The next entry's path stands in the log already, or its register.
        let (number, place) = if random.percent(20) {
            (case.number as u64, log::PATH)
        } else {
            (likely_register(random, &case.block), log::REGISTER)
        };
        let at = (log::numbers(used) + place) as u64;
        case.fill = number.wrapping_sub(fill_number(0, at));
    }
    let wanted = match random.below(20) {
        0 => random.below(2),
        1..=13 => random.within(1..=16),
        14..=18 => random.within(8..=40),
        _ if log_length > log::length(32) => random.within(100..=400),
        _ => random.within(30..=90),
    };
    fill_case(random, &mut case, wanted.min(left.max(1)));
    case
}

/// Gives the case its quadwords, fitted to where the path stands at each.
fn fill_case(random: &mut Random, case: &mut Case, wanted: u64) {
    let with_b = random.percent(12);
    let mut standing = Standing::new(case);
    let mut left = wanted;
    while left > 0 {
        let quadword = match standing.path.map(|path| path.place) {
            Some(Place::Idle) => random_tag(random, with_b),
            _ => random_data(random, &standing),
        };
        case.quadwords.push(quadword);
        left -= 1;
        if standing.take(quadword).is_err() {
            left = left.min(random.below(3));
        }
    }
}

/// As many quadwords as a case can have, on a log that is never written.
fn long_case(random: &mut Random) -> Case {
    let tag = Tag {
        format: random.pick(&[Format::Packed, Format::Reglist]),
        nloop: random.within(32_000..=32_767) as u32,
        eop: true,
        nreg: random.within(5..=16) as u32,
        descriptors: u64::MAX,
    };
    let block = held_block(random.word(), &tag, tag.all_data() as u32);
    let quadwords = (0..65_535).map(|_| random.quadword()).collect();
    Case {
        log_length: log::length(1),
        used: 1,
        fill: random.number(),
        number: random.pick(&PATH_NUMBERS),
        block,
        quadwords,
    }
}

/// The length of the log and the entries used.
pub fn random_log(random: &mut Random) -> (u32, u64) {
    match random.below(1000) {
        0..=399 => {
            let entries = random.within(0..=32);
            let used = entries - random.within(0..=entries.min(4));
            (log::length(entries), used)
        }
        400..=719 => (log::length(32), random.within(0..=6)),
        720..=789 => {
            let entries = random.within(0..=32);
            (log::length(entries), random.within(0..=entries))
        }
        790..=924 => (log::length(random.within(33..=600)), random.within(0..=20)),
        925..=936 => long_log(random),
        937..=939 => too_long_log(random),
        940..=959 => {
            let length = log::length(random.within(0..=32)) + random.pick(&[1, 2]);
            (length, random.within(0..=length as u64))
        }
        _ => {
            let entries = random.within(0..=32);
            (log::length(entries), too_many_used(random, entries))
        }
    }
}

/// A log of the greatest length or nearly so.
fn long_log(random: &mut Random) -> (u32, u64) {
    let most = log::MOST_ENTRIES;
    let entries = random.pick(&[most, most, most, most - 1, most - 6]);
    let used = match random.below(3) {
        0 => random.within(0..=4),
        1 => entries - random.within(0..=6),
        _ => random.within(0..=entries),
    };
    (log::length(entries), used)
}

fn too_long_log(random: &mut Random) -> (u32, u64) {
    let over = random.pick(&[1, 2, 3, 3, 4, 6, 8]);
    let most = log::MOST_ENTRIES;
    let used = random.pick(&[0, 1, most - 1, most, most + 1, most + 4, u64::MAX]);
    (log::length(most) + over, used)
}

/// More entries used than a log of so many has.
fn too_many_used(random: &mut Random, entries: u64) -> u64 {
    match random.below(11) {
        0 | 1 => entries + 1,
        2 => entries + random.within(1..=100),
        3 => log::WRAPS + random.within(0..=entries),
        4 => log::WRAPS + entries + random.within(1..=3),
        8 => log::WRAPS_TWICE + random.within(0..=entries),
        9 => entries + random.within(1..=entries / 2 + 1),
        5 => u64::MAX - random.within(0..=3),
        6 => log::WRAPS - random.within(1..=3),
        7 => random.pick(&[1u64 << 31, 1 << 32, 1 << 33, 1 << 62]) + random.within(0..=entries),
        _ => random.number() | 1 << 40,
    }
}

fn random_q(random: &mut Random) -> u32 {
    let any = random.word();
    random.pick(&[0, 0x3F80_0000, u32::MAX, any, any, any])
}

pub fn random_block(random: &mut Random) -> PathBlock {
    match random.below(100) {
        0..=29 => write_path(&Path {
            q: random_q(random),
            place: Place::Idle,
        }),
        30..=41 => {
            // Idle, with words that mean nothing.
            let mut block = std::array::from_fn(|_| random.word());
            if random.percent(50) {
                block = random_held_block(random);
            }
            block[path_word::PLACE] = 0;
            block
        }
        42..=87 => random_held_block(random),
        88..=95 => random_out_of_range_block(random),
        _ => random_no_path_block(random),
    }
}

fn held_block(q: u32, tag: &Tag, due: u32) -> PathBlock {
    write_path(&Path {
        q,
        place: Place::Data { tag: *tag, due },
    })
}

/// A block inside the data of a tag.
pub fn random_held_block(random: &mut Random) -> PathBlock {
    let with_b = random.percent(12);
    let mut tag = Tag::decode(random_tag(random, with_b));
    tag.nloop = tag.nloop.max(1);
    tag.format = random.pick(&[Format::Packed, Format::Reglist, Format::Image]);
    let all = tag.all_data();
    let due = match random.below(10) {
        0..=1 => 1,
        2..=4 => random.within(1..=all.min(4)),
        5..=6 => all - random.within(0..=(all - 1).min(3)),
        _ => random.within(1..=all),
    };
    if tag.format == Format::Reglist && random.percent(5) {
        // The odd half that is dropped would meet descriptor B.
        tag.descriptors = tag.descriptors & !15 | 0xB;
    }
    held_block(random_q(random), &tag, due as u32)
}

pub fn random_out_of_range_block(random: &mut Random) -> PathBlock {
    let mut block = random_held_block(random);
    let any = random.word() | 1 << 20;
    let field = match random.below(10) {
        0..=2 => path_word::NLOOP,
        3..=5 => path_word::NREG,
        6..=8 => path_word::DUE,
        _ => {
            block[path_word::NLOOP] = random.pick(&[u32::MAX, 1 << 31, 1 << 16]);
            block[path_word::NREG] = random.pick(&[u32::MAX, 2, 1 << 16]);
            block[path_word::DUE] = random.pick(&[0, 1, u32::MAX]);
            return block;
        }
    };
    let [a, b, c, d] = wrong_values(&block, field);
    block[field] = random.pick(&[0, 0, a, a, b, c, d, any]);
    block
}

/// Values that a field of a path inside a tag cannot have, the last the greatest.
fn wrong_values(block: &PathBlock, field: usize) -> [u32; 4] {
    let (nloop, nreg) = (block[path_word::NLOOP], block[path_word::NREG]);
    let units = nloop * nreg;
    let all = match block[path_word::FORMAT] {
        0 => units,
        1 => units.div_ceil(2),
        _ => nloop,
    };
    match field {
        path_word::NLOOP => [32_768, 65_536 + nloop, 1 << 28 | 1, u32::MAX],
        path_word::NREG => [17, 32, 256 + nreg, u32::MAX],
        _ => [all + 1, units + 1, units * 2 + 1, u32::MAX],
    }
}

pub fn random_no_path_block(random: &mut Random) -> PathBlock {
    let mut block = if random.percent(80) {
        random_held_block(random)
    } else {
        random_out_of_range_block(random)
    };
    let any = random.word() | 4;
    let (field, least) = match random.below(3) {
        0 => (path_word::PLACE, 2),
        1 => (path_word::FORMAT, 3),
        _ => (path_word::EOP, 2),
    };
    block[field] = random.pick(&[least, least, least + 1, 256, 257, u32::MAX, any]);
    block
}

fn random_nloop(random: &mut Random) -> u64 {
    match random.below(40) {
        0..=3 => 0,
        4..=27 => random.within(1..=3),
        28..=36 => random.within(1..=12),
        37..=38 => random.within(1..=32_767),
        _ => random.pick(&[32_767, 32_766, 16_384, 256, 255]),
    }
}

/// Sixteen descriptors; B only by chance of the case, or past the first NREG.
pub fn random_descriptors(random: &mut Random, with_b: bool, nreg: u64) -> u64 {
    let mut descriptors = 0;
    for i in 0..16 {
        let mut descriptor = random.below(16);
        let used = nreg == 0 || i < nreg;
        while descriptor == 0xB && used && !with_b {
            descriptor = random.below(16);
        }
        if with_b && random.percent(10) {
            descriptor = 0xB;
        }
        descriptors |= descriptor << (4 * i);
    }
    descriptors
}

pub fn random_tag(random: &mut Random, with_b: bool) -> u128 {
    if random.percent(1) {
        return random.quadword();
    }
    let nloop = random_nloop(random);
    let nreg = if random.percent(55) {
        random.within(1..=4)
    } else {
        random.below(16)
    };
    let flg = random.pick(&[0, 0, 0, 0, 1, 1, 1, 2, 3]);
    let descriptors = random_descriptors(random, with_b, nreg);
    // EOP, the unused bits, PRE and PRIM are free.
    let rest = random.number() & 0x03FF_FFFF_FFFF_8000;
    tag_quadword(nloop, flg, nreg, descriptors) | rest as u128
}

fn random_data(random: &mut Random, standing: &Standing) -> u128 {
    match random.below(20) {
        0 => 0,
        1 => u128::MAX,
        2 => 1 << random.below(128),
        3 => !(1 << random.below(128)),
        4..=6 => {
            // The value to write stands in the log already.
            let entry = standing.used.saturating_mul(log::ENTRY as u64);
            let at = entry.saturating_add(log::VALUE as u64);
            let number = |at: u64| *standing.log.get(at as usize).unwrap_or(&0) as u128;
            let high = if random.percent(50) {
                number(at.saturating_add(log::ENTRY as u64))
            } else {
                random.word() as u128
            };
            number(at) | high << 64
        }
        _ => random.quadword(),
    }
}

/// A register that the block's next data may be written to.
fn likely_register(random: &mut Random, block: &PathBlock) -> u64 {
    let due = block[path_word::DUE] as u64;
    let nloop = block[path_word::NLOOP] as u64;
    let nreg = block[path_word::NREG] as u64;
    if block[path_word::PLACE] != 1 || nreg == 0 || nreg > 16 {
        return 0;
    }
    let unit = match block[path_word::FORMAT] {
        0 => (nloop * nreg).wrapping_sub(due),
        1 => (nloop * nreg).div_ceil(2).wrapping_sub(due).wrapping_mul(2),
        _ => return 0x54,
    };
    let register = descriptors(block) >> (4 * (unit % nreg)) & 15;
    if register == 4 || register == 5 {
        return register + random.pick(&[0, 8]);
    }
    register
}
