//! Sheets whose chains can be written shorter, or in another order.

use crate::filled::UnitMemories;
use crate::group_sheets::{edition, group};
use crate::random::Random;
use crate::sheet::{self, record_bytes, Kind, CODE_BYTES, DATA_WORDS, INSTRUCTIONS, QUADWORDS};
use crate::sheet_random::{good_record, random_address, random_body, CODE, DATA, GS, START};

/// The records of a sheet, each as its bytes.
pub type Parts = Vec<Vec<u8>>;

/// The records that a sheet stands for.
pub fn parts(sheet: &[u8]) -> Parts {
    let records = sheet::records(sheet).unwrap_or_default();
    let bytes = |record: &sheet::Record| {
        let kind = match record.kind {
            Kind::Data => DATA,
            Kind::Code => CODE,
            Kind::Gs => GS,
            Kind::Start => START,
        };
        record_bytes(kind, record.count as u8, record.address as u16, record.body)
    };
    records.iter().map(bytes).collect()
}

/// Whether a record adds to the log.
pub fn is_entry(part: &[u8]) -> bool {
    part[2] == GS || part[2] == START
}

fn few(random: &mut Random) -> u8 {
    random.pick(&[1, 1, 2, 2, 3, 4, 5, 7])
}

/// A short record of any kind.
pub fn short_part(random: &mut Random) -> Vec<u8> {
    let kind = random.pick(&[DATA, CODE, GS, START]);
    let n = few(random);
    good_record(random, kind, if kind == START { 0 } else { n })
}

/// A short sheet.
pub fn short(random: &mut Random) -> Parts {
    let count = random.pick(&[0, 1, 1, 2, 3, 4, 6]);
    (0..count).map(|_| short_part(random)).collect()
}

/// A short sheet with a record at least.
pub fn some(random: &mut Random) -> Parts {
    let mut parts = short(random);
    parts.push(short_part(random));
    parts
}

/// A short sheet with an entry at least.
pub fn with_entries(random: &mut Random) -> Parts {
    let mut parts = short(random);
    let (kind, n) = random.pick(&[(GS, 1), (GS, 2), (GS, 5), (START, 0), (START, 0)]);
    let at = random.below(parts.len() as u64 + 1) as usize;
    parts.insert(at, good_record(random, kind, n));
    parts
}

/// A vector that a shorter format gives, by a shape.
fn narrow_vector(random: &mut Random, shape: u64) -> [u32; 4] {
    let [x, y, z, w] = std::array::from_fn(|_| random.word());
    let byte = |x: u32| x & 255;
    let half = |x: u32| x as i16 as u32;
    match shape {
        0 => [x; 4],
        1 => [byte(x), byte(y), byte(z), byte(w)],
        2 => [half(x), half(y), half(z), half(w)],
        3 => [x, y, x, y],
        4 => [x, y, z, 0],
        _ => [x, y, z, w],
    }
}

fn narrow_data(random: &mut Random, n: u8) -> Vec<u8> {
    let shape = random.below(6);
    let same = random.percent(40);
    let first = narrow_vector(random, shape);
    let vectors = (0..n).map(|_| match same {
        true => first,
        false => narrow_vector(random, shape),
    });
    let words: Vec<u32> = vectors.collect::<Vec<_>>().concat();
    words.iter().flat_map(|word| word.to_le_bytes()).collect()
}

/// Entries of registers that one packet of another format writes.
fn listed_entries(random: &mut Random, n: u8) -> Vec<u8> {
    let one = random.pick(&[0, 1, 2, 5, 6, 0xA, 0xD, 0x54, 0x54, 0x54, 0xB, 0xE]);
    let same = random.percent(60);
    let mut body = random_body(random, GS, n);
    for entry in body.chunks_mut(16) {
        entry[8] = match same {
            true => one,
            false => random.pick(&[0, 1, 3, 4, 8, 9, 0xA, 0xC, 0xD]),
        };
    }
    body
}

/// Records that a supplier writes shorter: neighbours, narrow vectors, entries of few registers.
pub fn narrow(random: &mut Random) -> Parts {
    let mut parts = Vec::new();
    for _ in 0..random.within(1..=5) {
        let kind = random.pick(&[DATA, DATA, CODE, GS, START]);
        let mut address = random_address(random, kind, 12) as u32;
        for _ in 0..random.within(1..=3) {
            let n = match kind {
                START => 0,
                GS => random.pick(&[1, 2, 2, 3, 4, 6]),
                _ => few(random),
            };
            let body = match kind {
                DATA => narrow_data(random, n),
                GS => listed_entries(random, n),
                _ => random_body(random, kind, n),
            };
            parts.push(record_bytes(kind, n, address as u16, &body));
            address = match kind {
                DATA => (address + n as u32) % QUADWORDS,
                CODE => (address + n as u32) % INSTRUCTIONS,
                _ => address,
            };
        }
    }
    parts
}

/// Data and code records that write over one another, and entries between them.
pub fn overlapping(random: &mut Random) -> Parts {
    let (quadword, instruction) = (random.below(1_020) as u16, random.below(2_044) as u16);
    let mut parts = Vec::new();
    for _ in 0..random.within(2..=7) {
        let n = random.within(1..=3) as u8;
        let by = random.below(3) as u16;
        parts.push(match random.below(5) {
            0..=1 => record_bytes(DATA, n, quadword + by, &random_body(random, DATA, n)),
            2..=3 => record_bytes(CODE, n, instruction + by, &random_body(random, CODE, n)),
            _ => good_record(random, START, 0),
        });
    }
    parts
}

/// What memories of this fill hold: a record that changes nothing.
pub fn held_part(random: &mut Random, fill: u64) -> Vec<u8> {
    let memories = UnitMemories::new(fill, DATA_WORDS as u32, CODE_BYTES as u32);
    let n = few(random);
    if random.percent(60) {
        let address = random_address(random, DATA, n);
        let words = memories.data.iter().cycle().skip(4 * address as usize);
        let body = words
            .take(4 * n as usize)
            .flat_map(|word| word.to_le_bytes());
        return record_bytes(DATA, n, address, &body.collect::<Vec<u8>>());
    }
    let address = random_address(random, CODE, n);
    let bytes = memories.code.iter().cycle().skip(8 * address as usize);
    let body: Vec<u8> = bytes.take(8 * n as usize).copied().collect();
    record_bytes(CODE, n, address, &body)
}

/// The same place as a record of data or code, with another body.
pub fn other_body(random: &mut Random, part: &[u8]) -> Vec<u8> {
    let mut other = part.to_vec();
    for byte in &mut other[sheet::HEADER..] {
        *byte ^= random.word() as u8;
    }
    let last = other.len() - 1;
    other[last] = part[last] ^ 1;
    other
}

/// A second-edition sheet: a group of the records, so many times.
pub fn grouped(parts: &Parts, times: u8) -> Vec<u8> {
    let header = group(times, parts.len() as u16);
    [edition(), header, parts.concat()].concat()
}
