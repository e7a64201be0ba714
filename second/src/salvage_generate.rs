//! Salvage cases from a seed.

use crate::comparison;
use crate::random::Random;
use crate::salvage::{self, Salvaged};
use crate::salvage_cases::{Case, MOST_LIST, MOST_OUTPUT, MOST_SHEET};
use crate::sheet::{self, record_bytes, HEADER, MARK};
use crate::sheet_random::{
    good_record, random_body, random_bytes, random_record, random_sheet, sheet_of, CODE, DATA, GS,
    START,
};

/// The bytes of a sector.
pub const SECTOR: usize = 512;
/// One case in so many is large.
const LARGE_EVERY: u64 = 40;
const ALL: [u8; 4] = [DATA, CODE, GS, START];

/// A case, and the kind of sheet that it has.
pub type Made = comparison::Made<Case>;

type Maker = fn(&mut Random) -> Vec<u8>;

/// The kinds of sheets.
pub const KINDS: [(&str, Maker); 18] = [
    ("a valid sheet", random_sheet),
    ("bad sectors of zeros", |r| bad_sectors(r, &[Fill::Zeros])),
    ("bad sectors of random bytes", |r| {
        bad_sectors(r, &[Fill::Random])
    }),
    ("bad sectors of another sheet", |r| {
        bad_sectors(r, &[Fill::Other])
    }),
    ("bad sectors of all kinds", |r| {
        bad_sectors(r, &[Fill::Zeros, Fill::Random, Fill::Other])
    }),
    ("one byte changed", one_byte),
    ("a byte put in or taken out", moved_byte),
    ("cut at its end", |r| cut(r, true)),
    ("cut at its start", |r| cut(r, false)),
    ("one field of a record wrong", wrong_field),
    ("marks in bodies", marks_in_bodies),
    ("records in broken bodies", |r| nested(r, 0)),
    ("records in broken bodies of broken bodies", |r| {
        nested(r, 2)
    }),
    ("marks only", marks_only),
    ("headers only", headers_only),
    ("kinds 0 and 5 among records", second_edition),
    ("records with bytes between them", bytes_between),
    ("random bytes", |r| {
        let length = r.below(80) as usize;
        random_bytes(r, length)
    }),
];

/// The kinds of large sheets.
pub const LARGE_KINDS: [(&str, Maker); 11] = [
    ("131,072 bytes, valid", |r| full(r, &ALL, 0)),
    ("131,072 bytes, bad sectors", |r| {
        let sheet = full(r, &ALL, 0);
        with_bad_sectors(r, sheet, &[Fill::Zeros, Fill::Random, Fill::Other])
    }),
    ("131,072 bytes, starts and bad sectors", |r| {
        let sheet = full(r, &[START], 0);
        with_bad_sectors(r, sheet, &[Fill::Zeros, Fill::Random])
    }),
    ("131,072 bytes, GS and bad sectors", |r| {
        let sheet = full(r, &[GS], 255);
        with_bad_sectors(r, sheet, &[Fill::Zeros, Fill::Random])
    }),
    ("131,072 bytes, marks", |_| {
        MARK.repeat(sheet::MOST_SHEET / 2)
    }),
    ("131,072 bytes, headers of broken records", |r| {
        let header = broken_header(r);
        long_of(&header, sheet::MOST_SHEET)
    }),
    ("131,072 bytes, a byte between starts", |r| {
        let byte = r.pick(&[0, 0x9E, 0x51, 0xFF]);
        let piece = [&good_record(r, START, 0)[..], &[byte]].concat();
        long_of(&piece, sheet::MOST_SHEET)
    }),
    ("131,072 bytes, the last record cut", |r| {
        let mut sheet = full(r, &[DATA], 255);
        sheet.truncate(sheet::MOST_SHEET - 4_086);
        let record = good_record(r, DATA, 255);
        sheet.extend(&record[..4_086.min(record.len() - 1)]);
        sheet.resize(sheet::MOST_SHEET, 0);
        sheet
    }),
    ("131,073 bytes", |r| longer(r, 1)),
    ("131,074 to 131,087 bytes", |r| {
        let more = r.within(2..=15) as usize;
        longer(r, more)
    }),
    ("131,088 bytes", |r| longer(r, 16)),
];

/// A file of so many cases.
pub fn generate(seed: u64, count: u64) -> Vec<u8> {
    let mut file = Vec::new();
    cases(seed, count)
        .iter()
        .for_each(|made| made.case.write(&mut file));
    file
}

pub fn cases(seed: u64, count: u64) -> Vec<Made> {
    let mut random = Random::new(seed);
    let (mut usual, mut large) = ((0..).map(|i| KINDS[i % KINDS.len()]), seed as usize);
    let mut all = Vec::new();
    for index in 0..count {
        let (name, maker) = if index % LARGE_EVERY == LARGE_EVERY / 2 {
            large += 1;
            LARGE_KINDS[large % LARGE_KINDS.len()]
        } else {
            usual.next().expect("there are kinds")
        };
        let sheet = maker(&mut random);
        let case = case_around(&mut random, sheet);
        all.push(Made { name, case });
    }
    all
}

/// A case around a sheet, with buffers that often just hold what is written.
fn case_around(random: &mut Random, sheet: Vec<u8>) -> Case {
    let Salvaged { kept, dropped } = salvage::read(&sheet);
    let (kept, numbers) = (kept.len() as u32, 2 * dropped.len() as u32);
    let few = random.within(2..=40) as u32;
    let fewer = random.below(kept as u64 + 1) as u32;
    let fits = random.percent(60);
    let output = match fits {
        true => random.pick(&[kept, kept, kept + 1, kept + few]),
        false => random.pick(&[kept, kept + few, kept.saturating_sub(1), fewer, 0]),
    };
    let fewer = random.below(numbers as u64 + 1) as u32;
    let list = match fits {
        true => numbers + random.pick(&[0, 0, 1, 1, 2, 3, few]),
        false => {
            let less = random.pick(&[0, 1, 1, 2, 3]);
            random.pick(&[numbers.saturating_sub(less), fewer, 0, 1])
        }
    };
    let (most_output, most_list) = match random.below(400) {
        0 => (MOST_OUTPUT, list),
        1 => (output, MOST_LIST),
        _ => (output, list),
    };
    Case {
        sheet,
        output_length: most_output.min(MOST_OUTPUT),
        list_length: most_list.min(MOST_LIST),
        fill: random.number(),
    }
}

/// What a bad sector is read as.
#[derive(Clone, Copy)]
enum Fill {
    Zeros,
    Random,
    Other,
}

/// A sheet of a few sectors, some of them bad.
fn bad_sectors(random: &mut Random, fills: &[Fill]) -> Vec<u8> {
    let n = random.pick(&[0, 0, 1, 3, 30]);
    let length = 2 * random.within(300..=1_800) as usize;
    let sheet = sheet_of(random, length, &ALL, n);
    with_bad_sectors(random, sheet, fills)
}

fn with_bad_sectors(random: &mut Random, mut sheet: Vec<u8>, fills: &[Fill]) -> Vec<u8> {
    let other = sheet_of(random, sheet.len().next_multiple_of(2), &ALL, 0);
    let sectors = sheet.len().div_ceil(SECTOR) as u64;
    for _ in 0..random.within(1..=2 + sectors / 8) {
        let at = SECTOR * random.below(sectors) as usize;
        let end = (at + SECTOR).min(sheet.len());
        let bytes = match random.pick(fills) {
            Fill::Zeros => vec![0; end - at],
            Fill::Random => random_bytes(random, end - at),
            Fill::Other => other[at..end].to_vec(),
        };
        sheet[at..end].copy_from_slice(&bytes);
    }
    sheet
}

/// A sheet with at least a record.
fn some_sheet(random: &mut Random) -> Vec<u8> {
    let first = random_record(random);
    [first, random_sheet(random)].concat()
}

/// A place in a sheet, often in a header near its start.
fn place(random: &mut Random, sheet: &[u8]) -> usize {
    let at = random.below(sheet.len() as u64) as usize;
    if random.percent(50) {
        at % HEADER
    } else {
        at
    }
}

fn one_byte(random: &mut Random) -> Vec<u8> {
    let mut sheet = some_sheet(random);
    let at = place(random, &sheet);
    let any = random.word() as u8;
    let bit = 1 << random.below(8);
    sheet[at] = random.pick(&[any, sheet[at] ^ bit, 0, 0x9E, 0x51]);
    sheet
}

fn moved_byte(random: &mut Random) -> Vec<u8> {
    let mut sheet = some_sheet(random);
    let at = place(random, &sheet);
    if random.percent(50) {
        sheet.insert(at, random.word() as u8);
    } else {
        sheet.remove(at);
    }
    sheet
}

fn cut(random: &mut Random, end: bool) -> Vec<u8> {
    let sheet = some_sheet(random);
    let few = random.within(1..=8) as usize;
    let any = random.below(sheet.len() as u64) as usize;
    let away = random.pick(&[few, few, any]).min(sheet.len());
    if end {
        sheet[..sheet.len() - away].to_vec()
    } else {
        sheet[away..].to_vec()
    }
}

/// A record that the reader refuses, with the body that its kind and count say.
fn broken_record(random: &mut Random) -> Vec<u8> {
    let mut kind = random.pick(&ALL);
    let mut n = if kind == START {
        0
    } else {
        random.within(1..=4) as u8
    };
    let mut address = 0;
    let mut body = random_body(random, kind, n);
    match random.below(6) {
        0 => kind = random.pick(&[0, 5, 6, 0x9E, 255]),
        1 => {
            n = if kind == START {
                random.pick(&[1, 255])
            } else {
                0
            }
        }
        2 => address = random.pick(&[2_048, 2_049, 0x519E, u16::MAX]),
        3 if kind == GS => {
            let at = 16 * random.below(n as u64) as usize + random.within(9..=15) as usize;
            body[at] = random.pick(&[1, 0x80, 0x9E]);
        }
        4 if !body.is_empty() => {
            body.truncate(random.below(body.len() as u64) as usize);
        }
        _ => {
            let mut record = record_bytes(kind, n, address, &body);
            record[random.below(2) as usize] ^= 1 << random.below(8);
            return record;
        }
    }
    record_bytes(kind, n, address, &body)
}

/// Records of which some are refused, each by one field.
fn wrong_field(random: &mut Random) -> Vec<u8> {
    let records = random.within(1..=7);
    let mut sheet = Vec::new();
    for _ in 0..records {
        sheet.extend(if random.percent(50) {
            broken_record(random)
        } else {
            short_record(random)
        });
    }
    sheet
}

/// A record of a few bytes that is accepted.
fn short_record(random: &mut Random) -> Vec<u8> {
    let kind = random.pick(&ALL);
    let n = random.within(1..=3) as u8;
    good_record(random, kind, if kind == START { 0 } else { n })
}

/// A header without a body that makes a record of it.
fn broken_header(random: &mut Random) -> Vec<u8> {
    let kind = random.pick(&[0, 1, 1, 2, 2, 3, 3, 4, 5]);
    let n = random.pick(&[0, 1, 255]);
    let address = random.pick(&[0, 1, 1_024, 2_048]);
    record_bytes(kind, n, address, &[])
}

/// Puts bytes into a body from a place on, as far as it goes.
fn put(body: &mut [u8], at: usize, bytes: &[u8]) {
    for (to, &byte) in body.iter_mut().skip(at).zip(bytes) {
        *to = byte;
    }
}

/// Bodies with marks and headers in them; now and then the record is broken.
fn marks_in_bodies(random: &mut Random) -> Vec<u8> {
    let mut sheet = Vec::new();
    for _ in 0..random.within(1..=4) {
        let kind = random.pick(&[DATA, CODE]);
        let n = random.within(1..=6) as u8;
        let mut body = random_body(random, kind, n);
        for _ in 0..random.within(1..=5) {
            let at = random.below(body.len() as u64) as usize;
            let start = good_record(random, START, 0);
            let header = broken_header(random);
            let what = random.below(4);
            put(
                &mut body,
                at,
                match what {
                    0 => &MARK,
                    1 => &MARK[..1],
                    2 => &header,
                    _ => &start,
                },
            );
        }
        let mut record = record_bytes(kind, n, random.pick(&[0, 9, 1_023]), &body);
        if random.percent(40) {
            let at = random.below(HEADER as u64) as usize;
            record[at] ^= random.pick(&[1, 0x80]);
        }
        sheet.extend(record);
    }
    sheet
}

/// Whole valid records in the bodies of records that are broken, those in others to a depth.
fn nested(random: &mut Random, depth: u32) -> Vec<u8> {
    let mut body = random_bytes(random, 3);
    body.truncate(random.below(4) as usize);
    for _ in 0..random.within(1..=3) {
        body.extend(if depth > 0 && random.percent(70) {
            nested(random, depth - 1)
        } else {
            short_record(random)
        });
        let between = random.pick(&[0, 0, 1, 5]);
        body.extend(random_bytes(random, between));
    }
    let kind = random.pick(&[DATA, CODE, GS]);
    let size = if kind == CODE { 8 } else { 16 };
    let n = body.len().div_ceil(size).clamp(1, 255);
    let tail = match random.below(4) {
        // The body ends early: cut where the sheet does.
        0 => body.len(),
        // It ends inside the last record of it, or behind it.
        1 => n * size + 7,
        _ => n * size,
    };
    body.resize(tail.max(body.len()), 0);
    let broken_by = random.below(4);
    let address = match (kind, broken_by) {
        (GS, 0) => 1,
        (_, 0) => 4_000,
        _ => 0,
    };
    let mut record = record_bytes(kind, n as u8, address, &body);
    match broken_by {
        1 => record[2] = random.pick(&[0, 5, 77]),
        2 => record[3] = 0,
        _ => {}
    }
    record
}

fn marks_only(random: &mut Random) -> Vec<u8> {
    let length = random.below(120) as usize;
    let piece: &[u8] = match random.below(5) {
        0 => &[0x9E],
        1 => &[0x51],
        2 => &[0x9E, 0x9E, 0x51],
        3 => &[0x51, 0x9E],
        _ => &MARK,
    };
    long_of(piece, length)
}

fn headers_only(random: &mut Random) -> Vec<u8> {
    let mut sheet = Vec::new();
    for _ in 0..random.within(1..=20) {
        sheet.extend(broken_header(random));
    }
    if random.percent(30) {
        sheet.extend(good_record(random, START, 0));
    }
    sheet
}

/// Sheets as of the second edition: its first record and groups are damage.
fn second_edition(random: &mut Random) -> Vec<u8> {
    let mut sheet = record_bytes(0, 2, 0, &[]);
    if random.percent(20) {
        sheet.clear();
    }
    for _ in 0..random.within(1..=6) {
        let inside = random.within(1..=3);
        sheet.extend(match random.below(4) {
            0 => record_bytes(5, random.word() as u8, inside as u16, &[]),
            1 => record_bytes(0, 2, 0, &[]),
            _ => short_record(random),
        });
    }
    sheet
}

fn bytes_between(random: &mut Random) -> Vec<u8> {
    let mut sheet = Vec::new();
    let records = random.pick(&[1, 2, 3, 20, 60]);
    for _ in 0..records {
        let before = random.pick(&[0, 0, 1, 1, 2, 6]);
        sheet.extend(random_bytes(random, before));
        sheet.extend(short_record(random));
    }
    let after = random.pick(&[0, 1, 5]);
    sheet.extend(random_bytes(random, after));
    sheet
}

/// A piece over and over, to a length.
fn long_of(piece: &[u8], length: usize) -> Vec<u8> {
    piece.iter().copied().cycle().take(length).collect()
}

/// A valid sheet of 131,072 bytes.
fn full(random: &mut Random, kinds: &[u8], n: u8) -> Vec<u8> {
    sheet_of(random, sheet::MOST_SHEET, kinds, n)
}

/// A sheet too long by so many bytes: valid records, and bytes or a record at the end.
fn longer(random: &mut Random, more: usize) -> Vec<u8> {
    let length = (sheet::MOST_SHEET + more).min(MOST_SHEET as usize);
    match random.below(3) {
        0 => vec![0; length],
        1 if length % 2 == 0 => sheet_of(random, length, &ALL, 0),
        _ => {
            let mut sheet = full(random, &ALL, 0);
            sheet.resize(length, 0x9E);
            sheet
        }
    }
}

#[cfg(test)]
mod tests {
    use super::*;
    use crate::salvage_cases::results;
    use crate::salvage_counts::Counts;

    #[test]
    fn a_seed_gives_one_file() {
        let file = generate(9, 100);
        assert!(file == generate(9, 100));
        assert!(file != generate(10, 100));
        let given = results(&file, &mut Counts::default());
        assert_eq!((given.damage, given.broken), (None, None));
        assert_eq!(given.starts.len(), 100);
    }

    #[test]
    fn large_sheets() {
        let mut random = Random::new(3);
        for (name, maker) in LARGE_KINDS {
            let length = maker(&mut random).len();
            match name.split(' ').next() {
                Some("131,072") => assert_eq!(length, 131_072, "{name}"),
                Some("131,073") => assert_eq!(length, 131_073),
                Some("131,088") => assert_eq!(length, 131_088),
                _ => assert!((131_074..131_088).contains(&length)),
            }
        }
    }

    /// What is made as broken is mostly dropped in part, and records in broken bodies are kept.
    #[test]
    fn broken_ones() {
        let mut random = Random::new(4);
        let (mut refused, mut kept) = (0, 0);
        for _ in 0..300 {
            refused += !sheet::is_first_edition(&broken_record(&mut random)) as u32;
            let salvaged = salvage::read(&nested(&mut random, 0));
            kept += (!salvaged.kept.is_empty() && !salvaged.dropped.is_empty()) as u32;
        }
        assert!(refused > 250, "{refused}");
        assert!(kept > 150, "{kept}");
    }
}
