//! Points about sheets of the second edition, worked by hand.

use crate::group_sheets::{edition, group, nested};
use crate::refusals;
use crate::run_counts::RunCounts;
use crate::sheet::{record_bytes, Refusal};
use crate::sheet_cases::{put_bytes, Case, Filled};
use crate::sheet_points::{Expected, Point, ENDED};
use crate::state_block::{path_word, unit_word, PATH2, VIF1};
use crate::words::{put_number, put_word};

const DBF: (usize, u32) = (VIF1 + unit_word::DBF, 1);
const START: [u8; 6] = [0x9E, 0x51, 4, 0, 5, 0];

/// The points with their results.
pub fn expected() -> Vec<Expected> {
    let accepted = [
        no_record(),
        record_alone(),
        thrice(),
        group_in_a_group(),
        eight_deep(),
        data_and_gs_twice(),
    ];
    let accepted = accepted.iter().map(|point| Expected {
        name: point.name,
        case: point.case(),
        result: point.expected(),
    });
    let refused = refused().into_iter().map(|point| Expected {
        name: point.name,
        result: point.result(),
        case: point.case,
    });
    accepted.chain(refused).chain([longest()]).collect()
}

fn no_record() -> Point {
    Point {
        name: "second edition without a record",
        sheet: &[0x9E, 0x51, 0x00, 0x02, 0x00, 0x00],
        chain: &[0x7000_0000, 0, 0, 0],
        steps: 1,
        packets: 0,
        taken: [0, 0, 0],
        data: &[],
        code: &[],
        log: &[],
        state: &[ENDED],
    }
}

#[rustfmt::skip]
fn record_alone() -> Point {
    Point {
        name: "second edition without a group",
        sheet: &[
            0x9E, 0x51, 0x00, 0x02, 0x00, 0x00,
            0x9E, 0x51, 0x04, 0x00, 0x05, 0x00,
        ],
        chain: &[
            0x1000_0001, 0, 0, 0,
            0, 0, 0, 0x1400_0005,
            0x7000_0000, 0, 0, 0,
        ],
        steps: 6,
        packets: 0,
        taken: [4, 3, 1],
        data: &[],
        code: &[],
        log: &[[0, 256, 5]],
        state: &[ENDED, DBF],
    }
}

#[rustfmt::skip]
fn thrice() -> Point {
    Point {
        name: "a start three times",
        sheet: &[
            0x9E, 0x51, 0x00, 0x02, 0x00, 0x00,
            0x9E, 0x51, 0x05, 0x03, 0x01, 0x00,
            0x9E, 0x51, 0x04, 0x00, 0x05, 0x00,
        ],
        chain: &[
            0x1000_0001, 0, 0, 0,
            0, 0, 0, 0x1400_0005,
            0x1000_0001, 0, 0, 0,
            0, 0, 0, 0x1400_0005,
            0x1000_0001, 0, 0, 0,
            0, 0, 0, 0x1400_0005,
            0x7000_0000, 0, 0, 0,
        ],
        // 3 x 5 + 1.
        steps: 16,
        packets: 0,
        taken: [12, 9, 3],
        data: &[],
        code: &[],
        log: &[[0, 256, 5], [0, 256, 5], [0, 256, 5]],
        // DBF flips three times.
        state: &[ENDED, DBF],
    }
}

#[rustfmt::skip]
fn group_in_a_group() -> Point {
    Point {
        // 1, then 2 twice, then 3: the inner group is one of two members, 3 stands outside.
        name: "a group as one of two members",
        sheet: &[
            0x9E, 0x51, 0x00, 0x02, 0x00, 0x00,
            0x9E, 0x51, 0x05, 0x01, 0x02, 0x00,
            0x9E, 0x51, 0x04, 0x00, 0x01, 0x00,
            0x9E, 0x51, 0x05, 0x02, 0x01, 0x00,
            0x9E, 0x51, 0x04, 0x00, 0x02, 0x00,
            0x9E, 0x51, 0x04, 0x00, 0x03, 0x00,
        ],
        chain: &[
            0x1000_0001, 0, 0, 0,
            0, 0, 0, 0x1400_0001,
            0x1000_0001, 0, 0, 0,
            0, 0, 0, 0x1400_0002,
            0x1000_0001, 0, 0, 0,
            0, 0, 0, 0x1400_0002,
            0x1000_0001, 0, 0, 0,
            0, 0, 0, 0x1400_0003,
            0x7000_0000, 0, 0, 0,
        ],
        steps: 21,
        packets: 0,
        taken: [16, 12, 4],
        data: &[],
        code: &[],
        log: &[[0, 256, 1], [0, 256, 2], [0, 256, 2], [0, 256, 3]],
        // DBF flips four times.
        state: &[ENDED],
    }
}

#[rustfmt::skip]
fn eight_deep() -> Point {
    Point {
        name: "one instruction in eight groups, the innermost repeated",
        sheet: &[
            0x9E, 0x51, 0x00, 0x02, 0x00, 0x00,
            0x9E, 0x51, 0x05, 0x01, 0x01, 0x00,
            0x9E, 0x51, 0x05, 0x01, 0x01, 0x00,
            0x9E, 0x51, 0x05, 0x01, 0x01, 0x00,
            0x9E, 0x51, 0x05, 0x01, 0x01, 0x00,
            0x9E, 0x51, 0x05, 0x01, 0x01, 0x00,
            0x9E, 0x51, 0x05, 0x01, 0x01, 0x00,
            0x9E, 0x51, 0x05, 0x01, 0x01, 0x00,
            0x9E, 0x51, 0x05, 0x02, 0x01, 0x00,
            0x9E, 0x51, 0x02, 0x01, 0xFF, 0x07,
            0x01, 0x02, 0x03, 0x04, 0x05, 0x06, 0x07, 0x88,
        ],
        chain: &[
            0x1000_0002, 0, 0, 0,
            0, 0, 0, 0x4A01_07FF,
            0x0403_0201, 0x8807_0605, 0, 0,
            0x1000_0002, 0, 0, 0,
            0, 0, 0, 0x4A01_07FF,
            0x0403_0201, 0x8807_0605, 0, 0,
            0x7000_0000, 0, 0, 0,
        ],
        // 2 x 9 + 1.
        steps: 19,
        packets: 0,
        taken: [16, 10, 4],
        data: &[],
        code: &[(4_094, 0x0403_0201), (4_095, 0x8807_0605)],
        log: &[],
        state: &[ENDED],
    }
}

#[rustfmt::skip]
fn data_and_gs_twice() -> Point {
    Point {
        name: "data and a GS write twice",
        sheet: &[
            0x9E, 0x51, 0x00, 0x02, 0x00, 0x00,
            0x9E, 0x51, 0x05, 0x02, 0x02, 0x00,
            0x9E, 0x51, 0x01, 0x01, 0xFF, 0x03,
            0x01, 0x02, 0x03, 0x04, 0x05, 0x06, 0x07, 0x08,
            0x09, 0x0A, 0x0B, 0x0C, 0x0D, 0x0E, 0x0F, 0x10,
            0x9E, 0x51, 0x03, 0x01, 0x00, 0x00,
            0x01, 0x02, 0x03, 0x04, 0x05, 0x06, 0x07, 0x88,
            0x47, 0x00, 0x00, 0x00, 0x00, 0x00, 0x00, 0x00,
        ],
        chain: &[
            0x1000_0002, 0, 0, 0,
            0, 0x0100_0101, 0x0500_0000, 0x6C01_03FF,
            0x0403_0201, 0x0807_0605, 0x0C0B_0A09, 0x100F_0E0D,
            0x1000_0003, 0, 0, 0,
            0, 0, 0, 0x5000_0002,
            0x0000_8001, 0x1000_0000, 0x0000_000E, 0,
            0x0403_0201, 0x8807_0605, 0x0000_0047, 0,
            0x1000_0002, 0, 0, 0,
            0, 0x0100_0101, 0x0500_0000, 0x6C01_03FF,
            0x0403_0201, 0x0807_0605, 0x0C0B_0A09, 0x100F_0E0D,
            0x1000_0003, 0, 0, 0,
            0, 0, 0, 0x5000_0002,
            0x0000_8001, 0x1000_0000, 0x0000_000E, 0,
            0x0403_0201, 0x8807_0605, 0x0000_0047, 0,
            0x7000_0000, 0, 0, 0,
        ],
        // 2 x (9 + 7) + 1.
        steps: 33,
        packets: 2,
        taken: [24, 8, 10],
        data: &[
            (4_092, 0x0403_0201), (4_093, 0x0807_0605),
            (4_094, 0x0C0B_0A09), (4_095, 0x100F_0E0D),
        ],
        code: &[],
        log: &[[2, 0x47, 0x8807_0605_0403_0201], [2, 0x47, 0x8807_0605_0403_0201]],
        state: &[
            ENDED,
            (VIF1 + unit_word::CL, 1),
            (VIF1 + unit_word::WL, 1),
            (PATH2 + path_word::Q, 0x3F80_0000),
        ],
    }
}

/// A case and the refusal of its builder and steps; of the other parts too where the memories are
/// whole, else 2.
struct Refused {
    name: &'static str,
    case: Case,
    refusal: Refusal,
}

/// The sheet between whole memories.
fn whole(name: &'static str, sheet: &[Vec<u8>], refusal: Refusal) -> Refused {
    let case = Case {
        sheet: sheet.concat(),
        ..no_record().case()
    };
    Refused {
        name,
        case,
        refusal,
    }
}

/// The sheet between short memories.
fn short(name: &'static str, sheet: &[Vec<u8>], refusal: Refusal) -> Refused {
    let mut point = whole(name, sheet, refusal);
    point.case.data_length = 0;
    point.case.code_length = 0;
    point
}

fn refused() -> Vec<Refused> {
    let (first, start) = (edition(), START.to_vec());
    let of = |kind, count, address| record_bytes(kind, count, address, &[]);
    let data = record_bytes(1, 255, 0, &[7; 16 * 255]);
    let deep = |inside: &[u8]| nested(&[1; 8], inside);
    let no = Vec::new;
    vec![
        short("kind 0, count 1, address 1", &[of(0, 1, 1)], (42, 0)),
        short("kind 0, address 1", &[of(0, 2, 1)], (43, 0)),
        short("kind 0, address 256", &[of(0, 2, 256)], (43, 0)),
        short("kind 0 cut", &[first[..5].to_vec()], (44, 0)),
        short("kind 0 second", &[start.clone(), first.clone()], (41, 6)),
        short("kind 0 twice", &[first.clone(), of(0, 1, 1)], (41, 6)),
        short(
            "kind 0 in a group",
            &[first.clone(), group(2, 1), first.clone()],
            (41, 12),
        ),
        whole("kind 5 first", &[group(0, 0), start.clone()], (41, 0)),
        short("kind 6", &[first.clone(), of(6, 1, 1)], (41, 6)),
        short("0 repetitions", &[first.clone(), group(0, 0)], (42, 6)),
        short("a group of none", &[first.clone(), group(1, 0)], (43, 6)),
        short("all missing", &[first.clone(), group(9, 256)], (44, 12)),
        whole(
            "one of two missing",
            &[first.clone(), group(2, 2), start.clone()],
            (44, 18),
        ),
        short(
            "one of two missing, 5 bytes left",
            &[first.clone(), group(2, 2), start.clone(), vec![0; 5]],
            (44, 18),
        ),
        short(
            "one missing outside a whole group",
            &[first.clone(), group(1, 2), group(1, 1), start.clone()],
            (44, 24),
        ),
        whole(
            "a ninth group",
            &[deep(&group(1, 1)), start.clone()],
            (52, 54),
        ),
        short(
            "a ninth group of 0 repetitions",
            &[deep(&group(0, 0))],
            (42, 54),
        ),
        short("a ninth group of none", &[deep(&group(1, 0))], (43, 54)),
        short("a ninth group and no more", &[deep(&group(1, 1))], (52, 54)),
        whole(
            "a start 255 times 255",
            &[nested(&[255, 255], &START)],
            (49, 0),
        ),
        short("255^8 starts", &[nested(&[255; 8], &START)], (49, 0)),
        // 128^8 x 8 starts of 32 bytes are 2^64 bytes, and the end tag 16 more.
        short(
            "2^64 bytes and 16",
            &[nested(&[128; 7], &group(128, 8)), START.repeat(8)],
            (49, 0),
        ),
        short(
            "the longest chain and a start",
            &[nested(&[255], &data), start.clone()],
            (49, 0),
        ),
        short(
            "255^8 starts and a stray byte",
            &[nested(&[255; 8], &START), vec![0x9E], no()],
            (44, 60),
        ),
    ]
}

impl Refused {
    fn result(&self) -> Vec<u8> {
        let memories = Filled::new(&self.case);
        let other = match self.case.data_length {
            0 => (refusals::DATA, 0),
            _ => self.refusal,
        };
        let mut out = Vec::new();
        put_refusal(&mut out, self.refusal);
        put_word(&mut out, self.refusal.0);
        put_bytes(&mut out, &self.case.output());

        put_refusal(&mut out, self.refusal);
        put_number(&mut out, 0);

        put_refusal(&mut out, other);
        put_number(&mut out, 0);
        memories.write(&mut out);

        put_refused_run(&mut out, &self.case, other);
        out
    }
}

fn put_refusal(out: &mut Vec<u8>, (number, offset): Refusal) {
    put_word(out, number);
    put_word(out, offset as u32);
}

/// Part 4 of a case whose run is refused: nothing has changed.
fn put_refused_run(out: &mut Vec<u8>, case: &Case, refusal: Refusal) {
    put_refusal(out, refusal);
    RunCounts::default().write(out);
    case.state.iter().for_each(|&word| put_word(out, word));
    Filled::new(case).write(out);
    put_bytes(out, &case.main());
}

/// 255 data records of 257 quadwords each and the end tag are 1,048,576 bytes: accepted, with no
/// room in the output and in main memory.
fn longest() -> Expected {
    let data = record_bytes(1, 255, 1_000, &[7; 16 * 255]);
    let case = Case {
        sheet: nested(&[255], &data),
        ..no_record().case()
    };
    let too_short = (refusals::OUTPUT, 0);
    let mut memories = Filled::new(&case);
    // 24 vectors to the end, 231 from the start.
    memories.data[4 * 1_000..].fill(0x0707_0707);
    memories.data[..4 * 231].fill(0x0707_0707);
    let mut result = Vec::new();
    put_refusal(&mut result, too_short);
    put_word(&mut result, refusals::OUTPUT);
    put_bytes(&mut result, &case.output());

    // 255 x (5 + 4 x 255) + 1.
    put_number(&mut result, 0);
    put_number(&mut result, 261_376);

    put_number(&mut result, 0);
    put_number(&mut result, 0);
    memories.write(&mut result);

    put_refused_run(&mut result, &case, too_short);
    Expected {
        name: "a chain of 1,048,576 bytes",
        case,
        result,
    }
}

#[cfg(test)]
mod tests {
    use super::*;
    use crate::sheet_cases;
    use crate::sheet_counts::Counts;
    use crate::sheet_points::{check, file};

    #[test]
    fn own_results() {
        let points = expected();
        let results = sheet_cases::results(&file(&points), &mut Counts::default());
        assert_eq!((results.damage, results.broken), (None, None));
        assert_eq!(check(&points, &results.bytes), Ok(()));
        for at in (0..results.bytes.len()).step_by(7_919) {
            let mut changed = results.bytes.clone();
            changed[at] ^= 0x10;
            assert!(check(&points, &changed).is_err());
        }
    }
}
