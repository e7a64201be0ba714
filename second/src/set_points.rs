//! Points about setting ROW and COL, worked by hand: what a later run makes of what was set.

use crate::capture_cases::{Call, Case, Standing};
use crate::capture_generate::{plain_case, run, set, start, tagged, NO_LIMIT};
use crate::chain::{State, ALLOWANCE_USED, DONE, END};
use crate::model::{Model, MODELS};
use crate::refusals;
use crate::state_block::{chain_word, unit_word, PATH3, VIF0, VIF1};

const STCYCL_1_1: u32 = 0x0100_0101;
const STCYCL_4_4: u32 = 0x0100_0404;
const STMOD_1: u32 = 0x0500_0001;
const STMOD_2: u32 = 0x0500_0002;
const STMASK: u32 = 0x2000_0000;
const STROW: u32 = 0x3000_0000;
const STCOL: u32 = 0x3100_0000;
/// UNPACK V4-32 without and with a mask, at quadword 5.
const UNPACK: u32 = 0x6C00_0005;
const UNPACK_M: u32 = 0x7C00_0005;

/// Calls with the answer of each.
type Calls = Vec<(Call, u32)>;

struct Point {
    name: &'static str,
    case: Case,
    answers: Vec<u32>,
    /// Words of the state block after a call: the call, the word and its value.
    words: Vec<(usize, usize, u32)>,
    /// Quadwords of a unit's data memory at the end.
    quadwords: Vec<(Model, usize, [u32; 4])>,
}

/// A unit: its number among sets, its channel, and where its block starts.
fn places(model: Model) -> (u32, usize) {
    match model {
        Model::Vif0 => (0, VIF0),
        Model::Vif1 => (1, VIF1),
    }
}

fn point(name: &'static str, payload: &[u32], calls: Calls) -> Point {
    let main = tagged(END, payload);
    let (calls, answers): (Vec<Call>, Vec<u32>) = calls.into_iter().unzip();
    Point {
        name,
        case: plain_case(&State::reset(), &main, 0, &calls),
        answers,
        words: Vec::new(),
        quadwords: Vec::new(),
    }
}

/// Sets of a unit that are all accepted, from a number on.
fn sets(unit: u32, from: u32, values: &[u32]) -> Calls {
    let numbered = (from..).zip(values);
    numbered
        .map(|(i, &value)| (set(unit, i, value), 0))
        .collect()
}

fn points() -> Vec<Point> {
    let both = |make: fn(Model) -> Vec<Point>| MODELS.into_iter().flat_map(make);
    let mut points: Vec<Point> = both(read_by_runs).collect();
    points.extend(both(beside_a_code));
    points.extend(refused());
    points.push(meaningless());
    points.push(out_of_range());
    points
}

/// ROW and COL that are set before a run, and what UNPACK makes of them.
fn read_by_runs(model: Model) -> Vec<Point> {
    let (unit, at) = places(model);
    let go = [(start(unit, 0, 0), 0), (run(NO_LIMIT), DONE)];
    let with_go = |sets: Calls| [&sets[..], &go].concat();
    let row = [0x10, 0x20, u32::MAX, 0x8000_0000];
    let col = [0xC0, 0xC1, 0xC2, 0xFFFF_FFC3];
    let added = [0x11, 0x22, 2, 0x8000_0004];
    let vector = UNPACK | 1 << 16;

    let payload = [STCYCL_1_1, STMOD_1, vector, 1, 2, 3, 4, 0];
    let mut offset = point("ROW in MODE 1", &payload, with_go(sets(unit, 0, &row)));
    offset.quadwords.push((model, 5, added));
    offset.words.push((5, at + 13, 0x10));

    let payload = [STCYCL_1_1, STMOD_2, vector, 1, 2, 3, 4, 0];
    let mut difference = point("ROW in MODE 2", &payload, with_go(sets(unit, 0, &row)));
    difference.quadwords.push((model, 5, added));
    let after = (0..4).map(|i| (5, at + 13 + i, added[i]));
    difference.words.extend(after);

    let masked = |mask: u32| {
        let codes = [STCYCL_4_4, STMASK, mask, UNPACK_M | 4 << 16];
        [&codes[..], &[7; 16]].concat()
    };
    let mut of_field = point(
        "ROW by mask code 1",
        &masked(0x5555_5555),
        with_go(sets(unit, 0, &row)),
    );
    of_field.quadwords = (5..9).map(|i| (model, i, row)).collect();
    let mut of_row = point(
        "COL by mask code 2",
        &masked(0xAAAA_AAAA),
        with_go(sets(unit, 4, &col)),
    );
    of_row.quadwords = (0..4).map(|i| (model, 5 + i, [col[i]; 4])).collect();

    // What the other unit has is not read.
    let mut others = point(
        "COL of the other unit",
        &masked(0xAAAA_AAAA),
        with_go(sets(1 - unit, 4, &col)),
    );
    others.quadwords = (5..9).map(|i| (model, i, [0; 4])).collect();
    vec![offset, difference, of_field, of_row, others]
}

/// Sets beside STROW and STCOL: 51 from the code to its last word, for that unit alone.
fn beside_a_code(model: Model) -> Vec<Point> {
    let (unit, at) = places(model);
    let other_at = places(model.other()).1;
    let code = |name, code: u32, first: u32, register: usize| {
        let calls = vec![
            (start(unit, 0, 0), 0),
            (set(unit, first, 100), 0),
            (run(2), ALLOWANCE_USED),
            (set(unit, first, 9), refusals::WAITING),
            (set(1 - unit, first, 8), 0),
            (run(3), ALLOWANCE_USED),
            (set(unit, first, 9), refusals::WAITING),
            (set(unit, 8, 9), refusals::NUMBER),
            (run(1), ALLOWANCE_USED),
            (set(unit, first + 2, 9), 0),
            (run(NO_LIMIT), DONE),
            (set(unit, first + 3, 5), 0),
        ];
        let mut point = point(name, &[code, 1, 2, 3, 4, 0, 0, 0], calls);
        point.words = vec![
            (1, at + register, 100),
            (3, at + register, 100),
            (4, other_at + register, 8),
            (6, at + register, 1),
            (9, at + register + 2, 9),
            (10, at + register + 2, 9),
            (11, at + register, 1),
            (11, at + register + 1, 2),
            (11, at + register + 2, 9),
            (11, at + register + 3, 5),
            (11, other_at + register, 8),
        ];
        point
    };
    vec![
        code("beside STROW", STROW, 0, unit_word::ROW),
        code("beside STCOL", STCOL, 4, unit_word::COL),
    ]
}

/// 50 before 5, on a block that exists in no state and on one that does.
fn refused() -> Vec<Point> {
    let calls = || {
        vec![
            (set(0, 8, 1), refusals::NUMBER),
            (set(2, 8, 1), refusals::NUMBER),
            (set(2, 7, 1), refusals::RANGE),
            (set(1, u32::MAX, 1), refusals::NUMBER),
            (set(u32::MAX, 0, 1), refusals::RANGE),
        ]
    };
    let numbers = point("numbers and units", &[], calls());
    let mut calls = calls();
    calls.push((set(0, 0, 1), refusals::RANGE));
    calls.push((set(1, 7, 1), refusals::RANGE));
    let mut none = point("no state", &[], calls);
    none.case.state[PATH3 + 1] = 2;
    none.case.state[chain_word::PAYLOAD_AT] = 77;
    none.words = vec![(5, VIF0 + 13, 0), (6, VIF1 + 20, 0), (6, 10, 77)];
    vec![numbers, none]
}

/// Words that mean nothing stay over a set, and are zero after a run or a start.
fn meaningless() -> Point {
    let calls = vec![
        (set(1, 3, 6), 0),
        (set(1, 8, 6), refusals::NUMBER),
        (set(0, 4, 7), 0),
        (start(2, 0, 0), 0),
        (set(0, 5, 8), 0),
        (run(NO_LIMIT), DONE),
    ];
    let mut point = point("words that mean nothing", &[], calls);
    let junk = [
        (chain_word::STACK, 11),
        (chain_word::TAG_WORD_AT, 12),
        (chain_word::PAYLOAD_AT, 13),
        (VIF0 + unit_word::DUE, 14),
        (VIF1 + unit_word::HELD, 15),
        (PATH3 + 8, 16),
    ];
    for (at, word) in junk {
        point.case.state[at] = word;
        let kept = [0, 1, 2].map(|call| (call, at, word));
        let gone = [3, 4, 5].map(|call| (call, at, 0));
        point.words.extend(kept.into_iter().chain(gone));
    }
    point.words.extend([
        (0, VIF1 + 16, 6),
        (5, VIF1 + 16, 6),
        (5, VIF0 + 17, 7),
        (5, VIF0 + 18, 8),
    ]);
    point
}

/// A set does not ask whether the block is in range; a run does.
fn out_of_range() -> Point {
    let calls = vec![
        (set(1, 0, 6), 0),
        (run(NO_LIMIT), refusals::RANGE),
        (set(0, 7, 5), 0),
        (start(1, 0, 0), refusals::RANGE),
    ];
    let mut point = point("a block out of range", &[], calls);
    point.case.state[VIF1 + unit_word::MODE] = 3;
    point.words = vec![(3, VIF1 + 13, 6), (3, VIF0 + 20, 5), (3, VIF1 + 9, 3)];
    point
}

impl Point {
    fn check(&self) -> Result<(), String> {
        let wrong = |what: String| Err(format!("{}: {what}", self.name));
        let mut standing = Standing::new(&self.case);
        for (i, call) in self.case.calls.iter().enumerate() {
            let answer = standing.make(call);
            if answer != self.answers[i] {
                return wrong(format!("call {i}: {answer}"));
            }
            for &(_, at, word) in self.words.iter().filter(|word| word.0 == i) {
                let given = standing.block()[at];
                if given != word {
                    return wrong(format!("word {at} after call {i}: {given:X}"));
                }
            }
        }
        for (model, at, words) in &self.quadwords {
            let given = &standing.memories(*model).data[4 * at..][..4];
            if given != words {
                return wrong(format!("quadword {at}: {given:X?}"));
            }
        }
        Ok(())
    }
}

pub fn in_captures() -> Vec<Case> {
    points().into_iter().map(|point| point.case).collect()
}

/// Checks all points; hands back how many there are.
pub fn check() -> Result<usize, String> {
    let points = points();
    points.iter().try_for_each(Point::check)?;
    Ok(points.len())
}

#[cfg(test)]
mod tests {
    use super::*;

    #[test]
    fn all_are_right() {
        assert_eq!(check(), Ok(18));
    }

    #[test]
    fn a_wrong_point_is_told() {
        for i in 0..points().len() {
            let mut point = points().swap_remove(i);
            point.answers[0] ^= 1;
            assert!(point.check().is_err());
        }
        let mut point = points().swap_remove(0);
        point.quadwords[0].2[3] ^= 1;
        assert!(point.check().is_err());
        let mut point = points().swap_remove(0);
        point.words[0].2 ^= 1;
        assert!(point.check().is_err());
    }
}
