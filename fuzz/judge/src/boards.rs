//! The parts of two boards compared, element by element.

use crate::log;
use crate::model::Model;
use crate::refusals;

/// The words of a quadword and the bytes of an instruction.
const QUADWORD: usize = 4;
const INSTRUCTION: usize = 8;

/// A unit's memories.
pub struct Memories<'a> {
    pub data: &'a [u32],
    pub code: &'a [u8],
}

pub struct Board<'a> {
    pub vif1: Memories<'a>,
    pub vif0: Memories<'a>,
    pub log: &'a [u64],
    pub used: u64,
}

impl Board<'_> {
    fn memories(&self, model: Model) -> &Memories<'_> {
        match model {
            Model::Vif0 => &self.vif0,
            Model::Vif1 => &self.vif1,
        }
    }

    /// The log's entries that are used. The length has been tested.
    fn entries(&self) -> &[u64] {
        &self.log[..log::numbers(self.used)]
    }
}

#[derive(Clone, Copy)]
enum Part {
    Data(Model),
    Code(Model),
    Log,
}

/// The parts: number i is asked for by bit i, and has the numbers 2i and 2i + 1 of the result.
const PARTS: [Part; 5] = [
    Part::Data(Model::Vif1),
    Part::Code(Model::Vif1),
    Part::Log,
    Part::Data(Model::Vif0),
    Part::Code(Model::Vif0),
];
const ALL_PARTS: u32 = (1 << PARTS.len()) - 1;

/// The numbers of a result.
pub const NUMBERS: usize = 2 * PARTS.len();

impl Part {
    /// The refusal that the part earns on a board.
    fn refusal(self, board: &Board) -> Option<u32> {
        let (right, refusal) = match self {
            Part::Data(model) => (
                board.memories(model).data.len() == model.sizes().data_words(),
                refusals::DATA,
            ),
            Part::Code(model) => (
                board.memories(model).code.len() == model.sizes().code_bytes(),
                refusals::CODE,
            ),
            Part::Log => (log::in_range(board.log.len(), board.used), refusals::LOG),
        };
        (!right).then_some(refusal)
    }

    /// The quadwords of the part, if it is a data memory.
    fn quadwords(self) -> Option<usize> {
        match self {
            Part::Data(model) => Some(model.sizes().data_words() / QUADWORD),
            _ => None,
        }
    }

    /// The part's differences between two boards on which it is not refused; of a data memory in
    /// the quadwords from the first to the last, where there is a range.
    fn differences(self, a: &Board, b: &Board, quadwords: Option<(u64, u64)>) -> Differences {
        match self {
            Part::Data(model) => {
                let (left, right) = (a.memories(model).data, b.memories(model).data);
                let Some((first, last)) = quadwords else {
                    return differences(left, right, QUADWORD);
                };
                let words = QUADWORD * first as usize..QUADWORD * (last as usize + 1);
                let found = differences(&left[words.clone()], &right[words], QUADWORD);
                Differences {
                    first: first + found.first,
                    ..found
                }
            }
            Part::Code(model) => {
                differences(a.memories(model).code, b.memories(model).code, INSTRUCTION)
            }
            Part::Log => differences(a.entries(), b.entries(), log::ENTRY),
        }
    }
}

/// Whether the boards are the same in the parts asked for, and the numbers of the result; or the
/// refusal, of lengths the lowest number that a part asked for earns on either board.
pub fn compare(
    a: &Board,
    b: &Board,
    parts: u32,
    quadwords: Option<(u64, u64)>,
) -> Result<(bool, [u64; NUMBERS]), u32> {
    if parts == 0 || parts > ALL_PARTS {
        return Err(refusals::RANGE);
    }
    let asked = || (0..).zip(PARTS).filter(|(i, _)| parts >> i & 1 == 1);
    if let Some((first, last)) = quadwords {
        let least = asked().filter_map(|(_, part)| part.quadwords()).min();
        if first > last || least.is_none_or(|least| last >= least as u64) {
            return Err(refusals::RANGE);
        }
    }
    let refused = asked().flat_map(|(_, part)| [part.refusal(a), part.refusal(b)]);
    if let Some(refusal) = refused.flatten().min() {
        return Err(refusal);
    }
    let mut same = true;
    let mut numbers = [0; NUMBERS];
    for (i, part) in asked() {
        let found = part.differences(a, b, quadwords);
        same &= found.same;
        numbers[2 * i..][..2].copy_from_slice(&[found.first, found.count]);
    }
    Ok((same, numbers))
}

struct Differences {
    same: bool,
    /// The first element that differs; the number compared where none does.
    first: u64,
    count: u64,
}

/// The differences of two slices with elements of `size`, as far as the shorter one goes; they are
/// the same only where neither is shorter.
fn differences<T: PartialEq>(a: &[T], b: &[T], size: usize) -> Differences {
    let mut compared = 0;
    let mut first = None;
    let mut count = 0;
    for (left, right) in a.chunks(size).zip(b.chunks(size)) {
        if left != right {
            first = first.or(Some(compared));
            count += 1;
        }
        compared += 1;
    }
    Differences {
        same: a == b,
        first: first.unwrap_or(compared),
        count,
    }
}
