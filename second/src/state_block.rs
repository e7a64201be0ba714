//! The blocks of docs/FORMATS.md: a GIF path, a VIF unit and a whole state as words.

use crate::chain::{self, Pending, State};
use crate::gif::{self, Path, Place};
use crate::model::Model;
use crate::vif::{Mpg, Payload, Registers, Unit, Waiting, ADDRESSES};
use crate::vif_unpack::{Format, Unpack};

/// The words of a path block.
pub mod path_word {
    pub const Q: usize = 0;
    pub const PLACE: usize = 1;
    pub const FORMAT: usize = 2;
    pub const NLOOP: usize = 3;
    pub const EOP: usize = 4;
    pub const NREG: usize = 5;
    /// Two words.
    pub const DESCRIPTORS: usize = 6;
    pub const DUE: usize = 8;
    /// The first that means nothing where the path is idle.
    pub const FIRST_HELD: usize = FORMAT;
}

/// The words of a unit block.
pub mod unit_word {
    pub const CL: usize = 0;
    pub const WL: usize = 1;
    pub const OFST: usize = 2;
    pub const BASE: usize = 3;
    pub const TOPS: usize = 4;
    pub const TOP: usize = 5;
    pub const ITOPS: usize = 6;
    pub const ITOP: usize = 7;
    pub const DBF: usize = 8;
    pub const MODE: usize = 9;
    pub const MSKPATH3: usize = 10;
    pub const MARK: usize = 11;
    pub const MASK: usize = 12;
    /// Four words each.
    pub const ROW: usize = 13;
    pub const COL: usize = ROW + 4;
    pub const WAITING: usize = COL + 4;
    pub const INTERRUPT: usize = 22;
    pub const DUE: usize = 23;
    pub const ADDRESS: usize = 24;
    pub const COUNT: usize = 25;
    pub const FORMAT: usize = 26;
    pub const USN: usize = 27;
    pub const M: usize = 28;
    /// Three words.
    pub const HELD: usize = 29;
    /// The registers whose values have a limit.
    pub const LIMITED: usize = MASK;
}

/// The words of a state block before its other blocks.
pub mod chain_word {
    pub const CHANNEL: usize = 0;
    pub const TADR: usize = 1;
    pub const TTE: usize = 2;
    pub const ENDED: usize = 3;
    pub const DEPTH: usize = 4;
    /// Two words.
    pub const STACK: usize = 5;
    pub const TAG_WORDS: usize = 7;
    pub const TAG_WORD_AT: usize = 8;
    pub const PAYLOAD_WORDS: usize = 9;
    pub const PAYLOAD_AT: usize = 10;
    /// Two words.
    pub const USED: usize = 11;
}

pub const PATH_WORDS: usize = path_word::DUE + 1;
pub const UNIT_WORDS: usize = unit_word::HELD + 3;
pub const CHAIN_WORDS: usize = chain_word::USED + 2;
pub const STATE_WORDS: usize = CHAIN_WORDS + 2 * UNIT_WORDS + 2 * PATH_WORDS;

/// Where the other blocks start in a state block.
pub const VIF1: usize = CHAIN_WORDS;
pub const PATH2: usize = VIF1 + UNIT_WORDS;
pub const PATH3: usize = PATH2 + PATH_WORDS;
pub const VIF0: usize = PATH3 + PATH_WORDS;
/// The units.
pub const UNITS: [(Model, usize); 2] = [(Model::Vif1, VIF1), (Model::Vif0, VIF0)];
/// The paths with their numbers.
pub const PATHS: [(u32, usize); 2] = [(2, PATH2), (3, PATH3)];

pub type PathBlock = [u32; PATH_WORDS];
pub type UnitBlock = [u32; UNIT_WORDS];
pub type StateBlock = [u32; STATE_WORDS];

/// An idle path with Q 0, and a unit after reset.
pub const IDLE_PATH: PathBlock = [0; PATH_WORDS];
pub const RESET_UNIT: UnitBlock = [0; UNIT_WORDS];

/// What waits, as the word WAITING says it.
pub const NONE: u32 = 0;
pub const STMASK: u32 = 1;
pub const STROW: u32 = 2;
pub const STCOL: u32 = 3;
pub const MPG: u32 = 4;
pub const DIRECT: u32 = 5;
pub const DIRECTHL: u32 = 6;
pub const UNPACK: u32 = 7;

/// The names of the codes that wait, from STMASK on.
pub const WAITING: [&str; UNPACK as usize] = [
    "STMASK", "STROW", "STCOL", "MPG", "DIRECT", "DIRECTHL", "UNPACK",
];

/// The name of a code that waits by its number, which is not 0.
pub fn waiting_name(number: u32) -> &'static str {
    WAITING[number as usize - 1]
}

/// The registers with a limit, by their word: name and greatest value on VIF1.
pub const REGISTERS: [(&str, u32); unit_word::LIMITED] = [
    ("CL", 255),
    ("WL", 255),
    ("OFST", ADDRESSES - 1),
    ("BASE", ADDRESSES - 1),
    ("TOPS", ADDRESSES - 1),
    ("TOP", ADDRESSES - 1),
    ("ITOPS", ADDRESSES - 1),
    ("ITOP", ADDRESSES - 1),
    ("DBF", 1),
    ("MODE", 2),
    ("MSKPATH3", 1),
    ("MARK", 65_535),
];

/// The words of registers that are zero on VIF0.
pub const ZERO_ON_VIF0: [usize; 6] = [
    unit_word::OFST,
    unit_word::BASE,
    unit_word::TOPS,
    unit_word::TOP,
    unit_word::DBF,
    unit_word::MSKPATH3,
];

/// The greatest value of a register with a limit, by its word.
pub fn limit(model: Model, register: usize) -> u32 {
    if model == Model::Vif0 && ZERO_ON_VIF0.contains(&register) {
        return 0;
    }
    REGISTERS[register].1
}

pub fn bit(word: u32) -> Option<bool> {
    match word {
        0 => Some(false),
        1 => Some(true),
        _ => None,
    }
}

/// The 64-bit number in words `at` and `at + 1` of a block.
fn number(block: &[u32], at: usize) -> u64 {
    block[at] as u64 | (block[at + 1] as u64) << 32
}

fn put_number(block: &mut [u32], at: usize, number: u64) {
    block[at] = number as u32;
    block[at + 1] = (number >> 32) as u32;
}

/// The block that starts at word `at` of another.
pub fn part<const WORDS: usize>(block: &[u32], at: usize) -> [u32; WORDS] {
    std::array::from_fn(|i| block[at + i])
}

pub fn put_part(block: &mut [u32], at: usize, part: &[u32]) {
    block[at..at + part.len()].copy_from_slice(part);
}

/// The descriptors of the tag that a path block holds.
pub fn descriptors(block: &PathBlock) -> u64 {
    number(block, path_word::DESCRIPTORS)
}

/// The path of a block; none where it exists in no path.
pub fn read_path(block: &PathBlock) -> Option<Path> {
    let place = match block[path_word::PLACE] {
        0 => Place::Idle,
        1 => Place::Data {
            tag: gif::Tag {
                format: read_gif_format(block[path_word::FORMAT])?,
                nloop: block[path_word::NLOOP],
                eop: bit(block[path_word::EOP])?,
                nreg: block[path_word::NREG],
                descriptors: descriptors(block),
            },
            due: block[path_word::DUE],
        },
        _ => return None,
    };
    let q = block[path_word::Q];
    Some(Path { q, place })
}

fn read_gif_format(number: u32) -> Option<gif::Format> {
    match number {
        0 => Some(gif::Format::Packed),
        1 => Some(gif::Format::Reglist),
        2 => Some(gif::Format::Image),
        _ => None,
    }
}

pub fn write_path(path: &Path) -> PathBlock {
    let mut block = IDLE_PATH;
    block[path_word::Q] = path.q;
    if let Place::Data { tag, due } = &path.place {
        block[path_word::PLACE] = 1;
        block[path_word::FORMAT] = match tag.format {
            gif::Format::Packed => 0,
            gif::Format::Reglist => 1,
            gif::Format::Image => 2,
        };
        block[path_word::NLOOP] = tag.nloop;
        block[path_word::EOP] = tag.eop as u32;
        block[path_word::NREG] = tag.nreg;
        put_number(&mut block, path_word::DESCRIPTORS, tag.descriptors);
        block[path_word::DUE] = *due;
    }
    block
}

/// The unit of a block; none where it exists in no unit.
pub fn read_unit(model: Model, block: &UnitBlock) -> Option<Unit> {
    Some(Unit {
        model,
        registers: read_registers(block)?,
        waiting: match block[unit_word::WAITING] {
            NONE => None,
            _ => Some(read_waiting(block)?),
        },
    })
}

fn read_registers(block: &UnitBlock) -> Option<Registers> {
    Some(Registers {
        cl: block[unit_word::CL],
        wl: block[unit_word::WL],
        ofst: block[unit_word::OFST],
        base: block[unit_word::BASE],
        tops: block[unit_word::TOPS],
        top: block[unit_word::TOP],
        itops: block[unit_word::ITOPS],
        itop: block[unit_word::ITOP],
        dbf: bit(block[unit_word::DBF])?,
        mode: block[unit_word::MODE],
        mskpath3: bit(block[unit_word::MSKPATH3])?,
        mark: block[unit_word::MARK],
        mask: block[unit_word::MASK],
        row: part(block, unit_word::ROW),
        col: part(block, unit_word::COL),
    })
}

/// The code that waits; none where no unit can wait like that.
fn read_waiting(block: &UnitBlock) -> Option<Waiting> {
    let due = block[unit_word::DUE];
    let address = block[unit_word::ADDRESS];
    let count = block[unit_word::COUNT];
    let payload = match block[unit_word::WAITING] {
        STMASK if due == 1 => Payload::Stmask,
        STROW => Payload::Strow,
        STCOL => Payload::Stcol,
        MPG => Payload::Mpg(Mpg { address, count }),
        DIRECT => Payload::Direct,
        DIRECTHL => Payload::Directhl,
        UNPACK => Payload::Unpack(Unpack {
            address,
            count,
            format: Format::from_number(block[unit_word::FORMAT])?,
            unsigned: bit(block[unit_word::USN])?,
            masked: bit(block[unit_word::M])?,
            held: part(block, unit_word::HELD),
        }),
        _ => return None,
    };
    Some(Waiting {
        payload,
        interrupt: bit(block[unit_word::INTERRUPT])?,
        due,
    })
}

pub fn write_unit(unit: &Unit) -> UnitBlock {
    let registers = &unit.registers;
    let mut block = RESET_UNIT;
    block[unit_word::CL] = registers.cl;
    block[unit_word::WL] = registers.wl;
    block[unit_word::OFST] = registers.ofst;
    block[unit_word::BASE] = registers.base;
    block[unit_word::TOPS] = registers.tops;
    block[unit_word::TOP] = registers.top;
    block[unit_word::ITOPS] = registers.itops;
    block[unit_word::ITOP] = registers.itop;
    block[unit_word::DBF] = registers.dbf as u32;
    block[unit_word::MODE] = registers.mode;
    block[unit_word::MSKPATH3] = registers.mskpath3 as u32;
    block[unit_word::MARK] = registers.mark;
    block[unit_word::MASK] = registers.mask;
    put_part(&mut block, unit_word::ROW, &registers.row);
    put_part(&mut block, unit_word::COL, &registers.col);
    if let Some(waiting) = &unit.waiting {
        write_waiting(&mut block, waiting);
    }
    block
}

fn write_waiting(block: &mut UnitBlock, waiting: &Waiting) {
    block[unit_word::WAITING] = waiting_number(&waiting.payload);
    block[unit_word::INTERRUPT] = waiting.interrupt as u32;
    block[unit_word::DUE] = waiting.due;
    match &waiting.payload {
        Payload::Mpg(mpg) => {
            block[unit_word::ADDRESS] = mpg.address;
            block[unit_word::COUNT] = mpg.count;
        }
        Payload::Unpack(unpack) => {
            block[unit_word::ADDRESS] = unpack.address;
            block[unit_word::COUNT] = unpack.count;
            block[unit_word::FORMAT] = unpack.format.number();
            block[unit_word::USN] = unpack.unsigned as u32;
            block[unit_word::M] = unpack.masked as u32;
            put_part(block, unit_word::HELD, &unpack.held);
        }
        _ => {}
    }
}

/// The word WAITING for a code that waits.
pub fn waiting_number(payload: &Payload) -> u32 {
    match payload {
        Payload::Stmask => STMASK,
        Payload::Strow => STROW,
        Payload::Stcol => STCOL,
        Payload::Mpg(_) => MPG,
        Payload::Direct => DIRECT,
        Payload::Directhl => DIRECTHL,
        Payload::Unpack(_) => UNPACK,
    }
}

/// The first word of a unit block that means nothing for what waits.
pub fn first_unused(waiting: u32) -> usize {
    match waiting {
        NONE => unit_word::INTERRUPT,
        MPG => unit_word::FORMAT,
        UNPACK => UNIT_WORDS,
        _ => unit_word::ADDRESS,
    }
}

/// The state of a block; none where it exists in no state.
pub fn read_state(block: &StateBlock) -> Option<State> {
    let depth = block[chain_word::DEPTH] as usize;
    if depth > chain::STACK {
        return None;
    }
    let mut stack: [u32; chain::STACK] = part(block, chain_word::STACK);
    stack[depth..].fill(0);
    let words = block[chain_word::PAYLOAD_WORDS];
    Some(State {
        channel: block[chain_word::CHANNEL],
        tadr: block[chain_word::TADR],
        tte: bit(block[chain_word::TTE])?,
        ended: bit(block[chain_word::ENDED])?,
        depth,
        stack,
        tag_word: bit(block[chain_word::TAG_WORDS])?.then_some(block[chain_word::TAG_WORD_AT]),
        payload: (words > 0).then_some(Pending {
            address: block[chain_word::PAYLOAD_AT],
            words,
        }),
        used: used(block),
        vif0: read_unit(Model::Vif0, &part(block, VIF0))?,
        vif1: read_unit(Model::Vif1, &part(block, VIF1))?,
        path2: read_path(&part(block, PATH2))?,
        path3: read_path(&part(block, PATH3))?,
    })
}

pub fn write_state(state: &State) -> StateBlock {
    let mut block = [0; STATE_WORDS];
    block[chain_word::CHANNEL] = state.channel;
    block[chain_word::TADR] = state.tadr;
    block[chain_word::TTE] = state.tte as u32;
    block[chain_word::ENDED] = state.ended as u32;
    block[chain_word::DEPTH] = state.depth as u32;
    put_part(&mut block, chain_word::STACK, &state.stack);
    block[chain_word::TAG_WORDS] = state.tag_word.is_some() as u32;
    block[chain_word::TAG_WORD_AT] = state.tag_word.unwrap_or(0);
    if let Some(pending) = &state.payload {
        block[chain_word::PAYLOAD_WORDS] = pending.words;
        block[chain_word::PAYLOAD_AT] = pending.address;
    }
    set_used(&mut block, state.used);
    put_part(&mut block, VIF0, &write_unit(&state.vif0));
    put_part(&mut block, VIF1, &write_unit(&state.vif1));
    put_part(&mut block, PATH2, &write_path(&state.path2));
    put_part(&mut block, PATH3, &write_path(&state.path3));
    block
}

/// A block as a start or a run writes it: where it exists, words that mean nothing are zero.
pub fn rewritten(block: &StateBlock) -> StateBlock {
    read_state(block).map_or(*block, |state| write_state(&state))
}

/// Entries used, also of a block that exists in no state.
pub fn used(block: &StateBlock) -> u64 {
    number(block, chain_word::USED)
}

pub fn set_used(block: &mut StateBlock, used: u64) {
    put_number(block, chain_word::USED, used);
}

pub fn describe_path(block: &PathBlock) -> String {
    format!(
        "path: Q {:08X}, place {}, format {}, NLOOP {}, EOP {}, NREG {}, descriptors {:016X}, due {}",
        block[path_word::Q],
        block[path_word::PLACE],
        block[path_word::FORMAT],
        block[path_word::NLOOP],
        block[path_word::EOP],
        block[path_word::NREG],
        descriptors(block),
        block[path_word::DUE]
    )
}

pub fn describe_unit(block: &UnitBlock) -> String {
    let registers: Vec<String> = REGISTERS
        .iter()
        .zip(block)
        .map(|((name, _), word)| format!("{name} {word}"))
        .collect();
    let name = match block[unit_word::WAITING] {
        NONE => "none",
        number @ STMASK..=UNPACK => waiting_name(number),
        _ => "no code",
    };
    format!(
        "unit: {}\n    MASK {:08X}, ROW {:08X?}, COL {:08X?}\n    \
         waits: {name} ({}), interrupt {}, due {}, address {}, count {}, format {}, USN {}, M {}, held {:08X?}",
        registers.join(" "),
        block[unit_word::MASK],
        part::<4>(block, unit_word::ROW),
        part::<4>(block, unit_word::COL),
        block[unit_word::WAITING],
        block[unit_word::INTERRUPT],
        block[unit_word::DUE],
        block[unit_word::ADDRESS],
        block[unit_word::COUNT],
        block[unit_word::FORMAT],
        block[unit_word::USN],
        block[unit_word::M],
        part::<3>(block, unit_word::HELD),
    )
}

pub fn describe_state(block: &StateBlock) -> String {
    format!(
        "state: channel {}, TADR {:X}, TTE {}, ended {}, stack of {} {:X?}, tag words {} at {:X}, \
         payload {} words at {:X}, entries used {}\n    VIF1 {}\n    2 {}\n    3 {}\n    VIF0 {}",
        block[chain_word::CHANNEL],
        block[chain_word::TADR],
        block[chain_word::TTE],
        block[chain_word::ENDED],
        block[chain_word::DEPTH],
        part::<{ chain::STACK }>(block, chain_word::STACK),
        block[chain_word::TAG_WORDS],
        block[chain_word::TAG_WORD_AT],
        block[chain_word::PAYLOAD_WORDS],
        block[chain_word::PAYLOAD_AT],
        used(block),
        describe_unit(&part(block, VIF1)),
        describe_path(&part(block, PATH2)),
        describe_path(&part(block, PATH3)),
        describe_unit(&part(block, VIF0)),
    )
}

#[cfg(test)]
mod tests {
    use super::*;
    use crate::model::MODELS;

    /// The numbers of docs/FORMATS.md.
    #[test]
    fn sizes_and_places() {
        assert_eq!((CHAIN_WORDS, UNIT_WORDS, PATH_WORDS), (13, 32, 9));
        assert_eq!((VIF1, PATH2, PATH3, VIF0), (13, 45, 54, 63));
        assert_eq!(STATE_WORDS, 95);
        assert_eq!((unit_word::COL, unit_word::WAITING), (17, 21));
    }

    #[test]
    fn a_unit_there_and_back() {
        // In range, each word another number.
        let mut block: UnitBlock = std::array::from_fn(|i| i as u32 + 100);
        for (at, word) in [
            (unit_word::DBF, 1),
            (unit_word::MSKPATH3, 0),
            (unit_word::WAITING, UNPACK),
            (unit_word::INTERRUPT, 1),
            (unit_word::FORMAT, 9),
            (unit_word::USN, 1),
            (unit_word::M, 0),
        ] {
            block[at] = word;
        }
        for model in MODELS {
            let written = read_unit(model, &block).map(|unit| write_unit(&unit));
            assert_eq!(written, Some(block));
        }
        for waiting in NONE..UNPACK {
            let mut block = block;
            block[unit_word::WAITING] = waiting;
            block[unit_word::DUE] = 1;
            let written = write_unit(&read_unit(Model::Vif0, &block).unwrap());
            let unused = first_unused(waiting);
            assert_eq!(written[..unused], block[..unused]);
            assert!(written[unused..].iter().all(|&word| word == 0));
        }
    }

    #[test]
    fn a_state_there_and_back() {
        let mut block: StateBlock = std::array::from_fn(|i| i as u32 + 100);
        let chain = [1, 16, 1, 0, 2, 32, 48, 1, 24, 3, 4, 7, 8];
        put_part(&mut block, 0, &chain);
        for (model, at) in UNITS {
            let mut unit = Unit::reset(model);
            unit.registers.mark = at as u32;
            put_part(&mut block, at, &write_unit(&unit));
        }
        for (number, at) in PATHS {
            put_part(&mut block, at, &[number, 1, number - 2, 3, 1, 5, 6, 7, 8]);
        }
        let state = read_state(&block).unwrap();
        assert_eq!(write_state(&state), block);
        assert_eq!((state.stack, state.used), ([32, 48], 8 << 32 | 7));
        assert_eq!((state.path2.q, state.path3.q), (2, 3));
        let marks = [state.vif0, state.vif1].map(|unit| (unit.model, unit.registers.mark));
        assert_eq!(marks, [(Model::Vif0, 63), (Model::Vif1, 13)]);
        // What lies above the depth and beside nothing pending means nothing.
        let empty = [
            (chain_word::DEPTH, 1),
            (chain_word::TAG_WORDS, 0),
            (chain_word::PAYLOAD_WORDS, 0),
        ];
        empty.iter().for_each(|&(at, word)| block[at] = word);
        let written = write_state(&read_state(&block).unwrap());
        let at = [
            chain_word::STACK,
            chain_word::STACK + 1,
            chain_word::TAG_WORD_AT,
            chain_word::PAYLOAD_AT,
        ];
        assert_eq!(at.map(|at| written[at]), [32, 0, 0, 0]);
    }

    #[test]
    fn what_exists_in_no_state() {
        let reset = write_state(&State::reset());
        let wrong = [
            (chain_word::TTE, 2),
            (chain_word::ENDED, 2),
            (chain_word::DEPTH, 3),
            (chain_word::TAG_WORDS, 2),
            (VIF1 + unit_word::DBF, 2),
            (VIF1 + unit_word::MSKPATH3, 2),
            (VIF1 + unit_word::WAITING, 8),
            (VIF1 + unit_word::WAITING, STMASK),
            (VIF0 + unit_word::DBF, 2),
            (VIF0 + unit_word::MSKPATH3, 2),
            (VIF0 + unit_word::WAITING, 8),
            (VIF0 + unit_word::WAITING, STMASK),
            (PATH2 + path_word::PLACE, 2),
            (PATH3 + path_word::PLACE, 2),
        ];
        for (at, word) in wrong {
            let mut block = reset;
            block[at] = word;
            assert_eq!(read_state(&block), None, "word {at}");
        }
        assert_eq!(read_state(&reset), Some(State::reset()));
    }
}
