//! Why it stopped: what the next step is refused with, in numbers. Worked out from the documents
//! by rules of its own; nothing is done or changed.

use crate::chain::{self, State};
use crate::gif::{Format, Path, Place, Tag};
use crate::log;
use crate::memory::MOST_MAIN;
use crate::model::Model;
use crate::refusals;
use crate::state_block::{self, chain_word, read_state, StateBlock};
use crate::vif::{Payload, Unit};
use crate::words::{word, WORD};

/// What a why is lent. Of the unit's memories and the log only the lengths count.
pub struct Lent<'a> {
    pub main: &'a [u8],
    pub data_words: usize,
    pub code_bytes: usize,
    pub log_numbers: usize,
}

#[derive(Clone, Copy, PartialEq, Eq, Debug)]
pub enum Why {
    Nothing,
    /// The chain has ended, with nothing pending.
    Ended,
    Entry(u32),
    Step(Complaint),
}

/// A step that is refused.
#[derive(Clone, Copy, PartialEq, Eq, Debug)]
pub struct Complaint {
    pub refusal: u32,
    /// Of the tag, the VIF word or the GIF quadword.
    pub address: u32,
    pub first: u64,
    /// Of 14 and 31 only.
    pub second: u64,
}

impl Why {
    pub fn kind(&self) -> u32 {
        match self {
            Why::Nothing => 0,
            Why::Ended => 1,
            Why::Entry(_) => 2,
            Why::Step(_) => 3,
        }
    }

    /// The refusal, the address and both numbers; 0 where there is none.
    pub fn numbers(&self) -> [u64; 4] {
        match *self {
            Why::Nothing | Why::Ended => [0; 4],
            Why::Entry(refusal) => [refusal as u64, 0, 0, 0],
            Why::Step(said) => [
                said.refusal as u64,
                said.address as u64,
                said.first,
                said.second,
            ],
        }
    }
}

/// What is said of a place.
type Said = Option<Complaint>;

fn say(refusal: u32, address: u32, first: u64) -> Said {
    say_two(refusal, address, first, 0)
}

fn say_two(refusal: u32, address: u32, first: u64, second: u64) -> Said {
    Some(Complaint {
        refusal,
        address,
        first,
        second,
    })
}

pub fn why(block: &StateBlock, lent: &Lent) -> Why {
    let state = read_state(block);
    if let Some(refusal) = of_lengths(block, lent) {
        return Why::Entry(refusal);
    }
    let Some(state) = state.filter(chain::in_range) else {
        return Why::Entry(refusals::RANGE);
    };
    if pending_end(&state) > lent.main.len() as u64 {
        return Why::Entry(refusals::OUTSIDE);
    }
    let pending = state.tag_word.is_some() || state.payload.is_some();
    if state.ended && !pending {
        return Why::Ended;
    }
    let free = (lent.log_numbers / log::ENTRY) as u64 - state.used;
    match of_step(&state, lent.main, free) {
        Some(said) => Why::Step(said),
        None => Why::Nothing,
    }
}

/// The refusals 1 to 4.
fn of_lengths(block: &StateBlock, lent: &Lent) -> Option<u32> {
    let main = lent.main.len();
    let (quadwords, instructions) = match block[chain_word::CHANNEL] {
        0 => (256, 512),
        _ => (1_024, 2_048),
    };
    let used = 3 * state_block::used(block) as u128;
    let numbers = lent.log_numbers;
    let all = [
        (
            refusals::MAIN,
            main == 0 || main % 16 > 0 || main > MOST_MAIN,
        ),
        (refusals::DATA, lent.data_words != 4 * quadwords),
        (refusals::CODE, lent.code_bytes != 8 * instructions),
        (
            refusals::LOG,
            numbers % 3 > 0 || numbers > 196_608 || used > numbers as u128,
        ),
    ];
    all.into_iter().find(|is| is.1).map(|is| is.0)
}

/// The first address after all that is pending.
fn pending_end(state: &State) -> u64 {
    let tag_words = state.tag_word.map_or(0, |address| address as u64 + 4);
    let payload = state.payload.map_or(0, |pending| {
        pending.address as u64 + 4 * pending.words as u64
    });
    tag_words.max(payload)
}

/// "A tag is read only when nothing is pending"; tag words come before the payload.
fn of_step(state: &State, main: &[u8], free: u64) -> Said {
    if let Some(address) = state.tag_word {
        return of_word(state, main, address, free);
    }
    match (state.payload, state.channel) {
        (None, _) => of_tag(state, main),
        (Some(pending), 2) => of_quadword(&state.path3, main, pending.address, free),
        (Some(pending), _) => of_word(state, main, pending.address, free),
    }
}

/// The word at an address.
fn at(main: &[u8], address: u32) -> u32 {
    word(main, address as usize / WORD)
}

/// "Tag step, in order: 10 TADR outside memory; 11 used ADDR not a multiple of 16; 12 SPR set with
/// a used ADDR; 13 call with two on the stack; 14 payload outside memory, only if QWC > 0."
fn of_tag(state: &State, main: &[u8]) -> Said {
    let tadr = state.tadr;
    let length = main.len() as u64;
    if tadr as u64 >= length {
        return say(refusals::TADR, tadr, tadr as u64);
    }
    let (low, high) = (at(main, tadr), at(main, tadr + 4));
    let (qwc, id) = (low as u64 % 65_536, low >> 28 & 7);
    let (addr, spr) = (high as u64 % (1 << 31), high as u64 >> 31);
    let used = matches!(id, 0 | 2 | 3 | 4 | 5);
    if used && addr % 16 != 0 {
        return say(refusals::ADDR, tadr, addr);
    }
    if used && spr == 1 {
        return say(refusals::SPR, tadr, spr);
    }
    if id == 5 && state.depth == 2 {
        return say(refusals::CALL, tadr, state.depth as u64);
    }
    let payload = match id {
        0 | 3 | 4 => addr,
        _ => tadr as u64 + 16,
    };
    let fits = length.saturating_sub(payload) / 16;
    if qwc > fits {
        return say_two(refusals::OUTSIDE, tadr, qwc, fits);
    }
    None
}

/// "24 DIRECT payload due and the next word isn't word 0"; "25 when the first MPG payload word is
/// due and the next word is word 1 or 3".
fn of_word(state: &State, main: &[u8], address: u32, free: u64) -> Said {
    let unit = match state.channel {
        0 => &state.vif0,
        _ => &state.vif1,
    };
    let number = address / 4 % 4;
    let Some(waiting) = &unit.waiting else {
        return of_code(unit, at(main, address), address, free);
    };
    match &waiting.payload {
        Payload::Direct | Payload::Directhl if number != 0 => {
            say(refusals::PLACE, address, number as u64)
        }
        Payload::Direct | Payload::Directhl => of_quadword(&state.path2, main, address, free),
        Payload::Mpg(mpg) if waiting.due == 2 * mpg.count && matches!(number, 1 | 3) => {
            say(refusals::ALIGNMENT, address, number as u64)
        }
        _ => None,
    }
}

/// Whether a unit has a code: document 01's list, of VIF0 without document 02's eight.
fn listed(model: Model, command: u32) -> bool {
    match command {
        0x00 | 0x01 | 0x04 | 0x05 | 0x07 | 0x10 | 0x14 | 0x17 => true,
        0x20 | 0x30 | 0x31 | 0x4A | 0x60..=0x7F => true,
        0x02 | 0x03 | 0x06 | 0x11 | 0x13 | 0x15 | 0x50 | 0x51 => model == Model::Vif1,
        _ => false,
    }
}

/// "20 CMD not listed; 21 vl 3 with vn below 3; 22 UNPACK with WL 0; 23 STMOD 3; 31 log lacks
/// room"; "26 for UNPACK with IMM bit 15 on VIF0, after 22".
fn of_code(unit: &Unit, code: u32, address: u32, free: u64) -> Said {
    let command = code >> 24 & 0x7F;
    if !listed(unit.model, command) {
        return say(refusals::COMMAND, address, command as u64);
    }
    match command {
        0x05 if code & 3 == 3 => say(refusals::MODE, address, 3),
        0x14 | 0x15 | 0x17 => of_room(address, free, 1),
        0x60..=0x7F => of_unpack(unit, code, address),
        _ => None,
    }
}

fn of_unpack(unit: &Unit, code: u32, address: u32) -> Said {
    let (vl, vn) = (code >> 24 & 3, code >> 26 & 3);
    if vl == 3 && vn < 3 {
        return say(refusals::FORMAT, address, vn as u64);
    }
    let wl = unit.registers.wl;
    if wl == 0 {
        return say(refusals::CYCLE, address, wl as u64);
    }
    let bit_15 = code >> 15 & 1;
    if unit.model == Model::Vif0 && bit_15 == 1 {
        return say(refusals::TOPS, address, bit_15 as u64);
    }
    None
}

/// "then 31, where the step's writes don't all fit".
fn of_room(address: u32, free: u64, needed: u64) -> Said {
    if free < needed {
        return say_two(refusals::ROOM, address, free, needed);
    }
    None
}

/// "30 descriptor B met at its data, PACKED or REGLIST; then 31".
fn of_quadword(path: &Path, main: &[u8], address: u32, free: u64) -> Said {
    let Place::Data { tag, due } = &path.place else {
        return of_room(address, free, tag_entries(main, address));
    };
    let met = descriptors(tag, *due);
    if met.contains(&0xB) {
        return say(refusals::DESCRIPTOR, address, 0xB);
    }
    let needed = match tag.format {
        Format::Packed => met.iter().filter(|&&d| d != 0xF).count() as u64,
        Format::Reglist => met.iter().filter(|&&d| d < 0xE).count() as u64,
        Format::Image => 2,
    };
    of_room(address, free, needed)
}

/// What a GIF tag writes in its own step: "NLOOP 0: no data, no writes. PRE acts only in PACKED".
fn tag_entries(main: &[u8], address: u32) -> u64 {
    let (low, high) = (at(main, address), at(main, address + 4));
    let (nloop, pre, flg) = (low & 0x7FFF, high >> 14 & 1, high >> 26 & 3);
    (nloop > 0 && pre == 1 && flg == 0) as u64
}

/// The descriptors that the data quadword goes by: PACKED one, REGLIST one for each half that is
/// read, IMAGE none.
fn descriptors(tag: &Tag, due: u32) -> Vec<u64> {
    let (nloop, nreg) = (tag.nloop as u64, tag.nreg as u64);
    let units = nloop * nreg;
    let of_unit = |unit: u64| tag.descriptors >> (4 * (unit % nreg)) & 15;
    match tag.format {
        Format::Packed => vec![of_unit(units - due as u64)],
        Format::Reglist => {
            let first = 2 * (units.div_ceil(2) - due as u64);
            (first..units.min(first + 2)).map(of_unit).collect()
        }
        Format::Image => Vec::new(),
    }
}
