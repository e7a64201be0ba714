//! The refusal numbers.

// At a call's entry.
pub const MAIN: u32 = 1;
pub const DATA: u32 = 2;
pub const CODE: u32 = 3;
pub const LOG: u32 = 4;
pub const RANGE: u32 = 5;

// At a tag; 14 at entry too.
pub const TADR: u32 = 10;
pub const ADDR: u32 = 11;
pub const SPR: u32 = 12;
pub const CALL: u32 = 13;
pub const OUTSIDE: u32 = 14;

// At a word of a VIF unit.
pub const COMMAND: u32 = 20;
pub const FORMAT: u32 = 21;
pub const CYCLE: u32 = 22;
pub const MODE: u32 = 23;
pub const PLACE: u32 = 24;
pub const ALIGNMENT: u32 = 25;
pub const TOPS: u32 = 26;

// At a quadword of the GIF; 31 at MSCAL, MSCALF and MSCNT too.
pub const DESCRIPTOR: u32 = 30;
pub const ROOM: u32 = 31;

/// Those of a tag's step, in order.
pub const TAG_STEP: [u32; 5] = [TADR, ADDR, SPR, CALL, OUTSIDE];
/// Those of a word's or a quadword's step on VIF1 and the GIF.
pub const WORD_STEP: [u32; 8] = [
    COMMAND, FORMAT, CYCLE, MODE, PLACE, ALIGNMENT, DESCRIPTOR, ROOM,
];

// The builder's.
pub const MARK: u32 = 40;
pub const KIND: u32 = 41;
pub const COUNT: u32 = 42;
pub const ADDRESS: u32 = 43;
pub const CUT: u32 = 44;
pub const PAD: u32 = 45;
pub const LONG: u32 = 46;
pub const OUTPUT: u32 = 47;
pub const CHAIN: u32 = 49;
pub const DEPTH: u32 = 52;

// Of setting a register.
pub const NUMBER: u32 = 50;
pub const WAITING: u32 = 51;

// Of adding to totals.
pub const TOTAL: u32 = 54;

// Of salvage; 46 too.
pub const KEPT: u32 = 55;
pub const RANGES: u32 = 56;
