//! The sizes of the memories that a run is lent, and how long cases may make them.

use crate::log;

/// The longest main memory in bytes.
pub const MOST_MAIN: usize = 1_048_576;

/// The memories of a VIF unit.
#[derive(Clone, Copy, PartialEq, Eq, Debug)]
pub struct Sizes {
    /// The data memory in quadwords.
    pub quadwords: u32,
    /// The code memory in instructions.
    pub instructions: u32,
}

pub const VIF0: Sizes = Sizes {
    quadwords: 256,
    instructions: 512,
};
pub const VIF1: Sizes = Sizes {
    quadwords: 1_024,
    instructions: 2_048,
};

impl Sizes {
    /// The data memory in words.
    #[inline]
    pub const fn data_words(self) -> usize {
        4 * self.quadwords as usize
    }

    /// The code memory in bytes.
    #[inline]
    pub const fn code_bytes(self) -> usize {
        8 * self.instructions as usize
    }
}

/// The longest memories that cases give, each longer than is accepted.
pub mod cases {
    use super::*;

    pub const MOST_MAIN: u32 = super::MOST_MAIN as u32 + 32;
    pub const MOST_DATA: u32 = VIF1.data_words() as u32 + 4;
    pub const MOST_CODE: u32 = VIF1.code_bytes() as u32 + 8;
    pub const MOST_VIF0_DATA: u32 = VIF0.data_words() as u32 + 4;
    pub const MOST_VIF0_CODE: u32 = VIF0.code_bytes() as u32 + 8;
    pub const MOST_LOG: u32 = log::MOST_NUMBERS as u32 + 8;
}
