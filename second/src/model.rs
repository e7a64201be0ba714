//! The two VIF units, and what tells them apart.

use crate::memory::{self, Sizes};

#[derive(Clone, Copy, PartialEq, Eq, Debug)]
pub enum Model {
    Vif0,
    Vif1,
}

pub const MODELS: [Model; 2] = [Model::Vif0, Model::Vif1];

/// The CMD of codes that VIF0 has not: OFFSET, BASE, MSKPATH3, FLUSH, FLUSHA, MSCALF, DIRECT and
/// DIRECTHL.
pub const ONLY_VIF1: [u32; 8] = [0x02, 0x03, 0x06, 0x11, 0x13, 0x15, 0x50, 0x51];

impl Model {
    /// The unit that words go to on a channel, and whose memories its runs are lent. Channel 2,
    /// on which no words go to a unit, and what is no channel have VIF1's memories.
    #[inline]
    pub fn of_channel(channel: u32) -> Model {
        match channel {
            0 => Model::Vif0,
            _ => Model::Vif1,
        }
    }

    pub fn name(self) -> &'static str {
        match self {
            Model::Vif0 => "VIF0",
            Model::Vif1 => "VIF1",
        }
    }

    pub fn other(self) -> Model {
        match self {
            Model::Vif0 => Model::Vif1,
            Model::Vif1 => Model::Vif0,
        }
    }

    #[inline]
    pub fn sizes(self) -> Sizes {
        match self {
            Model::Vif0 => memory::VIF0,
            Model::Vif1 => memory::VIF1,
        }
    }

    /// Whether the unit has the code with this CMD, where any has.
    #[inline]
    pub fn has(self, command: u32) -> bool {
        self == Model::Vif1 || !ONLY_VIF1.contains(&command)
    }

    /// Whether anything writes OFST, BASE, TOPS, TOP, DBF and MSKPATH3. Only then may UNPACK add
    /// TOPS, and does a program start change TOP, DBF and TOPS.
    #[inline]
    pub fn has_tops(self) -> bool {
        self == Model::Vif1
    }
}
