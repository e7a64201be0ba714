//! V4-32 with M clear and MODE 0, and the UNPACKs that are nearly that; how CL and WL stand to each
//! other.

use crate::vif::Registers;
use crate::vif_unpack::{Cycle, Format};

#[derive(Clone, Copy, PartialEq, Eq, Debug)]
pub enum Kind {
    /// V4-32 with M clear and MODE 0.
    Plain,
    /// V4-32 with M set: MASK zero, MASK not zero, and MODE set too.
    ZeroMask,
    Masked,
    MaskedMode,
    /// V4-32 with M clear and MODE set.
    Mode1,
    Mode2,
    /// Other formats with M clear and MODE 0.
    V416,
    V332,
    S32,
}

pub const KINDS: [Kind; 9] = [
    Kind::Plain,
    Kind::ZeroMask,
    Kind::Masked,
    Kind::MaskedMode,
    Kind::Mode1,
    Kind::Mode2,
    Kind::V416,
    Kind::V332,
    Kind::S32,
];

/// Bits 0 to 3 of CMD.
const V4_32: u32 = 12;
const V4_16: u32 = 13;
const V3_32: u32 = 8;
const S_32: u32 = 0;

impl Kind {
    /// The kind of an UNPACK under these registers, where it has one.
    pub fn of(format: &Format, masked: bool, registers: &Registers) -> Option<Kind> {
        let (mode, mask) = (registers.mode, registers.mask);
        match (format.number(), masked, mode) {
            (V4_32, false, 0) => Some(Kind::Plain),
            (V4_32, false, 1) => Some(Kind::Mode1),
            (V4_32, false, _) => Some(Kind::Mode2),
            (V4_32, true, 0) if mask == 0 => Some(Kind::ZeroMask),
            (V4_32, true, 0) => Some(Kind::Masked),
            (V4_32, true, _) => Some(Kind::MaskedMode),
            (V4_16, false, 0) => Some(Kind::V416),
            (V3_32, false, 0) => Some(Kind::V332),
            (S_32, false, 0) => Some(Kind::S32),
            _ => None,
        }
    }

    pub fn name(self) -> &'static str {
        match self {
            Kind::Plain => "V4-32, M clear, MODE 0",
            Kind::ZeroMask => "V4-32, M set, MASK 0",
            Kind::Masked => "V4-32, M set, MASK not 0",
            Kind::MaskedMode => "V4-32, M and MODE set",
            Kind::Mode1 => "V4-32, M clear, MODE 1",
            Kind::Mode2 => "V4-32, M clear, MODE 2",
            Kind::V416 => "V4-16, M clear, MODE 0",
            Kind::V332 => "V3-32, M clear, MODE 0",
            Kind::S32 => "S-32, M clear, MODE 0",
        }
    }

    pub fn format(self) -> Format {
        let number = match self {
            Kind::V416 => V4_16,
            Kind::V332 => V3_32,
            Kind::S32 => S_32,
            _ => V4_32,
        };
        Format::from_number(number).expect("a format")
    }

    /// Whether M is set.
    pub fn masked(self) -> bool {
        matches!(self, Kind::ZeroMask | Kind::Masked | Kind::MaskedMode)
    }
}

/// The CMD of an UNPACK.
pub fn command(format: &Format, masked: bool) -> u32 {
    0x60 | (masked as u32) << 4 | format.number()
}

/// How CL and WL stand to each other.
#[derive(Clone, Copy, PartialEq, Eq, Debug)]
pub enum Relation {
    /// The writes leave gaps.
    Gaps,
    Equal,
    /// Some writes fill.
    Fills,
    /// CL 0: all writes fill, and there is no payload.
    NoPayload,
}

pub const RELATIONS: [Relation; 4] = [
    Relation::Gaps,
    Relation::Equal,
    Relation::Fills,
    Relation::NoPayload,
];

impl Relation {
    /// Under a cycle with WL above 0.
    pub fn of(cycle: Cycle) -> Relation {
        match cycle {
            Cycle { cl: 0, .. } => Relation::NoPayload,
            Cycle { cl, wl } if wl > cl => Relation::Fills,
            Cycle { cl, wl } if wl == cl => Relation::Equal,
            _ => Relation::Gaps,
        }
    }

    pub fn name(self) -> &'static str {
        match self {
            Relation::Gaps => "WL < CL",
            Relation::Equal => "WL = CL",
            Relation::Fills => "WL > CL",
            Relation::NoPayload => "CL 0",
        }
    }
}

#[cfg(test)]
mod tests {
    use super::*;

    #[test]
    fn kinds_by_code_and_registers() {
        for (kind, cmd, mode, mask) in [
            (Kind::Plain, 0x6C, 0, 0),
            (Kind::Plain, 0x6C, 0, 0xFF),
            (Kind::ZeroMask, 0x7C, 0, 0),
            (Kind::Masked, 0x7C, 0, 1),
            (Kind::MaskedMode, 0x7C, 1, 0),
            (Kind::MaskedMode, 0x7C, 2, 0xFF),
            (Kind::Mode1, 0x6C, 1, 0),
            (Kind::Mode2, 0x6C, 2, 0xFF),
            (Kind::V416, 0x6D, 0, 0),
            (Kind::V332, 0x68, 0, 0),
            (Kind::S32, 0x60, 0, 0xFF),
        ] {
            let registers = Registers {
                mode,
                mask,
                ..Registers::default()
            };
            let (format, masked) = (kind.format(), kind.masked());
            assert_eq!(command(&format, masked), cmd);
            assert_eq!(Kind::of(&format, masked, &registers), Some(kind));
        }
    }
}
