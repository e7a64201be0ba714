//! The memories of cases, filled from one number.

use crate::gif_cases::fill_number;

/// What is added to the fill for VIF0's memories where a case has both units'.
const VIF0_FILL: u64 = 5;

/// The memories of a unit: data by words, code by bytes.
#[derive(Clone, PartialEq, Eq)]
pub struct UnitMemories {
    pub data: Vec<u32>,
    pub code: Vec<u8>,
}

impl UnitMemories {
    /// By their lengths, as a case gives them.
    pub fn new(fill: u64, data: u32, code: u32) -> UnitMemories {
        let after = fill.wrapping_add(1);
        UnitMemories {
            data: numbers(fill, data).map(|number| number as u32).collect(),
            code: numbers(after, code).map(|number| number as u8).collect(),
        }
    }

    /// VIF0's where the case has both units'.
    pub fn of_vif0(fill: u64, data: u32, code: u32) -> UnitMemories {
        UnitMemories::new(fill.wrapping_add(VIF0_FILL), data, code)
    }
}

pub fn log(fill: u64, length: u32) -> Vec<u64> {
    numbers(fill.wrapping_add(2), length).collect()
}

fn numbers(fill: u64, length: u32) -> impl Iterator<Item = u64> {
    (0..length as u64).map(move |i| fill_number(fill, i))
}
