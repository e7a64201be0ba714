//! Setting ROW and COL from the console: one number of a unit's block in a state block.

use crate::refusals;
use crate::state_block::{read_state, unit_word, StateBlock, VIF0, VIF1};

/// The registers of a unit that can be set, by their numbers: its words.
pub const REGISTERS: [usize; 8] = [
    unit_word::ROW,
    unit_word::ROW + 1,
    unit_word::ROW + 2,
    unit_word::ROW + 3,
    unit_word::COL,
    unit_word::COL + 1,
    unit_word::COL + 2,
    unit_word::COL + 3,
];

/// Sets a register of a unit; a refusal leaves the block as it was.
pub fn set(block: &mut StateBlock, unit: u32, number: u32, value: u32) -> Result<(), u32> {
    let register = REGISTERS.get(number as usize).ok_or(refusals::NUMBER)?;
    let state = read_state(block);
    let (at, waiting) = match (unit, state) {
        (0, Some(state)) => (VIF0, state.vif0.waiting),
        (1, Some(state)) => (VIF1, state.vif1.waiting),
        _ => return Err(refusals::RANGE),
    };
    if waiting.is_some() {
        return Err(refusals::WAITING);
    }
    block[at + register] = value;
    Ok(())
}

#[cfg(test)]
mod tests {
    use super::*;
    use crate::chain::State;
    use crate::state_block::{chain_word, path_word, write_state, PATH2, PATH3, STROW, UNPACK};

    fn reset() -> StateBlock {
        write_state(&State::reset())
    }

    /// The words of docs/FORMATS.md.
    #[test]
    fn one_word_changes() {
        for (unit, row) in [(0, 63 + 13), (1, 13 + 13)] {
            for number in 0..8 {
                for value in [0, 1, 0x8000_0000, u32::MAX] {
                    // Every word another number, where it means nothing too.
                    let mut block: StateBlock = std::array::from_fn(|i| i as u32 + 7);
                    for at in [2, 3, 4, 7, 13 + 8, 13 + 10, 13 + 21, 46, 55] {
                        block[at] = 0;
                    }
                    for at in [63 + 8, 63 + 10, 63 + 21] {
                        block[at] = 0;
                    }
                    let mut wanted = block;
                    wanted[row + number as usize] = value;
                    assert_eq!(set(&mut block, unit, number, value), Ok(()));
                    assert_eq!(block, wanted);
                }
            }
        }
    }

    fn refused(mut block: StateBlock, unit: u32, number: u32) -> u32 {
        let before = block;
        let refusal = set(&mut block, unit, number, 7).unwrap_err();
        assert_eq!(block, before);
        refusal
    }

    #[test]
    fn fifty_first() {
        let mut none = reset();
        none[chain_word::ENDED] = 2;
        let mut waits = reset();
        waits[VIF1 + unit_word::WAITING] = STROW;
        for number in [8, 9, 256, 1 << 31, u32::MAX] {
            for (block, unit) in [(reset(), 1), (reset(), 2), (none, 0), (waits, 1)] {
                assert_eq!(refused(block, unit, number), 50);
            }
        }
    }

    #[test]
    fn five_then() {
        for unit in [2, 3, 256, u32::MAX] {
            assert_eq!(refused(reset(), unit, 0), 5);
        }
        for (at, word) in [
            (chain_word::TTE, 2),
            (chain_word::ENDED, 2),
            (chain_word::DEPTH, 3),
            (chain_word::TAG_WORDS, 2),
            (VIF1 + unit_word::DBF, 2),
            (VIF0 + unit_word::WAITING, 8),
            (PATH2 + path_word::PLACE, 2),
            (PATH3 + path_word::PLACE, 2),
        ] {
            for unit in [0, 1] {
                let mut block = reset();
                block[at] = word;
                assert_eq!(refused(block, unit, 7), 5);
                // A code that waits is not looked for.
                block[VIF0 + unit_word::WAITING] |= STROW;
                block[VIF1 + unit_word::WAITING] |= STROW;
                assert_eq!(refused(block, unit, 7), 5);
            }
        }
    }

    /// 51 by that unit's waiting code, whatever waits on the other.
    #[test]
    fn fifty_one_last() {
        for (unit, at, other) in [(0, VIF0, 1), (1, VIF1, 0)] {
            for waiting in 1..=UNPACK {
                let mut block = reset();
                block[at + unit_word::WAITING] = waiting;
                block[at + unit_word::DUE] = 1;
                assert_eq!(refused(block, unit, 4), 51);
                assert_eq!(set(&mut block, other, 4, 9), Ok(()));
            }
        }
    }

    /// Registers out of their range are no reason.
    #[test]
    fn out_of_range() {
        let mut block = reset();
        block[chain_word::CHANNEL] = 7;
        block[chain_word::TADR] = 1;
        block[VIF1 + unit_word::MODE] = 3;
        block[VIF0 + unit_word::BASE] = 1;
        let mut wanted = block;
        wanted[VIF1 + unit_word::ROW] = 5;
        assert_eq!(set(&mut block, 1, 0, 5), Ok(()));
        assert_eq!(block, wanted);
    }
}
