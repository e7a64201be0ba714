//! What the run of a sheet's chain has to leave, whatever another program says.

use crate::chain::{self, State};
use crate::gif::Place;
use crate::log;
use crate::memory::MOST_MAIN;
use crate::refusals;
use crate::sheet::{self, CODE_BYTES, DATA_WORDS};
use crate::sheet_cases::{Case, Outcome};
use crate::state_block::{read_state, write_state, StateBlock};

/// How a run has to end where nothing waits and path 2 is idle.
#[derive(Clone, Copy, PartialEq, Eq, Debug)]
pub enum End {
    /// Done: in the sheet's steps, and what is left is what the sheet means.
    Whole,
    /// The allowance is used before.
    Cut,
    /// The log lacks room.
    Full,
}

/// The end that the sheet's meaning and steps foretell; none where something is refused
/// before the run, a code waits or path 2 is inside a tag.
pub fn foretold(case: &Case) -> Option<End> {
    let steps = sheet::steps(&case.sheet).ok()?;
    let entries = sheet::entries(&case.sheet).ok()?;
    if !lengths_right(case) || !fits(case) || !clean(&read_state(&case.state)?) {
        return None;
    }
    let room = log::room(case.log_length as usize, case.used());
    match (entries <= room, steps <= case.allowance) {
        (true, true) => Some(End::Whole),
        (true, false) => Some(End::Cut),
        (false, true) => Some(End::Full),
        // Either may come first.
        (false, false) => None,
    }
}

fn lengths_right(case: &Case) -> bool {
    let main = case.main_length as usize;
    main > 0
        && main % 16 == 0
        && main <= MOST_MAIN
        && case.data_length as usize == DATA_WORDS
        && case.code_length as usize == CODE_BYTES
        && log::in_range(case.log_length as usize, case.used())
}

/// Whether the chain fits into main memory at the address.
fn fits(case: &Case) -> bool {
    let chain = sheet::chain_length(&case.sheet).unwrap_or(usize::MAX);
    case.address % 16 == 0 && chain <= case.main_length.saturating_sub(case.address) as usize
}

/// Whether the state is in range with nothing waiting and path 2 idle.
fn clean(state: &State) -> bool {
    chain::in_range(state) && state.vif1.waiting.is_none() && state.path2.place == Place::Idle
}

/// What is wrong with the run of a case; none where nothing is.
pub fn broken(case: &Case, outcome: &Outcome) -> Option<String> {
    let steps = outcome.steps.unwrap_or(0);
    let given = (outcome.ran.answer, outcome.ran.counts.steps);
    let end = foretold(case)?;
    let packets = packets(case);
    if outcome.ran.counts.packets != packets {
        let closed = outcome.ran.counts.packets;
        return Some(format!("{closed} packets closed, not {packets}"));
    }
    match end {
        End::Whole if given != (Ok(chain::DONE), steps) => {
            Some(format!("{given:?} is not done in {steps} steps"))
        }
        End::Whole => wrong_end(case, outcome).map(|name| format!("{name} is not as it has to be")),
        End::Cut if given != (Ok(chain::ALLOWANCE_USED), case.allowance) => {
            Some(format!("{given:?} is not 90 after the allowance"))
        }
        End::Full if given.0 != Ok(refusals::ROOM) => {
            Some(format!("{given:?} where the log lacks room"))
        }
        End::Cut | End::Full => None,
    }
}

/// The packets that the run has to close, where its end is foretold.
pub fn packets(case: &Case) -> u64 {
    let room = log::room(case.log_length as usize, case.used());
    sheet::packets(&case.sheet, case.allowance, room).unwrap_or(0)
}

/// What a whole run left that is not what the sheet means.
fn wrong_end(case: &Case, outcome: &Outcome) -> Option<&'static str> {
    let (ran, meant) = (&outcome.ran, &outcome.meant);
    let wrong = [
        ("the meaning's answer", meant.answer.is_err()),
        (
            "what is counted",
            Ok(ran.counts) != sheet::counts(&case.sheet),
        ),
        ("data memory", ran.memories.data != meant.memories.data),
        ("code memory", ran.memories.code != meant.memories.code),
        ("the log", ran.memories.log != meant.memories.log),
        ("the state", !state_right(case, &ran.state, meant.used)),
        ("main memory", ran.main != main_after(case)),
    ];
    wrong.iter().find(|(_, is)| *is).map(|(name, _)| *name)
}

/// Whether the chain has ended at its end tag with nothing pending or waiting, and what
/// no record touches is as it was.
fn state_right(case: &Case, after: &StateBlock, used: u64) -> bool {
    let (Some(before), Some(state)) = (read_state(&case.state), read_state(after)) else {
        return false;
    };
    let chain = sheet::chain_length(&case.sheet).unwrap_or(0) as u32;
    let ended = State {
        tadr: case.address + chain - 16,
        ended: true,
        used,
        path3: before.path3,
        vif0: before.vif0,
        vif1: state.vif1,
        path2: state.path2,
        ..State::reset()
    };
    let (old, new) = (&before.vif1.registers, &state.vif1.registers);
    *after == write_state(&ended)
        && clean(&state)
        && (old.ofst, old.base, old.itops) == (new.ofst, new.base, new.itops)
        && (old.mskpath3, old.mark, old.mask) == (new.mskpath3, new.mark, new.mask)
        && (old.row, old.col) == (new.row, new.col)
}

/// Main memory with the chain at the address.
fn main_after(case: &Case) -> Vec<u8> {
    let mut main = case.main();
    let mut chain = vec![0; sheet::chain_length(&case.sheet).unwrap_or(0)];
    let built = sheet::build(&case.sheet, &mut chain);
    let at = case.address as usize;
    main[at..at + built.unwrap_or(0)].copy_from_slice(&chain);
    main
}

#[cfg(test)]
mod tests {
    use super::*;
    use crate::sheet_points;
    use crate::state_block::{chain_word, put_part, unit_word, PATH2, STMASK, VIF1};

    /// The bench points, each with our own outcome.
    fn outcomes() -> Vec<(Case, Outcome)> {
        let cases = sheet_points::points().into_iter().map(|point| point.case());
        cases
            .map(|case| (case.clone(), Outcome::new(&case)))
            .collect()
    }

    #[test]
    fn nothing_is_broken() {
        for (mut case, outcome) in outcomes() {
            assert_eq!(foretold(&case), Some(End::Whole));
            assert_eq!(broken(&case, &outcome), None);
            case.allowance = 0;
            assert_eq!(foretold(&case), Some(End::Cut));
            assert_eq!(broken(&case, &Outcome::new(&case)), None);
        }
    }

    #[test]
    fn shams_are_found() {
        let shams: [fn(&mut Outcome); 13] = [
            |o| o.ran.answer = Ok(chain::INTERRUPT),
            |o| o.ran.answer = Err((47, 0)),
            |o| o.ran.counts.steps += 1,
            |o| o.ran.counts.packets ^= 1,
            |o| o.ran.counts.words += 1,
            |o| o.ran.counts.nops += 1,
            |o| o.ran.counts.qwc[1] += 1,
            |o| o.ran.counts.qwc[7] += 1,
            |o| o.ran.memories.data[100] ^= 1,
            |o| o.ran.memories.code[100] ^= 1,
            |o| o.ran.memories.log[7] ^= 1,
            |o| o.ran.main[0] ^= 1,
            |o| o.ran.state[chain_word::TADR] ^= 16,
        ];
        for sham in shams {
            for (case, mut outcome) in outcomes() {
                sham(&mut outcome);
                assert!(broken(&case, &outcome).is_some());
            }
        }
    }

    #[test]
    fn premises() {
        let (case, _) = outcomes().pop().unwrap();
        let changes: [fn(&mut Case); 10] = [
            |c| c.sheet.push(0),
            |c| c.data_length -= 1,
            |c| c.code_length += 1,
            |c| c.log_length += 1,
            |c| c.main_length += 8,
            |c| c.address += 8,
            |c| c.address = 1 << 20,
            // A code that waits, path 2 inside a tag, a state out of range.
            |c| put_part(&mut c.state, VIF1 + unit_word::WAITING, &[STMASK, 0, 1]),
            |c| put_part(&mut c.state, PATH2, &[0, 1, 0, 1, 0, 1, 0, 0, 1]),
            |c| c.state[chain_word::CHANNEL] = 3,
        ];
        assert_eq!(foretold(&case), Some(End::Whole));
        for change in changes {
            let mut case = case.clone();
            change(&mut case);
            assert_eq!(foretold(&case), None);
        }
    }
}
