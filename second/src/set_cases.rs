//! Captures with sets, from a seed.

use crate::capture_cases::{Call, Case};
use crate::capture_generate::{add_junk, plain_case, run, set, start, tagged, NO_LIMIT};
use crate::chain::{Pending, State, END};
use crate::gif_generate::random_no_path_block;
use crate::model::Model;
use crate::random::Random;
use crate::set::REGISTERS;
use crate::state_block::{
    chain_word, put_part, unit_word, write_state, write_unit, StateBlock, PATHS, STMASK, UNITS,
    UNPACK,
};
use crate::vif::Unit;
use crate::vif_generate::{code_word, random_mask, random_waiting_unit, stcycl};

const NUMBERS: u32 = REGISTERS.len() as u32;
/// Numbers and units that there are not; the low bits of some are those of one.
const NO_NUMBERS: [u32; 7] = [8, 9, 15, 256, 257, 1 << 31, u32::MAX];
const NO_UNITS: [u32; 6] = [2, 3, 256, 257, 1 << 31, u32::MAX];

fn random_value(random: &mut Random) -> u32 {
    let any = random.word();
    random.pick(&[0, 1, 0x7FFF_FFFF, 1 << 31, u32::MAX, any, any, any])
}

/// A set, mostly of a register that there is.
pub fn random_set(random: &mut Random) -> Call {
    let number = random.below(NUMBERS as u64) as u32;
    let unit = random.below(2) as u32;
    let (no_number, no_unit) = (random.pick(&NO_NUMBERS), random.pick(&NO_UNITS));
    let value = random_value(random);
    match random.below(20) {
        0 => set(unit, no_number, value),
        1 => set(no_unit, number, value),
        2 => set(no_unit, no_number, value),
        _ => set(unit, number, value),
    }
}

/// Puts sets between the calls of some cases.
pub fn add_sets(random: &mut Random, cases: &mut [Case]) {
    for case in cases {
        if !random.percent(20) {
            continue;
        }
        for _ in 0..random.within(1..=3) {
            let at = random.below(case.calls.len() as u64 + 1) as usize;
            case.calls.insert(at, random_set(random));
        }
    }
}

pub fn all(random: &mut Random) -> Vec<Case> {
    let mut cases = Vec::new();
    add_every_register(random, &mut cases);
    add_waiting(random, &mut cases);
    add_no_state(random, &mut cases);
    add_meaningless(random, &mut cases);
    cases
}

/// Words for a unit: MODE, a mask, and UNPACK with it.
fn masked_words(random: &mut Random) -> Vec<u32> {
    let mode = code_word(0x05, 0, random.below(3) as u32);
    let n = random.within(1..=9) as u32;
    let unpack = code_word(0x7C, n, random.below(256) as u32);
    let mut words = vec![stcycl(4, 4), mode, code_word(0x20, 0, 0)];
    words.extend([random_mask(random), unpack]);
    words.extend((0..4 * n).map(|_| random.word()));
    words.resize(words.len().next_multiple_of(4), 0);
    words
}

/// Each register of each unit on each channel, before a start, before a run and after runs; what
/// is set is read.
fn add_every_register(random: &mut Random, cases: &mut Vec<Case>) {
    for channel in 0..3 {
        for unit in 0..2 {
            for number in 0..NUMBERS {
                let mut one = || set(unit, number, random_value(random));
                let calls = vec![
                    one(),
                    start(channel.min(1), 0, 0),
                    one(),
                    run(1),
                    one(),
                    one(),
                    run(NO_LIMIT),
                    one(),
                    start(unit, 0, 0),
                    run(NO_LIMIT),
                    one(),
                ];
                let main = tagged(END, &masked_words(random));
                let state = State {
                    channel,
                    ..State::reset()
                };
                cases.push(plain_case(&state, &main, 0, &calls));
            }
        }
    }
}

/// Sets of both units, in any order, of numbers and units that there are and are not.
fn sets_of_all(random: &mut Random) -> Vec<Call> {
    let mut calls = Vec::new();
    for unit in [0, 1, random.pick(&NO_UNITS)] {
        let number = random.below(NUMBERS as u64) as u32;
        for number in [number, random.pick(&NO_NUMBERS)] {
            let value = random_value(random);
            let at = random.below(calls.len() as u64 + 1) as usize;
            calls.insert(at, set(unit, number, value));
        }
    }
    calls
}

/// Sets of all, a call after them and sets again.
fn around(random: &mut Random) -> Vec<Call> {
    let between = random.pick(&[
        run(0),
        run(1),
        run(NO_LIMIT),
        start(1, 0, 0),
        start(0, 0, 1),
    ]);
    let mut calls = sets_of_all(random);
    calls.push(between);
    calls.extend(sets_of_all(random));
    calls
}

fn add_block(random: &mut Random, cases: &mut Vec<Case>, state: StateBlock) {
    let main = tagged(END, &masked_words(random));
    let calls = around(random);
    let mut case = plain_case(&State::reset(), &main, 4, &calls);
    case.state = state;
    cases.push(case);
}

/// A unit on which a code waits.
fn waiting_block(random: &mut Random, model: Model, code: u32) -> [u32; 32] {
    for _ in 0..1_000 {
        let block = write_unit(&random_waiting_unit(random, model));
        if block[unit_word::WAITING] == code {
            return block;
        }
    }
    // DIRECT and DIRECTHL never wait on VIF0: such a state is out of range, but it is one.
    let mut block = write_unit(&Unit::reset(model));
    block[unit_word::WAITING] = code;
    block[unit_word::DUE] = 1;
    block
}

/// Each code that waits, on one unit alone and on both.
fn add_waiting(random: &mut Random, cases: &mut Vec<Case>) {
    for code in STMASK..=UNPACK {
        for (model, at) in UNITS {
            for both in [false, false, false, true] {
                let state = State {
                    channel: random.below(3) as u32,
                    ..State::reset()
                };
                let mut block = write_state(&state);
                put_part(&mut block, at, &waiting_block(random, model, code));
                for (other, other_at) in UNITS {
                    if both && other != model {
                        let code = random.within(STMASK as u64..=UNPACK as u64) as u32;
                        put_part(&mut block, other_at, &waiting_block(random, other, code));
                    }
                }
                add_block(random, cases, block);
            }
        }
    }
}

/// Blocks that exist in no state, each by one word or part, with words that mean nothing or
/// without, and with codes that wait beside it.
fn add_no_state(random: &mut Random, cases: &mut Vec<Case>) {
    for _ in 0..4 {
        let mut changes: Vec<(usize, Vec<u32>)> = Vec::new();
        let above = random.pick(&[2, 3, 256, u32::MAX]);
        for at in [chain_word::TTE, chain_word::ENDED, chain_word::TAG_WORDS] {
            changes.push((at, vec![above]));
        }
        changes.push((chain_word::DEPTH, vec![above.max(3)]));
        for (_, at) in UNITS {
            changes.push((at + unit_word::DBF, vec![above]));
            changes.push((at + unit_word::MSKPATH3, vec![above]));
            changes.push((at + unit_word::WAITING, vec![above.max(8)]));
            // STMASK with other than one word due.
            changes.push((at + unit_word::WAITING, vec![STMASK, 0, above]));
        }
        for (_, at) in PATHS {
            changes.push((at, random_no_path_block(random).to_vec()));
        }
        for (at, words) in changes {
            for junk in [false, true] {
                let mut block = write_state(&State::reset());
                if random.percent(50) {
                    let (model, unit_at) = random.pick(&UNITS);
                    let unit = random_waiting_unit(random, model);
                    put_part(&mut block, unit_at, &write_unit(&unit));
                }
                if junk {
                    add_junk(random, &mut block);
                }
                put_part(&mut block, at, &words);
                add_block(random, cases, block);
            }
        }
    }
}

/// Words that mean nothing, in all places or one, beside nothing or something pending.
fn add_meaningless(random: &mut Random, cases: &mut Vec<Case>) {
    for i in 0..40 {
        let mut state = State {
            channel: random.below(3) as u32,
            ..State::reset()
        };
        if i % 4 == 0 {
            state.payload = Some(Pending {
                address: 16,
                words: 4,
            });
        }
        let mut block = write_state(&state);
        let clean = block;
        add_junk(random, &mut block);
        if i % 2 == 0 {
            // Of all words but one that mean nothing.
            let junk: Vec<usize> = (0..block.len()).filter(|&i| block[i] != clean[i]).collect();
            let at = random.pick(&junk);
            let word = block[at];
            block = clean;
            block[at] = word;
        }
        add_block(random, cases, block);
    }
}
