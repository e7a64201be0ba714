//! The second program behind the C interface of host/tejborun.h, under the names judge_*.
//! The proved library has no part in it.

// The modules bring more than the interface needs.
#![allow(dead_code)]

#[path = "../../../second/src/chain.rs"]
mod chain;
#[path = "../../../second/src/check.rs"]
mod check;
#[path = "../../../second/src/gif.rs"]
mod gif;
#[path = "../../../second/src/log.rs"]
mod log;
#[path = "../../../second/src/memory.rs"]
mod memory;
#[path = "../../../second/src/model.rs"]
mod model;
#[path = "../../../second/src/refusals.rs"]
mod refusals;
#[path = "../../../second/src/run_counts.rs"]
mod run_counts;
#[path = "../../../second/src/salvage.rs"]
mod salvage;
#[path = "../../../second/src/set.rs"]
mod set;
#[path = "../../../second/src/sheet.rs"]
mod sheet;
#[path = "../../../second/src/sheet_tree.rs"]
mod sheet_tree;
#[path = "../../../second/src/state_block.rs"]
mod state_block;
#[path = "../../../second/src/totals.rs"]
mod totals;
#[path = "../../../second/src/vif.rs"]
mod vif;
#[path = "../../../second/src/vif_unpack.rs"]
mod vif_unpack;
#[path = "../../../second/src/why.rs"]
mod why;
#[path = "../../../second/src/words.rs"]
mod words;

mod boards;

use boards::Board;
use chain::{Memories, State, Stop};
use model::Model;
use state_block::{bit, chain_word, read_state, write_state, StateBlock, STATE_WORDS};
use std::slice::{from_raw_parts, from_raw_parts_mut};

const SHORT: u32 = 60;
const REFUSED: u32 = 100;
/// The numbers of a run's counts, of a result of build and run, and of a check's.
const COUNTS: usize = run_counts::NUMBERS;
const BUILT_AND_RUN: usize = 1 + COUNTS;
const CHECKED: usize = 3 + COUNTS;

unsafe fn view<'a, T>(start: *const T, count: usize) -> &'a [T] {
    if count == 0 {
        return &[];
    }
    from_raw_parts(start, count)
}

unsafe fn lent<'a, T>(start: *mut T, count: usize) -> &'a mut [T] {
    if count == 0 {
        return &mut [];
    }
    from_raw_parts_mut(start, count)
}

/// The lent words as a state block; none where there are more or fewer.
unsafe fn lent_block<'a>(start: *mut u32, words: usize) -> Option<&'a mut StateBlock> {
    if words != STATE_WORDS {
        return None;
    }
    lent(start, words).try_into().ok()
}

#[no_mangle]
pub unsafe extern "C" fn judge_build(
    sheet: *const u8,
    sheet_bytes: usize,
    output: *mut u8,
    output_bytes: usize,
) -> usize {
    sheet::exported_number(view(sheet, sheet_bytes), lent(output, output_bytes))
}

#[no_mangle]
pub unsafe extern "C" fn judge_steps(
    sheet: *const u8,
    sheet_bytes: usize,
    result: *mut u64,
    result_numbers: usize,
) -> u32 {
    if result_numbers < 2 {
        return SHORT;
    }
    let (answer, steps, offset) = match sheet::steps(view(sheet, sheet_bytes)) {
        Ok(steps) => (0, steps, 0),
        Err((refusal, offset)) => (refusal, 0, offset),
    };
    lent(result, result_numbers)[..2].copy_from_slice(&[steps, offset as u64]);
    answer
}

/// The entries used afterwards, or the refusal. Sheets are for VIF1.
fn meaning(sheet: &[u8], memories: &mut Memories, used: u64) -> Result<u64, sheet::Refusal> {
    let (data, code, log) = (&mut memories.data, &mut memories.code, &mut memories.log);
    vif::check_lengths(Model::Vif1, data.len(), code.len(), log.len(), used)
        .map_err(|refusal| (refusal, 0))?;
    if sheet::entries(sheet)? > log::room(log.len(), used) {
        return Err((refusals::ROOM, 0));
    }
    let mut after = used;
    let mut entries = Vec::new();
    sheet::meaning(sheet, data, code, &mut entries)?;
    log::append_all(log, &mut after, &entries).map_err(|refusal| (refusal, 0))?;
    Ok(after)
}

#[no_mangle]
pub unsafe extern "C" fn judge_meaning(
    sheet: *const u8,
    sheet_bytes: usize,
    data: *mut u32,
    data_words: usize,
    code: *mut u8,
    code_bytes: usize,
    log: *mut u64,
    log_numbers: usize,
    used: u64,
    result: *mut u64,
    result_numbers: usize,
) -> u32 {
    if result_numbers < 2 {
        return SHORT;
    }
    let mut memories = Memories {
        main: &[],
        data: lent(data, data_words),
        code: lent(code, code_bytes),
        log: lent(log, log_numbers),
    };
    let (answer, after, offset) = match meaning(view(sheet, sheet_bytes), &mut memories, used) {
        Ok(after) => (0, after, 0),
        Err((refusal, offset)) => (refusal, used, offset),
    };
    lent(result, result_numbers)[..2].copy_from_slice(&[after, offset as u64]);
    answer
}

#[no_mangle]
pub unsafe extern "C" fn judge_salvage(
    sheet: *const u8,
    sheet_bytes: usize,
    output: *mut u8,
    output_bytes: usize,
    ranges: *mut u64,
    ranges_numbers: usize,
    result: *mut u64,
    result_numbers: usize,
) -> u32 {
    if result_numbers < 2 {
        return SHORT;
    }
    let (output, ranges) = (lent(output, output_bytes), lent(ranges, ranges_numbers));
    let (answer, numbers) = match salvage::salvage(view(sheet, sheet_bytes), output, ranges) {
        Ok(written) => (0, [written.bytes as u64, written.ranges as u64]),
        Err(refusal) => (refusal, [0; 2]),
    };
    lent(result, result_numbers)[..2].copy_from_slice(&numbers);
    answer
}

#[no_mangle]
pub unsafe extern "C" fn judge_reset(block: *mut u32, block_words: usize) -> u32 {
    let Some(block) = lent_block(block, block_words) else {
        return SHORT;
    };
    *block = write_state(&State::reset());
    0
}

#[no_mangle]
pub unsafe extern "C" fn judge_start(
    block: *mut u32,
    block_words: usize,
    channel: u32,
    tadr: u32,
    tte: u32,
) -> u32 {
    let Some(block) = lent_block(block, block_words) else {
        return SHORT;
    };
    let (Some(tte), Some(mut state)) = (bit(tte), read_state(block)) else {
        return refusals::RANGE;
    };
    if let Err(refusal) = chain::start(&mut state, channel, tadr, tte) {
        return refusal;
    }
    *block = write_state(&state);
    0
}

#[no_mangle]
pub unsafe extern "C" fn judge_set(
    block: *mut u32,
    block_words: usize,
    unit: u32,
    number: u32,
    value: u32,
) -> u32 {
    let Some(block) = lent_block(block, block_words) else {
        return SHORT;
    };
    set::set(block, unit, number, value).err().unwrap_or(0)
}

fn run(memories: &mut Memories, block: &mut StateBlock, allowance: u64) -> Stop {
    let Some(mut state) = read_state(block) else {
        let model = Model::of_channel(block[chain_word::CHANNEL]);
        let lengths = chain::check_lengths(model, memories, state_block::used(block));
        return Stop::at_entry(lengths.err().unwrap_or(refusals::RANGE));
    };
    let stop = chain::run(&mut state, memories, allowance, |_, _, _| {});
    if stop.counts.steps > 0 {
        *block = write_state(&state);
    }
    stop
}

#[no_mangle]
pub unsafe extern "C" fn judge_run(
    main: *const u8,
    main_bytes: usize,
    data: *mut u32,
    data_words: usize,
    code: *mut u8,
    code_bytes: usize,
    log: *mut u64,
    log_numbers: usize,
    block: *mut u32,
    block_words: usize,
    allowance: u64,
    result: *mut u64,
    result_numbers: usize,
) -> u32 {
    if result_numbers < COUNTS {
        return SHORT;
    }
    let Some(block) = lent_block(block, block_words) else {
        return SHORT;
    };
    let mut memories = Memories {
        main: view(main, main_bytes),
        data: lent(data, data_words),
        code: lent(code, code_bytes),
        log: lent(log, log_numbers),
    };
    let stop = run(&mut memories, block, allowance);
    lent(result, result_numbers)[..COUNTS].copy_from_slice(&stop.counts.numbers());
    stop.answer
}

#[no_mangle]
pub unsafe extern "C" fn judge_why(
    main: *const u8,
    main_bytes: usize,
    _data: *const u32,
    data_words: usize,
    _code: *const u8,
    code_bytes: usize,
    _log: *const u64,
    log_numbers: usize,
    block: *const u32,
    block_words: usize,
    result: *mut u64,
    result_numbers: usize,
) -> u32 {
    if result_numbers < 4 {
        return SHORT;
    }
    let Ok(block) = <&StateBlock>::try_from(view(block, block_words)) else {
        return SHORT;
    };
    let lent_memories = why::Lent {
        main: view(main, main_bytes),
        data_words,
        code_bytes,
        log_numbers,
    };
    let why = why::why(block, &lent_memories);
    lent(result, result_numbers)[..4].copy_from_slice(&why.numbers());
    why.kind()
}

/// Builds the chain in main memory and starts it in the block, or refuses; a refusal changes
/// nothing.
fn build_and_start(
    sheet: &[u8],
    main: &mut [u8],
    address: u32,
    block: &mut StateBlock,
) -> Result<(), sheet::Refusal> {
    let mut started = read_state(block).ok_or((refusals::RANGE, 0))?;
    chain::start(&mut started, 1, address, false).map_err(|refusal| (refusal, 0))?;
    let from = main.len().min(address as usize);
    sheet::build(sheet, &mut main[from..])?;
    *block = write_state(&started);
    Ok(())
}

#[no_mangle]
pub unsafe extern "C" fn judge_build_and_run(
    sheet: *const u8,
    sheet_bytes: usize,
    main: *mut u8,
    main_bytes: usize,
    address: u32,
    data: *mut u32,
    data_words: usize,
    code: *mut u8,
    code_bytes: usize,
    log: *mut u64,
    log_numbers: usize,
    block: *mut u32,
    block_words: usize,
    allowance: u64,
    result: *mut u64,
    result_numbers: usize,
) -> u32 {
    if result_numbers < BUILT_AND_RUN {
        return SHORT;
    }
    let Some(block) = lent_block(block, block_words) else {
        return SHORT;
    };
    let main = lent(main, main_bytes);
    let (data, code) = (lent(data, data_words), lent(code, code_bytes));
    let log = lent(log, log_numbers);
    let result = &mut lent(result, result_numbers)[..BUILT_AND_RUN];
    result.fill(0);
    let lengths = Memories {
        main,
        data,
        code,
        log,
    };
    let used = state_block::used(block);
    if let Err(refusal) = chain::check_lengths(Model::Vif1, &lengths, used) {
        return refusal;
    }
    if let Err((refusal, offset)) = build_and_start(view(sheet, sheet_bytes), main, address, block)
    {
        result[0] = offset as u64;
        return refusal;
    }
    let mut memories = Memories {
        main,
        data,
        code,
        log,
    };
    let stop = run(&mut memories, block, allowance);
    result[1..].copy_from_slice(&stop.counts.numbers());
    stop.answer
}

/// A board of a call.
#[allow(clippy::too_many_arguments)]
unsafe fn board<'a>(
    data1: *const u32,
    data1_words: usize,
    code1: *const u8,
    code1_bytes: usize,
    data0: *const u32,
    data0_words: usize,
    code0: *const u8,
    code0_bytes: usize,
    log: *const u64,
    log_numbers: usize,
    used: u64,
) -> Board<'a> {
    Board {
        vif1: boards::Memories {
            data: view(data1, data1_words),
            code: view(code1, code1_bytes),
        },
        vif0: boards::Memories {
            data: view(data0, data0_words),
            code: view(code0, code0_bytes),
        },
        log: view(log, log_numbers),
        used,
    }
}

/// The answer of a comparison, whose numbers are written to the result.
unsafe fn compared(
    a: Board,
    b: Board,
    parts: u32,
    quadwords: Option<(u64, u64)>,
    result: *mut u64,
    result_numbers: usize,
) -> u32 {
    if result_numbers < boards::NUMBERS {
        return SHORT;
    }
    let (answer, numbers) = match boards::compare(&a, &b, parts, quadwords) {
        Ok((same, numbers)) => (!same as u32, numbers),
        Err(refusal) => (REFUSED + refusal, [0; boards::NUMBERS]),
    };
    lent(result, result_numbers)[..boards::NUMBERS].copy_from_slice(&numbers);
    answer
}

#[no_mangle]
pub unsafe extern "C" fn judge_check(
    sheet: *const u8,
    sheet_bytes: usize,
    main: *const u8,
    main_bytes: usize,
    data: *mut u32,
    data_words: usize,
    code: *mut u8,
    code_bytes: usize,
    log: *mut u64,
    log_numbers: usize,
    allowance: u64,
    result: *mut u64,
    result_numbers: usize,
) -> u32 {
    if result_numbers < CHECKED {
        return SHORT;
    }
    let mut memories = Memories {
        main: view(main, main_bytes),
        data: lent(data, data_words),
        code: lent(code, code_bytes),
        log: lent(log, log_numbers),
    };
    let checked = check::check(view(sheet, sheet_bytes), &mut memories, allowance);
    let verdict = checked.verdict;
    let result = &mut lent(result, result_numbers)[..CHECKED];
    let head = [verdict.number(), verdict.offset() as u64, checked.used];
    result[..3].copy_from_slice(&head);
    result[3..].copy_from_slice(&checked.counts.numbers());
    verdict.kind()
}

#[no_mangle]
pub unsafe extern "C" fn judge_add_totals(
    sums: *mut u64,
    sums_numbers: usize,
    counts: *const u64,
    counts_numbers: usize,
) -> u32 {
    let sums: Result<&mut totals::Totals, _> = lent(sums, sums_numbers).try_into();
    let counts = view(counts, counts_numbers).first_chunk::<COUNTS>();
    let (Ok(sums), Some(&counts)) = (sums, counts) else {
        return SHORT;
    };
    let counts = run_counts::RunCounts::of_numbers(counts);
    totals::add_totals(sums, &counts).err().unwrap_or(0)
}

#[no_mangle]
pub unsafe extern "C" fn judge_nop_share(
    sums: *const u64,
    sums_numbers: usize,
    result: *mut u64,
    result_numbers: usize,
) -> u32 {
    let sums: Result<&totals::Totals, _> = view(sums, sums_numbers).try_into();
    let (Ok(sums), true) = (sums, result_numbers >= 2) else {
        return SHORT;
    };
    let (over, under) = totals::nop_share(sums);
    lent(result, result_numbers)[..2].copy_from_slice(&[over, under]);
    0
}

#[no_mangle]
pub unsafe extern "C" fn judge_compare(
    data1_a: *const u32,
    data1_a_words: usize,
    code1_a: *const u8,
    code1_a_bytes: usize,
    data0_a: *const u32,
    data0_a_words: usize,
    code0_a: *const u8,
    code0_a_bytes: usize,
    log_a: *const u64,
    log_a_numbers: usize,
    used_a: u64,
    data1_b: *const u32,
    data1_b_words: usize,
    code1_b: *const u8,
    code1_b_bytes: usize,
    data0_b: *const u32,
    data0_b_words: usize,
    code0_b: *const u8,
    code0_b_bytes: usize,
    log_b: *const u64,
    log_b_numbers: usize,
    used_b: u64,
    parts: u32,
    result: *mut u64,
    result_numbers: usize,
) -> u32 {
    let a = board(
        data1_a,
        data1_a_words,
        code1_a,
        code1_a_bytes,
        data0_a,
        data0_a_words,
        code0_a,
        code0_a_bytes,
        log_a,
        log_a_numbers,
        used_a,
    );
    let b = board(
        data1_b,
        data1_b_words,
        code1_b,
        code1_b_bytes,
        data0_b,
        data0_b_words,
        code0_b,
        code0_b_bytes,
        log_b,
        log_b_numbers,
        used_b,
    );
    compared(a, b, parts, None, result, result_numbers)
}

#[no_mangle]
pub unsafe extern "C" fn judge_compare_within(
    data1_a: *const u32,
    data1_a_words: usize,
    code1_a: *const u8,
    code1_a_bytes: usize,
    data0_a: *const u32,
    data0_a_words: usize,
    code0_a: *const u8,
    code0_a_bytes: usize,
    log_a: *const u64,
    log_a_numbers: usize,
    used_a: u64,
    data1_b: *const u32,
    data1_b_words: usize,
    code1_b: *const u8,
    code1_b_bytes: usize,
    data0_b: *const u32,
    data0_b_words: usize,
    code0_b: *const u8,
    code0_b_bytes: usize,
    log_b: *const u64,
    log_b_numbers: usize,
    used_b: u64,
    parts: u32,
    first: u64,
    last: u64,
    result: *mut u64,
    result_numbers: usize,
) -> u32 {
    let a = board(
        data1_a,
        data1_a_words,
        code1_a,
        code1_a_bytes,
        data0_a,
        data0_a_words,
        code0_a,
        code0_a_bytes,
        log_a,
        log_a_numbers,
        used_a,
    );
    let b = board(
        data1_b,
        data1_b_words,
        code1_b,
        code1_b_bytes,
        data0_b,
        data0_b_words,
        code0_b,
        code0_b_bytes,
        log_b,
        log_b_numbers,
        used_b,
    );
    compared(a, b, parts, Some((first, last)), result, result_numbers)
}
