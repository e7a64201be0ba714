//! Captures from a seed.

use crate::capture_cases::{Call, Case, Standing};
use crate::capture_packet_cases;
use crate::capture_points;
use crate::chain::{self, Next, Pending, State, Tag};
use crate::count_points;
use crate::gif::{self, Format, Path, Place};
use crate::gif_generate::{
    edge_logs, random_held_block, random_log, random_no_path_block, random_out_of_range_block,
    random_tag, tag_quadword,
};
use crate::log;
use crate::memory;
use crate::memory::cases::{MOST_CODE, MOST_DATA, MOST_MAIN, MOST_VIF0_CODE, MOST_VIF0_DATA};
use crate::model::{Model, ONLY_VIF1};
use crate::packet_points;
use crate::path_points;
use crate::random::Random;
use crate::refusals;
use crate::set_cases;
use crate::set_points;
use crate::state_block::{
    self, chain_word, first_unused, limit, path_word, put_part, read_path, read_state, read_unit,
    unit_word, write_state, write_unit, StateBlock, UnitBlock, PATH2, PATH3, PATHS, PATH_WORDS,
    RESET_UNIT, STATE_WORDS, UNITS, UNIT_WORDS, VIF0, VIF1, ZERO_ON_VIF0,
};
use crate::vif::{
    self, Code, Payload, Unit, Waiting, ADDRESSES, MOST_DIRECT, MOST_NUM, MPG_ADDRESSES,
};
use crate::vif_generate::{
    code_word, lengths, payload_word, random_code, random_mask, random_path_block,
    random_unit_block, random_waiting_unit, skipping_cycle, stcycl, stmask_block,
    Taste as VifTaste, NOT_ONE,
};
use crate::vif_points;
use crate::vif_unpack::Cycle;
use crate::why_cases;
use crate::why_points;

const CHANNELS: [u32; 3] = [0, 1, 2];
const FILL: u64 = 0x0123_4567_89AB_CDEF;
pub const NO_LIMIT: u64 = u64::MAX;

/// A capture file: the fixed cases, and cases by chance with about `runs` runs.
pub fn generate(seed: u64, runs: u64) -> Vec<u8> {
    file_of(&cases(seed, runs))
}

pub fn file_of(cases: &[Case]) -> Vec<u8> {
    let mut file = Vec::new();
    cases.iter().for_each(|case| case.write(&mut file));
    file
}

/// The cases of a file.
pub fn cases(seed: u64, runs: u64) -> Vec<Case> {
    let mut random = Random::new(seed);
    let mut cases = fixed_cases();
    cases.extend(vif_points::all().iter().map(capture_points::case));
    cases.extend(packet_points::in_captures());
    cases.extend(path_points::in_captures());
    cases.extend(set_points::in_captures());
    let first = cases.len();
    add_edge_cases(&mut random, &mut cases);
    set_cases::add_sets(&mut random, &mut cases[first..]);
    cases.extend(set_cases::all(&mut random));
    let mut made = 0;
    while made < runs {
        let case = random_case(&mut random);
        made += runs_of(&case).max(1);
        cases.push(case);
    }
    why_cases::add_whys(&mut random, &mut cases);
    cases.extend(why_points::in_captures());
    cases.extend(why_cases::all(&mut random));
    let walks = why_cases::walks(&mut random, &cases);
    cases.extend(walks);
    cases.extend(count_points::in_captures());
    cases
}

fn runs_of(case: &Case) -> u64 {
    let is_run = |call: &&Call| matches!(call, Call::Run { .. });
    case.calls.iter().filter(is_run).count() as u64
}

/// Words 0 and 1 of a tag with its unused bits zero.
fn tag_words(id: u32, qwc: u32, addr: u32) -> [u32; 2] {
    [id << 28 | qwc, addr]
}

/// A tag whose words 2 and 3 are zero.
pub fn tag(id: u32, qwc: u32, addr: u32) -> [u32; 4] {
    let [low, high] = tag_words(id, qwc, addr);
    [low, high, 0, 0]
}

/// A tag and the payload behind it.
pub fn tagged(id: u32, payload: &[u32]) -> Vec<u32> {
    [&tag(id, payload.len() as u32 / 4, 0)[..], payload].concat()
}

pub fn run(allowance: u64) -> Call {
    Call::Run { allowance }
}

pub fn start(channel: u32, tadr: u32, tte: u32) -> Call {
    Call::Start { channel, tadr, tte }
}

pub fn set(unit: u32, number: u32, value: u32) -> Call {
    Call::Set {
        unit,
        number,
        value,
    }
}

pub fn why() -> Call {
    Call::Why { ignored: [0; 3] }
}

/// A case over these words of main memory, with a log of so many entries.
pub fn plain_case(state: &State, main: &[u32], entries: u64, calls: &[Call]) -> Case {
    let (data_length, code_length) = lengths(Model::Vif1);
    let (vif0_data_length, vif0_code_length) = lengths(Model::Vif0);
    Case {
        main_length: 4 * main.len() as u32,
        main: main.to_vec(),
        data_length,
        code_length,
        vif0_data_length,
        vif0_code_length,
        log_length: log::length(entries),
        fill: FILL,
        whole: false,
        state: write_state(state),
        calls: calls.to_vec(),
    }
}

pub fn split(quadword: u128) -> [u32; 4] {
    std::array::from_fn(|i| (quadword >> (32 * i)) as u32)
}

/// The bench points and other cases that are the same in every file.
fn fixed_cases() -> Vec<Case> {
    let reset = State::reset();
    let calls = [tag(5, 0, 16), tag(5, 0, 32), tag(5, 0, 0)].concat();
    let end = tag(7, 0, 0);
    let mut cases = vec![
        // The second call is accepted, the third refused 13.
        plain_case(&reset, &calls, 0, &[run(NO_LIMIT), run(NO_LIMIT)]),
        // Allowance 0: 90, and 0 where the chain has ended with nothing pending.
        plain_case(&reset, &end, 0, &[run(0), run(1), run(0), run(1)]),
        // Allowance 0 on an ended chain with a word pending: 90.
        {
            let state = State {
                ended: true,
                payload: Some(Pending {
                    address: 12,
                    words: 1,
                }),
                ..reset
            };
            plain_case(&state, &end, 0, &[run(0), run(1), run(0)])
        },
    ];
    cases.extend(gif_points());
    // Bit 31 in the last word: 91 before 0 and 90.
    let last = [tag(7, 1, 0), [0, 0, 0, 1 << 31]].concat();
    for allowance in [4, 5, 6, NO_LIMIT] {
        let calls = [run(allowance), run(1), run(0)];
        cases.push(plain_case(&reset, &last, 0, &calls));
    }
    // No calls.
    cases.push(plain_case(&reset, &end, 0, &[]));
    cases.extend(stmask_cases());
    cases.extend(channels_in_turn());
    cases
}

/// REGLIST and IMAGE, on channel 2 and inside DIRECT.
fn gif_points() -> Vec<Case> {
    let mut state = State {
        channel: 2,
        ..State::reset()
    };
    // REGLIST, NREG 3, NLOOP 1: two quadwords, three writes.
    let reglist = [
        tag(7, 3, 0),
        split(tag_quadword(1, 1, 3, 0x531)),
        split(0x2222_0000_0000_0000_1111),
        split(0x4444_0000_0000_0000_3333),
    ];
    let mut cases = vec![Case {
        whole: true,
        ..plain_case(&state, &reglist.concat(), 4, &[run(NO_LIMIT)])
    }];
    // IMAGE with one entry free: 31, nothing written.
    let image = [
        tag(7, 2, 0),
        split(tag_quadword(1, 2, 1, 0)),
        split(0x6666_0000_0000_0000_5555),
    ];
    state.used = 3;
    let calls = [run(NO_LIMIT), run(NO_LIMIT)];
    cases.push(plain_case(&state, &image.concat(), 4, &calls));
    state.channel = 1;
    for (tags, used) in [(&reglist[1..], 0), (&image[1..], 3)] {
        let direct = [0, 0, 0, code_word(0x50, 0, tags.len() as u32)];
        let main = [&[tag(7, tags.len() as u32 + 1, 0), direct][..], tags].concat();
        state.used = used;
        cases.push(plain_case(&state, &main.concat(), 4, &[run(NO_LIMIT)]));
    }
    cases
}

/// STMASK with other than one word due: refused, the block as given.
fn stmask_cases() -> Vec<Case> {
    let mut cases = Vec::new();
    for due in NOT_ONE {
        let calls = [run(NO_LIMIT), start(2, 0, 0), run(1)];
        for (_, unit_at) in UNITS {
            let mut case = plain_case(&State::reset(), &tag(7, 0, 0), 0, &calls);
            case.state[chain_word::CHANNEL] = due % 3;
            case.state[chain_word::STACK..][..chain::STACK].fill(due);
            put_part(&mut case.state, unit_at, &stmask_block(due));
            cases.push(case);
        }
    }
    cases
}

/// Captures over the three channels in turn, in every order, over one log. The same words go to
/// both units: UNPACK, MPG and program starts near the end of VIF0's memories.
fn channels_in_turn() -> Vec<Case> {
    let codes = [
        [stcycl(1, 1), code_word(0x6C, 2, 255), 1, 2],
        [3, 4, 5, 6],
        [7, 8, code_word(0x4A, 2, 511), 0x11],
        [0x22, 0x33, 0x44, code_word(0x04, 0, 9)],
        [code_word(0x14, 0, 5), code_word(0x17, 0, 6), 0, 0],
    ];
    let packet = [split(tag_quadword(1, 0, 1, 0xE)), [7, 8, 9, 10]];
    let (units, gif) = (0, 4 * 24);
    let main = [&[tag(7, 5, 0)][..], &codes, &[tag(7, 2, 0)], &packet].concat();
    let turn = |channel: u32, tte: u32| match channel {
        2 => start(2, gif, 0),
        _ => start(channel, units, tte),
    };
    let mut cases = Vec::new();
    for orders in [
        [0, 1, 2],
        [0, 2, 1],
        [1, 0, 2],
        [1, 2, 0],
        [2, 0, 1],
        [2, 1, 0],
    ] {
        for (tte, cut) in [(0, NO_LIMIT), (1, NO_LIMIT), (0, 9)] {
            let calls = orders.map(|channel| [turn(channel, tte), run(cut), run(NO_LIMIT)]);
            let calls = [calls.concat(), calls.concat()].concat();
            cases.push(plain_case(&State::reset(), &main.concat(), 16, &calls));
        }
    }
    cases
}

fn add_edge_cases(random: &mut Random, cases: &mut Vec<Case>) {
    add_length_cases(random, cases);
    add_lent_cases(random, cases);
    add_wrong_together_cases(random, cases);
    add_outside_cases(random, cases);
    add_field_cases(random, cases);
    add_unit_field_cases(random, cases);
    add_start_cases(random, cases);
    add_tag_cases(random, cases);
    add_tag_word_cases(random, cases);
    add_interrupt_cases(random, cases);
    add_refusal_cases(random, cases);
    add_upload_cases(random, cases);
    cases.extend(capture_packet_cases::all());
    add_zero_memory_cases(cases);
    for _ in 0..4 {
        cases.push(deep_case(random));
    }
}

/// A few words of main memory: two tags with payload, then an end.
fn short_main(random: &mut Random) -> Vec<u32> {
    let mark = code_word(0x07, 0, random.word() & 0xFFFF);
    [
        tag(1, 1, 0),
        [0, mark, 0, 0],
        tag(3, 1, 16),
        tag(7, 0, 0),
        [0; 4],
    ]
    .concat()
}

/// Starts and runs by chance on whatever state.
fn short_calls(random: &mut Random) -> Vec<Call> {
    let mut calls = Vec::new();
    for _ in 0..random.within(1..=3) {
        let allowance = random.pick(&[0, 0, 1, 2, 3, 7, 20, NO_LIMIT]);
        calls.push(run(allowance));
        if random.percent(40) {
            let channel = random.pick(&CHANNELS);
            let tte = if channel == 2 { 0 } else { random.below(2) };
            calls.push(start(channel, 0, tte as u32));
        }
    }
    calls
}

/// Each length from both sides, with runs on each channel.
fn add_length_cases(random: &mut Random, cases: &mut Vec<Case>) {
    let reset = State::reset();
    let calls = [
        run(0),
        start(1, 0, 1),
        run(3),
        start(0, 0, 1),
        run(3),
        start(2, 0, 0),
        run(NO_LIMIT),
        start(0, 0, 0),
        run(0),
    ];
    let mains = [
        0, 1, 4, 8, 15, 16, 17, 24, 31, 32, 1_048_560, 1_048_575, 1_048_576, 1_048_577, 1_048_592,
        MOST_MAIN,
    ];
    for main_length in mains {
        let mut case = plain_case(&reset, &[], 4, &calls);
        case.main_length = main_length;
        if main_length >= 4 {
            case.main = vec![0x7000_0000];
        }
        cases.push(case);
    }
    for (model, data, code) in unit_lengths() {
        let mut case = plain_case(&reset, &short_main(random), 4, &calls);
        set_lengths(&mut case, model, data, code);
        case.whole = random.percent(30);
        cases.push(case);
    }
    for (log_length, used) in edge_logs() {
        let state = State { used, ..reset };
        let mut case = plain_case(&state, &short_main(random), 0, &calls);
        case.log_length = log_length;
        cases.push(case);
    }
}

/// The lengths of each unit's memories on every channel and on none, in a state and in no state.
fn add_lent_cases(random: &mut Random, cases: &mut Vec<Case>) {
    for channel in [0, 1, 2, 3, 256, u32::MAX] {
        for (model, data, code) in unit_lengths() {
            for ended in [0, 2] {
                let calls = [run(random.pick(&[0, 1, 3])), start(1, 0, 0), run(2)];
                let mut case = plain_case(&State::reset(), &short_main(random), 4, &calls);
                set_lengths(&mut case, model, data, code);
                case.state[chain_word::CHANNEL] = channel;
                case.state[chain_word::ENDED] = ended;
                cases.push(case);
            }
        }
    }
}

/// Lengths of each unit's memories of which one is wrong, or both.
fn unit_lengths() -> Vec<(Model, u32, u32)> {
    let mut all = Vec::new();
    for (model, most_data, most_code) in [
        (Model::Vif0, MOST_VIF0_DATA, MOST_VIF0_CODE),
        (Model::Vif1, MOST_DATA, MOST_CODE),
    ] {
        let (data, code) = lengths(model);
        for wrong in [0, 1, data - 4, data - 1, data + 1, most_data] {
            all.push((model, wrong, code));
        }
        for wrong in [
            0,
            1,
            code - 4,
            code - 1,
            code + 1,
            code + 2,
            code + 4,
            most_code,
        ] {
            all.push((model, data, wrong));
        }
    }
    // VIF0's sizes for VIF1.
    let ((data, code), (small_data, small_code)) = (lengths(Model::Vif1), lengths(Model::Vif0));
    all.extend([
        (Model::Vif1, small_data, small_code),
        (Model::Vif1, small_data, code),
        (Model::Vif1, data, small_code),
    ]);
    all
}

fn set_lengths(case: &mut Case, model: Model, data: u32, code: u32) {
    match model {
        Model::Vif0 => (case.vif0_data_length, case.vif0_code_length) = (data, code),
        Model::Vif1 => (case.data_length, case.code_length) = (data, code),
    }
}

/// Every choice of wrong lengths, state and pending words at once.
fn add_wrong_together_cases(random: &mut Random, cases: &mut Vec<Case>) {
    for channel in [0, 1] {
        for wrong in 0..64 {
            let mut case = wrong_together(random, channel, wrong);
            cases.push(case.clone());
            case.calls = short_calls(random);
            cases.push(case);
        }
    }
}

/// Wrong is what the bits 0 to 5 say: main memory, data memory, entries used, code memory, the
/// state, pending words.
fn wrong_together(random: &mut Random, channel: u32, wrong: u32) -> Case {
    let bit = |i: u32| wrong >> i & 1 == 1;
    let main = short_main(random);
    let mut state = State {
        channel,
        ended: random.percent(50),
        ..State::reset()
    };
    if bit(2) {
        state.used = 5;
    }
    if bit(5) {
        put_pending_outside(random, &mut state);
    }
    let calls = [run(random.pick(&[0, 1, 30, NO_LIMIT])), run(0)];
    let mut case = plain_case(&state, &main, 4, &calls);
    if bit(0) {
        case.main_length = random.pick(&[81, 88, 84, MOST_MAIN, 1_048_592]);
        if bit(5) && case.main_length > 1_048_576 {
            case.state[chain_word::TAG_WORDS] = 1;
            case.state[chain_word::TAG_WORD_AT] = u32::MAX - 3;
        }
    }
    let model = state.model();
    let (mut data, mut code) = lengths(model);
    if bit(1) {
        data = random.pick(&[data - 1, data + 1, 0]);
    }
    if bit(3) {
        code = random.pick(&[code - 1, code + 1, 0]);
    }
    set_lengths(&mut case, model, data, code);
    if bit(4) {
        let (field, value) = wrong_field(random, bit(5));
        case.state[field] = value;
    }
    case
}

/// A word of a state block that is out of range; of a state that exists where one is wanted.
fn wrong_field(random: &mut Random, exists: bool) -> (usize, u32) {
    match random.below(5) {
        0 => (chain_word::TADR, 8),
        1 => (chain_word::CHANNEL, 3),
        2 => (VIF1 + unit_word::MODE, 3),
        3 => (VIF0 + unit_word::BASE, 1),
        _ if exists => (chain_word::TADR, 1 << 31),
        _ => (chain_word::ENDED, 2),
    }
}

/// Words pending outside a short main memory.
fn put_pending_outside(random: &mut Random, state: &mut State) {
    state.tte = true;
    let far = random.pick(&[80, 96, 1 << 20]);
    match random.below(2) {
        0 => state.tag_word = Some(far + random.pick(&[8, 12])),
        _ => {
            state.payload = Some(Pending {
                address: far - 16,
                words: 8,
            });
        }
    }
}

/// Pending words at the end of main memory and outside.
fn add_outside_cases(random: &mut Random, cases: &mut Vec<Case>) {
    let main = short_main(random);
    let length = 4 * main.len() as u32;
    let base = State {
        tadr: 48,
        ..State::reset()
    };
    let mut states = tag_words_outside(&base, length);
    states.extend(payload_outside(&base, length));
    for state in states {
        for ended in [false, true] {
            let state = State { ended, ..state };
            let first = random.pick(&[0, 1, 2, NO_LIMIT]);
            let channel = random.pick(&CHANNELS);
            let calls = [run(first), run(0), start(channel, 48, 0), run(NO_LIMIT)];
            cases.push(plain_case(&state, &main, 4, &calls));
        }
    }
}

fn tag_words_outside(base: &State, length: u32) -> Vec<State> {
    let mut states = Vec::new();
    let far = [1 << 20, 1 << 31, 0xFFFF_FFF0];
    for at in [0, length - 16, length, length + 16].into_iter().chain(far) {
        for (channel, word) in [(0, 8), (0, 12), (1, 8), (1, 12)] {
            states.push(State {
                channel,
                tte: true,
                tag_word: Some(at + word),
                ..*base
            });
        }
    }
    states
}

fn payload_outside(base: &State, length: u32) -> Vec<State> {
    let pending = [
        (length - 16, 4),
        (length - 4, 1),
        (length - 32, 8),
        (length - 16, 8),
        (length - 12, 7),
        (length, 4),
        (0, length / 4),
        (0, length / 4 + 4),
        (0, chain::MOST_PENDING),
        (4, chain::MOST_PENDING - 1),
        (1 << 31, 4),
        (0xFFFF_FFF0, 4),
        (0xFFFF_FFFC, 1),
        (0xFFFF_FFF0, 8),
        (0xFFFF_FFF0, length / 4),
        (0xFFF0_0000, chain::MOST_PENDING),
    ];
    let mut states = Vec::new();
    for (address, words) in pending {
        for channel in CHANNELS {
            if channel != 2 || address % 16 == 0 {
                states.push(State {
                    channel,
                    payload: Some(Pending { address, words }),
                    ..*base
                });
            }
        }
    }
    states
}

/// Adds a case for a state block: runs and starts on it in any order.
fn add_block(random: &mut Random, cases: &mut Vec<Case>, block: StateBlock) {
    let mut case = plain_case(&State::reset(), &short_main(random), 4, &[]);
    let channel = random.pick(&CHANNELS);
    let begin = start(channel, random.pick(&[0, 48, 1 << 20]), 0);
    let go = run(random.pick(&[0, 1, 3, 30, NO_LIMIT]));
    case.calls = if random.percent(50) {
        vec![begin, go]
    } else {
        vec![go, begin, run(2)]
    };
    case.state = block;
    cases.push(case);
}

/// Each field of a state block but the units' at its limits and just outside.
fn add_field_cases(random: &mut Random, cases: &mut Vec<Case>) {
    let reset = write_state(&State::reset());
    for changes in chain_changes() {
        for channel in CHANNELS {
            let mut block = reset;
            block[chain_word::CHANNEL] = channel;
            for &(field, value) in &changes {
                block[field] = value;
            }
            add_block(random, cases, block);
        }
    }
    for (_, path_at) in PATHS {
        for _ in 0..10 {
            for path in [
                random_held_block(random),
                random_out_of_range_block(random),
                random_no_path_block(random),
            ] {
                let mut block = reset;
                put_part(&mut block, path_at, &path);
                block[chain_word::CHANNEL] = random.pick(&CHANNELS);
                add_block(random, cases, block);
            }
        }
    }
}

type Changes = Vec<(usize, u32)>;

/// Changes of the words before the other blocks.
fn chain_changes() -> Vec<Changes> {
    let mut changes = Vec::new();
    let mut add = |field: usize, values: &[u32]| {
        changes.extend(values.iter().map(|&value| vec![(field, value)]));
    };
    add(chain_word::CHANNEL, &[0, 1, 2, 3, 256, 257, u32::MAX]);
    add(
        chain_word::TADR,
        &[
            1,
            4,
            8,
            15,
            16,
            48,
            80,
            1_048_560,
            1_048_576,
            0x7FFF_FFF0,
            0x7FFF_FFF1,
            0x8000_0000,
            0x8000_0010,
            0xFFFF_FFF0,
            u32::MAX,
        ],
    );
    add(chain_word::TTE, &[1, 2, 256, u32::MAX]);
    add(chain_word::ENDED, &[1, 2, 256, u32::MAX]);
    add_stack_changes(&mut changes);
    add_tag_word_changes(&mut changes);
    add_payload_changes(&mut changes);
    changes
}

fn add_stack_changes(changes: &mut Vec<Changes>) {
    let [depth_at, first, second] = [chain_word::DEPTH, chain_word::STACK, chain_word::STACK + 1];
    for depth in [1, 2, 3, 4, 256, u32::MAX] {
        changes.push(vec![(depth_at, depth)]);
        changes.push(vec![(depth_at, depth), (first, u32::MAX), (second, 3)]);
    }
    changes.push(vec![(first, 8), (second, u32::MAX)]);
    for entry in [
        8,
        15,
        16,
        1_048_560,
        1_048_576,
        1_048_577,
        1_048_592,
        1 << 31,
        u32::MAX - 15,
    ] {
        changes.push(vec![(depth_at, 1), (first, entry)]);
        changes.push(vec![(depth_at, 1), (second, entry)]);
        changes.push(vec![(depth_at, 2), (first, entry), (second, 32)]);
        changes.push(vec![(depth_at, 2), (first, 32), (second, entry)]);
    }
}

fn add_tag_word_changes(changes: &mut Vec<Changes>) {
    let mut add = |pending: u32, at: u32, tte: u32| {
        changes.push(vec![
            (chain_word::TAG_WORDS, pending),
            (chain_word::TAG_WORD_AT, at),
            (chain_word::TTE, tte),
        ]);
    };
    for pending in [1, 2, 256, u32::MAX] {
        for tte in [0, 1] {
            add(pending, 24, tte);
        }
    }
    for at in 0..17 {
        add(1, 32 + at, 1);
        add(0, 32 + at, 1);
    }
}

fn add_payload_changes(changes: &mut Vec<Changes>) {
    for (words, address) in [
        (1, 12),
        (1, 16),
        (2, 12),
        (3, 4),
        (4, 0),
        (4, 4),
        (4, 2),
        (1, 13),
        (1, 14),
        (4, 16),
        (8, 16),
        (7, 20),
        (8, 20),
        (262_140, 0),
        (262_139, 4),
        (262_141, 12),
        (262_143, 4),
        (262_144, 0),
        (262_144, 16),
        (0, 1),
        (0, u32::MAX),
        (u32::MAX, 4),
        (u32::MAX - 3, 0),
        (1 << 31, 0),
        (1 << 30, 0),
    ] {
        changes.push(vec![
            (chain_word::PAYLOAD_WORDS, words),
            (chain_word::PAYLOAD_AT, address),
        ]);
    }
}

/// Each field of the unit blocks at its limits and just outside.
fn add_unit_field_cases(random: &mut Random, cases: &mut Vec<Case>) {
    for (model, unit_at) in UNITS {
        for field in 0..unit_word::LIMITED {
            let limit = limit(model, field);
            for value in [limit, limit + 1, u32::MAX] {
                add_unit_field(random, cases, unit_at, &RESET_UNIT, (field, value));
            }
        }
        let waiting = (unit_word::WAITING, 8);
        add_unit_field(random, cases, unit_at, &RESET_UNIT, waiting);
        for code in state_block::STMASK..=state_block::UNPACK {
            for (cl, wl) in [(4, 3), (3, 4), (4, 0), (0, 4)] {
                let unit = one_due_block(code, cl, wl);
                for (field, values) in waiting_values() {
                    for value in values {
                        add_unit_field(random, cases, unit_at, &unit, (field, value));
                    }
                }
            }
        }
    }
    for register in ZERO_ON_VIF0 {
        add_not_zero(random, cases, register);
    }
}

/// A unit with one word changed: once for the run, once for the start.
fn add_unit_field(
    random: &mut Random,
    cases: &mut Vec<Case>,
    unit_at: usize,
    unit: &UnitBlock,
    (field, value): (usize, u32),
) {
    let mut block = write_state(&State::reset());
    block[chain_word::CHANNEL] = random.pick(&CHANNELS);
    put_part(&mut block, unit_at, unit);
    block[unit_at + field] = value;
    for calls in [vec![run(2)], vec![start(2, 0, 0), run(NO_LIMIT)]] {
        let mut case = plain_case(&State::reset(), &short_main(random), 4, &calls);
        case.state = block;
        cases.push(case);
    }
}

/// A register that is zero on VIF0, with other values on every channel, beside a unit that
/// waits or not.
fn add_not_zero(random: &mut Random, cases: &mut Vec<Case>, register: usize) {
    for channel in CHANNELS {
        for value in [1, 1_023, 1_024] {
            let mut block = write_state(&State::reset());
            block[chain_word::CHANNEL] = channel;
            if random.percent(50) {
                let unit = random_waiting_unit(random, Model::Vif0);
                put_part(&mut block, VIF0, &write_unit(&unit));
            }
            block[VIF0 + register] = value;
            for calls in [vec![run(2)], vec![start(channel, 0, 0), run(0)]] {
                let mut case = plain_case(&State::reset(), &short_main(random), 4, &calls);
                case.state = block;
                cases.push(case);
            }
        }
    }
}

/// A unit in which a code waits with one word due, and one of what it counts.
fn one_due_block(code: u32, cl: u32, wl: u32) -> UnitBlock {
    let mut unit = RESET_UNIT;
    unit[unit_word::CL] = cl;
    unit[unit_word::WL] = wl;
    unit[unit_word::WAITING] = code;
    unit[unit_word::DUE] = 1;
    unit[unit_word::COUNT] = 1;
    unit
}

/// Values of the words of a waiting code at their limits and just outside.
fn waiting_values() -> Vec<(usize, Vec<u32>)> {
    let most = u32::MAX;
    let due = vec![0, 2, 3, 4, 5, MOST_DIRECT, MOST_DIRECT + 1, most];
    let addresses = vec![
        ADDRESSES - 1,
        ADDRESSES,
        MPG_ADDRESSES - 1,
        MPG_ADDRESSES,
        most,
    ];
    vec![
        (unit_word::INTERRUPT, vec![1, 2]),
        (unit_word::DUE, due),
        (unit_word::ADDRESS, addresses),
        (unit_word::COUNT, vec![0, MOST_NUM, MOST_NUM + 1, most]),
        (unit_word::FORMAT, vec![3, 7, 11, 15, 16, most]),
        (unit_word::USN, vec![2]),
        (unit_word::M, vec![2]),
    ]
}

/// State blocks with each field at its limits and just outside.
pub fn field_blocks(random: &mut Random) -> Vec<StateBlock> {
    let mut cases = Vec::new();
    add_field_cases(random, &mut cases);
    add_unit_field_cases(random, &mut cases);
    cases.into_iter().map(|case| case.state).collect()
}

/// Starts with each value at its limits and just outside.
fn add_start_cases(random: &mut Random, cases: &mut Vec<Case>) {
    let main = short_main(random);
    let length = 4 * main.len() as u32;
    for (channel, tadr, tte) in edge_starts() {
        for wrong_state in [false, true] {
            let mut state = random_state(random, length);
            state.used = state.used.min(4);
            let mut case = plain_case(&state, &main, 4, &[]);
            if wrong_state {
                case.state[random.pick(&[VIF0, VIF1]) + unit_word::MODE] = 3;
            }
            case.calls = vec![
                run(random.below(4)),
                start(channel, tadr, tte),
                run(random.pick(&[0, 1, 3])),
                run(3),
            ];
            cases.push(case);
        }
    }
}

/// Channel, TADR and TTE of starts.
fn edge_starts() -> Vec<(u32, u32, u32)> {
    let mut starts = Vec::new();
    for channel in [0, 1, 2, 3, 256, 257, 258, u32::MAX] {
        starts.push((channel, 48, 0));
    }
    for tte in [0, 1, 2, 256, 257, u32::MAX] {
        starts.extend(CHANNELS.map(|channel| (channel, 48, tte)));
    }
    let far = [0x7FFF_FFF0, 1 << 31, u32::MAX - 15, u32::MAX];
    for tadr in [1, 2, 4, 8, 15, 16, 80].into_iter().chain(far) {
        starts.extend(CHANNELS.map(|channel| (channel, tadr, 0)));
    }
    starts.push((3, 1, 2));
    starts
}

/// Tags by every ID with right and wrong ADDR, SPR, QWC and stack.
fn add_tag_cases(random: &mut Random, cases: &mut Vec<Case>) {
    // The tag lies at 32 of 96 bytes; after it is room for three quadwords.
    for id in 0..8 {
        for addr in [16, 64, 80, 96, 1_048_576, 0x7FFF_FFF0, 65, 72, 0x7FFF_FFF8] {
            for spr in [0, 1] {
                for qwc in [0, 1, 2, 3, 4, 65_535] {
                    let depth = random.below(3) as usize;
                    let depth = if id == chain::CALL && random.percent(60) {
                        2
                    } else {
                        depth
                    };
                    add_tag_case(random, cases, (id, qwc, addr, spr), depth);
                }
            }
        }
    }
}

fn add_tag_case(
    random: &mut Random,
    cases: &mut Vec<Case>,
    (id, qwc, addr, spr): (u32, u32, u32, u32),
    depth: usize,
) {
    let mut state = State {
        channel: random.pick(&CHANNELS),
        tadr: 32,
        depth,
        ..State::reset()
    };
    state.tte = state.channel != 2 && random.percent(50);
    for entry in &mut state.stack[..depth] {
        *entry = random.pick(&[0, 16, 80, 96, 1_048_576]);
    }
    let mut main = vec![0; 24];
    let unused = random.word() & 0x8FFF_0000;
    main[8] = id << 28 | qwc | random.pick(&[0, unused]);
    main[9] = addr | spr << 31;
    for word in [10, 11] {
        main[word] = code_word(0x07, 0, random.word() & 0xFFFF);
    }
    main[16] = 0x7000_0000;
    let allowance = random.pick(&[1, 1, 2, 3, 4, 9, 40]);
    let calls = [run(allowance), run(random.pick(&[0, 1, 30]))];
    cases.push(plain_case(&state, &main, 4, &calls));
}

/// Tag words of every ID with codes of many kinds, cut at every step.
fn add_tag_word_cases(random: &mut Random, cases: &mut Vec<Case>) {
    for id in 0..8 {
        for qwc in [0, 1] {
            for pair in tag_word_pairs() {
                add_tag_word_case(random, cases, tag_words(id, qwc, 48), pair);
            }
        }
    }
}

/// Words 2 and 3 of tags.
fn tag_word_pairs() -> [[u32; 2]; 19] {
    let mark = |imm: u32| code_word(0x07, 0, imm);
    [
        [mark(1), mark(2)],
        [1 << 31 | mark(3), 1 << 31 | mark(4)],
        [code_word(0x20, 0, 0), 0x1234_5678],
        [1 << 31 | code_word(0x20, 0, 0), 0x1234_5678],
        [mark(5), code_word(0x31, 0, 0)],
        [0, code_word(0x50, 0, 1)],
        [0, code_word(0x51, 0, 2)],
        [code_word(0x50, 0, 1), 0],
        [code_word(0x14, 0, 7), code_word(0x17, 0, 0)],
        [code_word(0x08, 0, 0), 0],
        [0, code_word(0x5F, 0, 0)],
        [stcycl(1, 1), code_word(0x60, 2, 0x3FF)],
        [stcycl(2, 3), code_word(0x60, 8, 0x3FE)],
        [stcycl(0, 3), 1 << 31 | code_word(0x60, 0, 0x3FE)],
        [code_word(0x05, 0, 3), 0],
        [code_word(0x62, 1, 0), 0],
        [0, code_word(0x4A, 2, 511)],
        [code_word(0x4A, 2, 511), 0],
        [1 << 31 | code_word(0x4A, 1, 511), 0],
    ]
}

/// A tag with these words, then a quadword of payload, then an end.
fn add_tag_word_case(
    random: &mut Random,
    cases: &mut Vec<Case>,
    [low, high]: [u32; 2],
    pair: [u32; 2],
) {
    let mark = |imm: u32| code_word(0x07, 0, imm);
    let main = [
        [low, high, pair[0], pair[1]],
        [1, 0, 0, 0],
        tag(7, 0, 0),
        [0x7000_0000, 0, mark(8), mark(9)],
    ];
    let mut state = State {
        channel: random.pick(&[0, 1]),
        tte: random.percent(85),
        used: random.pick(&[0, 0, 3, 4]),
        ..State::reset()
    };
    if random.percent(25) {
        state.depth = 1;
        state.stack[0] = 48;
    }
    if random.percent(25) {
        state.vif1 = direct_waits(random);
    }
    let cut = random.below(5);
    let calls = [run(cut), run(random.below(3)), run(20)];
    cases.push(plain_case(&state, &main.concat(), 4, &calls));
}

/// A unit in which DIRECT or DIRECTHL waits.
fn direct_waits(random: &mut Random) -> Unit {
    Unit {
        waiting: Some(Waiting {
            payload: random.pick(&[Payload::Direct, Payload::Directhl]),
            interrupt: random.percent(30),
            due: random.within(1..=3) as u32,
        }),
        ..Unit::reset(Model::Vif1)
    }
}

/// Codes with their bit 31 set that end in each word of a payload, the last too.
fn add_interrupt_cases(random: &mut Random, cases: &mut Vec<Case>) {
    for id in [0, 1, 6, 7] {
        for at in 0..4 {
            for steps in [1, 2, 3, 4, 5, 6, 9] {
                let mut payload = [0; 4];
                payload[at] = 1 << 31;
                let main = [tag(id, 1, 16), payload, tag(7, 0, 0)].concat();
                let calls = [run(steps), run(random.pick(&[0, 1, 5])), run(10)];
                let state = State {
                    channel: random.pick(&[0, 1]),
                    ..State::reset()
                };
                cases.push(plain_case(&state, &main, 4, &calls));
            }
        }
    }
    // The last quadword of DIRECT, the last of the payload too.
    for command in [0x50, 0x51] {
        for after in [0, 1] {
            for allowance in [5, 6, 7, 8, NO_LIMIT] {
                let direct = [0, 0, 0, 1 << 31 | code_word(command, 0, 2)];
                let gif_tag = split(tag_quadword(1, 0, 1, 0xE));
                let main = [tag(7, 3 + after, 0), direct, gif_tag, [1, 2, 3, 4], [0; 4]];
                let calls = [run(allowance), run(0), run(1), run(NO_LIMIT)];
                cases.push(plain_case(&State::reset(), &main.concat(), 4, &calls));
            }
        }
    }
}

/// Each refusal of a step after steps that stay.
fn add_refusal_cases(random: &mut Random, cases: &mut Vec<Case>) {
    let log_full = State {
        used: 4,
        ..State::reset()
    };
    add_code_refusal_cases(&log_full, cases);
    add_tops_refusal_cases(cases);
    add_gif_refusal_cases(&log_full, cases);
    for bad in [
        tag(2, 0, 8),
        tag(2, 0, 1 << 31),
        tag(3, 1, 48),
        tag(1, 1, 0),
        tag(2, 0, 48),
    ] {
        let main = [tag(1, 1, 0), [0; 4], bad].concat();
        let state = State {
            channel: random.pick(&CHANNELS),
            ..State::reset()
        };
        cases.push(plain_case(&state, &main, 4, &TO_THE_REFUSAL));
    }
}

/// A run and another.
const TO_THE_REFUSAL: [Call; 2] = [
    Call::Run { allowance: 1 << 32 },
    Call::Run {
        allowance: NO_LIMIT,
    },
];

/// Codes that are refused, and those that only VIF1 has, in each word and on both units.
fn add_code_refusal_cases(log_full: &State, cases: &mut Vec<Case>) {
    let codes = [
        code_word(0x08, 0, 0),
        code_word(0x63, 1, 0),
        code_word(0x60, 1, 0),
        code_word(0x05, 0, 3),
        code_word(0x14, 0, 1),
        code_word(0x17, 0, 1),
    ];
    let missing = ONLY_VIF1.map(|command| code_word(command, 0, 1));
    for code in codes.into_iter().chain(missing) {
        for at in 0..4 {
            for (channel, interrupt) in [(1, 0), (1, 1 << 31), (0, 0), (0, 1 << 31)] {
                let mut payload = [0; 8];
                payload[at] = code | interrupt;
                let main = [&tag(7, 2, 0)[..], &payload].concat();
                let state = State {
                    channel,
                    ..*log_full
                };
                cases.push(plain_case(&state, &main, 4, &TO_THE_REFUSAL));
            }
        }
    }
}

/// MPG in each word of a payload and of a tag, and from saved states in each word, cut before and
/// after its first payload word.
fn add_upload_cases(random: &mut Random, cases: &mut Vec<Case>) {
    for channel in [0, 1] {
        for number in 0..4 {
            for cut in [1, 2, NO_LIMIT] {
                let interrupt = (random.percent(30) as u32) << 31;
                let code = interrupt | code_word(0x4A, random.within(1..=2) as u32, 511);
                let mut words = [code_word(0x07, 0, 7), 0, 0, 0, 5, 6, 7, 8];
                words[number as usize] = code;
                let main = [&tag(1, 2, 0)[..], &words, &tag(7, 0, 0)].concat();
                let calls = [run(cut.saturating_add(number)), run(1), run(9)];
                let state = State {
                    channel,
                    ..State::reset()
                };
                cases.push(plain_case(&state, &main, 4, &calls));
            }
        }
        for (number, qwc) in [(2, 0), (2, 1), (3, 0), (3, 1)] {
            for cut in 0..5 {
                add_tag_upload(cases, (channel, number), qwc, cut);
            }
        }
        for due in 1..=4 {
            add_saved_uploads(random, cases, channel, due);
        }
    }
}

/// MPG in a word of a tag, before a payload and before another tag; the run is cut after so many
/// steps.
fn add_tag_upload(cases: &mut Vec<Case>, (channel, number): (u32, usize), qwc: u32, cut: u64) {
    let mut first = tag(1, qwc, 0);
    first[number] = code_word(0x4A, 1, 511);
    let second = [7 << 28, 0, 8, 9];
    let payload: &[u32] = if qwc == 0 { &[] } else { &[5, 6, 0, 0] };
    let main = [&first, payload, &second].concat();
    let state = State {
        channel,
        tte: true,
        ..State::reset()
    };
    let calls = [run(cut), run(1), run(NO_LIMIT)];
    cases.push(plain_case(&state, &main, 4, &calls));
}

/// An MPG of two instructions that waits with so many words due, each word of a payload and of a
/// tag being the next.
fn add_saved_uploads(random: &mut Random, cases: &mut Vec<Case>, channel: u32, due: u32) {
    let main = [tag(7, 1, 0), [1, 2, 3, 4], [5, 6, 7, 8], tag(7, 0, 0)].concat();
    let mut unit = RESET_UNIT;
    for (at, word) in [
        (unit_word::WAITING, state_block::MPG),
        (unit_word::DUE, due),
        (unit_word::ADDRESS, random.word() % MPG_ADDRESSES),
        (unit_word::COUNT, 2),
    ] {
        unit[at] = word;
    }
    let pending = |skipped: u32| Pending {
        address: 16 + 4 * skipped,
        words: 8 - skipped,
    };
    let payloads = (0..4).map(|skipped| (None, Some(pending(skipped))));
    let tag_words = [8, 12].map(|address| (Some(address), Some(pending(0))));
    for (tag_word, payload) in payloads.chain(tag_words) {
        let state = State {
            channel,
            tadr: 48,
            tte: tag_word.is_some(),
            tag_word,
            payload,
            ..State::reset()
        };
        let calls = [run(0), run(1), run(2), run(NO_LIMIT)];
        let mut case = plain_case(&state, &main, 4, &calls);
        let unit_at = if channel == 0 { VIF0 } else { VIF1 };
        put_part(&mut case.state, unit_at, &unit);
        cases.push(case);
    }
}

/// Data of GIF tags that is refused, inside DIRECTHL and on channel 2.
fn add_gif_refusal_cases(log_full: &State, cases: &mut Vec<Case>) {
    for gif_tag in [
        tag_quadword(2, 0, 2, 0xBF),
        tag_quadword(2, 1, 3, 0xFBF),
        tag_quadword(1, 0, 2, 0xEF),
        tag_quadword(1, 1, 3, 0x1FF),
        tag_quadword(1, 2, 1, 0),
    ] {
        let data = [split(gif_tag), [1, 2, 3, 4], [5, 6, 7, 8]].concat();
        let direct = [0, 0, 0, code_word(0x51, 0, 3)];
        let main = [&tag(7, 4, 0)[..], &direct, &data].concat();
        cases.push(plain_case(log_full, &main, 4, &TO_THE_REFUSAL));
        let main = [&tag(7, 3, 0)[..], &data].concat();
        let state = State {
            channel: 2,
            ..*log_full
        };
        cases.push(plain_case(&state, &main, 4, &TO_THE_REFUSAL));
    }
}

/// UNPACK with IMM bit 15 under WL that is right and 0, in a format that is right and refused, as
/// payload and as a tag word.
fn add_tops_refusal_cases(cases: &mut Vec<Case>) {
    for (cl, wl) in [(1, 1), (0, 3), (3, 0), (0, 0)] {
        for command in [0x60, 0x63, 0x7C, 0x7B] {
            for channel in [0, 1] {
                let codes = [stcycl(cl, wl), code_word(command, 1, 0x8001)];
                let payload = [codes[0], 0, codes[1], 0];
                let main = [tag(1, 1, 0), payload, tag(7, 0, 0)].concat();
                let mut state = State {
                    channel,
                    ..State::reset()
                };
                cases.push(plain_case(&state, &main, 4, &TO_THE_REFUSAL));
                let [low, high] = tag_words(7, 0, 0);
                state.tte = true;
                let main = [low, high, codes[0], codes[1]];
                cases.push(plain_case(&state, &main, 4, &TO_THE_REFUSAL));
            }
        }
    }
}

/// The longest main memory and payload, nearly all zero.
fn add_zero_memory_cases(cases: &mut Vec<Case>) {
    for channel in CHANNELS {
        for (id, qwc, addr) in [
            (1, 65_535, 0),
            (7, 65_535, 0),
            (3, 65_535, 0),
            (3, 65_535, 16),
            (4, 65_535, 32),
            (0, 1, 1_048_560),
            (0, 1, 1_048_576),
            (2, 0, 1_048_560),
            (2, 0, 1_048_576),
            (5, 0, 1_048_560),
        ] {
            let state = State {
                channel,
                ..State::reset()
            };
            let calls = [run(NO_LIMIT), run(0), run(1), run(NO_LIMIT)];
            // Tag words are legal codes, so that payload may hold them.
            let [low, high] = tag_words(id, qwc, addr);
            let mut case = plain_case(&state, &[low, high, 0, 0], 4, &calls);
            case.main_length = memory::MOST_MAIN as u32;
            cases.push(case);
        }
    }
}

/// The CL and WL that a case sets.
#[derive(Clone, Copy)]
enum Cycles {
    Any,
    /// The payload of an UNPACK is the same under all of them.
    Skipping,
    Only(Cycle),
}

/// What a case has more or less of.
struct Taste {
    vif: VifTaste,
    cycles: Cycles,
    /// Tags that are refused.
    bad_tag_percent: u64,
    /// Tags that end the chain.
    end_percent: u64,
    /// Tags that go back to one that was read.
    loop_percent: u64,
    /// DIRECT in word 3.
    direct_percent: u64,
    /// What writes to the log is avoided where less room is left, in entries.
    spare: u64,
    most_qwc: u64,
}

impl Taste {
    fn new(random: &mut Random) -> Taste {
        Taste {
            vif: VifTaste {
                interrupt_percent: random.pick(&[0, 0, 0, 0, 1, 1, 1, 8]),
                illegal_percent: random.pick(&[0, 0, 0, 0, 0, 1]),
                b_percent: random.pick(&[0, 0, 0, 0, 0, 0, 3]),
                unpack_percent: random.pick(&[15, 30, 60]),
                long_percent: random.pick(&[0, 0, 2, 10]),
            },
            cycles: Cycles::Any,
            bad_tag_percent: random.pick(&[0, 0, 0, 1, 4]),
            end_percent: random.pick(&[0, 1, 1, 2, 6]),
            loop_percent: random.pick(&[0, 1, 5]),
            direct_percent: random.pick(&[0, 15, 40]),
            spare: random.pick(&[0, 2, 2, 2, 2, 2, 2, 2]),
            most_qwc: random.pick(&[3, 8, 16, 40]),
        }
    }

    /// For loops that can go on for ever: nothing is refused, no interrupts, no log, and each code
    /// has the same payload every time.
    fn deep(random: &mut Random) -> Taste {
        let mut taste = Taste::new(random);
        taste.cycles = if random.percent(50) {
            let (cl, wl) = random.pick(&[(1, 2), (2, 3), (3, 8), (1, 255), (0, 3)]);
            Cycles::Only(Cycle { cl, wl })
        } else {
            Cycles::Skipping
        };
        taste.vif.interrupt_percent = 0;
        taste.vif.illegal_percent = 0;
        taste.vif.b_percent = 0;
        taste.vif.long_percent = random.pick(&[0, 5, 15]);
        taste.bad_tag_percent = 0;
        taste.end_percent = 0;
        taste.loop_percent = 0;
        taste.spare = u64::MAX;
        taste
    }
}

/// A case under way. Main memory gets its words just before they are read.
struct Maker {
    case: Case,
    standing: Standing,
    taste: Taste,
    /// Which words of main memory have been read, or stay as they are.
    fixed: Vec<bool>,
    /// Tags that were read with nothing waiting, by their address.
    tags: Vec<u32>,
}

impl Maker {
    /// The first `words` words of main memory are to be given.
    fn new(case: Case, words: usize, taste: Taste) -> Maker {
        let standing = Standing::new(&case);
        let all = case.main_length as usize / 4;
        let mut fixed = vec![true; all];
        fixed[..words.min(all)].fill(false);
        Maker {
            case,
            standing,
            taste,
            fixed,
            tags: Vec::new(),
        }
    }

    fn state(&self) -> Option<&State> {
        self.standing.state.as_ref()
    }

    /// A start; hands back its answer.
    fn start(&mut self, channel: u32, tadr: u32, tte: u32) -> u32 {
        self.case.calls.push(start(channel, tadr, tte));
        self.standing.start(channel, tadr, tte)
    }

    /// Sets by chance.
    fn some_sets(&mut self, random: &mut Random) {
        for _ in 0..random.pick(&[1, 1, 1, 2, 8]) {
            let call = set_cases::random_set(random);
            self.case.calls.push(call);
            self.standing.make(&call);
        }
    }

    /// Runs on, at most so many steps; hands back the answer and the steps.
    fn run(&mut self, random: &mut Random, most: u64) -> (u32, u64) {
        let mut steps = 0;
        let answer = loop {
            let Some(state) = &self.standing.state else {
                break refusals::RANGE;
            };
            let (done, state) = (state.is_done(), *state);
            if steps == 0 {
                if let Err(refusal) = self.check_entry() {
                    break refusal;
                }
            }
            if done {
                break chain::DONE;
            }
            if steps == most {
                break chain::ALLOWANCE_USED;
            }
            self.fix_next(random, &state);
            match self.step() {
                Err(refusal) => break refusal,
                Ok(interrupt) => {
                    steps += 1;
                    if interrupt {
                        break chain::INTERRUPT;
                    }
                }
            }
        };
        let allowance = self.allowance(random, answer, steps);
        self.case.calls.push(run(allowance));
        (answer, steps)
    }

    /// An allowance that leads to the same state.
    fn allowance(&self, random: &mut Random, answer: u32, steps: u64) -> u64 {
        if answer == chain::ALLOWANCE_USED {
            return steps;
        }
        let few = random.within(1..=9);
        match random.below(8) {
            0..=1 => steps,
            2 => steps + 1,
            3 => steps + few,
            4 => (few << 32) | (steps / 2),
            5 => steps + 100 + random.below(100_000),
            6 => 1 << 63,
            _ => NO_LIMIT,
        }
    }

    fn check_entry(&mut self) -> Result<(), u32> {
        let (state, memories) = self.standing.lend();
        chain::check_entry(state.expect("there is a state"), &memories)
    }

    /// A step; hands back whether it was an interrupt.
    fn step(&mut self) -> Result<bool, u32> {
        let (state, mut memories) = self.standing.lend();
        let state = state.expect("there is a state");
        chain::step(state, &mut memories).map(|step| step.interrupt())
    }

    /// The case, with words by chance where main memory was never read.
    fn finish(mut self, random: &mut Random) -> Case {
        let zeros = random.percent(10);
        for word in 0..self.fixed.len() {
            if !self.fixed[word] && !zeros {
                self.put(word, random.word());
            }
        }
        self.case
    }

    fn put(&mut self, word: usize, value: u32) {
        self.fixed[word] = true;
        self.case.main[word] = value;
        self.standing.main[4 * word..4 * word + 4].copy_from_slice(&value.to_le_bytes());
    }

    /// Whether little of main memory is still free.
    fn is_full(&self) -> bool {
        let given = self.case.main.len();
        let free = self.fixed.iter().take(given).filter(|fixed| !*fixed);
        8 * free.count() < 3 * given
    }

    /// Entries that the log has room for.
    fn room(&self, state: &State) -> u64 {
        log::room(self.standing.log.len(), state.used)
    }

    /// Gives main memory the words that the next step reads.
    fn fix_next(&mut self, random: &mut Random, state: &State) {
        match state.next() {
            Next::Tag => self.fix_tag(random, state),
            Next::TagWord(address) => {
                let after = state.payload.map_or(0, |pending| pending.words);
                let more = if address % 16 == 8 { 1 } else { 0 };
                self.fix_word(random, state, address, after + more);
            }
            Next::Payload(pending) => {
                let quadword = state.channel == 2
                    || pending.address % 16 == 0 && waits_for_quadwords(state.unit());
                if quadword {
                    let path = match state.channel {
                        2 => &state.path3,
                        _ => &state.path2,
                    };
                    self.fix_quadword(random, state, path, pending);
                } else {
                    self.fix_word(random, state, pending.address, pending.words - 1);
                }
            }
        }
    }

    /// A word for the channel's unit, with so many pending after it.
    fn fix_word(&mut self, random: &mut Random, state: &State, address: u32, after: u32) {
        let word = address as usize / 4;
        if self.fixed[word] {
            return;
        }
        let value = match &state.unit().waiting {
            None => self.code(random, state, address, after),
            Some(waiting) => match waiting.payload {
                Payload::Stmask => random_mask(random),
                _ => payload_word(random),
            },
        };
        self.put(word, value);
    }

    /// A code for word `address`, with so many words pending after it.
    fn code(&self, random: &mut Random, state: &State, address: u32, after: u32) -> u32 {
        let interrupt = (random.percent(self.taste.vif.interrupt_percent) as u32) << 31;
        let full = self.room(state) < self.taste.spare;
        let unit = state.unit();
        let number = address / 4 % 4;
        let direct = unit.model == Model::Vif1 && number == 3;
        if direct && random.percent(self.taste.direct_percent) {
            if let Some(quadwords) = self.direct_length(random, state, after) {
                let command = random.pick(&[0x50, 0x51]);
                return interrupt | code_word(command, random.word() & 0xFF, quadwords);
            }
        }
        for _ in 0..20 {
            let word = random_code(random, unit, number, &self.taste.vif);
            let refused = self.taste.vif.illegal_percent > 0 && random.percent(30);
            let good = match Code::decode(unit.model, word) {
                Err(_) => true,
                Ok(Code::Mscal(_) | Code::Mscalf(_) | Code::Mscnt) => !full,
                // In word 3 they have been tried.
                Ok(Code::Direct(_) | Code::Directhl(_)) => number != 3 && refused,
                Ok(Code::Mpg(_)) => number % 2 == 1 || refused,
                Ok(Code::Stcycl { cl, wl }) => self.cycle_fits(Cycle { cl, wl }),
                Ok(Code::Unpack { .. }) => {
                    let legal = unit.registers.cycle().is_legal();
                    legal || self.taste.vif.illegal_percent > 0
                }
                Ok(_) => true,
            };
            let words = payload_words(unit, word);
            if good && (!self.goes_round(state) || words <= after) {
                return interrupt | word;
            }
        }
        if unit.registers.cycle().is_legal() {
            return interrupt | code_word(0x07, 0, random.word() & 0xFFFF);
        }
        interrupt | skipping_cycle(random)
    }

    /// Whether the taste allows a STCYCL.
    fn cycle_fits(&self, cycle: Cycle) -> bool {
        match self.taste.cycles {
            Cycles::Any => self.taste.vif.illegal_percent > 0 || cycle.is_legal(),
            Cycles::Skipping => cycle.is_legal() && !cycle.has_fills(),
            Cycles::Only(only) => cycle == only,
        }
    }

    /// Quadwords for a DIRECT in word 3, with so many words pending after it.
    fn direct_length(&self, random: &mut Random, state: &State, after: u32) -> Option<u32> {
        let room = after / 4;
        let across = !state.tte && !self.goes_round(state) && !state.ended;
        if room == 0 && !across && !random.percent(self.taste.vif.illegal_percent) {
            return None;
        }
        let few = random.within(1..=5) as u32;
        match random.below(10) {
            0..=6 if room > 0 => Some(random.within(1..=room as u64) as u32),
            7 if across => Some(random.pick(&[0, 40, few])),
            _ if across || room == 0 => Some(few),
            _ => Some(room),
        }
    }

    /// Whether the next tag has been read before.
    fn goes_round(&self, state: &State) -> bool {
        let word = state.tadr as usize / 4;
        !state.ended && self.fixed.get(word).copied().unwrap_or(false)
    }

    /// A quadword for a path.
    fn fix_quadword(&mut self, random: &mut Random, state: &State, path: &Path, pending: Pending) {
        let word = pending.address as usize / 4;
        let free: Vec<usize> = (0..4).filter(|i| !self.fixed[word + i]).collect();
        if free.is_empty() {
            return;
        }
        let due = match &state.unit().waiting {
            Some(waiting) if state.channel != 2 => waiting.due.min(pending.words / 4),
            _ => pending.words / 4,
        };
        let quadword = match &path.place {
            Place::Idle => self.gif_tag(random, state, due - 1),
            Place::Data { .. } => random.quadword(),
        };
        let words = split(quadword);
        for i in free {
            self.put(word + i, words[i]);
        }
    }

    /// A GIF tag, with so many quadwords sure to follow.
    fn gif_tag(&self, random: &mut Random, state: &State, after: u32) -> u128 {
        let room = self.room(state);
        let careful = self.taste.spare > 0;
        let fits = self.goes_round(state) || random.percent(60);
        for _ in 0..20 {
            let with_b = random.percent(self.taste.vif.b_percent);
            let mut quadword = random_tag(random, with_b);
            if careful && room < self.taste.spare.max(16) {
                // PACKED with descriptor F writes nothing; no PRE.
                quadword |= (u64::MAX as u128) << 64;
                quadword &= !(3 << 58 | 1 << 46);
            }
            let tag = gif::Tag::decode(quadword);
            let writes = match tag.format {
                _ if tag.descriptors == u64::MAX => 0,
                Format::Image => 2 * tag.all_data(),
                _ => tag.nloop as u64 * tag.nreg as u64 + 1,
            };
            let has_b = (0..tag.nreg).any(|i| tag.descriptors >> (4 * i) & 15 == 0xB);
            let b_fits = with_b || !has_b || tag.format == Format::Image;
            let log_fits = !careful || tag.nloop == 0 || writes <= room;
            if b_fits && log_fits && (!fits || tag.all_data() <= after as u64) {
                return quadword;
            }
        }
        tag_quadword(0, random.below(4), random.below(16), random.number())
    }

    /// How many quadwords from the address on are free, at most `most`.
    fn free_from(&self, state: &State, address: u32, most: u32) -> u32 {
        let is_free = |i: &u32| {
            let at = address as u64 + 16 * *i as u64;
            let word = at as usize / 4;
            let returns = state.stack[..state.depth].iter().any(|&e| e as u64 == at);
            !returns
                && at != state.tadr as u64
                && word + 4 <= self.fixed.len()
                && self.fixed[word..word + 4].iter().all(|fixed| !fixed)
        };
        (0..most).take_while(is_free).count() as u32
    }

    /// A quadword where a tag or payload can go, not within the range given.
    fn free_place(&self, random: &mut Random, state: &State, not: (u32, u32)) -> Option<u32> {
        let given = self.case.main.len() as u64 / 4;
        let mut best = None;
        for _ in 0..12 {
            let at = 16 * random.below(given.max(1)) as u32;
            let free = self.free_from(state, at, 6);
            if free == 0 || (not.0..not.1).contains(&at) {
                continue;
            }
            if best.is_none_or(|(most, _)| free > most) {
                best = Some((free, at));
            }
        }
        best.map(|(_, at)| at)
    }

    /// The tag at TADR.
    fn fix_tag(&mut self, random: &mut Random, state: &State) {
        let word = state.tadr as usize / 4;
        if word + 4 > self.fixed.len() {
            return;
        }
        let clean = state.unit().waiting.is_none()
            && state.path2.place == Place::Idle
            && state.path3.place == Place::Idle;
        if clean && state.depth == 0 && !self.tags.contains(&state.tadr) {
            self.tags.push(state.tadr);
        }
        if self.fixed[word] || self.fixed[word + 1] {
            return;
        }
        let bad = random.percent(self.taste.bad_tag_percent);
        let tag = if bad {
            self.bad_tag(random, state)
        } else {
            self.good_tag(random, state, clean)
        };
        let unused = random.word() & 0x8FFF_0000;
        let rest = if random.percent(40) { unused } else { 0 };
        self.put(word, tag.id << 28 | tag.qwc | rest);
        self.put(word + 1, tag.addr | (tag.spr as u32) << 31);
    }

    fn good_tag(&self, random: &mut Random, state: &State, clean: bool) -> Tag {
        let after = state.tadr + 16;
        let free = self.free_from(state, after, 64);
        let qwc = self.qwc(random, free);
        let ending = random.percent(self.taste.end_percent);
        let back = clean && state.depth == 0 && !self.tags.is_empty();
        let any = random.word();
        let unused = |id, qwc| Tag {
            id,
            qwc,
            addr: any & 0x7FFF_FFFF,
            spr: any >> 31 == 1,
        };
        let used = |id, qwc, addr| Tag {
            id,
            qwc,
            addr,
            spr: false,
        };
        if ending {
            return match random.below(4) {
                0 if state.depth == 0 => unused(chain::RET, qwc),
                0 | 1 => self.refe(random, state),
                _ => unused(chain::END, qwc),
            };
        }
        if back && self.tags.len() > 4 && random.percent(self.taste.loop_percent) {
            let qwc = random.pick(&[0, 0, qwc]);
            return used(chain::NEXT, qwc, self.old_tag(random));
        }
        let place = self.free_place(random, state, (state.tadr, after + 16 * qwc + 16));
        let goes_on = free > qwc;
        let kind = random.below(100);
        match (kind, place) {
            (0..=34, _) if goes_on => unused(chain::CNT, qwc),
            (35..=59, Some(place)) if free > 0 => {
                let id = random.pick(&[chain::REF, chain::REF, chain::REFS]);
                let long = self.free_beside(state, place);
                used(id, self.qwc(random, long), place)
            }
            (60..=79, _) if state.depth > 0 => unused(chain::RET, qwc),
            (80..=92, Some(place)) if state.depth < chain::STACK && goes_on => {
                used(chain::CALL, qwc, place)
            }
            (_, Some(place)) => used(chain::NEXT, qwc, place),
            _ if state.depth > 0 => unused(chain::RET, qwc),
            _ if back => used(chain::NEXT, 0, self.old_tag(random)),
            _ => unused(chain::END, qwc),
        }
    }

    /// A tag that was read, mostly one of the first.
    fn old_tag(&self, random: &mut Random) -> u32 {
        if random.percent(10) {
            return random.pick(&self.tags);
        }
        random.pick(&self.tags[..self.tags.len().div_ceil(4)])
    }

    /// The quadwords free from `place` on that spare the tag after TADR.
    fn free_beside(&self, state: &State, place: u32) -> u32 {
        let after = state.tadr + 16;
        let free = self.free_from(state, place, 64);
        if place <= after {
            free.min((after - place) / 16)
        } else {
            free
        }
    }

    fn refe(&self, random: &mut Random, state: &State) -> Tag {
        let place = self.free_place(random, state, (state.tadr, state.tadr + 16));
        let addr = place.unwrap_or(16 * (random.word() & 0x07FF_FFFF));
        let long = self.free_beside(state, addr);
        Tag {
            id: chain::REFE,
            qwc: self.qwc(random, long),
            addr,
            spr: false,
        }
    }

    fn qwc(&self, random: &mut Random, free: u32) -> u32 {
        let wanted = match random.below(10) {
            0 => 0,
            1 => 1,
            2 => free,
            _ => random.within(1..=self.taste.most_qwc) as u32,
        };
        wanted.min(free)
    }

    /// A tag that is mostly refused.
    fn bad_tag(&self, random: &mut Random, state: &State) -> Tag {
        let length = self.standing.main.len() as u32;
        let id = random.below(8) as u32;
        let inside = 16 * random.below((length / 16) as u64) as u32;
        let outside = length + 16 * random.pick(&[0, 0, 1, 5, 1_000]);
        let far = random.word() & 0x7FFF_FFF0;
        let addr = random.pick(&[inside, inside, outside, far]);
        let lowest = random.within(1..=15) as u32;
        let left = (length - state.tadr) / 16;
        let qwc = random.pick(&[0, 1, left - 1, left, 65_535]).min(65_535);
        let kind = random.below(4);
        Tag {
            id: match kind {
                0 => random.pick(&[chain::CALL, id]),
                1 => random.pick(&[chain::NEXT, chain::CALL]),
                _ => id,
            },
            qwc,
            addr: if kind == 2 { addr | lowest } else { addr },
            spr: kind == 3 || random.percent(15),
        }
    }
}

/// The words that a code waits for; for DIRECT those of its quadwords.
fn payload_words(unit: &Unit, word: u32) -> u32 {
    match Code::decode(unit.model, word) {
        Ok(Code::Direct(quadwords) | Code::Directhl(quadwords)) => 4 * quadwords,
        Ok(Code::Unpack { .. }) if !unit.registers.cycle().is_legal() => 0,
        Ok(code) => code.payload(&unit.registers).map_or(0, |(_, words)| words),
        Err(_) => 0,
    }
}

fn waits_for_quadwords(unit: &Unit) -> bool {
    unit.waiting
        .is_some_and(|waiting| matches!(waiting.payload, Payload::Direct | Payload::Directhl))
}

/// A random case of a few runs and starts.
fn random_case(random: &mut Random) -> Case {
    if random.below(400) == 0 {
        return deep_case(random);
    }
    let quadwords = match random.below(100) {
        0..=4 => random.within(1..=6),
        5..=29 => random.within(8..=60),
        30..=94 => random.within(60..=255),
        95..=98 => random.within(256..=1_200),
        _ => random.within(1_200..=65_536),
    };
    let given = quadwords.min(if random.percent(98) { 256 } else { 2_000 });
    let length = 16 * quadwords as u32;
    let (log_length, used) = log(random);
    let mut case = plain_case(&State::reset(), &vec![0; 4 * given as usize], 0, &[]);
    case.log_length = log_length;
    case.main_length = length;
    case.fill = random.number();
    case.whole = random.percent(4) && log_length < log::length(2_000);
    case.state = random_block(random, 16 * given as u32, used);
    if random.percent(2) {
        spoil_lengths(random, &mut case);
    }
    let taste = Taste::new(random);
    let maker = Maker::new(case, 4 * given as usize, taste);
    make_calls(random, maker)
}

fn make_calls(random: &mut Random, mut maker: Maker) -> Case {
    let mut left = match random.below(10) {
        0..=1 => 1,
        2..=6 => random.within(2..=8),
        _ => random.within(6..=25),
    };
    if random.percent(35) {
        random_start(random, &mut maker);
    }
    while left > 0 {
        left -= 1;
        if random.percent(12) {
            maker.some_sets(random);
        }
        let most = match random.below(20) {
            0 => 0,
            1 => 1,
            2..=3 => random.within(2..=12),
            4..=7 => random.within(10..=120),
            8..=9 => random.within(50..=600),
            10 => random.within(500..=3_000),
            _ => random.within(200..=2_000),
        };
        let (answer, _) = maker.run(random, most);
        let again = match answer {
            chain::ALLOWANCE_USED | chain::INTERRUPT => random.percent(93),
            chain::DONE => random.percent(12),
            refusals::MAIN..=refusals::RANGE => {
                left = left.min(1);
                random.percent(30)
            }
            _ => random.percent(12),
        };
        if !again && left > 0 {
            if maker.is_full() && random.percent(80) {
                break;
            }
            random_start(random, &mut maker);
        }
    }
    maker.finish(random)
}

fn random_start(random: &mut Random, maker: &mut Maker) {
    let direct = maker
        .state()
        .is_some_and(|state| waits_for_quadwords(&state.vif1));
    let channel = random.pick(&[0, 0, 1, 1, 1, 2, 2]);
    let direct = direct && channel == 1;
    let tte = channel != 2 && random.percent(if direct { 10 } else { 50 });
    let state = maker.state().copied().unwrap_or(State::reset());
    let free = maker.free_place(random, &state, (0, 0));
    let length = maker.standing.main.len() as u32;
    let anywhere = 16 * random.below(length as u64 / 16 + 1) as u32;
    let waiting = [state.vif0, state.vif1].map(|unit| unit.waiting.is_some());
    let clean = waiting == [false; 2] || random.percent(20);
    let tadr = match (random.below(20), free) {
        (0, _) if random.percent(30) => anywhere,
        (1..=3, _) if !maker.tags.is_empty() && clean => random.pick(&maker.tags),
        (_, Some(free)) => free,
        _ if !maker.tags.is_empty() => random.pick(&maker.tags),
        _ => anywhere,
    };
    if random.percent(6) {
        let bad_channel = random.pick(&[0, 1, 2, 3, 256]);
        let bad_tadr = random.pick(&[tadr, tadr | 4, tadr | 1 << 31]);
        let bad_tte = random.pick(&[0, 1, 2]);
        let answer = maker.start(bad_channel, bad_tadr, bad_tte);
        if answer == 0 || random.percent(50) {
            return;
        }
    }
    maker.start(channel, tadr, tte as u32);
}

/// The length of the log and the entries used, mostly with much room.
fn log(random: &mut Random) -> (u32, u64) {
    match random.below(20) {
        0..=11 => (log::length(random.within(40..=400)), random.below(8)),
        12..=17 => (log::length(random.within(200..=1_500)), random.below(150)),
        _ => random_log(random),
    }
}

fn spoil_lengths(random: &mut Random, case: &mut Case) {
    if random.percent(30) {
        case.main_length += random.pick(&[1, 4, 8, 15]);
        return;
    }
    let (model, data, code) = random.pick(&unit_lengths());
    set_lengths(case, model, data, code);
}

/// A state block over a main memory of this length.
fn random_block(random: &mut Random, length: u32, used: u64) -> StateBlock {
    let mut state = match random.below(100) {
        0..=44 => State {
            channel: random.pick(&[0, 1, 1, 2]),
            ..State::reset()
        },
        _ => random_state(random, length),
    };
    state.used = used;
    let mut block = write_state(&state);
    if random.percent(8) {
        add_junk(random, &mut block);
    }
    if random.percent(4) {
        spoil(random, &mut block);
    }
    block
}

/// A state in range over a main memory of this length, which is not 0.
pub fn random_state(random: &mut Random, length: u32) -> State {
    let quadwords = length as u64 / 16;
    let place = |random: &mut Random| 16 * random.below(quadwords) as u32;
    let mut state = State {
        channel: random.pick(&[0, 1, 1, 2]),
        tadr: place(random),
        ended: random.percent(10),
        depth: random.pick(&[0, 0, 1, 2]),
        ..State::reset()
    };
    state.tte = state.channel != 2 && random.percent(50);
    for i in 0..state.depth {
        let high = 16 * random.below(65_537) as u32;
        let in_memory = place(random);
        state.stack[i] = random.pick(&[in_memory, in_memory, in_memory, high]);
    }
    if state.tte && random.percent(30) {
        state.tag_word = Some(place(random) + random.pick(&[8, 12]));
    }
    if random.percent(40) {
        state.payload = Some(random_pending(random, state.channel, quadwords));
    }
    if random.percent(4) {
        state.tadr = random.word() & 0x7FFF_FFF0;
    }
    state.vif0 = random_good_unit(random, Model::Vif0);
    state.vif1 = random_good_unit(random, Model::Vif1);
    state.path2 = random_good_path(random);
    state.path3 = random_good_path(random);
    state
}

fn random_pending(random: &mut Random, channel: u32, quadwords: u64) -> Pending {
    let first = random.below(quadwords);
    let most = (quadwords - first).min(random.pick(&[2, 6, 65_535]));
    let count = random.within(1..=most) as u32;
    let skipped = if channel == 2 {
        0
    } else {
        random.below(4) as u32
    };
    // Now and then a few quadwords too many.
    let count = if random.percent(4) {
        (count + 300).min(65_535)
    } else {
        count
    };
    Pending {
        address: 16 * first as u32 + 4 * skipped,
        words: 4 * count - skipped,
    }
}

fn random_good_unit(random: &mut Random, model: Model) -> Unit {
    loop {
        let block = if random.percent(40) {
            write_unit(&random_waiting_unit(random, model))
        } else {
            random_unit_block(random, model)
        };
        match read_unit(model, &block) {
            Some(unit) if vif::in_range(&unit) => return unit,
            _ => {}
        }
    }
}

fn random_good_path(random: &mut Random) -> Path {
    loop {
        let block = random_path_block(random);
        match read_path(&block) {
            Some(path) if gif::path_in_range(&path) => return path,
            _ => {}
        }
    }
}

/// Puts words where they mean nothing.
pub fn add_junk(random: &mut Random, block: &mut StateBlock) {
    let state = read_state(block).expect("a written block is read");
    let mut put = |from: usize, end: usize| {
        for word in &mut block[from..end] {
            *word = random.word();
        }
    };
    let stack = chain_word::STACK;
    put(stack + state.depth, stack + chain::STACK);
    if state.tag_word.is_none() {
        put(chain_word::TAG_WORD_AT, chain_word::TAG_WORD_AT + 1);
    }
    if state.payload.is_none() {
        put(chain_word::PAYLOAD_AT, chain_word::PAYLOAD_AT + 1);
    }
    for (unit, at) in [(state.vif0, VIF0), (state.vif1, VIF1)] {
        if unit.waiting.is_none() {
            put(at + first_unused(state_block::NONE), at + UNIT_WORDS);
        }
    }
    for (path, at) in [(state.path2, PATH2), (state.path3, PATH3)] {
        if path.place == Place::Idle {
            put(at + path_word::FIRST_HELD, at + PATH_WORDS);
        }
    }
}

/// Changes one word or two.
pub fn spoil(random: &mut Random, block: &mut StateBlock) {
    for _ in 0..random.within(1..=2) {
        let field = random.below(STATE_WORDS as u64) as usize;
        if field == chain_word::USED || field == chain_word::USED + 1 {
            continue;
        }
        let any = random.word();
        let held = block[field];
        block[field] = random.pick(&[
            0,
            1,
            2,
            3,
            256,
            1_024,
            65_536,
            u32::MAX,
            held.wrapping_add(1),
            held ^ 1 << (any & 31),
            any,
        ]);
    }
}

/// A loop that goes on for a hundred thousand steps and more.
fn deep_case(random: &mut Random) -> Case {
    loop {
        let given = random.within(60..=255);
        let mut case = plain_case(&State::reset(), &vec![0; 4 * given as usize], 4, &[]);
        case.main_length = 16 * given as u32;
        case.fill = random.number();
        let mut maker = Maker::new(case, 4 * given as usize, Taste::deep(random));
        maker.taste.vif.unpack_percent = random.pick(&[30, 80]);
        if let (Cycles::Only(cycle), Some(state)) =
            (maker.taste.cycles, maker.standing.state.as_mut())
        {
            for unit in [&mut state.vif0, &mut state.vif1] {
                (unit.registers.cl, unit.registers.wl) = (cycle.cl, cycle.wl);
            }
            maker.case.state = write_state(state);
        }
        let channel = random.pick(&[0, 1, 1, 2]);
        let tte = channel != 2 && random.percent(40);
        let at = 16 * random.below(given / 2) as u32;
        maker.start(channel, at, tte as u32);
        let most = random.within(100_000..=101_000);
        let (_, first) = maker.run(random, most);
        let (_, second) = maker.run(random, 300);
        if first >= 100_000 && second == 300 {
            return maker.finish(random);
        }
    }
}
