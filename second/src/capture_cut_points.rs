//! Short captures to be cut at every step: each code that waits, tag words, GIF tags and packets.

use crate::capture_cases::Case;
use crate::capture_generate::{plain_case, run, split, start, tag, tagged, NO_LIMIT};
use crate::chain::{State, CNT, END};
use crate::gif_generate::{tag_quadword, EOP};
use crate::vif_generate::{code_word, stcycl};
use crate::way::{Way, WAYS};

const INTERRUPT: u32 = 1 << 31;
const ENTRIES: u64 = 24;

pub fn all() -> Vec<Case> {
    let mut cases = Vec::new();
    for channel in [0, 1] {
        for (code, words, cycle) in codes() {
            for interrupt in [0, INTERRUPT] {
                cases.push(waiting(channel, code | interrupt, words, cycle));
            }
        }
        cases.push(tag_words(channel));
        cases.push(after_an_interrupt(channel));
    }
    for way in WAYS {
        cases.push(packets(way, 0));
        cases.push(packets(way, INTERRUPT));
    }
    cases.push(both_units());
    cases
}

/// Codes that wait, the words they take and STCYCL before.
fn codes() -> Vec<(u32, usize, u32)> {
    let plain = stcycl(1, 1);
    vec![
        (code_word(0x20, 0, 0), 1, plain),
        (code_word(0x30, 0, 0), 4, plain),
        (code_word(0x31, 0, 0), 4, plain),
        (code_word(0x4A, 2, 511), 4, plain),
        // V4-32, V3-8, V3-16 with a mask, and S-32 that fills.
        (code_word(0x6C, 2, 255), 8, plain),
        (code_word(0x6A, 5, 255), 4, plain),
        (code_word(0x79, 3, 0), 5, stcycl(3, 2)),
        (code_word(0x60, 5, 254), 3, stcycl(1, 2)),
    ]
}

fn reset_on(channel: u32) -> State {
    State {
        channel,
        ..State::reset()
    }
}

/// A code in the last word of a payload, and what it takes behind the next tag. MODE is 2.
fn waiting(channel: u32, code: u32, words: usize, cycle: u32) -> Case {
    let first = [code_word(0x05, 0, 2), cycle, code_word(0x07, 0, 9), code];
    let mut payload: Vec<u32> = (1..=words as u32).map(|i| 0x8765_4321 * i).collect();
    payload.resize(words.next_multiple_of(4), 0);
    let main = [tagged(CNT, &first), tagged(END, &payload)].concat();
    plain_case(&reset_on(channel), &main, ENTRIES, &[run(NO_LIMIT)])
}

/// Codes and payload in the words 2 and 3 of tags.
fn tag_words(channel: u32) -> Case {
    let with = |id: u32, qwc: u32, words: [u32; 2]| {
        let [low, high, ..] = tag(id, qwc, 0);
        [low, high, words[0], words[1]]
    };
    let main = [
        with(CNT, 0, [code_word(0x04, 0, 7), code_word(0x30, 0, 0)]),
        with(CNT, 1, [1, 2]),
        [3, 4, code_word(0x14, 0, 5), code_word(0x20, 0, 0)],
        with(END, 0, [6, code_word(0x17, 0, 0)]),
    ];
    let calls = [start(channel, 0, 1), run(NO_LIMIT)];
    plain_case(&State::reset(), &main.concat(), ENTRIES, &calls)
}

/// A run that goes on where an earlier one gave an interrupt.
fn after_an_interrupt(channel: u32) -> Case {
    let payload = [code_word(0x07, 0, 1) | INTERRUPT, 0, 0, INTERRUPT];
    let main = tagged(END, &payload);
    let calls = [run(NO_LIMIT), run(NO_LIMIT)];
    plain_case(&reset_on(channel), &main, ENTRIES, &calls)
}

/// GIF tags of each format, with EOP and without, on a way to a path; in PACKED, RGBAQ takes the Q
/// that ST sets. A code is in one payload, the quadwords are in the next.
fn packets(way: Way, interrupt: u32) -> Case {
    let tags = [
        (tag_quadword(2, 0, 3, 0x12E) | EOP, 6),
        (tag_quadword(1, 1, 5, 0x5_4321), 3),
        (tag_quadword(0, 0, 1, 0) | EOP, 0),
        (tag_quadword(2, 2, 1, 0) | EOP, 2),
    ];
    let quadwords: Vec<u128> = tags
        .iter()
        .flat_map(|&(tag, data)| [vec![tag], vec![0x42_0000_0007_0000_0001; data]].concat())
        .collect();
    let words: Vec<u32> = quadwords.iter().flat_map(|&word| split(word)).collect();
    let code = way.payload(&quadwords);
    let code = &code[..code.len() - words.len()];
    let mut main = Vec::new();
    if let Some(last) = code.last() {
        main.extend(tagged(CNT, &[0, 0, 0, last | interrupt]));
    }
    main.extend(tagged(END, &words));
    plain_case(&way.state(), &main, ENTRIES, &[run(NO_LIMIT)])
}

/// VIF0 waits while VIF1 runs over the same words.
fn both_units() -> Case {
    let payload = [
        stcycl(1, 1),
        code_word(0x6C, 1, 3),
        1,
        2,
        3,
        4,
        code_word(0x14, 0, 1),
        0,
    ];
    let main = tagged(END, &payload);
    let calls = [
        start(0, 0, 0),
        run(5),
        start(1, 0, 0),
        run(6),
        run(NO_LIMIT),
    ];
    plain_case(&State::reset(), &main, ENTRIES, &calls)
}
