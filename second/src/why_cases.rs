//! Captures with whys, from a seed.

use crate::capture_cases::{Call, Case, Standing};
use crate::capture_generate::{plain_case, run, set, split, tag, why, NO_LIMIT};
use crate::chain::{Pending, State};
use crate::gif::{Format, Path, Place, Tag};
use crate::gif_generate::random_tag;
use crate::log;
use crate::model::Model;
use crate::random::Random;
use crate::vif::{Payload, Unit, Waiting};
use crate::vif_generate::random_waiting_unit;

/// How many captures are gone through step by step, and how many steps of each.
const WALKS: usize = 60;
const MOST_STEPS: u64 = 25;
/// The longest of them, in bytes of main memory and entries of the log.
const MOST_MAIN: u32 = 16_384;
const MOST_ENTRIES: u64 = 500;

/// A why, at times with words that mean nothing.
fn random_why(random: &mut Random) -> Call {
    let mut ignored = [0; 3];
    if random.percent(10) {
        ignored = std::array::from_fn(|_| random.word());
    }
    Call::Why { ignored }
}

/// Puts whys around the calls of some cases: after every call, before some, or at one place.
pub fn add_whys(random: &mut Random, cases: &mut [Case]) {
    for case in cases {
        let part = match random.below(10) {
            0 => 100,
            1..=3 => 50,
            _ => continue,
        };
        let mut calls = Vec::new();
        for call in &case.calls {
            if random.percent(part) {
                calls.push(random_why(random));
            }
            calls.push(*call);
        }
        if random.percent(part) {
            calls.push(random_why(random));
        }
        if random.percent(part / 5) {
            calls.push(random_why(random));
        }
        case.calls = calls;
    }
}

/// Some of the captures with one of their runs step by step, and a why before and after each step.
pub fn walks(random: &mut Random, cases: &[Case]) -> Vec<Case> {
    let mut walks = Vec::new();
    while walks.len() < WALKS {
        let case = &cases[random.below(cases.len() as u64) as usize];
        let short = case.main_length <= MOST_MAIN && case.log_length <= log::length(MOST_ENTRIES);
        if short {
            walks.extend(walk(random, case));
        }
    }
    walks
}

fn walk(random: &mut Random, case: &Case) -> Option<Case> {
    let is_run = |&i: &usize| matches!(case.calls[i], Call::Run { .. });
    let runs: Vec<usize> = (0..case.calls.len().min(8)).filter(is_run).collect();
    if runs.is_empty() {
        return None;
    }
    let mut case = case.clone();
    case.calls.truncate(random.pick(&runs));
    let mut standing = Standing::new(&case);
    for call in &case.calls {
        if let Call::Run { allowance } = call {
            // A loop might go on for ever.
            standing.run((*allowance).min(5_000), |_, _, _| {});
        } else {
            standing.make(call);
        }
    }
    let bounded = |call: &Call| match *call {
        Call::Run { allowance } => run(allowance.min(5_000)),
        other => other,
    };
    case.calls = case.calls.iter().map(bounded).collect();
    for _ in 0..MOST_STEPS {
        case.calls.extend([random_why(random), run(1)]);
        if standing.run(1, |_, _, _| {}).counts.steps == 0 {
            break;
        }
    }
    case.calls.push(random_why(random));
    Some(case)
}

pub fn all(random: &mut Random) -> Vec<Case> {
    let mut cases = Vec::new();
    for command in 0..128 {
        for channel in 0..2 {
            cases.push(code_case(random, channel, command));
        }
    }
    for _ in 0..80 {
        cases.push(waiting_case(random));
    }
    for _ in 0..400 {
        cases.push(quadword_case(random));
    }
    for _ in 0..120 {
        cases.push(tag_case(random));
    }
    cases
}

/// Calls on a state whose next step is the matter.
fn around(random: &mut Random) -> Vec<Call> {
    let first = random.pick(&[0, 1, 1, 1, NO_LIMIT]);
    let mut calls = vec![random_why(random), run(first), random_why(random)];
    match random.below(8) {
        0 => calls.push(set(random.below(2) as u32, random.below(8) as u32, 7)),
        1 => calls.push(run(0)),
        2 => calls.push(why()),
        _ => {}
    }
    calls
}

/// A word pending: of payload by its number, or of a tag; and its place in main memory.
fn word_next(random: &mut Random, state: &mut State) -> usize {
    let number = random.below(4) as u32;
    if random.percent(35) {
        let number = number | 2;
        state.tte = true;
        state.tag_word = Some(16 + 4 * number);
        return 4 + number as usize;
    }
    state.payload = Some(Pending {
        address: 16 + 4 * number,
        words: 8 - number,
    });
    4 + number as usize
}

/// A log of a few entries of which so many are free.
fn put_room(random: &mut Random, state: &mut State, free: u64) -> u64 {
    let entries = random.within(free..=6);
    state.used = entries - free;
    entries
}

/// Each code on both units, under right and wrong WL, with room and without.
fn code_case(random: &mut Random, channel: u32, command: u32) -> Case {
    let mut state = State {
        channel,
        tadr: 48,
        ended: random.percent(50),
        ..State::reset()
    };
    for unit in [&mut state.vif0, &mut state.vif1] {
        unit.registers.wl = random.pick(&[0, 0, 1, 4]);
        unit.registers.cl = random.pick(&[0, 1, 4]);
    }
    let free = random.below(2);
    let entries = put_room(random, &mut state, free);
    let at = word_next(random, &mut state);
    let mut main = vec![0; 16];
    main[at] = command << 24 | random.word() & 0x80FF_FFFF;
    if random.percent(30) {
        main[at] |= 3;
    }
    plain_case(&state, &main, entries, &around(random))
}

/// A code that waits, and any word.
fn waiting_case(random: &mut Random) -> Case {
    let mut state = State {
        channel: random.below(2) as u32,
        tadr: 48,
        ..State::reset()
    };
    state.vif0 = random_waiting_unit(random, Model::Vif0);
    state.vif1 = random_waiting_unit(random, Model::Vif1);
    if random.percent(60) {
        for unit in [&mut state.vif0, &mut state.vif1] {
            if let Some(Waiting {
                payload: Payload::Mpg(mpg),
                due,
                ..
            }) = &mut unit.waiting
            {
                *due = 2 * mpg.count - random.below(2) as u32;
            }
        }
    }
    word_next(random, &mut state);
    let main: Vec<u32> = (0..16).map(|_| random.word()).collect();
    let free = random.below(3);
    let entries = put_room(random, &mut state, free);
    plain_case(&state, &main, entries, &around(random))
}

/// A tag of any format that is held, and a place in its data.
fn random_place(random: &mut Random) -> Place {
    let format = random.pick(&[
        Format::Packed,
        Format::Reglist,
        Format::Reglist,
        Format::Image,
    ]);
    let nibble = |random: &mut Random| {
        let any = random.below(16);
        random.pick(&[0x1, 0xB, 0xE, 0xF, any, any])
    };
    let descriptors = (0..16).fold(0, |all, i| all | nibble(random) << (4 * i));
    let tag = Tag {
        format,
        nloop: random.within(1..=4) as u32,
        eop: random.percent(50),
        nreg: random.within(1..=16) as u32,
        descriptors,
    };
    let due = random.within(1..=tag.all_data()) as u32;
    Place::Data { tag, due }
}

/// A quadword for a path, inside DIRECT, DIRECTHL or on channel 2, with little room or none.
fn quadword_case(random: &mut Random) -> Case {
    let channel = random.pick(&[1, 1, 2]);
    let mut state = State {
        channel,
        tadr: 48,
        ended: random.percent(50),
        payload: Some(Pending {
            address: 16,
            words: 8,
        }),
        ..State::reset()
    };
    put_paths(random, &mut state);
    if channel == 1 || random.percent(50) {
        state.vif1 = Unit {
            waiting: Some(Waiting {
                payload: random.pick(&[Payload::Direct, Payload::Directhl]),
                interrupt: random.percent(20),
                due: random.within(1..=3) as u32,
            }),
            ..state.vif1
        };
    }
    let free = random.below(3);
    let entries = put_room(random, &mut state, free);
    let mut quadword = random_tag(random, true);
    if random.percent(50) {
        // PRE, mostly in PACKED.
        quadword |= 1 << 46;
        quadword &= !(random.pick(&[0, 3_u128, 3]) << 58);
    }
    let main = [
        tag(7, 2, 0),
        split(quadword),
        split(random.quadword()),
        [0; 4],
    ];
    plain_case(&state, &main.concat(), entries, &around(random))
}

/// The channel's path waits for a tag or for data; the other holds something else.
fn put_paths(random: &mut Random, state: &mut State) {
    let mut path = Path {
        q: 1,
        place: random_place(random),
    };
    if random.percent(20) {
        path.place = Place::Idle;
    }
    let other = Path {
        q: 2,
        place: random_place(random),
    };
    (state.path2, state.path3) = match state.channel {
        1 => (path, other),
        _ => (other, path),
    };
}

/// A tag with its payload at, before and beyond the end of a short main memory, on any stack.
fn tag_case(random: &mut Random) -> Case {
    let tadr = 16 * random.below(5) as u32;
    let depth = random.pick(&[0, 1, 2, 2]);
    let mut state = State {
        channel: random.below(3) as u32,
        tadr,
        ended: random.percent(10),
        depth,
        ..State::reset()
    };
    state.stack[..depth].fill(16);
    state.tte = state.channel != 2 && random.percent(30);
    let mut main = vec![0; 16];
    let id = random.pick(&[0, 1, 2, 3, 4, 5, 5, 5, 6, 7]);
    let far = random.word() & 0x7FFF_FFF0;
    let addr = random.pick(&[0, 16, 48, 64, 80, far]) | random.pick(&[0, 0, 0, 8]);
    let qwc = random.pick(&[0, 1, 2, 3, 4, 5, 65_535]);
    let [low, high, ..] = tag(id, qwc, addr | random.pick(&[0, 0, 0, 1 << 31]));
    if tadr < 64 {
        main[tadr as usize / 4] = low;
        main[tadr as usize / 4 + 1] = high;
    }
    plain_case(&state, &main, 2, &around(random))
}

#[cfg(test)]
mod tests {
    use super::*;
    use crate::capture_cases::{results, WHY_WORDS};
    use crate::capture_counts::Counts;
    use crate::capture_generate::{cases, file_of};
    use crate::words::WORD;

    /// The bytes that the calls of a file give, those of whys left out.
    fn without_results(cases: &[Case]) -> Vec<u8> {
        let given = results(&file_of(cases), &mut Counts::default());
        let ends = given.starts.iter().skip(1).map(|start| start.offset);
        let ends = ends.chain([given.bytes.len()]);
        let mut bytes = Vec::new();
        for (start, end) in given.starts.iter().zip(ends) {
            match cases[start.case].calls[start.call] {
                Call::Why { .. } => assert_eq!(end - start.offset, WHY_WORDS * WORD),
                _ => bytes.extend_from_slice(&given.bytes[start.offset..end]),
            }
        }
        bytes
    }

    /// A why changes nothing: the other calls give the same without it.
    #[test]
    fn nothing_changes() {
        let cases = cases(21, 50);
        let mut without = cases.clone();
        for case in &mut without {
            case.calls.retain(|call| !matches!(call, Call::Why { .. }));
        }
        let calls = |cases: &[Case]| cases.iter().map(|case| case.calls.len()).sum::<usize>();
        assert!(calls(&cases) > calls(&without) + 5_000);
        assert!(without_results(&cases) == without_results(&without));
    }
}
