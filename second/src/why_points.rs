//! Points about why it stopped, worked by hand: each refusal with its address and numbers.

use crate::capture_cases::{Call, Case, Standing};
use crate::capture_generate::{plain_case, run, set, split, start, tag, tagged, why, NO_LIMIT};
use crate::chain::{Pending, State, CALL, CNT, END, NEXT, REF, REFE, REFS, RET};
use crate::gif::{Format, Path, Place, Tag};
use crate::gif_generate::tag_quadword;
use crate::state_block::{chain_word, unit_word, PATH3, VIF0, VIF1};

const STCYCL_1_1: u32 = 0x0100_0101;
const STMOD_3: u32 = 0x0500_0007;
const MSCAL: u32 = 0x1400_0005;
const MPG: u32 = 0x4A01_0000;
const DIRECT: u32 = 0x5000_0002;
const DIRECTHL: u32 = 0x5100_0002;
const UNPACK: u32 = 0x6C01_0000;
const INTERRUPT: u32 = 1 << 31;

/// The seven words of a why as they are in a result, both numbers whole.
type Told = (u32, u32, u32, u64, u64);

const NOTHING: Told = (0, 0, 0, 0, 0);
const ENDED: Told = (1, 0, 0, 0, 0);

fn entry(refusal: u32) -> Told {
    (2, refusal, 0, 0, 0)
}

fn step(refusal: u32, address: u32, first: u64) -> Told {
    (3, refusal, address, first, 0)
}

struct Point {
    name: &'static str,
    case: Case,
    /// What each why tells, and the answer of each other call.
    whys: Vec<Told>,
    answers: Vec<u32>,
}

fn on(channel: u32) -> State {
    State {
        channel,
        ..State::reset()
    }
}

/// A why before a run, the run, and a why after it that tells the last.
fn around(name: &'static str, case: Case, first: Told, answer: u32, last: Told) -> Point {
    let calls = [why(), run(NO_LIMIT), why()];
    Point {
        name,
        case: Case {
            calls: calls.to_vec(),
            ..case
        },
        whys: vec![first, last],
        answers: vec![answer],
    }
}

/// A chain of these words that is refused in its first step.
fn at_once(name: &'static str, state: &State, main: &[u32], told: Told) -> Point {
    let case = plain_case(state, main, 4, &[]);
    around(name, case, told, told.1, told)
}

/// The same in a later step.
fn later(name: &'static str, state: &State, main: &[u32], told: Told) -> Point {
    let case = plain_case(state, main, 4, &[]);
    around(name, case, NOTHING, told.1, told)
}

fn points() -> Vec<Point> {
    let mut points = of_tags();
    for channel in 0..2 {
        points.extend(of_codes(channel));
        points.extend(of_tag_words(channel));
    }
    points.extend(of_one_unit());
    points.extend(of_quadwords());
    points.extend(of_entry());
    points.extend(of_no_step());
    points.extend([in_turn(), among_sets(false), among_sets(true)]);
    points
}

/// 10 to 14, on each channel.
fn of_tags() -> Vec<Point> {
    let mut points = Vec::new();
    for channel in 0..3 {
        let state = on(channel);
        let end = tag(END, 0, 0);
        // Main memory is 32 bytes: next goes to its end and far beyond.
        let jump = |addr| [tag(NEXT, 0, addr), end].concat();
        let mut add = |main: &[u32], told: Told| {
            points.push(later("a tag after another", &state, main, told));
        };
        add(&jump(32), step(10, 32, 32));
        add(&jump(0x7FFF_FFF0), step(10, 0x7FFF_FFF0, 0x7FFF_FFF0));
        add(&[tag(CNT, 0, 0), tag(NEXT, 0, 8)].concat(), step(11, 16, 8));
        // 11 is before 12 and 14; all 31 bits are shown, and without SPR.
        let odd = tag(REF, 9, u32::MAX);
        add(&[tag(CNT, 0, 0), odd].concat(), step(11, 16, 0x7FFF_FFFF));
        add(
            &[tag(CNT, 0, 0), tag(REFE, 9, 1 << 31)].concat(),
            step(12, 16, 1),
        );
        // Two calls are accepted, the third not; its payload lies outside too.
        let calls = [tag(CALL, 0, 16), tag(CALL, 0, 32), tag(CALL, 1, 0)];
        add(&calls.concat(), step(13, 32, 2));
        // 11 and 12 are before 13.
        for (addr, told) in [(8, step(11, 32, 8)), (1 << 31, step(12, 32, 1))] {
            let calls = [tag(CALL, 0, 16), tag(CALL, 0, 32), tag(CALL, 0, addr)];
            add(&calls.concat(), told);
        }
        points.extend(of_payloads(&state));
    }
    points
}

/// 14 in a main memory of 32 bytes, by the quadwords wanted and the most that fits.
fn of_payloads(state: &State) -> Vec<Point> {
    let mut points = Vec::new();
    let end = tag(END, 0, 0);
    let mut fits = |main: &[u32], (qwc, most): (u64, u64), address: u32| {
        let told = (3, 14, address, qwc, most);
        points.push(match address {
            0 => at_once("14 at once", state, main, told),
            _ => later("14 after a tag", state, main, told),
        });
    };
    // 16 bytes are left after the tag at 0, none after the one at 16.
    fits(&[tag(CNT, 2, 0), end].concat(), (2, 1), 0);
    fits(&[tag(CNT, 0, 0), tag(END, 1, 0)].concat(), (1, 0), 16);
    // From ADDR: one that fits, at the end and beyond it.
    fits(&[tag(REF, 65_535, 16), end].concat(), (65_535, 1), 0);
    fits(&[tag(REF, 1, 32), end].concat(), (1, 0), 0);
    fits(&[tag(REFE, 3, 0x7FFF_FFF0), end].concat(), (3, 0), 0);
    // ADDR of ret is not used: the payload is behind the tag.
    fits(&[tag(RET, 2, 0), end].concat(), (2, 1), 0);
    points
}

/// A quadword with the code in a word, behind words that are taken.
fn with_code(code: u32, number: usize) -> [u32; 4] {
    let mut words = [0; 4];
    words[number] = code;
    words
}

/// 20 to 23, 25 and 31 at words of payload, on both units.
fn of_codes(channel: u32) -> Vec<Point> {
    let state = on(channel);
    let full = State { used: 4, ..state };
    let mut points = Vec::new();
    for number in 0..4 {
        let address = 16 + 4 * number as u32;
        let mut add = |name, state: &State, code: u32, told: Told| {
            let main = tagged(END, &with_code(code, number));
            points.push(later(name, state, &main, told));
        };
        add("no code", &state, 0x88FF_FFFF, step(20, address, 8));
        add("no code", &state, 0xDF00_0000, step(20, address, 0x5F));
        // S-5, V2-5 and V3-5, with WL 0 and bit 15 too.
        for vn in 0..3 {
            let code = 0x6300_8000 | vn << 26;
            add("no format", &state, code, step(21, address, vn as u64));
        }
        add("WL 0", &state, UNPACK | 0x8000, step(22, address, 0));
        add("MODE 3", &state, STMOD_3, step(23, address, 3));
        let told = (3, 31, address, 0, 1);
        add("a start without room", &full, MSCAL, told);
        add("a start without room", &full, 0x1700_0000, told);
    }
    // MPG in word 0 or 2: its first payload word is word 1 or 3.
    for number in [0, 2] {
        let main = tagged(END, &with_code(MPG, number));
        let told = step(25, 20 + 4 * number as u32, number as u64 + 1);
        points.push(later("MPG's first word", &state, &main, told));
    }
    points
}

/// The same at words 2 and 3 of a tag.
fn of_tag_words(channel: u32) -> Vec<Point> {
    let state = State {
        tte: true,
        used: 4,
        ..on(channel)
    };
    let mut points = Vec::new();
    for number in 2..4 {
        let address = 4 * number as u32;
        for (code, told) in [
            (0x7700_0000, step(21, address, 1)),
            (0x7C00_0000, step(22, address, 0)),
            (0x0800_0000, step(20, address, 8)),
            (STMOD_3, step(23, address, 3)),
            (MSCAL, (3, 31, address, 0, 1)),
        ] {
            let mut main = tag(END, 0, 0);
            main[number] = code;
            points.push(later("a tag word", &state, &main, told));
        }
    }
    let main = [7 << 28, 0, MPG, 0];
    points.push(later("a tag word", &state, &main, step(25, 12, 3)));
    points.push(tag_words_in_turn(&state));
    points.extend(saved_tag_words(channel));
    points
}

/// Tag words and payload both pending: the tag word is next. Or pending outside memory.
fn saved_tag_words(channel: u32) -> [Point; 3] {
    let state = State {
        tte: true,
        ended: true,
        tag_word: Some(12),
        payload: Some(Pending {
            address: 28,
            words: 1,
        }),
        ..on(channel)
    };
    let bad = 0x0800_0000;
    let main = |word, payload| [[7 << 28, 0, 0, word], [0, 0, 0, payload]].concat();
    let outside = State {
        tag_word: Some(40),
        ..state
    };
    [
        at_once("a tag word first", &state, &main(bad, 0), step(20, 12, 8)),
        later("payload then", &state, &main(0, bad), step(20, 28, 8)),
        at_once("tag words outside", &outside, &main(0, 0), entry(14)),
    ]
}

/// A why at each word of a tag, the last a program start without room.
fn tag_words_in_turn(state: &State) -> Point {
    let calls = [run(1), why(), run(1), why(), run(1), why()];
    Point {
        name: "tag words in turn",
        case: plain_case(state, &[7 << 28, 0, 0, MSCAL], 4, &calls),
        whys: vec![NOTHING, (3, 31, 12, 0, 1), (3, 31, 12, 0, 1)],
        answers: vec![90, 90, 31],
    }
}

/// What only one unit refuses: 24 on VIF1, 26 and the missing codes on VIF0.
fn of_one_unit() -> Vec<Point> {
    let mut points = Vec::new();
    let (vif0, vif1) = (on(0), on(1));
    for command in [0x02, 0x03, 0x06, 0x11, 0x13, 0x15, 0x50, 0x51] {
        let main = tagged(END, &[0, command << 24, 0, 0]);
        let told = step(20, 20, command as u64);
        points.push(later("a code of VIF1's", &vif0, &main, told));
    }
    for code in [0x1500_0000, DIRECT] {
        let main = tagged(END, &[0, 0, 0, code]);
        let case = plain_case(&vif1, &main, 4, &[]);
        points.push(around("VIF1 has it", case, NOTHING, 0, ENDED));
    }
    let main = tagged(END, &[STCYCL_1_1, 0, UNPACK | 0x8000, 0]);
    points.push(later("bit 15", &vif0, &main, step(26, 24, 1)));
    let words = [7 << 28, 0, STCYCL_1_1, UNPACK | 0xFFFF];
    let state = State { tte: true, ..vif0 };
    points.push(later("bit 15", &state, &words, step(26, 12, 1)));
    let case = plain_case(&vif1, &main, 4, &[]);
    points.push(around("VIF1 adds TOPS", case, NOTHING, 0, ENDED));
    for (number, code) in [(0, DIRECT), (1, DIRECTHL), (2, DIRECT)] {
        let main = tagged(END, &with_code(code, number));
        let told = step(24, 20 + 4 * number as u32, number as u64 + 1);
        points.push(later("DIRECT's quadword", &vif1, &main, told));
    }
    // DIRECT in word 3 of the payload, and then the words of the next tag.
    let main = [&tagged(CNT, &[0, 0, 0, DIRECT])[..], &[7 << 28, 0, 0, 0]].concat();
    let state = State { tte: true, ..vif1 };
    points.push(later("DIRECT's quadword", &state, &main, step(24, 40, 2)));
    points
}

/// A path's place, the quadword that comes, the free entries and what is told.
type Quadword = (&'static str, Place, u128, u64, Told);

/// A tag with NLOOP 2 that is held.
fn held(format: Format, nreg: u32, descriptors: u64, due: u32) -> Place {
    let tag = Tag {
        format,
        nloop: 2,
        eop: false,
        nreg,
        descriptors,
    };
    Place::Data { tag, due }
}

fn quadwords() -> Vec<Quadword> {
    let packed = |descriptors, due| held(Format::Packed, 2, descriptors, due);
    let reglist = |descriptors, due| held(Format::Reglist, 3, descriptors, due);
    let image = |due| held(Format::Image, 1, 0xB, due);
    let pre = tag_quadword(1, 0, 1, 0xE) | 1 << 46;
    let room = |free, needed| (3, 31, 32, free, needed);
    let b = step(30, 32, 11);
    vec![
        // The first, the second, and the first again.
        ("PACKED", packed(0xEB, 4), 0, 1, b),
        ("PACKED", packed(0xBE, 3), 0, 0, b),
        ("PACKED", packed(0xBE, 2), 0, 0, room(0, 1)),
        ("PACKED", packed(0xBF, 2), 0, 0, NOTHING),
        // The second of three.
        ("PACKED", held(Format::Packed, 3, 0xFBE, 5), 0, 0, b),
        // Halves 0 and 1, 2 and 3, 4 and 5 of the six, by descriptors 0 1, 2 0, 1 2.
        ("REGLIST", reglist(0x0B1, 3), 0, 2, b),
        ("REGLIST", reglist(0x0B1, 3), 0, 0, b),
        ("REGLIST", reglist(0xB11, 2), 0, 0, b),
        ("REGLIST", reglist(0xB11, 3), 0, 1, room(1, 2)),
        ("REGLIST", reglist(0xB11, 3), 0, 0, room(0, 2)),
        ("REGLIST", reglist(0xBE1, 3), 0, 0, room(0, 1)),
        ("REGLIST", reglist(0xBFE, 3), 0, 0, NOTHING),
        ("IMAGE", image(1), 0, 1, room(1, 2)),
        ("IMAGE", image(2), 0, 0, room(0, 2)),
        ("IMAGE", image(2), 0, 2, NOTHING),
        ("a tag with PRE", Place::Idle, pre, 0, room(0, 1)),
        ("a tag with PRE", Place::Idle, pre, 1, NOTHING),
        ("a tag without data", Place::Idle, pre & !1, 0, NOTHING),
        ("REGLIST with PRE", Place::Idle, pre | 1 << 58, 0, NOTHING),
        ("a tag", Place::Idle, pre & !(1 << 46), 0, NOTHING),
    ]
}

/// 30 and 31 on both paths: one quadword pending at 32 that a held tag or none waits for.
fn of_quadwords() -> Vec<Point> {
    let mut points = vec![odd_last_half()];
    for (name, place, quadword, free, told) in quadwords() {
        for (channel, code) in [(1, DIRECT), (1, DIRECTHL), (2, 0)] {
            let main = [[7 << 28, 0, 0, 0], [0, 0, 0, code], split(quadword)];
            let mut state = State {
                ended: true,
                used: 4 - free,
                payload: Some(Pending {
                    address: if channel == 1 { 28 } else { 32 },
                    words: if channel == 1 { 5 } else { 4 },
                }),
                ..on(channel)
            };
            let path = Path { q: 0, place };
            match channel {
                1 => state.path2 = path,
                _ => state.path3 = path,
            }
            points.push(at_quadword(name, &state, &main.concat(), told));
        }
    }
    points
}

/// An odd last half is dropped unread: the descriptor after the last is no matter.
fn odd_last_half() -> Point {
    let tag = Tag {
        format: Format::Reglist,
        nloop: 1,
        eop: true,
        nreg: 1,
        descriptors: 0xB1,
    };
    let place = Place::Data { tag, due: 1 };
    let state = State {
        used: 4,
        payload: Some(Pending {
            address: 0,
            words: 4,
        }),
        path3: Path { q: 0, place },
        ..on(2)
    };
    let told = (3, 31, 0, 0, 1);
    at_once("an odd last half", &state, &[0; 4], told)
}

/// One step where a code comes first, and then what the quadword's step is refused with.
fn at_quadword(name: &'static str, state: &State, main: &[u32], told: Told) -> Point {
    let mut calls = vec![why(), run(0), why()];
    let (mut whys, mut answers) = (vec![told; 2], vec![90]);
    if state.channel == 1 {
        calls = [&[why(), run(1)][..], &calls].concat();
        whys.insert(0, NOTHING);
        answers.insert(0, 90);
    }
    calls.extend([run(1), why()]);
    let taken = told == NOTHING;
    whys.push(if taken { ENDED } else { told });
    answers.push(if taken { 0 } else { told.1 });
    Point {
        name,
        case: plain_case(state, main, 4, &calls),
        whys,
        answers,
    }
}

/// What makes a case be refused at entry.
type Change = fn(&mut Case);

/// The channel 7 is none: VIF1's sizes, and 5 before 14.
fn wrong_entries(channel: u32) -> Vec<(&'static str, u32, Change)> {
    let sizes: [(&str, u32, Change); 2] = match channel {
        0 => [
            ("data memory", 2, |case| case.vif0_data_length = 1_028),
            ("code memory", 3, |case| case.vif0_code_length += 1),
        ],
        _ => [
            ("data memory", 2, |case| case.data_length = 1_024),
            ("code memory", 3, |case| case.code_length -= 1),
        ],
    };
    let others: [(&str, u32, Change); 7] = [
        ("no main memory", 1, |case| {
            case.main.clear();
            case.main_length = 0;
        }),
        ("main memory of 24 bytes", 1, |case| {
            case.main_length = 24;
            case.vif0_data_length = 0;
            case.data_length = 0;
        }),
        ("entries used, and TADR", 4, |case| {
            case.state[chain_word::USED] = 5;
            case.state[chain_word::TADR] = 8;
        }),
        ("log too long", 4, |case| case.log_length = 196_611),
        ("VIF0's BASE", 5, |case| {
            case.state[VIF0 + unit_word::BASE] = 1;
        }),
        ("VIF1's MODE, and pending words outside", 5, |case| {
            case.state[VIF1 + unit_word::MODE] = 3;
            case.state[chain_word::PAYLOAD_WORDS] = 8;
        }),
        ("pending words outside", 14, |case| {
            case.state[chain_word::PAYLOAD_WORDS] = 8;
        }),
    ];
    [&sizes[..], &others].concat()
}

/// 1 to 5 and 14, on an ended chain too, and on a block that exists in no state.
fn of_entry() -> Vec<Point> {
    let mut points = Vec::new();
    for channel in [0, 1, 2, 7] {
        for (name, refusal, change) in wrong_entries(channel) {
            for (ended, depth) in [(0, 0), (1, 0), (1, 3)] {
                let mut case = plain_case(&on(channel), &tag(END, 9, 0), 4, &[]);
                case.state[chain_word::ENDED] = ended;
                case.state[chain_word::DEPTH] = depth;
                change(&mut case);
                let told = match (refusal, channel, depth) {
                    (14, 7, _) | (14, _, 3) => entry(5),
                    _ => entry(refusal),
                };
                points.push(around(name, case, told, told.1, told));
            }
        }
    }
    points
}

/// No complaint and an ended chain: after 90, 91 and 0.
fn of_no_step() -> Vec<Point> {
    let mut points = vec![after_stops(0), after_stops(1), accepted(0), accepted(1)];
    let end = tag(END, 0, 0);
    for channel in 0..3 {
        let case = plain_case(&on(channel), &end, 0, &[]);
        points.push(around("an end", case, NOTHING, 0, ENDED));
        // Ended; TADR is outside, which no step reads.
        let far = State {
            tadr: 1 << 20,
            ..on(channel)
        };
        let state = State { ended: true, ..far };
        let case = plain_case(&state, &end, 0, &[]);
        points.push(around("ended, TADR outside", case, ENDED, 0, ENDED));
        let told = step(10, 1 << 20, 1 << 20);
        points.push(at_once("TADR outside", &far, &end, told));
    }
    points
}

/// What is near a refusal and accepted, a why before each step: ADDR and SPR that cnt doesn't use,
/// WL above CL, bit 15 on VIF1, MPG from word 2 on, refs with no room behind the tag.
fn accepted(channel: u32) -> Point {
    let unpack = 0x6001_0000 | channel << 15;
    let main = [
        [CNT << 28 | 2, u32::MAX, 0, 0],
        [0x0100_0201, unpack, 5, 0],
        [0, MPG, 7, 8],
        tag(REFS, 2, 16),
        tag(END, 0, 0),
    ];
    let mut calls = vec![[why(), run(1)]; 19].concat();
    calls.push(why());
    Point {
        name: "accepted",
        case: plain_case(&on(channel), &main.concat(), 0, &calls),
        whys: [vec![NOTHING; 19], vec![ENDED]].concat(),
        answers: [vec![90; 18], vec![0]].concat(),
    }
}

/// Runs with little allowed, two of them to an interrupt, the last to a refusal.
fn after_stops(channel: u32) -> Point {
    let main = tagged(END, &[INTERRUPT, 0, INTERRUPT, 0x0800_0000]);
    let runs = [run(0), run(1), run(1), run(9), run(9)];
    let calls = runs.map(|run| [run, why()]).concat();
    let refused = step(20, 28, 8);
    Point {
        name: "after 90 and 91",
        case: plain_case(&on(channel), &main, 0, &calls),
        whys: vec![NOTHING, NOTHING, NOTHING, refused, refused],
        answers: vec![90, 90, 91, 91, 20],
    }
}

/// Whys among sets over words that mean nothing: these stay, and what is ignored is.
fn among_sets(whole: bool) -> Point {
    let ignored = |a, b, c| Call::Why { ignored: [a, b, c] };
    let calls = [
        ignored(1, 0, 0),
        set(1, 0, 5),
        ignored(0, 2, 0),
        set(0, 7, 6),
        ignored(0, 0, u32::MAX),
        run(0),
        why(),
        set(1, 8, 6),
        why(),
    ];
    let mut case = plain_case(&State::reset(), &tag(REF, 1, 3), 4, &calls);
    case.whole = whole;
    for at in [chain_word::STACK, chain_word::PAYLOAD_AT, PATH3 + 8] {
        case.state[at] = 7;
    }
    Point {
        name: "among sets",
        case,
        whys: vec![step(11, 0, 3); 5],
        answers: vec![0, 0, 90, 50],
    }
}

/// Whys, starts and runs over one memory on three channels.
fn in_turn() -> Point {
    let codes = [0x1500_0000, 0, 0, 0x5000_0000];
    let main = [&tagged(END, &codes)[..], &tag(NEXT, 0, 4)].concat();
    let calls = [
        start(0, 0, 0),
        why(),
        run(NO_LIMIT),
        why(),
        start(1, 0, 0),
        why(),
        run(NO_LIMIT),
        why(),
        start(2, 32, 0),
        why(),
        why(),
    ];
    let told = step(11, 32, 4);
    Point {
        name: "in turn",
        case: plain_case(&State::reset(), &main, 1, &calls),
        whys: vec![NOTHING, step(20, 16, 0x15), NOTHING, ENDED, told, told],
        answers: vec![0, 20, 0, 0, 0],
    }
}

impl Point {
    fn check(&self) -> Result<(), String> {
        let wrong = |what: String| Err(format!("{}: {what}", self.name));
        let mut standing = Standing::new(&self.case);
        let (mut whys, mut answers) = (self.whys.iter(), self.answers.iter());
        for (i, call) in self.case.calls.iter().enumerate() {
            if let Call::Why { .. } = call {
                let why = standing.why();
                let [refusal, address, first, second] = why.numbers();
                let told = (why.kind(), refusal as u32, address as u32, first, second);
                if whys.next() != Some(&told) {
                    return wrong(format!("call {i}: {why:X?}"));
                }
                continue;
            }
            let answer = standing.make(call);
            if answers.next() != Some(&answer) {
                return wrong(format!("call {i} answers {answer}"));
            }
        }
        match (whys.next(), answers.next()) {
            (None, None) => Ok(()),
            _ => wrong("calls are missing".to_string()),
        }
    }
}

pub fn in_captures() -> Vec<Case> {
    points().into_iter().map(|point| point.case).collect()
}

/// Checks all points; hands back how many there are.
pub fn check() -> Result<usize, String> {
    let points = points();
    points.iter().try_for_each(Point::check)?;
    Ok(points.len())
}

#[cfg(test)]
mod tests {
    use super::*;

    #[test]
    fn all_are_right() {
        assert_eq!(check(), Ok(350));
    }

    #[test]
    fn a_wrong_point_is_told() {
        for i in 0..points().len() {
            let wrong = |change: fn(&mut Told)| {
                let mut point = points().swap_remove(i);
                change(point.whys.last_mut().unwrap());
                assert!(point.check().is_err());
            };
            wrong(|told| told.0 ^= 1);
            wrong(|told| told.1 ^= 1);
            wrong(|told| told.2 ^= 4);
            wrong(|told| told.3 ^= 1 << 32);
            wrong(|told| told.4 ^= 1);
        }
    }
}
