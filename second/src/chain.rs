//! The chain layer: runs over DMA source chains on channel 0 (VIF0), 1 (VIF1) or 2 (GIF).

use crate::gif::{self, Path, PathNumber, Place};
use crate::memory::MOST_MAIN;
use crate::model::Model;
use crate::refusals;
use crate::run_counts::RunCounts;
use crate::vif::{self, Given, Taken, Unit};
use crate::words::QUADWORD;

/// The most payload words that can be pending.
pub const MOST_PENDING: u32 = 4 * 65_535;
/// What the stack holds.
pub const STACK: usize = 2;

pub const DONE: u32 = 0;
pub const ALLOWANCE_USED: u32 = 90;
pub const INTERRUPT: u32 = 91;

pub const REFE: u32 = 0;
pub const CNT: u32 = 1;
pub const NEXT: u32 = 2;
pub const REF: u32 = 3;
pub const REFS: u32 = 4;
pub const CALL: u32 = 5;
pub const RET: u32 = 6;
pub const END: u32 = 7;

/// Payload words not yet taken; at least one.
#[derive(Clone, Copy, PartialEq, Eq, Debug)]
pub struct Pending {
    pub address: u32,
    pub words: u32,
}

#[derive(Clone, Copy, PartialEq, Eq, Debug)]
pub struct State {
    pub channel: u32,
    pub tadr: u32,
    pub tte: bool,
    pub ended: bool,
    /// Entries on the stack, at most two.
    pub depth: usize,
    /// First pushed first; zero above the depth.
    pub stack: [u32; STACK],
    /// The address of the next tag word, where some are pending.
    pub tag_word: Option<u32>,
    pub payload: Option<Pending>,
    pub used: u64,
    pub vif0: Unit,
    pub vif1: Unit,
    pub path2: Path,
    pub path3: Path,
}

/// The memories that a run is lent; data and code are those of the channel's unit.
pub struct Memories<'a> {
    pub main: &'a [u8],
    pub data: &'a mut [u32],
    pub code: &'a mut [u8],
    pub log: &'a mut [u64],
}

#[derive(Clone, Copy, PartialEq, Eq, Debug)]
pub struct Tag {
    pub qwc: u32,
    pub id: u32,
    pub addr: u32,
    pub spr: bool,
}

/// What the next step takes.
#[derive(Clone, Copy, PartialEq, Eq, Debug)]
pub enum Next {
    Tag,
    TagWord(u32),
    Payload(Pending),
}

/// A completed step.
#[derive(Clone, Copy, PartialEq, Eq, Debug)]
pub enum Step {
    Tag(Tag),
    TagWord(Taken),
    Payload(Taken),
    /// A quadword of payload on channel 2.
    Path3 {
        closed: bool,
    },
}

impl Step {
    /// Whether the step completed a code with its bit 31 set.
    pub fn interrupt(&self) -> bool {
        match self {
            Step::TagWord(taken) | Step::Payload(taken) => taken.interrupt,
            Step::Tag(_) | Step::Path3 { .. } => false,
        }
    }

    /// Whether the step's quadword closed a packet.
    pub fn closed(&self) -> bool {
        match self {
            Step::TagWord(taken) | Step::Payload(taken) => taken.closed,
            Step::Path3 { closed } => *closed,
            Step::Tag(_) => false,
        }
    }
}

/// How a run stopped.
#[derive(Clone, Copy, PartialEq, Eq, Debug)]
pub struct Stop {
    pub answer: u32,
    /// Over the completed steps.
    pub counts: RunCounts,
}

impl Stop {
    /// A refusal at entry.
    pub fn at_entry(refusal: u32) -> Stop {
        Stop {
            answer: refusal,
            counts: RunCounts::default(),
        }
    }
}

impl Tag {
    pub fn decode(quadword: u128) -> Tag {
        Tag {
            qwc: gif::bits(quadword, 0, 16) as u32,
            id: gif::bits(quadword, 28, 3) as u32,
            addr: gif::bits(quadword, 32, 31) as u32,
            spr: gif::bits(quadword, 63, 1) == 1,
        }
    }

    pub fn uses_addr(&self) -> bool {
        matches!(self.id, REFE | NEXT | REF | REFS | CALL)
    }

    /// Where the payload of the tag at `tadr` lies.
    pub fn payload_at(&self, tadr: u32) -> u32 {
        match self.id {
            REFE | REF | REFS => self.addr,
            _ => tadr + 16,
        }
    }
}

impl State {
    pub fn reset() -> State {
        let idle = Path {
            q: 0,
            place: Place::Idle,
        };
        State {
            channel: 1,
            tadr: 0,
            tte: false,
            ended: false,
            depth: 0,
            stack: [0; STACK],
            tag_word: None,
            payload: None,
            used: 0,
            vif0: Unit::reset(Model::Vif0),
            vif1: Unit::reset(Model::Vif1),
            path2: idle,
            path3: idle,
        }
    }

    /// The unit whose memories a run is lent.
    pub fn model(&self) -> Model {
        Model::of_channel(self.channel)
    }

    /// The unit that the channel's words go to; VIF1 on channel 2.
    pub fn unit(&self) -> &Unit {
        match self.model() {
            Model::Vif0 => &self.vif0,
            Model::Vif1 => &self.vif1,
        }
    }

    pub fn next(&self) -> Next {
        if let Some(address) = self.tag_word {
            return Next::TagWord(address);
        }
        match self.payload {
            Some(pending) => Next::Payload(pending),
            None => Next::Tag,
        }
    }

    pub fn is_done(&self) -> bool {
        self.ended && self.next() == Next::Tag
    }

    fn push(&mut self, address: u32) {
        self.stack[self.depth] = address;
        self.depth += 1;
    }

    fn pop(&mut self) -> Option<u32> {
        self.depth = self.depth.checked_sub(1)?;
        Some(std::mem::take(&mut self.stack[self.depth]))
    }
}

/// Starts a chain on what stands. A refusal changes nothing.
pub fn start(state: &mut State, channel: u32, tadr: u32, tte: bool) -> Result<(), u32> {
    if !in_range(state) || !start_in_range(channel, tadr, tte) {
        return Err(refusals::RANGE);
    }
    state.channel = channel;
    state.tadr = tadr;
    state.tte = tte;
    state.ended = false;
    state.depth = 0;
    state.stack = [0; STACK];
    state.tag_word = None;
    state.payload = None;
    Ok(())
}

/// Runs the chain. Each step tried is shown to `watch` with the state before it.
pub fn run(
    state: &mut State,
    memories: &mut Memories,
    allowance: u64,
    mut watch: impl FnMut(&State, &State, Result<Step, u32>),
) -> Stop {
    if let Err(refusal) = check_entry(state, memories) {
        return Stop::at_entry(refusal);
    }
    let mut counts = RunCounts::default();
    let answer = loop {
        if state.is_done() {
            break DONE;
        }
        if counts.steps == allowance {
            break ALLOWANCE_USED;
        }
        let before = *state;
        let tried = step(state, memories);
        watch(&before, state, tried);
        match tried {
            Err(refusal) => break refusal,
            Ok(step) => {
                counts.count(&step);
                if step.interrupt() {
                    break INTERRUPT;
                }
            }
        }
    };
    Stop { answer, counts }
}

/// Tests for the refusals 1 to 5 and 14, in this order.
pub fn check_entry(state: &State, memories: &Memories) -> Result<(), u32> {
    check_lengths(state.model(), memories, state.used)?;
    if !in_range(state) {
        return Err(refusals::RANGE);
    }
    if !pending_inside(state, memories.main.len()) {
        return Err(refusals::OUTSIDE);
    }
    Ok(())
}

/// Tests for the refusals 1 to 4, in this order, with the sizes of a unit.
pub fn check_lengths(model: Model, memories: &Memories, used: u64) -> Result<(), u32> {
    let main = memories.main.len();
    if main == 0 || main % QUADWORD != 0 || main > MOST_MAIN {
        return Err(refusals::MAIN);
    }
    vif::check_lengths(
        model,
        memories.data.len(),
        memories.code.len(),
        memories.log.len(),
        used,
    )
}

/// Whether the state passes refusal 5.
pub fn in_range(state: &State) -> bool {
    let stack_entry = |&address: &u32| address % 16 == 0 && address as usize <= MOST_MAIN;
    start_in_range(state.channel, state.tadr, state.tte)
        && state.depth <= STACK
        && state.stack[..state.depth].iter().all(stack_entry)
        && state
            .tag_word
            .is_none_or(|address| state.tte && matches!(address % 16, 8 | 12))
        && state
            .payload
            .is_none_or(|pending| payload_in_range(state.channel, &pending))
        && vif::in_range(&state.vif0)
        && vif::in_range(&state.vif1)
        && gif::path_in_range(&state.path2)
        && gif::path_in_range(&state.path3)
}

/// Whether channel, TADR and TTE are in range, in a state or a start.
pub fn start_in_range(channel: u32, tadr: u32, tte: bool) -> bool {
    let channel_fits = match channel {
        0 | 1 => true,
        2 => !tte,
        _ => false,
    };
    channel_fits && tadr % 16 == 0 && tadr < 1 << 31
}

fn payload_in_range(channel: u32, pending: &Pending) -> bool {
    let unit = if channel == 2 { 16 } else { 4 };
    (1..=MOST_PENDING).contains(&pending.words)
        && pending.address % unit == 0
        && (pending.address / 4 + pending.words) % 4 == 0
}

/// Whether all pending words lie in a main memory of this length.
pub fn pending_inside(state: &State, length: usize) -> bool {
    state
        .tag_word
        .is_none_or(|address| inside(length, address, 4))
        && state
            .payload
            .is_none_or(|pending| inside(length, pending.address, 4 * pending.words as u64))
}

/// Whether so many bytes from the address on lie in a memory of this length.
pub fn inside(length: usize, address: u32, bytes: u64) -> bool {
    address as u64 + bytes <= length as u64
}

/// Performs one step. The entry tests have passed. A refusal changes nothing.
pub fn step(state: &mut State, memories: &mut Memories) -> Result<Step, u32> {
    match state.next() {
        Next::Tag => take_tag(state, memories.main).map(Step::Tag),
        Next::TagWord(address) => take_tag_word(state, memories, address).map(Step::TagWord),
        Next::Payload(pending) if state.channel == 2 => {
            let closed = take_path3(state, memories, pending)?;
            Ok(Step::Path3 { closed })
        }
        Next::Payload(pending) => take_payload(state, memories, pending).map(Step::Payload),
    }
}

pub fn quadword_at(main: &[u8], address: u32) -> u128 {
    let at = address as usize;
    u128::from_le_bytes(main[at..at + 16].try_into().unwrap())
}

pub fn word_at(main: &[u8], address: u32) -> u32 {
    let at = address as usize;
    u32::from_le_bytes(main[at..at + 4].try_into().unwrap())
}

/// Tests for the refusals 10 to 14, in this order; hands back the tag at TADR.
fn read_tag(state: &State, main: &[u8]) -> Result<Tag, u32> {
    if !inside(main.len(), state.tadr, 16) {
        return Err(refusals::TADR);
    }
    let tag = Tag::decode(quadword_at(main, state.tadr));
    if tag.uses_addr() && tag.addr % 16 != 0 {
        return Err(refusals::ADDR);
    }
    if tag.uses_addr() && tag.spr {
        return Err(refusals::SPR);
    }
    if tag.id == CALL && state.depth == STACK {
        return Err(refusals::CALL);
    }
    if tag.qwc > 0 && !inside(main.len(), tag.payload_at(state.tadr), 16 * tag.qwc as u64) {
        return Err(refusals::OUTSIDE);
    }
    Ok(tag)
}

fn take_tag(state: &mut State, main: &[u8]) -> Result<Tag, u32> {
    let tag = read_tag(state, main)?;
    let tadr = state.tadr;
    let after_tag = tadr + 16;
    let after_payload = after_tag + 16 * tag.qwc;
    match tag.id {
        REFE => {
            state.tadr = after_tag;
            state.ended = true;
        }
        CNT => state.tadr = after_payload,
        NEXT => state.tadr = tag.addr,
        REF | REFS => state.tadr = after_tag,
        CALL => {
            state.push(after_payload);
            state.tadr = tag.addr;
        }
        RET => match state.pop() {
            Some(address) => state.tadr = address,
            None => state.ended = true,
        },
        _ => state.ended = true,
    }
    if state.tte {
        state.tag_word = Some(tadr + 8);
    }
    if tag.qwc > 0 {
        state.payload = Some(Pending {
            address: tag.payload_at(tadr),
            words: 4 * tag.qwc,
        });
    }
    Ok(tag)
}

/// Word 2 or 3 of a tag to the channel's unit.
fn take_tag_word(state: &mut State, memories: &mut Memories, address: u32) -> Result<Taken, u32> {
    let given = given_at(memories.main, address);
    let taken = give(state, memories, given)?;
    state.tag_word = if address % 16 == 8 {
        Some(address + 4)
    } else {
        None
    };
    Ok(taken)
}

/// A word of payload to the channel's unit, or a quadword inside DIRECT.
fn take_payload(
    state: &mut State,
    memories: &mut Memories,
    pending: Pending,
) -> Result<Taken, u32> {
    let given = given_at(memories.main, pending.address);
    let taken = give(state, memories, given)?;
    state.payload = rest(pending, if taken.quadword { 4 } else { 1 });
    Ok(taken)
}

/// What a unit is given with the word at the address.
fn given_at(main: &[u8], address: u32) -> Given {
    match address / 4 % 4 {
        0 => Given::Quadword(quadword_at(main, address)),
        number => Given::Word {
            number,
            word: word_at(main, address),
        },
    }
}

fn give(state: &mut State, memories: &mut Memories, given: Given) -> Result<Taken, u32> {
    let unit = match state.model() {
        Model::Vif0 => &mut state.vif0,
        Model::Vif1 => &mut state.vif1,
    };
    vif::take(
        unit,
        &mut state.path2,
        given,
        memories.data,
        memories.code,
        memories.log,
        &mut state.used,
    )
}

/// A quadword of payload to path 3; hands back whether it closed a packet.
fn take_path3(state: &mut State, memories: &mut Memories, pending: Pending) -> Result<bool, u32> {
    let quadword = quadword_at(memories.main, pending.address);
    let (path, used) = (&mut state.path3, &mut state.used);
    let closed = gif::take(PathNumber::Three, path, used, memories.log, quadword)?;
    state.payload = rest(pending, 4);
    Ok(closed)
}

/// What is pending after so many words were taken.
fn rest(pending: Pending, taken: u32) -> Option<Pending> {
    if pending.words == taken {
        return None;
    }
    Some(Pending {
        address: pending.address + 4 * taken,
        words: pending.words - taken,
    })
}

#[cfg(test)]
mod tests {
    use super::*;
    use crate::log;

    /// A state with its memories.
    struct Bench {
        state: State,
        main: Vec<u8>,
        data: Vec<u32>,
        code: Vec<u8>,
        log: Vec<u64>,
    }

    impl Bench {
        fn new(words: &[u32], entries: u64) -> Bench {
            Bench::on(1, words, entries)
        }

        /// On a channel, with its unit's memories.
        fn on(channel: u32, words: &[u32], entries: u64) -> Bench {
            let sizes = Model::of_channel(channel).sizes();
            let state = State {
                channel,
                ..State::reset()
            };
            Bench {
                state,
                main: words.iter().flat_map(|word| word.to_le_bytes()).collect(),
                data: vec![0; sizes.data_words()],
                code: vec![0; sizes.code_bytes()],
                log: vec![0; log::numbers(entries)],
            }
        }

        fn stop(&mut self, allowance: u64) -> Stop {
            let mut memories = Memories {
                main: &self.main,
                data: &mut self.data,
                code: &mut self.code,
                log: &mut self.log,
            };
            run(&mut self.state, &mut memories, allowance, |_, _, _| {})
        }

        /// The answer and the steps of a run that closes no packet.
        fn run(&mut self, allowance: u64) -> (u32, u64) {
            let stop = self.stop(allowance);
            assert_eq!(stop.counts.packets, 0);
            (stop.answer, stop.counts.steps)
        }
    }

    #[test]
    fn third_call_refused() {
        let call = |to: u32| [CALL << 28, to, 0, 0];
        let mut bench = Bench::new(&[call(16), call(32), call(0)].concat(), 0);
        assert_eq!(bench.run(u64::MAX), (13, 2));
        assert_eq!((bench.state.depth, bench.state.stack), (2, [16, 32]));
        assert_eq!(bench.run(0), (90, 0));
    }

    #[test]
    fn allowance_0() {
        let mut bench = Bench::new(&[END << 28, 0, 0, 0], 0);
        assert_eq!(bench.run(0), (90, 0));
        assert_eq!(bench.run(1), (0, 1));
        assert_eq!(bench.state.tadr, 0);
        assert_eq!(bench.run(0), (0, 0));
    }

    #[test]
    fn interrupt_at_the_end() {
        let words = [END << 28 | 1, 0, 0, 0, 0, 0, 0, 1 << 31];
        let mut bench = Bench::new(&words, 0);
        assert_eq!(bench.run(5), (91, 5));
        assert_eq!(bench.run(0), (0, 0));
    }

    #[test]
    fn tag_words_to_vif0() {
        let words = [END << 28, 0, 0x0700_0005, 0x3000_0000, 1, 2, 3, 4];
        let mut bench = Bench::on(0, &words, 0);
        bench.state.tte = true;
        assert_eq!(bench.run(u64::MAX), (0, 3));
        assert_eq!(bench.state.vif0.registers.mark, 5);
        assert_eq!(bench.state.vif0.waiting.unwrap().due, 4);
        assert_eq!(bench.state.vif1, Unit::reset(Model::Vif1));
        // A start on channel 1 keeps the code that waits, and VIF1 takes the words there.
        assert_eq!(start(&mut bench.state, 1, 0, true), Ok(()));
        assert_eq!(bench.run(0), (2, 0));
        bench.data.resize(4_096, 0);
        assert_eq!(bench.run(0), (3, 0));
        bench.code.resize(16_384, 0);
        assert_eq!(bench.run(u64::MAX), (0, 3));
        assert_eq!(bench.state.vif0.waiting, bench.state.vif1.waiting);
    }

    #[test]
    fn lengths_by_the_channel() {
        let end = [END << 28, 0, 0, 0];
        for (channel, data, code) in [
            (0, 1_024, 4_096),
            (1, 4_096, 16_384),
            (2, 4_096, 16_384),
            (3, 4_096, 16_384),
            (u32::MAX, 4_096, 16_384),
        ] {
            let mut bench = Bench::on(channel, &end, 0);
            assert_eq!((bench.data.len(), bench.code.len()), (data, code));
            let answer = if channel > 2 { (5, 0) } else { (0, 1) };
            assert_eq!(bench.run(1), answer);
            bench.code.pop();
            assert_eq!(bench.run(1), (3, 0));
            bench.data.pop();
            assert_eq!(bench.run(1), (2, 0));
        }
    }

    #[test]
    fn range_on_every_channel() {
        let changes: [fn(&mut State); 8] = [
            |state| state.vif0.registers.ofst = 1,
            |state| state.vif0.registers.base = 1,
            |state| state.vif0.registers.tops = 1,
            |state| state.vif0.registers.top = 1,
            |state| state.vif0.registers.dbf = true,
            |state| state.vif0.registers.mskpath3 = true,
            |state| state.vif0.registers.mode = 3,
            |state| state.vif1.registers.mode = 3,
        ];
        for channel in 0..3 {
            for change in changes {
                let mut bench = Bench::on(channel, &[END << 28, 0, 0, 0], 0);
                assert_eq!(bench.run(0), (90, 0));
                change(&mut bench.state);
                assert_eq!(bench.run(0), (5, 0));
                for to in 0..3 {
                    assert_eq!(start(&mut bench.state, to, 0, false), Err(5));
                }
            }
        }
    }

    #[test]
    fn starts_on_channels() {
        for (channel, tte, answer) in [
            (0, false, Ok(())),
            (0, true, Ok(())),
            (1, true, Ok(())),
            (2, false, Ok(())),
            (2, true, Err(5)),
            (3, false, Err(5)),
        ] {
            let mut state = State::reset();
            assert_eq!(start(&mut state, channel, 16, tte), answer);
        }
        let pending = |channel, address| {
            let mut state = State::reset();
            state.channel = channel;
            state.payload = Some(Pending {
                address,
                words: 4 - address / 4,
            });
            in_range(&state)
        };
        for channel in 0..3 {
            let fits = [0, 4, 8, 12].map(|address| pending(channel, address));
            assert_eq!(fits, [true, channel != 2, channel != 2, channel != 2]);
        }
    }

    /// A packet of one A+D write, a packet without data and a tag without EOP, on both paths.
    #[test]
    fn packets_of_a_run() {
        let quadwords = [
            [0x8001, 0x1000_0000, 0xE, 0],
            [1, 0, 2, 0],
            [0x8000, 0, 0, 0],
            [0, 0, 0, 0],
        ];
        let direct = |command: u32| [0, 0, 0, command << 24 | 4];
        for (channel, head) in [
            (1, vec![direct(0x50)]),
            (1, vec![direct(0x51)]),
            (2, Vec::new()),
        ] {
            let payload = [&head[..], &quadwords].concat();
            let tag = [END << 28 | payload.len() as u32, 0, 0, 0];
            let main = [&[tag][..], &payload].concat().concat();
            let before = 1 + 4 * head.len() as u64;
            for (cut, closed) in [(0, 0), (1, 0), (2, 1), (3, 2), (4, 2)] {
                let mut bench = Bench::on(channel, &main, 1);
                let answer = if cut == 4 { DONE } else { ALLOWANCE_USED };
                let told = |stop: Stop| (stop.answer, stop.counts.steps, stop.counts.packets);
                let first = bench.stop(before + cut);
                assert_eq!(told(first), (answer, before + cut, closed));
                let second = bench.stop(u64::MAX);
                assert_eq!(told(second), (DONE, 4 - cut, 2 - closed));
                let path = if channel == 1 { 2 } else { 3 };
                assert_eq!(bench.log, [path, 2, 1]);
            }
            // Without room the first packet is not closed.
            let mut bench = Bench::on(channel, &main, 0);
            assert_eq!(bench.run(u64::MAX), (31, before + 1));
            bench.log.push(0);
            assert_eq!(bench.run(u64::MAX), (4, 0));
        }
    }

    #[test]
    fn direct_meets_a_tag_word() {
        let words = [CNT << 28, 0, 0, 0x5000_0001, END << 28 | 1, 0, 0, 0];
        let mut bench = Bench::new(&[&words[..], &[0; 4]].concat(), 0);
        bench.state.tte = true;
        assert_eq!(bench.run(u64::MAX), (24, 4));
        assert_eq!(bench.state.tag_word, Some(24));
        assert_eq!(start(&mut bench.state, 1, 16, false), Ok(()));
        assert_eq!(bench.run(u64::MAX), (0, 2));
    }
}
