//! Capture files and their results.

use crate::capture_counts::Counts;
use crate::chain::{self, Memories, State, Step, Stop};
use crate::compare;
use crate::filled::{self, UnitMemories};
use crate::history::{self, History, Trace};
use crate::memory::cases::{
    MOST_CODE, MOST_DATA, MOST_LOG, MOST_MAIN, MOST_VIF0_CODE, MOST_VIF0_DATA,
};
use crate::model::Model;
use crate::refusals;
use crate::run_counts::{self, RunCounts};
use crate::set;
use crate::state_block::{
    self, bit, chain_word, describe_state, read_state, write_state, StateBlock, STATE_WORDS,
};
use crate::vif_cases::{code_words, describe_changes, write_changes, ShownUnit};
use crate::why::{self, Lent, Why};
use crate::why_check;
use crate::words::{number, put_number, put_word, word, WORD};

pub const MARK: u32 = 0x3350_4354;
pub const MOST_CALLS: u32 = 65_535;
/// The word of a case at which the state block starts.
const STATE_AT: usize = 12;
/// The words of a case before its calls.
pub const HEADER: usize = STATE_AT + STATE_WORDS;
/// The words of a call.
const CALL: usize = 4;
/// The words of a run's result before the state block.
const RUN_HEAD: usize = 1 + run_counts::WORDS;
/// The words of a why's result.
pub const WHY_WORDS: usize = 7;

#[derive(Clone, Copy, PartialEq, Eq, Debug)]
pub enum Call {
    Start {
        channel: u32,
        tadr: u32,
        tte: u32,
    },
    Run {
        allowance: u64,
    },
    Set {
        unit: u32,
        number: u32,
        value: u32,
    },
    /// With three words that mean nothing.
    Why {
        ignored: [u32; 3],
    },
}

#[derive(Clone)]
pub struct Case {
    pub main_length: u32,
    /// Main memory from address 0, by words; the rest is zero.
    pub main: Vec<u32>,
    /// VIF1's memories, then VIF0's.
    pub data_length: u32,
    pub code_length: u32,
    pub vif0_data_length: u32,
    pub vif0_code_length: u32,
    pub log_length: u32,
    pub fill: u64,
    /// Results show whole memories.
    pub whole: bool,
    pub state: StateBlock,
    pub calls: Vec<Call>,
}

impl Case {
    pub fn write(&self, out: &mut Vec<u8>) {
        put_word(out, MARK);
        put_word(out, self.main_length);
        put_word(out, self.main.len() as u32);
        put_word(out, self.data_length);
        put_word(out, self.code_length);
        put_word(out, self.log_length);
        put_number(out, self.fill);
        put_word(out, self.whole as u32);
        put_word(out, self.calls.len() as u32);
        put_word(out, self.vif0_data_length);
        put_word(out, self.vif0_code_length);
        for &w in &self.state {
            put_word(out, w);
        }
        for call in &self.calls {
            call.words().iter().for_each(|&w| put_word(out, w));
        }
        for &w in &self.main {
            put_word(out, w);
        }
    }
}

impl Call {
    fn words(&self) -> [u32; CALL] {
        match *self {
            Call::Start { channel, tadr, tte } => [1, channel, tadr, tte],
            Call::Run { allowance } => [2, allowance as u32, (allowance >> 32) as u32, 0],
            Call::Set {
                unit,
                number,
                value,
            } => [3, unit, number, value],
            Call::Why { ignored: [a, b, c] } => [4, a, b, c],
        }
    }

    /// None for a call of another kind.
    fn read(bytes: &[u8], at: usize) -> Option<Call> {
        match word(bytes, at) {
            1 => Some(Call::Start {
                channel: word(bytes, at + 1),
                tadr: word(bytes, at + 2),
                tte: word(bytes, at + 3),
            }),
            2 => Some(Call::Run {
                allowance: number(bytes, at + 1),
            }),
            3 => Some(Call::Set {
                unit: word(bytes, at + 1),
                number: word(bytes, at + 2),
                value: word(bytes, at + 3),
            }),
            4 => Some(Call::Why {
                ignored: std::array::from_fn(|i| word(bytes, at + 1 + i)),
            }),
            _ => None,
        }
    }
}

/// What stands while the calls of a case are made.
#[derive(Clone)]
pub struct Standing {
    /// None where the case's block exists in no state.
    pub state: Option<State>,
    /// The case's block with what was set, until a start or a run writes it where there is a state.
    given: StateBlock,
    written: bool,
    pub main: Vec<u8>,
    vif0: UnitMemories,
    vif1: UnitMemories,
    pub log: Vec<u64>,
}

impl Standing {
    pub fn new(case: &Case) -> Standing {
        let mut main: Vec<u8> = case.main.iter().flat_map(|w| w.to_le_bytes()).collect();
        main.resize(case.main_length as usize, 0);
        Standing {
            state: read_state(&case.state),
            given: case.state,
            written: false,
            main,
            vif0: UnitMemories::of_vif0(case.fill, case.vif0_data_length, case.vif0_code_length),
            vif1: UnitMemories::new(case.fill, case.data_length, case.code_length),
            log: filled::log(case.fill, case.log_length),
        }
    }

    /// Makes a start; answers 0 or 5.
    pub fn start(&mut self, channel: u32, tadr: u32, tte: u32) -> u32 {
        self.written = true;
        match (&mut self.state, bit(tte)) {
            (Some(state), Some(tte)) => chain::start(state, channel, tadr, tte).err().unwrap_or(0),
            _ => refusals::RANGE,
        }
    }

    pub fn run(
        &mut self,
        allowance: u64,
        watch: impl FnMut(&State, &State, Result<Step, u32>),
    ) -> Stop {
        let (model, used) = (self.model(), self.used());
        match self.lend() {
            (Some(state), mut memories) => chain::run(state, &mut memories, allowance, watch),
            (None, memories) => {
                let refusal = chain::check_lengths(model, &memories, used).err();
                Stop::at_entry(refusal.unwrap_or(refusals::RANGE))
            }
        }
    }

    /// Sets a register of a unit; answers 0, 50, 5 or 51.
    pub fn set(&mut self, unit: u32, number: u32, value: u32) -> u32 {
        let mut block = self.block();
        let answer = set::set(&mut block, unit, number, value);
        if answer.is_ok() {
            self.state = read_state(&block);
            self.given = block;
        }
        answer.err().unwrap_or(0)
    }

    /// What the next step of a run is refused with.
    pub fn why(&self) -> Why {
        let lent = self.lent();
        let lent = Lent {
            main: &self.main,
            data_words: lent.data.len(),
            code_bytes: lent.code.len(),
            log_numbers: self.log.len(),
        };
        why::why(&self.block(), &lent)
    }

    /// Makes a call; hands back its answer, of a why the kind.
    pub fn make(&mut self, call: &Call) -> u32 {
        match *call {
            Call::Start { channel, tadr, tte } => self.start(channel, tadr, tte),
            Call::Run { allowance } => self.run(allowance, |_, _, _| {}).answer,
            Call::Set {
                unit,
                number,
                value,
            } => self.set(unit, number, value),
            Call::Why { .. } => self.why().kind(),
        }
    }

    /// The state, and the memories that a run on it is lent.
    pub fn lend(&mut self) -> (Option<&mut State>, Memories<'_>) {
        self.written = true;
        let lent = match self.model() {
            Model::Vif0 => &mut self.vif0,
            Model::Vif1 => &mut self.vif1,
        };
        let memories = Memories {
            main: &self.main,
            data: &mut lent.data,
            code: &mut lent.code,
            log: &mut self.log,
        };
        (self.state.as_mut(), memories)
    }

    /// The unit whose memories a run is lent, also where there is no state.
    pub fn model(&self) -> Model {
        match &self.state {
            Some(state) => state.model(),
            None => Model::of_channel(self.given[chain_word::CHANNEL]),
        }
    }

    /// The memories of a unit.
    pub fn memories(&self, model: Model) -> &UnitMemories {
        match model {
            Model::Vif0 => &self.vif0,
            Model::Vif1 => &self.vif1,
        }
    }

    /// Those that a run is lent.
    pub fn lent(&self) -> &UnitMemories {
        self.memories(self.model())
    }

    /// Entries used, also where there is no state.
    pub fn used(&self) -> u64 {
        match &self.state {
            Some(state) => state.used,
            None => state_block::used(&self.given),
        }
    }

    pub fn block(&self) -> StateBlock {
        match &self.state {
            Some(state) if self.written => write_state(state),
            _ => self.given,
        }
    }
}

/// Where the result of a call starts.
pub struct Start {
    pub offset: usize,
    pub case: usize,
    pub call: usize,
}

#[derive(Default)]
pub struct Results {
    pub bytes: Vec<u8>,
    pub starts: Vec<Start>,
    /// Where the line about a damaged case starts.
    pub damage: Option<usize>,
    /// The first why that says other than a step on a copy does, or the first run whose counts are
    /// not those of its steps or after which the fact beneath the totals fails: its case, its call and
    /// what.
    pub broken: Option<(usize, usize, String)>,
}

impl Results {
    /// Keeps what is broken of the last call, a why, where nothing was before.
    fn check_why(&mut self, standing: &Standing, why: &Why) {
        if self.broken.is_none() {
            self.keep(why_check::broken(standing, why));
        }
    }

    /// Keeps what is broken of the last call, where nothing was before.
    fn keep(&mut self, broken: Option<String>) {
        if let (None, Some(last), Some(told)) = (&self.broken, self.starts.last(), broken) {
            self.broken = Some((last.case, last.call, told));
        }
    }
}

/// Whether the numbers in a case's header are within their limits.
fn limits_kept(bytes: &[u8]) -> bool {
    let limits = [
        (1, MOST_MAIN),
        (2, word(bytes, 1) / 4),
        (3, MOST_DATA),
        (4, MOST_CODE),
        (5, MOST_LOG),
        (8, 1),
        (9, MOST_CALLS),
        (10, MOST_VIF0_DATA),
        (11, MOST_VIF0_CODE),
    ];
    limits.iter().all(|&(at, most)| word(bytes, at) <= most)
}

/// The first case of the bytes and its length; none where it is damaged.
pub fn first_case(bytes: &[u8]) -> Option<(Case, usize)> {
    if bytes.len() < HEADER * WORD || word(bytes, 0) != MARK || !limits_kept(bytes) {
        return None;
    }
    let head = |at: usize| word(bytes, at);
    let calls_end = HEADER + CALL * head(9) as usize;
    let end = calls_end + head(2) as usize;
    if bytes.len() < end * WORD {
        return None;
    }
    let calls: Option<Vec<Call>> = (HEADER..calls_end)
        .step_by(CALL)
        .map(|at| Call::read(bytes, at))
        .collect();
    let case = Case {
        main_length: head(1),
        main: (calls_end..end).map(head).collect(),
        data_length: head(3),
        code_length: head(4),
        vif0_data_length: head(10),
        vif0_code_length: head(11),
        log_length: head(5),
        fill: number(bytes, 6),
        whole: head(8) == 1,
        state: std::array::from_fn(|i| head(STATE_AT + i)),
        calls: calls?,
    };
    Some((case, end * WORD))
}

/// The results of a capture file.
pub fn results(file: &[u8], counts: &mut Counts) -> Results {
    let mut results = Results::default();
    let mut rest = file;
    let mut index = 0;
    while !rest.is_empty() {
        let Some((case, length)) = first_case(rest) else {
            results.damage = Some(results.bytes.len());
            let line = format!("damaged case {index}\n");
            results.bytes.extend_from_slice(line.as_bytes());
            return results;
        };
        run_case(&case, index, &mut results, counts);
        rest = &rest[length..];
        index += 1;
    }
    results
}

/// Where each case of a file starts, a damaged last one too.
pub fn case_starts(file: &[u8]) -> Vec<usize> {
    compare::case_starts(file, |bytes| Some(first_case(bytes)?.1))
}

/// Whether no run of the file takes more than so many steps.
pub fn ends_within(file: &[u8], most: u64) -> bool {
    let mut rest = file;
    while let Some((case, length)) = first_case(rest) {
        let mut standing = Standing::new(&case);
        for call in &case.calls {
            match *call {
                Call::Start { .. } | Call::Set { .. } => {
                    standing.make(call);
                }
                Call::Why { .. } => {}
                Call::Run { allowance } => {
                    let stop = standing.run(allowance.min(most), |_, _, _| {});
                    if stop.answer == chain::ALLOWANCE_USED && allowance > most {
                        return false;
                    }
                }
            }
        }
        rest = &rest[length..];
    }
    true
}

/// The memories as the last result showed them.
struct Shown {
    vif0: ShownUnit,
    vif1: ShownUnit,
    log: Vec<u64>,
}

impl Shown {
    fn new(standing: &Standing) -> Shown {
        Shown {
            vif0: ShownUnit::new(&standing.vif0.data, &standing.vif0.code),
            vif1: ShownUnit::new(&standing.vif1.data, &standing.vif1.code),
            log: standing.log.clone(),
        }
    }

    /// Writes what a run changed, and the sums; the other unit's memories are as they were.
    fn write_changes(&mut self, out: &mut Vec<u8>, now: &Standing) {
        let shown = match now.model() {
            Model::Vif0 => &mut self.vif0,
            Model::Vif1 => &mut self.vif1,
        };
        let lent = now.lent();
        shown.write_changes(out, &lent.data, &lent.code);
        write_changes(out, &mut self.log, &now.log, put_number);
        write_sums(out, now);
    }
}

fn run_case(case: &Case, index: usize, results: &mut Results, counts: &mut Counts) {
    let mut standing = Standing::new(case);
    let mut shown = Shown::new(&standing);
    let main = standing.main.clone();
    // The runs since the last start that was accepted.
    let mut history: Option<History> = None;
    counts.note_case(case);
    for (i, call) in case.calls.iter().enumerate() {
        results.starts.push(Start {
            offset: results.bytes.len(),
            case: index,
            call: i,
        });
        let out = &mut results.bytes;
        match *call {
            Call::Start { channel, tadr, tte } => {
                let before = standing.block();
                let answer = standing.start(channel, tadr, tte);
                if answer == 0 {
                    history = Some(History::default());
                }
                counts.note_start(&before, (channel, tadr, tte), answer, &standing);
                put_word(out, answer);
                put_block(out, &standing);
            }
            Call::Set {
                unit,
                number,
                value,
            } => {
                let before = standing.block();
                let answer = standing.set(unit, number, value);
                counts.note_set(&before, (unit, number, value), answer, &standing);
                put_word(out, answer);
                put_block(out, &standing);
            }
            Call::Why { ignored } => {
                let why = standing.why();
                counts.note_why(&why, ignored, &standing);
                put_why(out, &why);
                results.check_why(&standing, &why);
            }
            Call::Run { allowance } => {
                let history = history.as_mut();
                let (stop, wrong) = run_traced(&mut standing, allowance, &main, history, counts);
                put_word(out, stop.answer);
                stop.counts.write(out);
                put_block(out, &standing);
                if case.whole {
                    write_memories(out, &standing);
                } else {
                    shown.write_changes(out, &standing);
                }
                results.keep(wrong);
            }
        }
    }
}

/// Runs the chain; each step is noted and traced. With it what is wrong with the counts, or with the
/// runs since the last start that was accepted.
fn run_traced(
    standing: &mut Standing,
    allowance: u64,
    main: &[u8],
    history: Option<&mut History>,
    counts: &mut Counts,
) -> (Stop, Option<String>) {
    let before = standing.block();
    counts.begin_run(standing);
    let log_length = standing.log.len();
    let mut trace = Trace::default();
    let watch = |old: &State, new: &State, tried: Result<Step, u32>| {
        if let Ok(step) = tried {
            trace.add(old, main, step.closed());
        }
        counts.note_step(old, new, tried, log_length);
    };
    let stop = standing.run(allowance, watch);
    counts.note_run(&before, allowance, &stop, standing);
    let mut wrong = history::wrong_counts(&trace, &stop);
    if let Some(history) = history {
        let last = history.last;
        wrong = history.add(&trace, &stop, standing).or(wrong);
        counts.note_history(history, last, &stop, standing);
    }
    (stop, wrong)
}

fn put_why(out: &mut Vec<u8>, why: &Why) {
    let [refusal, address, first, second] = why.numbers();
    put_word(out, why.kind());
    put_word(out, refusal as u32);
    put_word(out, address as u32);
    put_number(out, first);
    put_number(out, second);
}

fn put_block(out: &mut Vec<u8>, standing: &Standing) {
    for w in standing.block() {
        put_word(out, w);
    }
}

fn write_memories(out: &mut Vec<u8>, standing: &Standing) {
    let lent = standing.lent();
    lent.data.iter().for_each(|&w| put_word(out, w));
    code_words(&lent.code)
        .iter()
        .for_each(|&w| put_word(out, w));
    standing.log.iter().for_each(|&x| put_number(out, x));
}

fn write_sums(out: &mut Vec<u8>, standing: &Standing) {
    let lent = standing.lent();
    let all = [
        sums(lent.data.iter().map(|&w| w as u64)),
        sums(lent.code.iter().map(|&byte| byte as u64)),
        sums(standing.log.iter().copied()),
    ];
    for (a, b) in all {
        put_number(out, a);
        put_number(out, b);
    }
}

/// The sum of the numbers, and the sum of the sums on the way.
fn sums(numbers: impl Iterator<Item = u64>) -> (u64, u64) {
    numbers.fold((0, 0), |(a, b), x| {
        let a = x.wrapping_add(a);
        (a, a.wrapping_add(b))
    })
}

/// The result of a call that starts at the head of the bytes, in words to read.
pub fn describe_result(bytes: &[u8], call: &Call, case: &Case) -> String {
    let have = bytes.len() / WORD;
    let (head, all) = match call {
        Call::Start { .. } | Call::Set { .. } => (1, 1 + STATE_WORDS),
        Call::Run { .. } => (RUN_HEAD, RUN_HEAD + STATE_WORDS),
        Call::Why { .. } => (WHY_WORDS, WHY_WORDS),
    };
    if have < all {
        let end = bytes.len().min(80);
        let text = String::from_utf8_lossy(&bytes[..end]);
        return format!("cut after {} bytes: {}", bytes.len(), text.escape_debug());
    }
    if let Call::Why { .. } = call {
        return describe_why(bytes);
    }
    let mut text = format!("answer {}", word(bytes, 0));
    if head == RUN_HEAD {
        let counts = RunCounts::read(bytes, 1);
        text.push_str(&format!(", {}", run_counts::describe(&counts)));
    }
    let block = std::array::from_fn(|i| word(bytes, head + i));
    text.push_str(&format!("\n    {}", describe_state(&block)));
    if head == RUN_HEAD && !case.whole {
        let (changes, sums_at) = describe_changes(bytes, head + STATE_WORDS);
        text.push_str(&changes);
        for (i, name) in ["data", "code", "log"].iter().enumerate() {
            let Some(at) = sums_at.map(|at| at + 4 * i).filter(|at| have >= at + 4) else {
                break;
            };
            text.push_str(&format!(
                "\n    {name} sums {:016X} {:016X}",
                number(bytes, at),
                number(bytes, at + 2)
            ));
        }
    }
    text
}

/// The seven words of a why.
fn describe_why(bytes: &[u8]) -> String {
    format!(
        "kind {}, refusal {}, address {:X}, first number {:X}, second {:X}",
        word(bytes, 0),
        word(bytes, 1),
        word(bytes, 2),
        number(bytes, 3),
        number(bytes, 5)
    )
}

/// The head of a case, its calls up to `last`, and the last steps of that call.
pub fn describe_case(case: &Case, last: usize) -> String {
    let mut text = format!(
        "    M {}, P {}, D {}, C {}, D0 {}, C0 {}, L {}, fill {:016X}, mode {}, {} calls\n    {}",
        case.main_length,
        case.main.len(),
        case.data_length,
        case.code_length,
        case.vif0_data_length,
        case.vif0_code_length,
        case.log_length,
        case.fill,
        case.whole as u32,
        case.calls.len(),
        describe_state(&case.state),
    );
    let mut standing = Standing::new(case);
    for (i, call) in case.calls[..=last].iter().enumerate() {
        let mut steps: Vec<String> = Vec::new();
        let answer = match *call {
            Call::Start { .. } | Call::Set { .. } => standing.make(call).to_string(),
            Call::Why { .. } => format!("{:X?}", standing.why()),
            Call::Run { allowance } => {
                let watch = |old: &State, _: &State, tried| {
                    if i == last {
                        steps.push(format!("\n      {:X?}: {tried:X?}", old.next()));
                    }
                };
                let stop = standing.run(allowance, watch);
                format!("{}, {}", stop.answer, run_counts::describe(&stop.counts))
            }
        };
        if i + 12 > last {
            text.push_str(&format!("\n    call {i}, {call:X?}: {answer}"));
        }
        let shown = steps.len().saturating_sub(12);
        steps[shown..].iter().for_each(|step| text.push_str(step));
    }
    text
}

#[cfg(test)]
mod tests {
    use super::*;
    use crate::capture_generate::{plain_case, tag};

    /// Starts and runs on the channels 0, 1, 2 and 0 again. Both units get the same words: S-32 at
    /// quadword 255, ITOP 9 and MSCAL 5.
    fn in_turn() -> Case {
        let codes = [
            [0x0100_0101, 0x6002_00FF, 0x11, 0x22],
            [0x0400_0009, 0x1400_0005, 0, 0],
        ];
        let packet = [[0x8001, 0x1000_0000, 0xE, 0], [7, 8, 0x42, 0]];
        let main = [&[tag(7, 2, 0)][..], &codes, &[tag(7, 2, 0)], &packet].concat();
        let turn = |(channel, tadr)| {
            let tte = 0;
            [
                Call::Start { channel, tadr, tte },
                Call::Run { allowance: 100 },
            ]
        };
        let calls = [(0, 0), (1, 0), (2, 48), (0, 0)].map(turn).concat();
        plain_case(&State::reset(), &main.concat(), 4, &calls)
    }

    #[test]
    fn three_channels_in_turn() {
        let case = in_turn();
        let mut standing = Standing::new(&case);
        let mut runs = Vec::new();
        for call in &case.calls {
            match *call {
                Call::Start { channel, tadr, tte } => {
                    assert_eq!(standing.start(channel, tadr, tte), 0);
                }
                Call::Run { allowance } => {
                    let stop = standing.run(allowance, |_, _, _| {});
                    runs.push((stop.answer, stop.counts.steps, stop.counts.packets));
                }
                Call::Set { .. } | Call::Why { .. } => panic!("another call among the turns"),
            }
        }
        assert_eq!(runs, [(0, 9, 0), (0, 9, 0), (0, 3, 1), (0, 9, 0)]);
        let log = [
            [0, 256, 5],
            [0, 256, 5],
            [3, 0x42, 7 | 8 << 32],
            [0, 256, 5],
        ];
        assert_eq!(standing.log, log.concat());
        let quadword = |model: Model, at: usize| {
            let data = &standing.memories(model).data;
            [data[4 * at], data[4 * at + 3]]
        };
        assert_eq!(quadword(Model::Vif0, 255), [0x11; 2]);
        assert_eq!(quadword(Model::Vif0, 0), [0x22; 2]);
        assert_eq!(quadword(Model::Vif1, 255), [0x11; 2]);
        assert_eq!(quadword(Model::Vif1, 256), [0x22; 2]);
        let state = standing.state.unwrap();
        let registers = [state.vif0.registers, state.vif1.registers];
        assert_eq!(
            registers.map(|of| (of.itop, of.dbf)),
            [(9, false), (9, true)]
        );
    }

    /// The words of docs/FORMATS.md: 3, unit, number, value; the answer and the state block.
    #[test]
    fn a_set_in_a_file() {
        for whole in [false, true] {
            let mut case = plain_case(&State::reset(), &tag(7, 0, 0), 0, &[]);
            case.whole = whole;
            case.state[chain_word::PAYLOAD_AT] = 99;
            let (mut file, mut wanted) = (Vec::new(), Vec::new());
            case.write(&mut file);
            // Two calls, put between the state block and main memory.
            file[9 * WORD] = 2;
            let main = file.split_off(HEADER * WORD);
            for word in [3, 1, 6, 0x8000_0001, 3, 0, 9, 7] {
                put_word(&mut file, word);
            }
            file.extend(main);
            let mut block = case.state;
            block[13 + 19] = 0x8000_0001;
            for answer in [0, 50] {
                put_word(&mut wanted, answer);
                block.iter().for_each(|&word| put_word(&mut wanted, word));
            }
            let given = results(&file, &mut Counts::default());
            assert!(given.bytes == wanted && given.damage.is_none());
            let (read, length) = first_case(&file).unwrap();
            let mut again = Vec::new();
            read.write(&mut again);
            assert!(length == file.len() && again == file);
            file[HEADER * WORD] = 5;
            let damaged = results(&file, &mut Counts::default());
            assert_eq!(damaged.bytes, b"damaged case 0\n");
        }
    }

    /// The words of docs/FORMATS.md: 4 and three that are ignored; seven words, no state block.
    /// Words that mean nothing stay.
    #[test]
    fn a_why_in_a_file() {
        for whole in [false, true] {
            // refe with QWC 9 and ADDR 32, of which 16 bytes are there.
            let main = [tag(0, 9, 32), [0; 4], [0; 4]].concat();
            let mut case = plain_case(&State::reset(), &main, 0, &[]);
            case.whole = whole;
            case.state[chain_word::PAYLOAD_AT] = 99;
            let (mut file, mut wanted) = (Vec::new(), Vec::new());
            case.write(&mut file);
            file[9 * WORD] = 2;
            let main = file.split_off(HEADER * WORD);
            for word in [4, 7, u32::MAX, 1, 3, 1, 0, 5] {
                put_word(&mut file, word);
            }
            file.extend(main);
            [3, 14, 0, 9, 0, 1, 0, 0]
                .iter()
                .for_each(|&word| put_word(&mut wanted, word));
            let mut block = case.state;
            block[13 + 13] = 5;
            block.iter().for_each(|&word| put_word(&mut wanted, word));
            let given = results(&file, &mut Counts::default());
            assert!(given.bytes == wanted);
            assert_eq!((given.damage, given.broken), (None, None));
            let mut again = Vec::new();
            first_case(&file).unwrap().0.write(&mut again);
            assert!(again == file);
        }
    }

    /// Word 0 of a block that exists in no state says whose lengths are tested.
    #[test]
    fn lengths_where_there_is_no_state() {
        for (channel, vif0_length, answer) in [
            (0, 1_024, 5),
            (0, 1_023, 2),
            (1, 1_023, 5),
            (2, 1_023, 5),
            (7, 1_023, 5),
        ] {
            let mut case = plain_case(&State::reset(), &tag(7, 0, 0), 0, &[]);
            case.vif0_data_length = vif0_length;
            case.state[chain_word::ENDED] = 2;
            case.state[chain_word::CHANNEL] = channel;
            let given = Standing::new(&case).run(1, |_, _, _| {});
            assert_eq!(given, Stop::at_entry(answer));
            case.data_length = 1_024;
            let given = Standing::new(&case).run(1, |_, _, _| {});
            let answer = if channel == 0 { answer } else { 2 };
            assert_eq!(given, Stop::at_entry(answer));
        }
    }

    /// The fills of docs/FORMATS.md.
    #[test]
    fn fills_of_both_units() {
        let mut case = plain_case(&State::reset(), &tag(7, 0, 0), 1, &[]);
        case.fill = 0x1122_3344_5566_7788;
        let standing = Standing::new(&case);
        let step = 0x9E37_79B9_7F4A_7C15_u64;
        let number = |add: u64, i: u64| {
            let from = 0x1122_3344_5566_7788 + add;
            step.wrapping_mul(i).wrapping_add(from)
        };
        for (model, add) in [(Model::Vif0, 5), (Model::Vif1, 0)] {
            let memories = standing.memories(model);
            assert_eq!(memories.data[9], number(add, 9) as u32);
            assert_eq!(memories.code[9], number(add + 1, 9) as u8);
        }
        assert_eq!(standing.log[1], number(2, 1));
    }
}
