//! Sheet case files and their results.

use crate::case_results::Results;
use crate::chain::{self, State};
use crate::compare;
use crate::filled::{self, UnitMemories};
use crate::gif_cases::fill_number;
use crate::log;
use crate::memory::cases::{MOST_CODE, MOST_DATA, MOST_LOG, MOST_MAIN};
use crate::model::Model;
use crate::refusals;
use crate::run_counts::{self, RunCounts};
use crate::sheet::{self, Refusal};
use crate::sheet_check::broken;
use crate::sheet_counts::Counts;
use crate::state_block::{self, describe_state, read_state, write_state, StateBlock, STATE_WORDS};
use crate::vif;
use crate::words::{number, put_number, put_word, word, WORD};

pub const MARK: u32 = 0x3348_5354;
pub const MOST_SHEET: u32 = 131_088;
pub const MOST_OUTPUT: u32 = 1_048_608;
/// The word of a case at which the state block starts.
const STATE_AT: usize = 12;
/// The words of a case before its sheet.
pub const HEADER: usize = STATE_AT + STATE_WORDS;

#[derive(Clone)]
pub struct Case {
    pub sheet: Vec<u8>,
    pub output_length: u32,
    pub main_length: u32,
    /// Where in main memory the chain is built.
    pub address: u32,
    pub data_length: u32,
    pub code_length: u32,
    pub log_length: u32,
    pub fill: u64,
    pub allowance: u64,
    pub state: StateBlock,
}

impl Case {
    pub fn write(&self, out: &mut Vec<u8>) {
        put_word(out, MARK);
        put_word(out, self.sheet.len() as u32);
        put_word(out, self.output_length);
        put_word(out, self.main_length);
        put_word(out, self.address);
        put_word(out, self.data_length);
        put_word(out, self.code_length);
        put_word(out, self.log_length);
        put_number(out, self.fill);
        put_number(out, self.allowance);
        for &w in &self.state {
            put_word(out, w);
        }
        put_bytes(out, &self.sheet);
    }

    /// Entries used, also where the block exists in no state.
    pub fn used(&self) -> u64 {
        state_block::used(&self.state)
    }

    /// Bytes from the fill, of the output with 3 and of main memory with 4.
    fn filled_bytes(&self, add: u64, length: u32) -> Vec<u8> {
        let from = self.fill.wrapping_add(add);
        (0..length as u64)
            .map(|i| fill_number(from, i) as u8)
            .collect()
    }

    pub fn output(&self) -> Vec<u8> {
        self.filled_bytes(3, self.output_length)
    }

    pub fn main(&self) -> Vec<u8> {
        self.filled_bytes(4, self.main_length)
    }
}

/// Bytes as words, the last one filled up with zero bytes.
pub fn put_bytes(out: &mut Vec<u8>, bytes: &[u8]) {
    out.extend_from_slice(bytes);
    out.resize(out.len().next_multiple_of(WORD), 0);
}

/// VIF1's data memory and code memory, and the log.
#[derive(Clone, PartialEq, Eq)]
pub struct Filled {
    pub data: Vec<u32>,
    pub code: Vec<u8>,
    pub log: Vec<u64>,
}

impl Filled {
    pub fn new(case: &Case) -> Filled {
        Filled::of(
            case.fill,
            case.data_length,
            case.code_length,
            case.log_length,
        )
    }

    /// By their lengths, as a case gives them.
    pub fn of(fill: u64, data: u32, code: u32, log: u32) -> Filled {
        let memories = UnitMemories::new(fill, data, code);
        Filled {
            data: memories.data,
            code: memories.code,
            log: filled::log(fill, log),
        }
    }

    /// Lent to a run, beside a main memory.
    pub fn lend<'a>(&'a mut self, main: &'a [u8]) -> chain::Memories<'a> {
        chain::Memories {
            main,
            data: &mut self.data,
            code: &mut self.code,
            log: &mut self.log,
        }
    }

    /// Tests for the refusals 2, 3 and 4.
    pub fn check(&self, used: u64) -> Result<(), u32> {
        let (data, code, log) = (self.data.len(), self.code.len(), self.log.len());
        vif::check_lengths(Model::Vif1, data, code, log, used)
    }

    pub fn write(&self, out: &mut Vec<u8>) {
        self.data.iter().for_each(|&w| put_word(out, w));
        put_bytes(out, &self.code);
        self.log.iter().for_each(|&x| put_number(out, x));
    }
}

/// Part 1: the builder.
pub struct Built {
    pub answer: Result<usize, Refusal>,
    pub exported: usize,
    pub output: Vec<u8>,
}

/// Part 3: the meaning.
pub struct Meant {
    pub answer: Result<(), Refusal>,
    pub used: u64,
    pub memories: Filled,
}

/// Part 4: build and run.
pub struct Ran {
    /// Refused before the run, or the run's answer.
    pub answer: Result<u32, Refusal>,
    pub counts: RunCounts,
    pub state: StateBlock,
    pub memories: Filled,
    pub main: Vec<u8>,
}

pub struct Outcome {
    pub built: Built,
    pub steps: Result<u64, Refusal>,
    pub meant: Meant,
    pub ran: Ran,
}

impl Outcome {
    pub fn new(case: &Case) -> Outcome {
        Outcome {
            built: build(case),
            steps: sheet::steps(&case.sheet),
            meant: mean(case),
            ran: build_and_run(case),
        }
    }

    /// Writes the four parts.
    pub fn write(&self, out: &mut Vec<u8>) {
        put_answer(out, self.built.answer.map(|length| (0, length)));
        put_word(out, self.built.exported as u32);
        put_bytes(out, &self.built.output);

        put_answer(out, self.steps.map(|_| (0, 0)));
        put_number(out, self.steps.unwrap_or(0));

        put_answer(out, self.meant.answer.map(|()| (0, 0)));
        put_number(out, self.meant.used);
        self.meant.memories.write(out);

        put_answer(out, self.ran.answer.map(|answer| (answer, 0)));
        self.ran.counts.write(out);
        self.ran.state.iter().for_each(|&w| put_word(out, w));
        self.ran.memories.write(out);
        put_bytes(out, &self.ran.main);
    }
}

/// The two words at the head of a part: those given, or a refusal and its offset.
fn put_answer(out: &mut Vec<u8>, answer: Result<(u32, usize), Refusal>) {
    let (number, with) = answer.unwrap_or_else(|refusal| refusal);
    put_word(out, number);
    put_word(out, with as u32);
}

fn build(case: &Case) -> Built {
    let mut output = case.output();
    let exported = sheet::exported_number(&case.sheet, &mut output.clone());
    Built {
        answer: sheet::build(&case.sheet, &mut output),
        exported,
        output,
    }
}

fn mean(case: &Case) -> Meant {
    let mut memories = Filled::new(case);
    let after = mean_on(&case.sheet, &mut memories, case.used());
    Meant {
        answer: after.map(|_| ()),
        used: after.unwrap_or(case.used()),
        memories,
    }
}

/// Hands back the entries used afterwards. A refusal changes nothing.
fn mean_on(sheet: &[u8], memories: &mut Filled, used: u64) -> Result<u64, Refusal> {
    memories.check(used).map_err(|refusal| (refusal, 0))?;
    let mut after = memories.clone();
    let mut entries = Vec::new();
    sheet::meaning(sheet, &mut after.data, &mut after.code, &mut entries)?;
    let mut used = used;
    log::append_all(&mut after.log, &mut used, &entries).map_err(|refusal| (refusal, 0))?;
    *memories = after;
    Ok(used)
}

fn build_and_run(case: &Case) -> Ran {
    let mut ran = Ran {
        answer: Ok(chain::DONE),
        counts: RunCounts::default(),
        state: read_state(&case.state).map_or(case.state, |state| write_state(&state)),
        memories: Filled::new(case),
        main: case.main(),
    };
    match start(case, &mut ran) {
        Err(refusal) => ran.answer = Err(refusal),
        Ok(mut state) => {
            let mut memories = ran.memories.lend(&ran.main);
            let stop = chain::run(&mut state, &mut memories, case.allowance, |_, _, _| {});
            ran.answer = Ok(stop.answer);
            ran.counts = stop.counts;
            ran.state = write_state(&state);
        }
    }
    ran
}

/// Builds the chain in main memory and starts it. A refusal changes nothing.
fn start(case: &Case, ran: &mut Ran) -> Result<State, Refusal> {
    let memories = ran.memories.lend(&ran.main);
    chain::check_lengths(Model::Vif1, &memories, case.used()).map_err(|refusal| (refusal, 0))?;
    let mut state = read_state(&case.state).ok_or((refusals::RANGE, 0))?;
    chain::start(&mut state, 1, case.address, false).map_err(|refusal| (refusal, 0))?;
    let room = ran.main.get_mut(case.address as usize..);
    sheet::build(&case.sheet, room.unwrap_or_default())?;
    Ok(state)
}

/// The first case of the bytes and its length; none where it is damaged.
pub fn first_case(bytes: &[u8]) -> Option<(Case, usize)> {
    if bytes.len() < HEADER * WORD {
        return None;
    }
    let head = |at: usize| word(bytes, at);
    let limits = [
        (1, MOST_SHEET),
        (2, MOST_OUTPUT),
        (3, MOST_MAIN),
        (5, MOST_DATA),
        (6, MOST_CODE),
        (7, MOST_LOG),
    ];
    if head(0) != MARK || limits.iter().any(|&(at, most)| head(at) > most) {
        return None;
    }
    let length = head(1) as usize;
    let rest = &bytes[HEADER * WORD..];
    let filled = length.next_multiple_of(WORD);
    if rest.len() < filled {
        return None;
    }
    let case = Case {
        sheet: rest[..length].to_vec(),
        output_length: head(2),
        main_length: head(3),
        address: head(4),
        data_length: head(5),
        code_length: head(6),
        log_length: head(7),
        fill: number(bytes, 8),
        allowance: number(bytes, 10),
        state: std::array::from_fn(|i| head(STATE_AT + i)),
    };
    Some((case, HEADER * WORD + filled))
}

/// The results of a case file.
pub fn results(file: &[u8], counts: &mut Counts) -> Results {
    let mut checked = None;
    let mut results = Results::of(file, first_case, |index, case, out| {
        let outcome = Outcome::new(&case);
        outcome.write(out);
        if checked.is_none() {
            checked = broken(&case, &outcome).map(|told| (index, told));
        }
        counts.note(&case, &outcome);
    });
    results.broken = checked;
    results
}

/// Where each case of a file starts, a damaged last one too.
pub fn case_starts(file: &[u8]) -> Vec<usize> {
    compare::case_starts(file, |bytes| Some(first_case(bytes)?.1))
}

/// The pieces of a result with their words, by part.
pub fn layout(case: &Case) -> [Vec<(&'static str, usize)>; 4] {
    let words = |bytes: u32| bytes.div_ceil(4) as usize;
    let memories = [
        ("data memory", case.data_length as usize),
        ("code memory", words(case.code_length)),
        ("log", 2 * case.log_length as usize),
    ];
    let head = [("answer", 1), ("offset", 1)];
    let with = |pieces: &[(&'static str, usize)]| [&head[..], pieces].concat();
    let meaning = [&[("entries used", 2)][..], &memories].concat();
    let run = [("counts", run_counts::WORDS), ("state block", STATE_WORDS)];
    let run = [&run[..], &memories].concat();
    let main = [("main memory", words(case.main_length))];
    [
        vec![
            ("answer", 1),
            ("length or offset", 1),
            ("exported number", 1),
            ("output", words(case.output_length)),
        ],
        with(&[("steps", 2)]),
        with(&meaning),
        with(&[&run[..], &main].concat()),
    ]
}

const PARTS: [&str; 4] = ["the builder", "the steps", "the meaning", "build and run"];

/// Names a word of a case's result: part, word of the part, and what it is.
pub fn describe_place(case: &Case, mut at: usize) -> String {
    for (i, pieces) in layout(case).iter().enumerate() {
        let mut in_part = at;
        for &(name, words) in pieces {
            if in_part < words {
                let part = format!("part {} ({})", i + 1, PARTS[i]);
                return format!("{part}, word {at} of the part, {name} word {in_part}");
            }
            in_part -= words;
        }
        at = in_part;
    }
    "after the last part".to_string()
}

/// A case and our own answers, in words to read.
pub fn describe_case(case: &Case) -> String {
    let outcome = Outcome::new(case);
    let shown = &case.sheet[..case.sheet.len().min(96)];
    format!(
        "    S {}, O {}, M {}, address {:X}, D {}, C {}, L {}, fill {:016X}, allowance {}\n    {}\n    \
         our answers: {:?} (exported {}); {:?}; {:?}; {:?} after {}\n    \
         sheet: {shown:02X?}{}",
        case.sheet.len(),
        case.output_length,
        case.main_length,
        case.address,
        case.data_length,
        case.code_length,
        case.log_length,
        case.fill,
        case.allowance,
        describe_state(&case.state),
        outcome.built.answer,
        outcome.built.exported,
        outcome.steps,
        outcome.meant.answer,
        outcome.ran.answer,
        run_counts::describe(&outcome.ran.counts),
        if shown.len() < case.sheet.len() { " .." } else { "" },
    )
}

#[cfg(test)]
mod tests {
    use super::*;
    use crate::sheet::{record_bytes, CODE_BYTES, DATA_WORDS};
    use crate::state_block::{chain_word, put_part, set_used, unit_word, STMASK, VIF0, VIF1};

    /// A start record at address 32 of 128 bytes, from the reset state.
    fn case() -> Case {
        Case {
            sheet: record_bytes(4, 0, 5, &[]),
            output_length: 50,
            main_length: 128,
            address: 32,
            data_length: DATA_WORDS as u32,
            code_length: CODE_BYTES as u32,
            log_length: log::length(1),
            fill: 0x1122_3344_5566_7788,
            allowance: 6,
            state: write_state(&State::reset()),
        }
    }

    fn answers(case: &Case) -> [(u32, usize); 4] {
        let outcome = Outcome::new(case);
        let answers = [
            outcome.built.answer.map(|length| (0, length)),
            outcome.steps.map(|_| (0, 0)),
            outcome.meant.answer.map(|()| (0, 0)),
            outcome.ran.answer.map(|answer| (answer, 0)),
        ];
        answers.map(|answer| answer.unwrap_or_else(|refusal| refusal))
    }

    /// The results of a file that has one case.
    fn own(case: &Case) -> Vec<u8> {
        let mut file = Vec::new();
        case.write(&mut file);
        results(&file, &mut Counts::default()).bytes
    }

    fn changed(change: impl Fn(&mut Case)) -> Case {
        let mut case = case();
        change(&mut case);
        case
    }

    #[test]
    fn words_of_a_result() {
        let given = own(&case());
        let words: usize = layout(&case()).iter().flatten().map(|piece| piece.1).sum();
        assert_eq!(given.len(), WORD * words);
        // 48 bytes of chain, two bytes of fill, two of filling up.
        assert_eq!(
            [word(&given, 0), word(&given, 1), word(&given, 2)],
            [0, 48, 48]
        );
        assert_eq!(word(&given, 3), 0x1000_0001);
        let fill = |add: u64, i: u64| {
            let step = 0x9E37_79B9_7F4A_7C15_u64.wrapping_mul(i);
            (0x1122_3344_5566_7788_u64 + add).wrapping_add(step)
        };
        let left = fill(3, 48) as u8 as u32 | (fill(3, 49) as u8 as u32) << 8;
        assert_eq!(word(&given, 15), left);
        // The steps, then the meaning.
        assert_eq!([16, 17, 18, 19].map(|at| word(&given, at)), [0, 0, 6, 0]);
        assert_eq!([20, 21, 22, 23].map(|at| word(&given, at)), [0, 0, 1, 0]);
        assert_eq!(word(&given, 24), fill(0, 0) as u32);
        let code = 24 + DATA_WORDS;
        assert_eq!(given[WORD * code], fill(1, 0) as u8);
        let log_at = code + CODE_BYTES / WORD;
        let logged = [0, 2, 4].map(|at| number(&given, log_at + at));
        assert_eq!(logged, [0, 256, 5]);
        // Build and run: answer, offset; steps, packets, VIF words, NOPs, QWC of refe and cnt.
        let run = log_at + 2 * log::ENTRY;
        let head: Vec<u32> = (run..run + 14).map(|at| word(&given, at)).collect();
        assert_eq!(head, [0, 0, 6, 0, 0, 0, 4, 0, 3, 0, 0, 0, 1, 0]);
        // QWC of the other IDs; channel, TADR, TTE, ended.
        let rest: Vec<u32> = (run + 14..run + 30).map(|at| word(&given, at)).collect();
        assert_eq!(rest, [vec![0; 12], vec![1, 64, 0, 1]].concat());
        let main = words - 32;
        assert_eq!(given[WORD * main], fill(4, 0) as u8);
        assert_eq!(word(&given, main + 8), 0x1000_0001);
    }

    #[test]
    fn refusals_in_order() {
        let mut case = case();
        case.sheet.push(0x9E);
        case.state[chain_word::CHANNEL] = 3;
        set_used(&mut case.state, 2);
        case.data_length = 0;
        case.code_length = 0;
        case.main_length = 8;
        assert_eq!(answers(&case), [(44, 6), (44, 6), (2, 0), (1, 0)]);
        case.main_length = 64;
        assert_eq!(answers(&case)[3], (2, 0));
        case.data_length = DATA_WORDS as u32;
        assert_eq!(answers(&case)[2..], [(3, 0), (3, 0)]);
        case.code_length = CODE_BYTES as u32;
        assert_eq!(answers(&case)[2..], [(4, 0), (4, 0)]);
        set_used(&mut case.state, 1);
        assert_eq!(answers(&case)[2..], [(44, 6), (5, 0)]);
        case.state[chain_word::CHANNEL] = 2;
        assert_eq!(answers(&case)[3], (44, 6));
        case.sheet.pop();
        // No room in the log, and none from address 32 on.
        assert_eq!(answers(&case), [(0, 48), (0, 0), (31, 0), (47, 0)]);
        case.address = 16;
        assert_eq!(answers(&case)[3], (31, 0));
        case.log_length = log::length(2);
        assert_eq!(answers(&case)[2..], [(0, 0), (0, 0)]);
    }

    /// Sheets go by VIF1's sizes and to VIF1, also where the state was saved on channel 0.
    #[test]
    fn states_on_channel_0() {
        let mut case = changed(|case| {
            case.state[chain_word::CHANNEL] = 0;
            case.state[VIF0 + unit_word::MARK] = 77;
            case.state[VIF0 + unit_word::WAITING] = STMASK;
            case.state[VIF0 + unit_word::DUE] = 1;
        });
        assert_eq!(answers(&case), [(0, 48), (0, 0), (0, 0), (0, 0)]);
        let ran = Outcome::new(&case).ran;
        assert_eq!((ran.counts.steps, ran.state[chain_word::CHANNEL]), (6, 1));
        assert_eq!(ran.state[VIF0..], case.state[VIF0..]);
        assert_eq!(ran.state[VIF1 + unit_word::DBF], 1);
        case.code_length = 4_096;
        assert_eq!(answers(&case)[2..], [(3, 0), (3, 0)]);
        case.data_length = 1_024;
        assert_eq!(answers(&case)[2..], [(2, 0), (2, 0)]);
        case.state[chain_word::ENDED] = 2;
        assert_eq!(answers(&case)[2..], [(2, 0), (2, 0)]);
        let wrong = changed(|case| case.state[VIF0 + unit_word::TOPS] = 1);
        assert_eq!(answers(&wrong)[2..], [(0, 0), (5, 0)]);
    }

    #[test]
    fn addresses() {
        for (address, answer) in [
            (0, 0),
            (80, 0),
            (96, 47),
            (128, 47),
            (144, 47),
            (0x7FFF_FFF0, 47),
            (0x8000_0000, 5),
            (8, 5),
        ] {
            let case = changed(|case| case.address = address);
            assert_eq!(answers(&case)[3].0, answer, "{address:X}");
            assert_eq!(Outcome::new(&case).ran.main == case.main(), answer != 0);
        }
    }

    #[test]
    fn refused_runs_keep_steps_and_memories() {
        let cut = Outcome::new(&changed(|case| case.allowance = 5));
        assert_eq!((cut.ran.answer, cut.ran.counts.steps), (Ok(90), 5));
        let full = Outcome::new(&changed(|case| case.log_length = 0));
        assert_eq!(full.meant.answer, Err((31, 0)));
        assert_eq!((full.ran.answer, full.ran.counts.steps), (Ok(31), 4));
        let pending = [chain_word::PAYLOAD_WORDS, chain_word::PAYLOAD_AT];
        assert_eq!(pending.map(|at| full.ran.state[at]), [1, 60]);
    }

    #[test]
    fn blocks_as_they_are_written() {
        let (ended, junk) = (chain_word::ENDED, chain_word::TAG_WORD_AT);
        // In no state: as given. Words that mean nothing: zero.
        let none = Outcome::new(&changed(|case| {
            (case.state[ended], case.state[junk]) = (2, 9);
        }));
        assert_eq!(none.ran.answer, Err((5, 0)));
        assert_eq!((none.ran.state[ended], none.ran.state[junk]), (2, 9));
        for due in [0, 2, u32::MAX] {
            let stmask = changed(|case| {
                let at = VIF1 + unit_word::WAITING;
                put_part(&mut case.state, at, &[STMASK, 0, due, 7]);
            });
            let none = Outcome::new(&stmask);
            assert_eq!(none.ran.answer, Err((5, 0)));
            assert_eq!(none.ran.state, stmask.state);
        }
        let refused = Outcome::new(&changed(|case| {
            (case.address, case.state[junk]) = (8, 9);
        }));
        assert_eq!(refused.ran.answer, Err((5, 0)));
        assert_eq!(refused.ran.state[junk], 0);
        let used = changed(|case| {
            case.state[ended] = 2;
            set_used(&mut case.state, 1 << 63);
        });
        assert_eq!(answers(&used)[2..], [(4, 0), (4, 0)]);
        assert_eq!(Outcome::new(&used).meant.used, 1 << 63);
    }

    #[test]
    fn damaged_cases() {
        let mut whole = Vec::new();
        case().write(&mut whole);
        let file = [&whole[..], &whole].concat();
        let results_of = |file: &[u8]| results(file, &mut Counts::default());
        let own = own(&case());
        for cut in [1, 4, HEADER * WORD, whole.len() - 1] {
            let given = results_of(&file[..whole.len() + cut]);
            assert_eq!(given.damage, Some(own.len()));
            assert_eq!(given.bytes, [&own[..], b"damaged case 1\n"].concat());
        }
        assert_eq!(results_of(&file).bytes, [&own[..], &own].concat());
        assert_eq!(results_of(&[]).bytes, []);
        for (at, most) in [
            (1, 131_088),
            (2, 1_048_608),
            (3, 1_048_608),
            (5, 4_100),
            (6, 16_392),
            (7, MOST_LOG),
        ] {
            let mut file = whole.clone();
            file.resize(HEADER * WORD + 131_092, 0);
            for (value, fits) in [(most, true), (most + 1, false)] {
                file[WORD * at..WORD * at + WORD].copy_from_slice(&u32::to_le_bytes(value));
                assert_eq!(first_case(&file).is_some(), fits, "word {at}");
            }
        }
    }

    #[test]
    fn filling_is_ignored() {
        let mut file = Vec::new();
        case().write(&mut file);
        let last = file.len() - 1;
        file[last] = 0x9E;
        let given = results(&file, &mut Counts::default());
        assert_eq!(given.bytes, own(&case()));
    }

    #[test]
    fn places_by_name() {
        let case = case();
        assert_eq!(
            describe_place(&case, 4),
            "part 1 (the builder), word 4 of the part, output word 1"
        );
        assert_eq!(
            describe_place(&case, 19),
            "part 2 (the steps), word 3 of the part, steps word 1"
        );
        assert!(describe_place(&case, 1 << 20).starts_with("after"));
        assert!(describe_case(&case).contains("Ok(48)"));
    }
}
