//! Checking a supplier's chain against a sheet: does a run of it leave what the sheet means?

use crate::chain::{self, Memories, State, Stop};
use crate::log::{self, Entry};
use crate::model::Model;
use crate::run_counts::RunCounts;
use crate::sheet::{self, Refusal};

/// The bytes of an instruction, and the words of a quadword.
pub const INSTRUCTION: usize = 8;
pub const FIELDS: usize = 4;

/// Accepted, refused, or the first difference.
#[derive(Clone, Copy, PartialEq, Eq, Debug)]
pub enum Verdict {
    Accepted,
    /// At entry, or the sheet.
    Refused(Refusal),
    /// The run's answer is not 0.
    Answer(u32),
    /// The lowest quadword that differs.
    Quadword(usize),
    /// The lowest instruction that differs.
    Instruction(usize),
    /// The lowest of the log entries that both have that differs.
    Entry(usize),
    /// The run's number of entries, which is not the sheet's.
    Entries(u64),
}

impl Verdict {
    pub fn kind(self) -> u32 {
        match self {
            Verdict::Accepted => 0,
            Verdict::Refused(_) => 1,
            Verdict::Answer(_) => 2,
            Verdict::Quadword(_) => 3,
            Verdict::Instruction(_) => 4,
            Verdict::Entry(_) => 5,
            Verdict::Entries(_) => 6,
        }
    }

    /// The number that belongs to the kind.
    pub fn number(self) -> u64 {
        match self {
            Verdict::Accepted => 0,
            Verdict::Refused((number, _)) | Verdict::Answer(number) => number as u64,
            Verdict::Quadword(at) | Verdict::Instruction(at) | Verdict::Entry(at) => at as u64,
            Verdict::Entries(used) => used,
        }
    }

    /// The offset of the refused record.
    pub fn offset(self) -> usize {
        match self {
            Verdict::Refused((_, offset)) => offset,
            _ => 0,
        }
    }
}

/// What a check says, and what is told of its run: nothing was run where it is refused.
#[derive(Clone, Copy, PartialEq, Eq, Debug)]
pub struct Checked {
    pub verdict: Verdict,
    /// The entries used by the run.
    pub used: u64,
    pub counts: RunCounts,
}

/// The state that a sheet's meaning makes of the starting memories; the log has no entries at first.
pub struct Meant {
    pub data: Vec<u32>,
    pub code: Vec<u8>,
    pub entries: Vec<Entry>,
}

impl Meant {
    pub fn new(sheet: &[u8], data: &[u32], code: &[u8]) -> Result<Meant, Refusal> {
        let mut meant = Meant {
            data: data.to_vec(),
            code: code.to_vec(),
            entries: Vec::new(),
        };
        sheet::meaning(sheet, &mut meant.data, &mut meant.code, &mut meant.entries)?;
        Ok(meant)
    }
}

/// Checks the chain at address 0 of main memory. Memories and log are left as the run left them; a
/// refusal changes nothing.
pub fn check(sheet: &[u8], memories: &mut Memories, allowance: u64) -> Checked {
    match meaning(sheet, memories) {
        Err(refusal) => Checked {
            verdict: Verdict::Refused(refusal),
            used: 0,
            counts: RunCounts::default(),
        },
        Ok(meant) => {
            let (stop, used) = run(memories, allowance);
            Checked {
                verdict: verdict(&stop, used, memories, &meant),
                used,
                counts: stop.counts,
            }
        }
    }
}

/// Entry refusals first, then the sheet's.
fn meaning(sheet: &[u8], memories: &Memories) -> Result<Meant, Refusal> {
    chain::check_lengths(Model::Vif1, memories, 0).map_err(|refusal| (refusal, 0))?;
    Meant::new(sheet, memories.data, memories.code)
}

/// A run from reset on channel 1 at address 0, tag transfer off; with it the entries used.
pub fn run(memories: &mut Memories, allowance: u64) -> (Stop, u64) {
    let mut state = State::reset();
    let started = chain::start(&mut state, 1, 0, false);
    assert_eq!(started, Ok(()), "the reset state can be started");
    let stop = chain::run(&mut state, memories, allowance, |_, _, _| {});
    (stop, state.used)
}

/// The first difference, in the request's order.
fn verdict(stop: &Stop, used: u64, memories: &Memories, meant: &Meant) -> Verdict {
    if stop.answer != chain::DONE {
        return Verdict::Answer(stop.answer);
    }
    if let Some(at) = differing(memories.data, &meant.data, FIELDS) {
        return Verdict::Quadword(at);
    }
    if let Some(at) = differing(memories.code, &meant.code, INSTRUCTION) {
        return Verdict::Instruction(at);
    }
    let written = memories.log[..log::numbers(used)].chunks(log::ENTRY);
    let pairs = written.zip(&meant.entries);
    if let Some(at) = { pairs }.position(|(numbers, entry)| !is_entry(numbers, entry)) {
        return Verdict::Entry(at);
    }
    if used != meant.entries.len() as u64 {
        return Verdict::Entries(used);
    }
    Verdict::Accepted
}

/// The first group of so many that differs.
fn differing<T: PartialEq>(ours: &[T], meant: &[T], group: usize) -> Option<usize> {
    let mut pairs = ours.chunks(group).zip(meant.chunks(group));
    pairs.position(|(ours, meant)| ours != meant)
}

/// Whether three numbers of a log are an entry's.
fn is_entry(numbers: &[u64], entry: &Entry) -> bool {
    (
        numbers[log::PATH],
        numbers[log::REGISTER],
        numbers[log::VALUE],
    ) == (entry.path, entry.register, entry.value)
}
