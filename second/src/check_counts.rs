//! What check cases reached.

use crate::chain::{self, Memories, State, Step};
use crate::check::{Meant, Verdict, FIELDS, INSTRUCTION};
use crate::check_cases::{Case, Outcome};
use crate::check_sentences::{is_our_own, wrong_lengths};
use crate::compare::named_rows;
use crate::gif::{Format, Place};
use crate::log;
use crate::refusals;
use crate::sheet;
use crate::sheet_tree;
use crate::vif::Payload;
use std::collections::HashMap;

pub const VERDICTS: [&str; 7] = [
    "accepted",
    "refused",
    "the answer",
    "a quadword",
    "an instruction",
    "an entry",
    "the number of entries",
];
/// The answers of a run on channel 1 that is not done.
const ANSWERS: [u32; 15] = [10, 11, 12, 13, 14, 20, 21, 22, 23, 24, 25, 30, 31, 90, 91];
/// What a sheet is refused with.
const SHEET: [u32; 9] = [40, 41, 42, 43, 44, 45, 46, 49, 52];
const WRONG: [&str; 5] = ["1", "2", "3", "4", "the sheet's"];
const TAGS: [&str; 8] = ["refe", "cnt", "next", "ref", "refs", "call", "ret", "end"];
/// UNPACK's formats, by bits 0 to 3 of CMD.
const FORMATS: [(u32, &str); 6] = [
    (0, "S-32"),
    (4, "V2-32"),
    (8, "V3-32"),
    (12, "V4-32"),
    (13, "V4-16"),
    (14, "V4-8"),
];

#[derive(Default)]
pub struct Counts {
    by_name: HashMap<String, u64>,
    cases: u64,
    steps: u64,
}

/// What differs between what a run left and what is meant, in the order of the verdicts.
struct Differences {
    quadwords: Vec<usize>,
    instructions: Vec<usize>,
    entries: Vec<usize>,
    number: bool,
}

impl Differences {
    fn new(outcome: &Outcome, meant: &Meant) -> Differences {
        let memories = &outcome.memories;
        let written = memories.log.chunks(log::ENTRY);
        let written = written.take(outcome.checked.used as usize);
        let entries = written.zip(&meant.entries).enumerate();
        let differ = |numbers: &[u64], entry: &log::Entry| {
            numbers != [entry.path, entry.register, entry.value]
        };
        Differences {
            quadwords: differing(&memories.data, &meant.data, FIELDS),
            instructions: differing(&memories.code, &meant.code, INSTRUCTION),
            entries: entries
                .filter(|(_, (numbers, entry))| differ(numbers, entry))
                .map(|(at, _)| at)
                .collect(),
            number: outcome.checked.used != meant.entries.len() as u64,
        }
    }

    /// The kinds of verdicts that there is a reason for, from 3 on.
    fn kinds(&self) -> Vec<usize> {
        let all = [
            !self.quadwords.is_empty(),
            !self.instructions.is_empty(),
            !self.entries.is_empty(),
            self.number,
        ];
        let kinds = (3..).zip(all).filter(|(_, is)| *is);
        kinds.map(|(kind, _)| kind).collect()
    }
}

fn differing<T: PartialEq>(ours: &[T], meant: &[T], group: usize) -> Vec<usize> {
    let pairs = ours.chunks(group).zip(meant.chunks(group)).enumerate();
    pairs
        .filter(|(_, (ours, meant))| ours != meant)
        .map(|(at, _)| at)
        .collect()
}

impl Counts {
    fn add(&mut self, name: &str) {
        self.add_if(name, true);
    }

    fn add_if(&mut self, name: &str, happened: bool) {
        if happened {
            match self.by_name.get_mut(name) {
                Some(count) => *count += 1,
                None => {
                    self.by_name.insert(name.to_string(), 1);
                }
            }
        }
    }

    /// Notes a case and what it gave.
    pub fn note(&mut self, case: &Case, outcome: &Outcome) {
        self.cases += 1;
        self.steps += outcome.checked.counts.steps;
        let verdict = outcome.checked.verdict;
        self.add(VERDICTS[verdict.kind() as usize]);
        self.note_lengths(case);
        if let Verdict::Refused((refusal, offset)) = verdict {
            self.note_refused(case, refusal, offset);
            return;
        }
        let start = case.memories();
        let meant = Meant::new(&case.sheet, &start.data, &start.code).expect("it was accepted");
        let differences = Differences::new(outcome, &meant);
        self.note_first(verdict, &differences);
        self.note_places(outcome, &meant, &differences);
        self.note_entries(case, outcome, &meant);
        self.note_allowance(case, outcome);
        let own = is_our_own(case);
        self.add_if(
            &format!("our own chain, {}", VERDICTS[verdict.kind() as usize]),
            own,
        );
        if verdict == Verdict::Accepted {
            self.note_accepted(case, outcome, own);
        }
    }

    fn note_lengths(&mut self, case: &Case) {
        let log = case.log_length as usize;
        self.add_if("main memory of 0 bytes", case.main_length == 0);
        self.add_if(
            "main memory of 1,048,576 bytes",
            case.main_length == 1_048_576,
        );
        self.add_if(
            "main memory above 1,048,576 bytes",
            case.main_length > 1_048_576,
        );
        self.add_if("data memory too short", case.data_length < 4_096);
        self.add_if("data memory too long", case.data_length > 4_096);
        self.add_if("code memory too short", case.code_length < 16_384);
        self.add_if("code memory too long", case.code_length > 16_384);
        self.add_if("log of 0 numbers", log == 0);
        self.add_if("log of 196,608 numbers", log == log::MOST_NUMBERS);
        self.add_if("log above 196,608 numbers", log > log::MOST_NUMBERS);
        self.add_if("log one number above whole entries", log % 3 == 1);
        self.add_if("log two numbers above whole entries", log % 3 == 2);
        let given = 4 * case.main.len() as u32;
        self.add_if("main memory given whole", given == case.main_length);
        self.add_if("main memory zero at its end", given < case.main_length);
        self.add_if("sheets of no byte", case.sheet.is_empty());
        self.add_if("sheets of 131,072 bytes", case.sheet.len() == 131_072);
        self.add_if("sheets of 131,073 bytes", case.sheet.len() == 131_073);
        self.add_if("sheets of 131,088 bytes", case.sheet.len() == 131_088);
    }

    fn note_refused(&mut self, case: &Case, refusal: u32, offset: usize) {
        let sheet = sheet::records(&case.sheet).is_err();
        let [main, data, code, log] = wrong_lengths(case);
        let wrong = [main, data, code, log, sheet];
        let mut named = WRONG.into_iter().zip(wrong).filter(|(_, is)| *is);
        let first = named.next().expect("a refusal has a reason").0;
        self.add(&refused_name(first, named.next().map(|(name, _)| name)));
        if first != WRONG[4] {
            return;
        }
        self.add(&sheet_name(refusal));
        self.add_if(
            "refused at offset 0, of a record",
            offset == 0 && refusal < 46,
        );
        self.add_if("refused at another offset", offset > 0);
        let end = offset == case.sheet.len() && offset > 0;
        self.add_if("refused at the sheet's end", end);
    }

    /// Notes what is named, and what would be named next.
    fn note_first(&mut self, verdict: Verdict, differences: &Differences) {
        let kinds = differences.kinds();
        match verdict {
            Verdict::Answer(answer) => {
                self.add(&format!("answer {answer}"));
                self.add(&next_name(2, kinds.first().copied()));
            }
            Verdict::Accepted => assert!(kinds.is_empty()),
            _ => self.add(&next_name(verdict.kind() as usize, kinds.get(1).copied())),
        }
    }

    fn note_places(&mut self, outcome: &Outcome, meant: &Meant, differences: &Differences) {
        let memories = &outcome.memories;
        match outcome.checked.verdict {
            Verdict::Quadword(at) => {
                self.note_place("quadword", at, 1_023);
                self.add_if("one quadword alone", differences.quadwords.len() == 1);
                self.add_if("several quadwords", differences.quadwords.len() > 1);
                let fields = differing(&memories.data, &meant.data, 1);
                let one = fields.len() == 1;
                self.add_if(&format!("field {} alone", fields[0] % 4), one);
            }
            Verdict::Instruction(at) => {
                self.note_place("instruction", at, 2_047);
                self.add_if("one instruction alone", differences.instructions.len() == 1);
                self.add_if("several instructions", differences.instructions.len() > 1);
                let bytes = differing(&memories.code, &meant.code, 1);
                let one = bytes.len() == 1;
                self.add_if(
                    &format!("byte {} of an instruction alone", bytes[0] % 8),
                    one,
                );
            }
            Verdict::Entry(at) => {
                let both = meant.entries.len().min(outcome.checked.used as usize);
                self.add_if("entry 0, of several", at == 0 && both > 1);
                self.add_if("the last entry, of several", at + 1 == both && both > 1);
                self.add_if("entry in the middle", at > 0 && at + 1 < both);
                self.note_numbers(&memories.log[log::ENTRY * at..], &meant.entries[at]);
            }
            _ => {}
        }
    }

    fn note_place(&mut self, what: &str, at: usize, last: usize) {
        let place = match at {
            0 => format!("{what} 0"),
            _ if at == last => format!("{what} {last}"),
            _ => format!("{what} between"),
        };
        self.add(&place);
    }

    /// Which of an entry's numbers differ. Paths never differ alone: each has its own registers.
    fn note_numbers(&mut self, numbers: &[u64], entry: &log::Entry) {
        let differ = [
            numbers[log::PATH] != entry.path,
            numbers[log::REGISTER] != entry.register,
            numbers[log::VALUE] != entry.value,
        ];
        self.add(match differ {
            [false, true, false] => "entry with another register",
            [false, false, true] => "entry with another value",
            [false, _, _] => "entry with another register and value",
            [true, _, false] => "entry of another path and register",
            [true, _, true] => "entry of another path, register and value",
        });
    }

    fn note_entries(&mut self, case: &Case, outcome: &Outcome, meant: &Meant) {
        let (used, wanted) = (outcome.checked.used, meant.entries.len() as u64);
        let room = case.log_length as u64 / 3;
        match outcome.checked.verdict {
            Verdict::Entries(_) => {
                self.add_if("more entries", used > wanted && wanted > 0);
                self.add_if("fewer entries", used < wanted && used > 0);
                self.add_if("entries where the sheet has none", wanted == 0);
                self.add_if("no entry where the sheet has some", used == 0);
                self.add_if("fewer entries, no room for the sheet's", wanted > room);
            }
            Verdict::Accepted => {
                self.add_if("accepted, exactly the room", wanted == room && room > 0);
                self.add_if("accepted, more room", room > wanted);
                self.add_if("accepted without entries, no room", room == 0);
            }
            Verdict::Answer(refusals::ROOM) => {
                self.add_if("one entry less than the room", wanted == room + 1);
                self.add_if("no room at all", room == 0);
            }
            _ => {}
        }
    }

    fn note_allowance(&mut self, case: &Case, outcome: &Outcome) {
        let (allowance, steps) = (case.allowance, outcome.checked.counts.steps);
        match outcome.checked.verdict {
            Verdict::Accepted => {
                self.add_if("accepted, just the steps", allowance == steps);
                self.add_if("accepted, one step more", allowance == steps + 1);
                self.add_if("accepted, the greatest allowance", allowance == u64::MAX);
            }
            Verdict::Answer(chain::ALLOWANCE_USED) => {
                self.add_if("no step allowed", allowance == 0);
                let one_more = run_again(case, allowance.saturating_add(1), |_, _, _| {});
                self.add_if("one step less than it takes", one_more == chain::DONE);
            }
            _ => {}
        }
    }

    fn note_accepted(&mut self, case: &Case, outcome: &Outcome, own: bool) {
        let second = sheet_tree::read(&case.sheet).is_ok_and(|tree| tree.is_second);
        let edition = if second { "second" } else { "first" };
        let whose = if own { "our own" } else { "another" };
        self.add(&format!("accepted, {whose} chain, {edition} edition"));
        if own {
            return;
        }
        let steps = sheet::steps(&case.sheet).unwrap_or(0);
        self.add_if(
            "accepted in fewer steps",
            outcome.checked.counts.steps < steps,
        );
        self.add_if(
            "accepted in more steps",
            outcome.checked.counts.steps > steps,
        );
        let mut names = Vec::new();
        run_again(case, case.allowance, |before, after, step| {
            names.extend(step_name(before, after, &step));
        });
        names.iter().for_each(|name| self.add(name));
    }

    /// Every count by name.
    pub fn rows(&self) -> Vec<(String, u64)> {
        let mut rows = vec![
            ("cases".to_string(), self.cases),
            ("steps".to_string(), self.steps),
        ];
        rows.extend(named_rows(&self.by_name, names()));
        rows
    }
}

/// Runs the chain of a case again; hands back the answer.
fn run_again(case: &Case, allowance: u64, mut watch: impl FnMut(&State, &State, Step)) -> u32 {
    let (main, mut memories) = (case.main(), case.memories());
    let mut lent: Memories = memories.lend(&main);
    let mut state = State::reset();
    let watch = |before: &State, after: &State, tried: Result<Step, u32>| {
        if let Ok(step) = tried {
            watch(before, after, step);
        }
    };
    chain::run(&mut state, &mut lent, allowance, watch).answer
}

/// What a step of an accepted run is counted as, where it is.
fn step_name(before: &State, after: &State, step: &Step) -> Option<String> {
    if let Step::Tag(tag) = step {
        let payload = if tag.qwc > 0 { "with" } else { "without" };
        return Some(tag_name(tag.id, payload));
    }
    if before.vif1.waiting.is_some() {
        let held = |state: &State| match state.path2.place {
            Place::Data { tag, .. } => Some(tag.format),
            Place::Idle => None,
        };
        let format = held(after).filter(|_| held(before).is_none())?;
        return Some(packet_name(format).to_string());
    }
    let waiting = after.vif1.waiting?;
    Some(match waiting.payload {
        Payload::Mpg(_) => "accepted by MPG".to_string(),
        Payload::Direct => "accepted by DIRECT".to_string(),
        Payload::Directhl => "accepted by DIRECTHL".to_string(),
        Payload::Unpack(unpack) => {
            let registers = &after.vif1.registers;
            match registers.wl > registers.cl {
                true => "accepted by filling".to_string(),
                false => {
                    let number = unpack.format.number();
                    let known = FORMATS.iter().find(|(format, _)| *format == number);
                    unpack_name(known.map_or("another format", |(_, name)| name))
                }
            }
        }
        _ => return None,
    })
}

fn packet_name(format: Format) -> &'static str {
    match format {
        Format::Packed => "accepted by PACKED",
        Format::Reglist => "accepted by REGLIST",
        Format::Image => "accepted by IMAGE",
    }
}

fn tag_name(id: u32, payload: &str) -> String {
    format!("accepted by {} {payload} payload", TAGS[id as usize])
}

fn unpack_name(format: &str) -> String {
    format!("accepted by UNPACK {format}")
}

fn refused_name(refusal: &str, next: Option<&str>) -> String {
    match next {
        Some(next) => format!("refused by {refusal}, {next} would be next"),
        None => format!("refused by {refusal}, nothing else wrong"),
    }
}

fn sheet_name(refusal: u32) -> String {
    format!("refused by the sheet's {refusal}")
}

fn next_name(kind: usize, next: Option<usize>) -> String {
    let name = VERDICTS[kind];
    match next {
        Some(next) => format!("{name} first, then {}", VERDICTS[next]),
        None => format!("{name} first, and nothing else"),
    }
}

fn names() -> Vec<String> {
    let mut names: Vec<String> = VERDICTS.iter().map(|name| name.to_string()).collect();
    names.extend(NAMES.iter().map(|name| name.to_string()));
    names.extend(ANSWERS.map(|answer| format!("answer {answer}")));
    names.extend(SHEET.map(sheet_name));
    for (i, first) in WRONG.into_iter().enumerate() {
        names.push(refused_name(first, None));
        for next in &WRONG[i + 1..] {
            names.push(refused_name(first, Some(next)));
        }
    }
    for kind in 2..7 {
        names.push(next_name(kind, None));
        names.extend(
            (kind + 1..7)
                .filter(|_| kind < 6)
                .map(|next| next_name(kind, Some(next))),
        );
    }
    for kind in [0, 2] {
        names.push(format!("our own chain, {}", VERDICTS[kind]));
    }
    for whose in ["our own", "another"] {
        for edition in ["first", "second"] {
            names.push(format!("accepted, {whose} chain, {edition} edition"));
        }
    }
    for payload in ["with", "without"] {
        names.extend((0..8).map(|id| tag_name(id, payload)));
    }
    names.extend(FORMATS.map(|(_, format)| unpack_name(format)));
    names.extend((0..4).map(|field| format!("field {field} alone")));
    names.extend((0..8).map(|byte| format!("byte {byte} of an instruction alone")));
    names
}

const NAMES: &[&str] = &[
    "main memory of 0 bytes",
    "main memory of 1,048,576 bytes",
    "main memory above 1,048,576 bytes",
    "main memory given whole",
    "main memory zero at its end",
    "data memory too short",
    "data memory too long",
    "code memory too short",
    "code memory too long",
    "log of 0 numbers",
    "log of 196,608 numbers",
    "log above 196,608 numbers",
    "log one number above whole entries",
    "log two numbers above whole entries",
    "sheets of no byte",
    "sheets of 131,072 bytes",
    "sheets of 131,073 bytes",
    "sheets of 131,088 bytes",
    "refused at offset 0, of a record",
    "refused at another offset",
    "refused at the sheet's end",
    "quadword 0",
    "quadword between",
    "quadword 1023",
    "one quadword alone",
    "several quadwords",
    "instruction 0",
    "instruction between",
    "instruction 2047",
    "one instruction alone",
    "several instructions",
    "entry 0, of several",
    "entry in the middle",
    "the last entry, of several",
    "entry with another register",
    "entry with another value",
    "entry with another register and value",
    "entry of another path and register",
    "entry of another path, register and value",
    "more entries",
    "fewer entries",
    "entries where the sheet has none",
    "no entry where the sheet has some",
    "fewer entries, no room for the sheet's",
    "accepted, exactly the room",
    "accepted, more room",
    "accepted without entries, no room",
    "one entry less than the room",
    "no room at all",
    "accepted, just the steps",
    "accepted, one step more",
    "accepted, the greatest allowance",
    "no step allowed",
    "one step less than it takes",
    "accepted in fewer steps",
    "accepted in more steps",
    "accepted by MPG",
    "accepted by DIRECT",
    "accepted by DIRECTHL",
    "accepted by filling",
    "accepted by PACKED",
    "accepted by REGLIST",
    "accepted by IMAGE",
];
