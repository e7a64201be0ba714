//! What sheet cases reached.

use crate::capture_counts::junk_beside_stmask;
use crate::chain::{self, State};
use crate::compare::named_rows;
use crate::gif::Place;
use crate::group_counts;
use crate::log;
use crate::log_counts;
use crate::memory::{self, MOST_MAIN};
use crate::refusals;
use crate::sheet::{
    self, Kind, Record, Refusal, CODE_BYTES, DATA_WORDS, HEADER, INSTRUCTIONS, MARK, QUADWORDS,
};
use crate::sheet_cases::{Case, Outcome};
use crate::sheet_check::{foretold, End};
use crate::state_block::{
    chain_word, put_part, read_state, waiting_name, waiting_number, write_state, RESET_UNIT, VIF0,
    WAITING,
};
use std::collections::HashMap;

const KINDS: [&str; 4] = ["data", "code", "GS", "start"];
/// Counts n that have a row of their own.
const OWN_ROWS: [u32; 5] = [1, 2, 3, 254, 255];
/// The refusals of a record.
const RECORD: [u32; 6] = [
    refusals::MARK,
    refusals::KIND,
    refusals::COUNT,
    refusals::ADDRESS,
    refusals::CUT,
    refusals::PAD,
];
/// The first that is wrong with a record and the next, where a record can have both.
const RECORD_PAIRS: [(u32, u32); 8] = [
    (refusals::MARK, refusals::KIND),
    (refusals::MARK, refusals::COUNT),
    (refusals::MARK, refusals::ADDRESS),
    (refusals::MARK, refusals::CUT),
    (refusals::MARK, refusals::PAD),
    (refusals::COUNT, refusals::ADDRESS),
    (refusals::ADDRESS, refusals::CUT),
    (refusals::ADDRESS, refusals::PAD),
];
/// At entry.
const LENGTHS: [u32; 3] = [refusals::DATA, refusals::CODE, refusals::LOG];
/// Stands for 40 to 46, 49 and 52 where several things are wrong with a case.
const SHEET: u32 = refusals::MARK;

#[derive(Default)]
pub struct Counts {
    by_name: HashMap<String, u64>,
    cases: u64,
    /// Records of accepted sheets by kind and n, the last column for any other n.
    records: [[u64; 6]; 4],
    /// Records that go round the end of data memory and of code memory.
    wraps: [u64; 2],
    odd_code: u64,
    whole_steps: u64,
    logs: log_counts::Counts,
}

impl Counts {
    fn add(&mut self, name: &str) {
        *self.by_name.entry(name.to_string()).or_default() += 1;
    }

    fn add_if(&mut self, name: &str, happened: bool) {
        if happened {
            self.add(name);
        }
    }

    /// Notes a case and what it gave.
    pub fn note(&mut self, case: &Case, outcome: &Outcome) {
        self.cases += 1;
        for name in group_counts::reached(case, outcome) {
            self.add(&name);
        }
        if !group_counts::starts_second(&case.sheet) {
            match sheet::records(&case.sheet) {
                Ok(records) => self.note_sheet(case, &records),
                Err(refusal) => self.note_refused_sheet(case, refusal),
            }
        }
        self.note_output(case);
        self.note_answers(case, outcome);
        self.note_vif0(case, outcome);
        self.note_lengths(case);
        self.logs.note(case.log_length as usize, case.used());
        self.note_wrong_together(case);
        if outcome.ran.answer.is_ok() {
            self.note_run(case, outcome);
        }
    }

    fn note_sheet(&mut self, case: &Case, records: &[Record]) {
        for record in records {
            self.note_record(record);
        }
        let count = records.len();
        self.add_if("sheets without a record", count == 0);
        self.add_if("sheets of one record", count == 1);
        self.add_if("sheets of 2 to 9 records", (2..10).contains(&count));
        self.add_if("sheets of 10 to 999 records", (10..1_000).contains(&count));
        self.add_if("sheets of 1,000 records or more", count >= 1_000);
        self.add_if("sheets of 21,845 records", count == 21_845);
        let longest = case.sheet.len() == sheet::MOST_SHEET;
        self.add_if("sheets of 131,072 bytes", longest);
    }

    fn note_record(&mut self, record: &Record) {
        let kind = record.kind as usize;
        let column = OWN_ROWS.iter().position(|&n| n == record.count);
        self.records[kind][column.unwrap_or(OWN_ROWS.len())] += 1;
        let end = record.address + record.count;
        match record.kind {
            Kind::Data => self.wraps[0] += (end > QUADWORDS) as u64,
            Kind::Code => {
                self.wraps[1] += (end > INSTRUCTIONS) as u64;
                self.odd_code += (record.count % 2) as u64;
            }
            Kind::Gs | Kind::Start => {}
        }
    }

    fn note_refused_sheet(&mut self, case: &Case, (number, at): Refusal) {
        if number == refusals::LONG {
            self.add(&format!("refused 46, {} bytes", case.sheet.len()));
            let whole = sheet::records(&case.sheet[..sheet::MOST_SHEET]).is_ok();
            self.add_if("refused 46, its first 131,072 bytes are a sheet", whole);
            self.add_if("refused 46, a record is wrong too", !whole);
            return;
        }
        let place = if at == 0 { "the first" } else { "a later" };
        self.add(&format!("refused {number} in {place} record"));
        self.add_if("a record refused, output empty", case.output_length == 0);
        let bytes = &case.sheet[at..];
        if bytes.len() < HEADER {
            self.add(&format!("refused 44, header of {} bytes", bytes.len()));
            let mark = bytes.len() >= 2 && bytes[..2] != MARK;
            self.add_if("refused 44, header cut and mark wrong", mark);
            return;
        }
        if let Some(next) = wrong_in_record(bytes).get(1) {
            self.add(&format!("refused {number}, {next} would be next"));
        }
        self.note_refused_record(number, bytes);
    }

    fn note_refused_record(&mut self, number: u32, bytes: &[u8]) {
        let kind = bytes[2];
        let body = bytes.len() - HEADER;
        match number {
            refusals::MARK => match (bytes[0] == MARK[0], bytes[1] == MARK[1]) {
                (false, true) => self.add("refused 40, byte 0"),
                (true, false) => self.add("refused 40, byte 1"),
                _ => self.add("refused 40, both bytes"),
            },
            refusals::KIND if kind == 0 => self.add("refused 41, kind 0"),
            refusals::KIND if kind == 5 => self.add("refused 41, kind 5"),
            refusals::KIND => self.add("refused 41, kind above 5"),
            refusals::COUNT => self.add(&format!("refused 42, kind {kind}")),
            refusals::ADDRESS => {
                self.add(&format!("refused 43, kind {kind}"));
                let limit = [QUADWORDS, INSTRUCTIONS, 1, INSTRUCTIONS][kind as usize - 1];
                let at_limit = bytes[4..6] == u16::to_le_bytes(limit as u16);
                self.add_if(&format!("refused 43, kind {kind} at its limit"), at_limit);
            }
            refusals::CUT => {
                let whole = Kind::from_number(kind).map_or(0, |kind| kind.body_length(bytes[3]));
                self.add(&format!("refused 44, body of kind {kind}"));
                self.add_if("refused 44, body short by one byte", body + 1 == whole);
                self.add_if(
                    "refused 44, body short by more",
                    body > 0 && body + 1 < whole,
                );
                self.add_if("refused 44, no body at all", body == 0);
                let mut entries = bytes[HEADER..].chunks_exact(16);
                let pad = kind == 3 && entries.any(pad_wrong);
                self.add_if("refused 44, a pad before the cut wrong too", pad);
            }
            _ => self.note_pad(bytes[3] as usize, &bytes[HEADER..]),
        }
    }

    /// Notes the first entry of a GS record whose pad is not zero.
    fn note_pad(&mut self, count: usize, body: &[u8]) {
        let mut entries = body.chunks(16).take(count);
        let Some(entry) = entries.position(pad_wrong) else {
            return;
        };
        self.add(match entry {
            0 if count == 1 => "refused 45, the only entry",
            0 => "refused 45, the first entry",
            _ if entry == count - 1 => "refused 45, the last entry",
            _ => "refused 45, an entry between",
        });
        let pads = &body[16 * entry..16 * entry + 16];
        let wrong: Vec<usize> = (9..16).filter(|&at| pads[at] != 0).collect();
        if let [at] = wrong[..] {
            self.add(&format!("refused 45, byte {at} alone"));
        }
    }

    fn note_output(&mut self, case: &Case) {
        let Ok(chain) = sheet::chain_length(&case.sheet) else {
            return;
        };
        let output = case.output_length as usize;
        let over = output as i64 - chain as i64;
        self.add_if("output exact", over == 0);
        self.add_if("output longer by 1", over == 1);
        self.add_if("output longer by more", over > 1);
        self.add_if("output short by 1", over == -1);
        self.add_if("output short by 16", over == -16);
        self.add_if("output short by another number", over < -1 && over != -16);
        self.add_if("output empty", output == 0);
        self.add_if("output of 15 bytes", output == 15);
        self.add_if("output of 16 bytes, enough", output == 16 && chain == 16);
        self.add_if("output of 16 bytes, not enough", output == 16 && chain > 16);
        self.add_if("output of 1 MiB or more", output >= 1 << 20);
        self.add_if("output no multiple of 4", output % 4 != 0);
    }

    /// Notes the four answers.
    fn note_answers(&mut self, case: &Case, outcome: &Outcome) {
        let mut note = |part: &str, answer: Result<u32, Refusal>, well: &str| match answer {
            Ok(0) => self.add(&format!("{part}: {well}")),
            Ok(answer) => self.add(&format!("{part}: run answers {answer}")),
            Err((number, _)) => self.add(&format!("{part}: refused {number}")),
        };
        note("builder", outcome.built.answer.map(|_| 0), "built");
        note("steps", outcome.steps.map(|_| 0), "given");
        note("meaning", outcome.meant.answer.map(|()| 0), "done");
        note("build and run", outcome.ran.answer, "done");
        let refused = |answer: Result<u32, Refusal>| answer.err().map(|refusal| refusal.0);
        match refused(outcome.ran.answer) {
            Some(refusals::RANGE) => self.note_out_of_range(case),
            Some(refusals::OUTPUT) => self.note_no_place(case),
            _ => {}
        }
    }

    /// Notes what a state saved on channel 0, and VIF0's block in any state, lead to.
    fn note_vif0(&mut self, case: &Case, outcome: &Outcome) {
        let small = memory::VIF0;
        let data = case.data_length as usize == small.data_words();
        let code = case.code_length as usize == small.code_bytes();
        let channel_0 = case.state[chain_word::CHANNEL] == 0;
        for (part, refusal) in [
            ("meaning", outcome.meant.answer.err()),
            ("build and run", outcome.ran.answer.err()),
        ] {
            let refusal = refusal.map(|refusal| refusal.0).filter(|_| channel_0);
            let name = format!("{part}: refused 2 on channel 0, VIF0's size");
            self.add_if(&name, refusal == Some(refusals::DATA) && data);
            let name = format!("{part}: refused 3 on channel 0, VIF0's size");
            self.add_if(&name, refusal == Some(refusals::CODE) && code);
        }
        let mut mended = case.state;
        put_part(&mut mended, VIF0, &RESET_UNIT);
        let right = |block| read_state(block).is_some_and(|state| chain::in_range(&state));
        let vif0_wrong = right(&mended) && !right(&case.state);
        let refused = outcome.ran.answer == Err((refusals::RANGE, 0));
        let name = "build and run: refused 5, VIF0's block alone is wrong";
        self.add_if(name, refused && vif0_wrong);
    }

    fn note_out_of_range(&mut self, case: &Case) {
        let address = case.address;
        let wrong = [
            ("no state", read_state(&case.state).is_none()),
            (
                "a state out of range",
                read_state(&case.state).is_some_and(|state| !chain::in_range(&state)),
            ),
            ("address no multiple of 16", address % 16 != 0),
            ("address from 2^31", address >= 1 << 31),
        ];
        let mut names = wrong.iter().filter(|(_, is)| *is).map(|(name, _)| name);
        if let (Some(name), None) = (names.next(), names.next()) {
            self.add(&format!("build and run: refused 5, {name}"));
        }
        self.add_if(
            "build and run: refused 5, words that mean nothing, STMASK with other than one word due",
            junk_beside_stmask(&case.state),
        );
    }

    fn note_no_place(&mut self, case: &Case) {
        let chain = sheet::chain_length(&case.sheet).unwrap_or(0) as i64;
        let (main, address) = (case.main_length as i64, case.address as i64);
        let over = address + chain - main;
        self.add(match address - main {
            0 => "build and run: refused 47, address just after main memory",
            1.. => "build and run: refused 47, address beyond main memory",
            _ if over == 16 => "build and run: refused 47, one quadword too far",
            _ => "build and run: refused 47, more too far",
        });
        self.add_if("build and run: refused 47 at address 0", address == 0);
    }

    fn note_lengths(&mut self, case: &Case) {
        let (data, code) = (case.data_length as usize, case.code_length as usize);
        let main = case.main_length as usize;
        let rows = [
            ("data memory empty", data == 0),
            ("data memory short", data > 0 && data < DATA_WORDS),
            ("data memory long", data > DATA_WORDS),
            ("code memory empty", code == 0),
            ("code memory short", code > 0 && code < CODE_BYTES),
            ("code memory long", code > CODE_BYTES),
            ("code memory no multiple of 4", code % 4 != 0),
            ("main memory empty", main == 0),
            ("main memory too long", main > MOST_MAIN),
            ("main memory no multiple of 16", main % 16 != 0),
            ("main memory no multiple of 4", main % 4 != 0),
            ("main memory of 1,048,576 bytes", main == MOST_MAIN),
        ];
        rows.iter().for_each(|&(name, is)| self.add_if(name, is));
    }

    fn note_wrong_together(&mut self, case: &Case) {
        for (part, wrong) in [
            ("meaning", wrong_for_meaning(case)),
            ("build and run", wrong_for_run(case)),
        ] {
            if let [first, next, ..] = wrong[..] {
                self.add(&pair_name(part, first, next));
            }
        }
    }

    /// Notes a case that came to its run.
    fn note_run(&mut self, case: &Case, outcome: &Outcome) {
        let Some(state) = read_state(&case.state) else {
            return;
        };
        let junk = write_state(&state) != case.state;
        self.add_if("runs from a block with words that mean nothing", junk);
        self.note_place(case);
        self.note_allowance(case, outcome);
        if let Some(waiting) = &state.vif1.waiting {
            let name = waiting_name(waiting_number(&waiting.payload));
            self.add(&format!("runs with {name} waiting"));
            let done = outcome.ran.answer == Ok(chain::DONE);
            self.add_if("runs with a code waiting: done", done);
            let upload = waiting.is_upload() && outcome.ran.counts.steps > 1;
            self.add_if("runs that take MPG's first word", upload);
        }
        let held = state.path2.place != Place::Idle;
        self.add_if("runs with path 2 inside a tag", held);
        let packets = outcome.ran.counts.packets;
        let other = held && packets > 0;
        self.add_if("runs with path 2 inside a tag that close packets", other);
        match foretold(case) {
            Some(End::Whole) => self.note_whole(case, &state, outcome),
            Some(End::Cut) => self.note_cut(case),
            Some(End::Full) => self.note_full(case, packets),
            None => {}
        }
    }

    /// Notes a run that is cut by its allowance and all else well.
    fn note_cut(&mut self, case: &Case) {
        self.add("runs cut by the allowance, all else well");
        let after = |steps| sheet::packets(&case.sheet, steps, u64::MAX).unwrap_or(0);
        let given = case.allowance;
        let closed = after(given);
        let rows = [
            ("runs cut before any packet is closed", closed == 0),
            ("runs cut after several packets", closed > 1),
            (
                "runs cut with the step that closes a packet",
                given > 0 && after(given - 1) < closed,
            ),
            (
                "runs cut one step before a packet is closed",
                after(given + 1) > closed,
            ),
        ];
        rows.iter().for_each(|&(name, is)| self.add_if(name, is));
    }

    fn note_place(&mut self, case: &Case) {
        let chain = sheet::chain_length(&case.sheet).unwrap_or(0) as u32;
        let end = case.address + chain;
        let rows = [
            ("chain is all of main memory", chain == case.main_length),
            (
                "chain at address 0 before other bytes",
                case.address == 0 && end < case.main_length,
            ),
            (
                "chain inside main memory",
                case.address > 0 && end < case.main_length,
            ),
            (
                "chain at the end of main memory",
                case.address > 0 && end == case.main_length,
            ),
        ];
        rows.iter().for_each(|&(name, is)| self.add_if(name, is));
    }

    fn note_allowance(&mut self, case: &Case, outcome: &Outcome) {
        let steps = outcome.steps.unwrap_or(0);
        let given = case.allowance;
        let one_more = given.saturating_add(1);
        let rows = [
            ("allowance 0", given == 0),
            ("allowance one less than the steps", one_more == steps),
            (
                "allowance another number below the steps",
                given > 0 && one_more < steps,
            ),
            ("allowance the steps", given == steps),
            ("allowance one more than the steps", given == steps + 1),
            ("allowance 2^64 - 1", given == u64::MAX),
            (
                "allowance enough, its low word not",
                given > steps && given as u32 as u64 <= steps,
            ),
        ];
        rows.iter().for_each(|&(name, is)| self.add_if(name, is));
    }

    /// Notes a run that is to be what the sheet means.
    fn note_whole(&mut self, case: &Case, state: &State, outcome: &Outcome) {
        self.whole_steps += outcome.ran.counts.steps;
        self.note_whole_from(state, case.main_length as usize);
        let entries = sheet::entries(&case.sheet).unwrap_or(0);
        let room = log::room(case.log_length as usize, case.used());
        let full = entries > 0 && room == entries;
        let packets = outcome.ran.counts.packets;
        let rows = [
            ("in all", true),
            ("that close no packet", packets == 0),
            ("that close one packet", packets == 1),
            ("that close several packets", packets > 1),
            ("with entries used before", state.used > 0),
            ("with no entry", entries == 0),
            ("with the log full afterwards", full),
            ("with room left in the log", room > entries),
        ];
        for (name, is) in rows {
            self.add_if(&format!("whole runs {name}"), is);
        }
    }

    fn note_whole_from(&mut self, state: &State, main: usize) {
        let registers = &state.vif1.registers;
        let mut reset = State::reset();
        reset.used = state.used;
        let outside = !chain::pending_inside(state, main);
        let rows = [
            ("the reset state", *state == reset),
            ("channel 0", state.channel == 0),
            ("channel 0 with TTE on", state.channel == 0 && state.tte),
            ("channel 2", state.channel == 2),
            ("a code waiting on VIF0", state.vif0.waiting.is_some()),
            ("other registers of VIF0", state.vif0 != reset.vif0),
            ("TTE on", state.tte),
            ("a chain that has ended", state.ended),
            ("a stack of 1", state.depth == 1),
            ("a stack of 2", state.depth == 2),
            ("tag words pending", state.tag_word.is_some()),
            ("payload pending", state.payload.is_some()),
            ("words pending outside main memory", outside),
            ("path 3 inside a tag", state.path3.place != Place::Idle),
            ("path 2 with another Q", state.path2.q != 0),
            ("MODE 1 or 2", registers.mode != 0),
            ("WL 0", registers.wl == 0),
            ("WL above CL", registers.cycle().has_fills()),
            ("WL above 1", registers.wl > 1),
            ("DBF 1", registers.dbf),
        ];
        for (name, is) in rows {
            self.add_if(&format!("whole runs from {name}"), is);
        }
    }

    fn note_full(&mut self, case: &Case, packets: u64) {
        self.add_if("log short after packets", packets > 0);
        let entries = sheet::entries(&case.sheet).unwrap_or(0);
        let room = log::room(case.log_length as usize, case.used());
        self.add_if("log short by one entry", room + 1 == entries);
        self.add_if("log short by more", room + 1 < entries);
    }

    /// Every count by name.
    pub fn rows(&self) -> Vec<(String, u64)> {
        let mut rows: Vec<(String, u64)> = Vec::new();
        let mut row = |name: String, count: u64| rows.push((name, count));
        row("cases".to_string(), self.cases);
        row("steps of whole runs".to_string(), self.whole_steps);
        for (kind, columns) in KINDS.iter().zip(&self.records) {
            row(format!("{kind} records"), columns.iter().sum());
            if *kind == "start" {
                continue;
            }
            for (n, count) in OWN_ROWS.iter().zip(columns) {
                row(format!("{kind} records, n {n}"), *count);
            }
            row(
                format!("{kind} records, another n"),
                columns[OWN_ROWS.len()],
            );
        }
        row("data records that wrap".to_string(), self.wraps[0]);
        row("code records that wrap".to_string(), self.wraps[1]);
        row("code records, n odd".to_string(), self.odd_code);
        rows.extend(self.logs.rows());
        rows.extend(named_rows(&self.by_name, names()));
        rows
    }
}

/// Whether a pad byte of a GS entry is not zero.
fn pad_wrong(entry: &[u8]) -> bool {
    entry[9..].iter().any(|&byte| byte != 0)
}

/// The numbers of all that is wrong with the record at the head of the bytes, in order.
fn wrong_in_record(bytes: &[u8]) -> Vec<u32> {
    let mut wrong = Vec::new();
    if bytes[..2] != MARK {
        wrong.push(refusals::MARK);
    }
    let Some(kind) = Kind::from_number(bytes[2]) else {
        wrong.push(refusals::KIND);
        return wrong;
    };
    if !kind.allows_count(bytes[3]) {
        wrong.push(refusals::COUNT);
    }
    if !kind.allows_address(u16::from_le_bytes([bytes[4], bytes[5]]) as u32) {
        wrong.push(refusals::ADDRESS);
    }
    match bytes[HEADER..].get(..kind.body_length(bytes[3])) {
        None => wrong.push(refusals::CUT),
        Some(body) if kind == Kind::Gs && body.chunks(16).any(pad_wrong) => {
            wrong.push(refusals::PAD);
        }
        Some(_) => {}
    }
    wrong
}

/// The numbers of all that refuses the meaning, in order; 40 for any of the sheet's own.
fn wrong_for_meaning(case: &Case) -> Vec<u32> {
    let log_right = log::in_range(case.log_length as usize, case.used());
    let entries = sheet::entries(&case.sheet);
    let lacks =
        |&entries: &u64| log_right && entries > log::room(case.log_length as usize, case.used());
    let all = [
        (refusals::DATA, case.data_length as usize != DATA_WORDS),
        (refusals::CODE, case.code_length as usize != CODE_BYTES),
        (refusals::LOG, !log_right),
        (SHEET, entries.is_err()),
        (refusals::ROOM, entries.as_ref().is_ok_and(lacks)),
    ];
    all.iter().filter(|(_, is)| *is).map(|(n, _)| *n).collect()
}

/// The same for build and run, as far as the run's entry.
fn wrong_for_run(case: &Case) -> Vec<u32> {
    let main = case.main_length as usize;
    let state = read_state(&case.state);
    let chain = sheet::chain_length(&case.sheet);
    let room = main.saturating_sub(case.address as usize);
    let start = chain::start_in_range(1, case.address, false);
    let main_wrong = main == 0 || main % 16 != 0 || main > MOST_MAIN;
    let log_right = log::in_range(case.log_length as usize, case.used());
    let in_range = start && state.as_ref().is_some_and(chain::in_range);
    let all = [
        (refusals::MAIN, main_wrong),
        (refusals::DATA, case.data_length as usize != DATA_WORDS),
        (refusals::CODE, case.code_length as usize != CODE_BYTES),
        (refusals::LOG, !log_right),
        (refusals::RANGE, !in_range),
        (SHEET, chain.is_err()),
        (refusals::OUTPUT, chain.is_ok_and(|chain| chain > room)),
    ];
    all.iter().filter(|(_, is)| *is).map(|(n, _)| *n).collect()
}

fn pair_name(part: &str, first: u32, next: u32) -> String {
    let next = match next {
        SHEET => "the sheet's own".to_string(),
        next => next.to_string(),
    };
    format!("{part}: refused {first}, {next} would be next")
}

/// The names of the counts that are kept by name.
fn names() -> Vec<String> {
    let mut names: Vec<String> = NAMES.iter().map(|name| name.to_string()).collect();
    add_answer_names(&mut names);
    add_record_names(&mut names);
    add_pair_names(&mut names);
    names.extend(group_counts::names());
    for waiting in WAITING {
        names.push(format!("runs with {waiting} waiting"));
    }
    names
}

fn add_answer_names(names: &mut Vec<String>) {
    let with = |first: &[u32], between: &[u32], last: u32| [first, between, &[last]].concat();
    let mut add = |part: &str, well: &str, numbers: &[u32]| {
        names.push(format!("{part}: {well}"));
        for number in numbers {
            names.push(format!("{part}: refused {number}"));
        }
    };
    let others = [refusals::LONG, refusals::DEPTH, refusals::CHAIN];
    let sheet = [&RECORD[..], &others].concat();
    add("builder", "built", &with(&[], &sheet, refusals::OUTPUT));
    add("steps", "given", &sheet);
    add("meaning", "done", &with(&LENGTHS, &sheet, refusals::ROOM));
    let entry = [&[refusals::MAIN], &LENGTHS[..], &[refusals::RANGE]].concat();
    let run = with(&entry, &sheet, refusals::OUTPUT);
    add("build and run", "done", &run);
    // A built chain can meet each refusal of a word.
    for number in [chain::ALLOWANCE_USED, chain::INTERRUPT]
        .iter()
        .chain(&refusals::WORD_STEP)
    {
        names.push(format!("build and run: run answers {number}"));
    }
}

fn add_record_names(names: &mut Vec<String>) {
    let mut add = |name: String| names.push(name);
    for number in RECORD {
        add(format!("refused {number} in the first record"));
        add(format!("refused {number} in a later record"));
    }
    for length in sheet::MOST_SHEET + 1..=sheet::MOST_SHEET + 16 {
        add(format!("refused 46, {length} bytes"));
    }
    for bytes in 1..HEADER {
        add(format!("refused 44, header of {bytes} bytes"));
    }
    for kind in 1..=4 {
        add(format!("refused 42, kind {kind}"));
        add(format!("refused 43, kind {kind}"));
        add(format!("refused 43, kind {kind} at its limit"));
    }
    for kind in 1..=3 {
        add(format!("refused 44, body of kind {kind}"));
    }
    for at in 9..16 {
        add(format!("refused 45, byte {at} alone"));
    }
    for (first, next) in RECORD_PAIRS {
        add(format!("refused {first}, {next} would be next"));
    }
}

fn add_pair_names(names: &mut Vec<String>) {
    let mut add = |part: &str, all: &[u32], never: &[(u32, u32)]| {
        for (i, &first) in all.iter().enumerate() {
            for &next in &all[i + 1..] {
                if !never.contains(&(first, next)) {
                    names.push(pair_name(part, first, next));
                }
            }
        }
    };
    // Without a legal log or an accepted sheet there is no room to speak of.
    let last = refusals::ROOM;
    let all = [&LENGTHS[..], &[SHEET, last]].concat();
    add("meaning", &all, &[(refusals::LOG, last), (SHEET, last)]);
    let last = refusals::OUTPUT;
    let entry = [&[refusals::MAIN], &LENGTHS[..], &[refusals::RANGE]].concat();
    let all = [&entry[..], &[SHEET, last]].concat();
    add("build and run", &all, &[(SHEET, last)]);
}

const NAMES: &[&str] = &[
    "sheets without a record",
    "sheets of one record",
    "sheets of 2 to 9 records",
    "sheets of 10 to 999 records",
    "sheets of 1,000 records or more",
    "sheets of 21,845 records",
    "sheets of 131,072 bytes",
    "output exact",
    "output longer by 1",
    "output longer by more",
    "output short by 1",
    "output short by 16",
    "output short by another number",
    "output empty",
    "output of 15 bytes",
    "output of 16 bytes, enough",
    "output of 16 bytes, not enough",
    "output of 1 MiB or more",
    "output no multiple of 4",
    "data memory empty",
    "data memory short",
    "data memory long",
    "code memory empty",
    "code memory short",
    "code memory long",
    "code memory no multiple of 4",
    "log short after packets",
    "log short by one entry",
    "log short by more",
    "main memory empty",
    "main memory too long",
    "main memory no multiple of 16",
    "main memory no multiple of 4",
    "main memory of 1,048,576 bytes",
    "refused 40, byte 0",
    "refused 40, byte 1",
    "refused 40, both bytes",
    "refused 41, kind 0",
    "refused 41, kind 5",
    "refused 41, kind above 5",
    "refused 44, header cut and mark wrong",
    "refused 44, body short by one byte",
    "refused 44, body short by more",
    "refused 44, no body at all",
    "refused 44, a pad before the cut wrong too",
    "refused 45, the only entry",
    "refused 45, the first entry",
    "refused 45, the last entry",
    "refused 45, an entry between",
    "refused 46, its first 131,072 bytes are a sheet",
    "refused 46, a record is wrong too",
    "a record refused, output empty",
    "meaning: refused 2 on channel 0, VIF0's size",
    "meaning: refused 3 on channel 0, VIF0's size",
    "build and run: refused 2 on channel 0, VIF0's size",
    "build and run: refused 3 on channel 0, VIF0's size",
    "build and run: refused 5, VIF0's block alone is wrong",
    "build and run: refused 5, no state",
    "build and run: refused 5, a state out of range",
    "build and run: refused 5, words that mean nothing, STMASK with other than one word due",
    "build and run: refused 5, address no multiple of 16",
    "build and run: refused 5, address from 2^31",
    "build and run: refused 47, address just after main memory",
    "build and run: refused 47, address beyond main memory",
    "build and run: refused 47, one quadword too far",
    "build and run: refused 47, more too far",
    "build and run: refused 47 at address 0",
    "chain is all of main memory",
    "chain at address 0 before other bytes",
    "chain inside main memory",
    "chain at the end of main memory",
    "allowance 0",
    "allowance one less than the steps",
    "allowance another number below the steps",
    "allowance the steps",
    "allowance one more than the steps",
    "allowance 2^64 - 1",
    "allowance enough, its low word not",
    "runs from a block with words that mean nothing",
    "runs with path 2 inside a tag",
    "runs with path 2 inside a tag that close packets",
    "runs with a code waiting: done",
    "runs that take MPG's first word",
    "runs cut by the allowance, all else well",
    "runs cut before any packet is closed",
    "runs cut after several packets",
    "runs cut with the step that closes a packet",
    "runs cut one step before a packet is closed",
    "whole runs in all",
    "whole runs that close no packet",
    "whole runs that close one packet",
    "whole runs that close several packets",
    "whole runs from the reset state",
    "whole runs from channel 0",
    "whole runs from channel 0 with TTE on",
    "whole runs from a code waiting on VIF0",
    "whole runs from other registers of VIF0",
    "whole runs from channel 2",
    "whole runs from TTE on",
    "whole runs from a chain that has ended",
    "whole runs from a stack of 1",
    "whole runs from a stack of 2",
    "whole runs from tag words pending",
    "whole runs from payload pending",
    "whole runs from words pending outside main memory",
    "whole runs from path 3 inside a tag",
    "whole runs from path 2 with another Q",
    "whole runs from MODE 1 or 2",
    "whole runs from WL 0",
    "whole runs from WL above CL",
    "whole runs from WL above 1",
    "whole runs from DBF 1",
    "whole runs with entries used before",
    "whole runs with no entry",
    "whole runs with the log full afterwards",
    "whole runs with room left in the log",
];
