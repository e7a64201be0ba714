//! What VIF cases reached, by unit.

use crate::compare::named_rows;
use crate::gif::{self, Path, Place};
use crate::gif_cases::CLOSED;
use crate::log;
use crate::log_counts;
use crate::model::{Model, ONLY_VIF1};
use crate::packet_counts;
use crate::refusals;
use crate::state_block::{
    self, limit, read_path, read_unit, unit_word, waiting_name, waiting_number, write_unit,
    UnitBlock, REGISTERS, WAITING,
};
use crate::unpack_counts;
use crate::vif::{
    self, command_of, Code, Given, Mpg, Payload, Registers, Unit, Waiting, ADDRESSES, MPG_ADDRESSES,
};
use crate::vif_cases::{Case, Standing, INTERRUPT, REFUSED};
use crate::vif_unpack::{Cycle, Format};
use crate::way::Way;
use std::collections::HashMap;

/// One call: what stood before it, its answer, and what stands now.
pub struct Call<'a> {
    pub before: Option<(Unit, Path)>,
    pub used_before: u64,
    pub given: Given,
    /// The word's number in its quadword.
    pub number: u32,
    pub answer: u32,
    pub now: &'a Standing,
    /// The unit was read from a block just before.
    pub restored: bool,
    /// The case's first call.
    pub first: bool,
}

impl Call<'_> {
    /// Whether a packet was closed, or the refusal.
    fn taken(&self) -> Result<bool, u32> {
        match self.answer.checked_sub(REFUSED) {
            Some(refusal) => Err(refusal),
            None => Ok(self.answer & CLOSED != 0),
        }
    }
}

/// The codes by `kind`: CMD, the lowest for UNPACK, and name.
const KINDS: [(u32, &str); 21] = [
    (0x00, "NOP"),
    (0x01, "STCYCL"),
    (0x02, "OFFSET"),
    (0x03, "BASE"),
    (0x04, "ITOP"),
    (0x05, "STMOD"),
    (0x06, "MSKPATH3"),
    (0x07, "MARK"),
    (0x10, "FLUSHE"),
    (0x11, "FLUSH"),
    (0x13, "FLUSHA"),
    (0x14, "MSCAL"),
    (0x15, "MSCALF"),
    (0x17, "MSCNT"),
    (0x20, "STMASK"),
    (0x30, "STROW"),
    (0x31, "STCOL"),
    (0x4A, "MPG"),
    (0x50, "DIRECT"),
    (0x51, "DIRECTHL"),
    (UNPACK, "UNPACK"),
];
const DIRECT: u32 = 0x50;
const UNPACK: u32 = 0x60;
/// The first code that waits for payload; the others follow in the order of `WAITING`.
const FIRST_WAITING: usize = 14;

/// The place of a code that exists.
fn kind(word: u32) -> usize {
    let command = command_of(word).min(UNPACK);
    let place = KINDS.iter().position(|&(number, _)| number == command);
    place.expect("a code that exists")
}

/// The codes of a unit that wait for payload: their places in `WAITING`, and names.
fn waiting_codes(model: Model) -> impl Iterator<Item = (usize, &'static str)> {
    let codes = WAITING.into_iter().enumerate();
    codes.filter(move |(number, _)| model.has(KINDS[FIRST_WAITING + number].0))
}

/// The bits of a code that say nothing.
fn unused_bits(code: &Code) -> u32 {
    match code {
        Code::Nop | Code::Flushe | Code::Flush | Code::Flusha | Code::Mscnt => 0x00FF_FFFF,
        Code::Stmask | Code::Strow | Code::Stcol => 0x00FF_FFFF,
        Code::Offset(_) | Code::Base(_) | Code::Itop(_) => 0x00FF_FC00,
        Code::Stmod(_) => 0x00FF_FFFC,
        Code::Mskpath3(_) => 0x00FF_7FFF,
        Code::Stcycl { .. } | Code::Mark(_) | Code::Mscal(_) | Code::Mscalf(_) => 0x00FF_0000,
        Code::Mpg(_) => 0x0000_F800,
        Code::Direct(_) | Code::Directhl(_) => 0x00FF_0000,
        Code::Unpack { .. } => 0x0000_3C00,
    }
}

/// What the cases of each unit reached.
pub struct Counts {
    vif0: UnitCounts,
    vif1: UnitCounts,
}

impl Default for Counts {
    fn default() -> Counts {
        Counts {
            vif0: UnitCounts::new(Model::Vif0),
            vif1: UnitCounts::new(Model::Vif1),
        }
    }
}

impl Counts {
    pub fn of(&mut self, model: Model) -> &mut UnitCounts {
        match model {
            Model::Vif0 => &mut self.vif0,
            Model::Vif1 => &mut self.vif1,
        }
    }

    /// Every count by name.
    pub fn rows(&self) -> Vec<(String, u64)> {
        let mut rows = self.vif1.rows();
        for (name, count) in self.vif0.rows() {
            rows.push((format!("VIF0: {name}"), count));
        }
        rows
    }
}

pub struct UnitCounts {
    model: Model,
    by_name: HashMap<String, u64>,
    cases: u64,
    groups: u64,
    calls: u64,
    words: u64,
    quadwords: u64,
    codes: [u64; 21],
    codes_with_unused_bits: [u64; 21],
    /// Codes completed with their bit 31 set.
    interrupts: [u64; 21],
    payload_words: [u64; 7],
    completed: [u64; 7],
    unpack: unpack_counts::Counts,
    /// By DIRECT and by DIRECTHL.
    packets: [packet_counts::Counts; 2],
    logs: log_counts::Counts,
}

impl UnitCounts {
    fn new(model: Model) -> UnitCounts {
        UnitCounts {
            model,
            by_name: HashMap::new(),
            cases: 0,
            groups: 0,
            calls: 0,
            words: 0,
            quadwords: 0,
            codes: [0; 21],
            codes_with_unused_bits: [0; 21],
            interrupts: [0; 21],
            payload_words: [0; 7],
            completed: [0; 7],
            unpack: unpack_counts::Counts::default(),
            packets: Default::default(),
            logs: Default::default(),
        }
    }

    fn add(&mut self, name: &str) {
        self.add_if(name, true);
    }

    fn add_if(&mut self, name: &str, happened: bool) {
        if happened {
            match self.by_name.get_mut(name) {
                Some(count) => *count += 1,
                None => {
                    self.by_name.insert(name.to_string(), 1);
                }
            }
        }
    }

    pub fn note_case(&mut self, case: &Case) {
        self.cases += 1;
        if let Some(unit) = read_unit(self.model, &case.unit) {
            let junk = write_unit(&unit) != case.unit;
            self.add_if("unit blocks with words that mean nothing", junk);
        }
        self.add_if(
            "unit blocks with words that mean nothing, STMASK with other than one word due",
            junk_beside_stmask(&case.unit),
        );
    }

    /// Notes the end of a group of so many calls.
    pub fn note_group(&mut self, now: &Standing, calls: u32, words_at_end: bool) {
        self.groups += 1;
        match calls {
            0 => self.add("groups without a call"),
            1 => self.add("groups of one call"),
            2..=9 => self.add("groups of 2 to 9 calls"),
            _ => self.add("groups of 10 calls or more"),
        }
        self.add_if("groups with no word left", words_at_end && calls == 0);
        if let Some((unit, path)) = &now.both {
            if let Some(Waiting {
                payload: Payload::Mpg(mpg),
                due,
                ..
            }) = &unit.waiting
            {
                let started = mpg.in_range() && due % 2 == 1;
                self.add_if("groups that end inside an instruction", started);
            }
            let inside = matches!(path.place, Place::Data { .. });
            self.add_if("groups that end inside a GIF tag", inside && calls > 0);
        }
    }

    /// Notes the end of a case.
    pub fn note_end(&mut self, now: &Standing, words_left: bool) {
        self.add_if("cases with words left over", words_left);
        if let Some((unit, _)) = now.both.as_ref().filter(|(unit, _)| vif::in_range(unit)) {
            if let Some(waiting) = &unit.waiting {
                let name = waiting_name(waiting_number(&waiting.payload));
                self.add(&format!("cases that end with {name} waiting"));
            }
        }
    }

    pub fn note(&mut self, call: &Call) {
        self.calls += 1;
        let refusal = call.answer.checked_sub(REFUSED);
        if call.first && !matches!(refusal, Some(refusals::DATA | refusals::CODE)) {
            self.logs.note(call.now.log.len(), call.used_before);
        }
        match refusal {
            Some(refusals::DATA | refusals::CODE | refusals::LOG) => {
                self.note_lengths(call, refusal.unwrap());
                return;
            }
            Some(refusals::RANGE) => {
                self.note_range(call);
                return;
            }
            _ => {}
        }
        let (unit, path) = call.before.as_ref().expect("only what exists is stepped");
        if refusal.is_none() {
            match call.answer & 1 {
                0 => self.words += 1,
                _ => self.quadwords += 1,
            }
            self.note_writes(call);
        }
        match (&unit.waiting, refusal) {
            (None, None) => self.note_code(&unit.registers, call),
            (None, Some(refusal)) => self.note_code_refused(&unit.registers, call, refusal),
            (Some(waiting), None) => self.note_payload(&unit.registers, waiting, path, call),
            (Some(waiting), Some(refusals::ALIGNMENT)) => {
                self.add(&format!("refused 25, word {}", call.number));
                self.add_if("refused 25 with bit 31 set", waiting.interrupt);
                self.note_upload(call);
            }
            (Some(waiting), Some(refusal)) => {
                self.note_packet(waiting, path, call);
                self.note_direct_refused(path, call, refusal);
            }
        }
    }

    /// Notes where the first word of an MPG comes after a block was read.
    fn note_upload(&mut self, call: &Call) {
        let at = match (call.first, call.restored) {
            (true, _) => "at a case's start",
            (false, true) => "at a later group's start",
            (false, false) => return,
        };
        self.add(&format!("MPG's first word {at}, word {}", call.number));
    }

    /// Notes a length that is wrong, and what is wrong next.
    fn note_lengths(&mut self, call: &Call, refusal: u32) {
        let now = call.now;
        let range = call
            .before
            .as_ref()
            .is_some_and(|(unit, path)| vif::in_range(unit) && gif::path_in_range(path));
        let right = [
            (
                refusals::CODE,
                now.code.len() == self.model.sizes().code_bytes(),
            ),
            (refusals::LOG, log::in_range(now.log.len(), now.used)),
            (refusals::RANGE, range),
        ];
        let next = right.iter().find(|(next, right)| *next > refusal && !right);
        self.add(&match next {
            Some((next, _)) => format!("refused {refusal}, {next} would be next"),
            None => format!("refused {refusal}, nothing else wrong"),
        });
        if refusal != refusals::LOG {
            self.note_memory(now, refusal);
        }
    }

    /// Notes a data memory or code memory of a wrong length.
    fn note_memory(&mut self, now: &Standing, refusal: u32) {
        let (sizes, other) = (self.model.sizes(), self.model.other().sizes());
        let (data, code) = (now.data.len(), now.code.len());
        let (name, length, right, of_other) = match refusal {
            refusals::DATA => ("data", data, sizes.data_words(), other.data_words()),
            _ => ("code", code, sizes.code_bytes(), other.code_bytes()),
        };
        let how = if length < right { "short" } else { "long" };
        self.add(&format!("refused {refusal}, {name} memory too {how}"));
        let name = format!("refused {refusal}, the other unit's {name} memory");
        self.add_if(&name, length == of_other);
        let both = (data, code) == (other.data_words(), other.code_bytes());
        self.add_if("refused 2, both memories the other unit's", both);
    }

    fn note_range(&mut self, call: &Call) {
        let (unit_block, path_block) = call.now.blocks();
        let fields = wrong_fields(self.model, &unit_block);
        let path_wrong = match read_path(&path_block) {
            None => Some("refused 5, path block in no path"),
            Some(path) if !gif::path_in_range(&path) => Some("refused 5, path out of range"),
            Some(_) => None,
        };
        match (&fields[..], path_wrong) {
            ([field], None) => {
                self.add(&format!("refused 5, {field}"));
                let name = "refused 5, UNPACK due too many, WL > CL alone makes it so";
                self.add_if(
                    name,
                    field == "UNPACK due too many" && counted_without_fills(&unit_block),
                );
            }
            ([], Some(name)) => self.add(name),
            _ => self.add("refused 5, several at once"),
        }
    }

    fn note_writes(&mut self, call: &Call) {
        let now = call.now;
        let written = now.used - call.used_before;
        let full = log::is_full(now.log.len(), now.used);
        let start = written > 0 && call.answer & 1 == 0;
        self.add_if("log entries of program starts", start);
        self.add_if("log exactly full after a write", full && written > 0);
        self.add_if("taken without a write, log full", full && written == 0);
    }

    fn note_code(&mut self, registers: &Registers, call: &Call) {
        let word = call.given.word();
        let code = Code::decode(self.model, word).expect("a code taken is legal");
        let kind = kind(word);
        self.codes[kind] += 1;
        self.codes_with_unused_bits[kind] += (word & unused_bits(&code) != 0) as u64;
        self.interrupts[kind] += (call.answer & INTERRUPT != 0) as u64;
        match code {
            Code::Offset(_) => {
                self.add_if("OFFSET with DBF 1", registers.dbf);
                let moves = registers.tops != registers.base;
                self.add_if("OFFSET with TOPS not BASE", moves);
            }
            Code::Base(base) => {
                self.add_if("BASE with TOPS not the new BASE", registers.tops != base);
            }
            Code::Mscal(_) | Code::Mscalf(_) | Code::Mscnt => {
                let imm = word & 0xFFFF != 0;
                self.add_if("MSCNT with IMM", imm && code == Code::Mscnt);
                self.note_start(registers, &call.now.both.as_ref().unwrap().0.registers);
            }
            Code::Mpg(mpg) => self.note_mpg(word, &mpg),
            Code::Direct(quadwords) | Code::Directhl(quadwords) => {
                self.add_if("DIRECT with IMM 0", quadwords == vif::MOST_DIRECT);
                self.add(&format!("DIRECT in word {}", call.number));
            }
            Code::Unpack {
                address, add_tops, ..
            } => {
                if self.model.has_tops() {
                    self.note_tops(registers.tops, address, add_tops);
                }
                self.note_without_payload(registers, &code, call);
            }
            _ => {}
        }
    }

    fn note_mpg(&mut self, word: u32, mpg: &Mpg) {
        self.add_if("MPG with NUM 0", word >> 16 & 0xFF == 0);
        let high = word & 0xFFFF >= MPG_ADDRESSES;
        self.add_if("MPG with IMM from 2,048 up", high);
        self.add_if("MPG with one instruction", mpg.count == 1);
    }

    fn note_tops(&mut self, tops: u32, address: u32, add_tops: bool) {
        let high = add_tops && address + tops >= ADDRESSES;
        self.add_if("UNPACK with TOPS added", add_tops && tops != 0);
        self.add_if("UNPACK, address + TOPS from 1,024 up", high);
        self.add_if("UNPACK without TOPS", !add_tops && tops != 0);
    }

    /// Notes what MSCAL, MSCALF and MSCNT do to the registers.
    fn note_start(&mut self, registers: &Registers, now: &Registers) {
        self.add_if("ITOP changes", now.itop != registers.itop);
        if !self.model.has_tops() {
            return;
        }
        let high = now.dbf && registers.base + registers.ofst >= ADDRESSES;
        self.add_if("DBF flips to 0", registers.dbf);
        self.add_if("DBF flips to 1", !registers.dbf);
        self.add_if("BASE + OFST from 1,024 up", high);
        self.add_if("TOP changes", now.top != registers.top);
        self.add_if("TOP and TOPS differ afterwards", now.top != now.tops);
    }

    /// Notes an UNPACK whose writes all belong to the code's own step.
    fn note_without_payload(&mut self, registers: &Registers, code: &Code, call: &Call) {
        if let Some((Payload::Unpack(unpack), 0)) = code.payload(registers) {
            self.unpack.note(&unpack_counts::Step {
                model: self.model,
                registers,
                unpack: &unpack,
                payload: None,
                restored: call.restored,
                first: call.first,
                interrupt: call.answer & INTERRUPT != 0,
            });
        }
    }

    fn note_code_refused(&mut self, registers: &Registers, call: &Call, refusal: u32) {
        let word = call.given.word();
        let interrupt = word >> 31 == 1;
        self.add_if("codes refused with their bit 31 set", interrupt);
        // What is refused with 26 where nothing else is wrong.
        let bit_15 = !self.model.has_tops() && word >> 15 & 1 == 1;
        match refusal {
            refusals::COMMAND if self.model.has(command_of(word)) => self.add("refused 20"),
            refusals::COMMAND => self.add(&format!("refused 20, {}", KINDS[kind(word)].1)),
            refusals::FORMAT => {
                self.add(&format!("refused 21, vn {}", word >> 26 & 3));
                let legal = registers.cycle().is_legal();
                self.add_if("refused 21 with WL for 22", !legal);
                self.add_if("refused 21, 26 would be next", legal && bit_15);
                self.add_if("refused 21, 22 and 26 would be next", !legal && bit_15);
            }
            refusals::CYCLE => {
                self.add(if registers.cl == 0 {
                    "refused 22, CL 0"
                } else {
                    "refused 22, CL not 0"
                });
                self.add_if("refused 22, 26 would be next", bit_15);
            }
            refusals::TOPS => {
                self.add("refused 26");
                let no_payload = registers.cl == 0;
                self.add_if("refused 26 with CL 0", no_payload);
            }
            refusals::MODE => self.add("refused 23"),
            _ => self.add(&format!("refused 31, {}", KINDS[kind(word)].1)),
        }
    }

    fn note_direct_refused(&mut self, path: &Path, call: &Call, refusal: u32) {
        match (refusal, &path.place) {
            (refusals::PLACE, _) => self.add(&format!("refused 24, word {}", call.number)),
            (refusals::DESCRIPTOR, _) => self.add("refused 30 inside DIRECT"),
            (_, Place::Idle) => self.add("refused 31 inside DIRECT, at a tag"),
            (_, Place::Data { tag, .. }) => {
                let name = format!("refused 31 inside DIRECT, {:?}", tag.format);
                let one = log::room(call.now.log.len(), call.used_before) == 1;
                self.add_if(&format!("{name}, one entry free"), one);
                self.add(&name);
            }
        }
    }

    fn note_payload(&mut self, registers: &Registers, waiting: &Waiting, path: &Path, call: &Call) {
        let number = waiting_number(&waiting.payload) as usize - 1;
        let name = WAITING[number];
        self.payload_words[number] += 1;
        if call.first {
            self.add(&format!("waiting at a case's start, {name}"));
        } else if call.restored {
            self.add(&format!("waiting at a later group's start, {name}"));
        }
        let last = waiting.due == 1;
        if last {
            self.completed[number] += 1;
            self.interrupts[FIRST_WAITING + number] += (call.answer & INTERRUPT != 0) as u64;
        }
        match &waiting.payload {
            Payload::Mpg(mpg) => self.note_instructions(mpg, waiting, call),
            Payload::Direct | Payload::Directhl => {
                self.note_packet(waiting, path, call);
                self.note_direct(path, last, call);
            }
            Payload::Unpack(unpack) => {
                let high = unpack.address >= self.model.sizes().quadwords && call.restored;
                self.add_if("UNPACK from a block, its address above the end", high);
                self.unpack.note(&unpack_counts::Step {
                    model: self.model,
                    registers,
                    unpack,
                    payload: Some((waiting.due, call.given.word())),
                    restored: call.restored,
                    first: call.first,
                    interrupt: call.answer & INTERRUPT != 0,
                });
            }
            _ => {}
        }
    }

    /// Notes a word of MPG's payload.
    fn note_instructions(&mut self, mpg: &Mpg, waiting: &Waiting, call: &Call) {
        let (due, restored) = (waiting.due, call.restored);
        if waiting.is_upload() {
            self.add(&format!("MPG's first word taken, word {}", call.number));
            self.note_upload(call);
        } else {
            let half = due % 2;
            self.add(&format!("MPG's later {}", upload_word(half, call.number)));
        }
        let taken = mpg.all_words() - due;
        let instructions = self.model.sizes().instructions;
        let wraps = mpg.address + taken / 2 >= instructions;
        self.add_if("MPG words stored round the end", wraps);
        let high = mpg.address >= instructions && restored;
        self.add_if("MPG from a block, its address above the end", high);
        let whole = due == 1 && mpg.count == vif::MOST_NUM;
        self.add_if("MPG of 256 instructions completed", whole);
    }

    fn note_direct(&mut self, path: &Path, last: bool, call: &Call) {
        match &path.place {
            Place::Idle => self.add("DIRECT quadwords, tags"),
            Place::Data { tag, .. } => {
                self.add(&format!("DIRECT quadwords, {:?}", tag.format));
            }
        }
        let now = &call.now.both.as_ref().unwrap().1;
        let inside = matches!(now.place, Place::Data { .. });
        self.add_if("DIRECT completed inside a GIF tag", last && inside);
        self.add_if("DIRECT completed between GIF tags", last && !inside);
    }

    /// Notes what a quadword given inside DIRECT or DIRECTHL is to its packet.
    fn note_packet(&mut self, waiting: &Waiting, path: &Path, call: &Call) {
        let Given::Quadword(quadword) = call.given else {
            return;
        };
        let Some(way) = Way::of_payload(&waiting.payload) else {
            return;
        };
        self.packets[way as usize].note(path, quadword, call.taken());
        let writes = call.now.used > call.used_before;
        let pre = writes && path.place == Place::Idle;
        self.add_if(
            &format!("quadwords with log entries, {}", way.name()),
            writes,
        );
        self.add_if(&format!("PRE writes, {}", way.name()), pre);
        if call.taken() != Ok(true) {
            return;
        }
        let interrupt = call.answer & INTERRUPT != 0;
        self.add_if("packets closed with an interrupt", interrupt);
        self.add_if("packets closed before the code's end", waiting.due > 1);
        self.add_if("packets closed at a case's start", call.first);
        let later = call.restored && !call.first;
        self.add_if("packets closed at a later group's start", later);
    }

    /// Every count by name.
    pub fn rows(&self) -> Vec<(String, u64)> {
        let mut rows: Vec<(String, u64)> = Vec::new();
        let mut row = |name: &str, count: u64| rows.push((name.to_string(), count));
        row("cases", self.cases);
        row("groups", self.groups);
        row("calls", self.calls);
        row("words taken", self.words);
        if self.model.has(DIRECT) {
            row("quadwords taken", self.quadwords);
        }
        for (i, (command, kind)) in KINDS.iter().enumerate() {
            if !self.model.has(*command) {
                continue;
            }
            row(&format!("codes taken, {kind}"), self.codes[i]);
            row(
                &format!("codes taken with unused bits set, {kind}"),
                self.codes_with_unused_bits[i],
            );
            row(&format!("interrupts completed, {kind}"), self.interrupts[i]);
        }
        for (i, kind) in waiting_codes(self.model) {
            row(
                &format!("payload units taken, {kind}"),
                self.payload_words[i],
            );
            row(&format!("payloads completed, {kind}"), self.completed[i]);
        }
        rows.extend(self.unpack.rows());
        rows.extend(self.logs.rows());
        if self.model.has(DIRECT) {
            for way in [Way::Direct, Way::Directhl] {
                rows.extend(self.packets[way as usize].rows(way.name()));
            }
        }
        rows.extend(named_rows(&self.by_name, names(self.model)));
        rows
    }
}

/// A half of an instruction, and the number of its word.
pub fn upload_word(half: u32, number: u32) -> String {
    let half = ["first", "second"][half as usize];
    format!("words, {half} of an instruction, word {number}")
}

/// Whether STMASK waits with other than one word due in a block that has words that mean nothing
/// and would be a unit's else.
fn junk_beside_stmask(block: &UnitBlock) -> bool {
    let mut mended = *block;
    mended[unit_word::DUE] = 1;
    let junk = read_unit(Model::Vif1, &mended).is_some_and(|unit| write_unit(&unit) != mended);
    block[unit_word::WAITING] == state_block::STMASK && block[unit_word::DUE] != 1 && junk
}

/// The fields of a unit block that are out of their range, by name.
pub fn wrong_fields(model: Model, block: &UnitBlock) -> Vec<String> {
    let mut wrong: Vec<String> = (0..unit_word::LIMITED)
        .filter(|&register| block[register] > limit(model, register))
        .map(|register| REGISTERS[register].0.to_string())
        .collect();
    match block[unit_word::WAITING] {
        state_block::NONE => {}
        number if never_waits(model, number) => {
            wrong.push(format!("{} waiting", waiting_name(number)));
        }
        number @ state_block::STMASK..=state_block::UNPACK => {
            let name = waiting_name(number);
            let fields = wrong_waiting_fields(block);
            wrong.extend(fields.iter().map(|field| format!("{name} {field}")));
        }
        _ => wrong.push("waiting code".to_string()),
    }
    wrong
}

/// Whether a number is that of a code that waits on VIF1 alone, and the unit is VIF0.
fn never_waits(model: Model, number: u32) -> bool {
    let direct = matches!(number, state_block::DIRECT | state_block::DIRECTHL);
    direct && !model.has(DIRECT)
}

/// The fields of the waiting code that are out of their range.
fn wrong_waiting_fields(block: &UnitBlock) -> Vec<&'static str> {
    let waiting = block[unit_word::WAITING];
    let (due, count) = (block[unit_word::DUE], block[unit_word::COUNT]);
    let addresses = match waiting {
        state_block::MPG => Some(MPG_ADDRESSES),
        state_block::UNPACK => Some(ADDRESSES),
        _ => None,
    };
    let count_right = addresses.is_none() || (1..=vif::MOST_NUM).contains(&count);
    let unpack = waiting == state_block::UNPACK;
    let (cl, wl) = (block[unit_word::CL], block[unit_word::WL]);
    let format = Format::from_number(block[unit_word::FORMAT]);
    let too_many = count_right && all_due(block).is_some_and(|all| due > all);
    let fields = [
        ("interrupt", block[unit_word::INTERRUPT] > 1),
        (
            "address",
            addresses.is_some_and(|limit| block[unit_word::ADDRESS] >= limit),
        ),
        ("count", !count_right),
        ("format", unpack && format.is_none()),
        ("USN", unpack && block[unit_word::USN] > 1),
        ("M", unpack && block[unit_word::M] > 1),
        ("beside WL 0", unpack && wl == 0),
        ("beside CL 0", unpack && wl != 0 && cl == 0),
        ("due 0", due == 0),
        ("due too many", too_many),
    ];
    fields.iter().filter(|f| f.1).map(|f| f.0).collect()
}

/// What a waiting code has due at most; none where its other fields do not say it. Its count is
/// in range.
fn all_due(block: &UnitBlock) -> Option<u32> {
    let count = block[unit_word::COUNT];
    match block[unit_word::WAITING] {
        state_block::STMASK => Some(1),
        state_block::STROW | state_block::STCOL => Some(4),
        state_block::MPG => Some(2 * count),
        state_block::UNPACK => {
            let format = Format::from_number(block[unit_word::FORMAT])?;
            let (cl, wl) = (block[unit_word::CL], block[unit_word::WL]);
            let right = (1..=255).contains(&cl) && (1..=255).contains(&wl);
            right.then(|| format.words_of(Cycle { cl, wl }.vectors(count)))
        }
        _ => Some(vif::MOST_DIRECT),
    }
}

/// Whether an UNPACK waits with more words due than its vectors have, but not more than as many
/// vectors as writes would have.
fn counted_without_fills(block: &UnitBlock) -> bool {
    let format = Format::from_number(block[unit_word::FORMAT]);
    let plain = format.map_or(0, |format| format.words_of(block[unit_word::COUNT]));
    let due = block[unit_word::DUE];
    wrong_waiting_fields(block) == ["due too many"] && due <= plain
}

/// All names that `wrong_fields` gives.
pub fn field_names(model: Model) -> Vec<String> {
    let mut names: Vec<String> = REGISTERS.iter().map(|(name, _)| name.to_string()).collect();
    names.push("waiting code".to_string());
    for (number, name) in WAITING.iter().enumerate() {
        if never_waits(model, number as u32 + 1) {
            names.push(format!("{name} waiting"));
            continue;
        }
        for field in ["interrupt", "due 0", "due too many"] {
            names.push(format!("{name} {field}"));
        }
    }
    for field in ["address", "count"] {
        names.push(format!("MPG {field}"));
        names.push(format!("UNPACK {field}"));
    }
    for field in ["format", "USN", "M", "beside WL 0", "beside CL 0"] {
        names.push(format!("UNPACK {field}"));
    }
    names
}

/// The names of the counts that are kept by name.
fn names(model: Model) -> Vec<String> {
    let own = match model {
        Model::Vif0 => vif0_names(),
        Model::Vif1 => vif1_names(),
    };
    let mut names: Vec<String> = NAMES.iter().map(|name| name.to_string()).collect();
    names.extend(own);
    let mut add = |name: String| names.push(name);
    for field in field_names(model) {
        add(format!("refused 5, {field}"));
    }
    for (_, name) in waiting_codes(model) {
        add(format!("waiting at a case's start, {name}"));
        add(format!("waiting at a later group's start, {name}"));
        add(format!("cases that end with {name} waiting"));
    }
    for name in ["MSCAL", "MSCNT"] {
        add(format!("refused 31, {name}"));
    }
    for vn in 0..3 {
        add(format!("refused 21, vn {vn}"));
    }
    names.extend(upload_names());
    names
}

/// The names about the first word of an MPG and its later ones.
fn upload_names() -> Vec<String> {
    let mut names = vec!["refused 25 with bit 31 set".to_string()];
    let mut add = |name: String| names.push(name);
    for number in 0..4 {
        add(match number % 2 {
            0 => format!("MPG's first word taken, word {number}"),
            _ => format!("refused 25, word {number}"),
        });
        for at in ["a case's start", "a later group's start"] {
            add(format!("MPG's first word at {at}, word {number}"));
        }
        for half in 0..2 {
            add(format!("MPG's later {}", upload_word(half, number)));
        }
    }
    names
}

/// The names that only VIF0 has.
fn vif0_names() -> Vec<String> {
    let mut names: Vec<String> = VIF0_NAMES.iter().map(|name| name.to_string()).collect();
    for command in ONLY_VIF1 {
        names.push(format!("refused 20, {}", KINDS[kind(command << 24)].1));
    }
    names
}

/// The names that only VIF1 has.
fn vif1_names() -> Vec<String> {
    let mut names: Vec<String> = VIF1_NAMES.iter().map(|name| name.to_string()).collect();
    let mut add = |name: String| names.push(name);
    for format in ["Packed", "Reglist", "Image"] {
        add(format!("DIRECT quadwords, {format}"));
        add(format!("refused 31 inside DIRECT, {format}"));
        if format != "Packed" {
            add(format!(
                "refused 31 inside DIRECT, {format}, one entry free"
            ));
        }
    }
    for way in [Way::Direct, Way::Directhl] {
        add(format!("quadwords with log entries, {}", way.name()));
        add(format!("PRE writes, {}", way.name()));
    }
    for number in 0..4 {
        add(format!("DIRECT in word {number}"));
    }
    for number in 1..4 {
        add(format!("refused 24, word {number}"));
    }
    names
}

const NAMES: &[&str] = &[
    "unit blocks with words that mean nothing",
    "unit blocks with words that mean nothing, STMASK with other than one word due",
    "groups without a call",
    "groups of one call",
    "groups of 2 to 9 calls",
    "groups of 10 calls or more",
    "groups with no word left",
    "groups that end inside an instruction",
    "groups that end inside a GIF tag",
    "cases with words left over",
    "refused 2, the other unit's data memory",
    "refused 2, both memories the other unit's",
    "refused 2, data memory too short",
    "refused 2, data memory too long",
    "refused 2, 3 would be next",
    "refused 2, 4 would be next",
    "refused 2, 5 would be next",
    "refused 2, nothing else wrong",
    "refused 3, the other unit's code memory",
    "refused 3, code memory too short",
    "refused 3, code memory too long",
    "refused 3, 4 would be next",
    "refused 3, 5 would be next",
    "refused 3, nothing else wrong",
    "refused 4, 5 would be next",
    "refused 4, nothing else wrong",
    "refused 5, several at once",
    "refused 5, UNPACK due too many, WL > CL alone makes it so",
    "refused 5, path block in no path",
    "refused 5, path out of range",
    "refused 20",
    "refused 21 with WL for 22",
    "refused 22, CL 0",
    "refused 22, CL not 0",
    "refused 23",
    "codes refused with their bit 31 set",
    "log entries of program starts",
    "log exactly full after a write",
    "taken without a write, log full",
    "ITOP changes",
    "MSCNT with IMM",
    "MPG with NUM 0",
    "MPG with IMM from 2,048 up",
    "MPG with one instruction",
    "MPG words stored round the end",
    "MPG of 256 instructions completed",
];

const VIF0_NAMES: &[&str] = &[
    "refused 21, 26 would be next",
    "refused 21, 22 and 26 would be next",
    "refused 22, 26 would be next",
    "refused 26",
    "refused 26 with CL 0",
    "MPG from a block, its address above the end",
    "UNPACK from a block, its address above the end",
];

const VIF1_NAMES: &[&str] = &[
    "refused 31, MSCALF",
    "refused 30 inside DIRECT",
    "refused 31 inside DIRECT, at a tag",
    "OFFSET with DBF 1",
    "OFFSET with TOPS not BASE",
    "BASE with TOPS not the new BASE",
    "DBF flips to 0",
    "DBF flips to 1",
    "BASE + OFST from 1,024 up",
    "TOP changes",
    "TOP and TOPS differ afterwards",
    "DIRECT with IMM 0",
    "DIRECT quadwords, tags",
    "DIRECT completed inside a GIF tag",
    "DIRECT completed between GIF tags",
    "packets closed with an interrupt",
    "packets closed before the code's end",
    "packets closed at a case's start",
    "packets closed at a later group's start",
    "UNPACK with TOPS added",
    "UNPACK, address + TOPS from 1,024 up",
    "UNPACK without TOPS",
];
