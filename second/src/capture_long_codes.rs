//! What the codes of long captures reached, by unit: runs of NOPs, payloads, and what cut them.

use crate::capture_long_cases::refusals_of;
use crate::capture_long_unpacks::Waits;
use crate::chain::{word_at, Next, State, Step, ALLOWANCE_USED};
use crate::compare::named_rows;
use crate::model::{Model, MODELS};
use crate::state_block::{waiting_name, waiting_number, DIRECT, DIRECTHL, STCOL, STMASK, UNPACK};
use crate::vif::{Code, Mpg, Payload, Unit, Waiting};
use std::collections::HashMap;

/// So many NOPs are many.
const MANY: u32 = 100;

const NAMES: [&str; 11] = [
    "two NOPs and more in a row behind one tag",
    "100 NOPs and more in a row behind one tag",
    "NOPs on both sides of a tag",
    "runs that the allowance ends between NOPs",
    "interrupts at a NOP after a NOP",
    "MPG payload round the end of code memory",
    "tags inside an instruction of MPG",
    "runs that the allowance ends inside an instruction of MPG",
    "tags inside a vector",
    "runs that the allowance ends inside a vector",
    "interrupts at the end of UNPACK after vectors of the run",
];

/// What a run has done since it began or since its last tag.
#[derive(Default)]
struct Row {
    /// NOPs one after another.
    nops: u32,
    /// Codes, and whether the last of them is STMASK, STROW or STCOL, whole and after another one.
    codes: u32,
    stored: Option<u32>,
}

#[derive(Default)]
pub struct Counts {
    by_name: HashMap<String, u64>,
    row: Row,
    /// The step before the last tag took a NOP, and no word has come since.
    nop_before_tag: bool,
    /// Payload words of UNPACKs that made writes in the run.
    vectors: u64,
}

impl Counts {
    fn add_if(&mut self, model: Model, name: &str, happened: bool) {
        if happened {
            *self.by_name.entry(on(model, name)).or_default() += 1;
        }
    }

    pub fn begin_run(&mut self) {
        (self.row, self.nop_before_tag, self.vectors) = (Row::default(), false, 0);
    }

    /// Notes a step that was tried on a unit's channel.
    pub fn note_step(&mut self, main: &[u8], old: &State, tried: &Result<Step, u32>) {
        let unit = old.unit();
        match tried {
            Err(refusal) => {
                let name = refused_after_vectors(*refusal);
                self.add_if(unit.model, &name, self.vectors > 0);
            }
            Ok(Step::Tag(_)) => self.note_tag(unit),
            Ok(step) => {
                match &unit.waiting {
                    None => self.note_code(unit, next_word(main, old), step),
                    Some(waiting) => self.note_payload(unit, waiting, step),
                }
                self.nop_before_tag = false;
            }
        }
    }

    fn note_tag(&mut self, unit: &Unit) {
        let model = unit.model;
        self.nop_before_tag |= self.row.nops > 0;
        self.row = Row::default();
        let Some(waiting) = &unit.waiting else {
            return;
        };
        self.add_if(model, &tags_inside(number_of(waiting)), true);
        self.add_if(
            model,
            "tags inside an instruction of MPG",
            in_instruction(waiting),
        );
        let inside = Waits::of(unit).is_some_and(|waits| waits.inside());
        self.add_if(model, "tags inside a vector", inside);
    }

    fn note_code(&mut self, unit: &Unit, word: u32, step: &Step) {
        let model = unit.model;
        if let Some(stored) = self.row.stored.take() {
            self.add_if(model, &between(stored), true);
        }
        self.row.codes += 1;
        if Code::decode(model, word) != Ok(Code::Nop) {
            self.row.nops = 0;
            return;
        }
        self.row.nops += 1;
        let nops = self.row.nops;
        self.add_if(
            model,
            "two NOPs and more in a row behind one tag",
            nops == 2,
        );
        self.add_if(
            model,
            "100 NOPs and more in a row behind one tag",
            nops == MANY,
        );
        self.add_if(model, "NOPs on both sides of a tag", self.nop_before_tag);
        let interrupt = step.interrupt() && nops > 1;
        self.add_if(model, "interrupts at a NOP after a NOP", interrupt);
    }

    fn note_payload(&mut self, unit: &Unit, waiting: &Waiting, step: &Step) {
        let (model, number) = (unit.model, number_of(waiting));
        self.row.nops = 0;
        let writes = Waits::of(unit).map(|waits| waits.written());
        self.vectors += writes.is_some_and(|(first, end)| first < end) as u64;
        if let Payload::Mpg(mpg) = &waiting.payload {
            let name = "MPG payload round the end of code memory";
            self.add_if(model, name, goes_round(model, mpg, waiting.due));
        }
        if waiting.due > 1 {
            return;
        }
        self.add_if(model, &interrupts(number), step.interrupt());
        let name = "interrupts at the end of UNPACK after vectors of the run";
        let after = step.interrupt() && number == UNPACK && self.vectors > 1;
        self.add_if(model, name, after);
        let stored = (STMASK..=STCOL).contains(&number) && self.row.codes > 1;
        self.row.stored = stored.then_some(number);
    }

    /// Notes how a run on a unit's channel ended.
    pub fn end_run(&mut self, main: &[u8], state: &State, answer: u32) {
        if answer != ALLOWANCE_USED {
            return;
        }
        let unit = state.unit();
        let model = unit.model;
        let Some(waiting) = &unit.waiting else {
            let nop = Code::decode(model, next_word(main, state)) == Ok(Code::Nop);
            let between = self.row.nops > 0 && nop && state.next() != Next::Tag;
            self.add_if(model, "runs that the allowance ends between NOPs", between);
            return;
        };
        let number = number_of(waiting);
        let vectors = number != UNPACK || self.vectors > 0;
        self.add_if(model, &allowance_ends(number), vectors);
        let name = "runs that the allowance ends inside an instruction of MPG";
        self.add_if(model, name, in_instruction(waiting));
        let inside = Waits::of(unit).is_some_and(|waits| waits.inside());
        let name = "runs that the allowance ends inside a vector";
        self.add_if(model, name, inside && self.vectors > 0);
    }

    /// Every count by name.
    pub fn rows(&self) -> Vec<(String, u64)> {
        named_rows(&self.by_name, names())
    }
}

/// The word that the next step takes; 0 for a tag.
fn next_word(main: &[u8], state: &State) -> u32 {
    match state.next() {
        Next::Tag => 0,
        Next::TagWord(address) => word_at(main, address),
        Next::Payload(pending) => word_at(main, pending.address),
    }
}

fn number_of(waiting: &Waiting) -> u32 {
    waiting_number(&waiting.payload)
}

/// Whether an MPG waits for the second word of an instruction.
pub fn in_instruction(waiting: &Waiting) -> bool {
    matches!(waiting.payload, Payload::Mpg(_)) && waiting.due % 2 == 1
}

/// Whether the word that comes with so many due is the first after the memory's end.
fn goes_round(model: Model, mpg: &Mpg, due: u32) -> bool {
    let taken = mpg.all_words() - due;
    let place = mpg.address + taken / 2;
    taken > 0 && taken % 2 == 0 && place % model.sizes().instructions == 0
}

fn on(model: Model, name: &str) -> String {
    format!("long captures on {}: {name}", model.name())
}

fn tags_inside(number: u32) -> String {
    format!("tags inside {}", waiting_name(number))
}

fn interrupts(number: u32) -> String {
    format!("interrupts at the end of {}", waiting_name(number))
}

fn between(number: u32) -> String {
    let name = waiting_name(number);
    format!("{name} between other codes behind one tag")
}

fn allowance_ends(number: u32) -> String {
    let after = if number == UNPACK {
        " after vectors"
    } else {
        ""
    };
    let name = waiting_name(number);
    format!("runs that the allowance ends inside {name}{after}")
}

fn refused_after_vectors(refusal: u32) -> String {
    format!("refused with {refusal} after vectors of the run")
}

fn names() -> Vec<String> {
    MODELS.into_iter().flat_map(unit_names).collect()
}

fn unit_names(model: Model) -> Vec<String> {
    let has = |number: &u32| model == Model::Vif1 || ![DIRECT, DIRECTHL].contains(number);
    let mut names: Vec<String> = NAMES.map(String::from).to_vec();
    for number in (STMASK..=UNPACK).filter(has) {
        names.extend([
            tags_inside(number),
            interrupts(number),
            allowance_ends(number),
        ]);
    }
    names.extend((STMASK..=STCOL).map(between));
    names.extend(refusals_of(model).into_iter().map(refused_after_vectors));
    names.iter().map(|name| on(model, name)).collect()
}
