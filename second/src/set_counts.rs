//! What sets reached.

use crate::chain::State;
use crate::compare::named_rows;
use crate::model::{Model, MODELS};
use crate::refusals;
use crate::set::REGISTERS;
use crate::state_block::{
    chain_word, part, read_path, read_state, read_unit, rewritten, unit_word, waiting_name,
    StateBlock, NONE, PATHS, STMASK, UNITS, UNPACK, VIF0, VIF1,
};
use crate::vif::Payload;
use std::collections::HashMap;

const ORDER: [u32; 3] = [refusals::NUMBER, refusals::RANGE, refusals::WAITING];
/// Units that there are not, by name.
const NO_UNITS: [&str; 3] = ["unit 2", "unit above 2, low bits of one", "unit above 2"];
/// The parts of a block that can be in no state, before the units and paths.
const CHAIN: [(&str, usize, u32); 4] = [
    ("TTE above 1", chain_word::TTE, 1),
    ("ended above 1", chain_word::ENDED, 1),
    ("depth above 2", chain_word::DEPTH, 2),
    ("tag words above 1", chain_word::TAG_WORDS, 1),
];

#[derive(Default)]
pub struct Counts {
    by_name: HashMap<String, u64>,
    sets: u64,
    /// The call before: a start, a run, a set or a why.
    last: Option<&'static str>,
    /// Whether something was set of VIF0 and of VIF1 in this case.
    set: [bool; 2],
    /// The case's results show whole memories.
    whole: bool,
}

impl Counts {
    fn add_if(&mut self, name: &str, happened: bool) {
        if happened {
            *self.by_name.entry(name.to_string()).or_default() += 1;
        }
    }

    pub fn begin_case(&mut self, whole: bool) {
        self.whole = whole;
        self.last = None;
        self.set = [false; 2];
    }

    /// Notes a start, a run or a why.
    pub fn note_call(&mut self, call: &'static str, before: &StateBlock) {
        let after_set = self.last == Some("sets");
        self.add_if(&format!("{call} just after a set"), after_set);
        let junk = rewritten(before) != *before;
        let name = format!("{call} just after a set, over words that mean nothing");
        self.add_if(&name, after_set && junk);
        self.last = Some(call);
    }

    /// Notes a step that was completed.
    pub fn note_step(&mut self, old: &State) {
        let unit = old.unit();
        let was_set = self.set[unit.model as usize] && old.channel != 2;
        let Some(waiting) = unit.waiting.filter(|_| was_set) else {
            return;
        };
        if let Payload::Unpack(unpack) = waiting.payload {
            let name = unit.model.name();
            let (masked, mode) = (unpack.masked, unit.registers.mode);
            let words = "words of UNPACK after a set";
            self.add_if(&format!("{words}, {name}, M"), masked);
            self.add_if(&format!("{words}, {name}, MODE {mode}"), mode > 0);
        }
    }

    /// Notes a set by its unit, number and value; a run on the block is refused with these.
    pub fn note_set(
        &mut self,
        before: &StateBlock,
        (unit, number, value): (u32, u32, u32),
        answer: u32,
        refused: &[u32],
    ) {
        self.sets += 1;
        self.add_if(&after_name(self.last), true);
        self.add_if("sets in cases that show whole memories", self.whole);
        self.last = Some("sets");
        let junk = rewritten(before) != *before;
        let wrong = wrong(before, unit, number);
        match answer {
            0 => self.note_accepted(before, (unit, number, value), refused),
            _ => {
                let next = wrong.get(1).copied();
                self.add_if(&refused_name(answer, next), true);
                let name = format!("set refused {answer} beside words that mean nothing");
                self.add_if(&name, junk);
            }
        }
        self.add_if("set over words that mean nothing", answer == 0 && junk);
        match answer {
            refusals::NUMBER => self.note_number(number),
            refusals::RANGE => self.note_range(before, unit),
            refusals::WAITING => {
                let (model, at) = place(unit);
                let name = waiting_name(before[at + unit_word::WAITING]);
                let alone = waits(before, model.other()) == NONE;
                let others = if alone {
                    "alone"
                } else {
                    "as on the other unit"
                };
                self.add_if(&waiting_set(model, name), true);
                self.add_if(&format!("set refused 51, a code waits {others}"), true);
            }
            _ => {}
        }
    }

    fn note_number(&mut self, number: u32) {
        self.add_if("set refused 50, number 8", number == 8);
        let low = number > 8 && number & 0xFF < 8;
        self.add_if("set refused 50, low bits of a register's number", low);
        self.add_if("set refused 50, number from 2^31", number >= 1 << 31);
    }

    fn note_range(&mut self, before: &StateBlock, unit: u32) {
        let none = no_state(before);
        if unit > 1 && none.is_empty() {
            let name = match unit {
                2 => NO_UNITS[0],
                _ if unit & 0xFF < 2 => NO_UNITS[1],
                _ => NO_UNITS[2],
            };
            self.add_if(&format!("set refused 5, {name}"), true);
        }
        if let (0..=1, [part]) = (unit, &none[..]) {
            self.add_if(&format!("set refused 5, {part}"), true);
        }
        self.add_if(
            "set refused 5, no such unit and no state",
            unit > 1 && !none.is_empty(),
        );
    }

    fn note_accepted(
        &mut self,
        before: &StateBlock,
        (unit, number, value): (u32, u32, u32),
        refused: &[u32],
    ) {
        let (model, at) = place(unit);
        self.set[model as usize] = true;
        self.add_if(&register_name(model, number), true);
        let held = before[at + REGISTERS[number as usize]];
        self.add_if("set to 0", value == 0 && held != 0);
        self.add_if("set to 2^32 - 1", value == u32::MAX && held != value);
        self.add_if("set to the value held", value == held);
        let channel = match before[chain_word::CHANNEL] {
            channel @ 0..=2 => format!("channel {channel}"),
            _ => "no channel".to_string(),
        };
        self.add_if(&format!("set of {} on {channel}", model.name()), true);
        let other = waits(before, model.other());
        if other != NONE {
            let name = waiting_name(other);
            self.add_if(&beside_name(model, name), true);
        }
        if let Some(refusal) = refused.first() {
            self.add_if(&format!("set where a run is refused {refusal}"), true);
        }
        let pending = before[chain_word::PAYLOAD_WORDS] > 0;
        self.add_if("set with payload pending", pending);
        let tag_words = before[chain_word::TAG_WORDS] == 1;
        self.add_if("set with tag words pending", tag_words);
        let inside = PATHS.iter().any(|&(_, at)| before[at + 1] == 1);
        self.add_if("set inside a GIF tag", inside);
        self.add_if(
            "set on a chain that has ended",
            before[chain_word::ENDED] == 1,
        );
    }

    /// Every count by name; a run is refused at entry with these.
    pub fn rows(&self, entry: &[u32]) -> Vec<(String, u64)> {
        let mut rows = vec![("sets".to_string(), self.sets)];
        rows.extend(named_rows(&self.by_name, names(entry)));
        rows
    }
}

fn place(unit: u32) -> (Model, usize) {
    match unit {
        0 => (Model::Vif0, VIF0),
        _ => (Model::Vif1, VIF1),
    }
}

/// The code that waits on a unit.
fn waits(block: &StateBlock, model: Model) -> u32 {
    let at = match model {
        Model::Vif0 => VIF0,
        Model::Vif1 => VIF1,
    };
    block[at + unit_word::WAITING]
}

/// The numbers of all that is wrong with a set, in order.
fn wrong(block: &StateBlock, unit: u32, number: u32) -> Vec<u32> {
    let waits = unit < 2 && waits(block, place(unit).0) != NONE;
    let range = unit > 1 || read_state(block).is_none();
    let all = [number > 7, range, waits];
    let named = ORDER.into_iter().zip(all);
    named.filter(|(_, is)| *is).map(|(name, _)| name).collect()
}

/// The parts of a block that exist in no state, by name.
fn no_state(block: &StateBlock) -> Vec<String> {
    let mut names = Vec::new();
    for (name, at, most) in CHAIN {
        if block[at] > most {
            names.push(name.to_string());
        }
    }
    for (model, at) in UNITS {
        if read_unit(model, &part(block, at)).is_none() {
            names.push(format!("{} in no unit", model.name()));
        }
    }
    for (number, at) in PATHS {
        if read_path(&part(block, at)).is_none() {
            names.push(format!("path {number} in no path"));
        }
    }
    names
}

fn after_name(last: Option<&'static str>) -> String {
    match last {
        None => "sets as the first call".to_string(),
        Some(last) => format!("sets just after {last}"),
    }
}

fn refused_name(answer: u32, next: Option<u32>) -> String {
    match next {
        Some(next) => format!("set refused {answer}, {next} would be next"),
        None => format!("set refused {answer}, nothing else wrong"),
    }
}

fn register_name(model: Model, number: u32) -> String {
    let name = ["ROW", "COL"][number as usize / 4];
    format!("set of {} {name} {}", model.name(), number % 4)
}

fn waiting_set(model: Model, name: &str) -> String {
    format!("set refused 51, {name} waits on {}", model.name())
}

fn beside_name(model: Model, name: &str) -> String {
    let other = model.other().name();
    format!(
        "set of {} where {name} waits on {other} alone",
        model.name()
    )
}

fn names(entry: &[u32]) -> Vec<String> {
    let mut names: Vec<String> = NAMES.iter().map(|name| name.to_string()).collect();
    let calls = ["starts", "runs", "sets", "whys"].map(Some);
    names.extend([None].into_iter().chain(calls).map(after_name));
    for call in ["starts", "runs", "whys"] {
        names.push(format!("{call} just after a set"));
        names.push(format!(
            "{call} just after a set, over words that mean nothing"
        ));
    }
    for (i, &first) in ORDER.iter().enumerate() {
        names.push(refused_name(first, None));
        names.push(format!(
            "set refused {first} beside words that mean nothing"
        ));
        for &next in &ORDER[i + 1..] {
            names.push(refused_name(first, Some(next)));
        }
    }
    for refusal in entry {
        names.push(format!("set where a run is refused {refusal}"));
    }
    let no_state = CHAIN.iter().map(|part| part.0.to_string());
    let units = UNITS.map(|(model, _)| format!("{} in no unit", model.name()));
    let paths = PATHS.map(|(number, _)| format!("path {number} in no path"));
    let parts = no_state.chain(units).chain(paths);
    let parts = parts.chain(NO_UNITS.map(String::from));
    names.extend(parts.map(|name| format!("set refused 5, {name}")));
    for model in MODELS {
        names.extend(unit_names(model));
    }
    names
}

fn unit_names(model: Model) -> Vec<String> {
    let unit = model.name();
    let mut names: Vec<String> = (0..8).map(|i| register_name(model, i)).collect();
    for channel in ["channel 0", "channel 1", "channel 2", "no channel"] {
        names.push(format!("set of {unit} on {channel}"));
    }
    for code in STMASK..=UNPACK {
        names.push(waiting_set(model, waiting_name(code)));
        names.push(beside_name(model, waiting_name(code)));
    }
    for what in ["M", "MODE 1", "MODE 2"] {
        names.push(format!("words of UNPACK after a set, {unit}, {what}"));
    }
    names
}

const NAMES: &[&str] = &[
    "sets in cases that show whole memories",
    "set to 0",
    "set to 2^32 - 1",
    "set to the value held",
    "set with payload pending",
    "set with tag words pending",
    "set inside a GIF tag",
    "set on a chain that has ended",
    "set over words that mean nothing",
    "set refused 5, no such unit and no state",
    "set refused 50, number 8",
    "set refused 50, low bits of a register's number",
    "set refused 50, number from 2^31",
    "set refused 51, a code waits alone",
    "set refused 51, a code waits as on the other unit",
];
