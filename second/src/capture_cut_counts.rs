//! What runs in parts reached: where they are cut, and with which allowances.

use crate::capture_cases::Case;
use crate::capture_cuts::{Kind, Trace};
use crate::capture_generate::NO_LIMIT;
use crate::chain::{Next, State, Step, ALLOWANCE_USED, DONE, INTERRUPT};
use crate::compare::named_rows;
use crate::gif::{Format, Place};
use crate::model::{Model, MODELS};
use crate::refusals;
use crate::state_block::{waiting_name, waiting_number, DIRECT, STMASK, UNPACK};
use crate::vif::{Payload, Unit};
use crate::way::{Given, WAYS};
use std::collections::HashMap;

const NAMES: [&str; 25] = [
    "captures whose last run is cut",
    "of them with whole memories",
    "of them with calls before",
    "runs cut at every step",
    "runs cut at one point",
    "runs cut at random places",
    "of them with an allowance of 0 between",
    "runs with another allowance",
    "the least allowance that gives an interrupt",
    "allowance 0 first",
    "allowance 0 between",
    "allowance 0 last",
    "allowance 0 after an interrupt",
    "allowance 0 after a refusal",
    "allowance 0 after the end",
    "parts that add to 2^64 - 1",
    "allowance 2^64 - 1 where less gives the same",
    "cuts before a tag",
    "cuts with log entries on both sides",
    "cuts with packets closed on both sides",
    "cuts just before an interrupt",
    "cuts just after an interrupt",
    "cuts between a code with its bit 31 set and its interrupt",
    "cuts in UNPACK, inside a vector",
    "cuts in UNPACK, WL > CL",
];

/// What the step before a cut took, where a code waits.
const TAKEN: [&str; 3] = ["the code", "some payload", "a tag"];
pub const FORMATS: [Format; 3] = [Format::Packed, Format::Reglist, Format::Image];
const ENTRY: [u32; 6] = [
    refusals::MAIN,
    refusals::DATA,
    refusals::CODE,
    refusals::LOG,
    refusals::RANGE,
    refusals::OUTSIDE,
];

#[derive(Default)]
pub struct Counts {
    by_name: HashMap<String, u64>,
}

impl Counts {
    fn add(&mut self, name: &str) {
        self.add_if(name, true);
    }

    fn add_if(&mut self, name: &str, happened: bool) {
        if happened {
            *self.by_name.entry(name.to_string()).or_default() += 1;
        }
    }

    pub fn note_capture(&mut self, case: &Case, trace: &Trace) {
        self.add("captures whose last run is cut");
        self.add_if("of them with whole memories", case.whole);
        self.add_if("of them with calls before", case.calls.len() > 1);
        self.add(&ends_with(trace));
    }

    /// Notes a run in these parts, after which so many runs have an allowance of 0.
    pub fn note_member(&mut self, kind: Kind, trace: &Trace, parts: &[u64], zeros: usize) {
        match kind {
            Kind::Uncut => return,
            Kind::EveryStep => self.add("runs cut at every step"),
            Kind::OnePoint => self.add("runs cut at one point"),
            Kind::Random => self.add("runs cut at random places"),
            Kind::Allowance => self.note_allowance(trace, parts[0]),
        }
        let (last, first) = parts.split_last().expect("a run has a part");
        let between = first.contains(&0);
        let name = "of them with an allowance of 0 between";
        self.add_if(name, kind == Kind::Random && between);
        let mut cut = 0;
        for (number, &part) in first.iter().enumerate() {
            self.note_zero(trace, number == 0, part);
            cut += part;
            self.note_cut(trace, cut);
        }
        self.add_if("allowance 0 last", !first.is_empty() && *last == 0);
        let sum = cut.checked_add(*last);
        let greatest = !first.is_empty() && sum == Some(NO_LIMIT);
        self.add_if("parts that add to 2^64 - 1", greatest);
        (0..zeros).for_each(|_| self.note_after(trace));
    }

    /// Notes an allowance that gives what the run's own gives.
    fn note_allowance(&mut self, trace: &Trace, allowance: u64) {
        self.add("runs with another allowance");
        let greatest = allowance == NO_LIMIT && trace.allowance < NO_LIMIT;
        self.add_if("allowance 2^64 - 1 where less gives the same", greatest);
        let interrupt = trace.stop.answer == INTERRUPT && allowance == trace.least();
        self.add_if("the least allowance that gives an interrupt", interrupt);
        if allowance > trace.allowance {
            self.add(&larger(trace));
        }
    }

    fn note_zero(&mut self, trace: &Trace, first: bool, part: u64) {
        if part == 0 {
            let name = if first { "first" } else { "between" };
            self.add(&format!("allowance 0 {name}"));
            self.add(&zero_on(trace.channel));
        }
    }

    fn note_after(&mut self, trace: &Trace) {
        let name = match trace.stop.answer {
            ALLOWANCE_USED => return,
            DONE => "the end",
            INTERRUPT => "an interrupt",
            _ => "a refusal",
        };
        self.add(&format!("allowance 0 after {name}"));
    }

    /// Notes a cut after so many steps.
    fn note_cut(&mut self, trace: &Trace, cut: u64) {
        let Some(state) = trace.state(cut) else {
            return;
        };
        self.add(&cuts_on(state.channel));
        let after = cut == 0 && trace.after_interrupt;
        self.add_if("cuts just after an interrupt", after);
        self.note_next(trace, cut, state);
        self.note_sides(trace, cut, state);
        if state.channel != 2 {
            self.note_waiting(trace, cut, state.unit());
        }
        self.note_data(state);
    }

    /// Notes what comes after the cut, and what closed a packet just before.
    fn note_next(&mut self, trace: &Trace, cut: u64, state: &State) {
        match state.next() {
            Next::Tag => self.add("cuts before a tag"),
            Next::TagWord(address) => self.add(&before_tag_word(state.channel, address / 4 % 4)),
            Next::Payload(_) => {}
        }
        if let Some((_, Err(refusal))) = trace.steps.get(cut as usize) {
            self.add(&before_refusal(*refusal));
        }
        if let Some(step) = trace.completed(cut) {
            self.add_if("cuts just before an interrupt", step.interrupt());
            let ends = !state.ended && trace.state(cut + 1).is_some_and(|next| next.ended);
            if matches!(step, Step::Tag(_)) && ends {
                self.add(&before_the_end(state.channel));
            }
            self.note_closing("before", step, state);
        }
        let before = cut.checked_sub(1);
        if let Some(step) = before.and_then(|number| trace.completed(number)) {
            self.note_closing("after", step, &trace.steps[cut as usize - 1].0);
        }
    }

    /// Notes a cut beside a step that closes a packet, by the state before the step.
    fn note_closing(&mut self, side: &str, step: &Step, state: &State) {
        if let Some(given) = Given::new(state).filter(|_| step.closed()) {
            self.add(&beside_closing(side, given.way.name()));
        }
    }

    fn note_sides(&mut self, trace: &Trace, cut: u64, state: &State) {
        let used = |state: Option<&State>| state.map_or(0, |state| state.used);
        let (first, last) = (used(trace.state(0)), used(trace.last.as_ref()));
        let entries = first < state.used && state.used < last;
        self.add_if("cuts with log entries on both sides", entries);
        let closes = |&(_, tried): &(State, Result<Step, u32>)| tried.is_ok_and(|s| s.closed());
        let (one, other) = trace.steps.split_at(cut as usize);
        let some = trace.stop.counts.packets > 0;
        let packets = some && one.iter().any(closes) && other.iter().any(closes);
        self.add_if("cuts with packets closed on both sides", packets);
    }

    /// Notes the code that waits at a cut.
    fn note_waiting(&mut self, trace: &Trace, cut: u64, unit: &Unit) {
        let Some(waiting) = &unit.waiting else {
            return;
        };
        let name = "cuts between a code with its bit 31 set and its interrupt";
        self.add_if(name, waiting.interrupt);
        if let Payload::Unpack(unpack) = &waiting.payload {
            let cycle = unit.registers.cycle();
            let taken = 32 * (unpack.all_words(cycle) - waiting.due);
            let inside = taken % unpack.format.vector_bits() != 0;
            self.add_if("cuts in UNPACK, inside a vector", inside);
            self.add_if("cuts in UNPACK, WL > CL", cycle.has_fills());
        }
        let before = cut.checked_sub(1);
        let Some((old, Ok(step))) = before.and_then(|number| trace.steps.get(number as usize))
        else {
            return;
        };
        let taken = match (step, old.unit().waiting) {
            (Step::Tag(_), _) => "a tag",
            (_, None) => "the code",
            (_, Some(_)) => "some payload",
        };
        let number = waiting_number(&waiting.payload);
        self.add(&in_code(unit.model, number, taken));
    }

    /// Notes the GIF tag whose data is due at a cut.
    fn note_data(&mut self, state: &State) {
        let waits = state.vif1.waiting.as_ref().map(|waiting| &waiting.payload);
        let direct = matches!(waits, Some(Payload::Direct | Payload::Directhl));
        let (path, number) = match state.channel {
            1 if direct => (&state.path2, 2),
            2 => (&state.path3, 3),
            _ => return,
        };
        if let Place::Data { tag, due } = path.place {
            let some = due as u64 != tag.all_data();
            self.add(&in_data(number, tag.format, some));
        }
    }

    /// Every count by name.
    pub fn rows(&self) -> Vec<(String, u64)> {
        named_rows(&self.by_name, names())
    }
}

fn ends_with(trace: &Trace) -> String {
    match trace.stop.answer {
        refusal if trace.refused_at_entry() => format!("runs to cut refused {refusal} at entry"),
        answer => format!("runs to cut that answer {answer}"),
    }
}

fn larger(trace: &Trace) -> String {
    match trace.stop.answer {
        refusal if trace.refused_at_entry() => {
            format!("larger allowances, refused {refusal} at entry")
        }
        answer @ (DONE | INTERRUPT) => format!("larger allowances, answer {answer}"),
        _ => "larger allowances, a step refused".to_string(),
    }
}

fn zero_on(channel: u32) -> String {
    format!("allowance 0 on channel {channel}")
}

fn cuts_on(channel: u32) -> String {
    format!("cuts on channel {channel}")
}

fn before_tag_word(channel: u32, number: u32) -> String {
    let place = if number == 2 { "before" } else { "between" };
    format!("cuts {place} the tag words, channel {channel}")
}

fn before_refusal(refusal: u32) -> String {
    format!("cuts before a step refused {refusal}")
}

fn before_the_end(channel: u32) -> String {
    format!("cuts before a tag that ends the chain, channel {channel}")
}

fn beside_closing(side: &str, way: &str) -> String {
    format!("cuts {side} a quadword that closes a packet, {way}")
}

fn in_code(model: Model, number: u32, taken: &str) -> String {
    let (unit, name) = (model.name(), waiting_name(number));
    format!("cuts in {name} on {unit}, after {taken}")
}

fn in_data(path: u32, format: Format, some: bool) -> String {
    let taken = if some { "some" } else { "none" };
    format!("cuts in the data of a GIF tag, path {path}, {format:?}, {taken} taken")
}

fn step_refusals() -> impl Iterator<Item = u32> {
    let words = refusals::WORD_STEP.into_iter().chain([refusals::TOPS]);
    refusals::TAG_STEP.into_iter().chain(words)
}

fn names() -> Vec<String> {
    let mut names: Vec<String> = NAMES.iter().map(|name| name.to_string()).collect();
    let answers = [DONE, ALLOWANCE_USED, INTERRUPT].into_iter();
    let answers = answers.chain(step_refusals());
    names.extend(answers.map(|answer| format!("runs to cut that answer {answer}")));
    names.extend(ENTRY.map(|refusal| format!("runs to cut refused {refusal} at entry")));
    names.extend([DONE, INTERRUPT].map(|answer| format!("larger allowances, answer {answer}")));
    names.push("larger allowances, a step refused".to_string());
    names.extend(ENTRY.map(|refusal| format!("larger allowances, refused {refusal} at entry")));
    for channel in 0..3 {
        names.extend([zero_on(channel), cuts_on(channel), before_the_end(channel)]);
    }
    for channel in 0..2 {
        names.extend([2, 3].map(|number| before_tag_word(channel, number)));
    }
    names.extend(step_refusals().map(before_refusal));
    for way in WAYS {
        names.extend(["before", "after"].map(|side| beside_closing(side, way.name())));
    }
    names.extend(code_names());
    for path in [2, 3] {
        for format in FORMATS {
            names.extend([false, true].map(|some| in_data(path, format, some)));
        }
    }
    names
}

/// VIF0 has no DIRECT and DIRECTHL; STMASK has one word.
fn code_names() -> Vec<String> {
    let mut names = Vec::new();
    for model in MODELS {
        for number in STMASK..=UNPACK {
            let direct = (DIRECT..UNPACK).contains(&number);
            if direct && model == Model::Vif0 {
                continue;
            }
            let taken = TAKEN.iter();
            let taken = taken.filter(|&&taken| number != STMASK || taken != "some payload");
            names.extend(taken.map(|taken| in_code(model, number, taken)));
        }
    }
    names
}

#[cfg(test)]
mod tests {
    use super::*;
    use crate::capture_cut_points;
    use crate::capture_cuts::family;
    use crate::random::Random;

    /// The points alone reach every place, but for steps and entries that are refused.
    #[test]
    fn reached_by_the_points() {
        let mut counts = Counts::default();
        let mut random = Random::new(1);
        for case in capture_cut_points::all() {
            family(&mut random, &case, &mut counts).unwrap();
        }
        for (name, count) in counts.rows() {
            if name.starts_with("cuts") && !name.contains("refused") {
                assert!(count > 0, "{name}");
            }
        }
    }

    #[test]
    fn names_are_different() {
        let mut sorted = names();
        sorted.sort();
        sorted.dedup();
        assert_eq!(sorted.len(), names().len());
    }
}
