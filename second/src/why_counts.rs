//! What whys reached.

use crate::capture_cases::Standing;
use crate::chain::{self, Next, State};
use crate::compare::named_rows;
use crate::gif::{Format, Place};
use crate::log;
use crate::model::{Model, ONLY_VIF1};
use crate::refusals;
use crate::state_block::{chain_word, rewritten, StateBlock};
use crate::vif::command_of;
use crate::way::{Given, WAYS};
use crate::why::{Complaint, Why};
use std::collections::HashMap;

/// Pairs of refusals that one step can have, the first before the second.
const ORDERS: [(u32, u32); 10] = [
    (refusals::ADDR, refusals::SPR),
    (refusals::ADDR, refusals::CALL),
    (refusals::ADDR, refusals::OUTSIDE),
    (refusals::SPR, refusals::CALL),
    (refusals::SPR, refusals::OUTSIDE),
    (refusals::CALL, refusals::OUTSIDE),
    (refusals::FORMAT, refusals::CYCLE),
    (refusals::FORMAT, refusals::TOPS),
    (refusals::CYCLE, refusals::TOPS),
    (refusals::DESCRIPTOR, refusals::ROOM),
];
/// The refusals of words, with the channels on which there are such.
const WORDS: [(u32, &[u32]); 8] = [
    (refusals::COMMAND, &[0, 1]),
    (refusals::FORMAT, &[0, 1]),
    (refusals::CYCLE, &[0, 1]),
    (refusals::MODE, &[0, 1]),
    (refusals::PLACE, &[1]),
    (refusals::ALIGNMENT, &[0, 1]),
    (refusals::TOPS, &[0]),
    (refusals::ROOM, &[0, 1]),
];
/// What writes to the log in a step that takes a quadword, with the entries that it needs.
const WRITES: [(&str, u64); 5] = [
    ("a tag", 1),
    ("PACKED", 1),
    ("REGLIST", 1),
    ("REGLIST", 2),
    ("IMAGE", 2),
];

#[derive(Default)]
pub struct Counts {
    by_name: HashMap<String, u64>,
    whys: u64,
    /// The call before, in words.
    last: Option<String>,
    /// The case's results show whole memories.
    whole: bool,
}

impl Counts {
    fn add_if(&mut self, name: &str, happened: bool) {
        if happened {
            *self.by_name.entry(name.to_string()).or_default() += 1;
        }
    }

    fn add(&mut self, name: String) {
        self.add_if(&name, true);
    }

    pub fn begin_case(&mut self, whole: bool) {
        self.whole = whole;
        self.last = None;
    }

    fn after_why(&self) -> bool {
        self.last.as_deref() == Some("whys")
    }

    /// Notes a start or a set.
    pub fn note_call(&mut self, call: &str, before: &StateBlock) {
        let after = self.after_why();
        self.add_if(&format!("{call} just after a why"), after);
        let junk = rewritten(before) != *before;
        let name = "sets just after a why, over words that mean nothing kept";
        self.add_if(name, after && junk && call == "sets");
        self.last = Some(call.to_string());
    }

    pub fn note_run(&mut self, answer: u32, at_entry: bool) {
        let after = self.after_why();
        self.add_if("runs just after a why", after);
        let told = match answer {
            chain::DONE | chain::ALLOWANCE_USED | chain::INTERRUPT => {
                format!("runs that answer {answer}")
            }
            _ if at_entry => "runs refused at entry".to_string(),
            _ => "runs refused in a step".to_string(),
        };
        self.last = Some(told);
    }

    pub fn note_why(&mut self, why: &Why, ignored: [u32; 3], now: &Standing) {
        self.whys += 1;
        let last = self.last.replace("whys".to_string());
        self.add(after_name(last.as_deref()));
        self.add_if("whys in cases that show whole memories", self.whole);
        let names = ["first", "second", "third"];
        for (name, word) in names.iter().zip(ignored) {
            self.add_if(
                &format!("whys with their {name} ignored word set"),
                word != 0,
            );
        }
        let block = now.block();
        let junk = rewritten(&block) != block;
        self.add_if("whys on words that mean nothing", junk);
        let channel = channel_name(block[chain_word::CHANNEL]);
        match (why, &now.state) {
            (Why::Entry(refusal), state) => {
                self.add(format!("why: {refusal} at entry, {channel}"));
                let ended = block[chain_word::ENDED] == 1;
                self.add_if(&format!("why: {refusal} at entry, chain ended"), ended);
                let none = state.is_none();
                self.add_if(&format!("why: {refusal} at entry, no state"), none);
            }
            (Why::Ended, Some(state)) => {
                self.add(format!("why: ended, {channel}"));
                let waits = state.unit().waiting.is_some();
                self.add_if("why: ended with a code waiting", waits);
                let outside = state.tadr as usize >= now.main.len();
                self.add_if("why: ended with TADR outside memory", outside);
            }
            (Why::Nothing, Some(state)) => self.note_nothing(state, &channel),
            (Why::Step(said), Some(state)) => self.note_step(state, said, now),
            (_, None) => {}
        }
    }

    fn note_nothing(&mut self, state: &State, channel: &str) {
        let next = match (state.next(), Given::new(state)) {
            (Next::Tag, _) => "a tag",
            (Next::TagWord(_), _) => "a tag word",
            (Next::Payload(_), Some(_)) => "a quadword",
            (Next::Payload(_), None) => "a payload word",
        };
        self.add(format!("why: no complaint, {next} is next, {channel}"));
        self.add_if("why: no complaint, chain ended, some pending", state.ended);
    }

    fn note_step(&mut self, state: &State, said: &Complaint, now: &Standing) {
        let main = &now.main;
        self.add_if("why: a step is refused, chain ended", state.ended);
        let full = log::is_full(now.log.len(), state.used);
        for next in would_be_next(state, said, main, full) {
            self.add(order_name(said.refusal, next));
        }
        match (state.next(), Given::new(state)) {
            (Next::Tag, _) => self.note_tag(state, said, main),
            (Next::Payload(_), Some(given)) => self.note_quadword(&given, said),
            (next, _) => {
                let kind = match next {
                    Next::TagWord(_) => "tag word",
                    _ => "payload word",
                };
                self.add(word_name(said.refusal, kind, state.channel));
                let vif0 = state.channel == 0 && said.refusal == refusals::COMMAND;
                let command = said.first as u32;
                let missing = vif0 && ONLY_VIF1.contains(&command);
                self.add_if(&missing_name(command), missing);
            }
        }
    }

    fn note_tag(&mut self, state: &State, said: &Complaint, main: &[u8]) {
        self.add(tag_name(said.refusal, state.channel));
        if said.refusal != refusals::OUTSIDE {
            return;
        }
        let tag = chain::Tag::decode(chain::quadword_at(main, state.tadr));
        let (start, length) = (tag.payload_at(state.tadr) as usize, main.len());
        self.add_if("why: 14, some fit", said.second > 0);
        self.add_if("why: 14, one too many", said.first == said.second + 1);
        self.add_if("why: 14, payload at the end of memory", start == length);
        self.add_if("why: 14, payload beyond the end", start > length);
    }

    fn note_quadword(&mut self, given: &Given, said: &Complaint) {
        let way = given.way.name();
        let what = match &given.path.place {
            Place::Idle => "a tag",
            Place::Data { tag, .. } => match tag.format {
                Format::Packed => "PACKED",
                Format::Reglist => "REGLIST",
                Format::Image => "IMAGE",
            },
        };
        match (said.refusal, &given.path.place) {
            (refusals::DESCRIPTOR, Place::Data { tag, due }) if tag.format == Format::Reglist => {
                let (first, _) = tag.reglist_descriptors(*due);
                let half = if first == 0xB { "first" } else { "second" };
                self.add(format!("why: 30, REGLIST, {half} half, {way}"));
            }
            (refusals::DESCRIPTOR, _) => self.add(format!("why: 30, {what}, {way}")),
            _ => self.add(room_name(what, way, said.first, said.second)),
        }
    }

    /// Every count by name; a run is refused at entry with these.
    pub fn rows(&self, entry: &[u32]) -> Vec<(String, u64)> {
        let mut rows = vec![("whys".to_string(), self.whys)];
        rows.extend(named_rows(&self.by_name, names(entry)));
        rows
    }
}

/// The refusals after the one named that the step would have too, of those in the orders; the log
/// may be full.
fn would_be_next(state: &State, said: &Complaint, main: &[u8], full: bool) -> Vec<u32> {
    let next = match (state.next(), Given::new(state)) {
        (Next::Tag, _) if said.refusal == refusals::TADR => return Vec::new(),
        (Next::Tag, _) => tag_refusals(state, main),
        (_, Some(given)) if full && other_half_writes(&given) => vec![refusals::ROOM],
        (_, Some(_)) => return Vec::new(),
        (_, None) => word_refusals(state, chain::word_at(main, said.address)),
    };
    let after = |&next: &u32| ORDERS.contains(&(said.refusal, next));
    next.into_iter().filter(after).collect()
}

fn tag_refusals(state: &State, main: &[u8]) -> Vec<u32> {
    let tag = chain::Tag::decode(chain::quadword_at(main, state.tadr));
    let bytes = 16 * tag.qwc as u64;
    let outside = !chain::inside(main.len(), tag.payload_at(state.tadr), bytes);
    let all = [
        (refusals::SPR, tag.uses_addr() && tag.spr),
        (
            refusals::CALL,
            tag.id == chain::CALL && state.depth == chain::STACK,
        ),
        (refusals::OUTSIDE, tag.qwc > 0 && outside),
    ];
    all.into_iter().filter(|is| is.1).map(|is| is.0).collect()
}

fn word_refusals(state: &State, word: u32) -> Vec<u32> {
    let unit = state.unit();
    let unpack = command_of(word) >= 0x60 && unit.waiting.is_none();
    let bit_15 = unit.model == Model::Vif0 && word >> 15 & 1 == 1;
    let all = [
        (refusals::CYCLE, unpack && unit.registers.wl == 0),
        (refusals::TOPS, unpack && bit_15),
    ];
    all.into_iter().filter(|is| is.1).map(|is| is.0).collect()
}

/// Whether a quadword is of REGLIST and one of its halves is a write.
fn other_half_writes(given: &Given) -> bool {
    let writes = |descriptor: u8| !matches!(descriptor, 0xB | 0xE | 0xF);
    match &given.path.place {
        Place::Data { tag, due } if tag.format == Format::Reglist => {
            let (first, second) = tag.reglist_descriptors(*due);
            writes(first) || second.is_some_and(writes)
        }
        _ => false,
    }
}

fn channel_name(channel: u32) -> String {
    match channel {
        0..=2 => format!("channel {channel}"),
        _ => "no channel".to_string(),
    }
}

fn after_name(last: Option<&str>) -> String {
    match last {
        None => "whys as the first call".to_string(),
        Some(last) => format!("whys just after {last}"),
    }
}

fn order_name(first: u32, next: u32) -> String {
    format!("why: {first}, {next} would be next")
}

fn tag_name(refusal: u32, channel: u32) -> String {
    format!("why: {refusal} in a step, channel {channel}")
}

fn word_name(refusal: u32, kind: &str, channel: u32) -> String {
    format!("why: {refusal} at a {kind}, channel {channel}")
}

fn missing_name(command: u32) -> String {
    format!("why: 20 on channel 0, CMD {command:02X}")
}

fn room_name(what: &str, way: &str, free: u64, needed: u64) -> String {
    format!("why: 31, {what}, {way}, {free} free of {needed} needed")
}

fn names(entry: &[u32]) -> Vec<String> {
    let mut names: Vec<String> = NAMES.iter().map(|name| name.to_string()).collect();
    for &refusal in entry {
        let of_entry = format!("why: {refusal} at entry");
        names.extend((0..3).map(|channel| format!("{of_entry}, channel {channel}")));
        names.push(format!("{of_entry}, chain ended"));
        if refusal != refusals::OUTSIDE {
            names.push(format!("{of_entry}, no channel"));
            names.push(format!("{of_entry}, no state"));
        }
    }
    for channel in 0..3 {
        names.push(format!("why: ended, channel {channel}"));
        let nothing = "why: no complaint";
        names.push(format!("{nothing}, a tag is next, channel {channel}"));
        if channel < 2 {
            names.push(format!("{nothing}, a tag word is next, channel {channel}"));
            names.push(format!(
                "{nothing}, a payload word is next, channel {channel}"
            ));
        }
        if channel > 0 {
            names.push(format!("{nothing}, a quadword is next, channel {channel}"));
        }
        let tags = refusals::TAG_STEP.map(|refusal| tag_name(refusal, channel));
        names.extend(tags);
    }
    names.extend(word_names());
    names.extend(quadword_names());
    names.extend(ORDERS.map(|(first, next)| order_name(first, next)));
    names
}

fn word_names() -> Vec<String> {
    let mut names = ONLY_VIF1.map(missing_name).to_vec();
    for (refusal, channels) in WORDS {
        for &channel in channels {
            names.push(word_name(refusal, "payload word", channel));
            names.push(word_name(refusal, "tag word", channel));
        }
    }
    names
}

fn quadword_names() -> Vec<String> {
    let mut names = Vec::new();
    for way in WAYS.map(|way| way.name()) {
        names.push(format!("why: 30, PACKED, {way}"));
        for half in ["first", "second"] {
            names.push(format!("why: 30, REGLIST, {half} half, {way}"));
        }
        for (what, needed) in WRITES {
            names.extend((0..needed).map(|free| room_name(what, way, free, needed)));
        }
    }
    names
}

const NAMES: &[&str] = &[
    "whys as the first call",
    "whys just after starts",
    "whys just after sets",
    "whys just after whys",
    "whys just after runs that answer 0",
    "whys just after runs that answer 90",
    "whys just after runs that answer 91",
    "whys just after runs refused at entry",
    "whys just after runs refused in a step",
    "starts just after a why",
    "runs just after a why",
    "sets just after a why",
    "sets just after a why, over words that mean nothing kept",
    "whys in cases that show whole memories",
    "whys with their first ignored word set",
    "whys with their second ignored word set",
    "whys with their third ignored word set",
    "whys on words that mean nothing",
    "why: ended with a code waiting",
    "why: ended with TADR outside memory",
    "why: no complaint, chain ended, some pending",
    "why: a step is refused, chain ended",
    "why: 14, some fit",
    "why: 14, one too many",
    "why: 14, payload at the end of memory",
    "why: 14, payload beyond the end",
];
