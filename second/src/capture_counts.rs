//! What captures reached.

use crate::capture_cases::{Case, Standing};
use crate::capture_packet_counts;
use crate::capture_path_counts;
use crate::chain::{self, Next, State, Step, Stop, Tag};
use crate::compare::named_rows;
use crate::gif::{self, Path, Place};
use crate::history::History;
use crate::history_counts;
use crate::log;
use crate::memory::MOST_MAIN;
use crate::model::{Model, ONLY_VIF1};
use crate::refusals;
use crate::set_counts;
use crate::state_block::{
    chain_word, part, read_path, read_state, unit_word, used, waiting_name, waiting_number,
    write_state, StateBlock, DIRECT, DIRECTHL, PATHS, REGISTERS, STMASK, UNITS, UNPACK, VIF0, VIF1,
    WAITING, ZERO_ON_VIF0,
};
use crate::vif::{command_of, Code, Payload, Unit};
use crate::vif_counts::{field_names, upload_word, wrong_fields};
use crate::way::Given;
use crate::why::Why;
use crate::why_counts;
use std::collections::HashMap;

const IDS: [&str; 8] = ["refe", "cnt", "next", "ref", "refs", "call", "ret", "end"];
/// The refusals at entry, in order.
const ENTRY: [u32; 6] = [
    refusals::MAIN,
    refusals::DATA,
    refusals::CODE,
    refusals::LOG,
    refusals::RANGE,
    refusals::OUTSIDE,
];
/// The fields of a state block before the other blocks that can be out of range.
const FIELDS: [&str; 18] = [
    "channel",
    "TADR no multiple of 16",
    "TADR from 2^31",
    "TTE above 1",
    "TTE on channel 2",
    "ended above 1",
    "depth above 2",
    "stack 0 no multiple of 16",
    "stack 0 too high",
    "stack 1 no multiple of 16",
    "stack 1 too high",
    "tag words above 1",
    "tag words without TTE",
    "tag word's place",
    "payload too long",
    "payload no multiple of 4",
    "payload on channel 2 no multiple of 16",
    "payload's end",
];
/// Runs allowed fewer steps are left out of the median.
const MEDIAN_FROM: u64 = 50;
const DEEP: u64 = 100_000;

#[derive(Default)]
pub struct Counts {
    by_name: HashMap<String, u64>,
    cases: u64,
    runs: u64,
    starts: u64,
    steps: u64,
    /// Tags read by ID and TTE.
    tags: [[u64; 2]; 8],
    tags_without_payload: [[u64; 2]; 8],
    /// Words of payload and tag words by channel and number.
    words: [[u64; 4]; 2],
    tag_words: [[u64; 4]; 2],
    direct_quadwords: u64,
    path3_quadwords: u64,
    /// The step counts of runs that are allowed many.
    lengths: Vec<u64>,
    /// Main memory of the case, as far as it is given.
    main: Vec<u32>,
    main_length: usize,
    /// The state at the start of the run.
    begun: Option<State>,
    stepped: bool,
    /// The channels on which the case has done a step.
    channels: [bool; 3],
    packets: capture_packet_counts::Counts,
    paths: capture_path_counts::Counts,
    sets: set_counts::Counts,
    whys: why_counts::Counts,
    history: history_counts::Counts,
}

impl Counts {
    fn add(&mut self, name: &str) {
        self.add_if(name, true);
    }

    fn add_if(&mut self, name: &str, happened: bool) {
        if happened {
            match self.by_name.get_mut(name) {
                Some(count) => *count += 1,
                None => {
                    self.by_name.insert(name.to_string(), 1);
                }
            }
        }
    }

    pub fn note_case(&mut self, case: &Case) {
        self.cases += 1;
        self.main.clone_from(&case.main);
        self.main_length = case.main_length as usize;
        self.channels = [false; 3];
        self.packets.begin_case();
        self.paths.begin_case();
        self.sets.begin_case(case.whole);
        self.whys.begin_case(case.whole);
        self.add(if case.whole {
            "cases that show whole memories"
        } else {
            "cases that show changes"
        });
        let small = case.main_length <= 4_096;
        self.add_if("cases with main memory above 4 KiB", !small);
        let given = 4 * case.main.len() as u32;
        self.add_if(
            "cases with main memory not all given",
            given + 16 <= case.main_length,
        );
        if let Some(state) = read_state(&case.state) {
            let junk = write_state(&state) != case.state;
            self.add_if("state blocks with words that mean nothing", junk);
        }
        self.add_if(
            "state blocks with words that mean nothing, STMASK with other than one word due",
            junk_beside_stmask(&case.state),
        );
    }

    pub fn begin_run(&mut self, standing: &Standing) {
        self.begun = standing.state;
        self.stepped = false;
        self.packets.begin_run();
    }

    fn main_word(&self, address: u32) -> u32 {
        self.main.get(address as usize / 4).copied().unwrap_or(0)
    }

    fn quadword(&self, address: u32) -> u128 {
        (0..4).fold(0, |all, i| {
            all | (self.main_word(address + 4 * i) as u128) << (32 * i)
        })
    }

    /// Notes a step that was tried.
    pub fn note_step(&mut self, old: &State, new: &State, tried: Result<Step, u32>, log: usize) {
        if let Some(given) = Given::new(old) {
            let quadword = self.quadword(given.address);
            self.packets.note_quadword(&given, quadword, tried);
        }
        self.paths.note_step(old, tried.map(|_| new), log);
        let at = match old.next() {
            Next::Tag => old.tadr,
            Next::TagWord(address) => address,
            Next::Payload(pending) => pending.address,
        };
        let words = std::array::from_fn(|i| self.main_word(at / 16 * 16 + 4 * i as u32));
        self.history.note_step(old, &tried, words);
        let Ok(step) = tried else {
            return;
        };
        self.sets.note_step(old);
        self.steps += 1;
        if !self.stepped {
            self.stepped = true;
            self.note_first_step(old);
        }
        match step {
            Step::Tag(tag) => self.note_tag(old, new, &tag),
            Step::TagWord(_) => {
                let Next::TagWord(address) = old.next() else {
                    return;
                };
                let number = address / 4 % 4;
                self.tag_words[old.channel as usize][number as usize] += 1;
                let alone = old.payload.is_none();
                let waits = old.unit().waiting.is_some();
                self.add_if("tag words taken, QWC 0", alone);
                self.add_if("tag words taken as payload", waits);
                self.add_if("tag words taken that are codes", !waits);
            }
            Step::Payload(taken) if taken.quadword => self.direct_quadwords += 1,
            Step::Payload(_) => {
                let number = old.payload.map_or(0, |pending| pending.address / 4 % 4);
                self.words[old.channel as usize][number as usize] += 1;
            }
            Step::Path3 { .. } => self.path3_quadwords += 1,
        }
        if new.used > old.used && log::is_full(log, new.used) {
            self.add("log exactly full after a write");
        }
        self.note_fills(old, &step);
        self.note_upload(old);
        self.note_channel(old);
        if step.interrupt() {
            self.note_interrupt(old, step);
        }
    }

    /// Notes a word that MPG takes, and an MPG that a tag word is.
    fn note_upload(&mut self, old: &State) {
        let unit = old.unit();
        let mpg = match (&unit.waiting, old.tag_word) {
            (Some(waiting), _) => matches!(waiting.payload, Payload::Mpg(_)),
            (None, Some(address)) => {
                let code = Code::decode(unit.model, self.main_word(address));
                matches!(code, Ok(Code::Mpg(_)))
            }
            (None, None) => false,
        };
        if !mpg {
            return;
        }
        let Some(place) = word_place(old) else {
            return;
        };
        self.add(&match &unit.waiting {
            None => format!("MPG in a {place}"),
            Some(waiting) if waiting.is_upload() => format!("MPG's first word taken, {place}"),
            Some(waiting) => {
                let name = upload_word(waiting.due % 2, word_number(old));
                format!("MPG's later {name}, channel {}", old.channel)
            }
        });
    }

    /// Notes the first step of a case on a channel.
    fn note_channel(&mut self, old: &State) {
        let before = self.channels;
        self.channels[old.channel as usize] = true;
        let all = self.channels == [true; 3] && before != self.channels;
        self.add_if("cases with steps on all three channels", all);
    }

    fn note_interrupt(&mut self, old: &State, step: Step) {
        self.add_if("interrupt on channel 0", old.channel == 0);
        match (step, old.unit().waiting.is_some()) {
            (Step::TagWord(_), false) => self.add("interrupt at a tag word that is a code"),
            (Step::TagWord(_), true) => self.add("interrupt at a tag word that is payload"),
            (Step::Payload(taken), _) if taken.quadword => {
                self.add("interrupt at a quadword of DIRECT");
            }
            (_, false) => self.add("interrupt at a code"),
            (_, true) => self.add("interrupt at a payload word"),
        }
    }

    /// Notes what UNPACK with WL above CL takes: payload, or the code alone with CL 0.
    fn note_fills(&mut self, old: &State, step: &Step) {
        let address = match old.next() {
            Next::TagWord(address) => address,
            Next::Payload(pending) if old.channel != 2 => pending.address,
            _ => return,
        };
        let unit = old.unit();
        if !unit.registers.cycle().has_fills() {
            return;
        }
        if waits_for_vectors(unit) {
            self.add("payload words of UNPACK, WL > CL");
            self.add_if(
                "tag words as payload of UNPACK, WL > CL",
                old.tag_word.is_some(),
            );
        }
        let code = Code::decode(unit.model, self.main_word(address));
        let unpack = unit.waiting.is_none() && matches!(code, Ok(Code::Unpack { .. }));
        if unpack && unit.registers.cl == 0 {
            self.add("UNPACK taken with CL 0");
            self.add_if("UNPACK taken with CL 0 and an interrupt", step.interrupt());
        }
    }

    /// Notes what a run that gets on goes on with.
    fn note_first_step(&mut self, state: &State) {
        match state.next() {
            Next::Tag => self.add("runs that go on with a tag"),
            Next::TagWord(address) => {
                let number = address / 4 % 4;
                self.add(&format!("runs that go on with tag word {number}"));
                let tied = (state.tadr / 16 == address / 16) as u32;
                self.add_if("tag words pending away from TADR", tied == 0);
            }
            Next::Payload(_) if state.channel == 2 => {
                self.add("runs that go on with payload, channel 2");
            }
            Next::Payload(pending) => {
                let number = pending.address / 4 % 4;
                self.add(&format!(
                    "runs that go on with payload, channel {}, word {number}",
                    state.channel
                ));
            }
        }
        self.note_waiting(state);
        let held = |path: &Path| path.place != Place::Idle;
        let path3 = state.channel == 2 && held(&state.path3);
        self.add_if("runs that go on inside a GIF tag, path 3", path3);
        let direct = state.channel == 1 && waits_for_quadwords(&state.vif1) && held(&state.path2);
        self.add_if("runs that go on inside a GIF tag, path 2", direct);
        self.add_if("runs on a chain that has ended", state.ended);
    }

    /// Notes what waits where a run gets on, on the channel's unit and on the other.
    fn note_waiting(&mut self, state: &State) {
        let unit = state.unit();
        let other = match unit.model {
            Model::Vif0 => &state.vif1,
            Model::Vif1 => &state.vif0,
        };
        let name = |unit: &Unit| {
            let waiting = unit.waiting.as_ref()?;
            Some(waiting_name(waiting_number(&waiting.payload)))
        };
        if let Some(name) = name(other).filter(|_| state.channel == 0) {
            self.add(&format!("runs on channel 0 beside {name} waiting on VIF1"));
        }
        if let Some(name) = name(other).filter(|_| state.channel != 0) {
            self.add(&format!("runs beside {name} waiting on VIF0"));
        }
        if let Some(name) = name(unit).filter(|_| state.channel != 2) {
            let with = unit_name(unit.model, name);
            self.add(&format!("runs that go on with {with} waiting"));
            let fills = waits_for_vectors(unit) && unit.registers.cycle().has_fills();
            self.add_if("runs that go on with UNPACK waiting, WL > CL", fills);
        }
    }

    fn note_tag(&mut self, old: &State, new: &State, tag: &Tag) {
        let id = tag.id as usize;
        let tte = old.tte as usize;
        self.tags[id][tte] += 1;
        self.tags_without_payload[id][tte] += (tag.qwc == 0) as u64;
        self.add_if("tags with bit 31", self.main_word(old.tadr) >> 31 == 1);
        let rest = self.main_word(old.tadr) & 0x0FFF_0000 != 0;
        self.add_if("tags with unused bits set", rest);
        if tag.id == chain::CALL || tag.id == chain::RET {
            self.add(&format!("{} with {} on the stack", IDS[id], old.depth));
        }
        let outside = !chain::inside(self.main_length, tag.payload_at(old.tadr), 16);
        self.add_if(
            "tags with QWC 0 and payload outside memory",
            tag.qwc == 0 && outside,
        );
        let unused = !tag.uses_addr();
        self.add_if(
            "unused ADDR no multiple of 16",
            unused && tag.addr % 16 != 0,
        );
        self.add_if("unused ADDR with SPR", unused && tag.spr);
        let end = tag.payload_at(old.tadr) as u64 + 16 * tag.qwc as u64;
        let at_end = tag.qwc > 0 && end == self.main_length as u64;
        self.add_if("payload up to the end of memory", at_end);
        self.add_if("tags with QWC 65,535", tag.qwc == 65_535);
        let back = tag.id == chain::NEXT && new.tadr <= old.tadr;
        self.add_if("next that goes back", back);
        let name = format!("tags on channel 0, {}, TTE {tte}", IDS[id]);
        self.add_if(&name, old.channel == 0);
        self.note_waiting_at_tag(old);
    }

    /// Notes what waits where a tag is read.
    fn note_waiting_at_tag(&mut self, old: &State) {
        let unit = old.unit();
        if let Some(waiting) = unit.waiting.as_ref().filter(|_| old.channel != 2) {
            let name = waiting_name(waiting_number(&waiting.payload));
            let name = unit_name(unit.model, name);
            self.add(&format!("tags read with {name} waiting"));
            let fills = waits_for_vectors(unit) && unit.registers.cycle().has_fills();
            self.add_if("tags read with UNPACK waiting, WL > CL", fills);
        }
        let path3 = old.channel == 2 && old.path3.place != Place::Idle;
        self.add_if("tags read inside a GIF tag, path 3", path3);
    }

    pub fn note_run(&mut self, before: &StateBlock, allowance: u64, stop: &Stop, now: &Standing) {
        self.runs += 1;
        self.sets.note_call("runs", before);
        let wrong = wrong_at_entry(before, now);
        self.whys.note_run(stop.answer, !wrong.is_empty());
        let closes_next = now.state.is_some_and(|state| self.closes_next(&state));
        self.note_lent(before, wrong.first().copied(), now);
        if !matches!(wrong.first(), Some(refusals::MAIN..=refusals::CODE)) {
            self.paths.note_log(now.log.len(), used(before));
        }
        if let Some(&first) = wrong.first() {
            self.note_entry(before, &wrong, first, allowance, now);
            if closes_next {
                self.packets.note_entry(first);
            }
            return;
        }
        self.packets.note_run(stop, closes_next);
        self.history.note_run(stop);
        let (answer, steps) = (stop.answer, stop.counts.steps);
        self.note_steps(allowance, steps);
        self.note_upload_due(before, allowance);
        let state = now.state.as_ref().expect("only an existing state is run");
        match answer {
            chain::DONE => self.note_done(state, allowance, steps),
            chain::ALLOWANCE_USED => self.note_allowance_used(state, allowance),
            chain::INTERRUPT => {
                self.add("interrupt");
                let (end, used) = (state.is_done(), allowance == steps);
                self.add_if("interrupt where the chain ends", end && !used);
                self.add_if("interrupt where the allowance ends", used && !end);
                self.add_if("interrupt where both end", end && used);
            }
            refusal => {
                self.add(&format!("refused {refusal} in a step"));
                self.add_if(&format!("refused {refusal} after other steps"), steps > 0);
                self.note_refused_step(state, refusal);
            }
        }
    }

    /// Whether the next step closes a packet where it is taken.
    fn closes_next(&self, state: &State) -> bool {
        Given::new(state).is_some_and(|given| given.closes(self.quadword(given.address)))
    }

    /// Notes a run that begins between an MPG and its first word.
    fn note_upload_due(&mut self, before: &StateBlock, allowance: u64) {
        let state = read_state(before).filter(upload_due);
        if let Some(place) = state.as_ref().and_then(word_place) {
            self.add_if(
                &format!("runs with MPG's first word due, {place}"),
                allowance > 0,
            );
        }
    }

    /// Notes how long a run was, and how long it might have been.
    fn note_steps(&mut self, allowance: u64, steps: u64) {
        if allowance >= MEDIAN_FROM {
            self.lengths.push(steps);
        }
        self.add_if("runs of 100,000 steps or more", steps >= DEEP);
        self.add_if(
            "runs of 1,000 to 99,999 steps",
            (1_000..DEEP).contains(&steps),
        );
        self.add_if("runs of 50 to 999 steps", (50..1_000).contains(&steps));
        self.add_if("runs of 1 to 49 steps", (1..50).contains(&steps));
        self.add_if("runs of no step", steps == 0);
        self.add_if("allowance 2^64 - 1", allowance == u64::MAX);
        self.add_if("allowance from 2^32", allowance >= 1 << 32);
        let low = allowance & 0xFFFF_FFFF;
        self.add_if(
            "allowance above the steps, its low word not",
            allowance > steps && low <= steps,
        );
    }

    fn note_done(&mut self, state: &State, allowance: u64, steps: u64) {
        self.add("done");
        self.add_if("done with allowance 0", allowance == 0);
        self.add_if(
            "done where the allowance ends",
            allowance == steps && steps > 0,
        );
        let waits = state.unit().waiting.is_some();
        self.add_if("done with a code waiting", waits);
        self.add_if("done on channel 0", state.channel == 0);
        self.add_if(
            "done inside a GIF tag, path 2",
            state.path2.place != Place::Idle,
        );
        self.add_if(
            "done inside a GIF tag, path 3",
            state.path3.place != Place::Idle,
        );
    }

    fn note_allowance_used(&mut self, state: &State, allowance: u64) {
        self.add("allowance used");
        self.add_if("allowance used with allowance 0", allowance == 0);
        self.add_if("allowance used on a chain that has ended", state.ended);
        if let Some(place) = word_place(state).filter(|_| upload_due(state)) {
            self.add(&format!("allowance used before MPG's first word, {place}"));
        }
        match state.next() {
            Next::Tag => self.add("allowance used before a tag"),
            Next::TagWord(address) => {
                let number = address / 4 % 4;
                self.add(&format!("allowance used before tag word {number}"));
            }
            Next::Payload(_) if state.channel == 2 => {
                self.add("allowance used before payload, channel 2");
            }
            Next::Payload(pending) => {
                let number = pending.address / 4 % 4;
                self.add(&format!(
                    "allowance used before payload, channel {}, word {number}",
                    state.channel
                ));
            }
        }
    }

    /// Notes a refused step; the state is that before it.
    fn note_refused_step(&mut self, state: &State, refusal: u32) {
        self.note_refused_word(state, refusal);
        if let Some(place) = word_place(state).filter(|_| refusal == refusals::ALIGNMENT) {
            self.add(&format!("refused 25, {place}"));
        }
        match state.next() {
            Next::Tag if refusal == refusals::TADR => {
                let end = state.tadr as usize == self.main_length;
                self.add_if("refused 10, TADR just after memory", end);
                self.add_if("refused 10, TADR from 2^30", state.tadr >= 1 << 30);
            }
            Next::Tag => self.note_refused_tag(state, refusal),
            Next::TagWord(address) => {
                self.add_if(
                    &format!("refused 24 at tag word {}", address / 4 % 4),
                    refusal == refusals::PLACE,
                );
                self.add_if("refused 20 at a tag word", refusal == refusals::COMMAND);
                self.add_if("refused 31 at a tag word", refusal == refusals::ROOM);
            }
            Next::Payload(_) if state.channel == 2 => {
                self.add(&format!("refused {refusal}, channel 2"));
            }
            Next::Payload(pending) => match (refusal, waits_for_quadwords(state.unit())) {
                (refusals::PLACE, _) => {
                    let number = pending.address / 4 % 4;
                    self.add(&format!("refused 24 at payload word {number}"));
                }
                (refusals::DESCRIPTOR | refusals::ROOM, true) => {
                    self.add(&format!("refused {refusal} inside DIRECT"));
                }
                (refusals::ROOM, false) => self.add("refused 31 at a code"),
                _ => {}
            },
        }
    }

    /// Notes a code that VIF0 refuses and VIF1 might take.
    fn note_refused_word(&mut self, state: &State, refusal: u32) {
        let address = match state.next() {
            Next::TagWord(address) => address,
            Next::Payload(pending) => pending.address,
            Next::Tag => return,
        };
        if state.channel != 0 {
            return;
        }
        let word = self.main_word(address);
        let (command, bit_15) = (command_of(word), word >> 15 & 1 == 1);
        match refusal {
            refusals::COMMAND if ONLY_VIF1.contains(&command) => {
                self.add(&format!("refused 20 on channel 0, CMD {command:02X}"));
            }
            refusals::FORMAT => self.add_if("refused 21 on channel 0, bit 15 set", bit_15),
            refusals::CYCLE => self.add_if("refused 22 on channel 0, bit 15 set", bit_15),
            refusals::TOPS => {
                let tag_word = state.tag_word.is_some();
                self.add_if("refused 26 at a tag word", tag_word);
                self.add_if("refused 26 at a payload word", !tag_word);
            }
            refusals::ROOM => self.add("refused 31 on channel 0"),
            _ => {}
        }
    }

    /// Notes the lengths of the unit's memories that a run is lent, and of those that it is not.
    fn note_lent(&mut self, before: &StateBlock, refusal: Option<u32>, now: &Standing) {
        let channel = before[chain_word::CHANNEL];
        let model = Model::of_channel(channel);
        let wrong = |model: Model| {
            let (sizes, memories) = (model.sizes(), now.memories(model));
            let data = memories.data.len() != sizes.data_words();
            data || memories.code.len() != sizes.code_bytes()
        };
        let lent = match channel {
            0..=2 => format!("channel {channel}"),
            _ => "a channel above 2".to_string(),
        };
        let passed = !matches!(refusal, Some(refusals::MAIN..=refusals::CODE));
        let name = format!("2 and 3 passed on {lent}, the other unit's memories wrong");
        self.add_if(&name, passed && wrong(model.other()));
        if let Some(refusal @ (refusals::DATA | refusals::CODE)) = refusal {
            self.add(&format!("refused {refusal} at entry on {lent}"));
            let none = read_state(before).is_none();
            self.add_if(
                &format!("refused {refusal} at entry on {lent}, no state"),
                none,
            );
        }
        let small = Model::Vif0.sizes();
        let vif0_sized = now.memories(Model::Vif1).data.len() == small.data_words();
        let name = format!("refused 2 at entry on {lent}, VIF0's size");
        self.add_if(
            &name,
            refusal == Some(refusals::DATA) && model == Model::Vif1 && vif0_sized,
        );
    }

    fn note_refused_tag(&mut self, state: &State, refusal: u32) {
        let tag = Tag::decode(self.quadword(state.tadr));
        let id = IDS[tag.id as usize];
        let full = tag.id == chain::CALL && state.depth == chain::STACK;
        let bytes = 16 * tag.qwc as u64;
        let outside =
            tag.qwc > 0 && !chain::inside(self.main_length, tag.payload_at(state.tadr), bytes);
        match refusal {
            refusals::ADDR => {
                self.add(&format!("refused 11, {id}"));
                self.add_if("refused 11 with QWC 0", tag.qwc == 0);
                self.add_if("refused 11, 12 would be next", tag.spr);
                self.add_if("refused 11, 13 would be next", !tag.spr && full);
                self.add_if("refused 11, 14 would be next", !tag.spr && !full && outside);
            }
            refusals::SPR => {
                self.add(&format!("refused 12, {id}"));
                self.add_if("refused 12 with QWC 0", tag.qwc == 0);
                self.add_if("refused 12, 13 would be next", full);
                self.add_if("refused 12, 14 would be next", !full && outside);
            }
            refusals::CALL => {
                self.add_if("refused 13 with QWC 0", tag.qwc == 0);
                self.add_if("refused 13, 14 would be next", outside);
            }
            _ => {
                self.add(&format!("refused 14, {id}"));
                let end = tag.payload_at(state.tadr) as u64 + bytes;
                let one = end == self.main_length as u64 + 16;
                self.add_if("refused 14, one quadword outside", one);
                self.add_if("refused 14, end from 2^31", end >= 1 << 31);
            }
        }
    }

    fn note_entry(
        &mut self,
        before: &StateBlock,
        wrong: &[u32],
        first: u32,
        allowance: u64,
        now: &Standing,
    ) {
        let next = wrong.get(1);
        self.add(&entry_name(first, next.copied()));
        self.add_if(
            &format!("refused {first} at entry, allowance 0"),
            allowance == 0,
        );
        let length = now.main.len();
        match first {
            refusals::MAIN => self.add(if length == 0 {
                "refused 1, no main memory"
            } else if length > MOST_MAIN {
                "refused 1, main memory too long"
            } else {
                "refused 1, no multiple of 16"
            }),
            refusals::RANGE => {
                if let [field] = &state_fields(before)[..] {
                    self.add(&format!("run refused 5, {field}"));
                    self.note_not_zero("run", before, field);
                }
            }
            refusals::OUTSIDE => {
                let state = now.state.as_ref().expect("14 is about an existing state");
                self.note_outside(state, length);
            }
            _ => {}
        }
    }

    /// Notes pending words outside a main memory of this length.
    fn note_outside(&mut self, state: &State, length: usize) {
        let tag_word = state
            .tag_word
            .is_some_and(|address| !chain::inside(length, address, 4));
        self.add_if("refused 14 at entry, tag words", tag_word);
        self.add_if("refused 14 at entry, payload", !tag_word);
        self.add_if("refused 14 at entry, chain ended", state.ended);
        if let Some(pending) = &state.payload {
            let end = pending.address as u64 + 4 * pending.words as u64;
            let begins = (pending.address as usize) < length;
            self.add_if("refused 14 at entry, payload partly inside", begins);
            let far = end >= 1 << 32;
            self.add_if("refused 14 at entry, payload's end from 2^32", far);
        }
    }

    /// Notes a register that alone is wrong where it is one that is zero on VIF0.
    fn note_not_zero(&mut self, call: &str, before: &StateBlock, field: &str) {
        let zero = |&register: &usize| field == unit_name(Model::Vif0, REGISTERS[register].0);
        if let (0..=2, true) = (before[chain_word::CHANNEL], ZERO_ON_VIF0.iter().any(zero)) {
            let channel = before[chain_word::CHANNEL];
            self.add(&format!("{call} refused 5 on channel {channel}, {field}"));
        }
    }

    pub fn note_start(
        &mut self,
        before: &StateBlock,
        values: (u32, u32, u32),
        answer: u32,
        now: &Standing,
    ) {
        self.starts += 1;
        self.sets.note_call("starts", before);
        self.whys.note_call("starts", before);
        let pending = read_state(before).is_some_and(|state| state.payload.is_some());
        self.history.note_start(pending, answer == 0);
        let (channel, tadr, tte) = values;
        if answer != 0 {
            self.note_refused_start(before, &start_fields(channel, tadr, tte));
            return;
        }
        self.packets.note_start();
        let old = read_state(before).expect("a start on no state is refused");
        self.add(&format!("start on channel {channel}, TTE {tte}"));
        let name = format!(
            "start changes the channel from {} to {channel}",
            old.channel
        );
        self.add_if(&name, old.channel != channel);
        let outside = tadr as usize >= now.main.len();
        self.add_if("start with TADR outside memory", outside);
        self.note_started(&old);
        if let Some(refusal) = wrong_at_entry(before, now).first() {
            self.add(&format!("start where a run is refused {refusal}"));
        }
    }

    /// Notes a set by its unit, number and value.
    pub fn note_set(
        &mut self,
        before: &StateBlock,
        values: (u32, u32, u32),
        answer: u32,
        now: &Standing,
    ) {
        let refused = wrong_at_entry(before, now);
        self.sets.note_set(before, values, answer, &refused);
        self.whys.note_call("sets", before);
        if answer == 0 {
            self.history.note_set();
        }
    }

    /// Notes a run since a start.
    pub fn note_history(
        &mut self,
        history: &History,
        before: Option<u32>,
        stop: &Stop,
        now: &Standing,
    ) {
        self.history.note_history(history, before, stop, now);
    }

    pub fn note_why(&mut self, why: &Why, ignored: [u32; 3], now: &Standing) {
        self.sets.note_call("whys", &now.block());
        self.whys.note_why(why, ignored, now);
    }

    /// Notes a refused start by the values that are out of range.
    fn note_refused_start(&mut self, before: &StateBlock, values: &[&str]) {
        match (&state_fields(before)[..], values) {
            ([field], []) => {
                self.add(&format!("start refused 5, {field}"));
                self.note_not_zero("start", before, field);
            }
            ([], [value]) => self.add(&format!("start refused 5 by its {value}")),
            ([], _) => self.add("start refused 5 by several values"),
            (_, []) => self.add("start refused 5, several fields"),
            _ => self.add("start refused 5 by state and values"),
        }
    }

    /// Notes what a start drops and keeps.
    fn note_started(&mut self, old: &State) {
        self.add_if("start drops tag words", old.tag_word.is_some());
        self.add_if("start drops payload", old.payload.is_some());
        let name = format!("start empties a stack of {}", old.depth);
        self.add_if(&name, old.depth > 0);
        self.add_if("start after the chain's end", old.ended);
        for unit in [&old.vif0, &old.vif1] {
            let name = format!("start keeps a code waiting on {}", unit.model.name());
            self.add_if(&name, unit.waiting.is_some());
        }
        for (number, path) in [(2, &old.path2), (3, &old.path3)] {
            let name = format!("start keeps a GIF tag, path {number}");
            self.add_if(&name, path.place != Place::Idle);
        }
    }

    /// The step counts of runs that are allowed many.
    pub fn lengths(&self) -> impl Iterator<Item = u64> + '_ {
        self.lengths.iter().copied()
    }

    /// Every count by name.
    pub fn rows(&self) -> Vec<(String, u64)> {
        let mut rows: Vec<(String, u64)> = Vec::new();
        let mut row = |name: &str, count: u64| rows.push((name.to_string(), count));
        row("cases", self.cases);
        row("starts", self.starts);
        row("runs", self.runs);
        row("steps in all", self.steps);
        for (name, count) in length_rows(self.lengths.clone()) {
            row(name, count);
        }
        for (id, name) in IDS.iter().enumerate() {
            for tte in 0..2 {
                row(&format!("tags, {name}, TTE {tte}"), self.tags[id][tte]);
                row(
                    &format!("tags with QWC 0, {name}, TTE {tte}"),
                    self.tags_without_payload[id][tte],
                );
            }
        }
        for unit in 0..2 {
            let by = format!("taken by VIF{unit}, word");
            for number in 0..4 {
                let name = format!("payload words {by} {number}");
                row(&name, self.words[unit][number]);
            }
            for number in 2..4 {
                let name = format!("tag words {by} {number}");
                row(&name, self.tag_words[unit][number]);
            }
        }
        row("quadwords taken inside DIRECT", self.direct_quadwords);
        row("quadwords taken by path 3", self.path3_quadwords);
        rows.extend(self.packets.rows(&ENTRY));
        rows.extend(self.paths.rows());
        rows.extend(self.sets.rows(&ENTRY));
        rows.extend(self.whys.rows(&ENTRY));
        rows.extend(self.history.rows());
        rows.extend(named_rows(&self.by_name, names()));
        rows
    }
}

/// What is said of the step counts of runs that are allowed many.
pub fn length_rows(mut lengths: Vec<u64>) -> [(&'static str, u64); 3] {
    lengths.sort_unstable();
    let at = |index: usize| lengths.get(index).copied().unwrap_or(0);
    [
        (
            "runs past entry, allowed 50 steps or more",
            lengths.len() as u64,
        ),
        ("median of their steps", at(lengths.len() / 2)),
        ("most of their steps", at(lengths.len().saturating_sub(1))),
    ]
}

fn waits_for_quadwords(unit: &Unit) -> bool {
    unit.waiting
        .is_some_and(|waiting| matches!(waiting.payload, Payload::Direct | Payload::Directhl))
}

/// Whether an MPG of which no payload word has been taken waits on the channel's unit.
fn upload_due(state: &State) -> bool {
    let waiting = state.unit().waiting;
    state.channel != 2 && waiting.is_some_and(|waiting| waiting.is_upload())
}

/// The number of the word that a unit is given next.
fn word_number(state: &State) -> u32 {
    match state.next() {
        Next::TagWord(address) => address / 4 % 4,
        Next::Payload(pending) => pending.address / 4 % 4,
        Next::Tag => 0,
    }
}

/// What the next word is where one goes to a unit.
fn word_place(state: &State) -> Option<String> {
    let kind = match state.next() {
        Next::TagWord(_) => "tag",
        Next::Payload(_) if state.channel != 2 => "payload",
        _ => return None,
    };
    let (number, channel) = (word_number(state), state.channel);
    Some(format!("{kind} word {number}, channel {channel}"))
}

fn waits_for_vectors(unit: &Unit) -> bool {
    unit.waiting
        .is_some_and(|waiting| matches!(waiting.payload, Payload::Unpack(_)))
}

/// What is on VIF0 named as such.
fn unit_name(model: Model, name: &str) -> String {
    match model {
        Model::Vif0 => format!("VIF0 {name}"),
        Model::Vif1 => name.to_string(),
    }
}

fn entry_name(first: u32, next: Option<u32>) -> String {
    match next {
        Some(next) => format!("refused {first} at entry, {next} would be next"),
        None => format!("refused {first} at entry, nothing else wrong"),
    }
}

/// The numbers of all that is wrong at a run's entry, in order.
fn wrong_at_entry(before: &StateBlock, now: &Standing) -> Vec<u32> {
    let state = read_state(before);
    let main = now.main.len();
    let model = Model::of_channel(before[chain_word::CHANNEL]);
    let (sizes, lent) = (model.sizes(), now.memories(model));
    let wrong = |refusal: u32| match refusal {
        refusals::MAIN => main == 0 || main % 16 != 0 || main > MOST_MAIN,
        refusals::DATA => lent.data.len() != sizes.data_words(),
        refusals::CODE => lent.code.len() != sizes.code_bytes(),
        refusals::LOG => !log::in_range(now.log.len(), used(before)),
        refusals::RANGE => !state.as_ref().is_some_and(chain::in_range),
        _ => state
            .as_ref()
            .is_some_and(|state| !chain::pending_inside(state, main)),
    };
    ENTRY
        .into_iter()
        .filter(|&refusal| wrong(refusal))
        .collect()
}

/// Whether STMASK waits with other than one word due in a block that has words that mean nothing
/// and would be a state's else.
pub fn junk_beside_stmask(block: &StateBlock) -> bool {
    [VIF0, VIF1].into_iter().any(|unit_at| {
        let due = unit_at + unit_word::DUE;
        let mut mended = *block;
        mended[due] = 1;
        let junk = read_state(&mended).is_some_and(|state| write_state(&state) != mended);
        block[unit_at + unit_word::WAITING] == STMASK && block[due] != 1 && junk
    })
}

/// The fields of a state block that are out of their range, by name.
fn state_fields(block: &StateBlock) -> Vec<String> {
    let wrong = wrong_chain_fields(block);
    let mut wrong: Vec<String> = wrong.into_iter().map(String::from).collect();
    for (model, at) in UNITS {
        let fields = wrong_fields(model, &part(block, at));
        wrong.extend(fields.iter().map(|field| unit_name(model, field)));
    }
    for (number, at) in PATHS {
        match read_path(&part(block, at)) {
            None => wrong.push(format!("path {number} in no path")),
            Some(path) if !gif::path_in_range(&path) => {
                wrong.push(format!("path {number} out of range"));
            }
            Some(_) => {}
        }
    }
    wrong
}

/// The same for the words before the other blocks.
fn wrong_chain_fields(block: &StateBlock) -> Vec<&'static str> {
    let mut wrong: Vec<&str> = Vec::new();
    let mut add_if = |name: &'static str, is: bool| {
        if is {
            wrong.push(name);
        }
    };
    let [channel, tadr, tte] = part(block, chain_word::CHANNEL);
    add_if(FIELDS[0], channel > 2);
    add_if(FIELDS[1], tadr % 16 != 0);
    add_if(FIELDS[2], tadr >= 1 << 31);
    add_if(FIELDS[3], tte > 1);
    add_if(FIELDS[4], tte == 1 && channel == 2);
    add_if(FIELDS[5], block[chain_word::ENDED] > 1);
    let depth = block[chain_word::DEPTH] as usize;
    add_if(FIELDS[6], depth > chain::STACK);
    for i in 0..depth.min(chain::STACK) {
        let address = block[chain_word::STACK + i];
        add_if(FIELDS[7 + 2 * i], address % 16 != 0);
        add_if(FIELDS[8 + 2 * i], address as usize > MOST_MAIN);
    }
    let tag_words = block[chain_word::TAG_WORDS];
    let place = block[chain_word::TAG_WORD_AT] % 16;
    add_if(FIELDS[11], tag_words > 1);
    add_if(FIELDS[12], tag_words == 1 && tte == 0);
    add_if(FIELDS[13], tag_words == 1 && !matches!(place, 8 | 12));
    let words = block[chain_word::PAYLOAD_WORDS];
    let address = block[chain_word::PAYLOAD_AT];
    if words > 0 {
        add_if(FIELDS[14], words > chain::MOST_PENDING);
        add_if(FIELDS[15], address % 4 != 0);
        let halfway = address % 4 == 0 && address % 16 != 0;
        add_if(FIELDS[16], channel == 2 && halfway);
        add_if(FIELDS[17], (address as u64 / 4 + words as u64) % 4 != 0);
    }
    wrong
}

/// The values of a start that are out of their range.
fn start_fields(channel: u32, tadr: u32, tte: u32) -> Vec<&'static str> {
    let all = [
        ("channel", channel > 2),
        ("TADR no multiple of 16", tadr % 16 != 0),
        ("TADR from 2^31", tadr >= 1 << 31),
        ("TTE on channel 2", channel == 2 && tte == 1),
        ("TTE above 1", tte > 1),
    ];
    all.into_iter().filter(|f| f.1).map(|f| f.0).collect()
}

/// The names of the counts that are kept by name.
fn names() -> Vec<String> {
    let mut names: Vec<String> = NAMES.iter().map(|name| name.to_string()).collect();
    names.extend(refusal_names());
    names.extend(range_names());
    names.extend(waiting_names());
    names.extend(upload_names());
    names.extend(channel_names());
    let mut add = |name: String| names.push(name);
    for refusal in ENTRY.into_iter().filter(|&r| r != refusals::RANGE) {
        add(format!("start where a run is refused {refusal}"));
    }
    for (channel, number) in (0..2).flat_map(|channel| (0..4).map(move |n| (channel, n))) {
        let of = format!("payload, channel {channel}, word {number}");
        add(format!("runs that go on with {of}"));
        add(format!("allowance used before {of}"));
    }
    for number in 2..4 {
        add(format!("runs that go on with tag word {number}"));
        add(format!("allowance used before tag word {number}"));
    }
    names
}

/// The names about refusals, 5 left out.
fn refusal_names() -> Vec<String> {
    let mut names = Vec::new();
    let mut add = |name: String| names.push(name);
    for (i, &first) in ENTRY.iter().enumerate() {
        add(entry_name(first, None));
        add(format!("refused {first} at entry, allowance 0"));
        for &next in &ENTRY[i + 1..] {
            add(entry_name(first, Some(next)));
        }
    }
    let steps = refusals::TAG_STEP.iter().chain(&refusals::WORD_STEP);
    for refusal in steps.chain(&[refusals::TOPS]) {
        add(format!("refused {refusal} in a step"));
        add(format!("refused {refusal} after other steps"));
    }
    for (id, name) in IDS.iter().enumerate() {
        if matches!(id as u32, chain::REFE..=chain::CALL) && id as u32 != chain::CNT {
            add(format!("refused 11, {name}"));
            add(format!("refused 12, {name}"));
        }
        add(format!("refused 14, {name}"));
    }
    for number in 1..4 {
        add(format!("refused 24 at payload word {number}"));
    }
    for number in 2..4 {
        add(format!("refused 24 at tag word {number}"));
    }
    for refusal in [refusals::DESCRIPTOR, refusals::ROOM] {
        add(format!("refused {refusal}, channel 2"));
        add(format!("refused {refusal} inside DIRECT"));
    }
    names
}

/// The names about refusal 5.
fn range_names() -> Vec<String> {
    let paths = [
        "path 2 in no path",
        "path 2 out of range",
        "path 3 in no path",
        "path 3 out of range",
    ];
    let fields = FIELDS.iter().chain(&paths).map(|name| name.to_string());
    let both = |field: String| {
        [
            format!("run refused 5, {field}"),
            format!("start refused 5, {field}"),
        ]
    };
    fields.chain(unit_field_names()).flat_map(both).collect()
}

/// The fields of both unit blocks.
fn unit_field_names() -> Vec<String> {
    let mut names = field_names(Model::Vif1);
    let small = field_names(Model::Vif0);
    names.extend(small.iter().map(|name| unit_name(Model::Vif0, name)));
    names
}

/// The names about codes that wait.
fn waiting_names() -> Vec<String> {
    let mut names = Vec::new();
    for number in STMASK..=UNPACK {
        let name = WAITING[number as usize - 1];
        names.push(format!("runs on channel 0 beside {name} waiting on VIF1"));
        for model in [Model::Vif0, Model::Vif1] {
            if model == Model::Vif0 && matches!(number, DIRECT | DIRECTHL) {
                continue;
            }
            let with = unit_name(model, name);
            names.push(format!("runs that go on with {with} waiting"));
            names.push(format!("tags read with {with} waiting"));
            if model == Model::Vif0 {
                names.push(format!("runs beside {name} waiting on VIF0"));
            }
        }
    }
    names
}

/// The names about the first word of an MPG and its later ones.
fn upload_names() -> Vec<String> {
    let mut names = Vec::new();
    let mut add = |name: String| names.push(name);
    let words = [0, 1, 2, 3].map(|number| ("payload", number));
    for channel in 0..2 {
        for (kind, number) in words.into_iter().chain([("tag", 2), ("tag", 3)]) {
            let place = format!("{kind} word {number}, channel {channel}");
            add(format!("runs with MPG's first word due, {place}"));
            add(format!("allowance used before MPG's first word, {place}"));
            add(match number % 2 {
                0 => format!("MPG's first word taken, {place}"),
                _ => format!("refused 25, {place}"),
            });
            if kind == "tag" {
                add(format!("MPG in a {place}"));
            }
        }
        for (half, number) in (0..2).flat_map(|half| (0..4).map(move |n| (half, n))) {
            let name = upload_word(half, number);
            add(format!("MPG's later {name}, channel {channel}"));
        }
    }
    names
}

/// The names about channels and their memories.
fn channel_names() -> Vec<String> {
    let mut names = Vec::new();
    let mut add = |name: String| names.push(name);
    for lent in ["channel 0", "channel 1", "channel 2", "a channel above 2"] {
        let other = "the other unit's memories wrong";
        add(format!("2 and 3 passed on {lent}, {other}"));
        for refusal in [refusals::DATA, refusals::CODE] {
            add(format!("refused {refusal} at entry on {lent}"));
            add(format!("refused {refusal} at entry on {lent}, no state"));
        }
        if lent != "channel 0" {
            add(format!("refused 2 at entry on {lent}, VIF0's size"));
        }
    }
    for register in ZERO_ON_VIF0 {
        for channel in 0..3 {
            let field = unit_name(Model::Vif0, REGISTERS[register].0);
            add(format!("run refused 5 on channel {channel}, {field}"));
            add(format!("start refused 5 on channel {channel}, {field}"));
        }
    }
    for (from, to) in [(0, 1), (0, 2), (1, 0), (1, 2), (2, 0), (2, 1)] {
        add(format!("start changes the channel from {from} to {to}"));
    }
    for command in ONLY_VIF1 {
        add(format!("refused 20 on channel 0, CMD {command:02X}"));
    }
    for name in IDS {
        add(format!("tags on channel 0, {name}, TTE 0"));
        add(format!("tags on channel 0, {name}, TTE 1"));
    }
    names
}

const NAMES: &[&str] = &[
    "cases that show changes",
    "cases that show whole memories",
    "cases with main memory above 4 KiB",
    "cases with main memory not all given",
    "cases with steps on all three channels",
    "state blocks with words that mean nothing",
    "state blocks with words that mean nothing, STMASK with other than one word due",
    "done",
    "done with allowance 0",
    "done where the allowance ends",
    "done with a code waiting",
    "done on channel 0",
    "done inside a GIF tag, path 2",
    "done inside a GIF tag, path 3",
    "allowance used",
    "allowance used with allowance 0",
    "allowance used on a chain that has ended",
    "allowance used before a tag",
    "allowance used before payload, channel 2",
    "allowance 2^64 - 1",
    "allowance from 2^32",
    "allowance above the steps, its low word not",
    "interrupt",
    "interrupt where the chain ends",
    "interrupt where the allowance ends",
    "interrupt where both end",
    "interrupt on channel 0",
    "interrupt at a code",
    "interrupt at a payload word",
    "interrupt at a quadword of DIRECT",
    "interrupt at a tag word that is a code",
    "interrupt at a tag word that is payload",
    "runs of no step",
    "runs of 1 to 49 steps",
    "runs of 50 to 999 steps",
    "runs of 1,000 to 99,999 steps",
    "runs of 100,000 steps or more",
    "payload words of UNPACK, WL > CL",
    "tag words as payload of UNPACK, WL > CL",
    "UNPACK taken with CL 0",
    "UNPACK taken with CL 0 and an interrupt",
    "runs that go on with UNPACK waiting, WL > CL",
    "tags read with UNPACK waiting, WL > CL",
    "runs that go on with a tag",
    "runs that go on with payload, channel 2",
    "runs that go on inside a GIF tag, path 2",
    "runs that go on inside a GIF tag, path 3",
    "runs on a chain that has ended",
    "tag words pending away from TADR",
    "tag words taken, QWC 0",
    "tag words taken as payload",
    "tag words taken that are codes",
    "tags with bit 31",
    "tags with unused bits set",
    "tags with QWC 0 and payload outside memory",
    "tags with QWC 65,535",
    "tags read inside a GIF tag, path 3",
    "unused ADDR no multiple of 16",
    "unused ADDR with SPR",
    "payload up to the end of memory",
    "next that goes back",
    "call with 0 on the stack",
    "call with 1 on the stack",
    "ret with 0 on the stack",
    "ret with 1 on the stack",
    "ret with 2 on the stack",
    "log exactly full after a write",
    "refused 1, no main memory",
    "refused 1, no multiple of 16",
    "refused 1, main memory too long",
    "refused 14 at entry, tag words",
    "refused 14 at entry, payload",
    "refused 14 at entry, chain ended",
    "refused 14 at entry, payload partly inside",
    "refused 14 at entry, payload's end from 2^32",
    "refused 10, TADR just after memory",
    "refused 10, TADR from 2^30",
    "refused 11 with QWC 0",
    "refused 11, 12 would be next",
    "refused 11, 13 would be next",
    "refused 11, 14 would be next",
    "refused 12 with QWC 0",
    "refused 12, 13 would be next",
    "refused 12, 14 would be next",
    "refused 13 with QWC 0",
    "refused 13, 14 would be next",
    "refused 14, one quadword outside",
    "refused 14, end from 2^31",
    "refused 20 at a tag word",
    "refused 21 on channel 0, bit 15 set",
    "refused 22 on channel 0, bit 15 set",
    "refused 26 at a tag word",
    "refused 26 at a payload word",
    "refused 31 on channel 0",
    "refused 31 at a tag word",
    "refused 31 at a code",
    "start on channel 0, TTE 0",
    "start on channel 0, TTE 1",
    "start on channel 1, TTE 0",
    "start on channel 1, TTE 1",
    "start on channel 2, TTE 0",
    "start drops tag words",
    "start drops payload",
    "start empties a stack of 1",
    "start empties a stack of 2",
    "start after the chain's end",
    "start keeps a code waiting on VIF0",
    "start keeps a code waiting on VIF1",
    "start keeps a GIF tag, path 2",
    "start keeps a GIF tag, path 3",
    "start with TADR outside memory",
    "start refused 5, several fields",
    "start refused 5 by state and values",
    "start refused 5 by several values",
    "start refused 5 by its channel",
    "start refused 5 by its TADR no multiple of 16",
    "start refused 5 by its TADR from 2^31",
    "start refused 5 by its TTE on channel 2",
    "start refused 5 by its TTE above 1",
];
