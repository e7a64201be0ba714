//! What captures reached about the counts of runs and the fact beneath the totals.

use crate::capture_cases::Standing;
use crate::chain::{self, Next, State, Step, Stop};
use crate::compare::named_rows;
use crate::history::{pending, History};
use crate::refusals;
use crate::vif::Payload;
use std::collections::HashMap;

const STOPPED: [&str; 6] = [
    "done",
    "allowance used",
    "interrupt",
    "refused at a tag",
    "refused at a word or quadword",
    "refused at entry",
];
/// Where nothing is left to take, and where something always is.
const NEVER_PENDING: [usize; 3] = [0, 3, 5];
const CODES: [&str; 5] = ["STMASK", "STROW", "STCOL", "MPG", "UNPACK"];

const NAMES: &[&str] = &[
    "one run since a start",
    "two runs since a start",
    "three runs or more since a start",
    "started again with payload pending",
    "a refused start between runs",
    "a set between runs since a start",
    "NOPs with NUM",
    "NOPs with IMM",
    "NOPs with bit 31",
    "NOPs of zeros",
    "NOPs in tag words, VIF0",
    "NOPs in tag words, VIF1",
    "NOPs in payload, VIF0",
    "NOPs in payload, VIF1",
    "zeros in tag words that are payload",
    "zeros in a quadword of DIRECT",
    "zeros in a quadword of channel 2",
    "refused tags with QWC above 0",
    "runs that count several IDs",
    "runs that count words and no NOP",
    "runs that count words that are all NOPs",
    "runs that count nothing, past entry",
];

#[derive(Default)]
pub struct Counts {
    by_name: HashMap<String, u64>,
    /// Whether a start was refused, or a register set, since the last run.
    refused_start: bool,
    set: bool,
}

impl Counts {
    fn add(&mut self, name: &str) {
        self.add_if(name, true);
    }

    fn add_if(&mut self, name: &str, happened: bool) {
        if happened {
            match self.by_name.get_mut(name) {
                Some(count) => *count += 1,
                None => {
                    self.by_name.insert(name.to_string(), 1);
                }
            }
        }
    }

    /// Notes a start, by what was pending before it.
    pub fn note_start(&mut self, was_pending: bool, accepted: bool) {
        self.refused_start = !accepted;
        if accepted {
            self.set = false;
            self.add_if("started again with payload pending", was_pending);
        }
    }

    /// Notes a set that was accepted.
    pub fn note_set(&mut self) {
        self.set = true;
    }

    /// Notes a run since a start, where the fact was checked; `before` is what the run before
    /// answered, if there was one.
    pub fn note_history(
        &mut self,
        history: &History,
        before: Option<u32>,
        stop: &Stop,
        now: &Standing,
    ) {
        let state = now.state.expect("a start needs a state");
        let at = stopped(stop, &state);
        let is_pending = pending(now) > 0;
        self.add(&checked_name(state.channel, at, is_pending));
        self.add(match history.runs {
            1 => "one run since a start",
            2 => "two runs since a start",
            _ => "three runs or more since a start",
        });
        if let Some(answer) = before {
            self.add(&again_name(answer));
        }
        self.add_if(
            "a refused start between runs",
            self.refused_start && before.is_some(),
        );
        self.add_if(
            "a set between runs since a start",
            self.set && before.is_some(),
        );
        (self.refused_start, self.set) = (false, false);
    }

    /// Notes a step that was tried, and the words that it reads.
    pub fn note_step(&mut self, before: &State, tried: &Result<Step, u32>, quadword: [u32; 4]) {
        match (before.next(), tried) {
            (Next::Tag, Ok(Step::Tag(tag))) => {
                self.add_if(&tag_name(before.channel, tag.id), tag.qwc > 0);
            }
            (Next::Tag, Err(refusal)) => {
                let is_there = *refusal != refusals::TADR;
                let qwc = quadword[0] & 0xFFFF;
                self.add_if("refused tags with QWC above 0", is_there && qwc > 0);
            }
            (Next::TagWord(address), Ok(Step::TagWord(taken))) => {
                let word = quadword[(address / 4 % 4) as usize];
                self.note_word(before, word, taken.nop, "tag words");
            }
            (Next::Payload(pending), Ok(Step::Payload(taken))) => {
                let word = quadword[(pending.address / 4 % 4) as usize];
                let zeros = taken.quadword && quadword[0] == 0;
                self.add_if("zeros in a quadword of DIRECT", zeros);
                if !taken.quadword {
                    self.note_word(before, word, taken.nop, "payload");
                }
            }
            (Next::Payload(_), Ok(Step::Path3 { .. })) => {
                self.add_if("zeros in a quadword of channel 2", quadword[0] == 0);
            }
            _ => {}
        }
    }

    fn note_word(&mut self, before: &State, word: u32, nop: bool, place: &str) {
        let unit = before.unit();
        if nop {
            self.add(&format!("NOPs in {place}, {}", unit.model.name()));
            self.add_if("NOPs with NUM", word >> 16 & 0xFF != 0);
            self.add_if("NOPs with IMM", word & 0xFFFF != 0);
            self.add_if("NOPs with bit 31", word >> 31 == 1);
            self.add_if("NOPs of zeros", word == 0);
        }
        let Some(waiting) = unit.waiting.filter(|_| word == 0) else {
            return;
        };
        self.add_if("zeros in tag words that are payload", place == "tag words");
        let code = match waiting.payload {
            Payload::Stmask => CODES[0],
            Payload::Strow => CODES[1],
            Payload::Stcol => CODES[2],
            Payload::Mpg(_) => CODES[3],
            Payload::Unpack(_) => CODES[4],
            Payload::Direct | Payload::Directhl => return,
        };
        self.add(&zeros_name(code));
    }

    /// Notes what a run past its entry counted.
    pub fn note_run(&mut self, stop: &Stop) {
        let counts = &stop.counts;
        let ids = counts.qwc.iter().filter(|&&sum| sum > 0).count();
        self.add_if("runs that count several IDs", ids > 1);
        let (words, nops) = (counts.words, counts.nops);
        self.add_if("runs that count words and no NOP", words > 0 && nops == 0);
        self.add_if(
            "runs that count words that are all NOPs",
            words > 0 && nops == words,
        );
        self.add_if("runs that count nothing, past entry", counts.steps == 0);
    }

    /// Every count by name.
    pub fn rows(&self) -> Vec<(String, u64)> {
        let mut names: Vec<String> = NAMES.iter().map(|name| name.to_string()).collect();
        for channel in 0..3 {
            for at in 0..STOPPED.len() {
                // No interrupts on channel 2; its quadwords are refused while they are pending.
                let interrupt = channel == 2 && at == 2;
                let quadword = channel == 2 && at == 4;
                if !interrupt && !quadword {
                    names.push(checked_name(channel, at, false));
                }
                if !interrupt && !NEVER_PENDING.contains(&at) {
                    names.push(checked_name(channel, at, true));
                }
            }
            names.extend((0..8).map(|id| tag_name(channel, id)));
        }
        names.extend(AGAIN.map(|(_, name)| format!("a run since a start after one {name}")));
        names.extend(CODES.map(zeros_name));
        named_rows(&self.by_name, names)
    }
}

/// How a run stopped, as its number among the names.
fn stopped(stop: &Stop, state: &State) -> usize {
    match stop.answer {
        chain::DONE => 0,
        chain::ALLOWANCE_USED => 1,
        chain::INTERRUPT => 2,
        refusals::MAIN..=refusals::RANGE => 5,
        // From a start on, 14 is a tag's: words that are pending have been found inside.
        _ if state.next() == Next::Tag => 3,
        _ => 4,
    }
}

fn checked_name(channel: u32, at: usize, pending: bool) -> String {
    let pending = if pending { "payload" } else { "nothing" };
    let stopped = STOPPED[at];
    format!("since a start on channel {channel}, {stopped}, {pending} pending")
}

type Is = fn(u32) -> bool;

/// The answers after which a chain is run again.
const AGAIN: [(Is, &str); 5] = [
    (|answer| answer == chain::DONE, "done"),
    (|answer| answer == chain::ALLOWANCE_USED, "stopped by 90"),
    (|answer| answer == chain::INTERRUPT, "interrupted"),
    (|answer| (1..=5).contains(&answer), "refused at entry"),
    (|answer| (10..40).contains(&answer), "refused in a step"),
];

fn again_name(answer: u32) -> String {
    let named = AGAIN.iter().find(|(is, _)| is(answer));
    let (_, name) = named.expect("every answer has a name");
    format!("a run since a start after one {name}")
}

fn tag_name(channel: u32, id: u32) -> String {
    format!("tags that count, channel {channel}, ID {id}")
}

fn zeros_name(code: &str) -> String {
    format!("zeros that are payload of {code}")
}
