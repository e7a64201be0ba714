//! What the packets of long captures reached, by way and format.

use crate::capture_cut_counts::FORMATS;
use crate::chain::{State, Step, ALLOWANCE_USED};
use crate::compare::named_rows;
use crate::gif::{Format, Path, Place};
use crate::refusals;
use crate::vif::Payload;
use crate::way::{Given, Way, WAYS};
use std::collections::HashMap;

/// A stretch has at least so many data quadwords.
const STRETCH: u32 = 16;

#[derive(Default)]
pub struct Counts {
    by_name: HashMap<String, u64>,
    /// Data quadwords of a packet taken one after another in a run, with no tag between.
    stretch: u32,
    /// The last of them in the run.
    last: Option<(Way, Format)>,
}

impl Counts {
    fn add(&mut self, (way, format): (Way, Format), what: &str) {
        *self.by_name.entry(named(way, format, what)).or_default() += 1;
    }

    pub fn begin_run(&mut self) {
        (self.stretch, self.last) = (0, None);
    }

    /// Notes a step that was tried.
    pub fn note_step(&mut self, old: &State, tried: &Result<Step, u32>) {
        match tried {
            Ok(Step::Tag(_)) => {
                self.stretch = 0;
                if let Some(data) = data_due(old) {
                    self.add(data, "tags inside");
                }
            }
            Ok(_) => self.note_taken(old),
            Err(refusal) => self.note_refused(old, *refusal),
        }
    }

    fn note_taken(&mut self, old: &State) {
        let given = Given::new(old);
        let Some(data) = given.and_then(|given| data_of(given.way, given.path)) else {
            self.stretch = 0;
            return;
        };
        self.add(data, "quadwords");
        self.last = Some(data);
        self.stretch += 1;
        if self.stretch == STRETCH {
            self.add(data, STRETCHES);
        }
    }

    /// Notes a refusal of data after data of the same kind in the run.
    fn note_refused(&mut self, old: &State, refusal: u32) {
        let given = Given::new(old);
        let data = given.and_then(|given| data_of(given.way, given.path));
        if let Some(data) = data.filter(|_| data == self.last) {
            self.add(data, &refused(refusal));
        }
    }

    /// Notes how a run ended.
    pub fn end_run(&mut self, state: &State, answer: u32) {
        let data = data_due(state);
        if let Some(data) = data.filter(|_| answer == ALLOWANCE_USED && data == self.last) {
            self.add(data, "runs that the allowance ends inside");
        }
    }

    /// Every count by name.
    pub fn rows(&self) -> Vec<(String, u64)> {
        named_rows(&self.by_name, names())
    }
}

const STRETCHES: &str = "stretches of 16 quadwords and more";

/// The data that a quadword on the way is.
fn data_of(way: Way, path: &Path) -> Option<(Way, Format)> {
    match &path.place {
        Place::Data { tag, .. } => Some((way, tag.format)),
        Place::Idle => None,
    }
}

/// The data that is due on the channel, inside a code where there is one.
fn data_due(state: &State) -> Option<(Way, Format)> {
    let code = |waits: &Payload| Way::of_payload(waits);
    let waiting = state.vif1.waiting.as_ref();
    match state.channel {
        1 => data_of(code(&waiting?.payload)?, &state.path2),
        2 => data_of(Way::Channel2, &state.path3),
        _ => None,
    }
}

fn named(way: Way, format: Format, what: &str) -> String {
    format!("long data, {format:?}, {}: {what}", way.name())
}

fn refused(refusal: u32) -> String {
    format!("refused with {refusal} after quadwords of the run")
}

fn names() -> Vec<String> {
    let mut names = Vec::new();
    for way in WAYS {
        for format in FORMATS {
            let mut whats = vec![
                "quadwords".to_string(),
                STRETCHES.to_string(),
                "tags inside".to_string(),
                "runs that the allowance ends inside".to_string(),
                refused(refusals::ROOM),
            ];
            if format != Format::Image {
                whats.push(refused(refusals::DESCRIPTOR));
            }
            names.extend(whats.iter().map(|what| named(way, format, what)));
        }
    }
    names
}
