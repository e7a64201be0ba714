//! What captures reached about the entries of their logs: which path wrote them, and the room.

use crate::chain::State;
use crate::compare::named_rows;
use crate::gif::{Format, Place};
use crate::log;
use crate::log_counts;
use crate::model::{Model, MODELS};
use crate::refusals;
use crate::way::{Given, Way, WAYS};
use std::collections::HashMap;

/// What writes an entry.
#[derive(Clone, Copy, PartialEq, Eq)]
enum Writer {
    Way(Way),
    /// A program start on a unit.
    Start(Model),
}

const WRITERS: [Writer; 5] = [
    Writer::Way(Way::Direct),
    Writer::Way(Way::Directhl),
    Writer::Way(Way::Channel2),
    Writer::Start(Model::Vif0),
    Writer::Start(Model::Vif1),
];

const MIXED: [&str; 3] = [
    "cases with entries of both paths",
    "cases with entries of both paths and of starts",
    "cases with entries of both paths and of starts on both units",
];

#[derive(Default)]
pub struct Counts {
    by_name: HashMap<String, u64>,
    logs: log_counts::Counts,
    /// What wrote entries in the case, and the last of them.
    wrote: Vec<Writer>,
    last: Option<Writer>,
}

impl Counts {
    fn add(&mut self, name: &str) {
        *self.by_name.entry(name.to_string()).or_default() += 1;
    }

    pub fn begin_case(&mut self) {
        self.wrote.clear();
        self.last = None;
    }

    /// Notes the log of a run that passes the tests before the log's.
    pub fn note_log(&mut self, length: usize, used: u64) {
        self.logs.note(length, used);
    }

    /// Notes a step: what stood before it, what stands now, or its refusal.
    pub fn note_step(&mut self, old: &State, new: Result<&State, u32>, log_length: usize) {
        match new {
            Ok(new) if new.used > old.used => self.note_entries(old),
            Err(refusals::ROOM) => self.note_no_room(old, log::room(log_length, old.used)),
            _ => {}
        }
    }

    fn note_entries(&mut self, old: &State) {
        let given = Given::new(old);
        let writer = match &given {
            Some(given) => Writer::Way(given.way),
            None => Writer::Start(old.model()),
        };
        self.add(&entries_of(writer));
        if let Some(given) = given.filter(|given| given.path.place == Place::Idle) {
            self.add(&pre_of(given.way));
        }
        if let Some(last) = self.last.filter(|&last| last != writer) {
            self.add(&entry_after(last, writer));
        }
        self.last = Some(writer);
        if !self.wrote.contains(&writer) {
            let before = self.mixed();
            self.wrote.push(writer);
            let now = self.mixed();
            MIXED[before..now].iter().for_each(|name| self.add(name));
        }
    }

    /// How many of the mixtures the case's entries have.
    fn mixed(&self) -> usize {
        let way = |way| self.wrote.contains(&Writer::Way(way));
        let path_2 = way(Way::Direct) || way(Way::Directhl);
        let starts = MODELS.map(|model| self.wrote.contains(&Writer::Start(model)));
        match starts {
            _ if !path_2 || !way(Way::Channel2) => 0,
            [true, true] => 3,
            [false, false] => 1,
            _ => 2,
        }
    }

    fn note_no_room(&mut self, old: &State, free: u64) {
        let name = match Given::new(old) {
            None => no_room_for(Writer::Start(old.model()), "", free),
            Some(given) => {
                let of = match given.path.place {
                    Place::Idle => ", PRE",
                    Place::Data { tag, .. } => format_name(tag.format),
                };
                no_room_for(Writer::Way(given.way), of, free)
            }
        };
        self.add(&name);
    }

    /// Every count by name.
    pub fn rows(&self) -> Vec<(String, u64)> {
        let mut rows = self.logs.rows();
        rows.extend(named_rows(&self.by_name, names()));
        rows
    }
}

fn writer_name(writer: Writer) -> &'static str {
    match writer {
        Writer::Way(way) => way.name(),
        Writer::Start(Model::Vif0) => "a start on VIF0",
        Writer::Start(Model::Vif1) => "a start on VIF1",
    }
}

fn format_name(format: Format) -> &'static str {
    match format {
        Format::Packed => ", PACKED",
        Format::Reglist => ", REGLIST",
        Format::Image => ", IMAGE",
    }
}

fn entries_of(writer: Writer) -> String {
    format!("steps with log entries, {}", writer_name(writer))
}

fn pre_of(way: Way) -> String {
    format!("PRE writes, {}", way.name())
}

fn entry_after(last: Writer, writer: Writer) -> String {
    let (last, writer) = (writer_name(last), writer_name(writer));
    format!("a log entry of {writer} after one of {last}")
}

fn no_room_for(writer: Writer, of: &str, free: u64) -> String {
    let writer = writer_name(writer);
    let free = if free == 0 { "no entry" } else { "one entry" };
    format!("refused 31, {free} free, {writer}{of}")
}

fn names() -> Vec<String> {
    let mut names: Vec<String> = MIXED.iter().map(|name| name.to_string()).collect();
    for writer in WRITERS {
        names.push(entries_of(writer));
        let others = WRITERS.into_iter().filter(|&other| other != writer);
        names.extend(others.map(|other| entry_after(other, writer)));
    }
    for model in MODELS {
        names.push(no_room_for(Writer::Start(model), "", 0));
    }
    for way in WAYS {
        names.push(pre_of(way));
        let writer = Writer::Way(way);
        for of in [", PRE", ", PACKED", ", REGLIST", ", IMAGE"] {
            names.push(no_room_for(writer, of, 0));
        }
        names.push(no_room_for(writer, ", REGLIST", 1));
        names.push(no_room_for(writer, ", IMAGE", 1));
    }
    names
}
