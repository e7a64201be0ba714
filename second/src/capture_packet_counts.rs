//! What captures reached about packets.

use crate::chain::{self, Step, Stop};
use crate::compare::named_rows;
use crate::gif::Place;
use crate::packet_counts;
use crate::refusals;
use crate::way::{Given, Way, WAYS};
use std::collections::HashMap;

/// When the tag was taken whose data a path has due.
#[derive(Clone, Copy, PartialEq, Eq, Default)]
enum Begun {
    #[default]
    BeforeTheCase,
    BeforeAStart,
    InAnEarlierRun,
    InTheRun,
}

const BEGUN: [Begun; 4] = [
    Begun::BeforeTheCase,
    Begun::BeforeAStart,
    Begun::InAnEarlierRun,
    Begun::InTheRun,
];

/// Where a run that has closed packets stopped.
const STOPPED: [&str; 7] = [
    "done",
    "allowance used",
    "interrupt",
    "refused at a tag",
    "refused at a word",
    "refused 30",
    "refused 31",
];

const NAMES: [&str; 6] = [
    "runs that close no packet",
    "runs that close one packet",
    "runs that close several packets",
    "cases that close packets on both paths",
    "packets closed with an interrupt",
    "allowance used before a quadword that closes a packet",
];

#[derive(Default)]
pub struct Counts {
    by_name: HashMap<String, u64>,
    by_way: [packet_counts::Counts; 3],
    /// Of path 2 and path 3.
    begun: [Begun; 2],
    /// Whether the case has closed a packet on path 2 and path 3.
    closed: [bool; 2],
}

impl Counts {
    fn add(&mut self, name: &str) {
        self.add_if(name, true);
    }

    fn add_if(&mut self, name: &str, happened: bool) {
        if happened {
            *self.by_name.entry(name.to_string()).or_default() += 1;
        }
    }

    pub fn begin_case(&mut self) {
        self.begun = [Begun::BeforeTheCase; 2];
        self.closed = [false; 2];
    }

    pub fn begin_run(&mut self) {
        self.change_begun(Begun::InTheRun, Begun::InAnEarlierRun);
    }

    /// Notes a start that is accepted.
    pub fn note_start(&mut self) {
        self.change_begun(Begun::InTheRun, Begun::BeforeAStart);
        self.change_begun(Begun::InAnEarlierRun, Begun::BeforeAStart);
    }

    fn change_begun(&mut self, from: Begun, to: Begun) {
        let all = self.begun.iter_mut();
        all.filter(|begun| **begun == from)
            .for_each(|begun| *begun = to);
    }

    /// Notes a step that gives a quadword to a path.
    pub fn note_quadword(&mut self, given: &Given, quadword: u128, tried: Result<Step, u32>) {
        let taken = tried.map(|step| step.closed());
        self.by_way[given.way as usize].note(given.path, quadword, taken);
        let path = (given.way == Way::Channel2) as usize;
        match (given.path.place, taken) {
            (Place::Idle, Ok(false)) => self.begun[path] = Begun::InTheRun,
            (Place::Data { .. }, Ok(true)) => self.add(&closed_after(self.begun[path])),
            _ => {}
        }
        if taken == Ok(true) {
            let interrupt = tried.is_ok_and(|step| step.interrupt());
            self.add_if("packets closed with an interrupt", interrupt);
            let before = self.closed;
            self.closed[path] = true;
            let both = self.closed == [true; 2] && before != self.closed;
            self.add_if("cases that close packets on both paths", both);
        }
    }

    /// Notes a run that passed its entry; whether the next step would close a packet.
    pub fn note_run(&mut self, stop: &Stop, closes_next: bool) {
        self.add(match stop.counts.packets {
            0 => "runs that close no packet",
            1 => "runs that close one packet",
            _ => "runs that close several packets",
        });
        if stop.counts.packets > 0 {
            self.add(&closed_then(stopped(stop.answer)));
        }
        let name = "allowance used before a quadword that closes a packet";
        self.add_if(name, stop.answer == chain::ALLOWANCE_USED && closes_next);
    }

    /// Notes a run refused at entry where the next step would close a packet.
    pub fn note_entry(&mut self, refusal: u32) {
        self.add(&refused_before(refusal));
    }

    /// Every count by name; `entry` are the refusals at entry.
    pub fn rows(&self, entry: &[u32]) -> Vec<(String, u64)> {
        let of = |way: Way| self.by_way[way as usize].rows(way.name());
        let mut rows: Vec<(String, u64)> = WAYS.into_iter().flat_map(of).collect();
        let mut names: Vec<String> = NAMES.iter().map(|name| name.to_string()).collect();
        names.extend(BEGUN.map(closed_after));
        names.extend(STOPPED.map(closed_then));
        names.extend(entry.iter().map(|&refusal| refused_before(refusal)));
        rows.extend(named_rows(&self.by_name, names));
        rows
    }
}

fn stopped(answer: u32) -> &'static str {
    STOPPED[match answer {
        chain::DONE => 0,
        chain::ALLOWANCE_USED => 1,
        chain::INTERRUPT => 2,
        refusals::TADR..=refusals::OUTSIDE => 3,
        refusals::DESCRIPTOR => 5,
        refusals::ROOM => 6,
        _ => 4,
    }]
}

fn closed_after(begun: Begun) -> String {
    let when = match begun {
        Begun::BeforeTheCase => "before the case",
        Begun::BeforeAStart => "before a start",
        Begun::InAnEarlierRun => "in an earlier run",
        Begun::InTheRun => "in the run",
    };
    format!("packets closed whose tag was taken {when}")
}

fn closed_then(stopped: &str) -> String {
    format!("runs that close packets, {stopped}")
}

fn refused_before(refusal: u32) -> String {
    format!("refused {refusal} at entry before a quadword that closes a packet")
}
