//! Captures with siblings whose last run is cut in parts, or is allowed another number of steps.

use crate::capture_cases::{Call, Case, Standing};
use crate::capture_cut_counts::Counts;
use crate::capture_cut_points;
use crate::capture_generate::{run, NO_LIMIT};
use crate::chain::{State, Step, Stop, ALLOWANCE_USED, DONE, INTERRUPT};
use crate::log;
use crate::random::Random;
use crate::state_block::chain_word;
use std::collections::HashMap;

/// A run is chosen among the first calls of a capture.
const MOST_CALLS: usize = 8;
/// The most steps of a call.
const MOST_STEPS: u64 = 2_000;
/// Runs of so many steps are cut at every point.
const SHORT: u64 = 24;
/// Runs of so many steps are cut at every step, in one sibling.
const MIDDLE: u64 = 60;
const MOST_MAIN: u32 = 32_768;
const MOST_ENTRIES: u64 = 1_000;
/// How many captures are taken whose chosen run has the same channel and answer, before chance
/// decides.
const OF_A_KIND: u64 = 4;

#[derive(Clone, Copy, PartialEq, Eq, Hash, Debug)]
pub enum Kind {
    Uncut,
    /// Every part has an allowance of 1.
    EveryStep,
    /// Two parts.
    OnePoint,
    /// Several parts, some with an allowance of 0.
    Random,
    /// One part with another allowance that gives the same.
    Allowance,
}

/// A capture that ends with a run in parts.
pub struct Member {
    pub kind: Kind,
    pub case: Case,
    pub parts: usize,
}

/// A capture and its siblings; the uncut one is the first.
pub struct Family {
    /// The calls before the run that is cut.
    pub before: usize,
    pub members: Vec<Member>,
}

/// The last run of a capture, step by step.
pub struct Trace {
    pub allowance: u64,
    pub stop: Stop,
    /// The state before each step that was tried, and what came of it.
    pub steps: Vec<(State, Result<Step, u32>)>,
    /// The state afterwards; none where the case's block exists in no state.
    pub last: Option<State>,
    /// The channel that the block names.
    pub channel: u32,
    /// The call before was a run that gave an interrupt.
    pub after_interrupt: bool,
}

impl Trace {
    /// None where a run is too long, or the last call is no run.
    pub fn of(case: &Case) -> Option<Trace> {
        Trace::within(case, MOST_STEPS)
    }

    /// The same where no run takes more than so many steps.
    fn within(case: &Case, most: u64) -> Option<Trace> {
        let mut standing = Standing::new(case);
        let (last, before) = case.calls.split_last()?;
        let Call::Run { allowance } = *last else {
            return None;
        };
        let mut answer = DONE;
        for call in before {
            answer = match *call {
                Call::Start { .. } | Call::Set { .. } => standing.make(call),
                Call::Why { .. } => answer,
                Call::Run { allowance } => {
                    run_shortly(&mut standing, allowance, most, |_, _, _| {})?.answer
                }
            };
        }
        let mut steps = Vec::new();
        let watch = |old: &State, _: &State, tried| steps.push((*old, tried));
        let stop = run_shortly(&mut standing, allowance, most, watch)?;
        Some(Trace {
            allowance,
            stop,
            steps,
            last: standing.state,
            channel: standing.block()[chain_word::CHANNEL],
            after_interrupt: answer == INTERRUPT,
        })
    }

    pub fn refused_at_entry(&self) -> bool {
        let answered = matches!(self.stop.answer, DONE | ALLOWANCE_USED);
        self.steps.is_empty() && !answered
    }

    /// The greatest allowance with which the run answers 90, where its own is not less.
    pub fn last_cut(&self) -> Option<u64> {
        match self.stop.answer {
            DONE | INTERRUPT => self.stop.counts.steps.checked_sub(1),
            _ if self.refused_at_entry() => None,
            _ => Some(self.stop.counts.steps),
        }
    }

    /// The least allowance that gives the run's answer.
    pub fn least(&self) -> u64 {
        match self.stop.answer {
            DONE | INTERRUPT | ALLOWANCE_USED => self.stop.counts.steps,
            _ if self.refused_at_entry() => 0,
            _ => self.stop.counts.steps + 1,
        }
    }

    /// The state after so many steps.
    pub fn state(&self, cut: u64) -> Option<&State> {
        let before = self.steps.get(cut as usize).map(|(state, _)| state);
        before.or(self.last.as_ref())
    }

    /// The step completed with this number, from 0.
    pub fn completed(&self, number: u64) -> Option<&Step> {
        self.steps.get(number as usize)?.1.as_ref().ok()
    }

    /// An allowance that gives the same as the run's own; which, `turn` says.
    fn total(&self, turn: u64) -> u64 {
        match self.stop.answer {
            ALLOWANCE_USED => self.allowance,
            _ if turn % 2 == 0 => self.allowance,
            _ => NO_LIMIT,
        }
    }
}

fn run_shortly(
    standing: &mut Standing,
    allowance: u64,
    most: u64,
    watch: impl FnMut(&State, &State, Result<Step, u32>),
) -> Option<Stop> {
    let stop = standing.run(allowance.min(most), watch);
    (stop.answer != ALLOWANCE_USED || allowance <= most).then_some(stop)
}

/// Captures with their siblings: of those made by hand, and of some of the cases.
pub fn families(seed: u64, cases: &[Case], counts: &mut Counts) -> Vec<Family> {
    let mut random = Random::new(seed ^ 0xC07);
    let mut families = Vec::new();
    for case in capture_cut_points::all() {
        families.push(family(&mut random, &case, counts).expect("a short run"));
    }
    let mut of_a_kind = HashMap::new();
    for case in cases {
        families.extend(chosen_family(&mut random, case, &mut of_a_kind, counts));
    }
    families
}

/// A capture file of all members, family by family.
pub fn file_of(families: &[Family]) -> Vec<u8> {
    let mut file = Vec::new();
    let members = families.iter().flat_map(|family| &family.members);
    members.for_each(|member| member.case.write(&mut file));
    file
}

/// The family of a case cut off after one of its runs, where it is short and chance takes it.
fn chosen_family(
    random: &mut Random,
    case: &Case,
    of_a_kind: &mut HashMap<(u32, u32, bool), u64>,
    counts: &mut Counts,
) -> Option<Family> {
    let mut case = up_to_a_run(random, case)?;
    let trace = Trace::of(&case)?;
    let kind = (
        trace.channel.min(3),
        trace.stop.answer,
        trace.refused_at_entry(),
    );
    let taken = of_a_kind.entry(kind).or_default();
    let part = if trace.stop.counts.steps > SHORT {
        20
    } else {
        2
    };
    if *taken >= OF_A_KIND && !random.percent(part) {
        return None;
    }
    *taken += 1;
    case.whole |= random.percent(3);
    family(random, &case, counts)
}

fn up_to_a_run(random: &mut Random, case: &Case) -> Option<Case> {
    if case.main_length > MOST_MAIN || case.log_length > log::length(MOST_ENTRIES) {
        return None;
    }
    let first = &case.calls[..case.calls.len().min(MOST_CALLS)];
    let is_run = |&i: &usize| matches!(first[i], Call::Run { .. });
    let runs: Vec<usize> = (0..first.len()).filter(is_run).collect();
    if runs.is_empty() {
        return None;
    }
    let mut case = case.clone();
    case.calls.truncate(random.pick(&runs) + 1);
    Some(case)
}

/// A capture that ends with a run, and its siblings; none where the run is too long.
pub fn family(random: &mut Random, case: &Case, counts: &mut Counts) -> Option<Family> {
    family_within(random, case, MOST_STEPS, counts)
}

/// The same where no run takes more than so many steps.
pub fn family_within(
    random: &mut Random,
    case: &Case,
    most: u64,
    counts: &mut Counts,
) -> Option<Family> {
    let trace = Trace::within(case, most)?;
    let mut family = Family {
        before: case.calls.len() - 1,
        members: Vec::new(),
    };
    counts.note_capture(case, &trace);
    let mut add = |kind: Kind, parts: &[u64], zeros: usize| {
        counts.note_member(kind, &trace, parts, zeros);
        let mut case = case.clone();
        case.calls.pop();
        case.calls.extend(parts.iter().map(|&part| run(part)));
        case.calls.extend(vec![run(0); zeros]);
        family.members.push(Member {
            kind,
            case,
            parts: parts.len(),
        });
    };
    add(Kind::Uncut, &[trace.allowance], 0);
    if let Some(parts) = every_step(&trace) {
        add(Kind::EveryStep, &parts, 0);
    }
    for parts in at_one_point(&trace) {
        add(Kind::OnePoint, &parts, 0);
    }
    for parts in at_random(random, &trace) {
        add(Kind::Random, &parts, 1);
    }
    for allowance in other_allowances(random, &trace) {
        add(Kind::Allowance, &[allowance], 1);
    }
    Some(family)
}

fn every_step(trace: &Trace) -> Option<Vec<u64>> {
    let parts = trace.least();
    (1..=MIDDLE)
        .contains(&parts)
        .then(|| vec![1; parts as usize])
}

/// Cut at each point of a short run.
fn at_one_point(trace: &Trace) -> Vec<[u64; 2]> {
    match trace.last_cut() {
        Some(last) if last <= SHORT => (0..=last)
            .map(|cut| [cut, trace.total(cut) - cut])
            .collect(),
        _ => Vec::new(),
    }
}

/// Cut at a few places, with allowances of 0 between.
fn at_random(random: &mut Random, trace: &Trace) -> Vec<Vec<u64>> {
    let Some(last) = trace.last_cut() else {
        return Vec::new();
    };
    let siblings = (0..3).map(|turn| {
        let places = (0..random.within(1..=5)).map(|_| random.within(0..=last));
        let mut places: Vec<u64> = places.collect();
        places.sort();
        let (mut parts, mut done) = (Vec::new(), 0);
        for place in places {
            if random.percent(30) {
                parts.push(0);
            }
            parts.push(place - done);
            done = place;
        }
        parts.push(trace.total(turn) - done);
        parts
    });
    siblings.collect()
}

/// Where the run answers anything but 90: the least allowance for that, and larger ones.
fn other_allowances(random: &mut Random, trace: &Trace) -> Vec<u64> {
    if trace.stop.answer == ALLOWANCE_USED {
        return Vec::new();
    }
    let least = trace.least();
    vec![least, least + random.within(1..=9), 1 << 63, NO_LIMIT]
}

#[cfg(test)]
mod tests {
    use super::*;

    /// The answer with another allowance.
    fn answer(case: &Case, allowance: u64) -> u32 {
        let mut case = case.clone();
        case.calls.pop();
        case.calls.push(run(allowance));
        Trace::of(&case).unwrap().stop.answer
    }

    /// The points, and the same with too little allowed.
    fn captures() -> Vec<Case> {
        let mut cases = capture_cut_points::all();
        for i in 0..cases.len() {
            let mut case = cases[i].clone();
            case.calls.pop();
            case.calls.push(run(i as u64 % 4));
            cases.push(case);
        }
        cases
    }

    #[test]
    fn where_the_answer_changes() {
        for case in captures() {
            let trace = Trace::of(&case).unwrap();
            for cut in 0..=trace.last_cut().unwrap() {
                assert_eq!(answer(&case, cut), ALLOWANCE_USED);
            }
            assert_eq!(answer(&case, trace.least()), trace.stop.answer);
            if trace.stop.answer != ALLOWANCE_USED {
                assert_eq!(trace.last_cut().unwrap() + 1, trace.least());
                assert_eq!(answer(&case, NO_LIMIT), trace.stop.answer);
            }
        }
    }

    #[test]
    fn refused_at_entry() {
        let mut case = captures().remove(0);
        case.main_length += 8;
        let trace = Trace::of(&case).unwrap();
        assert!(trace.refused_at_entry());
        assert_eq!((trace.last_cut(), trace.least()), (None, 0));
        let mut counts = Counts::default();
        let family = family(&mut Random::new(1), &case, &mut counts).unwrap();
        assert!(family.members.iter().all(|member| member.parts == 1));
        assert_eq!(family.members.len(), 5);
    }

    /// The allowances of a member's parts.
    fn allowances(before: usize, member: &Member) -> Vec<u64> {
        let calls = &member.case.calls[before..before + member.parts];
        let allowance = |call: &Call| match *call {
            Call::Run { allowance } => allowance,
            _ => panic!("another call among the parts"),
        };
        calls.iter().map(allowance).collect()
    }

    #[test]
    fn parts_add_up() {
        let mut random = Random::new(1);
        for case in captures() {
            let trace = Trace::of(&case).unwrap();
            let family = family(&mut random, &case, &mut Counts::default()).unwrap();
            let mut points = 0;
            for member in &family.members {
                let parts = allowances(family.before, member);
                let sum: u64 = parts.iter().sum();
                if trace.stop.answer == ALLOWANCE_USED {
                    assert_eq!(sum, trace.allowance);
                } else {
                    assert!(sum >= trace.least());
                }
                points += (member.kind == Kind::OnePoint) as u64;
                if member.kind == Kind::EveryStep {
                    assert!(parts.iter().all(|&part| part == 1));
                }
            }
            assert_eq!(points, trace.last_cut().unwrap() + 1);
        }
    }
}
