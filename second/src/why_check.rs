//! Whether a why is true: a step on a copy is refused with what it names, at the place and by the
//! number that it shows. A number is tried: with the field mended the step isn't refused so.

use crate::capture_cases::Standing;
use crate::chain::{Next, State, DONE};
use crate::gif::{Path, Place};
use crate::log;
use crate::model::Model;
use crate::refusals;
use crate::vif::Unit;
use crate::why::{Complaint, Why};

/// What is not true of a why on what stands; none where all is.
pub fn broken(standing: &Standing, why: &Why) -> Option<String> {
    let mut copy = standing.clone();
    let found = one_step(&mut copy);
    let said = match *why {
        Why::Nothing => Found::Taken,
        Why::Ended => Found::Ended,
        Why::Entry(refusal) => Found::AtEntry(refusal),
        Why::Step(said) => Found::Refused(said.refusal),
    };
    if said != found {
        return Some(format!("says {why:?}, a step on a copy {found:?}"));
    }
    let Why::Step(said) = *why else {
        return None;
    };
    if standing.state != copy.state {
        return Some(format!("a refused step changed the state: {why:?}"));
    }
    let wrong = Trial { copy, said }.wrong()?;
    Some(format!("{wrong}: {why:?}"))
}

/// What came of a run of one step.
#[derive(Clone, Copy, PartialEq, Eq, Debug)]
enum Found {
    Taken,
    Ended,
    AtEntry(u32),
    Refused(u32),
}

fn one_step(standing: &mut Standing) -> Found {
    let mut tried = None;
    let stop = standing.run(1, |_, _, step| tried = Some(step));
    match tried {
        Some(Ok(_)) => Found::Taken,
        Some(Err(refusal)) => Found::Refused(refusal),
        None if stop.answer == DONE => Found::Ended,
        None => Found::AtEntry(stop.answer),
    }
}

/// A copy on which the next step is refused, and what is said of it.
struct Trial {
    copy: Standing,
    said: Complaint,
}

impl Trial {
    fn state(&mut self) -> &mut State {
        self.copy
            .state
            .as_mut()
            .expect("a step is refused on a state")
    }

    /// The channel's unit.
    fn unit(&mut self) -> &mut Unit {
        let state = self.state();
        match state.model() {
            Model::Vif0 => &mut state.vif0,
            Model::Vif1 => &mut state.vif1,
        }
    }

    /// The path that the next quadword goes to.
    fn path(&mut self) -> &mut Path {
        let state = self.state();
        match state.channel {
            2 => &mut state.path3,
            _ => &mut state.path2,
        }
    }

    /// A byte of main memory after the address.
    fn byte(&mut self, after: usize) -> &mut u8 {
        let at = self.said.address as usize + after;
        &mut self.copy.main[at]
    }

    fn halfword(&mut self, after: usize) -> u64 {
        *self.byte(after) as u64 | (*self.byte(after + 1) as u64) << 8
    }

    fn put_qwc(&mut self, qwc: u64) {
        *self.byte(0) = qwc as u8;
        *self.byte(1) = (qwc >> 8) as u8;
    }

    /// Whether the step is still refused with this number.
    fn still(&mut self) -> bool {
        one_step(&mut self.copy) == Found::Refused(self.said.refusal)
    }

    /// What is wrong with the address or a number.
    fn wrong(mut self) -> Option<&'static str> {
        let place = match self.state().next() {
            Next::Tag => self.state().tadr,
            Next::TagWord(address) => address,
            Next::Payload(pending) => pending.address,
        };
        if self.said.address != place {
            return Some("not the place that the step reads");
        }
        let both = [refusals::OUTSIDE, refusals::ROOM].contains(&self.said.refusal);
        if !both && self.said.second != 0 {
            return Some("a second number that there is not");
        }
        if self.found() != Some(self.said.first) {
            return Some("the first number is not what is found");
        }
        match self.said.refusal {
            refusals::OUTSIDE => self.wrong_most(),
            refusals::ROOM => self.wrong_room(),
            refusals::PLACE => None,
            _ => {
                self.mend();
                let still = self.still();
                still.then_some("refused with the field mended too")
            }
        }
    }

    /// The first number, read at the place by bytes or from the state; none where it breaks no
    /// rule.
    fn found(&mut self) -> Option<u64> {
        let number = match self.said.refusal {
            refusals::TADR => self.state().tadr as u64,
            refusals::ADDR => {
                let high = (*self.byte(7) & 0x7F) as u64;
                self.halfword(4) | (*self.byte(6) as u64) << 16 | high << 24
            }
            refusals::SPR => *self.byte(7) as u64 / 128,
            refusals::CALL => self.state().depth as u64,
            refusals::OUTSIDE => self.halfword(0),
            refusals::COMMAND => *self.byte(3) as u64 % 128,
            refusals::FORMAT => *self.byte(3) as u64 / 4 % 4,
            refusals::CYCLE => self.unit().registers.wl as u64,
            refusals::MODE => *self.byte(0) as u64 % 4,
            refusals::PLACE | refusals::ALIGNMENT => self.said.address as u64 % 16 / 4,
            refusals::TOPS => *self.byte(1) as u64 / 128,
            refusals::DESCRIPTOR => 11,
            _ => log::room(self.copy.log.len(), self.state().used),
        };
        let length = self.copy.main.len() as u64;
        let breaks = match self.said.refusal {
            refusals::TADR => number >= length,
            refusals::ADDR => number % 16 != 0,
            refusals::SPR | refusals::TOPS => number == 1,
            refusals::CALL => number == 2,
            refusals::FORMAT => number < 3,
            refusals::CYCLE => number == 0,
            refusals::MODE => number == 3,
            refusals::PLACE => number > 0,
            refusals::ALIGNMENT => number % 2 == 1,
            refusals::OUTSIDE => number > self.said.second,
            refusals::ROOM => number < self.said.second,
            _ => true,
        };
        breaks.then_some(number)
    }

    fn mend(&mut self) {
        match self.said.refusal {
            refusals::TADR => self.state().tadr = 0,
            refusals::ADDR => *self.byte(4) &= 0xF0,
            refusals::SPR => *self.byte(7) &= 0x7F,
            refusals::CALL => self.state().depth = 1,
            refusals::COMMAND => *self.byte(3) = 0,
            refusals::FORMAT => *self.byte(3) |= 0b1100,
            refusals::CYCLE => self.unit().registers.wl = 1,
            refusals::MODE => *self.byte(0) &= 0xFC,
            refusals::ALIGNMENT => {
                if let Some(waiting) = &mut self.unit().waiting {
                    waiting.due -= 1;
                }
            }
            refusals::TOPS => *self.byte(1) &= 0x7F,
            _ => {
                if let Place::Data { tag, .. } = &mut self.path().place {
                    let nibbles = (0..16).filter(|i| tag.descriptors >> (4 * i) & 15 == 11);
                    let all: u64 = nibbles.map(|i| 15 << (4 * i)).sum();
                    tag.descriptors |= all;
                }
            }
        }
    }

    /// 14: one quadword more than the most that fits is refused, the most is not.
    fn wrong_most(&mut self) -> Option<&'static str> {
        let most = self.said.second;
        self.put_qwc(most + 1);
        if !self.still() {
            return Some("more fit");
        }
        self.put_qwc(most);
        self.still().then_some("fewer fit")
    }

    /// 31: with room for one entry less than needed the step is refused, with room for all it is
    /// not, and writes so many.
    fn wrong_room(&mut self) -> Option<&'static str> {
        let needed = self.said.second;
        self.state().used = 0;
        self.copy.log.resize(log::numbers(needed - 1), 0);
        if !self.still() {
            return Some("fewer entries are needed");
        }
        self.copy.log.resize(log::numbers(needed), 0);
        if self.still() {
            return Some("more entries are needed");
        }
        let written = self.state().used;
        (written != needed).then_some("other entries are written than are needed")
    }
}

#[cfg(test)]
mod tests {
    use super::*;
    use crate::capture_cases::{Call, Case};
    use crate::capture_generate::cases;
    use crate::why_points;

    /// Each why of a case, with what stands before it.
    fn whys(case: &Case, mut each: impl FnMut(&Standing, Why)) {
        let mut standing = Standing::new(case);
        for call in &case.calls {
            if let Call::Why { .. } = call {
                each(&standing, standing.why());
            } else {
                standing.make(call);
            }
        }
    }

    /// A why names r exactly if the next step gives r.
    #[test]
    fn all_are_true() {
        let mut checked = 0;
        for seed in [11, 12] {
            for case in cases(seed, 100) {
                whys(&case, |standing, why| {
                    assert_eq!(broken(standing, &why), None);
                    checked += 1;
                });
            }
        }
        assert!(checked > 5_000, "{checked}");
    }

    /// Another kind, refusal, address or number is told, of every point.
    #[test]
    fn others_are_told() {
        let mut told = 0;
        for case in why_points::in_captures() {
            whys(&case, |standing, why| {
                for other in others(&why) {
                    assert!(broken(standing, &other).is_some(), "{why:?}, {other:?}");
                    told += 1;
                }
            });
        }
        assert!(told > 200, "{told}");
    }

    fn others(why: &Why) -> Vec<Why> {
        let mut others = vec![Why::Nothing, Why::Ended];
        for refusal in [1, 2, 3, 4, 5, 14] {
            others.push(Why::Entry(refusal));
        }
        if let Why::Step(said) = *why {
            let change = |change: fn(&mut Complaint)| {
                let mut said = said;
                change(&mut said);
                Why::Step(said)
            };
            others.extend([
                change(|said| said.refusal += 1),
                change(|said| said.refusal -= 1),
                change(|said| said.address += 4),
                change(|said| said.address ^= 16),
                change(|said| said.first += 1),
                change(|said| said.first ^= 1 << 32),
                change(|said| said.second += 1),
                change(|said| said.second ^= 2),
            ]);
        }
        others.retain(|other| other != why);
        others
    }
}
