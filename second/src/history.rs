//! What happened in runs, by the words of main memory that their steps read: the fact beneath the
//! totals, and what the counts have to be. Nothing here comes from the counts.

use crate::capture_cases::Standing;
use crate::chain::{word_at, Next, State, Stop};
use crate::model::Model;
use crate::run_counts::{IDS, NAMES, NUMBERS};
use crate::vif::Payload;

/// The words of a quadword.
const QUADWORD: u128 = 4;

/// The steps completed in some runs, without bound.
#[derive(Clone, Copy, PartialEq, Eq, Debug, Default)]
pub struct Trace {
    steps: u128,
    /// QWC of the tags read, by ID.
    qwc: [u128; IDS],
    /// Payload words taken, a quadword of the GIF being four.
    payload: u128,
    /// Words taken by a unit one by one: of payload, and of tags.
    words: u128,
    tag_words: u128,
    nops: u128,
    /// Quadwords that closed a packet.
    packets: u128,
}

/// What the next step takes, and whether as a code.
fn takes_code(before: &State) -> bool {
    before.channel != 2 && before.unit().waiting.is_none()
}

fn takes_quadword(before: &State) -> bool {
    let waiting = before.unit().waiting;
    let direct = |payload| matches!(payload, Payload::Direct | Payload::Directhl);
    before.channel == 2
        || before.model() == Model::Vif1 && waiting.is_some_and(|code| direct(code.payload))
}

impl Trace {
    /// Adds a step that was completed, by the state before it.
    pub fn add(&mut self, before: &State, main: &[u8], closed: bool) {
        self.steps += 1;
        self.packets += closed as u128;
        let word = |address: u32| word_at(main, address);
        let is_nop = |address: u32| takes_code(before) && word(address) >> 24 & 0x7F == 0;
        match before.next() {
            Next::Tag => {
                let tag = word(before.tadr);
                self.qwc[(tag >> 28 & 7) as usize] += (tag & 0xFFFF) as u128;
            }
            Next::TagWord(address) => {
                self.tag_words += 1;
                self.nops += is_nop(address) as u128;
            }
            Next::Payload(_) if takes_quadword(before) => self.payload += QUADWORD,
            Next::Payload(pending) => {
                self.payload += 1;
                self.words += 1;
                self.nops += is_nop(pending.address) as u128;
            }
        }
    }

    /// Both one after the other.
    fn join(&mut self, next: &Trace) {
        self.steps += next.steps;
        (0..IDS).for_each(|id| self.qwc[id] += next.qwc[id]);
        self.payload += next.payload;
        self.words += next.words;
        self.tag_words += next.tag_words;
        self.nops += next.nops;
        self.packets += next.packets;
    }

    /// What the counts have to be.
    fn numbers(&self) -> [u128; NUMBERS] {
        let mut numbers = [0; NUMBERS];
        let words = self.words + self.tag_words;
        numbers[..4].copy_from_slice(&[self.steps, self.packets, words, self.nops]);
        numbers[4..].copy_from_slice(&self.qwc);
        numbers
    }

    /// The sum of QWC of the tags read.
    fn all_qwc(&self) -> u128 {
        self.qwc.iter().sum()
    }
}

/// The runs since a start that was accepted.
#[derive(Default)]
pub struct History {
    all: Trace,
    pub runs: u64,
    /// The answer of the last run.
    pub last: Option<u32>,
}

impl History {
    /// Adds a run; what is wrong with it, if anything: the counts over all runs, or "four times the sum
    /// of QWC of the tags read since then equals the payload words taken plus the payload words
    /// pending".
    pub fn add(&mut self, run: &Trace, stop: &Stop, now: &Standing) -> Option<String> {
        self.all.join(run);
        self.runs += 1;
        self.last = Some(stop.answer);
        let (qwc, taken) = (self.all.all_qwc(), self.all.payload);
        let pending = pending(now) as u128;
        (QUADWORD * qwc != taken + pending)
            .then(|| format!("QWC {qwc} since the start, {taken} words taken, {pending} pending"))
    }
}

/// The payload words that are pending.
pub fn pending(now: &Standing) -> u32 {
    let payload = now.state.and_then(|state| state.payload);
    payload.map_or(0, |pending| pending.words)
}

/// What is wrong with a run's counts.
pub fn wrong_counts(run: &Trace, stop: &Stop) -> Option<String> {
    let (wanted, told) = (run.numbers(), stop.counts.numbers());
    let at = (0..NUMBERS).find(|&i| wanted[i] != told[i] as u128)?;
    Some(format!("{} {}, not {}", told[at], NAMES[at], wanted[at]))
}

#[cfg(test)]
mod tests {
    use super::*;
    use crate::capture_cases::{results, Call};
    use crate::capture_counts::Counts;
    use crate::capture_generate::{file_of, plain_case, run, start, tagged};
    use crate::chain::END;

    /// A start and three runs: NOP, DIRECT of one quadword, which is a GIF tag without data.
    #[test]
    fn three_runs() {
        let main = tagged(END, &[0, 0, 0, 0x5000_0001, 0x8000, 0, 0, 0]);
        let calls = [start(1, 0, 0), run(2), run(3), run(9)];
        let case = plain_case(&State::reset(), &main, 0, &calls);
        let mut standing = Standing::new(&case);
        let mut history = History::default();
        let mut given = Vec::new();
        for call in &case.calls {
            let Call::Run { allowance } = *call else {
                standing.make(call);
                continue;
            };
            let (main, mut trace) = (standing.main.clone(), Trace::default());
            let stop = standing.run(allowance, |before, _, tried| {
                trace.add(before, &main, tried.unwrap().closed());
            });
            assert_eq!(wrong_counts(&trace, &stop), None);
            assert_eq!(history.add(&trace, &stop, &standing), None);
            given.push((trace.numbers()[..4].to_vec(), pending(&standing)));
        }
        let wanted = [
            (vec![2, 0, 1, 1], 7),
            (vec![3, 0, 3, 2], 4),
            (vec![1, 1, 0, 0], 0),
        ];
        assert_eq!(given, wanted);
        assert_eq!(history.all.all_qwc(), 2);
        assert_eq!((history.all.payload, history.runs), (8, 3));
        let broken = results(&file_of(&[case]), &mut Counts::default()).broken;
        assert_eq!(broken, None);
    }

    /// Wrong counts and a wrong history are told.
    #[test]
    fn shams_are_found() {
        let main = tagged(END, &[0; 8]);
        let calls = [start(1, 0, 0)];
        let mut standing = Standing::new(&plain_case(&State::reset(), &main, 0, &calls));
        let (bytes, mut trace) = (standing.main.clone(), Trace::default());
        let stop = standing.run(4, |before, _, _| trace.add(before, &bytes, false));
        for at in 0..NUMBERS {
            let mut numbers = stop.counts.numbers();
            numbers[at] += 1;
            let counts = crate::run_counts::RunCounts::of_numbers(numbers);
            let told = wrong_counts(&trace, &Stop { counts, ..stop });
            assert!(told.unwrap().contains(NAMES[at]));
        }
        let told = |change: fn(&mut Trace)| {
            let mut trace = trace;
            change(&mut trace);
            History::default().add(&trace, &stop, &standing)
        };
        assert_eq!(told(|_| {}), None);
        assert!(told(|trace| trace.payload += 1).is_some());
        assert!(told(|trace| trace.qwc[3] += 1).is_some());
        assert!(told(|trace| trace.tag_words += 1).is_none());
    }
}
