//! Whether a run in parts gives what the uncut run gives, by the results of captures.

use crate::capture_cases::{
    describe_case, describe_result, Call, Case, Results, Standing, WHY_WORDS,
};
use crate::capture_cuts::{Family, Kind, Member};
use crate::chain::{ALLOWANCE_USED, DONE};
use crate::model::Model;
use crate::run_counts::{self, RunCounts};
use crate::state_block::{chain_word, part, rewritten, StateBlock, STATE_WORDS};
use crate::vif_cases::code_words;
use crate::words::{number, word};

/// The words of a run's sums.
const SUMS: usize = 12;

/// The words of a result, read from the first on.
struct Reader<'a> {
    bytes: &'a [u8],
    at: usize,
}

impl Reader<'_> {
    fn word(&mut self) -> u32 {
        self.at += 1;
        word(self.bytes, self.at - 1)
    }

    fn number(&mut self) -> u64 {
        self.at += 2;
        number(self.bytes, self.at - 2)
    }

    fn counts(&mut self) -> RunCounts {
        let numbers = self.numbers(run_counts::NUMBERS);
        RunCounts::of_numbers(numbers.try_into().unwrap())
    }

    fn block(&mut self) -> StateBlock {
        part(&self.words(STATE_WORDS), 0)
    }

    fn words(&mut self, count: usize) -> Vec<u32> {
        (0..count).map(|_| self.word()).collect()
    }

    fn numbers(&mut self, count: usize) -> Vec<u64> {
        (0..count).map(|_| self.number()).collect()
    }
}

/// The memories of a unit, by words.
#[derive(Clone, PartialEq, Eq)]
struct SeenUnit {
    data: Vec<u32>,
    code: Vec<u32>,
}

/// What stands after some calls, by their results.
#[derive(Clone, PartialEq, Eq)]
struct Seen {
    block: StateBlock,
    vif0: SeenUnit,
    vif1: SeenUnit,
    log: Vec<u64>,
    /// Those of the last run, where its result shows them.
    sums: Vec<u32>,
}

/// The numbers of a run's result.
#[derive(Clone, Copy, PartialEq, Eq, Debug)]
struct Told {
    answer: u32,
    counts: RunCounts,
}

impl Seen {
    fn new(case: &Case) -> Seen {
        let standing = Standing::new(case);
        let unit = |model| {
            let memories = standing.memories(model);
            SeenUnit {
                data: memories.data.clone(),
                code: code_words(&memories.code),
            }
        };
        Seen {
            block: rewritten(&standing.block()),
            vif0: unit(Model::Vif0),
            vif1: unit(Model::Vif1),
            log: standing.log.clone(),
            sums: Vec::new(),
        }
    }

    fn lent(&mut self) -> &mut SeenUnit {
        match Model::of_channel(self.block[chain_word::CHANNEL]) {
            Model::Vif0 => &mut self.vif0,
            Model::Vif1 => &mut self.vif1,
        }
    }

    /// Reads what a start or a set left; words that mean nothing are left out.
    fn read_other(&mut self, reader: &mut Reader) {
        reader.word();
        self.block = rewritten(&reader.block());
        self.sums.clear();
    }

    fn read_run(&mut self, reader: &mut Reader, whole: bool) -> Told {
        let told = Told {
            answer: reader.word(),
            counts: reader.counts(),
        };
        self.block = reader.block();
        if whole {
            self.read_memories(reader);
        } else {
            self.read_changes(reader);
        }
        told
    }

    fn read_memories(&mut self, reader: &mut Reader) {
        let lent = self.lent();
        lent.data = reader.words(lent.data.len());
        lent.code = reader.words(lent.code.len());
        self.log = reader.numbers(self.log.len());
    }

    fn read_changes(&mut self, reader: &mut Reader) {
        let lent = self.lent();
        for memory in [&mut lent.data, &mut lent.code] {
            for _ in 0..reader.word() {
                let index = reader.word() as usize;
                memory[index] = reader.word();
            }
        }
        for _ in 0..reader.word() {
            let index = reader.word() as usize;
            self.log[index] = reader.number();
        }
        self.sums = reader.words(SUMS);
    }

    /// What is not as it was; sums count where both have some.
    fn difference(&self, was: &Seen) -> Option<String> {
        if let Some(at) = (0..STATE_WORDS).find(|&at| self.block[at] != was.block[at]) {
            let (now, was) = (self.block[at], was.block[at]);
            return Some(format!("word {at} of the state is {now:X}, not {was:X}"));
        }
        let names = ["VIF0's memories", "VIF1's memories", "log entries", "sums"];
        let sums = self.sums == was.sums || self.sums.is_empty() || was.sums.is_empty();
        let same = [
            self.vif0 == was.vif0,
            self.vif1 == was.vif1,
            self.log == was.log,
            sums,
        ];
        let at = same.iter().position(|&same| !same)?;
        Some(format!("{} differ", names[at]))
    }
}

/// What a run in parts gives: its counts added, the last answer, and what stands afterwards.
struct Outcome {
    told: Told,
    seen: Seen,
}

impl Outcome {
    fn difference(&self, uncut: &Outcome) -> Option<String> {
        if self.told != uncut.told {
            return Some(format!("{:?} in all, uncut {:?}", self.told, uncut.told));
        }
        let of_state = self.seen.difference(&uncut.seen)?;
        Some(format!("{of_state} from the uncut run's"))
    }
}

/// What breaks the rule, and at which call.
struct Broken {
    call: usize,
    what: String,
}

/// Checks the results of all families, one after another; hands back how many runs in parts were
/// checked.
pub fn check(families: &[Family], results: &Results) -> Result<u64, String> {
    let (mut index, mut checked) = (0, 0);
    let mut starts = &results.starts[..];
    for family in families {
        let mut uncut = None;
        for member in &family.members {
            let (of_case, rest) = starts.split_at(member.case.calls.len());
            starts = rest;
            let bytes = &results.bytes[of_case[0].offset..];
            let given = outcome(family.before, member, bytes);
            let given = given.and_then(|given| compared(given, &uncut, member));
            let given = given.map_err(|broken| {
                let at = of_case[broken.call].offset;
                explain(member, index, &broken, &results.bytes[at..])
            })?;
            checked += (member.kind != Kind::Uncut) as u64;
            uncut.get_or_insert(given);
            index += 1;
        }
    }
    Ok(checked)
}

/// Hands back the outcome where it is the uncut run's.
fn compared(given: Outcome, uncut: &Option<Outcome>, member: &Member) -> Result<Outcome, Broken> {
    let difference = uncut.as_ref().and_then(|uncut| given.difference(uncut));
    match difference {
        None => Ok(given),
        Some(what) => Err(Broken {
            call: member.case.calls.len() - 1,
            what,
        }),
    }
}

/// The outcome of a member, by the result of its case at the head of the bytes.
fn outcome(before: usize, member: &Member, bytes: &[u8]) -> Result<Outcome, Broken> {
    let mut seen = Seen::new(&member.case);
    let mut reader = Reader { bytes, at: 0 };
    let mut all = Told {
        answer: ALLOWANCE_USED,
        counts: RunCounts::default(),
    };
    for (call, of_case) in member.case.calls.iter().enumerate() {
        let broken = |what: String| Err(Broken { call, what });
        let allowance = match *of_case {
            Call::Run { allowance } => allowance,
            Call::Start { .. } | Call::Set { .. } => {
                seen.read_other(&mut reader);
                continue;
            }
            Call::Why { .. } => {
                reader.words(WHY_WORDS);
                continue;
            }
        };
        let was = (allowance == 0).then(|| seen.clone());
        let told = seen.read_run(&mut reader, member.case.whole);
        if let Some(what) = was.and_then(|was| changed(&told, &seen, &was)) {
            return broken(format!("an allowance of 0 changes something: {what}"));
        }
        if call >= before + member.parts {
            if ![DONE, ALLOWANCE_USED, all.answer].contains(&told.answer) {
                return broken(format!("{} afterwards with an allowance of 0", told.answer));
            }
        } else if call >= before {
            let last = call + 1 == before + member.parts;
            if !last && (told.answer, told.counts.steps) != (ALLOWANCE_USED, allowance) {
                return broken("a part before the last does not use its allowance".to_string());
            }
            all = added(&all, &told);
        }
    }
    Ok(Outcome { told: all, seen })
}

/// What an allowance of 0 has changed.
fn changed(told: &Told, seen: &Seen, was: &Seen) -> Option<String> {
    if told.counts != RunCounts::default() {
        return Some(format!("{told:?}"));
    }
    seen.difference(was)
}

fn added(all: &Told, next: &Told) -> Told {
    Told {
        answer: next.answer,
        counts: all.counts.plus(&next.counts),
    }
}

fn explain(member: &Member, index: usize, broken: &Broken, result: &[u8]) -> String {
    let (case, call) = (&member.case, broken.call);
    format!(
        "case {index} of the runs in parts ({:?}, {} parts), call {call}: {}\n  \
         the result: {}\n  the case and our last steps:\n{}",
        member.kind,
        member.parts,
        broken.what,
        describe_result(result, &case.calls[call], case),
        describe_case(case, call)
    )
}

#[cfg(test)]
mod tests {
    use super::*;
    use crate::capture_cases::{self, Start};
    use crate::capture_counts::Counts;
    use crate::capture_cut_counts;
    use crate::capture_cut_points;
    use crate::capture_cuts::{family, file_of};
    use crate::capture_generate::{plain_case, run, start, tagged};
    use crate::chain::{self, State};
    use crate::random::Random;
    use crate::words::WORD;

    /// The families of the points, those with whole memories too.
    fn families() -> Vec<Family> {
        let mut random = Random::new(1);
        let mut counts = capture_cut_counts::Counts::default();
        let mut cases = capture_cut_points::all();
        for i in (0..cases.len()).step_by(9) {
            let mut case = cases[i].clone();
            case.whole = true;
            cases.push(case);
        }
        let families = cases
            .iter()
            .map(|case| family(&mut random, case, &mut counts));
        families.map(Option::unwrap).collect()
    }

    fn results(families: &[Family]) -> Results {
        capture_cases::results(&file_of(families), &mut Counts::default())
    }

    #[test]
    fn parts_give_what_the_uncut_run_gives() {
        let families = families();
        let members: usize = families.iter().map(|family| family.members.len()).sum();
        let checked = check(&families, &results(&families)).unwrap();
        assert_eq!(checked as usize, members - families.len());
    }

    /// MODE 2, UNPACK and a program start on channel 1; 17 steps to the end.
    fn capture(whole: bool) -> Case {
        let payload = [
            [0x0500_0002, 0x0100_0101, 0, 0x6C02_0003],
            [1, 2, 3, 4],
            [5, 6, 7, 8],
            [0x1400_0009, 0, 0, 0],
        ];
        let main = tagged(chain::END, &payload.concat());
        Case {
            whole,
            ..plain_case(&State::reset(), &main, 2, &[start(1, 0, 0)])
        }
    }

    /// The capture with a run of this allowance, and in these parts.
    fn in_parts(capture: &Case, allowance: u64, parts: &[u64]) -> Family {
        let member = |kind, parts: &[u64]| {
            let mut case = capture.clone();
            case.calls.extend(parts.iter().map(|&part| run(part)));
            Member {
                kind,
                case,
                parts: parts.len(),
            }
        };
        let members = vec![
            member(Kind::Uncut, &[allowance]),
            member(Kind::Random, parts),
        ];
        Family { before: 1, members }
    }

    fn checked(family: Family) -> Result<u64, String> {
        let families = [family];
        check(&families, &results(&families))
    }

    #[test]
    fn a_wrong_sum_is_noticed() {
        let unused = "a part before the last does not use its allowance";
        for capture in [capture(false), capture(true)] {
            for (allowance, parts) in [
                (16, vec![5, 11]),
                (16, vec![0, 1, 0, 15, 0]),
                (17, vec![16, 1]),
                (17, vec![9, u64::MAX - 9]),
                (u64::MAX, vec![17]),
            ] {
                assert_eq!(checked(in_parts(&capture, allowance, &parts)), Ok(1));
            }
            for (allowance, parts, what) in [
                (16, vec![5, 10], "steps: 15"),
                (16, vec![5, 12], "steps: 17"),
                (16, vec![15], "steps: 15"),
                (17, vec![8, 8], "answer: 90, counts: RunCounts { steps: 16"),
                (17, vec![17, 0], unused),
                (17, vec![18, 1], unused),
                (
                    u64::MAX,
                    vec![16],
                    "answer: 90, counts: RunCounts { steps: 16",
                ),
            ] {
                let told = checked(in_parts(&capture, allowance, &parts)).unwrap_err();
                assert!(told.contains(what), "{told}");
            }
        }
    }

    /// The results with a word of a call of the second case changed.
    fn changed_word(results: &Results, call: usize, at: usize) -> Results {
        let copied = |start: &Start| Start { ..*start };
        let starts: Vec<Start> = results.starts.iter().map(copied).collect();
        let is_the_call = |start: &&Start| (start.case, start.call) == (1, call);
        let offset = starts.iter().find(is_the_call).unwrap().offset;
        let mut bytes = results.bytes.clone();
        bytes[offset + WORD * at] ^= 1;
        Results {
            bytes,
            starts,
            damage: None,
            broken: None,
        }
    }

    /// What is said of the capture in three parts where a word of a call is changed.
    fn told(capture: &Case, call: usize, at: usize) -> String {
        let families = [in_parts(capture, 18, &[7, 0, 11])];
        let right = results(&families);
        assert_eq!(check(&families, &right), Ok(1));
        let told = check(&families, &changed_word(&right, call, at)).unwrap_err();
        assert!(told.starts_with("case 1 of the runs in parts (Random, 3 parts)"));
        told
    }

    /// The words of the answer and the counts.
    const COUNTED: usize = 25;
    const HEAD: usize = COUNTED + STATE_WORDS;

    #[test]
    fn changed_words_are_noticed() {
        let unused = "a part before the last does not use its allowance";
        // Part 1 changes nothing, part 3 eight words of data and three numbers of the log.
        let sums = HEAD + 3;
        let last_sums = HEAD + (1 + 2 * 8) + 1 + (1 + 3 * 3);
        for (call, at, what) in [
            (1, 0, unused),
            (1, 1, unused),
            (1, 3, "in all, uncut"),
            (1, 5, "in all, uncut"),
            (1, 23, "in all, uncut"),
            (2, 0, unused),
            (2, 1, "an allowance of 0 changes something: Told"),
            (2, 3, "an allowance of 0 changes something: Told"),
            (
                2,
                COUNTED + 13,
                "an allowance of 0 changes something: word 13",
            ),
            (2, sums, "an allowance of 0 changes something: sums differ"),
            (3, 0, "in all, uncut"),
            (3, 1, "in all, uncut"),
            (3, 3, "in all, uncut"),
            (3, 7, "in all, uncut"),
            (3, 9, "in all, uncut"),
            (3, COUNTED + 94, "word 94 of the state is"),
            (3, HEAD + 2, "VIF1's memories differ from the uncut run's"),
            (3, last_sums, "sums differ from the uncut run's"),
            (3, last_sums + SUMS - 1, "sums differ from the uncut run's"),
        ] {
            let told = told(&capture(false), call, at);
            assert!(told.contains(what), "call {call}, word {at}: {told}");
        }
    }

    #[test]
    fn whole_memories_are_looked_at() {
        let code = HEAD + 4_096;
        let log = code + 4_096;
        for (at, what) in [
            (HEAD, "VIF1's memories differ"),
            (code - 1, "VIF1's memories differ"),
            (code, "VIF1's memories differ"),
            (log - 1, "VIF1's memories differ"),
            (log, "log entries differ"),
            (log + 11, "log entries differ"),
        ] {
            let zero = format!("an allowance of 0 changes something: {what}");
            assert!(told(&capture(true), 2, at).contains(&zero));
            let uncut = format!("{what} from the uncut run's");
            assert!(told(&capture(true), 3, at).contains(&uncut));
        }
    }
}
