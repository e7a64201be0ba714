//! The request's sentences about the check of a chain, each on an outcome.

use crate::chain::{self, Memories, State};
use crate::check::{Meant, Verdict, FIELDS, INSTRUCTION};
use crate::check_cases::{Case, Outcome};
use crate::log;
use crate::memory::MOST_MAIN;
use crate::run_counts::RunCounts;
use crate::sheet::{self, Refusal, CODE_BYTES, DATA_WORDS};
use crate::sheet_cases::Filled;

/// What a run of the chain leaves.
struct Ran {
    answer: u32,
    counts: RunCounts,
    used: u64,
    memories: Filled,
}

/// The sentence that an outcome breaks; none where it keeps all.
pub fn broken(case: &Case, outcome: &Outcome) -> Option<String> {
    let found = match refusal(case) {
        Some(refusal) => wrong_refusal(case, outcome, refusal),
        None => wrong_check(case, outcome),
    };
    found.map(str::to_string)
}

/// "Refusals: entry refusals first, then the sheet's (all but 47)."
pub fn refusal(case: &Case) -> Option<Refusal> {
    let wrong = wrong_lengths(case);
    let named = wrong.iter().zip(1..).find(|(is, _)| **is);
    match named {
        Some((_, refusal)) => Some((refusal, 0)),
        None => sheet::records(&case.sheet).err(),
    }
}

/// Whether each of the lengths is wrong, in the order of the refusals 1 to 4.
pub fn wrong_lengths(case: &Case) -> [bool; 4] {
    let (main, log) = (case.main_length as usize, case.log_length as usize);
    [
        main == 0 || main % 16 != 0 || main > MOST_MAIN,
        case.data_length as usize != DATA_WORDS,
        case.code_length as usize != CODE_BYTES,
        log % 3 != 0 || log > 196_608,
    ]
}

fn wrong_refusal(case: &Case, outcome: &Outcome, refusal: Refusal) -> Option<&'static str> {
    let checked = &outcome.checked;
    if checked.verdict != Verdict::Refused(refusal) {
        return Some("another refusal is due");
    }
    if (checked.used, checked.counts) != (0, RunCounts::default()) {
        return Some("a refused check has run something");
    }
    (outcome.memories != case.memories()).then_some("a refusal changed something")
}

fn wrong_check(case: &Case, outcome: &Outcome) -> Option<&'static str> {
    let checked = &outcome.checked;
    if matches!(checked.verdict, Verdict::Refused(_)) {
        return Some("refused without a reason");
    }
    let ran = run_in_halves(case);
    if (checked.used, checked.counts) != (ran.used, ran.counts) {
        return Some("the numbers are not the run's");
    }
    if outcome.memories != ran.memories {
        return Some("memories and log are not as the run left them");
    }
    let start = case.memories();
    let meant = Meant::new(&case.sheet, &start.data, &start.code).ok()?;
    wrong_verdict(checked.verdict, &ran, &meant).or_else(|| our_own(case, outcome))
}

/// The run, stopped once in the middle and continued.
fn run_in_halves(case: &Case) -> Ran {
    let (main, mut memories) = (case.main(), case.memories());
    let mut state = State::reset();
    let first = case.allowance / 2;
    let mut lent: Memories = memories.lend(&main);
    let stop = chain::run(&mut state, &mut lent, first.min(30), |_, _, _| {});
    let (mut answer, mut counts) = (stop.answer, stop.counts);
    if answer == chain::ALLOWANCE_USED {
        let left = case.allowance - counts.steps;
        let rest = chain::run(&mut state, &mut lent, left, |_, _, _| {});
        (answer, counts) = (rest.answer, counts.plus(&rest.counts));
    }
    Ran {
        answer,
        counts,
        used: state.used,
        memories,
    }
}

/// "accept exactly if .. a run .. ends with 0 and both memories and the log equal the sheet's
/// meaning. Otherwise name the first difference": what is named differs, and nothing before it.
fn wrong_verdict(verdict: Verdict, ran: &Ran, meant: &Meant) -> Option<&'static str> {
    let done = ran.answer == chain::DONE;
    let (data, code) = (&ran.memories.data, &ran.memories.code);
    let (same_data, same_code) = (*data == meant.data, *code == meant.code);
    let numbers = meant
        .entries
        .iter()
        .flat_map(|e| [e.path, e.register, e.value]);
    let numbers: Vec<u64> = numbers.collect();
    let log = &ran.memories.log[..log::numbers(ran.used)];
    let both = log.len().min(numbers.len());
    let holds = match verdict {
        Verdict::Accepted => done && same_data && same_code && *log == numbers,
        Verdict::Refused(_) => false,
        Verdict::Answer(answer) => !done && answer == ran.answer,
        Verdict::Quadword(at) => done && first_at(data, &meant.data, FIELDS, at),
        Verdict::Instruction(at) => {
            done && same_data && first_at(code, &meant.code, INSTRUCTION, at)
        }
        Verdict::Entry(at) => {
            done && same_data && same_code && first_at(&log[..both], &numbers[..both], 3, at)
        }
        Verdict::Entries(used) => {
            let same_entries = log[..both] == numbers[..both];
            done && same_data
                && same_code
                && same_entries
                && log.len() != numbers.len()
                && used == ran.used
        }
    };
    (!holds).then_some("what is said is not so")
}

/// Whether the first difference is in the group with this number.
fn first_at<T: PartialEq>(a: &[T], b: &[T], group: usize, at: usize) -> bool {
    let (from, end) = (at * group, at * group + group);
    end <= a.len() && a[..from] == b[..from] && a[from..end] != b[from..end]
}

/// "The chain our builder makes of the sheet is accepted when allowance and log suffice."
fn our_own(case: &Case, outcome: &Outcome) -> Option<&'static str> {
    let steps = sheet::steps(&case.sheet).ok()?;
    let entries = sheet::entries(&case.sheet).ok()?;
    let suffice = steps <= case.allowance && log::holds(case.log_length as usize, entries);
    if !suffice || !is_our_own(case) {
        return None;
    }
    let checked = &outcome.checked;
    let told = (checked.verdict, checked.used, Ok(checked.counts));
    let wanted = (Verdict::Accepted, entries, sheet::counts(&case.sheet));
    (told != wanted).then_some("our own chain is not accepted as it has to be")
}

/// Whether main memory starts with the chain that our builder makes of the sheet.
pub fn is_our_own(case: &Case) -> bool {
    let mut chain = vec![0; case.main_length as usize];
    match sheet::build(&case.sheet, &mut chain) {
        Ok(length) => case.main()[..length] == chain[..length],
        Err(_) => false,
    }
}

#[cfg(test)]
mod tests {
    use super::*;
    use crate::check_generate::cases;
    use crate::check_points;
    use crate::sheet::record_bytes;

    #[test]
    fn nothing_is_broken() {
        let points = check_points::points();
        let points = points.iter().map(|point| point.case());
        for case in points.chain(cases(4, 300).into_iter().map(|made| made.case)) {
            assert_eq!(broken(&case, &Outcome::new(&case)), None);
        }
    }

    /// A start at 5 and a vector at 2, by our own chain with room for three entries.
    fn case() -> Case {
        let sheet = [record_bytes(4, 0, 5, &[]), record_bytes(1, 1, 2, &[3; 16])];
        let mut chain = [0; 96];
        assert_eq!(sheet::build(&sheet.concat(), &mut chain), Ok(96));
        let words = chain.chunks(4);
        let words = words.map(|bytes| u32::from_le_bytes(bytes.try_into().unwrap()));
        Case {
            sheet: sheet.concat(),
            main_length: 96,
            main: words.collect(),
            data_length: 4_096,
            code_length: 16_384,
            log_length: 9,
            fill: 7,
            allowance: 15,
        }
    }

    fn told(case: &Case, sham: impl Fn(&mut Outcome)) -> Option<String> {
        let mut outcome = Outcome::new(case);
        sham(&mut outcome);
        broken(case, &outcome)
    }

    #[test]
    fn shams_are_found() {
        let shams: [(&str, fn(&mut Outcome)); 13] = [
            ("refused without a reason", |o| {
                o.checked.verdict = Verdict::Refused((1, 0))
            }),
            ("the numbers are not the run's", |o| {
                o.checked.counts.steps += 1
            }),
            ("the numbers are not the run's", |o| o.checked.used = 0),
            ("the numbers are not the run's", |o| {
                o.checked.counts.packets = 1
            }),
            ("memories and log are not as the run left them", |o| {
                o.memories.data[0] ^= 1
            }),
            ("memories and log are not as the run left them", |o| {
                o.memories.code[0] ^= 1
            }),
            ("memories and log are not as the run left them", |o| {
                o.memories.log[8] ^= 1
            }),
            ("what is said is not so", |o| {
                o.checked.verdict = Verdict::Answer(0)
            }),
            ("what is said is not so", |o| {
                o.checked.verdict = Verdict::Answer(90)
            }),
            ("what is said is not so", |o| {
                o.checked.verdict = Verdict::Quadword(2)
            }),
            ("what is said is not so", |o| {
                o.checked.verdict = Verdict::Instruction(0)
            }),
            ("what is said is not so", |o| {
                o.checked.verdict = Verdict::Entry(0)
            }),
            ("what is said is not so", |o| {
                o.checked.verdict = Verdict::Entries(1)
            }),
        ];
        assert_eq!(told(&case(), |_| {}), None);
        for (wanted, sham) in shams {
            assert_eq!(told(&case(), sham), Some(wanted.to_string()));
        }
    }

    /// One that accepts everything, one that names a later difference, one that refuses nothing.
    #[test]
    fn other_shams() {
        let wrong = Some("what is said is not so".to_string());
        let accepts = |o: &mut Outcome| o.checked.verdict = Verdict::Accepted;
        let mut other = case();
        // Another vector, and another start: the quadword is named.
        (other.sheet[12], other.sheet[4]) = (9, 6);
        assert_eq!(Outcome::new(&other).checked.verdict, Verdict::Quadword(2));
        assert_eq!(told(&other, accepts), wrong);
        for later in [Verdict::Entry(0), Verdict::Quadword(3), Verdict::Entries(1)] {
            assert_eq!(told(&other, |o| o.checked.verdict = later), wrong);
        }
        let mut cut = case();
        cut.allowance = 14;
        assert_eq!(Outcome::new(&cut).checked.verdict, Verdict::Answer(90));
        assert_eq!(told(&cut, accepts), wrong);
        let mut short = case();
        short.log_length = 8;
        let due = Some("another refusal is due".to_string());
        assert_eq!(told(&short, accepts), due);
        short.sheet.push(0);
        let of_the_sheet = |o: &mut Outcome| o.checked.verdict = Verdict::Refused((44, 28));
        assert_eq!(told(&short, of_the_sheet), due);
        let ran = |o: &mut Outcome| o.checked.counts.words = 1;
        let wanted = Some("a refused check has run something".to_string());
        assert_eq!(told(&short, ran), wanted);
        let changed = |o: &mut Outcome| o.memories.log[0] ^= 1;
        let wanted = Some("a refusal changed something".to_string());
        assert_eq!(told(&short, changed), wanted);
    }
}
