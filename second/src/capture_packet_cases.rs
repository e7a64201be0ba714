//! Captures about packets on each way to a path: cut, stopped and gone on with.

use crate::capture_cases::{Call, Case};
use crate::capture_generate::{plain_case, run, start, tag, tagged, NO_LIMIT};
use crate::chain::{Pending, State, CNT, END, NEXT, REFE};
use crate::gif::{Path, Place, Tag};
use crate::gif_generate::{tag_quadword, EOP};
use crate::model::Model;
use crate::state_block::{chain_word, unit_word, VIF1};
use crate::vif::{Payload, Unit, Waiting};
use crate::vif_generate::code_word;
use crate::way::{Way, WAYS};

const INTERRUPT: u32 = 1 << 31;
/// The entries that the packets write.
const ENTRIES: u64 = 4;

pub fn all() -> Vec<Case> {
    let mut cases = vec![both_paths()];
    for way in WAYS {
        for cut in 0..=packets().len() {
            cases.push(in_two_runs(way, cut));
            cases.push(with_a_start(way, cut));
        }
        cases.extend(refused_after(way));
        cases.extend(before_the_last(way));
        if way != Way::Channel2 {
            cases.extend(stopped_by_a_word(way));
        }
    }
    cases
}

/// Three packets, the second without data.
fn packets() -> [u128; 6] {
    [
        tag_quadword(1, 0, 1, 0xE) | EOP,
        0x47_0000_0000_0000_0001,
        tag_quadword(0, 2, 1, 0) | EOP,
        tag_quadword(1, 1, 3, 0x321) | EOP,
        0x3_0000_0000_0000_0002,
        0x5_0000_0000_0000_0004,
    ]
}

/// The packets, with a run cut after so many quadwords.
fn in_two_runs(way: Way, cut: usize) -> Case {
    let main = tagged(END, &way.payload(&packets()));
    let first = way.steps_before() + cut as u64;
    let calls = [run(first), run(0), run(NO_LIMIT), run(NO_LIMIT)];
    plain_case(&way.state(), &main, ENTRIES, &calls)
}

/// The same, where another chain hands over the rest.
fn with_a_start(way: Way, cut: usize) -> Case {
    let mut main = tagged(END, &way.payload(&packets()));
    let rest = packets().len() - cut;
    let second = 4 * main.len() as u32;
    main.extend(tag(REFE, rest as u32, second - 16 * rest as u32));
    let first = way.steps_before() + cut as u64;
    let calls = [run(first), start(way.channel(), second, 0), run(NO_LIMIT)];
    plain_case(&way.state(), &main, ENTRIES, &calls)
}

/// The packets, then descriptor B, an entry too many, and a tag that is refused.
fn refused_after(way: Way) -> Vec<Case> {
    let mut cases = Vec::new();
    for descriptor in [0xB, 0xE] {
        let last = [tag_quadword(1, 0, 1, descriptor) | EOP, 7];
        let quadwords = [&packets()[..], &last].concat();
        let main = tagged(END, &way.payload(&quadwords));
        cases.push(stopped(way, &main));
    }
    let main = [&tagged(CNT, &way.payload(&packets()))[..], &tag(NEXT, 0, 8)].concat();
    cases.push(stopped(way, &main));
    cases
}

/// An interrupt with the last quadword and after it, and a word that is refused.
fn stopped_by_a_word(way: Way) -> Vec<Case> {
    let payload = way.payload(&packets());
    let mut with_interrupt = payload.clone();
    with_interrupt[3] |= INTERRUPT;
    let after = |word: u32| [&payload[..], &[0, word, 0, 0]].concat();
    let payloads = [
        with_interrupt,
        after(INTERRUPT),
        after(code_word(0x08, 0, 0)),
    ];
    let cases = payloads.map(|payload| stopped(way, &tagged(END, &payload)));
    cases.to_vec()
}

/// Two runs over this main memory.
fn stopped(way: Way, main: &[u32]) -> Case {
    plain_case(&way.state(), main, ENTRIES, &[run(NO_LIMIT), run(NO_LIMIT)])
}

/// A state in which the next quadword closes a packet, with an allowance of 0, and refused at
/// entry in each way.
fn before_the_last(way: Way) -> Vec<Case> {
    let case = last_due(way, &[run(0), run(1)]);
    let changes: [fn(&mut Case); 7] = [
        |_| {},
        |case| case.main_length += 8,
        |case| case.data_length -= 1,
        |case| case.code_length += 1,
        |case| case.log_length += 1,
        |case| case.state[VIF1 + unit_word::MODE] = 3,
        |case| case.state[chain_word::PAYLOAD_AT] = case.main_length,
    ];
    let changed = changes.map(|change| {
        let mut case = case.clone();
        change(&mut case);
        case
    });
    changed.to_vec()
}

/// One quadword is due of a tag with EOP, and pending.
fn last_due(way: Way, calls: &[Call]) -> Case {
    let path = Path {
        q: 0,
        place: Place::Data {
            tag: Tag::decode(tag_quadword(5, 0, 1, 0xE) | EOP),
            due: 1,
        },
    };
    let mut state = State {
        payload: Some(Pending {
            address: 16,
            words: 4,
        }),
        ended: true,
        ..way.state()
    };
    let waits = |payload| Unit {
        waiting: Some(Waiting {
            payload,
            interrupt: false,
            due: 1,
        }),
        ..Unit::reset(Model::Vif1)
    };
    match way {
        Way::Direct => (state.path2, state.vif1) = (path, waits(Payload::Direct)),
        Way::Directhl => (state.path2, state.vif1) = (path, waits(Payload::Directhl)),
        Way::Channel2 => state.path3 = path,
    }
    let main = [tag(END, 0, 0), [1, 2, 0x47, 0]].concat();
    plain_case(&state, &main, 1, calls)
}

/// The packets on path 2, then on path 3, over one log.
fn both_paths() -> Case {
    let first = tagged(END, &Way::Direct.payload(&packets()));
    let second = 4 * first.len() as u32;
    let main = [first, tagged(END, &Way::Channel2.payload(&packets()))].concat();
    let calls = [run(NO_LIMIT), start(2, second, 0), run(NO_LIMIT)];
    plain_case(&State::reset(), &main, 2 * ENTRIES, &calls)
}

#[cfg(test)]
mod tests {
    use super::*;
    use crate::capture_cases::Standing;

    /// The answer, steps and packets of each run.
    fn runs(case: &Case) -> Vec<(u32, u64, u64)> {
        let mut standing = Standing::new(case);
        let mut runs = Vec::new();
        for call in &case.calls {
            match *call {
                Call::Start { channel, tadr, tte } => {
                    assert_eq!(standing.start(channel, tadr, tte), 0);
                }
                Call::Run { allowance } => {
                    let stop = standing.run(allowance, |_, _, _| {});
                    runs.push((stop.answer, stop.counts.steps, stop.counts.packets));
                }
                Call::Set { .. } | Call::Why { .. } => panic!("another call among the runs"),
            }
        }
        runs
    }

    /// The packets that are closed within so many quadwords.
    const CLOSED: [u64; 7] = [0, 0, 1, 2, 2, 2, 3];

    #[test]
    fn each_run_has_its_own_packets() {
        for way in WAYS {
            for (cut, &first) in CLOSED.iter().enumerate() {
                let (steps, rest) = (way.steps_before() + cut as u64, 6 - cut as u64);
                let answer = if cut == 6 { 0 } else { 90 };
                let given = runs(&in_two_runs(way, cut));
                let then = [(answer, 0, 0), (0, rest, 3 - first), (0, 0, 0)];
                assert_eq!(given, [&[(answer, steps, first)][..], &then].concat());
                let given = runs(&with_a_start(way, cut));
                assert_eq!(given, [(answer, steps, first), (0, rest + 1, 3 - first)]);
            }
        }
    }

    #[test]
    fn stopped_after_packets() {
        for way in WAYS {
            let before = way.steps_before();
            let given = refused_after(way).iter().map(runs).collect::<Vec<_>>();
            assert_eq!(given[0], [(30, before + 7, 3), (30, 0, 0)]);
            assert_eq!(given[1], [(31, before + 7, 3), (31, 0, 0)]);
            assert_eq!(given[2], [(11, before + 6, 3), (11, 0, 0)]);
        }
        for way in [Way::Direct, Way::Directhl] {
            let given = stopped_by_a_word(way).iter().map(runs).collect::<Vec<_>>();
            assert_eq!(given[0], [(91, 11, 3), (0, 0, 0)]);
            assert_eq!(given[1], [(91, 13, 3), (0, 2, 0)]);
            assert_eq!(given[2], [(20, 12, 3), (20, 0, 0)]);
        }
    }

    #[test]
    fn not_past_the_entry() {
        for way in WAYS {
            let given = before_the_last(way).iter().map(runs).collect::<Vec<_>>();
            assert_eq!(given[0], [(90, 0, 0), (0, 1, 1)]);
            for (given, refusal) in given[1..].iter().zip([1, 2, 3, 4, 5, 14]) {
                assert_eq!(given[..], [(refusal, 0, 0); 2]);
            }
        }
    }

    #[test]
    fn one_log_for_both_paths() {
        let case = both_paths();
        assert_eq!(runs(&case), [(0, 11, 3), (0, 7, 3)]);
    }
}
