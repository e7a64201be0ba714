//! Points about the counts of runs, worked by hand: several runs after a start, each on what the last
//! left.

use crate::capture_cases::{Call, Case, Standing};
use crate::capture_generate::{plain_case, run, start, tag, tagged, NO_LIMIT};
use crate::chain::{State, CALL, CNT, END, NEXT, REF, REFE, REFS, RET};
use crate::run_counts::RunCounts;

/// What a run gives: its answer; steps, packets, VIF words and NOPs; QWC by ID.
type Gives = (u32, [u64; 4], Vec<(u32, u64)>);

struct Point {
    name: &'static str,
    case: Case,
    runs: Vec<Gives>,
}

/// Calls after a start, over these words of main memory; a run for each that gives something.
fn point(
    name: &'static str,
    (channel, tte): (u32, u32),
    main: &[u32],
    runs: Vec<(u64, Gives)>,
) -> Point {
    let mut calls = vec![start(channel, 0, tte)];
    calls.extend(runs.iter().map(|&(allowance, _)| run(allowance)));
    Point {
        name,
        case: plain_case(&State::reset(), main, 2, &calls),
        runs: runs.into_iter().map(|(_, gives)| gives).collect(),
    }
}

fn points() -> Vec<Point> {
    let mut points: Vec<Point> = [0, 1].into_iter().flat_map(of_either_unit).collect();
    points.extend(of_quadwords());
    points.extend(of_ids());
    points.extend(of_stops());
    points
}

/// The same words to VIF0 and VIF1.
fn of_either_unit(channel: u32) -> Vec<Point> {
    let nothing = || (0, [0; 4], vec![]);
    vec![
        // The last has bit 31: 91 where the chain ends too, and then 0.
        point(
            "NOPs of zeros, with NUM and IMM, with bit 31",
            (channel, 0),
            &tagged(END, &[0, 0x00FF_FFFF, 0x0012_0000, 0x8000_0001]),
            vec![
                (NO_LIMIT, (91, [5, 0, 4, 4], vec![(END, 1)])),
                (NO_LIMIT, nothing()),
            ],
        ),
        // STROW takes four zeros, STMASK one: of ten zeros five are codes. 1 + 12 steps.
        point(
            "zeros that are payload",
            (channel, 0),
            &tagged(
                END,
                &[0x3000_0000, 0, 0, 0, 0, 0x2000_0000, 0, 0, 0, 0, 0, 0],
            ),
            vec![(NO_LIMIT, (0, [13, 0, 12, 5], vec![(END, 3)]))],
        ),
        // MPG of one instruction (words 2, 3), UNPACK S-8 of four bytes (one word): zeros that are
        // written. STCYCL at word 0 of the second quadword.
        point(
            "zeros that are written",
            (channel, 0),
            &tagged(END, &[0, 0x4A01_0000, 0, 0, 0x0100_0101, 0x6204_0000, 0, 0]),
            vec![(NO_LIMIT, (0, [9, 0, 8, 2], vec![(END, 2)]))],
        ),
        // With TTE words 2 and 3 of the tag are taken, with QWC 0 too.
        point(
            "tag words that are NOPs",
            (channel, 1),
            &[END << 28, 0, 0, 0x0000_0005],
            vec![(NO_LIMIT, (0, [3, 0, 2, 2], vec![]))],
        ),
        // STMASK in word 2 takes word 3. The tag words are no payload: QWC is 1, the payload 4 words.
        point(
            "a tag word that is payload",
            (channel, 1),
            &[END << 28 | 1, 0, 0x2000_0000, 0, 0, 0x0700_0000, 0, 0],
            vec![
                (2, (90, [2, 0, 1, 0], vec![(END, 1)])),
                (2, (90, [2, 0, 2, 1], vec![])),
                (9, (0, [3, 0, 3, 2], vec![])),
            ],
        ),
    ]
}

/// Quadwords are no VIF words.
fn of_quadwords() -> Vec<Point> {
    let packet = [0x8000, 0, 0, 0];
    let direct = |command: u32| {
        let codes = [0, 0, 0, command << 24 | 2];
        tagged(END, &[&codes[..], &[0; 4], &packet].concat())
    };
    let of_direct = |name, command| {
        point(
            name,
            (1, 0),
            &direct(command),
            vec![
                (6, (90, [6, 0, 4, 3], vec![(END, 3)])),
                (6, (0, [1, 1, 0, 0], vec![])),
            ],
        )
    };
    vec![
        of_direct("quadwords inside DIRECT", 0x50),
        of_direct("quadwords inside DIRECTHL", 0x51),
        point(
            "quadwords on channel 2",
            (2, 0),
            &tagged(END, &[[0; 4], packet].concat()),
            vec![
                (2, (90, [2, 0, 0, 0], vec![(END, 2)])),
                (2, (0, [1, 1, 0, 0], vec![])),
            ],
        ),
    ]
}

/// Every ID, on every channel. All payload is zeros: four NOPs a quadword, or a GIF tag without data.
fn of_ids() -> Vec<Point> {
    let zeros = |count: usize| vec![[0; 4]; count];
    let main = |last: [u32; 4]| {
        let parts = [
            // 0: cnt with one quadword, 32: next with two, to 80.
            vec![tag(CNT, 1, 0)],
            zeros(1),
            vec![tag(NEXT, 2, 80)],
            zeros(2),
            // 80: ref with three, 96: refs with four, both from 224 on.
            vec![tag(REF, 3, 224), tag(REFS, 4, 224)],
            // 112: call with one, to 176; the ret there leads to 144.
            vec![tag(CALL, 1, 176)],
            zeros(1),
            // 144: the last, with a quadword behind it. 176: ret with two. 224: five quadwords.
            vec![last],
            zeros(1),
            vec![tag(RET, 2, 0)],
            zeros(2 + 5),
        ];
        parts.concat().concat()
    };
    let before = [
        (CNT, 1),
        (NEXT, 2),
        (REF, 3),
        (REFS, 4),
        (CALL, 1),
        (RET, 2),
    ];
    let mut points = Vec::new();
    for channel in 0..3 {
        for (last, sum) in [(tag(END, 1, 0), (END, 1)), (tag(REFE, 5, 224), (REFE, 5))] {
            // Seven tags; 13 quadwords and those of the last.
            let quadwords = 13 + sum.1;
            let counted = match channel {
                2 => [7 + quadwords, 0, 0, 0],
                _ => [7 + 4 * quadwords, 0, 4 * quadwords, 4 * quadwords],
            };
            let sums = [&before[..], &[sum]].concat();
            let runs = vec![(NO_LIMIT, (0, counted, sums))];
            points.push(point("every ID", (channel, 0), &main(last), runs));
        }
    }
    points
}

/// QWC counts whole with the tag; what is refused counts nothing.
fn of_stops() -> Vec<Point> {
    let nothing = |answer| (answer, [0; 4], vec![]);
    let outside = [tagged(CNT, &[0; 4]), tag(CNT, 5, 0).to_vec()].concat();
    let refused = tagged(END, &[0, 0x0800_0000, 0, 0]);
    let mut points = Vec::new();
    for channel in [0, 1] {
        points.push(point(
            "one step, and the rest",
            (channel, 0),
            &tagged(END, &[0; 12]),
            vec![
                (0, nothing(90)),
                (1, (90, [1, 0, 0, 0], vec![(END, 3)])),
                (5, (90, [5, 0, 5, 5], vec![])),
                (0, nothing(90)),
                (NO_LIMIT, (0, [7, 0, 7, 7], vec![])),
                (NO_LIMIT, nothing(0)),
            ],
        ));
        points.push(point(
            "a tag that is refused",
            (channel, 0),
            &outside,
            vec![
                (NO_LIMIT, (14, [5, 0, 4, 4], vec![(CNT, 1)])),
                (NO_LIMIT, nothing(14)),
            ],
        ));
        points.push(point(
            "a word that is refused",
            (channel, 0),
            &refused,
            vec![
                (NO_LIMIT, (20, [2, 0, 1, 1], vec![(END, 1)])),
                (NO_LIMIT, nothing(20)),
            ],
        ));
    }
    // A packet whose entry has no room is not closed, and counts nothing.
    let packet = [[0x8001, 0x1000_0000, 0xE, 0], [1, 0, 2, 0]].concat();
    let mut full = point(
        "a quadword that is refused",
        (2, 0),
        &tagged(END, &packet),
        vec![
            (NO_LIMIT, (31, [2, 0, 0, 0], vec![(END, 2)])),
            (NO_LIMIT, nothing(31)),
        ],
    );
    full.case.log_length = 0;
    points.push(full);
    points
}

impl Point {
    fn check(&self) -> Result<(), String> {
        let mut standing = Standing::new(&self.case);
        let mut runs = self.runs.iter();
        for (at, call) in self.case.calls.iter().enumerate() {
            let Call::Run { allowance } = *call else {
                standing.make(call);
                continue;
            };
            let stop = standing.run(allowance, |_, _, _| {});
            let Some((answer, counts, qwc)) = runs.next() else {
                return Err(format!("point \"{}\": a run too many", self.name));
            };
            let [steps, packets, words, nops] = *counts;
            let mut wanted = RunCounts {
                steps,
                packets,
                words,
                nops,
                ..RunCounts::default()
            };
            qwc.iter()
                .for_each(|&(id, sum)| wanted.qwc[id as usize] = sum);
            if (stop.answer, stop.counts) != (*answer, wanted) {
                let told = format!("{stop:?}, not {answer}, {wanted:?}");
                return Err(format!("point \"{}\", call {at}: {told}", self.name));
            }
        }
        Ok(())
    }
}

pub fn in_captures() -> Vec<Case> {
    points().into_iter().map(|point| point.case).collect()
}

/// Checks all points; hands back how many there are.
pub fn check() -> Result<usize, String> {
    let points = points();
    points.iter().try_for_each(Point::check)?;
    Ok(points.len())
}

#[cfg(test)]
mod tests {
    use super::*;

    #[test]
    fn all_are_right() {
        assert_eq!(check(), Ok(26));
    }

    #[test]
    fn a_wrong_point_is_told() {
        for i in 0..points().len() {
            let mut point = points().swap_remove(i);
            point.runs[0].0 ^= 1;
            assert!(point.check().is_err());
            for at in 0..4 {
                let mut point = points().swap_remove(i);
                point.runs[0].1[at] += 1;
                assert!(point.check().is_err());
            }
            let mut point = points().swap_remove(i);
            point.runs[0].2.push((REFS, 77));
            assert!(point.check().is_err());
        }
    }
}
