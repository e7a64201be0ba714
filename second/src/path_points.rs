//! Points for the log worked by hand: which path wrote what, and where there is no room.

use crate::capture_cases::{self, Call};
use crate::capture_generate::{plain_case as plain_capture, run, start, tagged, NO_LIMIT};
use crate::chain::{State, DONE, END};
use crate::gif::{PathNumber, PATH_NUMBERS};
use crate::gif_cases;
use crate::gif_generate::{tag_quadword, PRE};
use crate::log;
use crate::model::{Model, MODELS};
use crate::refusals;
use crate::state_block::{IDLE_PATH, RESET_UNIT};
use crate::vif_cases::{self, REFUSED};
use crate::vif_generate::{code_word, plain_case as plain_vif};
use crate::way::{Way, WAYS};

const FILL: u64 = 0x0123_4567_89AB_CDEF;
const PRIM: u128 = 0x5A5 << 47;
const MSCAL: u32 = 0x14;
const MSCALF: u32 = 0x15;
const MSCNT: u32 = 0x17;

/// Path, register and value; and without the path.
type Entry = [u64; log::ENTRY];
type Write = [u64; 2];

/// Quadwords given to an idle path whose log has so many entries. The last one is refused with 31
/// where there is no room for it.
struct Point {
    name: &'static str,
    quadwords: Vec<u128>,
    room: u64,
    writes: Vec<Write>,
    refused: bool,
}

fn points() -> Vec<Point> {
    let mut points = written();
    points.extend(without_room());
    points
}

/// Writes that just fill the log.
fn written() -> Vec<Point> {
    let data = 0x0000_0000_0000_0047_0011_2233_4455_6677;
    let halves = 0xCCCC_0000_0000_0000_BBBB;
    let point = |name, quadwords: &[u128], writes: &[Write]| Point {
        name,
        quadwords: quadwords.to_vec(),
        room: writes.len() as u64,
        writes: writes.to_vec(),
        refused: false,
    };
    vec![
        point(
            "PRE and E",
            &[tag_quadword(1, 0, 1, 0xE) | PRE | PRIM, data],
            &[[0, 0x5A5], [0x47, 0x0011_2233_4455_6677]],
        ),
        point(
            "E twice",
            &[tag_quadword(1, 0, 2, 0xEE), data, halves],
            &[[0x47, 0x0011_2233_4455_6677], [0xCC, 0xBBBB]],
        ),
        point(
            "ST, then RGBAQ with its Q",
            &[
                tag_quadword(1, 0, 2, 0x12),
                0x1234_5678_0000_0000_0000_0009,
                0x0000_0004_0000_0003_0000_0002_0000_0001,
            ],
            &[[2, 9], [1, 0x1234_5678_0403_0201]],
        ),
        point(
            "XYZ3 for XYZ2",
            &[tag_quadword(1, 0, 1, 0x5), 1 << 111 | 7 << 64 | 5 << 32 | 3],
            &[[0xD, 0x0000_0007_0005_0003]],
        ),
        point("F", &[tag_quadword(1, 0, 1, 0xF), data], &[]),
        point(
            "REGLIST, NREG 3",
            &[tag_quadword(1, 1, 3, 0x2E1), halves, data],
            &[[1, 0xBBBB], [2, 0x0011_2233_4455_6677]],
        ),
        point(
            "IMAGE",
            &[tag_quadword(1, 2, 1, 0), halves],
            &[[0x54, 0xBBBB], [0x54, 0xCCCC]],
        ),
        point("PRE without data", &[tag_quadword(0, 0, 1, 0xE) | PRE], &[]),
    ]
}

/// Quadwords that lack room for all their writes.
fn without_room() -> Vec<Point> {
    let point = |name, room, tag: u128, data: &[u128]| Point {
        name,
        quadwords: [&[tag], data].concat(),
        room,
        writes: Vec::new(),
        refused: true,
    };
    let [packed, reglist, image] = [
        tag_quadword(1, 0, 1, 0xE),
        tag_quadword(1, 1, 2, 0x21),
        tag_quadword(1, 2, 1, 0),
    ];
    vec![
        point("no room for PRE", 0, packed | PRE, &[]),
        point("no room, E", 0, packed, &[7]),
        point("no room, REGLIST", 0, reglist, &[7]),
        point("one entry, REGLIST", 1, reglist, &[7]),
        point("no room, IMAGE", 0, image, &[7]),
        point("one entry, IMAGE", 1, image, &[7]),
    ]
}

impl Point {
    fn gif_case(&self, number: PathNumber) -> gif_cases::Case {
        gif_cases::Case {
            log_length: log::length(self.room),
            used: 0,
            fill: FILL,
            number,
            block: IDLE_PATH,
            quadwords: self.quadwords.clone(),
        }
    }

    /// All calls in one group.
    fn vif_case(&self, way: Way) -> vif_cases::Case {
        let mut case = plain_vif(Model::Vif1, RESET_UNIT, self.room, 3);
        // The code is word 3 of its quadword.
        case.words = way.payload(&self.quadwords)[3..].to_vec();
        case.groups = vec![1 + self.quadwords.len() as u32];
        case
    }

    fn vif_cases(&self) -> [vif_cases::Case; 2] {
        [Way::Direct, Way::Directhl].map(|way| self.vif_case(way))
    }

    fn capture(&self, way: Way) -> capture_cases::Case {
        let main = tagged(END, &way.payload(&self.quadwords));
        let calls = [run(NO_LIMIT), run(NO_LIMIT)];
        plain_capture(&way.state(), &main, self.room, &calls)
    }

    /// The log afterwards, from the log before.
    fn log(&self, number: u64, mut log: Vec<u64>) -> Vec<u64> {
        let entries = self.writes.iter();
        let entries: Vec<Entry> = entries
            .map(|&[register, value]| [number, register, value])
            .collect();
        put_entries(&mut log, &entries);
        log
    }

    fn answer(&self) -> u32 {
        self.refused as u32 * refusals::ROOM
    }

    fn check(&self) -> Result<(), String> {
        for number in PATH_NUMBERS {
            self.check_gif(number)?;
        }
        for way in WAYS {
            self.check_capture(way)?;
        }
        self.vif_cases()
            .iter()
            .try_for_each(|case| self.check_vif(case))
    }

    fn wrong(&self, log: &[u64]) -> Result<(), String> {
        Err(format!("point {}: log {log:X?}", self.name))
    }

    fn check_gif(&self, number: PathNumber) -> Result<(), String> {
        let mut standing = gif_cases::Standing::new(&self.gif_case(number));
        let wanted = self.log(number as u64, standing.log.clone());
        let mut last = Ok(false);
        for &quadword in &self.quadwords {
            last = standing.take(quadword);
        }
        if standing.log != wanted || (last == Err(refusals::ROOM)) != self.refused {
            return self.wrong(&standing.log);
        }
        Ok(())
    }

    fn check_vif(&self, case: &vif_cases::Case) -> Result<(), String> {
        let mut standing = vif_cases::Standing::new(case);
        let wanted = self.log(2, standing.log.clone());
        let mut last = standing.take(case.given(0));
        for i in 0..self.quadwords.len() {
            last = standing.take(case.given(1 + 4 * i));
        }
        if standing.log != wanted || (last == REFUSED + refusals::ROOM) != self.refused {
            return self.wrong(&standing.log);
        }
        Ok(())
    }

    fn check_capture(&self, way: Way) -> Result<(), String> {
        let number = if way == Way::Channel2 { 3 } else { 2 };
        let mut standing = capture_cases::Standing::new(&self.capture(way));
        let wanted = self.log(number, standing.log.clone());
        let answer = standing.run(NO_LIMIT, |_, _, _| {}).answer;
        if standing.log != wanted || answer != self.answer() {
            return self.wrong(&standing.log);
        }
        Ok(())
    }
}

/// Puts entries at the head of a log.
fn put_entries(log: &mut [u64], entries: &[Entry]) {
    let numbers = entries.concat();
    log[..numbers.len()].copy_from_slice(&numbers);
}

/// The program starts of a unit and their entries.
fn starts(model: Model) -> Vec<(u32, Entry)> {
    let mut starts = vec![
        (code_word(MSCAL, 0, 5), [0, 256, 5]),
        (code_word(MSCAL, 0, 0xFFFF), [0, 256, 65_535]),
        (code_word(MSCNT, 0, 7), [0, 258, 0]),
    ];
    if model == Model::Vif1 {
        starts.push((code_word(MSCALF, 0, 9), [0, 257, 9]));
    }
    starts
}

/// The starts of a unit in a log with room for all but so many.
fn start_case(model: Model, lacking: u64) -> vif_cases::Case {
    let starts = starts(model);
    let entries = starts.len() as u64 - lacking;
    let mut case = plain_vif(model, RESET_UNIT, entries, 0);
    case.words = starts.iter().map(|start| start.0).collect();
    case.words.resize(4, 0);
    case.groups = vec![4];
    case
}

fn start_cases() -> Vec<vif_cases::Case> {
    let both = |model| [start_case(model, 0), start_case(model, 1)];
    MODELS.into_iter().flat_map(both).collect()
}

fn check_starts(case: &vif_cases::Case) -> Result<(), String> {
    let mut standing = vif_cases::Standing::new(case);
    let room = log::room(standing.log.len(), 0) as usize;
    let mut wanted = standing.log.clone();
    let entries: Vec<Entry> = starts(case.model).iter().map(|start| start.1).collect();
    put_entries(&mut wanted, &entries[..room]);
    for at in 0..case.words.len() {
        standing.take(case.given(at));
    }
    if standing.log != wanted {
        return Err(format!(
            "starts on {}: log {:X?}",
            case.model.name(),
            standing.log
        ));
    }
    Ok(())
}

/// A chain of its own that writes these entries.
struct Turn {
    channel: u32,
    payload: Vec<u32>,
    entries: Vec<Entry>,
}

/// Starts on both units, DIRECT, DIRECTHL and path 3.
fn turns() -> [Turn; 5] {
    let start = |channel, address: u32| Turn {
        channel,
        payload: vec![code_word(MSCAL, 0, address), 0, 0, 0],
        entries: vec![[0, 256, address as u64]],
    };
    let packet = |way: Way, pre: u128, value: u64| {
        let tag = tag_quadword(1, 0, 1, 0xE) | pre;
        way.payload(&[tag, value as u128 | 0x47 << 64])
    };
    [
        start(0, 5),
        start(1, 6),
        Turn {
            channel: 1,
            payload: packet(Way::Direct, 0, 7),
            entries: vec![[2, 0x47, 7]],
        },
        Turn {
            channel: 1,
            payload: packet(Way::Directhl, PRE | PRIM, 8),
            entries: vec![[2, 0, 0x5A5], [2, 0x47, 8]],
        },
        Turn {
            channel: 2,
            payload: packet(Way::Channel2, PRE | PRIM, 9),
            entries: vec![[3, 0, 0x5A5], [3, 0x47, 9]],
        },
    ]
}

/// Turns over one log, by number: each after each other, and all in both directions.
fn orders() -> Vec<Vec<usize>> {
    let mut orders = vec![(0..5).collect(), (0..5).rev().collect()];
    for first in 0..5 {
        let others = (0..5).filter(|&other| other != first);
        orders.extend(others.map(|other| vec![first, other, first]));
    }
    orders
}

/// A capture over turns and what it leaves.
struct Mixed {
    case: capture_cases::Case,
    entries: Vec<Entry>,
    /// The last run's.
    answer: u32,
}

/// The turns in this order, in a log that is just long enough or short of one entry.
fn mixed(order: &[usize], lacking: u64) -> Mixed {
    let turns = turns();
    let mut main = Vec::new();
    let tadrs = turns.each_ref().map(|turn| {
        let tadr = 4 * main.len() as u32;
        main.extend(tagged(END, &turn.payload));
        tadr
    });
    let call = |&i: &usize| [start(turns[i].channel, tadrs[i], 0), run(NO_LIMIT)];
    let calls: Vec<Call> = order.iter().flat_map(call).collect();
    let mut entries: Vec<Entry> = order
        .iter()
        .flat_map(|&i| turns[i].entries.clone())
        .collect();
    let room = entries.len() as u64 - lacking;
    entries.truncate(room as usize);
    let answer = if lacking > 0 { refusals::ROOM } else { DONE };
    let mut case = plain_capture(&State::reset(), &main, room, &calls);
    case.whole = order.len() > 3;
    Mixed {
        case,
        entries,
        answer,
    }
}

fn all_mixed() -> Vec<Mixed> {
    let both = |order: &Vec<usize>| [mixed(order, 0), mixed(order, 1)];
    orders().iter().flat_map(both).collect()
}

impl Mixed {
    fn check(&self) -> Result<(), String> {
        let mut standing = capture_cases::Standing::new(&self.case);
        let mut wanted = standing.log.clone();
        put_entries(&mut wanted, &self.entries);
        let mut answer = DONE;
        for call in &self.case.calls {
            let given = standing.make(call);
            if matches!(call, Call::Run { .. }) {
                answer = given;
            }
        }
        if standing.log != wanted || answer != self.answer {
            return Err(format!("turns: {answer}, log {:X?}", standing.log));
        }
        Ok(())
    }
}

pub fn in_gif_cases() -> Vec<gif_cases::Case> {
    let both = |point: &Point| PATH_NUMBERS.map(|number| point.gif_case(number));
    points().iter().flat_map(both).collect()
}

pub fn in_vif_cases() -> Vec<vif_cases::Case> {
    let mut cases = start_cases();
    cases.extend(points().iter().flat_map(Point::vif_cases));
    cases
}

pub fn in_captures() -> Vec<capture_cases::Case> {
    let each = |point: &Point| WAYS.map(|way| point.capture(way));
    let mut cases: Vec<capture_cases::Case> = points().iter().flat_map(each).collect();
    cases.extend(all_mixed().into_iter().map(|mixed| mixed.case));
    cases
}

/// Tests our own program on all points; hands back how many there are.
pub fn check() -> Result<usize, String> {
    let (points, starts, mixed) = (points(), start_cases(), all_mixed());
    points.iter().try_for_each(Point::check)?;
    starts.iter().try_for_each(check_starts)?;
    mixed.iter().try_for_each(Mixed::check)?;
    Ok(points.len() + starts.len() + mixed.len())
}

#[cfg(test)]
mod tests {
    use super::*;

    #[test]
    fn own_logs() {
        assert_eq!(check(), Ok(14 + 4 + 44));
    }

    #[test]
    fn wrong_values_are_found() {
        let changes: [fn(&mut Point); 3] = [
            |point| point.writes[0][0] ^= 1,
            |point| point.writes.last_mut().unwrap()[1] ^= 1,
            |point| point.refused = true,
        ];
        for change in changes {
            let with_writes = |point: &Point| !point.writes.is_empty();
            for mut point in points().into_iter().filter(with_writes) {
                change(&mut point);
                assert!(point.check().is_err());
            }
        }
        for mut mixed in all_mixed() {
            mixed.entries[0][0] ^= 1;
            assert!(mixed.check().is_err());
        }
    }

    /// Each path is told by its number: the other's entries are not taken for it.
    #[test]
    fn paths_are_told_apart() {
        for point in points().iter().filter(|point| !point.writes.is_empty()) {
            let logs = PATH_NUMBERS.map(|number| {
                let mut standing = gif_cases::Standing::new(&point.gif_case(number));
                for &quadword in &point.quadwords {
                    assert!(standing.take(quadword).is_ok());
                }
                standing.log
            });
            let [two, three] = logs.each_ref().map(|log| log.chunks(log::ENTRY));
            for (two, three) in two.zip(three) {
                assert_eq!((two[0], three[0]), (2, 3));
                assert_eq!(two[1..], three[1..]);
            }
        }
    }
}
