//! Points for packets worked by hand: quadwords to a path, and which of them close one.

use crate::capture_cases::{self, Call};
use crate::capture_generate::{plain_case as plain_capture, run, tagged};
use crate::chain::{Stop, DONE, END};
use crate::gif::{PathNumber, PATH_NUMBERS};
use crate::gif_cases::{self, CLOSED as CLOSED_ANSWER};
use crate::gif_generate::{tag_quadword, EOP, PRE};
use crate::log;
use crate::model::Model;
use crate::state_block::{IDLE_PATH, RESET_UNIT};
use crate::vif_cases::{self, REFUSED};
use crate::vif_generate::plain_case as plain_vif;
use crate::way::{Way, WAYS};

const FILL: u64 = 0x0123_4567_89AB_CDEF;

/// Whether a quadword closes a packet, or its refusal.
type Answer = Result<bool, u32>;
const TAKEN: Answer = Ok(false);
const CLOSED: Answer = Ok(true);
const NO_DESCRIPTOR: Answer = Err(30);
const NO_ROOM: Answer = Err(31);

/// Quadwords given to an idle path. A refused one is the last.
struct Point {
    name: String,
    /// The entries of the log.
    entries: u64,
    quadwords: Vec<(u128, Answer)>,
}

/// A case and the packets that each of its runs closes.
struct Capture {
    case: capture_cases::Case,
    packets: Vec<u64>,
}

fn points() -> Vec<Point> {
    let mut points = Vec::new();
    for eop in [false, true] {
        points.extend(tags_with_data().map(|tag| tag.point(eop)));
        points.extend((0..4).map(|flg| tag_without_data(flg, eop)));
    }
    points.extend(several_tags());
    points.extend(refused());
    points
}

/// A tag without EOP, and what it needs.
struct TagWithData {
    name: &'static str,
    tag: u128,
    data: usize,
    entries: u64,
}

fn tags_with_data() -> impl Iterator<Item = TagWithData> {
    [
        ("PACKED", tag_quadword(2, 0, 1, 0x5), 2, 2),
        ("PACKED, PRE", tag_quadword(2, 0, 2, 0x21) | PRE, 4, 5),
        ("PACKED, E", tag_quadword(1, 0, 1, 0xE), 1, 1),
        ("PACKED, F", tag_quadword(1, 0, 1, 0xF), 1, 0),
        ("REGLIST", tag_quadword(2, 1, 2, 0x21), 2, 4),
        ("REGLIST, NREG 3", tag_quadword(1, 1, 3, 0x321), 2, 3),
        ("REGLIST, NREG 1", tag_quadword(1, 1, 1, 0x1), 1, 1),
        ("REGLIST, E and F", tag_quadword(1, 1, 2, 0xFE), 1, 0),
        ("IMAGE (2)", tag_quadword(2, 2, 1, 0), 2, 4),
        ("IMAGE (3)", tag_quadword(1, 3, 0, 0), 1, 2),
    ]
    .into_iter()
    .map(|(name, tag, data, entries)| TagWithData {
        name,
        tag,
        data,
        entries,
    })
}

impl TagWithData {
    /// The tag and its data, of which the last quadword closes a packet where the tag has EOP.
    fn point(&self, eop: bool) -> Point {
        let mut quadwords = vec![(with_eop(self.tag, eop), TAKEN)];
        quadwords.extend((0..self.data).map(|i| (data(i), TAKEN)));
        quadwords[self.data].1 = Ok(eop);
        Point {
            name: format!("{}, EOP {}", self.name, eop as u32),
            entries: self.entries,
            quadwords,
        }
    }
}

fn with_eop(tag: u128, eop: bool) -> u128 {
    if eop {
        tag | EOP
    } else {
        tag
    }
}

/// Data that every format takes.
fn data(i: usize) -> u128 {
    0x0000_1111_2222_3347_8899_AABB_CCDD_EE00 + i as u128
}

/// A tag with NLOOP 0 and PRE.
fn tag_without_data(flg: u64, eop: bool) -> Point {
    let tag = tag_quadword(0, flg, 1, 0xE) | PRE;
    Point {
        name: format!("NLOOP 0, FLG {flg}, EOP {}", eop as u32),
        entries: 0,
        quadwords: vec![(with_eop(tag, eop), Ok(eop))],
    }
}

fn several_tags() -> Vec<Point> {
    let (write, empty) = (tag_quadword(1, 0, 1, 0xE), tag_quadword(0, 0, 1, 0xE));
    let value = data(0);
    let two_packets = [
        (write | EOP, TAKEN),
        (value, CLOSED),
        (write | EOP, TAKEN),
        (value, CLOSED),
    ];
    let two_tags = [
        (write, TAKEN),
        (value, TAKEN),
        (write | EOP, TAKEN),
        (value, CLOSED),
    ];
    let end_without_data = [(write, TAKEN), (value, TAKEN), (empty | EOP, CLOSED)];
    let no_data = [(empty | EOP, CLOSED), (empty, TAKEN), (empty | EOP, CLOSED)];
    vec![
        point("two packets", 2, &two_packets),
        point("a packet of two tags", 2, &two_tags),
        point("an end without data", 1, &end_without_data),
        point("packets without data", 0, &no_data),
    ]
}

/// The last quadword is refused, with EOP in its tag.
fn refused() -> Vec<Point> {
    let (value, empty) = (data(0), tag_quadword(0, 0, 1, 0) | EOP);
    let tag = |nloop, flg, nreg, descriptors| tag_quadword(nloop, flg, nreg, descriptors) | EOP;
    let last = |name, entries, tag, answer| point(name, entries, &[(tag, TAKEN), (value, answer)]);
    let second = |name, entries, tag, answer| {
        let quadwords = [(tag, TAKEN), (value, TAKEN), (value, answer)];
        point(name, entries, &quadwords)
    };
    vec![
        second("B in PACKED", 2, tag(1, 0, 2, 0xB1), NO_DESCRIPTOR),
        last("B in a second half", 2, tag(1, 1, 2, 0xB1), NO_DESCRIPTOR),
        last("B, a half dropped", 2, tag(1, 1, 1, 0xB), NO_DESCRIPTOR),
        second("no room, PACKED", 1, tag(2, 0, 1, 0x5), NO_ROOM),
        last("no room, E", 0, tag(1, 0, 1, 0xE), NO_ROOM),
        last("no room, REGLIST", 1, tag(1, 1, 2, 0x21), NO_ROOM),
        second("no room, NREG 3", 2, tag(1, 1, 3, 0x321), NO_ROOM),
        last("no room, IMAGE", 1, tag(1, 2, 1, 0), NO_ROOM),
        point("no room, PRE", 0, &[(tag(1, 0, 1, 0xF) | PRE, NO_ROOM)]),
        point(
            "no room after a packet",
            1,
            &[
                (tag(1, 0, 1, 0xE), TAKEN),
                (value, CLOSED),
                (empty, CLOSED),
                (tag(1, 0, 1, 0xE), TAKEN),
                (value, NO_ROOM),
            ],
        ),
    ]
}

fn point(name: &str, entries: u64, quadwords: &[(u128, Answer)]) -> Point {
    Point {
        name: name.to_string(),
        entries,
        quadwords: quadwords.to_vec(),
    }
}

impl Point {
    fn given(&self) -> Vec<u128> {
        self.quadwords.iter().map(|&(given, _)| given).collect()
    }

    fn gif_case(&self, number: PathNumber) -> gif_cases::Case {
        gif_cases::Case {
            log_length: log::length(self.entries),
            used: 0,
            fill: FILL,
            number,
            block: IDLE_PATH,
            quadwords: self.given(),
        }
    }

    fn gif_cases(&self) -> [gif_cases::Case; 2] {
        PATH_NUMBERS.map(|number| self.gif_case(number))
    }

    /// A code that takes the quadwords, each in a group of its own.
    fn vif_case(&self, way: Way) -> vif_cases::Case {
        let mut case = plain_vif(Model::Vif1, RESET_UNIT, self.entries, 3);
        // The code is word 3 of its quadword.
        case.words = way.payload(&self.given())[3..].to_vec();
        case.groups = vec![1; self.quadwords.len() + 1];
        case
    }

    fn vif_cases(&self) -> [vif_cases::Case; 2] {
        [Way::Direct, Way::Directhl].map(|way| self.vif_case(way))
    }

    /// The quadwords on each way: in one run, and each in a run of its own.
    fn captures(&self) -> Vec<Capture> {
        let both = |way| [self.in_one_run(way), self.in_runs(way)];
        WAYS.into_iter().flat_map(both).collect()
    }

    /// A run to the end, and another.
    fn in_one_run(&self, way: Way) -> Capture {
        let packets = self.closed().sum();
        self.capture(way, &[(u64::MAX, packets), (u64::MAX, 0)])
    }

    /// A run to the first quadword, and one for each.
    fn in_runs(&self, way: Way) -> Capture {
        let mut runs = vec![(way.steps_before(), 0)];
        runs.extend(self.closed().map(|packets| (1, packets)));
        self.capture(way, &runs)
    }

    /// The packets that each quadword closes.
    fn closed(&self) -> impl Iterator<Item = u64> + '_ {
        let answers = self.quadwords.iter().map(|&(_, answer)| answer);
        answers.map(|answer| (answer == CLOSED) as u64)
    }

    /// A capture with runs of these allowances and packets.
    fn capture(&self, way: Way, runs: &[(u64, u64)]) -> Capture {
        let main = tagged(END, &way.payload(&self.given()));
        let calls = runs.iter().map(|&(allowance, _)| run(allowance));
        let calls: Vec<Call> = calls.collect();
        Capture {
            case: plain_capture(&way.state(), &main, self.entries, &calls),
            packets: runs.iter().map(|&(_, packets)| packets).collect(),
        }
    }

    fn check(&self) -> Result<(), String> {
        self.gif_cases()
            .iter()
            .try_for_each(|case| self.check_gif(case))?;
        self.vif_cases()
            .iter()
            .try_for_each(|case| self.check_vif(case))?;
        self.captures()
            .iter()
            .try_for_each(|capture| self.check_capture(capture))
    }

    fn wrong(&self, how: &str) -> String {
        format!("point {}: {how}", self.name)
    }

    fn check_gif(&self, case: &gif_cases::Case) -> Result<(), String> {
        let mut standing = gif_cases::Standing::new(case);
        for (i, &(given, answer)) in self.quadwords.iter().enumerate() {
            let before = standing.block();
            let taken = standing.take(given);
            if taken != answer || taken.is_err() && standing.block() != before {
                return Err(self.wrong(&format!("quadword {i}, {taken:?}")));
            }
        }
        Ok(())
    }

    fn check_vif(&self, case: &vif_cases::Case) -> Result<(), String> {
        let mut standing = vif_cases::Standing::new(case);
        standing.take(case.given(0));
        for (i, &(_, answer)) in self.quadwords.iter().enumerate() {
            standing.restore();
            let given = standing.take(case.given(1 + 4 * i));
            let wanted = match answer {
                Ok(closed) => 1 + closed as u32 * CLOSED_ANSWER,
                Err(refusal) => REFUSED + refusal,
            };
            if given != wanted {
                return Err(self.wrong(&format!("quadword {i} inside DIRECT, {given}")));
            }
        }
        Ok(())
    }

    fn check_capture(&self, capture: &Capture) -> Result<(), String> {
        let mut standing = capture_cases::Standing::new(&capture.case);
        let mut last = Stop::at_entry(DONE);
        for (call, &packets) in capture.case.calls.iter().zip(&capture.packets) {
            if let Call::Run { allowance } = *call {
                last = standing.run(allowance, |_, _, _| {});
            }
            if last.counts.packets != packets {
                return Err(self.wrong(&format!("{last:?}, not {packets} packets")));
            }
        }
        match self.quadwords.last() {
            Some((_, answer)) if answer.err().unwrap_or(DONE) == last.answer => Ok(()),
            _ => Err(self.wrong(&format!("the last run, {last:?}"))),
        }
    }
}

pub fn in_gif_cases() -> Vec<gif_cases::Case> {
    points().iter().flat_map(Point::gif_cases).collect()
}

pub fn in_vif_cases() -> Vec<vif_cases::Case> {
    points().iter().flat_map(Point::vif_cases).collect()
}

pub fn in_captures() -> Vec<capture_cases::Case> {
    let captures = points()
        .iter()
        .flat_map(Point::captures)
        .collect::<Vec<_>>();
    captures.into_iter().map(|capture| capture.case).collect()
}

/// Tests our own program on all points; hands back how many there are.
pub fn check() -> Result<usize, String> {
    let points = points();
    points.iter().try_for_each(Point::check)?;
    Ok(points.len())
}

#[cfg(test)]
mod tests {
    use super::*;

    #[test]
    fn own_answers() {
        assert_eq!(check(), Ok(42));
    }

    /// Each way of taking the quadwords finds an answer that is not theirs.
    #[test]
    fn wrong_answers_are_found() {
        for mut point in points() {
            for i in 0..point.quadwords.len() {
                let right = point.quadwords[i].1;
                point.quadwords[i].1 = match right {
                    Ok(closed) => Ok(!closed),
                    Err(refusal) => Err(61 - refusal),
                };
                for case in point.gif_cases() {
                    assert!(point.check_gif(&case).is_err());
                }
                for case in point.vif_cases() {
                    assert!(point.check_vif(&case).is_err());
                }
                for capture in point.captures() {
                    assert!(point.check_capture(&capture).is_err(), "{}", point.name);
                }
                point.quadwords[i].1 = right;
            }
        }
    }
}
