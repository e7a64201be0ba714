//! Points about salvage, worked by hand.

use crate::refusals;
use crate::salvage_cases::{describe_place, Case};
use crate::sheet_cases::put_bytes;
use crate::words::{put_number, put_word, WORD};

const FILL: u64 = 0x0123_4567_89AB_CDEF;
const START: [u8; 6] = [0x9E, 0x51, 4, 0, 5, 0];
const DATA: [u8; 6] = [0x9E, 0x51, 1, 1, 0xFF, 3];
const GS: [u8; 6] = [0x9E, 0x51, 3, 1, 0, 0];

pub struct Point {
    pub name: &'static str,
    sheet: Vec<u8>,
    output_length: u32,
    list_length: u32,
    /// The kept bytes and the ranges, or the refusal.
    gives: Result<(Vec<u8>, Vec<(u64, u64)>), u32>,
}

fn point(name: &'static str, parts: &[&[u8]], kept: &[&[u8]], ranges: &[(u64, u64)]) -> Point {
    Point {
        name,
        sheet: parts.concat(),
        output_length: 40,
        list_length: 9,
        gives: Ok((kept.concat(), ranges.to_vec())),
    }
}

fn with_lengths(output_length: u32, list_length: u32, point: Point) -> Point {
    Point {
        output_length,
        list_length,
        ..point
    }
}

fn refused(output_length: u32, list_length: u32, refusal: u32, point: Point) -> Point {
    Point {
        gives: Err(refusal),
        ..with_lengths(output_length, list_length, point)
    }
}

pub fn points() -> Vec<Point> {
    let mut points = valid();
    points.extend(damaged());
    points.extend(inside());
    points.extend(second_edition());
    points.extend(lengths());
    points
}

fn valid() -> Vec<Point> {
    vec![
        point("an empty sheet", &[], &[], &[]),
        with_lengths(0, 0, point("an empty sheet, no buffers", &[], &[], &[])),
        point("a start", &[&START], &[&START], &[]),
        with_lengths(
            6,
            0,
            point("a start, an exact output", &[&START], &[&START], &[]),
        ),
        point(
            "a start in the body of a data record",
            &[&DATA, &[1; 5], &START, &[2; 5]],
            &[&DATA, &[1; 5], &START, &[2; 5]],
            &[],
        ),
    ]
}

fn damaged() -> Vec<Point> {
    let pad = [&[1; 9][..], &[0, 0, 0, 0, 0, 0, 3]].concat();
    vec![
        point("a stray byte", &[&[7], &START], &[&START], &[(0, 1)]),
        point("half a mark", &[&[0x9E], &START], &[&START], &[(0, 1)]),
        point(
            "a mark alone",
            &[&[0x9E, 0x51], &START],
            &[&START],
            &[(0, 2)],
        ),
        point("a cut header", &[&START, &START[..5]], &[&START], &[(6, 5)]),
        point("a cut body", &[&DATA, &[1; 15]], &[], &[(0, 21)]),
        point(
            "kind 6",
            &[&[0x9E, 0x51, 6, 0, 0, 0], &START],
            &[&START],
            &[(0, 6)],
        ),
        point(
            "count 1 of a start",
            &[&[0x9E, 0x51, 4, 1, 0, 0]],
            &[],
            &[(0, 6)],
        ),
        point(
            "count 0 of data",
            &[&[0x9E, 0x51, 1, 0, 0, 0]],
            &[],
            &[(0, 6)],
        ),
        point(
            "address 2,048",
            &[&[0x9E, 0x51, 4, 0, 0, 8]],
            &[],
            &[(0, 6)],
        ),
        point(
            "address of GS",
            &[&[0x9E, 0x51, 3, 1, 1, 0], &[0; 16]],
            &[],
            &[(0, 22)],
        ),
        point(
            "a pad that is not zero",
            &[&GS, &pad, &START],
            &[&START],
            &[(0, 22)],
        ),
        point(
            "two broken ones in a row",
            &[
                &START,
                &[0x9E, 0x51, 9, 0, 0, 0],
                &[0x9E, 0x50],
                &START,
                &[0],
            ],
            &[&START, &START],
            &[(6, 8), (20, 1)],
        ),
    ]
}

/// Whole records in the bodies of broken ones.
fn inside() -> Vec<Point> {
    let broken = [0x9E, 0x51, 1, 1, 0, 4];
    vec![
        point(
            "a start in a broken body",
            &[&broken, &[1; 5], &START, &[2; 5]],
            &[&START],
            &[(0, 11), (17, 5)],
        ),
        point(
            "starts in a cut body",
            &[&DATA, &START, &[1], &START],
            &[&START, &START],
            &[(0, 6), (12, 1)],
        ),
        point(
            "a record from a broken body on beyond its end",
            &[&broken, &[1; 10], &DATA, &START, &[3; 10], &START],
            &[&DATA, &START, &[3; 10], &START],
            &[(0, 16)],
        ),
        point(
            "a broken one in a broken body",
            &[&broken, &GS, &[1; 10], &START],
            &[&START],
            &[(0, 22)],
        ),
    ]
}

/// Kinds 0 and 5 are damage: the six bytes of their headers.
fn second_edition() -> Vec<Point> {
    let mark = [0x9E, 0x51, 0, 2, 0, 0];
    let group = [0x9E, 0x51, 5, 200, 1, 0];
    vec![
        point("kind 0", &[&mark, &START], &[&START], &[(0, 6)]),
        point(
            "a group",
            &[&mark, &START, &group, &START, &START],
            &[&START, &START, &START],
            &[(0, 6), (12, 6)],
        ),
        point(
            "a group in a group",
            &[&group, &group, &START],
            &[&START],
            &[(0, 12)],
        ),
    ]
}

/// What the buffers hold: 46, then 55, then 56.
fn lengths() -> Vec<Point> {
    let one_range = || point("one range", &[&START, &[0]], &[&START], &[(6, 1)]);
    let long = || point("131,073 bytes", &[&START, &[0; 131_067]], &[], &[]);
    let longest = || {
        let ranges = [(6, 131_066)];
        point(
            "131,072 bytes",
            &[&START, &[0; 131_066]],
            &[&START],
            &ranges,
        )
    };
    vec![
        with_lengths(6, 2, one_range()),
        with_lengths(6, 3, one_range()),
        refused(5, 2, refusals::KEPT, one_range()),
        refused(5, 0, refusals::KEPT, one_range()),
        refused(6, 1, refusals::RANGES, one_range()),
        refused(7, 0, refusals::RANGES, one_range()),
        with_lengths(0, 2, point("all dropped", &[&[0; 9]], &[], &[(0, 9)])),
        with_lengths(6, 2, longest()),
        refused(6, 2, refusals::LONG, long()),
        refused(0, 2, refusals::LONG, long()),
        refused(6, 0, refusals::LONG, long()),
    ]
}

impl Point {
    pub fn case(&self) -> Case {
        Case {
            sheet: self.sheet.clone(),
            output_length: self.output_length,
            list_length: self.list_length,
            fill: FILL,
        }
    }

    /// The result that the point has to give.
    fn wanted(&self) -> Vec<u8> {
        let case = self.case();
        let (mut output, mut list) = (case.output(), case.list());
        let mut head = [0; 3];
        match &self.gives {
            Ok((kept, ranges)) => {
                head = [0, kept.len() as u32, ranges.len() as u32];
                output[..kept.len()].copy_from_slice(kept);
                for (i, &(offset, length)) in ranges.iter().enumerate() {
                    list[2 * i..2 * i + 2].copy_from_slice(&[offset, length]);
                }
            }
            Err(refusal) => head[0] = *refusal,
        }
        let mut out = Vec::new();
        head.iter().for_each(|&word| put_word(&mut out, word));
        put_bytes(&mut out, &output);
        list.iter().for_each(|&number| put_number(&mut out, number));
        out
    }
}

/// The points as a case file.
pub fn file() -> Vec<u8> {
    let mut file = Vec::new();
    points()
        .iter()
        .for_each(|point| point.case().write(&mut file));
    file
}

/// Compares a program's results for the points with what they have to be.
pub fn check(results: &[u8]) -> Result<(), String> {
    let mut at = 0;
    for point in points() {
        let wanted = point.wanted();
        let given = &results[at.min(results.len())..(at + wanted.len()).min(results.len())];
        let differs = (0..wanted.len()).find(|&i| given.get(i) != Some(&wanted[i]));
        if let Some(byte) = differs {
            let place = describe_place(&point.case(), byte / WORD);
            return Err(format!("point \"{}\": {place} is wrong", point.name));
        }
        at += wanted.len();
    }
    match results.len() - at {
        0 => Ok(()),
        more => Err(format!("{more} bytes after the points")),
    }
}

#[cfg(test)]
mod tests {
    use super::*;
    use crate::salvage_cases::plain_results;

    #[test]
    fn our_own() {
        assert_eq!(check(&plain_results(&file())), Ok(()));
    }

    #[test]
    fn wrong_results_are_told() {
        let results = plain_results(&file());
        for at in (0..results.len()).step_by(13).chain([results.len() - 1]) {
            let mut wrong = results.clone();
            wrong[at] ^= 1;
            assert!(check(&wrong).is_err());
        }
        assert!(check(&results[..results.len() - 1]).is_err());
        assert!(check(&[&results[..], &[0]].concat()).is_err());
    }
}
