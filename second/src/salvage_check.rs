//! The request's sentences about what salvage leaves, checked on an outcome.

use crate::refusals;
use crate::salvage::{self, Range, Written};
use crate::salvage_cases::{Case, Outcome};
use crate::sheet::{self, MOST_SHEET};

/// The sentence that an outcome breaks; none where it keeps all.
pub fn broken(case: &Case, outcome: &Outcome) -> Option<String> {
    let buffers_end = match outcome.answer {
        Ok(written) => (written.bytes, 2 * written.ranges),
        Err(_) => (0, 0),
    };
    let found = rest_changed(case, outcome, buffers_end).or_else(|| match outcome.answer {
        Ok(written) => wrong_written(case, outcome, written),
        Err(refusal) => wrong_refusal(case, refusal),
    })?;
    Some(found.to_string())
}

/// Beyond what is written both buffers keep their contents; a refusal leaves both untouched.
fn rest_changed(case: &Case, outcome: &Outcome, ends: (usize, usize)) -> Option<&'static str> {
    let (output, list) = (case.output(), case.list());
    if (outcome.output.len(), outcome.list.len()) != (output.len(), list.len()) {
        return Some("a buffer has another length");
    }
    if ends.0 > output.len() || ends.1 > list.len() {
        return Some("more is written than a buffer holds");
    }
    if outcome.output[ends.0..] != output[ends.0..] {
        return Some("the output changed beyond what was written");
    }
    (outcome.list[ends.1..] != list[ends.1..]).then_some("the list changed beyond what was written")
}

/// A refusal that had no reason.
fn wrong_refusal(case: &Case, refusal: u32) -> Option<&'static str> {
    let long = case.sheet.len() > MOST_SHEET;
    if long || refusal == refusals::LONG {
        return (refusal != refusals::LONG || !long).then_some("46 and the sheet's length");
    }
    // What a roomy output and list would get.
    let Ok(needed) = salvage_roomy(&case.sheet) else {
        return Some("refused with any buffers");
    };
    let (bytes, ranges) = (case.output_length as usize, case.list_length as usize / 2);
    let wanted = if needed.bytes > bytes {
        Some(refusals::KEPT)
    } else if needed.ranges > ranges {
        Some(refusals::RANGES)
    } else {
        None
    };
    (wanted != Some(refusal)).then_some("55 and 56, and what the buffers hold")
}

fn salvage_roomy(sheet: &[u8]) -> Result<Written, u32> {
    let mut output = vec![0; sheet.len()];
    let mut list = vec![0; 2 * sheet.len()];
    salvage::salvage(sheet, &mut output, &mut list)
}

fn wrong_written(case: &Case, outcome: &Outcome, written: Written) -> Option<&'static str> {
    let sheet = &case.sheet[..];
    if sheet.len() > MOST_SHEET {
        return Some("a sheet above 131,072 bytes is not refused");
    }
    let kept = &outcome.output[..written.bytes];
    let numbers = &outcome.list[..2 * written.ranges];
    let ranges: Vec<Range> = numbers
        .chunks(2)
        .map(|numbers| Range {
            offset: numbers[0] as usize,
            length: numbers[1] as usize,
        })
        .collect();
    wrong_ranges(sheet.len(), &ranges)
        .or_else(|| wrong_kept(sheet, kept, &ranges))
        .or_else(|| wrong_reading(sheet, &ranges))
}

/// The ranges are of the sheet, in order, and none touches the next.
fn wrong_ranges(length: usize, ranges: &[Range]) -> Option<&'static str> {
    let inside = |range: &Range| {
        let end = range.offset.checked_add(range.length);
        range.length > 0 && end.is_some_and(|end| end <= length)
    };
    if !ranges.iter().all(inside) {
        return Some("a range is empty or not of the sheet");
    }
    let apart = |pair: &[Range]| pair[0].offset + pair[0].length < pair[1].offset;
    (!ranges.windows(2).all(apart)).then_some("ranges are out of order or touch")
}

/// Kept and dropped bytes together are the input; the kept ones are a sheet that is not refused, and
/// a valid sheet comes back unchanged.
fn wrong_kept(sheet: &[u8], kept: &[u8], ranges: &[Range]) -> Option<&'static str> {
    if stretches(sheet.len(), ranges)
        .flat_map(|range| &sheet[range.offset..][..range.length])
        .ne(kept)
    {
        return Some("kept and dropped bytes together are not the sheet");
    }
    if !sheet::is_first_edition(kept) {
        return Some("the kept bytes are refused");
    }
    let valid = sheet::is_first_edition(sheet);
    (valid && (kept != sheet || !ranges.is_empty())).then_some("a valid sheet does not come back")
}

/// What lies before, between and after the ranges.
fn stretches(length: usize, ranges: &[Range]) -> impl Iterator<Item = Range> + '_ {
    let starts = [0].into_iter();
    let starts = starts.chain(ranges.iter().map(|range| range.offset + range.length));
    let ends = ranges.iter().map(|range| range.offset);
    let ends = ends.chain([length]);
    starts.zip(ends).map(|(offset, end)| Range {
        offset,
        length: end - offset,
    })
}

/// Where a whole valid record starts, none of its bytes is dropped: what lies between the ranges is
/// whole records, and none starts at a dropped byte.
fn wrong_reading(sheet: &[u8], ranges: &[Range]) -> Option<&'static str> {
    let whole = |range: Range| sheet::is_first_edition(&sheet[range.offset..][..range.length]);
    if !stretches(sheet.len(), ranges).all(whole) {
        return Some("what lies between two ranges is not whole records");
    }
    let mut dropped = ranges
        .iter()
        .flat_map(|range| range.offset..range.offset + range.length);
    dropped
        .any(|at| sheet::first_record(&sheet[at..]).is_ok())
        .then_some("a whole valid record is dropped where it starts")
}

#[cfg(test)]
mod tests {
    use super::*;
    use crate::random::Random;
    use crate::salvage_generate::cases;
    use crate::salvage_points;

    fn outcomes() -> Vec<(Case, Outcome)> {
        let cases = salvage_points::points()
            .into_iter()
            .map(|point| point.case());
        let with_outcome = |case: Case| (case.clone(), Outcome::new(&case));
        cases.map(with_outcome).collect()
    }

    #[test]
    fn nothing_is_broken() {
        for (case, outcome) in outcomes() {
            assert_eq!(broken(&case, &outcome), None);
        }
        for made in cases(4, 400) {
            let outcome = Outcome::new(&made.case);
            assert_eq!(broken(&made.case, &outcome), None, "{}", made.name);
        }
    }

    /// A sheet: a byte, a start record, two bytes, a start record.
    fn two_ranges() -> (Case, Outcome) {
        let start = [0x9E, 0x51, 4, 0, 5, 0];
        let case = Case {
            sheet: [&[1], &start[..], &[2, 3], &start].concat(),
            output_length: 20,
            list_length: 9,
            fill: 77,
        };
        let outcome = Outcome::new(&case);
        assert_eq!(outcome.list[..4], [0, 1, 7, 2]);
        (case, outcome)
    }

    fn written(bytes: usize, ranges: usize) -> Result<Written, u32> {
        Ok(Written { bytes, ranges })
    }

    #[test]
    fn shams_are_found() {
        let shams: [(&str, fn(&mut Outcome)); 16] = [
            ("46 and the sheet's length", |o| {
                o.answer = Err(refusals::LONG);
                *o = fresh(o);
            }),
            ("55 and 56, and what the buffers hold", |o| {
                o.answer = Err(refusals::KEPT);
                *o = fresh(o);
            }),
            ("55 and 56, and what the buffers hold", |o| {
                o.answer = Err(refusals::RANGES);
                *o = fresh(o);
            }),
            ("the output changed beyond what was written", |o| {
                o.answer = Err(refusals::RANGES);
            }),
            ("the output changed beyond what was written", |o| {
                o.output[12] ^= 1
            }),
            ("the list changed beyond what was written", |o| {
                o.list[4] ^= 1
            }),
            ("the output changed beyond what was written", |o| {
                o.answer = written(6, 2);
            }),
            ("more is written than a buffer holds", |o| {
                o.answer = written(21, 2)
            }),
            ("more is written than a buffer holds", |o| {
                o.answer = written(12, 5)
            }),
            ("a buffer has another length", |o| o.list.push(0)),
            ("ranges are out of order or touch", |o| {
                o.list[..4].copy_from_slice(&[7, 2, 0, 1]);
            }),
            ("a range is empty or not of the sheet", |o| o.list[1] = 0),
            ("a range is empty or not of the sheet", |o| o.list[3] = 9),
            ("a range is empty or not of the sheet", |o| {
                o.list[2] = u64::MAX
            }),
            ("kept and dropped bytes together are not the sheet", |o| {
                o.output[4] ^= 1
            }),
            ("kept and dropped bytes together are not the sheet", |o| {
                o.list[2] += 1
            }),
        ];
        for (told, sham) in shams {
            let (case, mut outcome) = two_ranges();
            sham(&mut outcome);
            assert_eq!(broken(&case, &outcome), Some(told.to_string()));
        }
    }

    /// The same answer with both buffers untouched.
    fn fresh(outcome: &Outcome) -> Outcome {
        let (case, _) = two_ranges();
        Outcome {
            answer: outcome.answer,
            output: case.output(),
            list: case.list(),
        }
    }

    /// Outcomes that drop what has to be kept, or keep what must not be.
    #[test]
    fn another_reading_is_found() {
        let (case, first) = two_ranges();
        let of = |bytes: &[u8], ranges: &[u64]| {
            let mut outcome = fresh(&first);
            outcome.output[..bytes.len()].copy_from_slice(bytes);
            outcome.list[..ranges.len()].copy_from_slice(ranges);
            outcome.answer = written(bytes.len(), ranges.len() / 2);
            broken(&case, &outcome).unwrap()
        };
        let dropped = "a whole valid record is dropped where it starts";
        assert_eq!(of(&case.sheet[1..7], &[0, 1, 7, 8]), dropped);
        assert_eq!(of(&[], &[0, 15]), dropped);
        assert_eq!(of(&case.sheet, &[]), "the kept bytes are refused");
        let touching = of(&first.output[..12], &[0, 1, 7, 1, 8, 1]);
        assert_eq!(touching, "ranges are out of order or touch");
    }

    #[test]
    fn long_and_valid_sheets() {
        let mut random = Random::new(1);
        let start = [0x9E, 0x51, 4, 0, 5, 0];
        let mut case = Case {
            sheet: start.repeat(3),
            output_length: 30,
            list_length: 4,
            fill: random.number(),
        };
        let mut outcome = Outcome::new(&case);
        assert_eq!(outcome.answer, written(18, 0));
        outcome.list[..2].copy_from_slice(&[0, 6]);
        outcome.output = case.output();
        outcome.output[..12].copy_from_slice(&case.sheet[6..]);
        outcome.answer = written(12, 1);
        let told = broken(&case, &outcome).unwrap();
        assert_eq!(told, "a valid sheet does not come back");
        case.sheet.resize(MOST_SHEET + 1, 0);
        let told = broken(&case, &outcome).unwrap();
        assert_eq!(told, "a sheet above 131,072 bytes is not refused");
    }
}
