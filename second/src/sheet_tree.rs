//! Sheets of both editions, read as trees of records and groups.

use crate::refusals;
use crate::sheet::{self, Record, Refusal, HEADER, MARK, MOST_SHEET};

/// The record that a second-edition sheet starts with.
pub const EDITION: u8 = 0;
pub const SECOND: u8 = 2;
pub const GROUP: u8 = 5;
/// The depth of the innermost group; an outermost one has depth 1.
pub const MOST_DEPTH: usize = 8;
/// The longest chain in bytes.
pub const MOST_CHAIN: u128 = 1_048_576;

/// What counts as one record where it stands.
#[derive(Debug)]
pub enum Member<'a> {
    Record(Record<'a>),
    Group(Group<'a>),
}

#[derive(Debug)]
pub struct Group<'a> {
    pub repetitions: u32,
    pub members: Vec<Member<'a>>,
}

#[derive(Debug)]
pub struct Tree<'a> {
    pub is_second: bool,
    pub members: Vec<Member<'a>>,
}

/// Reads a sheet of either edition, or gives the refusal of its first wrong record.
pub fn read(sheet: &[u8]) -> Result<Tree<'_>, Refusal> {
    if sheet.len() > MOST_SHEET {
        return Err((refusals::LONG, 0));
    }
    let is_second = starts_second(sheet)?;
    let mut reader = Reader {
        sheet,
        at: if is_second { HEADER } else { 0 },
        has_groups: is_second,
    };
    let mut members = Vec::new();
    while reader.at < sheet.len() {
        members.push(reader.member(0)?);
    }
    Ok(Tree { is_second, members })
}

/// Whether the sheet starts with the edition record, which may be wrong.
fn starts_second(sheet: &[u8]) -> Result<bool, Refusal> {
    match header_of(sheet, EDITION) {
        None => Ok(false),
        Some((count, _)) if count != SECOND => Err((refusals::COUNT, 0)),
        Some((_, address)) if address != 0 => Err((refusals::ADDRESS, 0)),
        Some(_) => Ok(true),
    }
}

/// Count and address of a whole header with the mark and this kind.
fn header_of(bytes: &[u8], kind: u8) -> Option<(u8, u16)> {
    match *bytes {
        [first, second, is, count, low, high, ..] if [first, second] == MARK && is == kind => {
            Some((count, u16::from_le_bytes([low, high])))
        }
        _ => None,
    }
}

struct Reader<'a> {
    sheet: &'a [u8],
    at: usize,
    has_groups: bool,
}

impl<'a> Reader<'a> {
    /// Reads what starts here, with so many groups around it.
    fn member(&mut self, around: usize) -> Result<Member<'a>, Refusal> {
        let rest = &self.sheet[self.at..];
        if let Some((repetitions, count)) = header_of(rest, GROUP).filter(|_| self.has_groups) {
            let group = self.group(repetitions, count, around + 1)?;
            return Ok(Member::Group(group));
        }
        let record = sheet::first_record(rest).map_err(|refusal| (refusal, self.at))?;
        self.at += HEADER + record.body.len();
        Ok(Member::Record(record))
    }

    fn group(&mut self, repetitions: u8, count: u16, depth: usize) -> Result<Group<'a>, Refusal> {
        if repetitions == 0 {
            return Err((refusals::COUNT, self.at));
        }
        if count == 0 {
            return Err((refusals::ADDRESS, self.at));
        }
        if depth > MOST_DEPTH {
            return Err((refusals::DEPTH, self.at));
        }
        self.at += HEADER;
        let members: Result<_, _> = (0..count).map(|_| self.member(depth)).collect();
        Ok(Group {
            repetitions: repetitions as u32,
            members: members?,
        })
    }
}

impl<'a> Tree<'a> {
    /// The records that the sheet stands for; 49 is known before any is repeated.
    pub fn expanded(&self) -> Result<Vec<Record<'a>>, Refusal> {
        if self.chain_length() > MOST_CHAIN {
            return Err((refusals::CHAIN, 0));
        }
        let mut records = Vec::new();
        expand(&self.members, &mut records);
        Ok(records)
    }

    /// The expanded chain's length in bytes, the end tag included.
    pub fn chain_length(&self) -> u128 {
        16 * (quadwords(&self.members) + 1)
    }
}

/// The quadwords of the expansion: at most 255^8 times those of a sheet without groups, which is
/// below 2^80.
fn quadwords(members: &[Member]) -> u128 {
    let of_member = |member: &Member| match member {
        Member::Record(record) => record.quadwords() as u128,
        Member::Group(group) => group.repetitions as u128 * quadwords(&group.members),
    };
    members.iter().map(of_member).sum()
}

fn expand<'a>(members: &[Member<'a>], records: &mut Vec<Record<'a>>) {
    for member in members {
        match member {
            Member::Record(record) => records.push(*record),
            Member::Group(group) => {
                for _ in 0..group.repetitions {
                    expand(&group.members, records);
                }
            }
        }
    }
}

#[cfg(test)]
mod tests {
    use super::*;
    use crate::sheet::record_bytes as record;

    fn start(address: u16) -> Vec<u8> {
        record(4, 0, address, &[])
    }

    fn group(repetitions: u8, members: u16) -> Vec<u8> {
        record(GROUP, repetitions, members, &[])
    }

    fn second(parts: &[Vec<u8>]) -> Vec<u8> {
        [record(EDITION, SECOND, 0, &[]), parts.concat()].concat()
    }

    /// The addresses of the start records that a sheet stands for.
    fn starts(sheet: &[u8]) -> Result<Vec<u32>, Refusal> {
        let records = read(sheet)?.expanded()?;
        Ok(records.iter().map(|record| record.address).collect())
    }

    fn refused(sheet: &[u8]) -> Refusal {
        starts(sheet).unwrap_err()
    }

    #[test]
    fn editions() {
        assert!(!read(&[]).unwrap().is_second);
        assert!(!read(&start(1)).unwrap().is_second);
        assert_eq!(starts(&second(&[])), Ok(vec![]));
        assert_eq!(starts(&second(&[start(7)])), Ok(vec![7]));
        for cut in 1..6 {
            assert_eq!(refused(&second(&[])[..cut]), (44, 0));
        }
        for count in [0, 1, 3, 255] {
            assert_eq!(refused(&record(EDITION, count, 9, &[])), (42, 0));
        }
        for address in [1, 2, 256, 0xFFFF] {
            assert_eq!(refused(&record(EDITION, 2, address, &[])), (43, 0));
        }
        assert_eq!(refused(&[start(1), second(&[])].concat()), (41, 6));
        assert_eq!(refused(&second(&[second(&[])])), (41, 6));
        assert_eq!(refused(&second(&[group(1, 1), second(&[])])), (41, 12));
        assert_eq!(refused(&[group(0, 0), start(1)].concat()), (41, 0));
        assert_eq!(
            refused(&[start(1), group(1, 1), start(1)].concat()),
            (41, 6)
        );
        assert_eq!(refused(&second(&[record(6, 0, 0, &[])])), (41, 6));
    }

    #[test]
    fn expansions_in_order() {
        let flat = second(&[start(1), group(3, 2), start(2), start(3), start(4)]);
        assert_eq!(starts(&flat), Ok(vec![1, 2, 3, 2, 3, 2, 3, 4]));
        // A group counts as one member.
        let nested = second(&[
            group(2, 3),
            start(1),
            group(2, 1),
            start(2),
            start(3),
            start(4),
        ]);
        assert_eq!(starts(&nested), Ok(vec![1, 2, 2, 3, 1, 2, 2, 3, 4]));
    }

    #[test]
    fn refusals_of_groups() {
        assert_eq!(refused(&second(&[group(0, 0)])), (42, 6));
        assert_eq!(refused(&second(&[start(1), group(1, 0)])), (43, 12));
        // Members are missing: nothing is left, or part of a header.
        assert_eq!(refused(&second(&[group(1, 1)])), (44, 12));
        assert_eq!(
            refused(&second(&[group(1, 3), start(1), start(2)])),
            (44, 24)
        );
        assert_eq!(
            refused(&second(&[group(1, 2), start(1), vec![0]])),
            (44, 18)
        );
        let inner = second(&[group(9, 2), group(9, 2), start(1), start(2)]);
        assert_eq!(refused(&inner), (44, 30));
        // A member's own refusal comes first.
        assert_eq!(
            refused(&second(&[group(1, 9), record(4, 1, 0, &[])])),
            (42, 12)
        );
    }

    #[test]
    fn depth() {
        let deep = |groups: usize, last: Vec<u8>| {
            let mut parts = vec![group(1, 1); groups];
            parts.push(last);
            second(&parts)
        };
        assert_eq!(starts(&deep(8, start(5))), Ok(vec![5]));
        assert_eq!(refused(&deep(9, start(5))), (52, 54));
        assert_eq!(refused(&deep(8, group(1, 1))), (52, 54));
        assert_eq!(refused(&deep(8, group(0, 0))), (42, 54));
        assert_eq!(refused(&deep(8, group(1, 0))), (43, 54));
        // Depth goes down again behind a group.
        let beside = [deep(8, start(5)), group(2, 1), start(6)].concat();
        assert_eq!(starts(&beside), Ok(vec![5, 6, 6]));
    }

    #[test]
    fn longest_chain() {
        // 1 + 2 x 255 x 128 + 253 + 2 = 65,536 quadwords.
        let wide = |more: Vec<u8>| second(&[group(255, 128), vec![start(1); 128].concat(), more]);
        let data = record(1, 253, 0, &[7; 16 * 253]);
        assert_eq!(read(&wide(data.clone())).unwrap().chain_length(), 1_048_576);
        assert_eq!(starts(&wide(data.clone())).map(|all| all.len()), Ok(32_641));
        let over = wide([data, start(1)].concat());
        assert_eq!(read(&over).unwrap().chain_length(), 1_048_576 + 32);
        assert_eq!(refused(&over), (49, 0));
        assert_eq!(refused(&[over, vec![0]].concat()).0, 44);
    }

    #[test]
    fn sums_do_not_wrap() {
        // 255^8 start records.
        let sheet = second(&[vec![group(255, 1); 8].concat(), start(1)]);
        let all = 255u128.pow(8);
        assert_eq!(read(&sheet).unwrap().chain_length(), 16 * (2 * all + 1));
        assert_eq!(refused(&sheet), (49, 0));
        // 128^8 is 2^56; 16 x 2 x 2^56 x 256 is 2^69 and wraps to 0.
        let mut parts = vec![group(128, 1); 7];
        parts.push(group(128, 256));
        parts.push(start(1).repeat(256));
        assert_eq!(refused(&second(&parts)), (49, 0));
    }
}
