//! The GIF by itself: a path takes one quadword at a time and appends its
//! register writes to the log.

use crate::log::{self, Entries};
use crate::refusals;

/// Q after every tag.
pub const TAG_Q: u32 = 0x3F80_0000;
/// The register that IMAGE data goes to.
const IMAGE_REGISTER: u64 = 0x54;

#[derive(Clone, Copy, PartialEq, Eq, Debug)]
pub enum Format {
    Packed,
    Reglist,
    Image,
}

#[derive(Clone, Copy, PartialEq, Eq, Debug)]
pub struct Tag {
    pub format: Format,
    pub nloop: u32,
    pub eop: bool,
    /// 1 to 16 where in range.
    pub nreg: u32,
    pub descriptors: u64,
}

#[derive(Clone, Copy, PartialEq, Eq, Debug)]
pub enum Place {
    /// The next quadword is a tag.
    Idle,
    /// `due` data quadwords of the tag are still to come.
    Data { tag: Tag, due: u32 },
}

#[derive(Clone, Copy, PartialEq, Eq, Debug)]
pub struct Path {
    pub q: u32,
    pub place: Place,
}

/// Which path, by the number that its entries have in the log.
#[derive(Clone, Copy, PartialEq, Eq, Debug)]
pub enum PathNumber {
    Two = 2,
    Three = 3,
}

pub const PATH_NUMBERS: [PathNumber; 2] = [PathNumber::Two, PathNumber::Three];

impl PathNumber {
    pub fn from_number(number: u32) -> Option<PathNumber> {
        PATH_NUMBERS.into_iter().find(|&path| path as u32 == number)
    }
}

/// Bits `from` to `from + count - 1` of the quadword; `count` is at most 64.
pub fn bits(quadword: u128, from: u32, count: u32) -> u64 {
    (quadword >> from) as u64 & (u64::MAX >> (64 - count))
}

impl Tag {
    /// Reads a tag; its NLOOP may be 0.
    pub fn decode(quadword: u128) -> Tag {
        Tag {
            format: match bits(quadword, 58, 2) {
                0 => Format::Packed,
                1 => Format::Reglist,
                _ => Format::Image,
            },
            nloop: bits(quadword, 0, 15) as u32,
            eop: bits(quadword, 15, 1) == 1,
            nreg: match bits(quadword, 60, 4) as u32 {
                0 => 16,
                n => n,
            },
            descriptors: bits(quadword, 64, 64),
        }
    }

    /// All data quadwords of the tag.
    pub fn all_data(&self) -> u64 {
        let nloop = self.nloop as u64;
        let units = nloop * self.nreg as u64;
        match self.format {
            Format::Packed => units,
            Format::Reglist => units.div_ceil(2),
            Format::Image => nloop,
        }
    }

    /// The descriptor that unit `unit` of the data goes by, counted over all loops.
    fn descriptor(&self, unit: u64) -> u8 {
        let index = unit % self.nreg as u64;
        (self.descriptors >> (4 * index)) as u8 & 15
    }

    /// The descriptor of the PACKED quadword met with `due` still to come.
    pub fn packed_descriptor(&self, due: u32) -> u8 {
        self.descriptor(self.all_data() - due as u64)
    }

    /// The descriptors of the two halves of the REGLIST quadword met with `due`
    /// still to come; none for a half after the last unit.
    pub fn reglist_descriptors(&self, due: u32) -> (u8, Option<u8>) {
        let first = 2 * (self.all_data() - due as u64);
        let second = first + 1;
        let units = self.nloop as u64 * self.nreg as u64;
        let second_descriptor = if second < units {
            Some(self.descriptor(second))
        } else {
            None
        };
        (self.descriptor(first), second_descriptor)
    }
}

/// Whether the path passes refusal 5.
pub fn path_in_range(path: &Path) -> bool {
    match &path.place {
        Place::Idle => true,
        Place::Data { tag, due } => {
            (1..=32_767).contains(&tag.nloop)
                && (1..=16).contains(&tag.nreg)
                && *due >= 1
                && *due as u64 <= tag.all_data()
        }
    }
}

/// Gives a quadword to the path; hands back whether it closed a packet: as the last data quadword
/// of a tag with EOP, or as such a tag without data. A refusal hands back its number and changes
/// nothing.
pub fn take(
    number: PathNumber,
    path: &mut Path,
    used: &mut u64,
    log: &mut [u64],
    quadword: u128,
) -> Result<bool, u32> {
    if !log::in_range(log.len(), *used) {
        return Err(refusals::LOG);
    }
    if !path_in_range(path) {
        return Err(refusals::RANGE);
    }
    match &mut path.place {
        Place::Idle => {
            log::append(log, used, &tag_writes(number, quadword))?;
            path.q = TAG_Q;
            let tag = Tag::decode(quadword);
            if tag.nloop == 0 {
                return Ok(tag.eop);
            }
            let due = tag.all_data() as u32;
            path.place = Place::Data { tag, due };
        }
        Place::Data { tag, due } => {
            let mut writes = Entries::of_path(number as u64);
            let q = data_writes(path.q, tag, *due, quadword, &mut writes)?;
            log::append(log, used, &writes)?;
            path.q = q;
            *due -= 1;
            if *due == 0 {
                let eop = tag.eop;
                path.place = Place::Idle;
                return Ok(eop);
            }
        }
    }
    Ok(false)
}

/// The writes of a tag's own step.
fn tag_writes(number: PathNumber, quadword: u128) -> Entries {
    let tag = Tag::decode(quadword);
    let pre = bits(quadword, 46, 1) == 1;
    let mut writes = Entries::of_path(number as u64);
    if tag.nloop > 0 && tag.format == Format::Packed && pre {
        writes.add(0, bits(quadword, 47, 11));
    }
    writes
}

/// The writes of a data quadword; hands back Q afterwards.
fn data_writes(
    q: u32,
    tag: &Tag,
    due: u32,
    quadword: u128,
    writes: &mut Entries,
) -> Result<u32, u32> {
    match tag.format {
        Format::Packed => return packed(tag.packed_descriptor(due), q, quadword, writes),
        Format::Reglist => {
            let (first, second) = tag.reglist_descriptors(due);
            reglist_half(first, bits(quadword, 0, 64), writes)?;
            if let Some(second) = second {
                reglist_half(second, bits(quadword, 64, 64), writes)?;
            }
        }
        Format::Image => {
            writes.add(IMAGE_REGISTER, bits(quadword, 0, 64));
            writes.add(IMAGE_REGISTER, bits(quadword, 64, 64));
        }
    }
    Ok(q)
}

/// One PACKED quadword; hands back Q afterwards.
fn packed(descriptor: u8, q: u32, quadword: u128, writes: &mut Entries) -> Result<u32, u32> {
    let field = |from, count| bits(quadword, from, count);
    let low = field(0, 64);
    match descriptor {
        0x0 => writes.add(0, field(0, 11)),
        0x1 => {
            let colour = field(0, 8) | field(32, 8) << 8 | field(64, 8) << 16 | field(96, 8) << 24;
            writes.add(1, colour | (q as u64) << 32);
        }
        0x2 => {
            writes.add(2, low);
            return Ok(field(64, 32) as u32);
        }
        0x3 => writes.add(3, field(0, 14) | field(32, 14) << 16),
        0x4 => {
            let xy = field(0, 16) | field(32, 16) << 16;
            let target = if field(111, 1) == 1 { 0x0C } else { 0x04 };
            writes.add(target, xy | field(68, 24) << 32 | field(100, 8) << 56);
        }
        0x5 => {
            let xy = field(0, 16) | field(32, 16) << 16;
            let target = if field(111, 1) == 1 { 0x0D } else { 0x05 };
            writes.add(target, xy | field(64, 32) << 32);
        }
        0xA => writes.add(0x0A, field(100, 8) << 56),
        0xB => return Err(refusals::DESCRIPTOR),
        0xE => writes.add(field(64, 8), low),
        0xF => {}
        // 6 to 9, C, D
        _ => writes.add(descriptor as u64, low),
    }
    Ok(q)
}

/// One half of a REGLIST quadword.
fn reglist_half(descriptor: u8, value: u64, writes: &mut Entries) -> Result<(), u32> {
    match descriptor {
        0xB => return Err(refusals::DESCRIPTOR),
        0xE | 0xF => {}
        _ => writes.add(descriptor as u64, value),
    }
    Ok(())
}

#[cfg(test)]
mod tests {
    use super::*;

    const IDLE: Path = Path {
        q: 0,
        place: Place::Idle,
    };

    fn tag(nloop: u128, flg: u128, nreg: u128, descriptors: u128) -> u128 {
        nloop | flg << 58 | nreg << 60 | descriptors << 64
    }

    const EOP: u128 = 1 << 15;
    const PRE: u128 = 1 << 46;

    /// Path 3 with a log.
    struct Bench {
        path: Path,
        used: u64,
        log: Vec<u64>,
    }

    impl Bench {
        /// With room for so many entries.
        fn new(entries: u64) -> Bench {
            Bench {
                path: IDLE,
                used: 0,
                log: vec![5; log::numbers(entries)],
            }
        }

        fn give(&mut self, quadword: u128) -> Result<bool, u32> {
            self.give_to(PathNumber::Three, quadword)
        }

        fn give_to(&mut self, number: PathNumber, quadword: u128) -> Result<bool, u32> {
            take(
                number,
                &mut self.path,
                &mut self.used,
                &mut self.log,
                quadword,
            )
        }
    }

    #[test]
    fn reglist_of_three() {
        let mut bench = Bench::new(4);
        assert_eq!(bench.give(tag(1, 1, 3, 0xB321)), Ok(false));
        assert_eq!(bench.give(7 | 8 << 64), Ok(false));
        assert_eq!(bench.give(9 | 10 << 64), Ok(false));
        assert_eq!(bench.used, 3);
        assert_eq!(bench.log, [3, 1, 7, 3, 2, 8, 3, 3, 9, 5, 5, 5]);
        assert_eq!((bench.path.q, bench.path.place), (TAG_Q, Place::Idle));
    }

    #[test]
    fn image_with_one_entry_free() {
        let mut bench = Bench::new(2);
        bench.used = 1;
        assert_eq!(bench.give(tag(1, 2, 0, 0)), Ok(false));
        let before = bench.path;
        assert_eq!(bench.give(1), Err(31));
        assert_eq!((bench.path, bench.used), (before, 1));
        assert_eq!(bench.log, [5; 6]);
        bench.log.extend([5; 3]);
        assert_eq!(bench.give(1 | 2 << 64), Ok(false));
        assert_eq!(bench.log, [5, 5, 5, 3, 0x54, 1, 3, 0x54, 2]);
    }

    #[test]
    fn sheet_tag_with_one_write() {
        let mut bench = Bench::new(1);
        let sheet_tag = 0x0000_0000_0000_000E_1000_0000_0000_8001;
        assert_eq!(bench.give_to(PathNumber::Two, sheet_tag), Ok(false));
        let write = 0x1234 | 0x47 << 64;
        assert_eq!(bench.give_to(PathNumber::Two, write), Ok(true));
        assert_eq!((bench.path.place, bench.used), (Place::Idle, 1));
        assert_eq!(bench.log, [2, 0x47, 0x1234]);
    }

    #[test]
    fn prim_with_the_path() {
        for (number, path) in [(PathNumber::Two, 2), (PathNumber::Three, 3)] {
            let mut bench = Bench::new(1);
            let given = bench.give_to(number, tag(1, 0, 1, 0xF) | PRE | 0x123 << 47);
            assert_eq!((given, &bench.log[..]), (Ok(false), &[path, 0, 0x123][..]));
        }
        let numbers = [0, 1, 2, 3, 4, u32::MAX].map(PathNumber::from_number);
        let (two, three) = (Some(PathNumber::Two), Some(PathNumber::Three));
        assert_eq!(numbers, [None, None, two, three, None, None]);
    }

    #[test]
    fn tag_without_data_sets_q_only() {
        let mut bench = Bench::new(0);
        assert_eq!(bench.give(tag(0, 0, 1, 0) | PRE), Ok(false));
        assert_eq!((bench.path.q, bench.path.place), (TAG_Q, Place::Idle));
        assert_eq!(bench.used, 0);
        assert_eq!(bench.give(tag(1, 0, 1, 0) | PRE), Err(31));
    }

    #[test]
    fn descriptor_before_room() {
        let held = Tag {
            format: Format::Reglist,
            nloop: 1,
            eop: true,
            nreg: 2,
            descriptors: 0xB0,
        };
        let mut bench = Bench::new(0);
        bench.path.place = Place::Data { tag: held, due: 1 };
        assert_eq!(bench.give(0), Err(30));
        bench.used = 1 << 63;
        assert_eq!(bench.give(0), Err(4));
    }

    /// The last data quadword closes a packet, where the tag has EOP; each format, with and
    /// without a dropped half, and descriptors that write nothing.
    #[test]
    fn packet_closed_by_data() {
        for (tag, data) in [
            (tag(2, 0, 1, 0x5), 2),
            (tag(1, 0, 2, 0xE1), 2),
            (tag(1, 0, 2, 0xF1), 2),
            (tag(2, 1, 2, 0x21), 2),
            (tag(1, 1, 3, 0x321), 2),
            (tag(1, 1, 2, 0xFE), 1),
            (tag(3, 2, 1, 0), 3),
            (tag(1, 3, 0, 0), 1),
        ] {
            for eop in [false, true] {
                let mut bench = Bench::new(8);
                let tag = if eop { tag | EOP } else { tag };
                let mut closed = vec![bench.give(tag)];
                closed.extend((0..data).map(|_| bench.give(7)));
                let mut wanted = vec![Ok(false); 1 + data];
                wanted[data] = Ok(eop);
                assert_eq!(closed, wanted, "{tag:X}");
                assert_eq!(bench.path.place, Place::Idle);
            }
        }
    }

    #[test]
    fn packet_closed_by_a_tag_without_data() {
        for flg in 0..4 {
            let mut bench = Bench::new(0);
            assert_eq!(bench.give(tag(0, flg, 1, 0xE) | PRE), Ok(false));
            assert_eq!(bench.give(tag(0, flg, 1, 0xE) | PRE | EOP), Ok(true));
        }
    }

    /// What is refused closes nothing, and the packet stays open.
    #[test]
    fn refused_quadwords_close_nothing() {
        let mut bench = Bench::new(1);
        assert_eq!(bench.give(tag(2, 0, 1, 0xE) | EOP), Ok(false));
        assert_eq!(bench.give(7), Ok(false));
        assert_eq!(bench.give(7), Err(31));
        for _ in 0..2 {
            bench.log.push(0);
            assert_eq!(bench.give(7), Err(4));
        }
        bench.log.push(0);
        assert_eq!(bench.give(7), Ok(true));
        let mut bench = Bench::new(2);
        assert_eq!(bench.give(tag(1, 1, 2, 0xB1) | EOP), Ok(false));
        assert_eq!(bench.give(7), Err(30));
        assert_eq!(bench.used, 0);
    }
}
