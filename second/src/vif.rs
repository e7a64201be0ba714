//! A VIF unit by itself: it takes one word at a time, or one quadword inside DIRECT
//! and DIRECTHL.

use crate::gif::{self, PathNumber};
use crate::log::{self, Entries};
use crate::model::Model;
use crate::refusals;
use crate::vif_unpack::{Cycle, Format, Unpack};

/// What the ten bits of BASE, OFST, TOPS, TOP, ITOPS, ITOP and an UNPACK's address count.
pub const ADDRESSES: u32 = 1_024;
/// What the eleven bits of an MPG's address count.
pub const MPG_ADDRESSES: u32 = 2_048;
/// What DIRECT with IMM 0 takes.
pub const MOST_DIRECT: u32 = 65_536;
/// What UNPACK and MPG with NUM 0 take.
pub const MOST_NUM: u32 = 256;

const DIRECT: u32 = 0x50;
const DIRECTHL: u32 = 0x51;

const ENTRY_MSCAL: u64 = 256;
const ENTRY_MSCALF: u64 = 257;
const ENTRY_MSCNT: u64 = 258;

#[derive(Clone, Copy, PartialEq, Eq, Debug, Default)]
pub struct Registers {
    pub cl: u32,
    pub wl: u32,
    pub ofst: u32,
    pub base: u32,
    pub tops: u32,
    pub top: u32,
    pub itops: u32,
    pub itop: u32,
    pub dbf: bool,
    pub mode: u32,
    pub mskpath3: bool,
    pub mark: u32,
    pub mask: u32,
    pub row: [u32; 4],
    pub col: [u32; 4],
}

impl Registers {
    #[inline]
    pub fn cycle(&self) -> Cycle {
        Cycle {
            cl: self.cl,
            wl: self.wl,
        }
    }
}

/// The code that waits for payload.
#[derive(Clone, Copy, PartialEq, Eq, Debug)]
pub enum Payload {
    Stmask,
    Strow,
    Stcol,
    Mpg(Mpg),
    Direct,
    Directhl,
    Unpack(Unpack),
}

#[derive(Clone, Copy, PartialEq, Eq, Debug)]
pub struct Mpg {
    /// Where the first instruction goes, before the memory's end is looked at.
    pub address: u32,
    /// Instructions, 1 to 256 where in range.
    pub count: u32,
}

#[derive(Clone, Copy, PartialEq, Eq, Debug)]
pub struct Waiting {
    pub payload: Payload,
    pub interrupt: bool,
    /// Words still due, quadwords for DIRECT and DIRECTHL.
    pub due: u32,
}

#[derive(Clone, Copy, PartialEq, Eq, Debug)]
pub struct Unit {
    pub model: Model,
    pub registers: Registers,
    pub waiting: Option<Waiting>,
}

impl Unit {
    pub fn reset(model: Model) -> Unit {
        Unit {
            model,
            registers: Registers::default(),
            waiting: None,
        }
    }
}

/// The next word: word 0 with its whole quadword, or a later word alone.
#[derive(Clone, Copy, PartialEq, Eq, Debug)]
pub enum Given {
    Quadword(u128),
    /// A word and its number in its quadword, 1 to 3.
    Word {
        number: u32,
        word: u32,
    },
}

impl Given {
    pub fn word(&self) -> u32 {
        match *self {
            Given::Quadword(quadword) => quadword as u32,
            Given::Word { word, .. } => word,
        }
    }

    /// The word's number in its quadword.
    #[inline]
    pub fn number(&self) -> u32 {
        match *self {
            Given::Quadword(_) => 0,
            Given::Word { number, .. } => number,
        }
    }
}

#[derive(Clone, Copy, PartialEq, Eq, Debug)]
pub struct Taken {
    /// The whole quadword was taken, not only its word 0.
    pub quadword: bool,
    /// This completed a code with its bit 31 set.
    pub interrupt: bool,
    /// The quadword closed a packet on path 2.
    pub closed: bool,
    /// The word was decoded as the code NOP.
    pub nop: bool,
}

#[derive(Clone, Copy, PartialEq, Eq, Debug)]
pub enum Code {
    Nop,
    Stcycl {
        cl: u32,
        wl: u32,
    },
    Offset(u32),
    Base(u32),
    Itop(u32),
    Stmod(u32),
    Mskpath3(bool),
    Mark(u32),
    Flushe,
    Flush,
    Flusha,
    Mscal(u32),
    Mscalf(u32),
    Mscnt,
    Stmask,
    Strow,
    Stcol,
    Mpg(Mpg),
    /// The quadwords, 1 to 65,536.
    Direct(u32),
    Directhl(u32),
    Unpack {
        format: Format,
        masked: bool,
        address: u32,
        add_tops: bool,
        unsigned: bool,
        count: u32,
    },
}

impl Code {
    /// Reads a code of a unit; refuses what no registers would make legal.
    pub fn decode(model: Model, word: u32) -> Result<Code, u32> {
        if !model.has(command_of(word)) {
            return Err(refusals::COMMAND);
        }
        Code::decode_any(word)
    }

    /// Reads a code that either unit has.
    fn decode_any(word: u32) -> Result<Code, u32> {
        let imm = word & 0xFFFF;
        let num = word >> 16 & 0xFF;
        let ten = imm % ADDRESSES;
        let count = if num == 0 { MOST_NUM } else { num };
        let quadwords = if imm == 0 { MOST_DIRECT } else { imm };
        let code = match command_of(word) {
            0x00 => Code::Nop,
            0x01 => Code::Stcycl {
                cl: imm & 0xFF,
                wl: imm >> 8,
            },
            0x02 => Code::Offset(ten),
            0x03 => Code::Base(ten),
            0x04 => Code::Itop(ten),
            0x05 if imm & 3 == 3 => return Err(refusals::MODE),
            0x05 => Code::Stmod(imm & 3),
            0x06 => Code::Mskpath3(imm >> 15 == 1),
            0x07 => Code::Mark(imm),
            0x10 => Code::Flushe,
            0x11 => Code::Flush,
            0x13 => Code::Flusha,
            0x14 => Code::Mscal(imm),
            0x15 => Code::Mscalf(imm),
            0x17 => Code::Mscnt,
            0x20 => Code::Stmask,
            0x30 => Code::Strow,
            0x31 => Code::Stcol,
            0x4A => Code::Mpg(Mpg {
                address: imm % MPG_ADDRESSES,
                count,
            }),
            DIRECT => Code::Direct(quadwords),
            DIRECTHL => Code::Directhl(quadwords),
            command @ 0x60..=0x7F => Code::Unpack {
                format: Format::from_number(command & 15).ok_or(refusals::FORMAT)?,
                masked: command >> 4 & 1 == 1,
                address: ten,
                add_tops: imm >> 15 & 1 == 1,
                unsigned: imm >> 14 & 1 == 1,
                count,
            },
            _ => return Err(refusals::COMMAND),
        };
        Ok(code)
    }
}

/// The CMD of a word.
#[inline]
pub fn command_of(word: u32) -> u32 {
    word >> 24 & 0x7F
}

/// Gives the next word to the unit, or the next quadword to path 2 where DIRECT
/// waits. A refusal hands back its number and changes nothing.
pub fn take(
    unit: &mut Unit,
    path: &mut gif::Path,
    given: Given,
    data: &mut [u32],
    code: &mut [u8],
    log: &mut [u64],
    used: &mut u64,
) -> Result<Taken, u32> {
    check_lengths(unit.model, data.len(), code.len(), log.len(), *used)?;
    if !in_range(unit) || !gif::path_in_range(path) {
        return Err(refusals::RANGE);
    }
    let registers = &mut unit.registers;
    let Some(waiting) = &mut unit.waiting else {
        let word = given.word();
        unit.waiting = take_code(unit.model, registers, word, data, log, used)?;
        return Ok(Taken {
            quadword: false,
            interrupt: unit.waiting.is_none() && word >> 31 == 1,
            closed: false,
            nop: matches!(Code::decode(unit.model, word), Ok(Code::Nop)),
        });
    };
    let direct = matches!(waiting.payload, Payload::Direct | Payload::Directhl);
    let mut taken = Taken {
        quadword: direct,
        interrupt: false,
        closed: false,
        nop: false,
    };
    match given {
        Given::Quadword(quadword) if direct => {
            taken.closed = gif::take(PathNumber::Two, path, used, log, quadword)?;
        }
        Given::Word { .. } if direct => return Err(refusals::PLACE),
        _ if waiting.is_upload() && given.number() % 2 == 1 => return Err(refusals::ALIGNMENT),
        _ => waiting.take_word(unit.model, registers, given.word(), data, code),
    }
    waiting.due -= 1;
    if waiting.due == 0 {
        taken.interrupt = waiting.interrupt;
        unit.waiting = None;
    }
    Ok(taken)
}

impl Waiting {
    /// Whether this is an MPG of which no payload word has been taken.
    #[inline(always)]
    pub fn is_upload(&self) -> bool {
        matches!(self.payload, Payload::Mpg(mpg) if self.due == mpg.all_words())
    }

    /// Takes a word of payload; DIRECT and DIRECTHL take none.
    #[inline(always)]
    fn take_word(
        &mut self,
        model: Model,
        registers: &mut Registers,
        word: u32,
        data: &mut [u32],
        code: &mut [u8],
    ) {
        match &mut self.payload {
            Payload::Stmask => registers.mask = word,
            Payload::Strow => registers.row[4 - self.due as usize] = word,
            Payload::Stcol => registers.col[4 - self.due as usize] = word,
            Payload::Mpg(mpg) => mpg.take_word(model, self.due, word, code),
            Payload::Unpack(unpack) => unpack.take_word(model, registers, self.due, word, data),
            Payload::Direct | Payload::Directhl => {}
        }
    }
}

/// Tests for the refusals 2, 3 and 4, with the sizes of a unit.
pub fn check_lengths(
    model: Model,
    data: usize,
    code: usize,
    log: usize,
    used: u64,
) -> Result<(), u32> {
    let sizes = model.sizes();
    if data != sizes.data_words() {
        return Err(refusals::DATA);
    }
    if code != sizes.code_bytes() {
        return Err(refusals::CODE);
    }
    if !log::in_range(log, used) {
        return Err(refusals::LOG);
    }
    Ok(())
}

/// Whether the unit passes refusal 5.
pub fn in_range(unit: &Unit) -> bool {
    let registers = &unit.registers;
    let addresses = [
        registers.ofst,
        registers.base,
        registers.tops,
        registers.top,
        registers.itops,
        registers.itop,
    ];
    registers.cl <= 255
        && registers.wl <= 255
        && addresses.iter().all(|&address| address < ADDRESSES)
        && registers.mode <= 2
        && registers.mark <= 65_535
        && (unit.model.has_tops() || registers.are_zero_on_vif0())
        && unit
            .waiting
            .as_ref()
            .is_none_or(|waiting| waiting_in_range(unit.model, registers, waiting))
}

fn waiting_in_range(model: Model, registers: &Registers, waiting: &Waiting) -> bool {
    let right = match &waiting.payload {
        Payload::Mpg(mpg) => mpg.in_range(),
        Payload::Unpack(unpack) => unpack.in_range() && registers.cycle().is_legal(),
        Payload::Direct => model.has(DIRECT),
        Payload::Directhl => model.has(DIRECTHL),
        Payload::Stmask | Payload::Strow | Payload::Stcol => true,
    };
    right && (1..=waiting.payload.all_units(registers)).contains(&waiting.due)
}

impl Payload {
    /// All words of the payload under the held CL and WL; for DIRECT and DIRECTHL the most
    /// quadwords there can be.
    pub fn all_units(&self, registers: &Registers) -> u32 {
        match self {
            Payload::Stmask => 1,
            Payload::Strow | Payload::Stcol => 4,
            Payload::Mpg(mpg) => mpg.all_words(),
            Payload::Direct | Payload::Directhl => MOST_DIRECT,
            Payload::Unpack(unpack) => unpack.all_words(registers.cycle()),
        }
    }
}

impl Mpg {
    pub fn in_range(&self) -> bool {
        self.address < MPG_ADDRESSES && (1..=MOST_NUM).contains(&self.count)
    }

    pub fn all_words(&self) -> u32 {
        2 * self.count
    }

    /// The byte address of the word that comes with `due` still due.
    fn byte_address(&self, model: Model, due: u32) -> usize {
        let taken = self.all_words() - due;
        let instruction = (self.address + taken / 2) % model.sizes().instructions;
        (8 * instruction + 4 * (taken % 2)) as usize
    }

    fn take_word(&self, model: Model, due: u32, word: u32, code: &mut [u8]) {
        let at = self.byte_address(model, due);
        code[at..at + 4].copy_from_slice(&word.to_le_bytes());
    }
}

/// A word that is a code; hands back what waits afterwards.
fn take_code(
    model: Model,
    registers: &mut Registers,
    word: u32,
    data: &mut [u32],
    log: &mut [u64],
    used: &mut u64,
) -> Result<Option<Waiting>, u32> {
    let code = Code::decode(model, word)?;
    match code {
        Code::Mscal(_) | Code::Mscalf(_) | Code::Mscnt => {
            log::append(log, used, &start_entry(&code))?;
            registers.start(model);
        }
        Code::Unpack { add_tops, .. } => check_unpack(model, registers, add_tops)?,
        _ => registers.set(&code),
    }
    let Some((payload, due)) = code.payload(registers) else {
        return Ok(None);
    };
    if let (Payload::Unpack(unpack), 0) = (&payload, due) {
        unpack.fill_all(model, registers, data);
        return Ok(None);
    }
    Ok(Some(Waiting {
        payload,
        interrupt: word >> 31 == 1,
        due,
    }))
}

impl Registers {
    /// Whether all are zero that nothing on VIF0 writes.
    fn are_zero_on_vif0(&self) -> bool {
        [self.ofst, self.base, self.tops, self.top] == [0; 4] && !self.dbf && !self.mskpath3
    }

    /// What MSCAL, MSCALF and MSCNT do to the registers.
    fn start(&mut self, model: Model) {
        self.itop = self.itops;
        if !model.has_tops() {
            return;
        }
        self.top = self.tops;
        self.dbf = !self.dbf;
        self.tops = if self.dbf {
            (self.base + self.ofst) % ADDRESSES
        } else {
            self.base
        };
    }

    /// What a code does to the registers, MSCAL, MSCALF and MSCNT left out.
    fn set(&mut self, code: &Code) {
        match *code {
            Code::Stcycl { cl, wl } => (self.cl, self.wl) = (cl, wl),
            Code::Offset(ofst) => {
                self.ofst = ofst;
                self.dbf = false;
                self.tops = self.base;
            }
            Code::Base(base) => self.base = base,
            Code::Itop(itops) => self.itops = itops,
            Code::Stmod(mode) => self.mode = mode,
            Code::Mskpath3(bit) => self.mskpath3 = bit,
            Code::Mark(mark) => self.mark = mark,
            _ => {}
        }
    }
}

impl Code {
    /// The payload that the code waits for under these registers, and how much of it; an UNPACK
    /// that has none too.
    pub fn payload(&self, registers: &Registers) -> Option<(Payload, u32)> {
        let payload = match *self {
            Code::Stmask => Payload::Stmask,
            Code::Strow => Payload::Strow,
            Code::Stcol => Payload::Stcol,
            Code::Mpg(mpg) => Payload::Mpg(mpg),
            Code::Direct(quadwords) => return Some((Payload::Direct, quadwords)),
            Code::Directhl(quadwords) => return Some((Payload::Directhl, quadwords)),
            Code::Unpack {
                format,
                masked,
                address,
                add_tops,
                unsigned,
                count,
            } => {
                let added = if add_tops { registers.tops } else { 0 };
                Payload::Unpack(Unpack {
                    format,
                    masked,
                    unsigned,
                    address: (address + added) % ADDRESSES,
                    count,
                    held: [0; 3],
                })
            }
            _ => return None,
        };
        let due = payload.all_units(registers);
        Some((payload, due))
    }
}

/// Tests for the refusals 22 and 26, in this order.
fn check_unpack(model: Model, registers: &Registers, add_tops: bool) -> Result<(), u32> {
    if !registers.cycle().is_legal() {
        return Err(refusals::CYCLE);
    }
    if add_tops && !model.has_tops() {
        return Err(refusals::TOPS);
    }
    Ok(())
}

/// The log entry of MSCAL, MSCALF and MSCNT; none of another code.
fn start_entry(code: &Code) -> Entries {
    let mut entry = Entries::of_path(log::NO_PATH);
    match *code {
        Code::Mscal(imm) => entry.add(ENTRY_MSCAL, imm as u64),
        Code::Mscalf(imm) => entry.add(ENTRY_MSCALF, imm as u64),
        Code::Mscnt => entry.add(ENTRY_MSCNT, 0),
        _ => {}
    }
    entry
}

#[cfg(test)]
mod tests {
    use super::*;

    /// A unit with its memories, fed legal words that are all taken.
    struct Bench {
        unit: Unit,
        path: gif::Path,
        data: Vec<u32>,
        code: Vec<u8>,
        log: Vec<u64>,
        used: u64,
        /// The number of the next word in its quadword.
        number: u32,
    }

    impl Bench {
        fn new() -> Bench {
            Bench::of(Model::Vif1)
        }

        fn of(model: Model) -> Bench {
            Bench {
                unit: Unit::reset(model),
                path: gif::Path {
                    q: 0,
                    place: gif::Place::Idle,
                },
                data: vec![0; model.sizes().data_words()],
                code: vec![0; model.sizes().code_bytes()],
                log: vec![0; log::numbers(4)],
                used: 0,
                number: 0,
            }
        }

        /// Gives a word; after a refusal the next has the same number.
        fn give(&mut self, word: u32) -> Result<Taken, u32> {
            let taken = self.take(match self.number {
                0 => Given::Quadword(word as u128),
                number => Given::Word { number, word },
            })?;
            self.number = (self.number + 1) % 4;
            Ok(taken)
        }

        fn take(&mut self, given: Given) -> Result<Taken, u32> {
            take(
                &mut self.unit,
                &mut self.path,
                given,
                &mut self.data,
                &mut self.code,
                &mut self.log,
                &mut self.used,
            )
        }

        fn run(&mut self, words: &[u32]) {
            for &word in words {
                assert!(self.give(word).is_ok());
            }
        }

        fn quadword(&self, at: usize) -> &[u32] {
            &self.data[4 * at..4 * at + 4]
        }
    }

    #[test]
    fn byte_ff() {
        let mut bench = Bench::new();
        bench.run(&[0x0100_0101, 0x6201_0000, 0xFF, 0x6201_4001, 0xFF]);
        assert_eq!(bench.quadword(0), [u32::MAX; 4]);
        assert_eq!(bench.quadword(1), [0xFF; 4]);
    }

    #[test]
    fn payload_lengths() {
        let mut bench = Bench::new();
        bench.run(&[0x0100_0101, 0x6A05_0000, 0, 0, 0]);
        assert!(bench.unit.waiting.is_some());
        bench.run(&[0]);
        assert!(bench.unit.waiting.is_none());
        bench.run(&[0x6C00_0000]);
        assert_eq!(bench.unit.waiting.unwrap().due, 1_024);
    }

    #[test]
    fn five_bit_fields() {
        let mut bench = Bench::new();
        bench.run(&[0x0100_0101, 0x6F01_0000, 0xFFFF]);
        assert_eq!(bench.quadword(0), [0xF8, 0xF8, 0xF8, 0x80]);
    }

    #[test]
    fn mode_2_sum_wraps() {
        let mut bench = Bench::new();
        bench.run(&[0x0100_0101, 0x0500_0002, 0x3000_0000]);
        bench.run(&[u32::MAX; 4]);
        bench.run(&[0x6001_0000, 2]);
        assert_eq!(bench.quadword(0), [1; 4]);
        assert_eq!(bench.unit.registers.row, [1; 4]);
    }

    #[test]
    fn write_positions() {
        let mut bench = Bench::new();
        bench.run(&[0x0100_0204, 0x6004_0000, 1, 2, 3, 4]);
        let firsts: Vec<u32> = (0..6).map(|at| bench.data[4 * at]).collect();
        assert_eq!(firsts, [1, 2, 0, 0, 3, 4]);
        bench.run(&[0x0100_0002]);
        assert_eq!(bench.give(0x6004_0000), Err(22));
        assert_eq!(bench.give(0x6304_0000), Err(21));
    }

    /// S-32 of four writes under CL 2, WL 3 has three vectors.
    #[test]
    fn range_of_a_waiting_unpack() {
        let unpack = Unpack {
            format: Format::from_number(0).unwrap(),
            masked: false,
            unsigned: false,
            address: 1_023,
            count: 4,
            held: [0; 3],
        };
        let fits = |cl, wl, due| {
            let mut unit = Unit {
                waiting: Some(Waiting {
                    payload: Payload::Unpack(unpack),
                    interrupt: false,
                    due,
                }),
                ..Unit::reset(Model::Vif1)
            };
            (unit.registers.cl, unit.registers.wl) = (cl, wl);
            in_range(&unit)
        };
        for (cl, wl, most) in [(2, 3, 3), (3, 2, 4), (1, 255, 1), (3, 4, 3), (4, 5, 4)] {
            assert!(!fits(cl, wl, 0) && fits(cl, wl, 1));
            assert!(fits(cl, wl, most) && !fits(cl, wl, most + 1));
        }
        for due in 0..=4 {
            assert!(!fits(0, 3, due) && !fits(2, 0, due) && !fits(0, 0, due));
        }
    }

    #[test]
    fn sizes_of_vif0() {
        let mut bench = Bench::of(Model::Vif0);
        assert_eq!((bench.data.len(), bench.code.len()), (1_024, 4_096));
        bench.run(&[0x0100_0101, 0x6002_00FF, 5, 6]);
        assert_eq!(
            (bench.quadword(255), bench.quadword(0)),
            (&[5; 4][..], &[6; 4][..])
        );
        bench.run(&[0, 0x4A02_01FF, 1, 2, 3, 4]);
        assert_eq!(bench.code[4_088..], [1, 0, 0, 0, 2, 0, 0, 0]);
        assert_eq!(bench.code[..8], [3, 0, 0, 0, 4, 0, 0, 0]);
        bench.data.push(0);
        assert_eq!(bench.give(0), Err(2));
        bench.data.truncate(1_024);
        bench.code.resize(16_384, 0);
        assert_eq!(bench.give(0), Err(3));
    }

    #[test]
    fn codes_of_vif0() {
        for command in [0x02, 0x03, 0x06, 0x11, 0x13, 0x15, 0x50, 0x51] {
            let mut bench = Bench::of(Model::Vif0);
            assert_eq!(bench.give(command << 24 | 1), Err(20), "{command:02X}");
            assert_eq!(bench.unit, Unit::reset(Model::Vif0));
            assert!(Bench::new().give(command << 24 | 1).is_ok());
        }
        let mut bench = Bench::of(Model::Vif0);
        // FLUSHE, and MARK with its bit 31 set.
        bench.run(&[0x1000_0000]);
        let mark = bench.give(0x8700_1234).unwrap();
        assert_eq!((mark.interrupt, bench.unit.registers.mark), (true, 0x1234));
    }

    /// UNPACK with bit 15 where WL is 0, where it is not, and in a format that is refused.
    #[test]
    fn order_of_21_22_and_26() {
        let mut bench = Bench::of(Model::Vif0);
        assert_eq!(bench.give(0x6001_8000), Err(22));
        assert_eq!(bench.give(0x6301_8000), Err(21));
        bench.run(&[0x0100_0101]);
        assert_eq!(bench.give(0x6001_8000), Err(26));
        assert_eq!(bench.give(0xE001_C3FF), Err(26));
        assert_eq!(bench.give(0x6301_8000), Err(21));
        bench.run(&[0x6001_4000, 7]);
        // With CL 0 there would be no payload.
        bench.run(&[0x0100_0100]);
        assert_eq!(bench.give(0x6001_8000), Err(26));
        assert_eq!(bench.quadword(0), [7; 4]);
    }

    #[test]
    fn program_starts_on_vif0() {
        let mut bench = Bench::of(Model::Vif0);
        bench.run(&[0x0400_0007, 0x1400_FFFF]);
        let mut started = Registers::default();
        (started.itops, started.itop) = (7, 7);
        assert_eq!(bench.unit.registers, started);
        bench.run(&[0x0400_03FF, 0x1700_0009]);
        (started.itops, started.itop) = (1_023, 1_023);
        assert_eq!(bench.unit.registers, started);
        assert_eq!(bench.used, 2);
        assert_eq!(bench.log[..6], [0, 256, 65_535, 0, 258, 0]);
        // The same on VIF1, with BASE 3 and OFST 2, changes TOP, DBF and TOPS as well.
        let mut bench = Bench::new();
        bench.run(&[0x0300_0003, 0x0200_0002, 0x1400_0000]);
        let registers = bench.unit.registers;
        assert_eq!((registers.top, registers.dbf, registers.tops), (3, true, 5));
    }

    #[test]
    fn range_of_vif0() {
        let changes: [fn(&mut Registers); 6] = [
            |registers| registers.ofst = 1,
            |registers| registers.base = 1,
            |registers| registers.tops = 1,
            |registers| registers.top = 1,
            |registers| registers.dbf = true,
            |registers| registers.mskpath3 = true,
        ];
        for change in changes {
            let [vif0, vif1] = [Model::Vif0, Model::Vif1].map(|model| {
                let mut unit = Unit::reset(model);
                change(&mut unit.registers);
                in_range(&unit)
            });
            assert_eq!((vif0, vif1), (false, true));
        }
        let mut unit = Unit::reset(Model::Vif0);
        (unit.registers.itops, unit.registers.itop) = (1_023, 1_023);
        assert!(in_range(&unit));
        unit.registers.itop = 1_024;
        assert!(!in_range(&unit));
    }

    #[test]
    fn what_waits_on_vif0() {
        let waits = |model, payload| {
            let waiting = Waiting {
                payload,
                interrupt: false,
                due: 1,
            };
            in_range(&Unit {
                waiting: Some(waiting),
                ..Unit::reset(model)
            })
        };
        let mpg = |address| Payload::Mpg(Mpg { address, count: 1 });
        for (payload, right) in [
            (Payload::Stmask, true),
            (Payload::Strow, true),
            (Payload::Stcol, true),
            (mpg(2_047), true),
            (mpg(2_048), false),
            (Payload::Direct, false),
            (Payload::Directhl, false),
        ] {
            assert_eq!(waits(Model::Vif0, payload), right, "{payload:?}");
        }
        assert!(waits(Model::Vif1, Payload::Direct) && waits(Model::Vif1, Payload::Directhl));
    }

    #[test]
    fn mpg_round_the_end() {
        let mut bench = Bench::new();
        bench.run(&[0, 0x4A02_07FF, 1, 2, 3, 4]);
        assert_eq!(bench.code[16_376..], [1, 0, 0, 0, 2, 0, 0, 0]);
        assert_eq!(bench.code[..8], [3, 0, 0, 0, 4, 0, 0, 0]);
    }

    /// Packets inside DIRECT and DIRECTHL, of which the last comes with the code's interrupt.
    #[test]
    fn packets_on_path_2() {
        for command in [0xD0, 0xD1] {
            let mut bench = Bench::new();
            let code = bench.give(command << 24 | 4).unwrap();
            assert!(!code.closed && !code.quadword);
            let mut give = |quadword| {
                let taken = bench.take(Given::Quadword(quadword)).unwrap();
                assert!(taken.quadword);
                (taken.closed, taken.interrupt)
            };
            let tag = 0x0000_0000_0000_000E_1000_0000_0000_8001;
            assert_eq!(give(tag), (false, false));
            assert_eq!(give(7), (true, false));
            // NLOOP 0 without EOP and with it.
            assert_eq!(give(0), (false, false));
            assert_eq!(give(0x8000), (true, true));
            assert_eq!(bench.log[..3], [2, 0, 7]);
        }
    }

    /// The first word of MPG's payload comes as each word of a quadword.
    #[test]
    fn first_word_of_an_upload() {
        for model in [Model::Vif0, Model::Vif1] {
            for number in 0..4 {
                let mut bench = Bench::of(model);
                bench.number = number;
                bench.run(&[0xCA02_0003]);
                let before = bench.unit;
                if number % 2 == 0 {
                    assert_eq!(bench.give(7), Err(25));
                    assert_eq!(bench.unit, before);
                    assert!(bench.code.iter().all(|&byte| byte == 0));
                    bench.number += 1;
                    bench.number %= 4;
                }
                bench.run(&[1, 2, 3]);
                assert!(bench.give(4).unwrap().interrupt);
                assert_eq!(bench.code[24..32], [1, 0, 0, 0, 2, 0, 0, 0]);
            }
        }
    }

    /// An MPG whose first word was taken goes on from any word.
    #[test]
    fn later_words_of_an_upload() {
        for due in 1..4 {
            for number in 0..4 {
                let mut bench = Bench::new();
                bench.number = number;
                bench.unit.waiting = Some(Waiting {
                    payload: Payload::Mpg(Mpg {
                        address: 0,
                        count: 2,
                    }),
                    interrupt: false,
                    due,
                });
                bench.run(&vec![9; due as usize]);
                assert_eq!(bench.unit.waiting, None);
            }
        }
    }
}
