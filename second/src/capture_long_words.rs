//! The codes of long captures, with their payload.

use crate::capture_generate::split;
use crate::capture_long_packets::Packets;
use crate::capture_long_tags::{Chain, Spread};
use crate::model::Model;
use crate::random::Random;
use crate::refusals;
use crate::unpack_counts::all_formats;
use crate::unpack_kind::{command, Kind, Relation, RELATIONS};
use crate::vif::{Code, ADDRESSES, MOST_NUM, MPG_ADDRESSES};
use crate::vif_generate::{code_word, illegal_code, payload_word, random_mask, stcycl};
use crate::vif_unpack::{Cycle, Format};
use crate::way::Way;

const BIT_31: u32 = 1 << 31;
const USN: u32 = 1 << 14;
const ADD_TOPS: u32 = 1 << 15;
/// The most quadwords of a DIRECT.
const MOST_DIRECT: u64 = 60;

/// What an UNPACK is to be.
#[derive(Clone, Copy)]
pub struct Wanted {
    pub format: Format,
    pub masked: bool,
    pub mode: u32,
    /// None where the mask may stay.
    pub mask: Option<u32>,
    /// None where CL and WL may stay.
    pub cycle: Option<Cycle>,
}

impl Wanted {
    fn new(random: &mut Random, (format, masked, mode): (Format, bool, u32)) -> Wanted {
        Wanted {
            format,
            masked,
            mode,
            mask: masked.then(|| random_mask(random)),
            cycle: None,
        }
    }

    /// The UNPACKs of a format with M and MODE under every relation of CL and WL, in any order.
    pub fn all(random: &mut Random, format: Format) -> Vec<Wanted> {
        let mut all = Vec::new();
        for number in 0..6 * RELATIONS.len() {
            let flags = (format, number % 2 == 1, number as u32 / 2 % 3);
            let wanted = Wanted {
                cycle: Some(related_cycle(random, RELATIONS[number / 6])),
                ..Wanted::new(random, flags)
            };
            all.insert(random.within(0..=all.len() as u64) as usize, wanted);
        }
        all
    }

    /// Any UNPACK that has payload.
    pub fn some(random: &mut Random) -> Wanted {
        let format = random.pick(&all_formats());
        let flags = (format, random.percent(50), random.below(3) as u32);
        let relation = random.pick(&[Relation::Gaps, Relation::Equal, Relation::Fills]);
        Wanted {
            cycle: Some(related_cycle(random, relation)),
            ..Wanted::new(random, flags)
        }
    }

    /// V4-32 or what is nearly that.
    pub fn of_kind(random: &mut Random, kind: Kind) -> Wanted {
        let mode = match kind {
            Kind::Mode1 => 1,
            Kind::Mode2 => 2,
            Kind::MaskedMode => random.within(1..=2) as u32,
            _ => 0,
        };
        let mask = match kind {
            Kind::ZeroMask => Some(0),
            Kind::Masked => Some(random_mask(random).max(1)),
            Kind::MaskedMode => Some(random_mask(random)),
            _ => None,
        };
        Wanted {
            format: kind.format(),
            masked: kind.masked(),
            mode,
            mask,
            cycle: random.percent(50).then(|| some_cycle(random)),
        }
    }
}

/// The words of a capture under way, and the registers that they set.
pub struct Maker<'a> {
    pub random: &'a mut Random,
    model: Model,
    chain: Chain,
    /// Bit 31 is set on some codes.
    interrupts: bool,
    /// Payload words of UNPACKs.
    pub payload: usize,
    cycle: Cycle,
    mode: u32,
    mask: u32,
    pub packets: Packets,
}

impl Maker<'_> {
    /// Sets ROW, COL, CL and WL, and TOPS where there is one.
    pub fn new(random: &mut Random, model: Model, spread: Spread, interrupts: bool) -> Maker<'_> {
        let mut maker = Maker {
            random,
            model,
            chain: Chain::new(spread),
            interrupts,
            payload: 0,
            cycle: Cycle { cl: 0, wl: 0 },
            mode: 0,
            mask: 0,
            packets: Packets::of(None),
        };
        maker.add_rows(0x30);
        maker.add_rows(0x31);
        maker.set_cycle(Cycle { cl: 1, wl: 1 });
        maker.move_tops();
        maker
    }

    /// Main memory with all words; the last tag is refused where a refusal of tags is given.
    pub fn main(self, refusal: Option<u32>) -> Vec<u32> {
        self.chain.main(refusal)
    }

    fn add_word(&mut self, word: u32) {
        self.chain.add(self.random, word);
    }

    /// Adds a code, at times with its bit 31 set.
    fn add_code(&mut self, code: u32) {
        let interrupt = self.interrupts && self.random.percent(20);
        self.add_word(code | BIT_31 * interrupt as u32);
    }

    fn add_payload(&mut self, count: usize) {
        for _ in 0..count {
            let word = payload_word(self.random);
            self.add_word(word);
        }
    }

    /// Sets TOPS by BASE and OFFSET.
    pub fn move_tops(&mut self) {
        if self.model.has_tops() {
            let base = self.random.within(1..=ADDRESSES as u64 - 1) as u32;
            self.add_code(code_word(0x03, 0, base));
            self.add_code(code_word(0x02, 0, base / 2));
        }
    }

    fn set_cycle(&mut self, cycle: Cycle) {
        self.cycle = cycle;
        self.add_code(stcycl(cycle.cl, cycle.wl));
    }

    fn set_mask(&mut self, mask: u32) {
        self.mask = mask;
        self.add_code(code_word(0x20, 0, 0));
        self.add_word(mask);
    }

    /// STROW or STCOL.
    fn add_rows(&mut self, command: u32) {
        self.add_code(code_word(command, 0, 0));
        self.add_payload(4);
    }

    /// Sets what is wanted and not set.
    fn set_registers(&mut self, wanted: &Wanted) {
        if let Some(cycle) = wanted.cycle {
            self.set_cycle(cycle);
        }
        if wanted.mode != self.mode {
            self.mode = wanted.mode;
            self.add_code(code_word(0x05, 0, wanted.mode));
        }
        if let Some(mask) = wanted.mask.filter(|&mask| mask != self.mask) {
            self.set_mask(mask);
        }
    }

    /// Adds an UNPACK of so many writes at least with its payload, and what it needs before.
    pub fn add_unpack(&mut self, wanted: &Wanted, least: u32) {
        self.set_registers(wanted);
        let nops = self.random.below(8).saturating_sub(4);
        self.add_nops(nops);
        let count = some_count(self.random).max(least);
        let words = self.add_unpack_code(wanted, count);
        self.add_payload(words);
    }

    /// Adds an UNPACK of many writes, without the end of its payload.
    fn add_cut_unpack(&mut self) {
        let wanted = Wanted::some(self.random);
        self.set_registers(&wanted);
        let count = self.random.within(64..=MOST_NUM as u64) as u32;
        let words = self.add_unpack_code(&wanted, count);
        self.add_payload(words / 2);
    }

    /// Hands back how many words the payload has.
    fn add_unpack_code(&mut self, wanted: &Wanted, count: u32) -> usize {
        let imm = self.some_address(count) | self.some_flags();
        let command = command(&wanted.format, wanted.masked);
        self.add_code(code_word(command, count % MOST_NUM, imm));
        let words = wanted.format.words_of(self.cycle.vectors(count)) as usize;
        self.payload += words;
        words
    }

    /// An address, often so that the writes go round the memory's end.
    fn some_address(&mut self, count: u32) -> u32 {
        if self.random.percent(50) {
            return self.random.below(ADDRESSES as u64) as u32;
        }
        let size = self.model.sizes().quadwords;
        before_the_end(self.random, size, ADDRESSES, count)
    }

    /// USN, and the bit that adds TOPS.
    fn some_flags(&mut self) -> u32 {
        let usn = USN * self.random.below(2) as u32;
        let tops = self.model.has_tops() && self.random.percent(25);
        usn | ADD_TOPS * tops as u32
    }

    /// NOPs, some of them with bits that mean nothing.
    fn add_nops(&mut self, count: u64) {
        for _ in 0..count {
            let bits = self.random.word() & 0x00FF_FFFF;
            let nop = self.random.pick(&[0, 0, 0, bits]);
            let interrupt = self.interrupts && self.random.percent(2);
            self.add_word(nop | BIT_31 * interrupt as u32);
        }
    }

    /// NOPs up to a word with such a number in its quadword.
    fn pad_to(&mut self, fits: impl Fn(u32) -> bool) {
        while !fits(self.chain.number()) {
            self.add_word(0);
        }
    }

    /// Adds what is no UNPACK, or nothing.
    pub fn add_others(&mut self) {
        match self.random.below(8) {
            0 => {
                let most = self.random.pick(&[3, 3, 40, 400]);
                let count = self.random.within(2..=most);
                self.add_nops(count);
            }
            1..=2 => self.add_registers(),
            3 => self.add_upload(),
            4 => self.add_start(),
            5 => {
                let way = self.random.pick(&[Way::Direct, Way::Directhl]);
                self.add_direct(way);
            }
            _ => {}
        }
    }

    /// Some of STMASK, STROW and STCOL.
    fn add_registers(&mut self) {
        for _ in 0..self.random.within(1..=4) {
            match self.random.below(3) {
                0 => {
                    let mask = random_mask(self.random);
                    self.set_mask(mask);
                }
                1 => self.add_rows(0x30),
                _ => self.add_rows(0x31),
            }
        }
    }

    /// MPG, often round the memory's end.
    pub fn add_upload(&mut self) {
        self.pad_to(|number| number % 2 == 1);
        let count = some_count(self.random);
        let size = self.model.sizes().instructions;
        let any = self.random.below(MPG_ADDRESSES as u64) as u32;
        let end = before_the_end(self.random, size, MPG_ADDRESSES, count);
        let imm = self.random.pick(&[any, end]);
        self.add_code(code_word(0x4A, count % MOST_NUM, imm));
        self.add_payload(2 * count as usize);
    }

    /// MSCAL, MSCNT or a code that sets a register or nothing.
    fn add_start(&mut self) {
        let command = self.random.pick(&[0x14, 0x17, 0x04, 0x07, 0x10]);
        let imm = self.random.word() & 0xFFFF;
        self.add_code(code_word(command, 0, imm));
    }

    /// DIRECT or DIRECTHL with some quadwords of packets, where the unit has them.
    pub fn add_direct(&mut self, way: Way) {
        if self.model == Model::Vif0 {
            return;
        }
        let most = self.room_for_quadwords();
        let count = self.random.within(0..=most);
        let next = |_| self.packets.next(self.random);
        let quadwords: Vec<u128> = (0..count).map(next).collect();
        self.put_direct(way, &quadwords);
    }

    /// The most quadwords of a DIRECT at the next word 3. Tag words must not come between.
    fn room_for_quadwords(&mut self) -> u64 {
        self.pad_to(|number| number == 3);
        match self.chain.tte() {
            true => (self.chain.room() as u64 / 4).min(MOST_DIRECT),
            false => MOST_DIRECT,
        }
    }

    fn put_direct(&mut self, way: Way, quadwords: &[u128]) {
        if quadwords.is_empty() {
            return;
        }
        self.pad_to(|number| number == 3);
        let command = way.command().expect("a code");
        self.add_code(code_word(command, 0, quadwords.len() as u32));
        self.add_quadwords(quadwords);
    }

    fn add_quadwords(&mut self, quadwords: &[u128]) {
        for word in quadwords.iter().flat_map(|&quadword| split(quadword)) {
            self.add_word(word);
        }
    }

    /// Adds a packet with a B.
    pub fn add_b(&mut self, way: Way) {
        let quadwords = self.packets.with_b(self.random);
        self.put_direct(way, &quadwords);
    }

    /// Adds what is refused with this number; 31 where the log lacks room. Before a tag that is
    /// refused an UNPACK is cut.
    pub fn add_refused(&mut self, refusal: u32) {
        match refusal {
            refusals::COMMAND | refusals::FORMAT | refusals::MODE | refusals::TOPS => {
                self.add_illegal(refusal);
            }
            refusals::CYCLE => {
                let cl = self.random.below(256) as u32;
                self.add_word(stcycl(cl, 0));
                self.add_word(code_word(0x6C, 1, 0));
            }
            refusals::PLACE => {
                self.pad_to(|number| number != 3);
                self.add_word(code_word(0x50, 0, 1));
            }
            refusals::ALIGNMENT => {
                self.pad_to(|number| number % 2 == 0);
                self.add_word(code_word(0x4A, 1, 0));
            }
            refusals::DESCRIPTOR => self.add_b(Way::Direct),
            refusals::ROOM => self.add_word(code_word(0x14, 0, 0)),
            _ => self.add_cut_unpack(),
        }
    }

    fn add_illegal(&mut self, refusal: u32) {
        loop {
            let code = illegal_code(self.random, self.model);
            let told = Code::decode(self.model, code).err();
            if told.unwrap_or(refusals::TOPS) == refusal {
                return self.add_word(code);
            }
        }
    }
}

/// CL = WL, CL above WL, WL above CL, and CL 0.
fn some_cycle(random: &mut Random) -> Cycle {
    let relation = match random.below(20) {
        0..=8 => Relation::Equal,
        9..=13 => Relation::Gaps,
        14..=18 => Relation::Fills,
        _ => Relation::NoPayload,
    };
    related_cycle(random, relation)
}

/// Mostly small, at times up to 255.
fn related_cycle(random: &mut Random, relation: Relation) -> Cycle {
    let small = random.within(1..=6) as u32;
    let large = random.within(1..=254) as u32;
    let low = random.pick(&[1, small, small, small, large]);
    let high = (low + random.within(1..=3) as u32).min(255);
    let (cl, wl) = match relation {
        Relation::Equal => (low, low),
        Relation::Gaps => (high, low),
        Relation::Fills => (low, high),
        Relation::NoPayload => (0, low),
    };
    Cycle { cl, wl }
}

/// The writes of an UNPACK or the instructions of an MPG, often the most.
fn some_count(random: &mut Random) -> u32 {
    let most = MOST_NUM as u64;
    let count = match random.below(8) {
        0..=2 => most,
        3 => most - 1,
        4 => random.within(1..=5),
        5 => random.within(14..=40),
        _ => random.within(1..=most),
    };
    count as u32
}

/// An address from which so many places go round the end of a memory.
fn before_the_end(random: &mut Random, size: u32, addresses: u32, count: u32) -> u32 {
    let before = random.within(1..=count as u64) as u32;
    let rounds = random.within(1..=(addresses / size) as u64) as u32;
    rounds * size - before
}
