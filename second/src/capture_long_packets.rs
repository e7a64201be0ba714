//! The GIF packets of long captures.

use crate::gif::{Format, Tag};
use crate::gif_generate::{random_descriptors, tag_quadword};
use crate::random::Random;

/// Quadwords of packets, one after another.
pub struct Packets {
    /// All packets have this format; where none is given, any.
    format: Option<Format>,
    /// Data quadwords still due.
    due: u64,
}

impl Packets {
    pub fn of(format: Option<Format>) -> Packets {
        Packets { format, due: 0 }
    }

    pub fn next(&mut self, random: &mut Random) -> u128 {
        if self.due > 0 {
            self.due -= 1;
            return random.quadword();
        }
        let flg = match self.format {
            Some(Format::Packed) => 0,
            Some(Format::Reglist) => 1,
            Some(Format::Image) => random.pick(&[2, 3]),
            None => random.below(4),
        };
        let (most, nreg) = (random.pick(&[3, 20, 60]), random.below(16));
        let descriptors = random_descriptors(random, false, nreg);
        let nloop = random.within(1..=most);
        self.begin(random, tag_quadword(nloop, flg, nreg, descriptors))
    }

    /// The rest of the packet, and one with a B behind some data, PACKED or REGLIST.
    pub fn with_b(&mut self, random: &mut Random) -> Vec<u128> {
        let mut quadwords: Vec<u128> = (0..self.due).map(|_| random.quadword()).collect();
        let flg = match self.format {
            Some(format) => (format == Format::Reglist) as u64,
            None => random.below(2),
        };
        let nreg = random.within(3..=15);
        let last = 4 * (nreg - 1);
        let descriptors = random_descriptors(random, false, nreg) & !(0xF << last) | 0xB << last;
        quadwords.push(self.begin(random, tag_quadword(2, flg, nreg, descriptors)));
        quadwords.extend((0..nreg).map(|_| random.quadword()));
        quadwords
    }

    /// Begins a packet with a tag in which EOP, PRE, PRIM and the unused bits are still free.
    fn begin(&mut self, random: &mut Random, tag: u128) -> u128 {
        let rest = random.number() & 0x03FF_FFFF_FFFF_8000;
        self.due = Tag::decode(tag).all_data();
        tag | rest as u128
    }
}
