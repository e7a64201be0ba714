//! UNPACK: from payload words to writes in the data memory.

use crate::model::Model;
use crate::vif::{Registers, ADDRESSES, MOST_NUM};

/// The form of a vector: vl and vn of the code.
#[derive(Clone, Copy, PartialEq, Eq, Debug)]
pub struct Format {
    vl: u32,
    vn: u32,
}

/// CL and WL: of every WL writes the first CL take a vector from the payload, the others fill.
/// With WL up to CL there are no others.
#[derive(Clone, Copy, PartialEq, Eq, Debug)]
pub struct Cycle {
    pub cl: u32,
    pub wl: u32,
}

/// Three payload words and the one after them.
pub struct Window {
    format: Format,
    unsigned: bool,
    bits: u128,
    /// The payload words before the last one.
    taken: u32,
}

/// An UNPACK that waits for payload.
#[derive(Clone, Copy, PartialEq, Eq, Debug)]
pub struct Unpack {
    pub format: Format,
    pub masked: bool,
    pub unsigned: bool,
    /// Where the first write goes, in quadwords.
    pub address: u32,
    /// Writes, 1 to 256 where in range.
    pub count: u32,
    /// The last three payload words, oldest first.
    pub held: [u32; 3],
}

impl Format {
    /// By bits 0 to 3 of CMD; none where vl 3 comes without vn 3.
    pub fn from_number(number: u32) -> Option<Format> {
        let (vl, vn) = (number & 3, number >> 2);
        if vn > 3 || vl == 3 && vn < 3 {
            return None;
        }
        Some(Format { vl, vn })
    }

    pub fn number(&self) -> u32 {
        self.vl | self.vn << 2
    }

    /// V4-5, on which MODE doesn't act.
    pub fn is_five_bits(&self) -> bool {
        self.vl == 3
    }

    pub fn vector_bits(&self) -> u32 {
        if self.is_five_bits() {
            16
        } else {
            (self.vn + 1) * (32 >> self.vl)
        }
    }

    /// The words that so many vectors lie in.
    pub fn words_of(&self, vectors: u32) -> u32 {
        (vectors * self.vector_bits()).div_ceil(32)
    }

    /// The vectors that lie wholly in so many words.
    pub fn vectors_in(&self, words: u32) -> u32 {
        match self.vector_bits() {
            8 => words * 4,
            16 => words * 2,
            24 => words * 4 / 3,
            32 => words,
            48 => words * 2 / 3,
            64 => words / 2,
            96 => words / 3,
            _ => words / 4,
        }
    }

    /// The four fields of a vector whose bits are the lowest of `bits`.
    pub fn fields(&self, bits: u128, unsigned: bool) -> [u32; 4] {
        if self.is_five_bits() {
            return five_bit_fields(bits as u32);
        }
        let element = |j: u32| extend((bits >> (j * (32 >> self.vl))) as u32, self.vl, unsigned);
        match self.vn {
            0 => [element(0); 4],
            1 => [element(0), element(1), element(0), element(1)],
            2 => [element(0), element(1), element(2), 0],
            _ => [element(0), element(1), element(2), element(3)],
        }
    }
}

fn five_bit_fields(halfword: u32) -> [u32; 4] {
    [
        (halfword & 31) * 8,
        (halfword >> 5 & 31) * 8,
        (halfword >> 10 & 31) * 8,
        (halfword >> 15 & 1) * 128,
    ]
}

/// The lowest bits, as many as vl says, made a word.
fn extend(bits: u32, vl: u32, unsigned: bool) -> u32 {
    match (vl, unsigned) {
        (0, _) => bits,
        (1, false) => bits as i16 as u32,
        (1, true) => bits as u16 as u32,
        (_, false) => bits as i8 as u32,
        (_, true) => bits as u8 as u32,
    }
}

/// The four 2-bit codes of a row of the mask, X first.
fn codes_of_row(mask: u32, row: u32) -> [u32; 4] {
    let codes = mask >> (8 * row);
    [codes & 3, codes >> 2 & 3, codes >> 4 & 3, codes >> 6 & 3]
}

impl Cycle {
    /// Whether UNPACK is accepted.
    pub fn is_legal(&self) -> bool {
        self.wl != 0
    }

    /// Whether there are writes that fill.
    pub fn has_fills(&self) -> bool {
        self.wl > self.cl
    }

    /// Whether write `i` fills.
    pub fn is_fill(&self, i: u32) -> bool {
        self.has_fills() && i % self.wl >= self.cl
    }

    /// The vectors that the first `writes` writes take from the payload.
    pub fn vectors(&self, writes: u32) -> u32 {
        if self.has_fills() {
            self.cl * (writes / self.wl) + (writes % self.wl).min(self.cl)
        } else {
            writes
        }
    }

    /// The writes made with the first `vectors` vectors, fills after the last of them too. There
    /// is no end of them with CL 0.
    pub fn writes(&self, vectors: u32) -> u32 {
        if !self.has_fills() {
            return vectors;
        }
        match self.cl {
            0 => u32::MAX,
            cl => vectors / cl * self.wl + vectors % cl,
        }
    }

    /// How many quadwords after the first one write `i` goes.
    pub fn position(&self, i: u32) -> u32 {
        if self.has_fills() {
            i
        } else {
            i / self.wl * self.cl + i % self.wl
        }
    }

    /// The row of the mask that write `i` reads.
    pub fn mask_row(&self, i: u32) -> u32 {
        (i % self.wl).min(3)
    }
}

impl Window {
    /// The fields of vector `number`, which lies in the window.
    #[inline(always)]
    pub fn vector(&self, number: u32) -> [u32; 4] {
        let start = number * self.format.vector_bits() + 96 - 32 * self.taken;
        self.format.fields(self.bits >> start, self.unsigned)
    }
}

impl Unpack {
    /// Whether address and count are in range.
    pub fn in_range(&self) -> bool {
        self.address < ADDRESSES && (1..=MOST_NUM).contains(&self.count)
    }

    /// All words of the payload; none with CL 0.
    pub fn all_words(&self, cycle: Cycle) -> u32 {
        self.format.words_of(cycle.vectors(self.count))
    }

    /// The first vector and the one after the last that are whole with the word
    /// that comes with `due` still due.
    pub fn made_whole(&self, cycle: Cycle, due: u32) -> (u32, u32) {
        let all = cycle.vectors(self.count);
        let taken = self.all_words(cycle) - due;
        let whole = |words| self.format.vectors_in(words).min(all);
        (whole(taken), whole(taken + 1))
    }

    /// The writes made with that word, in the same form.
    pub fn written(&self, cycle: Cycle, due: u32) -> (u32, u32) {
        let (first, end) = self.made_whole(cycle, due);
        let made = |vectors| cycle.writes(vectors).min(self.count);
        (made(first), made(end))
    }

    /// Where write `i` goes, before the memory's end is looked at.
    pub fn position(&self, cycle: Cycle, i: u32) -> u32 {
        self.address + cycle.position(i)
    }

    /// The MODE that acts on vectors of this format.
    pub fn mode(&self, registers: &Registers) -> u32 {
        if self.format.is_five_bits() {
            0
        } else {
            registers.mode
        }
    }

    /// The four mask codes of write `i`, X first.
    pub fn codes(&self, registers: &Registers, i: u32) -> [u32; 4] {
        if self.masked {
            codes_of_row(registers.mask, registers.cycle().mask_row(i))
        } else {
            [0; 4]
        }
    }

    /// What the vectors lie in that are whole with the word that comes with `due` still due.
    pub fn window(&self, cycle: Cycle, due: u32, word: u32) -> Window {
        let [oldest, older, last] = self.held;
        Window {
            format: self.format,
            unsigned: self.unsigned,
            bits: oldest as u128
                | (older as u128) << 32
                | (last as u128) << 64
                | (word as u128) << 96,
            taken: self.all_words(cycle) - due,
        }
    }

    /// Takes a payload word and writes the vectors that are now whole, with the fills after each.
    pub fn take_word(
        &mut self,
        model: Model,
        registers: &mut Registers,
        due: u32,
        word: u32,
        data: &mut [u32],
    ) {
        let cycle = registers.cycle();
        let (first, end) = self.written(cycle, due);
        let window = self.window(cycle, due, word);
        let mode = self.mode(registers);
        let mut fields = [0; 4];
        for i in first..end {
            let fill = cycle.is_fill(i);
            if !fill {
                fields = window.vector(cycle.vectors(i));
            }
            let mode = if fill { 0 } else { mode };
            self.write(model, registers, i, fields, mode, data);
        }
        let [_, older, last] = self.held;
        self.held = [older, last, word];
    }

    /// Makes all writes where there is no payload.
    pub fn fill_all(&self, model: Model, registers: &mut Registers, data: &mut [u32]) {
        for i in 0..self.count {
            self.write(model, registers, i, [0; 4], 0, data);
        }
    }

    /// Makes write `i` with these fields under a MODE, which is 0 for a fill.
    #[inline(always)]
    fn write(
        &self,
        model: Model,
        registers: &mut Registers,
        i: u32,
        fields: [u32; 4],
        mode: u32,
        data: &mut [u32],
    ) {
        let cycle = registers.cycle();
        let at = 4 * (self.position(cycle, i) % model.sizes().quadwords) as usize;
        let quadword = &mut data[at..at + 4];
        if mode == 0 && !self.masked {
            quadword.copy_from_slice(&fields);
            return;
        }
        let codes = self.codes(registers, i);
        let col = registers.col[cycle.mask_row(i) as usize];
        for field in 0..4 {
            let row = &mut registers.row[field];
            let sum = fields[field].wrapping_add(*row);
            quadword[field] = match codes[field] {
                0 if mode == 0 => fields[field],
                0 => sum,
                1 => *row,
                2 => col,
                _ => quadword[field],
            };
            if mode == 2 && codes[field] == 0 {
                *row = sum;
            }
        }
    }
}

#[cfg(test)]
mod tests {
    use super::*;

    /// Document 02: of every WL writes the first CL take a vector.
    #[test]
    fn vectors_and_writes_of_a_cycle() {
        for cl in 0..=9 {
            for wl in 1..=12 {
                let cycle = Cycle { cl, wl };
                let takes = |i: &u32| wl <= cl || i % wl < cl;
                for writes in 0..=256 {
                    let vectors = (0..writes).filter(takes).count() as u32;
                    assert_eq!(cycle.vectors(writes), vectors);
                    assert_eq!(cycle.is_fill(writes), !takes(&writes));
                    // All of them are made with those vectors, the next only if it fills.
                    let made = cycle.writes(vectors);
                    assert!(made >= writes && (made > writes) == cycle.is_fill(writes));
                }
            }
        }
    }

    #[test]
    fn payload_of_document_02() {
        let vectors = |cl, wl, writes| Cycle { cl, wl }.vectors(writes);
        assert_eq!(vectors(2, 3, 4), 3);
        assert_eq!(vectors(2, 3, 256), 171);
        assert_eq!(vectors(254, 255, 256), 255);
        assert_eq!(vectors(1, 255, 256), 2);
        assert_eq!(vectors(0, 255, 256), 0);
        assert_eq!(vectors(4, 2, 4), 4);
    }
}
