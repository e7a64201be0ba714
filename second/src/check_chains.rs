//! Chains as a supplier may write them: what a sheet's records do, in fewer tags, words and quadwords.

use crate::chain::{CALL, CNT, END, NEXT, REF, REFE, REFS, RET};
use crate::random::Random;
use crate::sheet::{Kind, Record};
use crate::vif_generate::code_word;

pub type Quad = [u32; 4];

const STCYCL: u32 = 0x01;
const STMOD: u32 = 0x05;
const MSCAL: u32 = 0x14;
const MPG: u32 = 0x4A;
const DIRECT: u32 = 0x50;
const DIRECTHL: u32 = 0x51;
/// UNPACK's formats, and the bit of IMM that extends with zeros.
const S_32: u32 = 0x60;
const V2_32: u32 = 0x64;
const V3_32: u32 = 0x68;
const V4_32: u32 = 0x6C;
const V4_16: u32 = 0x6D;
const V4_8: u32 = 0x6E;
const USN: u32 = 1 << 14;
/// The register that IMAGE data goes to.
const IMAGE_REGISTER: u8 = 0x54;
/// The most writes of an UNPACK and the most instructions of an MPG.
const MOST: usize = 256;

/// The words of a payload, with NOPs only where a place is wanted.
#[derive(Default)]
pub struct Stream {
    pub words: Vec<u32>,
    /// CL and WL, where they are set.
    cycle: Option<(u32, u32)>,
}

impl Stream {
    /// What the records do. Neighbours are often joined.
    pub fn of(random: &mut Random, records: &[Record]) -> Stream {
        let mut stream = Stream::default();
        if random.percent(30) {
            stream.words.push(code_word(STMOD, 0, 0));
        }
        let mut rest = records;
        while let Some(first) = rest.first() {
            let joins = random.percent(75);
            let count = if joins { joined(rest) } else { 1 };
            let body: Vec<u8> = rest[..count].iter().flat_map(|r| r.body).copied().collect();
            match first.kind {
                Kind::Data => stream.data(random, first.address, &body),
                Kind::Code => stream.code(first.address, &body),
                Kind::Gs => stream.gs(random, &body),
                Kind::Start => stream.words.push(code_word(MSCAL, 0, first.address)),
            }
            rest = &rest[count..];
        }
        stream
    }

    /// NOPs until the next word has one of these numbers in its quadword.
    fn place(&mut self, numbers: &[usize]) {
        while !numbers.contains(&(self.words.len() % 4)) {
            self.words.push(0);
        }
    }

    fn set_cycle(&mut self, cl: u32, wl: u32) {
        if self.cycle != Some((cl, wl)) {
            self.words.push(code_word(STCYCL, 0, wl << 8 | cl));
            self.cycle = Some((cl, wl));
        }
    }

    /// Vectors to data memory, in the shortest format that has them, or filled.
    fn data(&mut self, random: &mut Random, address: u32, body: &[u8]) {
        let vectors: Vec<Quad> = body.chunks(16).map(quad_of).collect();
        let (command, usn, payload) = match random.percent(85) {
            true => shortest(&vectors),
            false => (V4_32, 0, vectors.concat()),
        };
        let n = vectors.len() as u32;
        let all_same = vectors.iter().all(|vector| *vector == vectors[0]);
        if all_same && (2..256).contains(&n) && random.percent(70) {
            // One vector of the payload, and the others are filled.
            self.set_cycle(1, n);
            let words = payload.len().div_ceil(vectors.len());
            self.words.push(code_word(command, n, usn | address));
            self.words.extend(&payload[..words]);
            return;
        }
        let equal = random.pick(&[1, 1, 1, 4, 255]);
        self.set_cycle(equal, equal);
        self.words.push(code_word(command, n & 255, usn | address));
        self.words.extend(payload);
    }

    /// Instructions to code memory; the first payload word is word 0 or 2.
    fn code(&mut self, address: u32, body: &[u8]) {
        self.place(&[1, 3]);
        let n = body.len() as u32 / 8;
        self.words.push(code_word(MPG, n & 255, address));
        self.words.extend(body.chunks(4).map(word_of));
    }

    /// A packet to path 2; the payload is whole quadwords.
    fn gs(&mut self, random: &mut Random, body: &[u8]) {
        let quads = match random.percent(80) {
            true => shortest_packet(body),
            false => packed(body),
        };
        self.place(&[3]);
        let command = random.pick(&[DIRECT, DIRECT, DIRECTHL]);
        self.words.push(code_word(command, 0, quads.len() as u32));
        self.words.extend(quads.concat());
    }

    /// The payload as quadwords, filled up with NOPs.
    pub fn quads(mut self) -> Vec<Quad> {
        self.place(&[0]);
        self.words
            .chunks(4)
            .map(|w| [w[0], w[1], w[2], w[3]])
            .collect()
    }
}

fn word_of(bytes: &[u8]) -> u32 {
    u32::from_le_bytes(bytes.try_into().unwrap())
}

fn quad_of(bytes: &[u8]) -> Quad {
    std::array::from_fn(|i| word_of(&bytes[4 * i..4 * i + 4]))
}

/// How many of the first records one code can do: neighbours in memory, or entries of one packet.
fn joined(records: &[Record]) -> usize {
    let first = &records[0];
    let (mut count, mut sum) = (1, first.count);
    for record in &records[1..] {
        let follows = match first.kind {
            Kind::Data | Kind::Code => record.address == first.address + sum,
            Kind::Gs => true,
            Kind::Start => false,
        };
        if record.kind != first.kind || !follows || (sum + record.count) as usize > MOST {
            break;
        }
        sum += record.count;
        count += 1;
    }
    count
}

/// The shortest format of UNPACK that gives these vectors, USN, and the payload.
fn shortest(vectors: &[Quad]) -> (u32, u32, Vec<u32>) {
    let all = |holds: fn(&Quad) -> bool| vectors.iter().all(holds);
    let part = |fields: usize| vectors.iter().flat_map(|v| v[..fields].to_vec()).collect();
    if all(|v| v.iter().all(|&field| field == v[0])) {
        return (S_32, 0, part(1));
    }
    if all(|v| v.iter().all(|&field| field < 256)) {
        let bytes = vectors.iter().map(|v| joined_fields(v, 8));
        return (V4_8, USN, bytes.map(|low| low as u32).collect());
    }
    if all(|v| v.iter().all(|&field| field as i32 == field as i16 as i32)) {
        let halves = vectors.iter().map(|v| joined_fields(v, 16));
        let words = halves.flat_map(|both| [both as u32, (both >> 32) as u32]);
        return (V4_16, 0, words.collect());
    }
    if all(|v| v[2] == v[0] && v[3] == v[1]) {
        return (V2_32, 0, part(2));
    }
    if all(|v| v[3] == 0) {
        return (V3_32, 0, part(3));
    }
    (V4_32, 0, part(4))
}

/// The low bits of four fields, the first lowest.
fn joined_fields(vector: &Quad, bits: u32) -> u64 {
    let low = |field: u32| field as u64 & ((1 << bits) - 1);
    let fields = vector.iter().rev();
    fields.fold(0, |sum, &field| sum << bits | low(field))
}

/// The shortest packet that gives the entries of GS records.
fn shortest_packet(body: &[u8]) -> Vec<Quad> {
    let values: Vec<[u32; 2]> = body
        .chunks(16)
        .map(|entry| [word_of(&entry[..4]), word_of(&entry[4..8])])
        .collect();
    let registers: Vec<u8> = body.chunks(16).map(|entry| entry[8]).collect();
    let same = registers.iter().all(|&register| register == registers[0]);
    let n = values.len();
    if same && registers[0] == IMAGE_REGISTER && n % 2 == 0 {
        let tag = [0x8000 | (n as u32 / 2), 2 << 26, 0, 0];
        return with_values(tag, &values);
    }
    let listed = registers
        .iter()
        .all(|register| matches!(register, 0..=10 | 12 | 13));
    if listed && same {
        let tag = [0x8000 | n as u32, 1 << 28 | 1 << 26, registers[0] as u32, 0];
        return with_values(tag, &values);
    }
    if listed && n <= 16 {
        let descriptors = registers
            .iter()
            .rev()
            .fold(0, |sum, &r| sum << 4 | r as u64);
        let nreg = n as u32 % 16;
        let tag = [
            0x8001,
            nreg << 28 | 1 << 26,
            descriptors as u32,
            (descriptors >> 32) as u32,
        ];
        return with_values(tag, &values);
    }
    packed(body)
}

/// Two values a quadword; the half that is left over is not read.
fn with_values(tag: Quad, values: &[[u32; 2]]) -> Vec<Quad> {
    let pairs = values.chunks(2).map(|pair| {
        let last = pair.get(1).copied().unwrap_or([0xDEAD_BEEF; 2]);
        [pair[0][0], pair[0][1], last[0], last[1]]
    });
    [tag].into_iter().chain(pairs).collect()
}

/// As the builder writes them.
fn packed(body: &[u8]) -> Vec<Quad> {
    let n = body.len() as u32 / 16;
    let tag = [0x8000 | n, 0x1000_0000, 0xE, 0];
    [tag]
        .into_iter()
        .chain(body.chunks(16).map(quad_of))
        .collect()
}

fn tag(id: u32, qwc: usize, at: usize) -> Quad {
    [id << 28 | qwc as u32, 16 * at as u32, 0, 0]
}

/// A chain that is being laid out.
#[derive(Default)]
struct Layout {
    quads: Vec<Quad>,
    /// Payloads that lie elsewhere: where their tag is.
    elsewhere: Vec<(usize, Vec<Quad>)>,
    /// What calls lead to: where their tag is, and the payloads.
    called: Vec<(usize, Vec<Vec<Quad>>)>,
}

/// A chain that hands over this payload: cut into tags of all kinds.
pub fn laid_out(random: &mut Random, payload: &[Quad]) -> Vec<Quad> {
    let mut pieces = cut(random, payload).into_iter();
    let mut layout = Layout::default();
    while let Some(piece) = pieces.next() {
        if pieces.len() == 0 && random.percent(75) {
            layout.last(random, piece);
            return layout.finish(random);
        }
        match random.below(8) {
            0..=1 => layout.inline(CNT, piece),
            2 => layout.next(random, piece),
            3..=4 => layout.refer(random.pick(&[REF, REF, REFS]), piece),
            5..=6 => {
                let inside = random.below(3) as usize;
                let inside = { &mut pieces }.take(inside).collect();
                layout.call(piece, inside);
            }
            _ => {
                // A tag without payload, between.
                match random.pick(&[CNT, NEXT, REF, REFS]) {
                    NEXT => layout.next(random, Vec::new()),
                    id => layout.inline(id, Vec::new()),
                }
                layout.inline(CNT, piece);
            }
        }
    }
    layout.inline(random.pick(&[END, END, RET]), Vec::new());
    layout.finish(random)
}

/// The payload in one piece, in a few, or in quadwords.
fn cut(random: &mut Random, payload: &[Quad]) -> Vec<Vec<Quad>> {
    if payload.is_empty() {
        return Vec::new();
    }
    let most = random.pick(&[1, 2, 7, payload.len(), payload.len(), payload.len()]);
    let mut pieces = Vec::new();
    let mut rest = payload;
    while !rest.is_empty() {
        let take = random.within(most.div_ceil(2) as u64..=most as u64) as usize;
        let (piece, left) = rest.split_at(take.min(rest.len()));
        pieces.push(piece.to_vec());
        rest = left;
    }
    pieces
}

impl Layout {
    fn inline(&mut self, id: u32, payload: Vec<Quad>) {
        self.quads.push(tag(id, payload.len(), 0));
        self.quads.extend(payload);
    }

    /// A next over a few quadwords that are never read.
    fn next(&mut self, random: &mut Random, payload: Vec<Quad>) {
        let gap = random.below(3) as usize;
        let to = self.quads.len() + 1 + payload.len() + gap;
        self.quads.push(tag(NEXT, payload.len(), to));
        self.quads.extend(payload);
        self.quads.extend(vec![[u32::MAX; 4]; gap]);
    }

    fn refer(&mut self, id: u32, payload: Vec<Quad>) {
        self.elsewhere.push((self.quads.len(), payload));
        self.inline(id, Vec::new());
    }

    fn call(&mut self, payload: Vec<Quad>, inside: Vec<Vec<Quad>>) {
        self.called.push((self.quads.len(), inside));
        self.inline(CALL, payload);
    }

    /// The last payload, in the tag that ends the chain.
    fn last(&mut self, random: &mut Random, payload: Vec<Quad>) {
        match random.below(3) {
            0 => self.refer(REFE, payload),
            1 => self.inline(RET, payload),
            _ => self.inline(END, payload),
        }
    }

    /// Puts what lies elsewhere after the rest, in any order, and its address into the tags.
    fn finish(mut self, random: &mut Random) -> Vec<Quad> {
        for (from, mut inside) in std::mem::take(&mut self.called) {
            self.quads[from][1] = 16 * self.quads.len() as u32;
            let last = inside.pop().unwrap_or_default();
            inside.into_iter().for_each(|piece| self.inline(CNT, piece));
            self.inline(RET, last);
        }
        let mut elsewhere = std::mem::take(&mut self.elsewhere);
        while !elsewhere.is_empty() {
            let (from, payload) =
                elsewhere.swap_remove(random.below(elsewhere.len() as u64) as usize);
            self.quads[from][0] |= payload.len() as u32;
            self.quads[from][1] = 16 * self.quads.len() as u32;
            self.quads.extend(payload);
        }
        self.quads
    }
}

/// A chain that does what the records say.
pub fn supplied(random: &mut Random, records: &[Record]) -> Vec<Quad> {
    let payload = Stream::of(random, records).quads();
    laid_out(random, &payload)
}

/// A chain that does what the records say so many times, with one call for each time.
pub fn repeated(random: &mut Random, records: &[Record], times: usize) -> Vec<Quad> {
    let payload = Stream::of(random, records).quads();
    let mut quads: Vec<Quad> = (0..times).map(|_| tag(CALL, 0, times + 1)).collect();
    quads.push(tag(END, 0, 0));
    quads.push(tag(RET, payload.len(), 0));
    quads.extend(payload);
    quads
}

#[cfg(test)]
mod tests {
    use super::*;
    use crate::sheet::{self, record_bytes};

    fn stream(sheet: &[u8]) -> Vec<u32> {
        let records = sheet::records(sheet).unwrap();
        let mut shortest = Stream::of(&mut Random::new(0), &records).words;
        for seed in 1..200 {
            let words = Stream::of(&mut Random::new(seed), &records).words;
            if words.len() < shortest.len() {
                shortest = words;
            }
        }
        shortest
    }

    /// The shortest of many, written out by hand.
    #[test]
    fn short_streams() {
        let start = record_bytes(4, 0, 5, &[]);
        assert_eq!(stream(&start), [0x1400_0005]);
        let same = record_bytes(1, 3, 9, &[7, 0, 0, 0].repeat(12));
        assert_eq!(stream(&same), [0x0100_0301, 0x6003_0009, 7]);
        let bytes: Vec<u8> = (1..=8).flat_map(|byte| [byte, 0, 0, 0]).collect();
        let bytes = record_bytes(1, 2, 9, &bytes);
        let wanted = [0x0404_0000, 0x6E02_4009, 0x0403_0201, 0x0807_0605];
        assert_eq!(stream(&bytes)[1..], wanted[1..]);
        let entries = [[1, 0, 0, 0, 2, 0, 0, 0, 3], [4, 0, 0, 0, 5, 0, 0, 0, 3]];
        let entries = entries.map(|entry| [&entry[..], &[0; 7]].concat()).concat();
        let gs = record_bytes(3, 2, 0, &entries);
        let head = [0, 0, 0];
        let packet = [0x8002, 0x1400_0000, 3, 0, 1, 2, 4, 5];
        let code = stream(&gs)[3];
        assert!([0x5000_0002, 0x5100_0002].contains(&code));
        assert_eq!(stream(&gs), [&head[..], &[code], &packet].concat());
        let halves = record_bytes(2, 1, 7, &[1, 0, 0, 0, 2, 0, 0, 0]);
        assert_eq!(stream(&halves), [0, 0x4A01_0007, 1, 2]);
    }

    #[test]
    fn calls_for_repetitions() {
        let start = record_bytes(4, 0, 5, &[]);
        let records = sheet::records(&start).unwrap();
        let mut random = Random::new(1);
        let quads = loop {
            let quads = repeated(&mut random, &records, 2);
            if quads[4][0] == 0x1400_0005 {
                break quads;
            }
        };
        let wanted = [
            [0x5000_0000, 48, 0, 0],
            [0x5000_0000, 48, 0, 0],
            [0x7000_0000, 0, 0, 0],
            [0x6000_0001, 0, 0, 0],
            [0x1400_0005, 0, 0, 0],
        ];
        assert_eq!(quads, wanted);
    }
}
