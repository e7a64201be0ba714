//! Test sheets: the chain built from one, its steps and its plain meaning.

use crate::log::Entry;
use crate::memory;
use crate::refusals;
use crate::run_counts::RunCounts;
use crate::sheet_tree;

/// The longest sheet in bytes.
pub const MOST_SHEET: usize = 131_072;
pub const MARK: [u8; 2] = [0x9E, 0x51];
pub const HEADER: usize = 6;

/// The memories that sheets are for, VIF1's, whatever channel a state holds.
pub const QUADWORDS: u32 = memory::VIF1.quadwords;
pub const INSTRUCTIONS: u32 = memory::VIF1.instructions;
pub const DATA_WORDS: usize = memory::VIF1.data_words();
pub const CODE_BYTES: usize = memory::VIF1.code_bytes();

const CNT_TAG: u32 = 0x1000_0000;
const END_TAG: u32 = 0x7000_0000;
const NOP: u32 = 0;
const STCYCL_1_1: u32 = 0x0100_0101;
const STMOD_0: u32 = 0x0500_0000;
const UNPACK_V4_32: u32 = 0x6C00_0000;
const MPG: u32 = 0x4A00_0000;
const DIRECT: u32 = 0x5000_0000;
const MSCAL: u32 = 0x1400_0000;
const ENTRY_START: u64 = 256;
/// The ID of a record's tag.
const CNT: usize = 1;
/// The paths of GS entries and start entries.
const PATH_GS: u64 = 2;
const PATH_START: u64 = 0;

#[derive(Clone, Copy, PartialEq, Eq, Debug)]
pub enum Kind {
    Data,
    Code,
    Gs,
    Start,
}

#[derive(Clone, Copy, PartialEq, Eq, Debug)]
pub struct Record<'a> {
    pub kind: Kind,
    pub count: u32,
    pub address: u32,
    pub body: &'a [u8],
}

/// A refusal: its number and the record's offset, 0 for 46, 47 and 49, the sheet's length where a
/// group lacks records.
pub type Refusal = (u32, usize);

impl Kind {
    pub fn from_number(number: u8) -> Option<Kind> {
        match number {
            1 => Some(Kind::Data),
            2 => Some(Kind::Code),
            3 => Some(Kind::Gs),
            4 => Some(Kind::Start),
            _ => None,
        }
    }

    pub fn allows_count(self, count: u8) -> bool {
        match self {
            Kind::Data | Kind::Code | Kind::Gs => count >= 1,
            Kind::Start => count == 0,
        }
    }

    pub fn allows_address(self, address: u32) -> bool {
        match self {
            Kind::Data => address < QUADWORDS,
            Kind::Code | Kind::Start => address < INSTRUCTIONS,
            Kind::Gs => address == 0,
        }
    }

    pub fn body_length(self, count: u8) -> usize {
        match self {
            Kind::Data | Kind::Gs => 16 * count as usize,
            Kind::Code => 8 * count as usize,
            Kind::Start => 0,
        }
    }
}

impl Record<'_> {
    /// The quadwords of the chain, the tag included.
    pub fn quadwords(&self) -> u32 {
        let n = self.count;
        match self.kind {
            Kind::Data => 2 + n,
            Kind::Code => 2 + n.div_ceil(2),
            Kind::Gs => 3 + n,
            Kind::Start => 2,
        }
    }

    fn steps(&self) -> u64 {
        let n = self.count as u64;
        match self.kind {
            Kind::Data => 5 + 4 * n,
            Kind::Code => 5 + 4 * n.div_ceil(2),
            Kind::Gs => 6 + n,
            Kind::Start => 5,
        }
    }

    /// The words that VIF1 takes one by one, and the NOPs among them. A body is payload.
    fn words_and_nops(&self) -> (u64, u64) {
        let n = self.count as u64;
        match self.kind {
            Kind::Data => (4 + 4 * n, 1),
            Kind::Code => (4 + 4 * n.div_ceil(2), 3 + 2 * (n % 2)),
            Kind::Gs | Kind::Start => (4, 3),
        }
    }

    /// The log entries of the record.
    fn entries(&self) -> u64 {
        match self.kind {
            Kind::Data | Kind::Code => 0,
            Kind::Gs => self.count as u64,
            Kind::Start => 1,
        }
    }

    /// The four codes after the tag.
    fn codes(&self) -> [u32; 4] {
        let num_and_imm = self.count << 16 | self.address;
        match self.kind {
            Kind::Data => [NOP, STCYCL_1_1, STMOD_0, UNPACK_V4_32 | num_and_imm],
            Kind::Code => [NOP, NOP, NOP, MPG | num_and_imm],
            Kind::Gs => [NOP, NOP, NOP, DIRECT | (self.count + 1)],
            Kind::Start => [NOP, NOP, NOP, MSCAL | self.address],
        }
    }

    /// Writes the record's part of the chain at the head of the bytes; hands back the rest.
    fn write<'a>(&self, chain: &'a mut [u8]) -> &'a mut [u8] {
        let (part, rest) = chain.split_at_mut(16 * self.quadwords() as usize);
        let mut part = put(part, [CNT_TAG | (self.quadwords() - 1), 0, 0, 0]);
        part = put(part, self.codes());
        if self.kind == Kind::Gs {
            // EOP, NREG 1, descriptor E.
            part = put(part, [0x8000 | self.count, 0x1000_0000, 0xE, 0]);
        }
        let (body, filling) = part.split_at_mut(self.body.len());
        body.copy_from_slice(self.body);
        // NOPs to a whole quadword.
        filling.fill(0);
        rest
    }
}

/// Writes a quadword at the head of the bytes; hands back the rest.
fn put(chain: &mut [u8], words: [u32; 4]) -> &mut [u8] {
    let (quadword, rest) = chain.split_at_mut(16);
    for (bytes, word) in quadword.chunks_mut(4).zip(words) {
        bytes.copy_from_slice(&word.to_le_bytes());
    }
    rest
}

/// The bytes of a record, whatever they are.
pub fn record_bytes(kind: u8, count: u8, address: u16, body: &[u8]) -> Vec<u8> {
    let [low, high] = address.to_le_bytes();
    [&[MARK[0], MARK[1], kind, count, low, high], body].concat()
}

/// All records that a sheet stands for, its groups expanded, or the refusal.
pub fn records(sheet: &[u8]) -> Result<Vec<Record<'_>>, Refusal> {
    sheet_tree::read(sheet)?.expanded()
}

/// Whether a sheet is valid in the first edition.
pub fn is_first_edition(sheet: &[u8]) -> bool {
    sheet_tree::read(sheet).is_ok_and(|tree| !tree.is_second)
}

/// The record of the first edition at the head of the bytes, or the number of its refusal.
pub fn first_record(bytes: &[u8]) -> Result<Record<'_>, u32> {
    if bytes.len() < HEADER {
        return Err(refusals::CUT);
    }
    let (header, rest) = bytes.split_at(HEADER);
    if header[..2] != MARK {
        return Err(refusals::MARK);
    }
    let kind = Kind::from_number(header[2]).ok_or(refusals::KIND)?;
    let count = header[3];
    if !kind.allows_count(count) {
        return Err(refusals::COUNT);
    }
    let address = u16::from_le_bytes([header[4], header[5]]) as u32;
    if !kind.allows_address(address) {
        return Err(refusals::ADDRESS);
    }
    let body = rest.get(..kind.body_length(count)).ok_or(refusals::CUT)?;
    if kind == Kind::Gs && !body.chunks(16).all(pad_is_zero) {
        return Err(refusals::PAD);
    }
    Ok(Record {
        kind,
        count: count as u32,
        address,
        body,
    })
}

/// Whether the seven bytes after value and register are zero.
fn pad_is_zero(entry: &[u8]) -> bool {
    entry[9..16].iter().all(|&byte| byte == 0)
}

/// Builds the chain; hands back its length in bytes. The output is untouched by a
/// refusal, and beyond the chain.
pub fn build(sheet: &[u8], output: &mut [u8]) -> Result<usize, Refusal> {
    let records = records(sheet)?;
    let length = length(&records);
    let mut rest = output.get_mut(..length).ok_or((refusals::OUTPUT, 0))?;
    for record in &records {
        rest = record.write(rest);
    }
    put(rest, [END_TAG, 0, 0, 0]);
    Ok(length)
}

/// The chain's length in bytes, the end tag included.
fn length(records: &[Record]) -> usize {
    let quadwords: u32 = records.iter().map(Record::quadwords).sum();
    16 * (quadwords as usize + 1)
}

/// The chain's length in bytes.
pub fn chain_length(sheet: &[u8]) -> Result<usize, Refusal> {
    Ok(length(&records(sheet)?))
}

/// What the host gets: the chain's length, or the refusal without its offset.
pub fn exported_number(sheet: &[u8], output: &mut [u8]) -> usize {
    match build(sheet, output) {
        Ok(length) => length,
        Err((refusal, _)) => refusal as usize,
    }
}

/// The steps of the chain: the sum over the records and the end tag.
pub fn steps(sheet: &[u8]) -> Result<u64, Refusal> {
    let all: u64 = records(sheet)?.iter().map(Record::steps).sum();
    Ok(all + 1)
}

/// What a run of the whole chain counts.
pub fn counts(sheet: &[u8]) -> Result<RunCounts, Refusal> {
    let mut counts = RunCounts {
        steps: steps(sheet)?,
        ..RunCounts::default()
    };
    for record in records(sheet)? {
        let (words, nops) = record.words_and_nops();
        counts.packets += (record.kind == Kind::Gs) as u64;
        counts.words += words;
        counts.nops += nops;
        counts.qwc[CNT] += record.quadwords() as u64 - 1;
    }
    Ok(counts)
}

/// The packets that the chain has closed after so many steps, with so many log entries written:
/// the GS records that end within both.
pub fn packets(sheet: &[u8], most_steps: u64, most_entries: u64) -> Result<u64, Refusal> {
    let (mut steps, mut entries, mut packets) = (0, 0, 0);
    for record in records(sheet)? {
        steps += record.steps();
        entries += record.entries();
        let ended = steps <= most_steps && entries <= most_entries;
        packets += (record.kind == Kind::Gs && ended) as u64;
    }
    Ok(packets)
}

/// The log entries of the sheet.
pub fn entries(sheet: &[u8]) -> Result<u64, Refusal> {
    Ok(records(sheet)?.iter().map(Record::entries).sum())
}

/// Feeds the records to a plain machine: the data memory by words, the code memory by
/// bytes, and the log entries. A refused sheet changes nothing.
pub fn meaning(
    sheet: &[u8],
    data: &mut [u32],
    code: &mut [u8],
    entries: &mut Vec<Entry>,
) -> Result<(), Refusal> {
    for record in records(sheet)? {
        match record.kind {
            Kind::Data => record.put_vectors(data),
            Kind::Code => record.put_instructions(code),
            Kind::Gs => entries.extend(record.body.chunks(16).map(gs_entry)),
            Kind::Start => entries.push(Entry {
                path: PATH_START,
                register: ENTRY_START,
                value: record.address as u64,
            }),
        }
    }
    Ok(())
}

impl Record<'_> {
    fn put_vectors(&self, data: &mut [u32]) {
        for (j, vector) in self.body.chunks(16).enumerate() {
            let to = 4 * ((self.address as usize + j) % QUADWORDS as usize);
            for (field, bytes) in vector.chunks(4).enumerate() {
                data[to + field] = u32::from_le_bytes(bytes.try_into().unwrap());
            }
        }
    }

    fn put_instructions(&self, code: &mut [u8]) {
        for (j, instruction) in self.body.chunks(8).enumerate() {
            let to = 8 * ((self.address as usize + j) % INSTRUCTIONS as usize);
            code[to..to + 8].copy_from_slice(instruction);
        }
    }
}

/// The log entry in 16 bytes of a GS record.
fn gs_entry(bytes: &[u8]) -> Entry {
    Entry {
        path: PATH_GS,
        register: bytes[8] as u64,
        value: u64::from_le_bytes(bytes[..8].try_into().unwrap()),
    }
}

#[cfg(test)]
mod tests {
    use super::record_bytes as record;
    use super::*;
    use crate::chain::{self, Memories, State, Stop};
    use crate::log;
    use crate::memory::MOST_MAIN;
    use crate::random::Random;

    /// The chain as words.
    fn built(sheet: &[u8]) -> Vec<u32> {
        let mut output = vec![0xAA; 4_096];
        let length = build(sheet, &mut output).unwrap();
        assert!(output[length..].iter().all(|&byte| byte == 0xAA));
        output[..length]
            .chunks(4)
            .map(|bytes| u32::from_le_bytes(bytes.try_into().unwrap()))
            .collect()
    }

    fn entry(path: u64, register: u64, value: u64) -> Entry {
        Entry {
            path,
            register,
            value,
        }
    }

    /// Memories and log entries, from one fill.
    fn machine() -> (Vec<u32>, Vec<u8>, Vec<Entry>) {
        let data = (0..DATA_WORDS as u32).map(|i| i * 77).collect();
        let code = (0..CODE_BYTES).map(|i| i as u8).collect();
        (data, code, vec![entry(9, 9, 9)])
    }

    /// Builds and runs the chain; what it leaves is what the sheet means.
    fn run_and_compare(sheet: &[u8]) -> (Vec<u32>, Vec<u8>, Vec<Entry>) {
        let mut main = vec![0; MOST_MAIN];
        build(sheet, &mut main).unwrap();
        let (mut data, mut code, mut entries) = machine();
        let mut log = vec![9; log::MOST_NUMBERS];
        let mut state = State::reset();
        state.used = 1;
        assert_eq!(chain::start(&mut state, 1, 0, false), Ok(()));
        let mut memories = Memories {
            main: &main,
            data: &mut data,
            code: &mut code,
            log: &mut log,
        };
        let done = chain::run(&mut state, &mut memories, u64::MAX, |_, _, _| {});
        let whole = Stop {
            answer: chain::DONE,
            counts: counts(sheet).unwrap(),
        };
        assert_eq!(done, whole);
        let (mut plain_data, mut plain_code, _) = machine();
        meaning(sheet, &mut plain_data, &mut plain_code, &mut entries).unwrap();
        let mut meant = vec![9; log::numbers(state.used)];
        assert_eq!(log::append_all(&mut meant, &mut 0, &entries), Ok(()));
        assert!(data == plain_data && code == plain_code);
        assert_eq!(log[..log::numbers(state.used)], meant);
        (data, code, entries)
    }

    #[test]
    fn empty_sheet() {
        let mut output = [0xAA; 17];
        assert_eq!(build(&[], &mut output), Ok(16));
        assert_eq!(output[..4], [0, 0, 0, 0x70]);
        assert_eq!((&output[4..16], output[16]), (&[0; 12][..], 0xAA));
        assert_eq!(steps(&[]), Ok(1));
        assert_eq!(exported_number(&[], &mut output), 16);
        run_and_compare(&[]);
    }

    #[test]
    fn start_at_5() {
        let sheet = [0x9E, 0x51, 0x04, 0x00, 0x05, 0x00];
        assert_eq!(
            built(&sheet),
            [
                0x1000_0001,
                0,
                0,
                0,
                0,
                0,
                0,
                0x1400_0005,
                0x7000_0000,
                0,
                0,
                0
            ]
        );
        assert_eq!(steps(&sheet), Ok(6));
        assert_eq!(run_and_compare(&sheet).2[1..], [entry(0, 256, 5)]);
    }

    #[test]
    fn data_round_the_end() {
        let body: Vec<u8> = (1..=32).collect();
        let sheet = record(1, 2, 1_023, &body);
        assert_eq!(built(&sheet).len(), 20);
        assert_eq!(steps(&sheet), Ok(14));
        let (data, ..) = run_and_compare(&sheet);
        assert_eq!(data[4_092], 0x0403_0201);
        assert_eq!(data[0], 0x1413_1211);
        assert_eq!(data[4], 4 * 77);
    }

    #[test]
    fn one_gs_write() {
        let body = [1, 2, 3, 4, 5, 6, 7, 8, 0x47, 0, 0, 0, 0, 0, 0, 0];
        let sheet = record(3, 1, 0, &body);
        let words = built(&sheet);
        assert_eq!(words[..4], [0x1000_0003, 0, 0, 0]);
        assert_eq!(words[4..8], [0, 0, 0, 0x5000_0002]);
        assert_eq!(words[8..12], [0x0000_8001, 0x1000_0000, 0x0000_000E, 0]);
        assert_eq!(steps(&sheet), Ok(8));
        let (.., entries) = run_and_compare(&sheet);
        assert_eq!(entries[1..], [entry(2, 0x47, 0x0807_0605_0403_0201)]);
    }

    #[test]
    fn code_round_the_end() {
        let body: Vec<u8> = (1..=24).collect();
        let sheet = record(2, 3, 2_047, &body);
        let words = built(&sheet);
        assert_eq!(words.len(), 4 * 5);
        assert_eq!(words[7], 0x4A03_07FF);
        assert_eq!(words[14..16], [0, 0]);
        assert_eq!(steps(&sheet), Ok(14));
        let (_, code, _) = run_and_compare(&sheet);
        assert_eq!(code[16_376..], body[..8]);
        assert_eq!(code[..16], body[8..]);
    }

    #[test]
    fn refusals() {
        let refused = |sheet: &[u8]| {
            let mut output = [0xAA; 64];
            let refusal = build(sheet, &mut output).unwrap_err();
            assert_eq!(exported_number(sheet, &mut output), refusal.0 as usize);
            assert_eq!(output, [0xAA; 64]);
            refusal
        };
        let start = record(4, 0, 0, &[]);
        let after = |bad: &[u8]| [&start, bad].concat();
        assert_eq!(refused(&vec![0; 131_073]), (46, 0));
        assert_eq!(refused(&vec![0; 131_072]), (40, 0));
        assert_eq!(refused(&after(&[0; 5])), (44, 6));
        assert_eq!(refused(&after(&[0x9E, 0x52, 9, 0, 0, 0])), (40, 6));
        assert_eq!(refused(&after(&[0x51, 0x9E, 1, 1, 0, 0])), (40, 6));
        assert_eq!(refused(&after(&record(0, 0, 9_999, &[]))), (41, 6));
        assert_eq!(refused(&after(&record(5, 0, 9_999, &[]))), (41, 6));
        assert_eq!(refused(&record(5, 0, 9_999, &[])), (41, 0));
        for kind in 1..4 {
            assert_eq!(refused(&after(&record(kind, 0, 9_999, &[]))), (42, 6));
        }
        assert_eq!(refused(&record(4, 1, 9_999, &[])), (42, 0));
        assert_eq!(refused(&record(1, 1, 1_024, &[])), (43, 0));
        assert_eq!(refused(&record(2, 1, 2_048, &[])), (43, 0));
        assert_eq!(refused(&record(3, 1, 1, &[])), (43, 0));
        assert_eq!(refused(&record(4, 0, 2_048, &[])), (43, 0));
        assert_eq!(refused(&record(1, 2, 1_023, &[0; 31])), (44, 0));
        assert_eq!(refused(&record(2, 2, 2_047, &[0; 15])), (44, 0));
        assert_eq!(refused(&record(3, 1, 0, &[1; 15])), (44, 0));
        for at in 9..16 {
            let mut body = [0; 32];
            body[16 + at] = 1;
            assert_eq!(refused(&after(&record(3, 2, 0, &body))), (45, 6));
        }
        assert_eq!(refused(&after(&start)), (47, 0));
        assert_eq!(build(&[], &mut [0; 15]), Err((47, 0)));
        assert_eq!(build(&start, &mut [0; 48]), Ok(48));
        assert_eq!(build(&start, &mut [0; 47]), Err((47, 0)));
        let mut entries = Vec::new();
        let bad = after(&[0]);
        assert_eq!(meaning(&bad, &mut [], &mut [], &mut entries), Err((44, 6)));
        assert_eq!((entries.len(), steps(&bad)), (0, Err((44, 6))));
    }

    #[test]
    fn sheets_by_chance() {
        let mut random = Random::new(1);
        for _ in 0..60 {
            let mut sheet = Vec::new();
            for _ in 0..random.below(12) {
                let n = random.pick(&[1, 2, 3, 7, 254, 255]);
                let mut bytes =
                    |count: usize| -> Vec<u8> { (0..count).map(|_| random.word() as u8).collect() };
                let added = match bytes(1)[0] % 4 {
                    0 => record(1, n, u16::from(bytes(1)[0]) + 768, &bytes(16 * n as usize)),
                    1 => record(2, n, u16::from(bytes(1)[0]) + 1_792, &bytes(8 * n as usize)),
                    2 => {
                        let mut body = bytes(16 * n as usize);
                        for entry in body.chunks_mut(16) {
                            entry[9..].fill(0);
                        }
                        record(3, n, 0, &body)
                    }
                    _ => record(4, 0, u16::from(bytes(1)[0]) * 8, &[]),
                };
                sheet.extend(added);
            }
            run_and_compare(&sheet);
        }
    }
}
