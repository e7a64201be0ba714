//! Points about the check of chains, worked by hand.
//!
//! The fill is 0. So word i of data memory holds the low half of i x 9E3779B97F4A7C15h, quadword 0 the
//! words 0, 7F4A7C15h, FE94F82Ah, 7DDF743Fh; byte i of code memory holds 1 + 15h x i, instruction 0 the
//! bytes 1, 22, 43, 64, 85, 106, 127, 148; number i of the log is 2 + i x 9E3779B97F4A7C15h.

use crate::check_cases::{describe_place, Case};
use crate::group_sheets::{edition, group};
use crate::sheet::{record_bytes, CODE_BYTES, DATA_WORDS};
use crate::words::{put_number, put_word, WORD};

const END: u32 = 0x7000_0000;
const HELD_QUADWORD: [u32; 4] = [0, 0x7F4A_7C15, 0xFE94_F82A, 0x7DDF_743F];
const HELD_INSTRUCTION: [u8; 8] = [1, 22, 43, 64, 85, 106, 127, 148];

pub struct Point {
    pub name: &'static str,
    sheet: Vec<u8>,
    main: Vec<u32>,
    lengths: Lengths,
    allowance: u64,
    /// Kind, number, offset, entries used, steps, packets.
    gives: [u64; 6],
    /// VIF words, NOPs, and the sums of QWC by ID.
    words: u64,
    nops: u64,
    qwc: [u64; 8],
    /// Words of data memory, bytes of code memory and numbers of the log that the run changed.
    data: Vec<(usize, u32)>,
    code: Vec<(usize, u8)>,
    log: Vec<u64>,
    /// Whether it is among the stored cases.
    stored: bool,
}

#[derive(Clone, Copy)]
struct Lengths {
    main: u32,
    data: u32,
    code: u32,
    log: u32,
}

/// Everything of its right length, with room for three entries.
const RIGHT: Lengths = Lengths {
    main: 160,
    data: DATA_WORDS as u32,
    code: CODE_BYTES as u32,
    log: 9,
};

fn point(name: &'static str, sheet: &[Vec<u8>], main: &[u32], gives: [u64; 6]) -> Point {
    Point {
        name,
        sheet: sheet.concat(),
        main: main.to_vec(),
        lengths: RIGHT,
        allowance: 1_000,
        gives,
        words: 0,
        nops: 0,
        qwc: [0; 8],
        data: Vec::new(),
        code: Vec::new(),
        log: Vec::new(),
        stored: false,
    }
}

impl Point {
    /// With the numbers that the run wrote to the log.
    fn logs(self, log: &[u64]) -> Point {
        let log = log.to_vec();
        Point { log, ..self }
    }

    /// With VIF words, NOPs among them, and the sum of QWC of the tags with an ID.
    fn takes(self, words: u64, nops: u64, id: usize, qwc: u64) -> Point {
        let mut all = [0; 8];
        all[id] = qwc;
        Point {
            words,
            nops,
            qwc: all,
            ..self
        }
    }

    /// With the quadword that the run wrote.
    fn writes(mut self, quadword: usize, fields: [u32; 4]) -> Point {
        self.data.extend((4 * quadword..).zip(fields));
        self
    }

    /// With the instruction that the run wrote.
    fn uploads(mut self, instruction: usize, bytes: [u8; 8]) -> Point {
        self.code.extend((8 * instruction..).zip(bytes));
        self
    }

    fn allows(self, allowance: u64) -> Point {
        Point { allowance, ..self }
    }

    fn of_lengths(self, lengths: Lengths) -> Point {
        Point { lengths, ..self }
    }

    fn stored(self) -> Point {
        Point {
            stored: true,
            ..self
        }
    }
}

fn start(address: u16) -> Vec<u8> {
    record_bytes(4, 0, address, &[])
}

fn data(address: u16, vectors: &[[u32; 4]]) -> Vec<u8> {
    let words = vectors.iter().flatten();
    let body: Vec<u8> = words.flat_map(|word| word.to_le_bytes()).collect();
    record_bytes(1, vectors.len() as u8, address, &body)
}

fn code(address: u16, instructions: &[[u8; 8]]) -> Vec<u8> {
    record_bytes(2, instructions.len() as u8, address, &instructions.concat())
}

/// A GS record of one entry with a value below 256.
fn gs(register: u8, value: u8) -> Vec<u8> {
    let mut body = [0; 16];
    (body[0], body[8]) = (value, register);
    record_bytes(3, 1, 0, &body)
}

pub fn points() -> Vec<Point> {
    let mut points = accepted();
    points.extend(by_groups());
    points.extend(answers());
    points.extend(memories());
    points.extend(entries());
    points.extend(refused());
    points
}

fn accepted() -> Vec<Point> {
    vec![
        // The end tag is the one step.
        point("nothing", &[], &[END], [0, 0, 0, 0, 1, 0]),
        // Zeros are a refe tag with QWC 0: it ends the chain.
        point("nothing, by zeros", &[], &[], [0, 0, 0, 0, 1, 0]),
        // Document 01's bench point: 6 steps.
        point(
            "a start, our own chain",
            &[start(5)],
            &[0x1000_0001, 0, 0, 0, 0, 0, 0, 0x1400_0005, END],
            [0, 0, 0, 1, 6, 0],
        )
        .takes(4, 3, 1, 1)
        .logs(&[0, 256, 5])
        .allows(6),
        // The tag and four words.
        point(
            "a start in the end tag's payload",
            &[start(5)],
            &[END | 1, 0, 0, 0, 0x1400_0005],
            [0, 0, 0, 1, 5, 0],
        )
        .takes(4, 3, 7, 1)
        .logs(&[0, 256, 5])
        .allows(5),
        // Three numbers of log are all that one entry needs.
        point(
            "a log of exactly the room",
            &[start(5)],
            &[END | 1, 0, 0, 0, 0x1400_0005],
            [0, 0, 0, 1, 5, 0],
        )
        .takes(4, 3, 7, 1)
        .logs(&[0, 256, 5])
        .of_lengths(Lengths { log: 3, ..RIGHT }),
        // STCYCL 1, 2 (CL 1, WL 2): of two writes one takes the word, one fills. Steps: the tag and
        // four words. S-32 gives four equal fields. The writes are at 1,023 and 0.
        point(
            "two vectors by filling",
            &[data(1_023, &[[7; 4], [7; 4]])],
            &[END | 1, 0, 0, 0, 0x0100_0201, 0x6002_03FF, 7, 0],
            [0, 0, 0, 0, 5, 0],
        )
        .takes(4, 1, 7, 1)
        .writes(1_023, [7; 4])
        .writes(0, [7; 4]),
        // NOP, MPG of one instruction, two words: the payload is words 2 and 3. A ref tag and an end
        // tag: 2 + 4 steps.
        point(
            "an instruction by ref",
            &[code(2_047, &[[1, 2, 3, 4, 5, 6, 7, 8]])],
            &[
                0x3000_0001,
                32,
                0,
                0,
                END,
                0,
                0,
                0,
                0,
                0x4A01_07FF,
                0x0403_0201,
                0x0807_0605,
            ],
            [0, 0, 0, 0, 6, 0],
        )
        .takes(4, 1, 3, 1)
        .uploads(2_047, [1, 2, 3, 4, 5, 6, 7, 8]),
        // REGLIST, NLOOP 1, NREG 2, descriptors 3 and 6: both values in one quadword, where two GS
        // records have two packets of two quadwords. Tag, four words, two quadwords: 7 steps; one packet.
        point(
            "two GS records by one packet",
            &[gs(3, 8), gs(6, 9)],
            &[
                END | 3,
                0,
                0,
                0,
                0,
                0,
                0,
                0x5000_0002,
                0x8001,
                0x2400_0000,
                0x63,
                0,
                8,
                0,
                9,
            ],
            [0, 0, 0, 2, 7, 1],
        )
        .takes(4, 3, 7, 3)
        .logs(&[2, 3, 8, 2, 6, 9])
        .stored(),
        // The memory holds the vector before the run.
        point(
            "a vector that data memory holds",
            &[data(0, &[HELD_QUADWORD])],
            &[END],
            [0, 0, 0, 0, 1, 0],
        ),
        point(
            "an instruction that code memory holds",
            &[code(0, &[HELD_INSTRUCTION])],
            &[END],
            [0, 0, 0, 0, 1, 0],
        ),
        // What the first record changes the second changes back.
        point(
            "there and back",
            &[data(0, &[[9; 4]]), data(0, &[HELD_QUADWORD])],
            &[END],
            [0, 0, 0, 0, 1, 0],
        ),
        // The sheet writes the vector first, the chain last.
        point(
            "another order, the same end",
            &[data(4, &[[1; 4]]), start(3)],
            &[END | 1, 0, 0, 0, 0x1400_0003, 0x0100_0101, 0x6001_0004, 1],
            [0, 0, 0, 1, 5, 0],
        )
        .takes(4, 0, 7, 1)
        .writes(4, [1; 4])
        .logs(&[0, 256, 3]),
    ]
}

fn by_groups() -> Vec<Point> {
    let sheet = [edition(), group(3, 1), start(5)];
    let calls = |count: usize| {
        // Calls, an end tag, and a ret with the payload at 16 x (count + 1).
        let call = [0x5000_0000, 16 * (count as u32 + 1), 0, 0];
        let rest = [END, 0, 0, 0, 0x6000_0001, 0, 0, 0, 0x1400_0005];
        [call.repeat(count), rest.to_vec()].concat()
    };
    vec![
        // Each call: its tag, the ret tag and four words. 3 x 6 + 1.
        point(
            "three calls for three repetitions",
            &sheet,
            &calls(3),
            [0, 0, 0, 3, 19, 0],
        )
        .takes(12, 9, 6, 3)
        .logs(&[0, 256, 5].repeat(3))
        .stored(),
        // 2 x 6 + 1. Both entries are right, and the run has two.
        point(
            "two calls for three repetitions",
            &sheet,
            &calls(2),
            [6, 2, 0, 2, 13, 0],
        )
        .takes(8, 6, 6, 2)
        .logs(&[0, 256, 5].repeat(2))
        .stored(),
    ]
}

/// The run's answer comes first, whatever it left.
fn answers() -> Vec<Point> {
    let chain = [END | 1, 0, 0, 0, 0x1400_0005];
    vec![
        // The tag and MSCAL are done; three NOPs are pending.
        point(
            "an allowance of two steps",
            &[start(5)],
            &chain,
            [2, 90, 0, 1, 2, 0],
        )
        .takes(1, 0, 7, 1)
        .logs(&[0, 256, 5])
        .allows(2),
        point("one step too few", &[start(5)], &chain, [2, 90, 0, 1, 4, 0])
            .takes(3, 2, 7, 1)
            .logs(&[0, 256, 5])
            .allows(4),
        point("no step", &[], &[END], [2, 90, 0, 0, 0, 0]).allows(0),
        // MSCAL with bit 31 stops the run at once.
        point(
            "an interrupt",
            &[start(5)],
            &[END | 1, 0, 0, 0, 0x9400_0005],
            [2, 91, 0, 1, 2, 0],
        )
        .takes(1, 0, 7, 1)
        .logs(&[0, 256, 5])
        .stored(),
        // In the last word: all else is equal, the chain has ended too.
        point(
            "an interrupt at the end",
            &[start(5)],
            &[END | 1, 0, 0, 0, 0x1400_0005, 0, 0, 0x8000_0000],
            [2, 91, 0, 1, 5, 0],
        )
        .takes(4, 3, 7, 1)
        .logs(&[0, 256, 5]),
        // The tag alone is done.
        point(
            "no room in the log",
            &[start(5)],
            &chain,
            [2, 31, 0, 0, 1, 0],
        )
        .takes(0, 0, 7, 1)
        .of_lengths(Lengths { log: 0, ..RIGHT }),
        // UNPACK before any STCYCL: WL is 0 from reset.
        point(
            "UNPACK without STCYCL",
            &[data(4, &[[1; 4]])],
            &[END | 1, 0, 0, 0, 0x6001_0004, 1],
            [2, 22, 0, 0, 1, 0],
        )
        .takes(0, 0, 7, 1),
        // A tag beyond main memory after a next.
        point(
            "a next out of main memory",
            &[],
            &[0x2000_0000, 160],
            [2, 10, 0, 0, 1, 0],
        ),
    ]
}

/// The lowest quadword, then the lowest instruction.
fn memories() -> Vec<Point> {
    vec![
        // The vectors are for 1,023 and 0; neither is written.
        point(
            "the lowest of two quadwords",
            &[data(1_023, &[[1; 4], [2; 4]])],
            &[END],
            [3, 0, 0, 0, 1, 0],
        ),
        point(
            "the lowest of two instructions",
            &[code(2_047, &[[1; 8], [2; 8]])],
            &[END],
            [4, 0, 0, 0, 1, 0],
        ),
        // Quadword 5, instruction 3, entry 0 and the number of entries all differ.
        point(
            "a quadword before an instruction",
            &[start(1), start(2), code(3, &[[1; 8]]), data(5, &[[1; 4]])],
            &[END | 1, 0, 0, 0, 0x1400_0002],
            [3, 5, 0, 1, 5, 0],
        )
        .takes(4, 3, 7, 1)
        .logs(&[0, 256, 2])
        .stored(),
        point(
            "an instruction before an entry",
            &[start(1), start(2), code(3, &[[1; 8]])],
            &[END | 1, 0, 0, 0, 0x1400_0002],
            [4, 3, 0, 1, 5, 0],
        )
        .takes(4, 3, 7, 1)
        .logs(&[0, 256, 2])
        .stored(),
        // STCYCL, UNPACK V4-32 and two of its four words: the chain has ended with nothing pending, so
        // the answer is 0; no vector is whole.
        point(
            "a vector that is not whole",
            &[data(7, &[[1; 4]])],
            &[END | 1, 0, 0, 0, 0x0100_0101, 0x6C01_0007, 1, 1],
            [3, 7, 0, 0, 5, 0],
        )
        .takes(4, 0, 7, 1),
        // An MPG at word 3 and one of its two words in the next quadword; the rest of it is NOPs' words:
        // tag, four words, four words. Word 0 is the low half, word 1 the high half, then two NOPs.
        point(
            "half an instruction changed",
            &[code(9, &[[1, 0, 0, 0, 2, 0, 0, 0]])],
            &[END | 2, 0, 0, 0, 0, 0, 0, 0x4A01_0009, 1, 3],
            [4, 9, 0, 0, 9, 0],
        )
        .takes(8, 5, 7, 2)
        .uploads(9, [1, 0, 0, 0, 3, 0, 0, 0]),
        // Only the change back is done: the vector that memory held is written again, which is equal.
        point(
            "there, and not back",
            &[data(0, &[[9; 4]]), data(0, &[HELD_QUADWORD])],
            &[END | 1, 0, 0, 0, 0x0100_0101, 0x6001_0000, 9],
            [3, 0, 0, 0, 5, 0],
        )
        .takes(4, 1, 7, 1)
        .writes(0, [9; 4]),
    ]
}

/// The lowest entry that both have, then the run's number of entries.
fn entries() -> Vec<Point> {
    vec![
        // MSCALF logs register 257.
        point(
            "another register",
            &[start(5)],
            &[END | 1, 0, 0, 0, 0x1500_0005],
            [5, 0, 0, 1, 5, 0],
        )
        .takes(4, 3, 7, 1)
        .logs(&[0, 257, 5]),
        point(
            "another value",
            &[start(5), start(6)],
            &[END | 1, 0, 0, 0, 0x1400_0005, 0x1400_0007],
            [5, 1, 0, 2, 5, 0],
        )
        .takes(4, 2, 7, 1)
        .logs(&[0, 256, 5, 0, 256, 7]),
        // The GS entry is 2, 5, 1; the start's 0, 256, 1.
        point(
            "another path",
            &[gs(5, 1)],
            &[END | 1, 0, 0, 0, 0x1400_0001],
            [5, 0, 0, 1, 5, 0],
        )
        .takes(4, 3, 7, 1)
        .logs(&[0, 256, 1])
        .stored(),
        // The sheet has two entries, the run one, which differs: the entry is named.
        point(
            "an entry before the number",
            &[start(5), start(6)],
            &[END | 1, 0, 0, 0, 0x1400_0006],
            [5, 0, 0, 1, 5, 0],
        )
        .takes(4, 3, 7, 1)
        .logs(&[0, 256, 6]),
        point(
            "one entry more",
            &[start(5)],
            &[END | 1, 0, 0, 0, 0x1400_0005, 0x1400_0005],
            [6, 2, 0, 2, 5, 0],
        )
        .takes(4, 2, 7, 1)
        .logs(&[0, 256, 5, 0, 256, 5]),
        point("no entry at all", &[start(5)], &[END], [6, 0, 0, 0, 1, 0]),
        // The log has no room for the sheet's two, and the run needs none of it.
        point(
            "fewer entries, and no room for the others",
            &[start(5), start(6)],
            &[END | 1, 0, 0, 0, 0x1400_0005],
            [6, 1, 0, 1, 5, 0],
        )
        .takes(4, 3, 7, 1)
        .logs(&[0, 256, 5])
        .of_lengths(Lengths { log: 3, ..RIGHT }),
    ]
}

/// 1 to 4, then the sheet's; nothing is run.
fn refused() -> Vec<Point> {
    let chain = [END | 1, 0, 0, 0, 0x1400_0005];
    let of = |name, sheet: &[Vec<u8>], number, offset| {
        point(name, sheet, &chain, [1, number, offset, 0, 0, 0])
    };
    let bad = || vec![0x9E];
    let deep = vec![group(1, 1); 9];
    let lengths = |main, data, code, log| Lengths {
        main,
        data,
        code,
        log,
    };
    vec![
        of("1 before 2, 3, 4 and the sheet", &[bad()], 1, 0)
            .of_lengths(lengths(24, 0, 6, 1))
            .stored(),
        of("2 before 3, 4 and the sheet", &[bad()], 2, 0)
            .of_lengths(lengths(32, 1_024, 0, 2))
            .stored(),
        of("3 before 4 and the sheet", &[bad()], 3, 0)
            .of_lengths(lengths(32, 4_096, 7, 2))
            .stored(),
        of("4 before the sheet", &[bad()], 4, 0).of_lengths(lengths(32, 4_096, 16_384, 8)),
        of("a cut header", &[bad()], 44, 0),
        of("a mark", &[start(5), vec![0x9E, 0x50, 4, 0, 0, 0]], 40, 6),
        of("a kind", &[start(5), vec![0x9E, 0x51, 5, 1, 1, 0]], 41, 6),
        of("a count", &[start(5), vec![0x9E, 0x51, 4, 1, 0, 0]], 42, 6),
        of("an address", &[start(5), start(2_048)], 43, 6).stored(),
        of("a pad", &[record_bytes(3, 1, 0, &[1; 16])], 45, 0),
        // Nine deep: the ninth header is at 6 + 8 x 6.
        of("depth 9", &[edition(), deep.concat(), start(5)], 52, 54),
        // At the sheet's end a member is missing.
        of(
            "a member missing",
            &[edition(), group(1, 2), start(5)],
            44,
            18,
        ),
        // 255 x 255 x 2 quadwords and the end tag: 130,051.
        of(
            "a chain that is too long",
            &[edition(), group(255, 1), group(255, 1), start(5)],
            49,
            0,
        ),
    ]
}

impl Point {
    pub fn case(&self) -> Case {
        Case {
            sheet: self.sheet.clone(),
            main_length: self.lengths.main,
            main: self.main.clone(),
            data_length: self.lengths.data,
            code_length: self.lengths.code,
            log_length: self.lengths.log,
            fill: 0,
            allowance: self.allowance,
        }
    }

    /// The result that the point has to give.
    fn wanted(&self) -> Vec<u8> {
        let mut memories = self.case().memories();
        for &(at, value) in &self.data {
            memories.data[at] = value;
        }
        for &(at, value) in &self.code {
            memories.code[at] = value;
        }
        memories.log[..self.log.len()].copy_from_slice(&self.log);
        let [kind, number, offset, used, steps, packets] = self.gives;
        let mut out = Vec::new();
        put_word(&mut out, kind as u32);
        put_number(&mut out, number);
        put_word(&mut out, offset as u32);
        for number in [used, steps, packets, self.words, self.nops] {
            put_number(&mut out, number);
        }
        self.qwc.iter().for_each(|&sum| put_number(&mut out, sum));
        memories.write(&mut out);
        out
    }
}

/// The points as a case file.
pub fn file() -> Vec<u8> {
    file_of(|_| true)
}

/// Those for the proved program's stored cases.
pub fn stored() -> Vec<u8> {
    file_of(|point| point.stored)
}

fn file_of(is_in: impl Fn(&Point) -> bool) -> Vec<u8> {
    let mut file = Vec::new();
    for point in points().iter().filter(|point| is_in(point)) {
        point.case().write(&mut file);
    }
    file
}

/// Compares a program's results for the points with what they have to be.
pub fn check(results: &[u8]) -> Result<(), String> {
    let mut at = 0;
    for point in points() {
        let wanted = point.wanted();
        let given = &results[at.min(results.len())..(at + wanted.len()).min(results.len())];
        let differs = (0..wanted.len()).find(|&i| given.get(i) != Some(&wanted[i]));
        if let Some(byte) = differs {
            let place = describe_place(&point.case(), byte / WORD);
            return Err(format!("point \"{}\": {place} is wrong", point.name));
        }
        at += wanted.len();
    }
    match results.len() - at {
        0 => Ok(()),
        more => Err(format!("{more} bytes after the points")),
    }
}

#[cfg(test)]
mod tests {
    use super::*;
    use crate::check_cases::results;
    use crate::check_counts::Counts;
    use crate::sheet;

    fn own(file: &[u8]) -> Vec<u8> {
        results(file, &mut Counts::default()).bytes
    }

    #[test]
    fn our_own() {
        assert_eq!(check(&own(&file())), Ok(()));
    }

    /// What the fill of 0 holds, as the head says.
    #[test]
    fn held() {
        let memories = points()[0].case().memories();
        assert_eq!(memories.data[..4], HELD_QUADWORD);
        assert_eq!(memories.code[..8], HELD_INSTRUCTION);
        assert_eq!(memories.log[..2], [2, 0x9E37_79B9_7F4A_7C17]);
        assert!(points().iter().all(|point| point.sheet.len() < 200));
        let long = points().pop().unwrap();
        assert_eq!(sheet::chain_length(&long.sheet), Err((49, 0)));
    }

    #[test]
    fn wrong_results_are_told() {
        let results = own(&file());
        for at in (0..results.len()).step_by(9_973).chain([results.len() - 1]) {
            let mut wrong = results.clone();
            wrong[at] ^= 1;
            assert!(check(&wrong).is_err());
        }
        assert!(check(&results[..results.len() - 1]).is_err());
        assert!(check(&[&results[..], &[0]].concat()).is_err());
    }

    #[test]
    fn stored_cases_are_short() {
        let stored = stored();
        assert!(stored.len() < 10_000);
        assert!(own(&stored).len() < 300_000);
    }
}
