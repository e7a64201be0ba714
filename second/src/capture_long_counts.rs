//! What long captures reached: of V4-32, and of what the other modules count. Plain is V4-32 with M clear
//! and MODE 0.

use crate::capture_cases::{Call, Case, Standing};
use crate::capture_long_codes;
use crate::capture_long_data;
use crate::capture_long_unpacks::{self, Stretch, Waits, STRETCH};
use crate::chain::{word_at, Next, State, Step, Tag};
use crate::compare::named_rows;
use crate::model::{Model, MODELS};
use crate::unpack_kind::{Kind, KINDS};
use crate::vif::{Code, Unit};
use crate::vif_unpack::Cycle;
use std::collections::HashMap;

/// Tags of few quadwords have at most so many, tags of many at least.
const FEW: u32 = 3;
const MANY: u32 = 50;
/// The words of a vector.
const WORDS: u32 = 4;

const NAMES: [&str; 13] = [
    "long captures",
    "long captures that begin inside a plain V4-32",
    "runs over long captures",
    "plain V4-32: codes with CL 0",
    "plain V4-32: codes that add a TOPS that is not 0",
    "plain V4-32: codes of 256 writes",
    "plain V4-32: fills",
    "plain V4-32: vectors with WL above 4",
    "plain V4-32: interrupts",
    "plain V4-32: tags of few quadwords inside",
    "plain V4-32: tags of many quadwords inside",
    "plain V4-32: tags inside a vector",
    "plain V4-32: runs that begin with a tag inside a vector",
];

const CYCLES: [&str; 3] = ["CL = WL", "CL > WL", "WL > CL"];

#[derive(Default)]
pub struct Counts {
    by_name: HashMap<String, u64>,
    /// Payload words by kind and unit.
    words: [[u64; 2]; KINDS.len()],
    /// Plain vectors by how CL and WL stand to each other, and by unit.
    vectors: [[u64; 2]; 3],
    pub unpacks: capture_long_unpacks::Counts,
    codes: capture_long_codes::Counts,
    data: capture_long_data::Counts,
    stretch: Stretch,
    /// No step of the run has been noted.
    at_start: bool,
}

/// An UNPACK that waits and is plain.
fn plain(unit: &Unit) -> Option<Waits<'_>> {
    Waits::of(unit).filter(|waits| kind(waits) == Some(Kind::Plain))
}

fn kind(waits: &Waits) -> Option<Kind> {
    let unpack = waits.unpack;
    Kind::of(&unpack.format, unpack.masked, &waits.unit.registers)
}

/// The next word's number in a vector of four words.
fn number(waits: &Waits) -> u32 {
    waits.taken() % WORDS
}

impl Counts {
    fn add_if(&mut self, name: &str, happened: bool) {
        if happened {
            *self.by_name.entry(name.to_string()).or_default() += 1;
        }
    }

    /// Notes the steps of all runs of a case.
    pub fn note_case(&mut self, case: &Case) {
        self.add_if("long captures", true);
        let mut standing = Standing::new(case);
        let main = standing.main.clone();
        let state = standing.state.expect("a state");
        let inside = plain(state.unit()).is_some();
        self.add_if("long captures that begin inside a plain V4-32", inside);
        for call in &case.calls {
            match *call {
                Call::Start { .. } | Call::Set { .. } | Call::Why { .. } => {
                    standing.make(call);
                }
                Call::Run { allowance } => self.note_run(&main, &mut standing, allowance),
            }
        }
    }

    fn note_run(&mut self, main: &[u8], standing: &mut Standing, allowance: u64) {
        self.add_if("runs over long captures", true);
        self.stretch = Stretch::default();
        self.at_start = true;
        self.unpacks.begin_run();
        self.codes.begin_run();
        self.data.begin_run();
        let stop = standing.run(allowance, |old, _, tried| {
            self.note_tried(main, old, &tried)
        });
        let state = standing.state.as_ref().expect("a state");
        self.data.end_run(state, stop.answer);
        if state.channel != 2 {
            self.codes.end_run(main, state, stop.answer);
        }
    }

    fn note_tried(&mut self, main: &[u8], old: &State, tried: &Result<Step, u32>) {
        self.data.note_step(old, tried);
        if old.channel == 2 {
            return;
        }
        self.codes.note_step(main, old, tried);
        if let Ok(step) = tried {
            self.note_step(main, old, step);
        }
    }

    fn note_step(&mut self, main: &[u8], old: &State, step: &Step) {
        let unit = old.unit();
        let first = std::mem::take(&mut self.at_start);
        let plain = plain(unit);
        if let Step::Tag(tag) = step {
            self.stretch = Stretch::default();
            self.unpacks.note_tag(unit);
            if let Some(plain) = &plain {
                self.note_tag(plain, tag, first);
            }
            return;
        }
        match old.next() {
            Next::TagWord(address) => {
                self.note_word(main, address, unit);
                self.add_if(&in_tag_words(unit.model), plain.is_some());
            }
            Next::Payload(pending) => self.note_word(main, pending.address, unit),
            Next::Tag => {}
        }
        match &plain {
            None => self.stretch = Stretch::default(),
            Some(plain) => self.note_plain(plain, first),
        }
        let interrupt = plain.is_some() && step.interrupt();
        self.add_if("plain V4-32: interrupts", interrupt);
    }

    /// Notes a tag that is read while a plain UNPACK waits.
    fn note_tag(&mut self, plain: &Waits, tag: &Tag, first: bool) {
        let inside = plain.inside();
        let few = (1..=FEW).contains(&tag.qwc);
        self.add_if("plain V4-32: tags of few quadwords inside", few);
        let name = "plain V4-32: tags of many quadwords inside";
        self.add_if(name, tag.qwc >= MANY);
        self.add_if("plain V4-32: tags inside a vector", inside);
        let name = "plain V4-32: runs that begin with a tag inside a vector";
        self.add_if(name, first && inside);
    }

    /// Notes a word that a unit takes: payload by its kind, or a code.
    fn note_word(&mut self, main: &[u8], address: u32, unit: &Unit) {
        self.unpacks.note_word(unit, word_at(main, address));
        if let Some(kind) = Waits::of(unit).and_then(|waits| kind(&waits)) {
            self.words[kind as usize][unit.model as usize] += 1;
        } else if unit.waiting.is_none() {
            self.note_code(unit, word_at(main, address));
        }
    }

    fn note_code(&mut self, unit: &Unit, word: u32) {
        let Ok(Code::Unpack {
            format,
            masked,
            add_tops,
            count,
            ..
        }) = Code::decode(unit.model, word)
        else {
            return;
        };
        let registers = &unit.registers;
        if Kind::of(&format, masked, registers) != Some(Kind::Plain) {
            return;
        }
        self.add_if("plain V4-32: codes with CL 0", registers.cl == 0);
        let name = "plain V4-32: codes that add a TOPS that is not 0";
        self.add_if(name, add_tops && registers.tops != 0);
        self.add_if("plain V4-32: codes of 256 writes", count == 256);
    }

    /// Notes a word of plain payload.
    fn note_plain(&mut self, plain: &Waits, first: bool) {
        let (model, number) = (plain.unit.model, number(plain));
        if first {
            self.add_if(&begins_at(model, number), true);
        }
        if self.stretch.take(plain) {
            self.add_if(&stretches(model), true);
        }
        if number == WORDS - 1 {
            self.note_writes(plain);
        }
    }

    /// Notes the writes of a word that makes a vector whole.
    fn note_writes(&mut self, plain: &Waits) {
        let (cycle, model) = (plain.cycle(), plain.unit.model);
        self.vectors[relation(cycle)][model as usize] += 1;
        self.add_if("plain V4-32: vectors with WL above 4", cycle.wl > 4);
        let (first, end) = plain.written();
        for i in first..end {
            self.add_if("plain V4-32: fills", cycle.is_fill(i));
            if plain.wraps(i) {
                self.add_if(&wraps(model, CYCLES[relation(cycle)]), true);
            }
        }
    }

    /// Every count by name.
    pub fn rows(&self) -> Vec<(String, u64)> {
        let mut rows = named_rows(&self.by_name, names());
        for model in MODELS {
            for kind in KINDS {
                let name = format!("payload words on {}: {}", model.name(), kind.name());
                rows.push((name, self.words[kind as usize][model as usize]));
            }
            for (relation, cycle) in CYCLES.iter().enumerate() {
                let name = format!("plain V4-32: vectors on {}, {cycle}", model.name());
                rows.push((name, self.vectors[relation][model as usize]));
            }
        }
        let others = [self.unpacks.rows(), self.codes.rows(), self.data.rows()];
        rows.extend(others.concat());
        rows
    }
}

/// The number in `CYCLES`.
fn relation(cycle: Cycle) -> usize {
    match cycle.cl.cmp(&cycle.wl) {
        std::cmp::Ordering::Equal => 0,
        std::cmp::Ordering::Greater => 1,
        std::cmp::Ordering::Less => 2,
    }
}

fn in_tag_words(model: Model) -> String {
    format!("plain V4-32: payload in tag words on {}", model.name())
}

fn begins_at(model: Model, number: u32) -> String {
    let unit = model.name();
    format!("plain V4-32: runs on {unit} that begin at word {number} of a vector")
}

fn stretches(model: Model) -> String {
    let unit = model.name();
    format!("plain V4-32: stretches of {STRETCH} whole vectors and more in a run on {unit}")
}

fn wraps(model: Model, cycle: &str) -> String {
    let unit = model.name();
    format!("plain V4-32: writes round the end of {unit}'s memory inside a code, {cycle}")
}

fn names() -> Vec<String> {
    let mut names: Vec<String> = NAMES.iter().map(|name| name.to_string()).collect();
    for model in MODELS {
        names.push(in_tag_words(model));
        names.extend((0..WORDS).map(|number| begins_at(model, number)));
        names.push(stretches(model));
        names.extend(CYCLES.map(|cycle| wraps(model, cycle)));
    }
    names
}

#[cfg(test)]
mod tests {
    use super::*;
    use crate::capture_generate::{plain_case, run, split, start, tagged, NO_LIMIT};
    use crate::capture_long_cases;
    use crate::chain::{CNT, END};
    use crate::compare::zeros;
    use crate::gif_generate::tag_quadword;
    use crate::vif_generate::{code_word, stcycl};

    const MASK: [u32; 2] = [0x2000_0000, 0xE4];

    /// What the runs of a chain on a channel reach, with a log of so many entries.
    fn counted(channel: u32, main: &[u32], entries: u64, allowances: &[u64]) -> Counts {
        let mut calls = vec![start(channel, 0, 0)];
        calls.extend(allowances.iter().map(|&allowance| run(allowance)));
        let mut counts = Counts::default();
        counts.note_case(&plain_case(&State::reset(), main, entries, &calls));
        counts
    }

    fn assert_counts(counts: &Counts, expected: &[(&str, u64)]) {
        let rows = counts.rows();
        for (name, expected) in expected {
            let row = rows.iter().find(|row| row.0 == *name);
            let (_, count) = row.unwrap_or_else(|| panic!("no row {name}"));
            assert_eq!(count, expected, "{name}");
        }
    }

    /// 20 vectors from quadword 1,020 on, in three runs: the code and 5 words, 65 words, the rest.
    #[test]
    fn a_capture_by_hand() {
        let mut payload = vec![0, 0, stcycl(1, 1), code_word(0x6C, 20, 1_020)];
        payload.extend(1..=80);
        let counts = counted(1, &tagged(END, &payload), 0, &[10, 65, NO_LIMIT]);
        assert_counts(
            &counts,
            &[
                ("runs over long captures", 3),
                (&begins_at(Model::Vif1, 1), 1),
                (&begins_at(Model::Vif1, 2), 1),
                (&wraps(Model::Vif1, "CL = WL"), 1),
                (&stretches(Model::Vif1), 0),
                ("plain V4-32: vectors on VIF1, CL = WL", 20),
                ("payload words on VIF1: V4-32, M clear, MODE 0", 80),
                ("long V4-32 on VIF1: vectors", 20),
                ("long V4-32 on VIF1: vectors with M set", 0),
                ("long V4-32 on VIF1: vectors with gaps", 0),
                (WRAPS_OF_V4_32, 1),
                ("long V4-32 on VIF0: vectors", 0),
                (
                    "long captures on VIF1: runs that the allowance ends inside UNPACK after vectors",
                    2,
                ),
                (
                    "long captures on VIF1: runs that the allowance ends inside a vector",
                    2,
                ),
            ],
        );
    }

    const WRAPS_OF_V4_32: &str = "long V4-32 on VIF1: writes round the end of memory inside a code";

    /// V3-8 with M set, MODE 2, CL 2 and WL 3: 32 writes, 22 of them vectors in 17 words, of which the
    /// first two lie behind the first tag; then V2-16 with CL 0 and 256 writes.
    #[test]
    fn unpacks_by_hand() {
        let first = [
            &MASK[..],
            &[stcycl(2, 3), 0x0500_0002, 0, code_word(0x7A, 32, 0), 1, 2],
        ];
        let mut second = vec![3; 15];
        second.extend([stcycl(0, 1), code_word(0x65, 0, 250), 0, 0, 0]);
        let main = [tagged(CNT, &first.concat()), tagged(END, &second)].concat();
        let counts = counted(0, &main, 0, &[NO_LIMIT]);
        assert_counts(
            &counts,
            &[
                ("long V3-8 on VIF0: vectors", 22),
                ("long V3-8 on VIF0: vectors with M set", 22),
                ("long V3-8 on VIF0: vectors with USN set", 0),
                ("long V3-8 on VIF0: vectors with MODE 1", 0),
                ("long V3-8 on VIF0: vectors with MODE 2", 22),
                ("long V3-8 on VIF0: vectors with gaps", 0),
                ("long V3-8 on VIF0: fills after a vector", 10),
                ("long V3-8 on VIF0: fills without a vector", 0),
                ("long V3-8 on VIF0: tags inside a vector", 1),
                // Of 19 vectors that lie behind the second tag the first was begun before it.
                (
                    "long V3-8 on VIF0: stretches of 16 whole vectors and more",
                    1,
                ),
                ("long V2-16 on VIF0: vectors", 0),
                ("long V2-16 on VIF0: codes of 256 writes", 1),
                ("long V2-16 on VIF0: fills without a vector", 256),
                (
                    "long V2-16 on VIF0: writes round the end of memory inside a code",
                    1,
                ),
                ("long captures on VIF0: tags inside UNPACK", 1),
                ("long captures on VIF0: tags inside a vector", 1),
            ],
        );
    }

    /// A chain of tags with these words behind them, of which the last ends it.
    fn chain(pieces: &[&[[u32; 4]]]) -> Vec<u32> {
        let (last, others) = pieces.split_last().unwrap();
        let mut main: Vec<u32> = Vec::new();
        others
            .iter()
            .for_each(|piece| main.extend(tagged(CNT, &piece.concat())));
        main.extend(tagged(END, &last.concat()));
        main
    }

    /// Two runs end with interrupts: at the second NOP of two, and at the end of an MPG that goes round
    /// the end of memory. The last is refused after a vector.
    #[test]
    fn codes_by_hand() {
        for (channel, unit, last) in [(0, "VIF0", 511), (1, "VIF1", 2_047)] {
            let main = chain(&[
                &[[0; 4], [0x2000_0000, 0xE4, 0, 0x3100_0000], [5, 6, 7, 8]],
                &[[0; 4]],
                &[[0, 0, 0x3000_0000, 1]],
                &[
                    [2, 3, 4, 0],
                    [0x8000_0000, 0, 0, 0xCA02_0000 | last],
                    [1, 2, 3, 4],
                    [stcycl(1, 1), 0x6001_0000, 9, 0x0800_0000],
                ],
            ]);
            let counts = counted(channel, &main, 0, &[3, NO_LIMIT, NO_LIMIT, NO_LIMIT]);
            for (name, expected) in [
                ("two NOPs and more in a row behind one tag", 6),
                ("100 NOPs and more in a row behind one tag", 0),
                ("NOPs on both sides of a tag", 1),
                ("runs that the allowance ends between NOPs", 1),
                ("interrupts at a NOP after a NOP", 1),
                ("STMASK between other codes behind one tag", 1),
                ("STROW between other codes behind one tag", 0),
                ("STCOL between other codes behind one tag", 0),
                ("tags inside STROW", 1),
                ("tags inside MPG", 0),
                ("MPG payload round the end of code memory", 1),
                ("interrupts at the end of MPG", 1),
                ("refused with 20 after vectors of the run", 1),
            ] {
                let name = format!("long captures on {unit}: {name}");
                assert_counts(&counts, &[(&name, expected)]);
            }
        }
    }

    /// Two quadwords of IMAGE on channel 2, of which the second has no room in the log; two of REGLIST
    /// inside DIRECT behind a second tag, with a run's end between.
    #[test]
    fn data_by_hand() {
        let image = [split(tag_quadword(2, 2, 1, 0)), [1; 4], [2; 4]];
        let counts = counted(2, &chain(&[&image]), 2, &[NO_LIMIT]);
        assert_counts(
            &counts,
            &[
                ("long data, Image, channel 2: quadwords", 1),
                (
                    "long data, Image, channel 2: refused with 31 after quadwords of the run",
                    1,
                ),
                ("long data, Image, channel 2: tags inside", 0),
            ],
        );
        let direct = [[0, 0, 0, 0x5000_0003], split(tag_quadword(2, 1, 2, 0x00))];
        let main = chain(&[&direct, &[[1; 4], [2; 4]]]);
        assert_counts(
            &counted(1, &main, 4, &[8, NO_LIMIT]),
            &[
                ("long data, Reglist, DIRECT: quadwords", 2),
                ("long data, Reglist, DIRECT: tags inside", 1),
                (
                    "long data, Reglist, DIRECT: runs that the allowance ends inside",
                    1,
                ),
                ("long captures on VIF1: tags inside DIRECT", 1),
            ],
        );
    }

    #[test]
    fn every_count_is_reached() {
        let mut counts = Counts::default();
        for case in [1, 2].into_iter().flat_map(capture_long_cases::cases) {
            counts.note_case(&case);
        }
        assert_eq!(zeros(&counts.rows()), Vec::<&str>::new());
    }
}
