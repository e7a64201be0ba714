//! What the writes of UNPACK reached in VIF cases.

use crate::compare::named_rows;
use crate::model::Model;
use crate::unpack_kind::{Relation, RELATIONS};
use crate::vif::{Registers, MOST_NUM};
use crate::vif_unpack::{Cycle, Format, Unpack};
use std::collections::HashMap;

/// A step that may write: a word of payload, or a code that has none.
pub struct Step<'a> {
    pub model: Model,
    /// Before the step.
    pub registers: &'a Registers,
    pub unpack: &'a Unpack,
    /// The words due before the step and the word; none for the code itself.
    pub payload: Option<(u32, u32)>,
    /// The unit was read from a block just before, at the case's start or later.
    pub restored: bool,
    pub first: bool,
    pub interrupt: bool,
}

impl Step<'_> {
    fn cycle(&self) -> Cycle {
        self.registers.cycle()
    }

    /// The first write of the step and the one after the last.
    fn written(&self) -> (u32, u32) {
        match self.payload {
            Some((due, _)) => self.unpack.written(self.cycle(), due),
            None => (0, self.unpack.count),
        }
    }

    /// How often the place of write `i` goes round the end of data memory.
    fn rounds(&self, i: u32) -> u32 {
        self.unpack.position(self.cycle(), i) / self.model.sizes().quadwords
    }

    fn completes(&self) -> bool {
        self.payload.is_none_or(|(due, _)| due == 1)
    }

    /// The fields of the vector that write `i` takes; none for a fill.
    fn vector(&self, i: u32) -> Option<[u32; 4]> {
        let (due, word) = self.payload?;
        let cycle = self.cycle();
        let number = cycle.vectors(i);
        let window = self.unpack.window(cycle, due, word);
        (!cycle.is_fill(i)).then(|| window.vector(number))
    }
}

/// The fields whose ROW a vector of the step has kept, and those whose ROW one has replaced.
#[derive(Default)]
struct Rows {
    kept: [bool; 4],
    replaced: [bool; 4],
}

#[derive(Default)]
pub struct Counts {
    by_name: HashMap<String, u64>,
    /// Completed, by format, M, USN and MODE.
    completed: [[[[u64; 3]; 2]; 2]; 16],
    /// Writes of vectors, and fills.
    writes: [u64; 2],
    /// Payload words by the vectors that they made whole.
    vectors_per_word: [u64; 5],
    /// Fields written by vectors and by fills, by M, MODE and mask code; vectors of V4-5 left out.
    fields: [[[[u64; 4]; 3]; 2]; 2],
    /// Writes with M set by field and code.
    mask_codes: [[u64; 4]; 4],
    /// Writes of vectors and fills with M set by row.
    mask_rows: [[u64; 4]; 2],
    /// Fields that got COL by its number.
    cols: [u64; 4],
    /// Fields that got ROW by its number.
    rows_used: [u64; 4],
}

impl Counts {
    fn add_if(&mut self, name: &str, happened: bool) {
        if happened {
            *self.by_name.entry(name.to_string()).or_default() += 1;
        }
    }

    /// Notes a step that was done.
    pub fn note(&mut self, step: &Step) {
        if let Some((due, _)) = step.payload {
            let (first, end) = step.unpack.made_whole(step.cycle(), due);
            self.vectors_per_word[(end - first) as usize] += 1;
            self.note_split(step, due, first, end);
        }
        let (first, end) = step.written();
        let mut rows = Rows::default();
        for i in first..end {
            self.note_write(step, i);
            match step.vector(i) {
                Some(fields) => self.note_vector(step, i, fields, &mut rows),
                None => self.note_fill(step, i, &rows),
            }
        }
        let fills: Vec<bool> = (first..end).map(|i| step.cycle().is_fill(i)).collect();
        let between = fills.windows(2).any(|pair| pair == [true, false]);
        self.add_if("words with fills between vectors", between);
        if step.completes() {
            self.note_completed(step);
        }
    }

    /// Notes where a saved state stands, with the first vector that the word makes whole and the
    /// one after the last.
    fn note_split(&mut self, step: &Step, due: u32, first: u32, end: u32) {
        let cycle = step.cycle();
        let taken = 32 * (step.unpack.all_words(cycle) - due);
        let across = end > first && first * step.unpack.format.vector_bits() < taken;
        self.add_if("vectors with bits from a block", across && step.restored);
        if !cycle.has_fills() || !step.restored {
            return;
        }
        self.add_if("vectors with bits from a block, WL > CL", across);
        let inside = step.written().0 % cycle.wl != 0;
        self.add_if("words taken from a block inside a cycle, WL > CL", inside);
        self.add_if("WL > CL at a case's start", step.first);
        self.add_if("WL > CL at a later group's start", !step.first);
    }

    /// Notes what vectors and fills have in common.
    fn note_write(&mut self, step: &Step, i: u32) {
        let cycle = step.cycle();
        let fill = cycle.is_fill(i) as usize;
        self.writes[fill] += 1;
        let codes = step.unpack.codes(step.registers, i);
        if fill == 1 || !step.unpack.format.is_five_bits() {
            let (m, mode) = (step.unpack.masked as usize, step.registers.mode as usize);
            for code in codes {
                self.fields[fill][m][mode][code as usize] += 1;
            }
        }
        if !step.unpack.masked {
            return;
        }
        let row = cycle.mask_row(i) as usize;
        self.mask_rows[fill][row] += 1;
        for (field, code) in codes.into_iter().enumerate() {
            self.mask_codes[field][code as usize] += 1;
            self.rows_used[field] += (code == 1) as u64;
            self.cols[row] += (code == 2) as u64;
        }
    }

    fn note_vector(&mut self, step: &Step, i: u32, fields: [u32; 4], rows: &mut Rows) {
        let rounds = step.rounds(i);
        let five = step.unpack.format.is_five_bits();
        let above = i % step.registers.wl > 3;
        self.add_if("vectors written round the end", rounds > 0);
        self.add_if("vectors written twice round the end", rounds > 1);
        self.add_if("vectors with i mod WL above 3", above);
        let ignored = five && step.registers.mode > 0;
        self.add_if("V4-5 vectors with MODE set", ignored);
        if step.unpack.mode(step.registers) == 2 {
            self.note_rows(step.unpack.codes(step.registers, i), fields, rows);
        }
    }

    /// Notes what a vector in MODE 2 does to ROW.
    fn note_rows(&mut self, codes: [u32; 4], fields: [u32; 4], rows: &mut Rows) {
        for (field, code) in codes.into_iter().enumerate() {
            if fields[field] == 0 {
                continue;
            }
            if code == 0 {
                let again = "ROW kept in MODE 2, replaced later in the step";
                self.add_if(again, rows.kept[field]);
                rows.replaced[field] = true;
            } else {
                self.add_if(&format!("ROW kept in MODE 2, mask code {code}"), true);
                rows.kept[field] = true;
            }
        }
        let some = codes.contains(&0) && codes != [0; 4];
        self.add_if("ROW of some fields replaced in MODE 2", some);
    }

    fn note_fill(&mut self, step: &Step, i: u32, rows: &Rows) {
        let cycle = step.cycle();
        self.add_if("fills written round the end", step.rounds(i) > 0);
        self.add_if("fills with i mod WL above 3", i % cycle.wl > 3);
        self.add_if("fills of V4-5", step.unpack.format.is_five_bits());
        for (field, code) in step.unpack.codes(step.registers, i).into_iter().enumerate() {
            let name = "fields filled from ROW that the step replaced";
            self.add_if(name, code == 1 && rows.replaced[field]);
        }
    }

    fn note_completed(&mut self, step: &Step) {
        let (unpack, cycle) = (step.unpack, step.cycle());
        let number = unpack.format.number() as usize;
        let mode = step.registers.mode as usize;
        if step.payload.is_some() {
            self.completed[number][unpack.masked as usize][unpack.unsigned as usize][mode] += 1;
        }
        let relation = Relation::of(cycle).name();
        let interrupt = step.interrupt;
        self.add_if(&format!("UNPACK completed, {relation}"), true);
        let name = format!("UNPACK completed with its bit 31 set, {relation}");
        self.add_if(&name, interrupt);
        for (cl, wl) in EXTREMES {
            let name = format!("UNPACK completed, CL {cl}, WL {wl}");
            self.add_if(&name, (cycle.cl, cycle.wl) == (cl, wl));
        }
        let rounds = unpack.count > cycle.wl && cycle.wl > 1;
        let name = format!("UNPACK completed in several rounds, {relation}");
        self.add_if(&name, rounds);
        let trailing = step.payload.is_some() && cycle.is_fill(unpack.count - 1);
        self.add_if("fills after the last vector", trailing);
        let name = "fills after the last vector and an interrupt";
        self.add_if(name, trailing && interrupt);
        let ends = cycle.has_fills() && !cycle.is_fill(unpack.count - 1);
        self.add_if("UNPACK completed by a vector, WL > CL", ends);
        self.note_length(unpack, cycle, mode);
    }

    fn note_length(&mut self, unpack: &Unpack, cycle: Cycle, mode: usize) {
        let vectors = cycle.vectors(unpack.count);
        let bits = vectors * unpack.format.vector_bits();
        self.add_if("UNPACK completed with leftover bits", bits % 32 != 0);
        let whole = unpack.format.vectors_in(unpack.all_words(cycle)) > vectors;
        self.add_if("UNPACK completed with a leftover vector", whole);
        if unpack.count == MOST_NUM {
            let name = format_name(&unpack.format);
            self.add_if(&format!("UNPACK {name} of 256 writes completed"), true);
            let name = format!(
                "UNPACK of 256 writes completed, {}",
                Relation::of(cycle).name()
            );
            self.add_if(&name, true);
            let moves = mode == 2 && !unpack.format.is_five_bits();
            self.add_if("UNPACK of 256 writes completed with MODE 2", moves);
        }
    }

    /// Every count by name.
    pub fn rows(&self) -> Vec<(String, u64)> {
        let mut rows = self.format_rows();
        rows.extend(self.write_rows());
        rows.extend(named_rows(&self.by_name, names()));
        rows
    }

    fn format_rows(&self) -> Vec<(String, u64)> {
        let mut rows = Vec::new();
        for format in all_formats() {
            let name = format_name(&format);
            for (m, by_usn) in self.completed[format.number() as usize].iter().enumerate() {
                for (usn, by_mode) in by_usn.iter().enumerate() {
                    for (mode, &count) in by_mode.iter().enumerate() {
                        let flags = format!("M {m}, USN {usn}, MODE {mode}");
                        rows.push((format!("UNPACK {name} completed, {flags}"), count));
                    }
                }
            }
        }
        rows
    }

    fn write_rows(&self) -> Vec<(String, u64)> {
        let mut rows = Vec::new();
        let mut row = |name: String, count: u64| rows.push((name, count));
        for (n, &count) in self.vectors_per_word.iter().enumerate() {
            row(format!("UNPACK words that complete {n} vectors"), count);
        }
        for (fill, what) in ["vectors", "fills"].iter().enumerate() {
            row(format!("{what} written"), self.writes[fill]);
            for mode in 0..3 {
                let fields = |m: usize| &self.fields[fill][m][mode];
                let by = format!("fields written by {what}, MODE {mode}");
                row(format!("{by}, M 0"), fields(0)[0]);
                for (code, &count) in fields(1).iter().enumerate() {
                    row(format!("{by}, M 1, mask code {code}"), count);
                }
            }
            for (n, &count) in self.mask_rows[fill].iter().enumerate() {
                row(format!("masked {what} by row {n}"), count);
            }
        }
        for (field, name) in ["X", "Y", "Z", "W"].iter().enumerate() {
            for (code, &count) in self.mask_codes[field].iter().enumerate() {
                row(format!("mask code {code} for {name}"), count);
            }
            row(format!("fields from ROW {field}"), self.rows_used[field]);
            row(format!("fields from COL {field}"), self.cols[field]);
        }
        rows
    }
}

pub fn format_name(format: &Format) -> String {
    let number = format.number();
    let elements = ["S", "V2", "V3", "V4"][(number >> 2) as usize];
    let bits = ["32", "16", "8", "5"][(number & 3) as usize];
    format!("{elements}-{bits}")
}

pub fn all_formats() -> Vec<Format> {
    (0..16).filter_map(Format::from_number).collect()
}

/// CL and WL that have a row of their own.
const EXTREMES: [(u32, u32); 8] = [
    (0, 1),
    (0, 255),
    (1, 1),
    (1, 255),
    (254, 255),
    (255, 255),
    (255, 254),
    (255, 1),
];

/// The names of the counts that are kept by name.
fn names() -> Vec<String> {
    let mut names: Vec<String> = NAMES.iter().map(|name| name.to_string()).collect();
    for relation in RELATIONS.map(Relation::name) {
        names.push(format!("UNPACK completed, {relation}"));
        names.push(format!("UNPACK completed with its bit 31 set, {relation}"));
        names.push(format!("UNPACK completed in several rounds, {relation}"));
        names.push(format!("UNPACK of 256 writes completed, {relation}"));
    }
    for (cl, wl) in EXTREMES {
        names.push(format!("UNPACK completed, CL {cl}, WL {wl}"));
    }
    for format in all_formats() {
        let name = format_name(&format);
        names.push(format!("UNPACK {name} of 256 writes completed"));
    }
    names
}

const NAMES: &[&str] = &[
    "UNPACK completed with leftover bits",
    "UNPACK completed with a leftover vector",
    "UNPACK completed by a vector, WL > CL",
    "UNPACK of 256 writes completed with MODE 2",
    "vectors with bits from a block",
    "vectors with bits from a block, WL > CL",
    "words taken from a block inside a cycle, WL > CL",
    "WL > CL at a case's start",
    "WL > CL at a later group's start",
    "words with fills between vectors",
    "vectors written round the end",
    "vectors written twice round the end",
    "vectors with i mod WL above 3",
    "V4-5 vectors with MODE set",
    "ROW kept in MODE 2, mask code 1",
    "ROW kept in MODE 2, mask code 2",
    "ROW kept in MODE 2, mask code 3",
    "ROW kept in MODE 2, replaced later in the step",
    "ROW of some fields replaced in MODE 2",
    "fills written round the end",
    "fills with i mod WL above 3",
    "fills of V4-5",
    "fields filled from ROW that the step replaced",
    "fills after the last vector",
    "fills after the last vector and an interrupt",
];
