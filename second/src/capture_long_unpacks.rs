//! What the UNPACKs of long captures reached, by unit and format.

use crate::capture_long_cases::LONG;
use crate::model::{Model, MODELS};
use crate::unpack_counts::{all_formats, format_name};
use crate::unpack_kind::{Relation, RELATIONS};
use crate::vif::{Code, Payload, Unit, MOST_NUM};
use crate::vif_unpack::{Cycle, Format, Unpack};

/// A stretch has at least so many whole vectors.
pub const STRETCH: u32 = 16;

/// An UNPACK that waits.
pub struct Waits<'a> {
    pub unit: &'a Unit,
    pub unpack: &'a Unpack,
    due: u32,
}

impl Waits<'_> {
    pub fn of(unit: &Unit) -> Option<Waits<'_>> {
        let waiting = unit.waiting.as_ref()?;
        match &waiting.payload {
            Payload::Unpack(unpack) => Some(Waits {
                unit,
                unpack,
                due: waiting.due,
            }),
            _ => None,
        }
    }

    pub fn cycle(&self) -> Cycle {
        self.unit.registers.cycle()
    }

    /// The payload words that have been taken.
    pub fn taken(&self) -> u32 {
        self.unpack.all_words(self.cycle()) - self.due
    }

    /// Whether a vector has been begun and is not whole.
    pub fn inside(&self) -> bool {
        32 * self.taken() % self.unpack.format.vector_bits() != 0
    }

    /// The first vector and the one after the last that the next word makes whole.
    fn made_whole(&self) -> (u32, u32) {
        self.unpack.made_whole(self.cycle(), self.due)
    }

    /// The writes that the next word makes, in the same form.
    pub fn written(&self) -> (u32, u32) {
        self.unpack.written(self.cycle(), self.due)
    }

    /// Whether write `i` goes round the memory's end after the write before it.
    pub fn wraps(&self, i: u32) -> bool {
        wraps(self.unpack, self.unit, i)
    }
}

fn wraps(unpack: &Unpack, unit: &Unit, i: u32) -> bool {
    let size = unit.model.sizes().quadwords;
    let rounds = |i| unpack.position(unit.registers.cycle(), i) / size;
    i > 0 && rounds(i) > rounds(i - 1)
}

/// The vectors of an UNPACK that a run takes one after another, with no tag between.
#[derive(Default)]
pub struct Stretch {
    /// The words of the payload that came before.
    before: Option<u32>,
    vectors: u32,
}

impl Stretch {
    /// Takes a word; whether the vectors that were begun in the stretch are now enough.
    pub fn take(&mut self, waits: &Waits) -> bool {
        let before = *self.before.get_or_insert(waits.taken());
        let bits = waits.unpack.format.vector_bits();
        let (first, end) = waits.made_whole();
        let few = self.vectors < STRETCH;
        let begun = (first..end).filter(|vector| vector * bits >= 32 * before);
        self.vectors += begun.count() as u32;
        few && self.vectors >= STRETCH
    }
}

/// Counts by M, MODE and the relation of CL and WL.
type ByFlags = [[[u64; RELATIONS.len()]; 3]; 2];

/// Of UNPACKs of a format that make many writes.
#[derive(Clone, Copy, Default)]
struct OfFormat {
    vectors: ByFlags,
    fills: ByFlags,
    /// Vectors with USN set.
    unsigned: u64,
    stretches: u64,
    wraps: u64,
    tags_inside: u64,
    /// Codes of 256 writes, and codes that add a TOPS that is not 0.
    most: u64,
    tops: u64,
}

/// The sum of those counts that are wanted.
fn sum(counts: &ByFlags, wanted: impl Fn(bool, usize, Relation) -> bool) -> u64 {
    let mut sum = 0;
    for (m, by_mode) in counts.iter().enumerate() {
        for (mode, by_relation) in by_mode.iter().enumerate() {
            for (relation, count) in RELATIONS.into_iter().zip(by_relation) {
                sum += count * wanted(m == 1, mode, relation) as u64;
            }
        }
    }
    sum
}

impl OfFormat {
    /// Notes write `i` of an UNPACK.
    fn note_write(&mut self, unit: &Unit, unpack: &Unpack, i: u32) {
        let cycle = unit.registers.cycle();
        let fill = cycle.is_fill(i);
        self.unsigned += (unpack.unsigned && !fill) as u64;
        let counts = match fill {
            true => &mut self.fills,
            false => &mut self.vectors,
        };
        let mode = unit.registers.mode as usize;
        counts[unpack.masked as usize][mode][Relation::of(cycle) as usize] += 1;
        self.wraps += wraps(unpack, unit, i) as u64;
    }

    fn rows(&self, model: Model, format: &Format) -> Vec<(&'static str, u64)> {
        let vectors = |wanted: fn(bool, usize, Relation) -> bool| sum(&self.vectors, wanted);
        let fills = |of| sum(&self.fills, |_, _, relation| relation == of);
        let mut rows = vec![
            ("codes of 256 writes", self.most),
            ("vectors", vectors(|_, _, _| true)),
            ("vectors with USN set", self.unsigned),
            ("vectors with M set", vectors(|m, _, _| m)),
            ("vectors with MODE 1", vectors(|_, mode, _| mode == 1)),
            ("vectors with MODE 2", vectors(|_, mode, _| mode == 2)),
            (
                "vectors with gaps",
                vectors(|_, _, relation| relation == Relation::Gaps),
            ),
            ("fills after a vector", fills(Relation::Fills)),
            ("fills without a vector", fills(Relation::NoPayload)),
            ("writes round the end of memory inside a code", self.wraps),
            ("stretches of 16 whole vectors and more", self.stretches),
        ];
        if 32 % format.vector_bits() != 0 {
            rows.push(("tags inside a vector", self.tags_inside));
        }
        if model.has_tops() {
            rows.push(("codes that add a TOPS that is not 0", self.tops));
        }
        rows
    }
}

#[derive(Default)]
pub struct Counts {
    /// By unit and format.
    counts: [[OfFormat; 16]; 2],
    stretch: Stretch,
}

impl Counts {
    fn of(&mut self, model: Model, format: &Format) -> &mut OfFormat {
        &mut self.counts[model as usize][format.number() as usize]
    }

    pub fn begin_run(&mut self) {
        self.stretch = Stretch::default();
    }

    /// Notes a tag that was read.
    pub fn note_tag(&mut self, unit: &Unit) {
        self.stretch = Stretch::default();
        if let Some(waits) = Waits::of(unit).filter(|waits| waits.inside()) {
            self.of(unit.model, &waits.unpack.format).tags_inside += 1;
        }
    }

    /// Notes a word that the unit took, a code or payload.
    pub fn note_word(&mut self, unit: &Unit, word: u32) {
        match Waits::of(unit) {
            Some(waits) => self.note_payload(&waits),
            None => {
                self.stretch = Stretch::default();
                if unit.waiting.is_none() {
                    self.note_code(unit, word);
                }
            }
        }
    }

    fn note_payload(&mut self, waits: &Waits) {
        let enough = self.stretch.take(waits);
        let unpack = waits.unpack;
        let counts = self.of(waits.unit.model, &unpack.format);
        counts.stretches += enough as u64;
        if unpack.count >= LONG {
            let (first, end) = waits.written();
            (first..end).for_each(|i| counts.note_write(waits.unit, unpack, i));
        }
    }

    /// Notes a code, with its writes where it has no payload.
    fn note_code(&mut self, unit: &Unit, word: u32) {
        let Ok(code @ Code::Unpack { add_tops, .. }) = Code::decode(unit.model, word) else {
            return;
        };
        let Some((Payload::Unpack(unpack), due)) = code.payload(&unit.registers) else {
            return;
        };
        let counts = self.of(unit.model, &unpack.format);
        counts.most += (unpack.count == MOST_NUM) as u64;
        counts.tops += (add_tops && unit.registers.tops != 0) as u64;
        if due == 0 && unpack.count >= LONG {
            (0..unpack.count).for_each(|i| counts.note_write(unit, &unpack, i));
        }
    }

    /// Every count by name.
    pub fn rows(&self) -> Vec<(String, u64)> {
        let mut rows = Vec::new();
        for model in MODELS {
            for format in all_formats() {
                let counts = &self.counts[model as usize][format.number() as usize];
                let of = format!("long {} on {}", format_name(&format), model.name());
                let named = counts.rows(model, &format).into_iter();
                rows.extend(named.map(|(name, count)| (format!("{of}: {name}"), count)));
            }
        }
        rows
    }
}

#[cfg(test)]
mod tests {
    use super::*;
    use crate::capture_long_cases::cases;
    use crate::capture_long_counts;
    use crate::vif::Waiting;

    /// VIF1 with CL and WL 1 and an UNPACK of 256 vectors, of which so many words have been taken.
    fn waiting(format: Format, taken: u32) -> Unit {
        let mut unit = Unit::reset(Model::Vif1);
        (unit.registers.cl, unit.registers.wl) = (1, 1);
        let unpack = Unpack {
            format,
            masked: false,
            unsigned: false,
            address: 0,
            count: MOST_NUM,
            held: [0; 3],
        };
        unit.waiting = Some(Waiting {
            payload: Payload::Unpack(unpack),
            interrupt: false,
            due: unpack.all_words(unit.registers.cycle()) - taken,
        });
        unit
    }

    /// A vector that the stretch began inside does not count: V4-32, S-8 and V3-8.
    #[test]
    fn stretches_are_of_whole_vectors() {
        for (format, first, words) in [
            (12, 0, 64),
            (12, 1, 67),
            (12, 2, 66),
            (12, 3, 65),
            (2, 5, 4),
            (10, 0, 12),
            (10, 1, 13),
            (10, 2, 13),
        ] {
            let format = Format::from_number(format).unwrap();
            let mut stretch = Stretch::default();
            let mut take = |i| {
                let unit = waiting(format, first + i);
                stretch.take(&Waits::of(&unit).unwrap())
            };
            let enough: Vec<u32> = (0..80 - first).filter(|&i| take(i)).collect();
            let name = format_name(&format);
            assert_eq!(enough[..], [words - 1], "{name} from word {first} on");
        }
    }

    /// Whether there are writes with M and without it in every MODE under a relation.
    fn reached(counts: &ByFlags, relation: Relation) -> bool {
        let mut all = counts.iter().flatten();
        all.all(|by_relation| by_relation[relation as usize] > 0)
    }

    fn assert_reached(of: &OfFormat, name: &str) {
        for (relation, vectors, fills) in [
            (Relation::Gaps, true, false),
            (Relation::Equal, true, false),
            (Relation::Fills, true, true),
            (Relation::NoPayload, false, true),
        ] {
            assert_eq!(
                reached(&of.vectors, relation),
                vectors,
                "{name}, {relation:?}"
            );
            assert_eq!(reached(&of.fills, relation), fills, "{name}, {relation:?}");
        }
    }

    /// Every format with M and MODE under every relation of CL and WL, in the captures of each seed.
    #[test]
    fn every_kind_is_reached() {
        for seed in [1, 2] {
            let mut counts = capture_long_counts::Counts::default();
            cases(seed).iter().for_each(|case| counts.note_case(case));
            for of_unit in &counts.unpacks.counts {
                for format in all_formats() {
                    let of = &of_unit[format.number() as usize];
                    assert_reached(of, &format_name(&format));
                }
            }
        }
    }
}
