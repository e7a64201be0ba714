//! What GIF cases reached.

use crate::gif::{self, bits, Format, Path, PathNumber, Place, Tag, PATH_NUMBERS};
use crate::gif_cases::Standing;
use crate::log;
use crate::log_counts;
use crate::packet_counts;
use crate::refusals;

#[derive(Default)]
pub struct Counts {
    pub cases: u64,
    quadwords: u64,
    /// Tags with data by FLG.
    tags: [u64; 4],
    /// Tags with NLOOP 0 by FLG.
    empty_tags: [u64; 4],
    /// By path.
    entries: [u64; 2],
    pre_writes: [u64; 2],
    /// PRE set in a tag that doesn't write it, by the reason.
    pre_ignored_empty: u64,
    pre_ignored_reglist: u64,
    pre_ignored_image: u64,
    nreg: [u64; 16],
    /// Data met by descriptor; B is met when it is refused.
    packed: [u64; 16],
    redirected: [u64; 2],
    reglist: [u64; 16],
    dropped_halves: u64,
    dropped_b: u64,
    image: u64,
    completed: [u64; 3],
    logs: log_counts::Counts,
    refused_log_before_range: u64,
    refused_no_path: u64,
    refused_nloop: u64,
    refused_nreg: u64,
    refused_due: u64,
    refused_b_packed: u64,
    refused_b_first: u64,
    refused_b_second: u64,
    refused_b_and_full: u64,
    refused_room_tag: u64,
    /// By format, with no entry free and with one.
    refused_room: [[u64; 2]; 3],
    exactly_full: u64,
    taken_while_full: u64,
    /// By place in the entry.
    unchanged: [u64; log::ENTRY],
    /// By path.
    packets: [packet_counts::Counts; 2],
}

/// The place of a path in counts by path.
fn place(number: PathNumber) -> usize {
    (number == PathNumber::Three) as usize
}

impl Counts {
    /// Notes one quadword: what stood before it, how it was taken, and what stands now.
    pub fn note(
        &mut self,
        before: Option<&Path>,
        used: u64,
        quadword: u128,
        taken: Result<bool, u32>,
        now: &Standing,
        changes: &[(usize, u64)],
    ) {
        self.quadwords += 1;
        self.logs.note(now.log.len(), used);
        match taken {
            Err(refusals::LOG) => {
                let wrong = !before.is_some_and(gif::path_in_range);
                self.refused_log_before_range += wrong as u64;
            }
            Err(refusals::RANGE) => self.note_range(before),
            _ => {
                let path = before.expect("only an existing path is stepped");
                self.packets[place(now.number)].note(path, quadword, taken);
                let refusal = taken.err();
                match &path.place {
                    Place::Idle => self.note_tag(now.number, quadword, refusal),
                    Place::Data { tag, due } => {
                        let free = log::room(now.log.len(), used);
                        self.note_data(tag, *due, quadword, refusal, free);
                    }
                }
                if refusal.is_none() {
                    self.note_writes(used, now, changes);
                }
            }
        }
    }

    fn note_range(&mut self, before: Option<&Path>) {
        match before {
            None => self.refused_no_path += 1,
            Some(Path {
                place: Place::Data { tag, .. },
                ..
            }) => {
                if !(1..=32_767).contains(&tag.nloop) {
                    self.refused_nloop += 1;
                } else if !(1..=16).contains(&tag.nreg) {
                    self.refused_nreg += 1;
                } else {
                    self.refused_due += 1;
                }
            }
            Some(_) => {}
        }
    }

    fn note_tag(&mut self, number: PathNumber, quadword: u128, refusal: Option<u32>) {
        if refusal.is_some() {
            self.refused_room_tag += 1;
            return;
        }
        let flg = bits(quadword, 58, 2) as usize;
        let pre = bits(quadword, 46, 1) == 1;
        if bits(quadword, 0, 15) == 0 {
            self.empty_tags[flg] += 1;
            self.pre_ignored_empty += (pre && flg == 0) as u64;
            return;
        }
        self.tags[flg] += 1;
        self.nreg[bits(quadword, 60, 4) as usize] += 1;
        if pre {
            match flg {
                0 => self.pre_writes[place(number)] += 1,
                1 => self.pre_ignored_reglist += 1,
                _ => self.pre_ignored_image += 1,
            }
        }
    }

    fn note_data(&mut self, tag: &Tag, due: u32, quadword: u128, refusal: Option<u32>, free: u64) {
        if refusal == Some(refusals::DESCRIPTOR) && free == 0 {
            self.refused_b_and_full += 1;
        }
        if refusal == Some(refusals::ROOM) {
            self.refused_room[tag.format as usize][free as usize] += 1;
            return;
        }
        match tag.format {
            Format::Packed => self.note_packed(tag.packed_descriptor(due), quadword),
            Format::Reglist => self.note_reglist(tag, tag.reglist_descriptors(due), refusal),
            Format::Image => self.image += 1,
        }
        if refusal.is_none() && due == 1 {
            self.completed[tag.format as usize] += 1;
        }
    }

    fn note_packed(&mut self, descriptor: u8, quadword: u128) {
        self.packed[descriptor as usize] += 1;
        match descriptor {
            4 | 5 => self.redirected[descriptor as usize - 4] += bits(quadword, 111, 1),
            0xB => self.refused_b_packed += 1,
            _ => {}
        }
    }

    fn note_reglist(&mut self, tag: &Tag, halves: (u8, Option<u8>), refusal: Option<u32>) {
        if refusal == Some(refusals::DESCRIPTOR) {
            self.reglist[0xB] += 1;
            if halves.0 == 0xB {
                self.refused_b_first += 1;
            } else {
                self.refused_b_second += 1;
            }
            return;
        }
        self.reglist[halves.0 as usize] += 1;
        match halves.1 {
            Some(second) => self.reglist[second as usize] += 1,
            None => {
                self.dropped_halves += 1;
                // Read on, the dropped half would go by descriptor 0.
                self.dropped_b += (tag.descriptors & 15 == 0xB) as u64;
            }
        }
    }

    fn note_writes(&mut self, used: u64, now: &Standing, changes: &[(usize, u64)]) {
        let written = now.used - used;
        self.entries[place(now.number)] += written;
        let full = log::is_full(now.log.len(), now.used);
        self.exactly_full += (full && written > 0) as u64;
        self.taken_while_full += (full && written == 0) as u64;
        for (i, unchanged) in self.unchanged.iter_mut().enumerate() {
            let changed = changes.iter().filter(|(at, _)| at % log::ENTRY == i);
            *unchanged += written - changed.count() as u64;
        }
    }

    /// Every count by name.
    pub fn rows(&self) -> Vec<(String, u64)> {
        let mut rows: Vec<(String, u64)> = Vec::new();
        let mut row = |name: &str, count: u64| rows.push((name.to_string(), count));
        row("cases", self.cases);
        row("quadwords", self.quadwords);
        for (flg, name) in ["PACKED", "REGLIST", "IMAGE (2)", "IMAGE (3)"]
            .iter()
            .enumerate()
        {
            row(&format!("tags with data, {name}"), self.tags[flg]);
            row(&format!("tags with NLOOP 0, {name}"), self.empty_tags[flg]);
        }
        for (n, &count) in self.nreg.iter().enumerate() {
            row(&format!("tags with data, NREG field {n}"), count);
        }
        row(
            "PRE without a write, PACKED with NLOOP 0",
            self.pre_ignored_empty,
        );
        row("PRE without a write, REGLIST", self.pre_ignored_reglist);
        row("PRE without a write, IMAGE", self.pre_ignored_image);
        for (d, &count) in self.packed.iter().enumerate() {
            row(&format!("PACKED data, descriptor {d:X}"), count);
        }
        row("PACKED 4 redirected to 0C", self.redirected[0]);
        row("PACKED 5 redirected to 0D", self.redirected[1]);
        for (d, &count) in self.reglist.iter().enumerate() {
            row(&format!("REGLIST data, descriptor {d:X}"), count);
        }
        row("REGLIST odd halves dropped", self.dropped_halves);
        row(
            "REGLIST odd halves dropped, descriptor B next",
            self.dropped_b,
        );
        row("IMAGE quadwords", self.image);
        row("tags completed, PACKED", self.completed[0]);
        row("tags completed, REGLIST", self.completed[1]);
        row("tags completed, IMAGE", self.completed[2]);
        row(
            "refused 4, path out of range too",
            self.refused_log_before_range,
        );
        row("refused 5, block in no path", self.refused_no_path);
        row("refused 5, NLOOP", self.refused_nloop);
        row("refused 5, NREG", self.refused_nreg);
        row("refused 5, quadwords due", self.refused_due);
        row("refused 30, PACKED", self.refused_b_packed);
        row("refused 30, REGLIST first half", self.refused_b_first);
        row("refused 30, REGLIST second half", self.refused_b_second);
        row("refused 30 with the log full", self.refused_b_and_full);
        row("refused 31, at a tag", self.refused_room_tag);
        for (format, free, count) in [
            ("PACKED", "no entry", self.refused_room[0][0]),
            ("REGLIST", "no entry", self.refused_room[1][0]),
            ("REGLIST", "one entry", self.refused_room[1][1]),
            ("IMAGE", "no entry", self.refused_room[2][0]),
            ("IMAGE", "one entry", self.refused_room[2][1]),
        ] {
            row(&format!("refused 31, {format}, {free} free"), count);
        }
        row("log exactly full after a write", self.exactly_full);
        row("taken without a write, log full", self.taken_while_full);
        for (name, count) in ["paths", "registers", "values"].iter().zip(self.unchanged) {
            row(&format!("{name} written with the number held"), count);
        }
        rows.extend(self.logs.rows());
        for number in PATH_NUMBERS {
            let (i, of) = (place(number), format!("path {}", number as u32));
            rows.push((format!("entries; {of}"), self.entries[i]));
            rows.push((format!("PRE writes; {of}"), self.pre_writes[i]));
            rows.extend(self.packets[i].rows(&of));
        }
        rows
    }
}
