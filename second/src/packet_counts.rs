//! How quadwords closed packets, and which closed none.

use crate::compare::named_rows;
use crate::gif::{Format, Path, Place, Tag};
use crate::refusals;
use std::collections::HashMap;

// What ends a tag: the tag itself, or the last quadword of its data.
const NO_DATA: &str = "a tag with NLOOP 0";
const PACKED: &str = "PACKED data";
const E: &str = "PACKED data, descriptor E";
const F: &str = "PACKED data, descriptor F";
const REGLIST: &str = "REGLIST data";
const DROPPED: &str = "REGLIST data, a half dropped";
const IMAGE: &str = "IMAGE data";

const ENDS: [&str; 7] = [NO_DATA, PACKED, E, F, REGLIST, DROPPED, IMAGE];
/// The ends that can be refused, by the refusal.
const REFUSED: [(u32, &[&str]); 2] = [
    (refusals::DESCRIPTOR, &[PACKED, REGLIST, DROPPED]),
    (refusals::ROOM, &[PACKED, E, REGLIST, DROPPED, IMAGE]),
];
const TAG: &str = "a tag with EOP and data";
const EARLIER: &str = "data with EOP that is not the last";

/// The quadwords of one path or code.
#[derive(Default)]
pub struct Counts {
    by_name: HashMap<String, u64>,
}

impl Counts {
    /// Notes a quadword that a path in range was given, and whether it closed a packet.
    pub fn note(&mut self, before: &Path, quadword: u128, taken: Result<bool, u32>) {
        let name = match (end(before, quadword), taken) {
            (Some(end), Ok(true)) => closed_by(end),
            (Some(end), Ok(false)) => open_after(end),
            (Some(end), Err(refusal)) if tag_of(before, quadword).eop => refused_at(end, refusal),
            (None, Ok(_)) if tag_of(before, quadword).eop => match before.place {
                Place::Idle => no_packet(TAG),
                Place::Data { .. } => no_packet(EARLIER),
            },
            _ => return,
        };
        *self.by_name.entry(name).or_default() += 1;
    }

    /// Every count by name, with the path or code.
    pub fn rows(&self, of: &str) -> Vec<(String, u64)> {
        let rows = named_rows(&self.by_name, names());
        let with = |(name, count)| (format!("{name}; {of}"), count);
        rows.into_iter().map(with).collect()
    }
}

/// The tag that a quadword is, or that its data belongs to.
fn tag_of(path: &Path, quadword: u128) -> Tag {
    match path.place {
        Place::Idle => Tag::decode(quadword),
        Place::Data { tag, .. } => tag,
    }
}

/// Whether a quadword ends a tag: no data of the tag is still to come.
fn ends(path: &Path, quadword: u128) -> bool {
    match path.place {
        Place::Idle => Tag::decode(quadword).nloop == 0,
        Place::Data { due, .. } => due == 1,
    }
}

/// Whether a quadword closes a packet where it is taken.
pub fn closes(path: &Path, quadword: u128) -> bool {
    ends(path, quadword) && tag_of(path, quadword).eop
}

/// How a quadword ends a tag; none where it does not.
fn end(path: &Path, quadword: u128) -> Option<&'static str> {
    ends(path, quadword).then(|| match path.place {
        Place::Idle => NO_DATA,
        Place::Data { tag, .. } => data_end(&tag),
    })
}

/// How the last data quadword ends a tag.
fn data_end(tag: &Tag) -> &'static str {
    match tag.format {
        Format::Image => IMAGE,
        Format::Packed => match tag.packed_descriptor(1) {
            0xE => E,
            0xF => F,
            _ => PACKED,
        },
        Format::Reglist => match tag.reglist_descriptors(1) {
            (_, Some(_)) => REGLIST,
            (_, None) => DROPPED,
        },
    }
}

fn closed_by(end: &str) -> String {
    format!("packets closed by {end}")
}

fn no_packet(by: &str) -> String {
    format!("no packet closed by {by}")
}

fn open_after(end: &str) -> String {
    no_packet(&format!("{end} without EOP"))
}

fn refused_at(end: &str, refusal: u32) -> String {
    no_packet(&format!("{end} with EOP, refused {refusal}"))
}

fn names() -> Vec<String> {
    let mut names = vec![no_packet(TAG), no_packet(EARLIER)];
    for end in ENDS {
        names.push(closed_by(end));
        names.push(open_after(end));
    }
    for (refusal, ends) in REFUSED {
        names.extend(ends.iter().map(|end| refused_at(end, refusal)));
    }
    names
}
