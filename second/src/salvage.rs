//! Salvaging a damaged sheet: its whole valid records, and the ranges that are dropped.

use crate::refusals;
use crate::sheet::{self, HEADER, MOST_SHEET};

/// Bytes of a sheet: offset and length.
#[derive(Clone, Copy, PartialEq, Eq, Debug)]
pub struct Range {
    pub offset: usize,
    pub length: usize,
}

/// What the reading of a sheet kept and dropped.
#[derive(Default, PartialEq, Eq, Debug)]
pub struct Salvaged {
    /// The kept records, one after another.
    pub kept: Vec<u8>,
    /// The dropped ranges in order, joined where they touch.
    pub dropped: Vec<Range>,
}

/// Reads a sheet from offset 0: a whole valid record is kept and passed over, otherwise one byte
/// is dropped.
pub fn read(sheet: &[u8]) -> Salvaged {
    let mut salvaged = Salvaged::default();
    let mut at = 0;
    while at < sheet.len() {
        match sheet::first_record(&sheet[at..]) {
            Ok(record) => {
                let end = at + HEADER + record.body.len();
                salvaged.kept.extend_from_slice(&sheet[at..end]);
                at = end;
            }
            Err(_) => {
                salvaged.drop_byte(at);
                at += 1;
            }
        }
    }
    salvaged
}

impl Salvaged {
    fn drop_byte(&mut self, at: usize) {
        match self.dropped.last_mut() {
            Some(range) if range.offset + range.length == at => range.length += 1,
            _ => self.dropped.push(Range {
                offset: at,
                length: 1,
            }),
        }
    }
}

/// The bytes and ranges that were written.
#[derive(Clone, Copy, PartialEq, Eq, Debug)]
pub struct Written {
    pub bytes: usize,
    pub ranges: usize,
}

/// Writes what a sheet keeps to the output and the ranges dropped to the list, two numbers each.
/// A refusal leaves both as they were.
pub fn salvage(sheet: &[u8], output: &mut [u8], list: &mut [u64]) -> Result<Written, u32> {
    if sheet.len() > MOST_SHEET {
        return Err(refusals::LONG);
    }
    let Salvaged { kept, dropped } = read(sheet);
    if kept.len() > output.len() {
        return Err(refusals::KEPT);
    }
    if dropped.len() > list.len() / 2 {
        return Err(refusals::RANGES);
    }
    output[..kept.len()].copy_from_slice(&kept);
    for (numbers, range) in list.chunks_exact_mut(2).zip(&dropped) {
        numbers.copy_from_slice(&[range.offset as u64, range.length as u64]);
    }
    Ok(Written {
        bytes: kept.len(),
        ranges: dropped.len(),
    })
}
