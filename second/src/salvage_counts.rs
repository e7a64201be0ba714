//! What salvage cases reached.

use crate::compare::named_rows;
use crate::refusals;
use crate::salvage::{self, Range, Salvaged};
use crate::salvage_cases::{Case, Outcome, MOST_LIST, MOST_OUTPUT};
use crate::salvage_generate::SECTOR;
use crate::sheet::{self, Kind, HEADER, MARK, MOST_SHEET};
use std::collections::HashMap;

const KINDS: [&str; 4] = ["data", "code", "GS", "start"];
const ORDER: [u32; 3] = [refusals::LONG, refusals::KEPT, refusals::RANGES];
/// Why a header is no record's where a mark stands.
const REASONS: [&str; 6] = [
    "kind",
    "count",
    "address",
    "header cut",
    "body cut",
    "non-zero pad",
];

#[derive(Default)]
pub struct Counts {
    by_name: HashMap<String, u64>,
    cases: u64,
    kept: u64,
    dropped: u64,
}

/// A header of a record that is broken in its address, its body's end or its pad.
struct Broken {
    reason: &'static str,
    /// Where its body ends, as the header says.
    end: usize,
}

impl Counts {
    fn add(&mut self, name: &str) {
        self.add_if(name, true);
    }

    fn add_if(&mut self, name: &str, happened: bool) {
        if happened {
            match self.by_name.get_mut(name) {
                Some(count) => *count += 1,
                None => {
                    self.by_name.insert(name.to_string(), 1);
                }
            }
        }
    }

    /// Notes a case and what it gave.
    pub fn note(&mut self, case: &Case, outcome: &Outcome) {
        self.cases += 1;
        let salvaged = salvage::read(&case.sheet);
        let wrong = wrong(case, &salvaged);
        self.note_answer(outcome, &wrong);
        self.note_lengths(case);
        if wrong.first() == Some(&refusals::LONG) {
            return;
        }
        self.note_buffers(case, &salvaged);
        self.kept += salvaged.kept.len() as u64;
        self.note_ranges(&case.sheet, &salvaged.dropped);
        self.note_reading(&case.sheet);
        let valid = sheet::is_first_edition(&case.sheet);
        self.add_if(
            "valid sheets that come back",
            valid && outcome.answer.is_ok(),
        );
    }

    fn note_answer(&mut self, outcome: &Outcome, wrong: &[u32]) {
        match outcome.answer {
            Ok(_) => self.add("done"),
            Err(refusal) => self.add(&refused_name(refusal, wrong.get(1).copied())),
        }
    }

    fn note_lengths(&mut self, case: &Case) {
        let length = case.sheet.len();
        self.add_if("sheets of no byte", length == 0);
        self.add_if("sheets of 1 to 5 bytes", (1..HEADER).contains(&length));
        self.add_if("sheets of 131,072 bytes", length == MOST_SHEET);
        self.add_if("sheets of 131,073 bytes", length == MOST_SHEET + 1);
        self.add_if("sheets of 131,088 bytes", length == MOST_SHEET + 16);
        self.add_if(
            "outputs of 131,088 bytes",
            case.output_length == MOST_OUTPUT,
        );
        self.add_if("lists of 65,536 numbers", case.list_length == MOST_LIST);
    }

    /// Notes the lengths of the buffers beside what is needed.
    fn note_buffers(&mut self, case: &Case, salvaged: &Salvaged) {
        let (output, kept) = (case.output_length as usize, salvaged.kept.len());
        self.add_if("output just long enough", output == kept && kept > 0);
        self.add_if("output one byte longer", output == kept + 1);
        self.add_if("output longer", output > kept + 1);
        self.add_if("output one byte short", output + 1 == kept);
        self.add_if("output of no byte, nothing kept", output == 0 && kept == 0);
        self.add_if("output of no byte, some kept", output == 0 && kept > 0);
        let (list, ranges) = (case.list_length as usize, salvaged.dropped.len());
        let (holds, odd) = (list / 2, list % 2 == 1);
        let parity = if odd { "odd" } else { "even" };
        if kept <= output && ranges > 0 {
            let of_list = |what: &str| format!("list of {parity} length {what}");
            self.add_if(&of_list("that just holds the ranges"), holds == ranges);
            self.add_if(&of_list("with room for one more"), holds == ranges + 1);
            self.add_if(&of_list("that lacks one range"), holds + 1 == ranges);
            self.add_if("list of no number, some dropped", list == 0);
            self.add_if("list of one number, some dropped", list == 1);
        }
        self.add_if(
            "list of no number, nothing dropped",
            list == 0 && ranges == 0,
        );
        self.add_if(
            "list of one number, nothing dropped",
            list == 1 && ranges == 0,
        );
    }

    fn note_ranges(&mut self, sheet: &[u8], ranges: &[Range]) {
        let count = ranges.len();
        self.add_if("no range", count == 0);
        self.add_if("one range", count == 1);
        self.add_if("2 to 9 ranges", (2..10).contains(&count));
        self.add_if("10 to 999 ranges", (10..1_000).contains(&count));
        self.add_if("1,000 ranges or more", count >= 1_000);
        self.add_if("18,724 ranges", count == 18_724);
        for range in ranges {
            self.dropped += range.length as u64;
            let (first, last) = (
                range.offset == 0,
                range.offset + range.length == sheet.len(),
            );
            self.add_if("ranges at the start", first && !last);
            self.add_if("ranges at the end", last && !first);
            self.add_if("ranges in the middle", !first && !last);
            self.add_if("ranges that are the whole sheet", first && last);
            let name = match range.length {
                1 => "ranges of one byte",
                2..=5 => "ranges of 2 to 5 bytes",
                6 => "ranges of 6 bytes",
                7..SECTOR => "ranges of 7 to 511 bytes",
                SECTOR.. => "ranges of 512 bytes or more",
                0 => "",
            };
            self.add(name);
        }
    }

    /// Notes each place that the reading comes to.
    fn note_reading(&mut self, sheet: &[u8]) {
        let mut at = 0;
        let mut broken: Vec<Broken> = Vec::new();
        // Broken headers since the last record that was kept.
        let mut headers = 0;
        while at < sheet.len() {
            broken.retain(|broken| broken.end > at);
            match sheet::first_record(&sheet[at..]) {
                Ok(record) => {
                    self.note_kept(&record, at, &broken);
                    self.add_if("ranges over several broken headers", headers > 1);
                    headers = 0;
                    at += HEADER + record.body.len();
                }
                Err(refusal) => {
                    headers += self.note_dropped(sheet, at, refusal, &mut broken) as u64;
                    at += 1;
                }
            }
        }
    }

    fn note_kept(&mut self, record: &sheet::Record, at: usize, broken: &[Broken]) {
        self.add(&kept_name(record.kind));
        if let Some(around) = broken.last() {
            let end = at + HEADER + record.body.len();
            let reason = around.reason;
            self.add(&format!(
                "records kept inside a body, broken by its {reason}"
            ));
            self.add_if(
                "records kept from a broken body on beyond it",
                end > around.end,
            );
            self.add_if("records kept inside two broken bodies", broken.len() > 1);
        }
        let marks = record.body.windows(2).filter(|bytes| **bytes == MARK);
        self.add_if("kept bodies with marks", marks.count() > 0);
        let is_record = |at: &usize| sheet::first_record(&record.body[*at..]).is_ok();
        // Long bodies are left out.
        let few = record.body.len().min(SECTOR);
        let within = (0..few).any(|at| is_record(&at));
        self.add_if("kept bodies with whole records", within);
    }

    /// Notes a dropped byte; hands back whether a mark stands there.
    fn note_dropped(
        &mut self,
        sheet: &[u8],
        at: usize,
        refusal: u32,
        broken: &mut Vec<Broken>,
    ) -> bool {
        let rest = &sheet[at..];
        let marked = rest.starts_with(&MARK);
        if refusal == refusals::MARK {
            let half = rest[0] == MARK[0];
            self.add(if half {
                "dropped at half a mark"
            } else {
                "dropped without a mark"
            });
            return false;
        }
        if rest.len() < HEADER {
            self.add_if("dropped at the end without a mark", !marked);
            self.add_if(&reason_name(REASONS[3]), marked);
            return marked;
        }
        let reason = match refusal {
            refusals::KIND => REASONS[0],
            refusals::COUNT => REASONS[1],
            refusals::ADDRESS => REASONS[2],
            refusals::CUT => REASONS[4],
            _ => REASONS[5],
        };
        self.add(&reason_name(reason));
        self.add_if("dropped at a mark, kind 0", rest[2] == 0);
        self.add_if("dropped at a mark, kind 5", rest[2] == 5);
        if let (Some(kind), true) = (Kind::from_number(rest[2]), REASONS[1] != reason) {
            let end = at + HEADER + kind.body_length(rest[3]);
            broken.push(Broken { reason, end });
        }
        true
    }

    /// Every count by name.
    pub fn rows(&self) -> Vec<(String, u64)> {
        let mut rows = vec![
            ("cases".to_string(), self.cases),
            ("bytes kept".to_string(), self.kept),
            ("bytes dropped".to_string(), self.dropped),
        ];
        rows.extend(named_rows(&self.by_name, names()));
        rows
    }
}

/// The numbers of all that is wrong with a case, in order.
fn wrong(case: &Case, salvaged: &Salvaged) -> Vec<u32> {
    let all = [
        case.sheet.len() > MOST_SHEET,
        salvaged.kept.len() > case.output_length as usize,
        salvaged.dropped.len() > case.list_length as usize / 2,
    ];
    let named = ORDER.into_iter().zip(all);
    named.filter(|(_, is)| *is).map(|(name, _)| name).collect()
}

fn refused_name(refusal: u32, next: Option<u32>) -> String {
    match next {
        Some(next) => format!("refused {refusal}, {next} would be next"),
        None => format!("refused {refusal}, nothing else wrong"),
    }
}

fn kept_name(kind: Kind) -> String {
    format!("records kept, {}", KINDS[kind as usize])
}

fn reason_name(reason: &str) -> String {
    format!("dropped at a mark, by its {reason}")
}

fn names() -> Vec<String> {
    let mut names: Vec<String> = NAMES.iter().map(|name| name.to_string()).collect();
    for (i, &first) in ORDER.iter().enumerate() {
        names.push(refused_name(first, None));
        for &next in &ORDER[i + 1..] {
            names.push(refused_name(first, Some(next)));
        }
    }
    names.extend(KINDS.map(|kind| format!("records kept, {kind}")));
    names.extend(REASONS.map(reason_name));
    for reason in ["address", "body cut", "non-zero pad"] {
        names.push(format!(
            "records kept inside a body, broken by its {reason}"
        ));
    }
    for parity in ["even", "odd"] {
        for what in [
            "that just holds the ranges",
            "with room for one more",
            "that lacks one range",
        ] {
            names.push(format!("list of {parity} length {what}"));
        }
    }
    names
}

const NAMES: &[&str] = &[
    "done",
    "valid sheets that come back",
    "sheets of no byte",
    "sheets of 1 to 5 bytes",
    "sheets of 131,072 bytes",
    "sheets of 131,073 bytes",
    "sheets of 131,088 bytes",
    "outputs of 131,088 bytes",
    "lists of 65,536 numbers",
    "output just long enough",
    "output one byte longer",
    "output longer",
    "output one byte short",
    "output of no byte, nothing kept",
    "output of no byte, some kept",
    "list of no number, some dropped",
    "list of one number, some dropped",
    "list of no number, nothing dropped",
    "list of one number, nothing dropped",
    "no range",
    "one range",
    "2 to 9 ranges",
    "10 to 999 ranges",
    "1,000 ranges or more",
    "18,724 ranges",
    "ranges at the start",
    "ranges in the middle",
    "ranges at the end",
    "ranges that are the whole sheet",
    "ranges of one byte",
    "ranges of 2 to 5 bytes",
    "ranges of 6 bytes",
    "ranges of 7 to 511 bytes",
    "ranges of 512 bytes or more",
    "ranges over several broken headers",
    "records kept from a broken body on beyond it",
    "records kept inside two broken bodies",
    "kept bodies with marks",
    "kept bodies with whole records",
    "dropped without a mark",
    "dropped at half a mark",
    "dropped at the end without a mark",
    "dropped at a mark, kind 0",
    "dropped at a mark, kind 5",
];
