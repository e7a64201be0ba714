//! What sheet cases with groups reached.

use crate::chain;
use crate::refusals;
use crate::sheet::{Kind, Refusal, HEADER, MARK};
use crate::sheet_cases::{Case, Outcome};
use crate::sheet_check::{foretold, End};
use crate::sheet_tree::{self, Group, Member, Tree, EDITION, GROUP, MOST_CHAIN, MOST_DEPTH};

/// Whether the sheet starts with a whole record of kind 0, right or wrong.
pub fn starts_second(sheet: &[u8]) -> bool {
    sheet.len() >= HEADER && sheet[..2] == MARK && sheet[2] == EDITION
}

/// The names of what a case with groups, or with a kind of the second edition, reached.
pub fn reached(case: &Case, outcome: &Outcome) -> Vec<String> {
    let mut reached = Vec::new();
    match sheet_tree::read(&case.sheet) {
        Ok(tree) if tree.is_second => note_tree(&tree, case, outcome, &mut reached),
        Err((refusals::LONG, _)) if starts_second(&case.sheet) => {
            reached.push("second edition: refused 46".to_string());
        }
        Err((refusals::LONG, _)) => {}
        Err(refusal) => note_refused(&case.sheet, refusal, &mut reached),
        Ok(_) => {}
    }
    reached
}

fn note_tree(tree: &Tree, case: &Case, outcome: &Outcome, reached: &mut Vec<String>) {
    let mut add = |name: &str, is: bool| {
        if is {
            reached.push(format!("second edition: {name}"));
        }
    };
    let deepest = depth(&tree.members);
    add("sheets", true);
    add("sheets without a record", tree.members.is_empty());
    add(
        "sheets with records alone",
        deepest == 0 && !tree.members.is_empty(),
    );
    let chain = tree.chain_length();
    if chain > MOST_CHAIN {
        note_too_long(chain, case, &mut add);
        return;
    }
    let built = outcome.built.answer.is_ok();
    let whole = foretold(case) == Some(End::Whole) && outcome.ran.answer == Ok(chain::DONE);
    add(
        "chain of 1,048,576 bytes, built",
        chain == MOST_CHAIN && built,
    );
    add(
        "chain of 1,048,576 bytes, run to the end",
        chain == MOST_CHAIN && whole,
    );
    let short = outcome.built.answer == Err((refusals::OUTPUT, 0));
    add("refused 47 with groups", deepest > 0 && short);
    for depth in 1..=deepest {
        add(&format!("depth {depth}, built"), built);
        add(&format!("depth {depth}, run to the end"), whole);
    }
    note_members(&tree.members, reached);
}

fn depth(members: &[Member]) -> usize {
    let of_member = |member: &Member| match member {
        Member::Record(_) => 0,
        Member::Group(group) => 1 + depth(&group.members),
    };
    members.iter().map(of_member).max().unwrap_or(0)
}

fn note_too_long(chain: u128, case: &Case, add: &mut impl FnMut(&str, bool)) {
    add(
        "refused 49, one quadword too many",
        chain == MOST_CHAIN + 16,
    );
    add("refused 49, a start too many", chain == MOST_CHAIN + 32);
    add(
        "refused 49, another number too many",
        chain > MOST_CHAIN + 32,
    );
    add("refused 49, from 2^32 bytes", chain >= 1 << 32);
    add("refused 49, from 2^64 bytes", chain >= 1 << 64);
    let quadwords = chain / 16 - 1;
    for (name, bits) in [("2^32", 32), ("2^64", 64)] {
        let wraps = |sum: u128| sum % (1 << bits) == 0;
        add(
            &format!("refused 49, bytes 0 modulo {name}"),
            wraps(16 * quadwords),
        );
        add(
            &format!("refused 49, quadwords 0 modulo {name}"),
            wraps(quadwords),
        );
    }
    let output = case.output_length as usize;
    add("refused 49, output empty", output == 0);
    add("refused 49, output not empty", output > 0);
}

fn note_members(members: &[Member], reached: &mut Vec<String>) {
    for (i, member) in members.iter().enumerate() {
        if let Member::Group(group) = member {
            let beside = matches!(members.get(i + 1), Some(Member::Group(_)));
            note_group(group, beside, reached);
            note_members(&group.members, reached);
        }
    }
}

fn note_group(group: &Group, beside: bool, reached: &mut Vec<String>) {
    let mut add = |name: &str| reached.push(format!("groups {name}"));
    add(match group.repetitions {
        1 => "repeated once",
        2 => "repeated twice",
        3..=254 => "repeated 3 to 254 times",
        _ => "repeated 255 times",
    });
    let members = &group.members;
    add(match members.len() {
        1 => "of one",
        2..=9 => "of 2 to 9",
        10..=255 => "of 10 to 255",
        256 => "of 256",
        _ => "of more than 256",
    });
    if beside {
        add("beside groups");
    }
    let groups = members.iter().filter(|m| matches!(m, Member::Group(_)));
    match groups.count() {
        0 => add("of records alone"),
        n if n == members.len() => add("of groups alone"),
        _ => add("of groups and records"),
    }
    if matches!(members[..], [Member::Group(_), .., Member::Record(_)]) {
        add("with a record after a group");
    }
}

/// The members still due of each group around the offset, outermost first. The records before it are
/// right.
fn due_around(sheet: &[u8], at: usize) -> Vec<u32> {
    let mut due: Vec<u32> = Vec::new();
    let mut place = HEADER;
    while place < at {
        if let Some(last) = due.last_mut() {
            *last -= 1;
        }
        let header = &sheet[place..place + HEADER];
        place += HEADER;
        match Kind::from_number(header[2]) {
            Some(kind) => place += kind.body_length(header[3]),
            None => due.push(u16::from_le_bytes([header[4], header[5]]) as u32),
        }
        while due.last() == Some(&0) {
            due.pop();
        }
    }
    due
}

fn note_refused(sheet: &[u8], (number, at): Refusal, reached: &mut Vec<String>) {
    let mut add = |name: &str| reached.push(format!("refused {name}"));
    let bytes = &sheet[at..];
    let kind = bytes.get(2).copied().filter(|_| bytes.len() >= HEADER);
    if !starts_second(sheet) {
        let place = if at == 0 { "first" } else { "later" };
        match (number, kind) {
            (refusals::KIND, Some(EDITION)) => add("41, kind 0 later in a first edition"),
            (refusals::KIND, Some(GROUP)) => add(&format!("41, kind 5 {place} in a first edition")),
            _ => {}
        }
        return;
    }
    if at == 0 {
        note_edition(number, bytes, &mut add);
        return;
    }
    let due = due_around(sheet, at);
    let place = if due.is_empty() {
        "outside groups"
    } else {
        "in a group"
    };
    match (number, kind) {
        (refusals::KIND, Some(EDITION)) => add(&format!("41, kind 0 {place}")),
        (refusals::KIND, _) => add(&format!("41, kind above 5 {place}")),
        (refusals::COUNT | refusals::ADDRESS | refusals::DEPTH, Some(GROUP)) => {
            note_group_header(number, bytes, due.len() + 1, &mut add);
        }
        (refusals::CUT, None) if bytes.is_empty() => note_missing(sheet, &due, &mut add),
        (refusals::CUT, None) => add(&format!("44, {place}, header of {} bytes", bytes.len())),
        (refusals::CUT, Some(_)) => add(&format!("44, {place}, body cut")),
        _ => add(&format!("{number}, a record {place}")),
    }
}

fn note_edition(number: u32, bytes: &[u8], add: &mut impl FnMut(&str)) {
    let (count, low, high) = (bytes[3], bytes[4], bytes[5]);
    match number {
        refusals::COUNT if count < 2 => add("42, kind 0 below 2"),
        refusals::COUNT => add("42, kind 0 above 2"),
        _ if high == 0 => add("43, kind 0, low byte"),
        _ if low == 0 => add("43, kind 0, high byte"),
        _ => add("43, kind 0, both bytes"),
    }
    if number == refusals::COUNT && (low, high) != (0, 0) {
        add("42, kind 0, 43 would be next");
    }
}

fn note_group_header(number: u32, bytes: &[u8], depth: usize, add: &mut impl FnMut(&str)) {
    add(&match number {
        refusals::COUNT => format!("42, group at depth {depth}"),
        refusals::ADDRESS => format!("43, group at depth {depth}"),
        _ => format!("52 at depth {depth}"),
    });
    if number == refusals::COUNT && bytes[4..6] == [0, 0] {
        add("42, group, 43 would be next");
    }
    if number == refusals::DEPTH {
        let inside = bytes.len() - HEADER;
        add(if inside == 0 {
            "52, 44 would be next"
        } else {
            "52, records follow"
        });
    }
}

fn note_missing(sheet: &[u8], due: &[u32], add: &mut impl FnMut(&str)) {
    let last = due.last().copied().unwrap_or(0);
    let header = &sheet[sheet.len() - HEADER..];
    let none = header[..3] == [MARK[0], MARK[1], GROUP];
    add(match last {
        1 => "44, one record missing",
        _ => "44, several records missing",
    });
    add(if none {
        "44, all of a group missing"
    } else {
        "44, some of a group missing"
    });
    let lacking = due.len();
    add(if lacking > 1 {
        "44, in groups that lack records too"
    } else {
        "44, in one group"
    });
}

/// Every name.
pub fn names() -> Vec<String> {
    let mut names: Vec<String> = NAMES.iter().map(|name| name.to_string()).collect();
    for depth in 1..=MOST_DEPTH {
        names.push(format!("second edition: depth {depth}, built"));
        names.push(format!("second edition: depth {depth}, run to the end"));
    }
    for depth in 1..=MOST_DEPTH + 1 {
        names.push(format!("refused 42, group at depth {depth}"));
        names.push(format!("refused 43, group at depth {depth}"));
    }
    for place in ["outside groups", "in a group"] {
        names.push(format!("refused 41, kind 0 {place}"));
        names.push(format!("refused 41, kind above 5 {place}"));
        names.push(format!("refused 44, {place}, body cut"));
        for number in [
            refusals::MARK,
            refusals::COUNT,
            refusals::ADDRESS,
            refusals::PAD,
        ] {
            names.push(format!("refused {number}, a record {place}"));
        }
        for bytes in 1..HEADER {
            names.push(format!("refused 44, {place}, header of {bytes} bytes"));
        }
    }
    names
}

const NAMES: &[&str] = &[
    "second edition: sheets",
    "second edition: sheets without a record",
    "second edition: sheets with records alone",
    "second edition: chain of 1,048,576 bytes, built",
    "second edition: chain of 1,048,576 bytes, run to the end",
    "second edition: refused 46",
    "second edition: refused 47 with groups",
    "second edition: refused 49, one quadword too many",
    "second edition: refused 49, a start too many",
    "second edition: refused 49, another number too many",
    "second edition: refused 49, from 2^32 bytes",
    "second edition: refused 49, from 2^64 bytes",
    "second edition: refused 49, bytes 0 modulo 2^32",
    "second edition: refused 49, quadwords 0 modulo 2^32",
    "second edition: refused 49, bytes 0 modulo 2^64",
    "second edition: refused 49, quadwords 0 modulo 2^64",
    "second edition: refused 49, output empty",
    "second edition: refused 49, output not empty",
    "groups repeated once",
    "groups repeated twice",
    "groups repeated 3 to 254 times",
    "groups repeated 255 times",
    "groups of one",
    "groups of 2 to 9",
    "groups of 10 to 255",
    "groups of 256",
    "groups of more than 256",
    "groups beside groups",
    "groups of records alone",
    "groups of groups alone",
    "groups of groups and records",
    "groups with a record after a group",
    "refused 41, kind 0 later in a first edition",
    "refused 41, kind 5 first in a first edition",
    "refused 41, kind 5 later in a first edition",
    "refused 42, kind 0 below 2",
    "refused 42, kind 0 above 2",
    "refused 42, kind 0, 43 would be next",
    "refused 42, group, 43 would be next",
    "refused 43, kind 0, low byte",
    "refused 43, kind 0, high byte",
    "refused 43, kind 0, both bytes",
    "refused 44, one record missing",
    "refused 44, several records missing",
    "refused 44, all of a group missing",
    "refused 44, some of a group missing",
    "refused 44, in one group",
    "refused 44, in groups that lack records too",
    "refused 52 at depth 9",
    "refused 52, 44 would be next",
    "refused 52, records follow",
];
