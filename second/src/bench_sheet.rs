//! Time per build of another program and of our own.

use crate::bench::{measure, Timed, SMALL, TRIES};
use crate::compare::Program;
use crate::group_sheets::{edition, group, nested};
use crate::random::Random;
use crate::sheet::{self, MOST_SHEET};
use crate::sheet_random::{good_record, sheet_of, CODE, DATA, GS, START};
use crate::sheet_time::{input, result};
use crate::words::word;

/// Measures the builder on each timing input and prints a table.
pub fn bench_sheet(program: &Program) -> Result<(), String> {
    let own = Program::own("time-sheet")?;
    check_other_inputs(program)?;
    println!("Builder, us per round and sheet; best of {TRIES} runs each.");
    println!("Start-up is taken off: the time of {SMALL} round is subtracted from that of many.");
    println!(
        "The output is not cleared between rounds. Every sheet is accepted; records as expanded."
    );
    println!();
    println!(
        "{:<18} {:>7} {:>7} {:>7} {:>8} {:>8} {:>7}",
        "sheet", "bytes", "records", "chain", "program", "second", "ratio"
    );
    for (name, sheet) in sheets() {
        let line = line(program, &own, &sheet).map_err(|e| format!("{name}: {e}"))?;
        println!("{name:<18} {line}");
    }
    Ok(())
}

fn line(program: &Program, own: &Program, sheet: &[u8]) -> Result<String, String> {
    let timed = Timed {
        input: &|rounds| input(rounds, sheet),
        units: 1_000.0,
        wrong: |result, _| refusal(result).map(|number| format!("refused {number}")),
    };
    let (theirs, ours) = measure(program, own, &timed)?;
    let records = sheet::records(sheet).map_or(0, |records| records.len());
    let chain = sheet::chain_length(sheet).unwrap_or(0);
    Ok(format!(
        "{:>7} {records:>7} {chain:>7} {theirs:>8.2} {ours:>8.2} {:>7.2}",
        sheet.len(),
        theirs / ours
    ))
}

/// The number that a result gives for a refused sheet.
fn refusal(result: &[u8]) -> Option<u32> {
    let number = word(result, 0);
    (number % 16 != 0).then_some(number)
}

/// The sheets by name.
fn sheets() -> Vec<(&'static str, Vec<u8>)> {
    let random = &mut Random::new(1);
    vec![
        ("21,845 starts", starts(random, MOST_SHEET / sheet::HEADER)),
        ("data, n 255", sheet_of(random, MOST_SHEET, &[DATA], 255)),
        ("code, n 255", sheet_of(random, MOST_SHEET, &[CODE], 255)),
        ("GS, n 255", sheet_of(random, MOST_SHEET, &[GS], 255)),
        (
            "mixed",
            sheet_of(random, MOST_SHEET, &[DATA, CODE, GS, START], 0),
        ),
        (
            "mixed, n 1",
            sheet_of(random, MOST_SHEET, &[DATA, CODE, GS, START], 1),
        ),
        ("groups, 8 deep", deep(random)),
        ("a group of 10,900", wide(random)),
    ]
}

fn starts(random: &mut Random, count: usize) -> Vec<u8> {
    (0..count)
        .flat_map(|_| good_record(random, START, 0))
        .collect()
}

/// A short sheet of the longest chain.
fn deep(random: &mut Random) -> Vec<u8> {
    let inside = nested(&[2, 2, 2, 2, 2, 2, 2, 255], &starts(random, 1));
    let code = good_record(random, CODE, 1);
    [inside, starts(random, 126), code].concat()
}

/// Many records in one group.
fn wide(random: &mut Random) -> Vec<u8> {
    let members = starts(random, 10_900);
    [edition(), group(3, 10_900), members].concat()
}

/// Inputs that are no timing input give no result; refused sheets give one.
fn check_other_inputs(program: &Program) -> Result<(), String> {
    let whole = input(1, &[0x9E, 0x51, 4, 0, 5, 0]);
    let longer = |more: usize| [&whole[..], &vec![0; more]].concat();
    let others = [
        ("an empty input", Vec::new()),
        ("a cut header", whole[..7].to_vec()),
        ("a cut sheet", whole[..whole.len() - 4].to_vec()),
        ("a cut filling", whole[..whole.len() - 1].to_vec()),
        ("a byte too many", longer(1)),
        ("a word too many", longer(4)),
        ("S above its limit", input(1, &[0; 131_089])),
    ];
    for (name, bytes) in others {
        if !program.run(&bytes)?.is_empty() {
            return Err(format!("{name} gives a result"));
        }
    }
    for sheet in [
        &[][..],
        &[0x9E],
        &[0; 131_072],
        &[0; 131_073],
        &[0; 131_088],
    ] {
        let given = input(2, sheet);
        if Some(program.run(&given)?) != result(&given) {
            return Err(format!("a sheet of {} bytes: results differ", sheet.len()));
        }
    }
    Ok(())
}

#[cfg(test)]
mod tests {
    use super::*;

    #[test]
    fn largest_sheets_are_accepted() {
        for (name, sheet) in sheets() {
            let length = match name {
                "21,845 starts" => 131_070,
                "groups, 8 deep" => 830,
                "a group of 10,900" => 65_412,
                _ => 131_072,
            };
            assert_eq!(sheet.len(), length, "{name}");
            let given = result(&input(1, &sheet)).unwrap();
            assert_eq!(refusal(&given), None);
            assert_eq!(sheet::chain_length(&sheet), Ok(word(&given, 0) as usize));
        }
        let random = &mut Random::new(2);
        assert_eq!(sheet::chain_length(&deep(random)), Ok(1_048_576));
        assert_eq!(sheet::chain_length(&wide(random)), Ok(1_046_416));
    }
}
