//! The second program: made from the documents alone, to be compared with the proved one.

mod bench;
mod bench_chain;
mod bench_inputs;
mod bench_payloads;
mod bench_salvage;
mod bench_sheet;
mod capture_cases;
mod capture_compare;
mod capture_counts;
mod capture_cut_check;
mod capture_cut_counts;
mod capture_cut_points;
mod capture_cuts;
mod capture_generate;
mod capture_long_cases;
mod capture_long_codes;
mod capture_long_counts;
mod capture_long_data;
mod capture_long_packets;
mod capture_long_tags;
mod capture_long_unpacks;
mod capture_long_words;
mod capture_packet_cases;
mod capture_packet_counts;
mod capture_path_counts;
mod capture_points;
mod case_results;
mod chain;
mod chain_time;
mod check;
mod check_cases;
mod check_chains;
mod check_compare;
mod check_counts;
mod check_generate;
mod check_points;
mod check_sentences;
mod check_sheets;
mod compare;
mod comparison;
mod count_points;
mod damaged;
mod filled;
mod gif;
mod gif_cases;
mod gif_compare;
mod gif_counts;
mod gif_generate;
mod gif_time;
mod group_counts;
mod group_edges;
mod group_points;
mod group_sheets;
mod history;
mod history_counts;
mod log;
mod log_counts;
mod memory;
mod model;
mod packet_counts;
mod packet_points;
mod path_points;
mod random;
mod refusals;
mod run_counts;
mod salvage;
mod salvage_cases;
mod salvage_check;
mod salvage_compare;
mod salvage_counts;
mod salvage_generate;
mod salvage_points;
mod set;
mod set_cases;
mod set_counts;
mod set_points;
mod sheet;
mod sheet_cases;
mod sheet_check;
mod sheet_compare;
mod sheet_counts;
mod sheet_edges;
mod sheet_generate;
mod sheet_points;
mod sheet_random;
mod sheet_time;
mod sheet_tree;
mod state_block;
mod totals;
mod totals_cases;
mod totals_compare;
mod totals_counts;
mod totals_generate;
mod totals_points;
mod totals_sentences;
mod unpack_counts;
mod unpack_kind;
mod vif;
mod vif_cases;
mod vif_compare;
mod vif_counts;
mod vif_generate;
mod vif_points;
mod vif_unpack;
mod way;
mod why;
mod why_cases;
mod why_check;
mod why_counts;
mod why_points;
mod words;

use case_results::Results;
use std::io::{Read, Write};
use std::process::ExitCode;

const USAGE: &str = "\
usage:
  second gif [--counts] < CASES > RESULTS
  second generate-gif SEED QUADWORDS > CASES
  second points-gif packets|paths > CASES
  second compare-gif PROGRAM SEED[,SEED..] QUADWORDS
  second bench-gif PROGRAM
  second time-gif < INPUT > RESULT
  second vif [--counts] < CASES > RESULTS
  second generate-vif SEED WORDS > CASES
  second points-vif mask|filling|vif0|upload|packets|paths > CASES
  second compare-vif PROGRAM SEED[,SEED..] WORDS
  second capture [--counts] < CASES > RESULTS
  second generate-capture SEED RUNS > CASES
  second generate-cuts SEED RUNS > CASES
  second generate-long SEED > CASES
  second points-capture mask|filling|vif0|upload|packets|paths|sets|whys|counts > CASES
  second compare-capture PROGRAM SEED[,SEED..] RUNS
  second bench-chain PROGRAM [all]
  second time-chain < INPUT > RESULT
  second sheet [--counts] < CASES > RESULTS
  second generate-sheet SEED COUNT > CASES
  second points-sheet groups > CASES
  second compare-sheet PROGRAM SEED[,SEED..] COUNT
  second bench-sheet PROGRAM
  second time-sheet < INPUT > RESULT
  second salvage [--counts] < CASES > RESULTS
  second generate-salvage SEED COUNT > CASES
  second points-salvage > CASES
  second compare-salvage PROGRAM SEED[,SEED..] COUNT
  second bench-salvage PROGRAM
  second time-salvage < CASES > RESULTS
  second check [--counts] < CASES > RESULTS
  second generate-check SEED COUNT > CASES
  second points-check > CASES
  second stored-check > CASES
  second compare-check PROGRAM SEED[,SEED..] COUNT
  second totals [--counts] < CASES > RESULTS
  second generate-totals SEED COUNT > CASES
  second points-totals > CASES
  second stored-totals > CASES
  second compare-totals PROGRAM SEED[,SEED..] COUNT
PROGRAM is the path of an executable; one argument may hold a path and its arguments.
";

fn main() -> ExitCode {
    let arguments: Vec<String> = std::env::args().skip(1).collect();
    let arguments: Vec<&str> = arguments.iter().map(String::as_str).collect();
    match command(&arguments) {
        None => {
            eprint!("{USAGE}");
            ExitCode::from(2)
        }
        Some(Ok(())) => ExitCode::SUCCESS,
        Some(Err(told)) => {
            eprintln!("{told}");
            ExitCode::FAILURE
        }
    }
}

/// Performs a command; none where the arguments name none.
fn command(arguments: &[&str]) -> Option<Result<(), String>> {
    gif_command(arguments)
        .or_else(|| vif_command(arguments))
        .or_else(|| capture_command(arguments))
        .or_else(|| sheet_command(arguments))
        .or_else(|| salvage_command(arguments))
        .or_else(|| check_command(arguments))
        .or_else(|| totals_command(arguments))
}

fn gif_command(arguments: &[&str]) -> Option<Result<(), String>> {
    let done = match arguments {
        ["gif"] => gif_results(false),
        ["gif", "--counts"] => gif_results(true),
        ["generate-gif", seed, quadwords] => write(&gif_generate::generate(
            seed.parse().ok()?,
            quadwords.parse().ok()?,
        )),
        ["points-gif", name] => {
            let mut file = Vec::new();
            let cases = gif_point_cases(name)?;
            cases.iter().for_each(|case| case.write(&mut file));
            write(&file)
        }
        ["compare-gif", program, seeds, quadwords] => {
            let program = compare::Program::parse(program);
            gif_compare::compare(&program, &compare::seeds(seeds)?, quadwords.parse().ok()?)
        }
        ["bench-gif", program] => bench::bench_gif(&compare::Program::parse(program)),
        ["time-gif"] => time_gif(),
        _ => return None,
    };
    Some(done)
}

fn vif_command(arguments: &[&str]) -> Option<Result<(), String>> {
    let done = match arguments {
        ["vif"] => vif_results(false),
        ["vif", "--counts"] => vif_results(true),
        ["generate-vif", seed, words] => write(&vif_generate::generate(
            seed.parse().ok()?,
            words.parse().ok()?,
        )),
        ["points-vif", name] => {
            let mut file = Vec::new();
            let cases = vif_point_cases(name)?;
            cases.iter().for_each(|case| case.write(&mut file));
            write(&file)
        }
        ["compare-vif", program, seeds, words] => {
            let program = compare::Program::parse(program);
            vif_compare::compare(&program, &compare::seeds(seeds)?, words.parse().ok()?)
        }
        _ => return None,
    };
    Some(done)
}

fn capture_command(arguments: &[&str]) -> Option<Result<(), String>> {
    let done = match arguments {
        ["capture"] => capture_results(false),
        ["capture", "--counts"] => capture_results(true),
        ["generate-capture", seed, runs] => write(&capture_generate::generate(
            seed.parse().ok()?,
            runs.parse().ok()?,
        )),
        ["generate-cuts", seed, runs] => {
            let cases = capture_generate::cases(seed.parse().ok()?, runs.parse().ok()?);
            let mut counts = capture_cut_counts::Counts::default();
            let families = capture_cuts::families(seed.parse().ok()?, &cases, &mut counts);
            write(&capture_cuts::file_of(&families))
        }
        ["generate-long", seed] => {
            let cases = capture_long_cases::cases(seed.parse().ok()?);
            write(&capture_generate::file_of(&cases))
        }
        ["points-capture", name] => {
            let mut file = Vec::new();
            let cases = capture_point_cases(name)?;
            cases.iter().for_each(|case| case.write(&mut file));
            write(&file)
        }
        ["compare-capture", program, seeds, runs] => {
            let program = compare::Program::parse(program);
            capture_compare::compare(&program, &compare::seeds(seeds)?, runs.parse().ok()?)
        }
        ["bench-chain", program, more @ ..] if matches!(more, [] | ["all"]) => {
            bench_chain::bench_chain(&compare::Program::parse(program), !more.is_empty())
        }
        ["time-chain"] => time_chain(),
        _ => return None,
    };
    Some(done)
}

fn sheet_command(arguments: &[&str]) -> Option<Result<(), String>> {
    let done = match arguments {
        ["sheet"] => sheet_results(false),
        ["sheet", "--counts"] => sheet_results(true),
        ["generate-sheet", seed, count] => write(&sheet_generate::generate(
            seed.parse().ok()?,
            count.parse().ok()?,
        )),
        ["points-sheet", "groups"] => write(&sheet_points::file(&group_points::expected())),
        ["compare-sheet", program, seeds, count] => {
            let program = compare::Program::parse(program);
            sheet_compare::compare(&program, &compare::seeds(seeds)?, count.parse().ok()?)
        }
        ["bench-sheet", program] => bench_sheet::bench_sheet(&compare::Program::parse(program)),
        ["time-sheet"] => time_sheet(),
        _ => return None,
    };
    Some(done)
}

fn salvage_command(arguments: &[&str]) -> Option<Result<(), String>> {
    let done = match arguments {
        ["salvage"] => salvage_results(false),
        ["salvage", "--counts"] => salvage_results(true),
        ["generate-salvage", seed, count] => write(&salvage_generate::generate(
            seed.parse().ok()?,
            count.parse().ok()?,
        )),
        ["points-salvage"] => write(&salvage_points::file()),
        ["compare-salvage", program, seeds, count] => {
            let program = compare::Program::parse(program);
            salvage_compare::compare(&program, &compare::seeds(seeds)?, count.parse().ok()?)
        }
        ["bench-salvage", program] => {
            bench_salvage::bench_salvage(&compare::Program::parse(program))
        }
        ["time-salvage"] => time_salvage(),
        _ => return None,
    };
    Some(done)
}

fn check_command(arguments: &[&str]) -> Option<Result<(), String>> {
    let done = match arguments {
        ["check"] => check_results(false),
        ["check", "--counts"] => check_results(true),
        ["generate-check", seed, count] => write(&check_generate::generate(
            seed.parse().ok()?,
            count.parse().ok()?,
        )),
        ["points-check"] => write(&check_points::file()),
        ["stored-check"] => write(&check_points::stored()),
        ["compare-check", program, seeds, count] => {
            let program = compare::Program::parse(program);
            check_compare::compare(&program, &compare::seeds(seeds)?, count.parse().ok()?)
        }
        _ => return None,
    };
    Some(done)
}

fn totals_command(arguments: &[&str]) -> Option<Result<(), String>> {
    let done = match arguments {
        ["totals"] => totals_results(false),
        ["totals", "--counts"] => totals_results(true),
        ["generate-totals", seed, count] => write(&totals_generate::generate(
            seed.parse().ok()?,
            count.parse().ok()?,
        )),
        ["points-totals"] => write(&totals_points::file()),
        ["stored-totals"] => {
            let some = totals_generate::generate(1, totals_generate::STORED);
            write(&[totals_points::file(), some].concat())
        }
        ["compare-totals", program, seeds, count] => {
            let program = compare::Program::parse(program);
            totals_compare::compare(&program, &compare::seeds(seeds)?, count.parse().ok()?)
        }
        _ => return None,
    };
    Some(done)
}

/// The points under a name; none for another name.
fn gif_point_cases(name: &str) -> Option<Vec<gif_cases::Case>> {
    match name {
        "packets" => Some(packet_points::in_gif_cases()),
        "paths" => Some(path_points::in_gif_cases()),
        _ => None,
    }
}

fn vif_point_cases(name: &str) -> Option<Vec<vif_cases::Case>> {
    match name {
        "packets" => Some(packet_points::in_vif_cases()),
        "paths" => Some(path_points::in_vif_cases()),
        _ => {
            let points = vif_points::named(name)?;
            Some(points.iter().map(|point| point.case()).collect())
        }
    }
}

fn capture_point_cases(name: &str) -> Option<Vec<capture_cases::Case>> {
    match name {
        "packets" => Some(packet_points::in_captures()),
        "paths" => Some(path_points::in_captures()),
        "sets" => Some(set_points::in_captures()),
        "whys" => Some(why_points::in_captures()),
        "counts" => Some(count_points::in_captures()),
        _ => {
            let points = vif_points::named(name)?;
            Some(points.iter().map(capture_points::case).collect())
        }
    }
}

fn gif_results(with_counts: bool) -> Result<(), String> {
    let mut counts = gif_counts::Counts::default();
    let results = gif_cases::results(&read()?, &mut counts);
    write(&results.bytes)?;
    if with_counts {
        eprint!("{}", compare::table(&counts.rows()));
    }
    Ok(())
}

fn vif_results(with_counts: bool) -> Result<(), String> {
    let mut counts = vif_counts::Counts::default();
    let results = vif_cases::results(&read()?, &mut counts);
    write(&results.bytes)?;
    if with_counts {
        eprint!("{}", compare::table(&counts.rows()));
    }
    Ok(())
}

fn capture_results(with_counts: bool) -> Result<(), String> {
    let mut counts = capture_counts::Counts::default();
    let results = capture_cases::results(&read()?, &mut counts);
    write(&results.bytes)?;
    if with_counts {
        eprint!("{}", compare::table(&counts.rows()));
    }
    match results.broken {
        Some((case, call, told)) => Err(format!("case {case}, call {call}: {told}")),
        None => Ok(()),
    }
}

/// Writes the results, the counts where they are asked for, and what is wrong with our own.
fn tell_results(results: &Results, rows: Option<Vec<(String, u64)>>) -> Result<(), String> {
    write(&results.bytes)?;
    if let Some(rows) = rows {
        eprint!("{}", compare::table(&rows));
    }
    results.sound(0)
}

fn sheet_results(with_counts: bool) -> Result<(), String> {
    let mut counts = sheet_counts::Counts::default();
    let results = sheet_cases::results(&read()?, &mut counts);
    tell_results(&results, with_counts.then(|| counts.rows()))
}

fn salvage_results(with_counts: bool) -> Result<(), String> {
    let mut counts = salvage_counts::Counts::default();
    let results = salvage_cases::results(&read()?, &mut counts);
    tell_results(&results, with_counts.then(|| counts.rows()))
}

fn check_results(with_counts: bool) -> Result<(), String> {
    let mut counts = check_counts::Counts::default();
    let results = check_cases::results(&read()?, &mut counts);
    tell_results(&results, with_counts.then(|| counts.rows()))
}

fn totals_results(with_counts: bool) -> Result<(), String> {
    let mut counts = totals_counts::Counts::default();
    let results = totals_cases::results(&read()?, &mut counts);
    tell_results(&results, with_counts.then(|| counts.rows()))
}

/// The results of salvage cases, with nothing checked or counted.
fn time_salvage() -> Result<(), String> {
    write(&salvage_cases::plain_results(&read()?))
}

fn time_gif() -> Result<(), String> {
    match gif_time::result(&read()?) {
        Some(result) => write(&result),
        None => Ok(()),
    }
}

fn time_chain() -> Result<(), String> {
    match chain_time::result(&read()?) {
        Some(result) => write(&result),
        None => Ok(()),
    }
}

fn time_sheet() -> Result<(), String> {
    match sheet_time::result(&read()?) {
        Some(result) => write(&result),
        None => Ok(()),
    }
}

fn read() -> Result<Vec<u8>, String> {
    let mut bytes = Vec::new();
    std::io::stdin()
        .lock()
        .read_to_end(&mut bytes)
        .map_err(|e| format!("standard input: {e}"))?;
    Ok(bytes)
}

fn write(bytes: &[u8]) -> Result<(), String> {
    let mut out = std::io::stdout().lock();
    out.write_all(bytes)
        .and_then(|()| out.flush())
        .map_err(|e| format!("standard output: {e}"))
}
