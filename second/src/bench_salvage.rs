//! Time per salvage of another program and of our own.

use crate::bench::TRIES;
use crate::compare::Program;
use crate::random::Random;
use crate::salvage;
use crate::salvage_cases::Case;
use crate::salvage_generate::SECTOR;
use crate::sheet::{MARK, MOST_SHEET};
use crate::sheet_random::{random_bytes, sheet_of, CODE, DATA, GS, START};
use std::time::Instant;

/// The cases of a file, few and many.
const FEW: usize = 1;
const MANY: usize = 100;
/// One sector in so many is bad.
const BAD_EVERY: usize = 8;

/// Measures salvage on each sheet and prints a table.
pub fn bench_salvage(program: &Program) -> Result<(), String> {
    let own = Program::own("time-salvage")?;
    println!("Salvage, us per case of {MOST_SHEET} bytes, reading and writing its case included; best of {TRIES} runs each.");
    println!("Start-up is taken off: the time of {FEW} case is subtracted from that of {MANY}.");
    println!();
    println!(
        "{:<12} {:>7} {:>7} {:>8} {:>8} {:>7}",
        "sheet", "kept", "ranges", "program", "second", "ratio"
    );
    for (name, sheet) in sheets() {
        let line = line(program, &own, sheet).map_err(|e| format!("{name}: {e}"))?;
        println!("{name:<12} {line}");
    }
    Ok(())
}

fn line(program: &Program, own: &Program, sheet: Vec<u8>) -> Result<String, String> {
    let salvaged = salvage::read(&sheet);
    let (kept, ranges) = (salvaged.kept.len(), salvaged.dropped.len());
    let case = Case {
        sheet,
        output_length: MOST_SHEET as u32,
        list_length: 2 * ranges as u32,
        fill: 1,
    };
    let files = [FEW, MANY].map(|count| file_of(&case, count));
    for file in &files {
        if program.run(file)? != own.run(file)? {
            return Err("results differ".to_string());
        }
    }
    let [theirs, ours] = each([program, own], &files)?;
    let ratio = theirs / ours;
    Ok(format!(
        "{kept:>7} {ranges:>7} {theirs:>8.1} {ours:>8.1} {ratio:>7.2}"
    ))
}

fn file_of(case: &Case, count: usize) -> Vec<u8> {
    let mut file = Vec::new();
    (0..count).for_each(|_| case.write(&mut file));
    file
}

/// Microseconds per case of each program, which are run by turns.
fn each(programs: [&Program; 2], files: &[Vec<u8>; 2]) -> Result<[f64; 2], String> {
    let mut best = [[f64::MAX; 2]; 2];
    for _ in 0..TRIES {
        for (program, best) in programs.iter().zip(&mut best) {
            for (best, file) in best.iter_mut().zip(files) {
                let start = Instant::now();
                program.run(file)?;
                *best = best.min(start.elapsed().as_secs_f64());
            }
        }
    }
    Ok(best.map(|[few, many]| (many - few) / (MANY - FEW) as f64 * 1e6))
}

/// The sheets by name, each as long as a sheet may be.
fn sheets() -> Vec<(&'static str, Vec<u8>)> {
    let random = &mut Random::new(1);
    let valid = sheet_of(random, MOST_SHEET, &[DATA, CODE, GS, START], 0);
    let mut bad = valid.clone();
    for (i, sector) in bad.chunks_mut(SECTOR).enumerate() {
        if i % BAD_EVERY == BAD_EVERY / 2 {
            let bytes = random_bytes(random, sector.len());
            let zeros = i / BAD_EVERY % 2 == 0;
            sector.copy_from_slice(&bytes);
            if zeros {
                sector.fill(0);
            }
        }
    }
    vec![
        ("marks", MARK.repeat(MOST_SHEET / MARK.len())),
        ("valid", valid),
        ("bad sectors", bad),
    ]
}

#[cfg(test)]
mod tests {
    use super::*;
    use crate::sheet;

    #[test]
    fn what_is_measured() {
        let sheets = sheets();
        for (name, sheet) in &sheets {
            assert_eq!(sheet.len(), MOST_SHEET, "{name}");
        }
        let kept = |i: usize| salvage::read(&sheets[i].1).kept.len();
        assert_eq!(kept(0), 0);
        assert_eq!(kept(1), MOST_SHEET);
        assert!(sheet::is_first_edition(&sheets[1].1));
        assert!(
            (MOST_SHEET / 4..MOST_SHEET).contains(&kept(2)),
            "{}",
            kept(2)
        );
    }
}
