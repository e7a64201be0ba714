//! Time per payload word of another program, of our own and of a copy.

use crate::bench::{measure, Timed, SMALL, TRIES};
use crate::bench_inputs::{inputs, more_inputs, ChainInput};
use crate::capture_generate::tag;
use crate::chain::END;
use crate::chain_time::{input, MOST_QUADWORDS};
use crate::compare::Program;
use crate::words::word;
use std::hint::black_box;
use std::time::Instant;

/// Words that a measurement of copying copies in all, some tenths of a second's.
const COPIED_WORDS: usize = 1 << 28;

/// Measures chains on each timing input, with `all` on more of them, and prints a table.
pub fn bench_chain(program: &Program, all: bool) -> Result<(), String> {
    let own = Program::own("time-chain")?;
    check_other_inputs(program)?;
    println!("Chains, ns per word that the tags hand over; best of {TRIES} runs each.");
    println!("Start-up is taken off: the time of {SMALL} round is subtracted from that of many.");
    println!("Memories are not cleared between rounds. Every run answers 0.");
    println!("memcpy copies the same words, again and again to one place.");
    println!();
    println!(
        "{:<18} {:>8} {:>8} {:>7} {:>8} {:>9}",
        "input", "program", "second", "ratio", "memcpy", "to memcpy"
    );
    let mut chains = inputs();
    if all {
        chains.extend(more_inputs());
    }
    chains
        .iter()
        .try_for_each(|chain| print_line(program, &own, chain))
}

/// Measures an input and prints its line.
fn print_line(program: &Program, own: &Program, chain: &ChainInput) -> Result<(), String> {
    let timed = Timed {
        input: &|rounds| input(rounds, chain.channel, &chain.main),
        units: chain.payload.len() as f64,
        wrong: not_done,
    };
    let (theirs, ours) =
        measure(program, own, &timed).map_err(|e| format!("{}: {e}", chain.name))?;
    let copy = copy_time(&chain.payload);
    println!(
        "{:<18} {:>8.3} {:>8.3} {:>7.2} {:>8.4} {:>9.1}",
        chain.name,
        theirs,
        ours,
        theirs / ours,
        copy,
        theirs / copy
    );
    Ok(())
}

/// How many runs did not end with 0, where any did not.
fn not_done(result: &[u8], rounds: u32) -> Option<String> {
    match word(result, 2) {
        0 => None,
        runs => Some(format!("{runs} of {rounds} runs did not end with 0")),
    }
}

/// Nanoseconds per word of a plain copy, the best of some tries.
fn copy_time(from: &[u32]) -> f64 {
    let mut to = vec![0; from.len()];
    let copies = COPIED_WORDS.div_ceil(from.len());
    let mut best = f64::MAX;
    for _ in 0..TRIES {
        let start = Instant::now();
        for _ in 0..copies {
            to.copy_from_slice(black_box(from));
            black_box(&mut to);
        }
        best = best.min(start.elapsed().as_secs_f64());
    }
    best / (copies * from.len()) as f64 * 1e9
}

/// Inputs that are no timing input give no result.
fn check_other_inputs(program: &Program) -> Result<(), String> {
    let main = [tag(END, 0, 0), [0; 4]].concat();
    let whole = input(1, 1, &main);
    let longer = [&whole[..], &[0]].concat();
    let mut too_much = main.clone();
    too_much.resize(4 * (MOST_QUADWORDS + 1), 0);
    let others = [
        ("an empty input", Vec::new()),
        ("a cut header", whole[..11].to_vec()),
        ("a cut quadword", whole[..whole.len() - 1].to_vec()),
        ("a missing quadword", whole[..whole.len() - 16].to_vec()),
        ("a byte too many", longer),
        ("channel 3", input(1, 3, &main)),
        ("n 0", input(1, 1, &[])),
        ("n above its limit", input(1, 1, &too_much)),
    ];
    for (name, bytes) in others {
        if !program.run(&bytes)?.is_empty() {
            return Err(format!("{name} gives a result"));
        }
    }
    Ok(())
}
