//! Time per quadword of another program and of our own.

use crate::compare::Program;
use crate::gif::Tag;
use crate::gif_generate::tag_quadword;
use crate::gif_time::{input, MOST_QUADWORDS};
use crate::random::Random;
use crate::words::word;
use std::time::Instant;

pub const TRIES: usize = 3;
pub const SMALL: u32 = 1;
/// Numbers of rounds to compare results with before any is measured.
const FEW: [u32; 4] = [0, 1, 2, 5];
/// Aimed at for a run with the large number of rounds, in seconds.
const AIM: f64 = 0.7;

/// Measures the GIF on each timing input and prints a table.
pub fn bench_gif(program: &Program) -> Result<(), String> {
    let own = Program::own("time-gif")?;
    check_other_inputs(program)?;
    println!("GIF, ns per quadword; best of {TRIES} runs each.");
    println!("Start-up is taken off: the time of {SMALL} round is subtracted from that of many.");
    println!("Buffers are not cleared between rounds.");
    println!();
    println!(
        "{:<14} {:>8} {:>8} {:>7}",
        "input", "program", "second", "ratio"
    );
    for (name, data) in inputs() {
        let timed = Timed {
            input: &|rounds| input(rounds, &data),
            units: data.len() as f64,
            wrong: |result, _| match word(result, 0) {
                0 => None,
                refused => Some(format!("{refused} quadwords refused")),
            },
        };
        let (theirs, ours) = measure(program, &own, &timed).map_err(|e| format!("{name}: {e}"))?;
        println!(
            "{:<14} {:>8.2} {:>8.2} {:>7.2}",
            name,
            theirs,
            ours,
            theirs / ours
        );
    }
    Ok(())
}

/// A timing input for any number of rounds.
pub struct Timed<'a> {
    pub input: &'a dyn Fn(u32) -> Vec<u8>,
    /// What a round has of what the time is measured for.
    pub units: f64,
    /// What a result of so many rounds says that should not have happened.
    pub wrong: fn(&[u8], u32) -> Option<String>,
}

impl Timed<'_> {
    /// The result of a run and the seconds that it took; every round has to be well.
    fn run(&self, program: &Program, rounds: u32) -> Result<(f64, Vec<u8>), String> {
        let given = (self.input)(rounds);
        let start = Instant::now();
        let output = program.run(&given)?;
        let seconds = start.elapsed().as_secs_f64();
        if output.is_empty() {
            return Err(format!("{rounds} rounds: no result"));
        }
        match (self.wrong)(&output, rounds) {
            None => Ok((seconds, output)),
            Some(told) => Err(format!("{rounds} rounds: {told}")),
        }
    }
}

/// A number of rounds that takes about the time aimed at.
fn large_rounds(program: &Program, timed: &Timed) -> Result<u32, String> {
    let (start_up, _) = timed.run(program, SMALL)?;
    let mut rounds = 64u32;
    loop {
        let (time, _) = timed.run(program, rounds)?;
        let net = time - start_up;
        if net > 0.1 {
            let wanted = rounds as f64 * AIM / net;
            return Ok(wanted.clamp(SMALL as f64 + 1.0, 1e9) as u32);
        }
        if rounds > 1 << 28 {
            return Err("too fast to be measured".to_string());
        }
        rounds *= 4;
    }
}

/// Both programs give the same result.
fn check_same(program: &Program, own: &Program, timed: &Timed, rounds: u32) -> Result<(), String> {
    let (theirs, ours) = (timed.run(program, rounds)?.1, timed.run(own, rounds)?.1);
    if theirs != ours {
        return Err(format!(
            "{rounds} rounds: results differ: {theirs:02X?}, ours {ours:02X?}"
        ));
    }
    Ok(())
}

/// Nanoseconds per unit of both programs, once their results are the same.
pub fn measure(program: &Program, own: &Program, timed: &Timed) -> Result<(f64, f64), String> {
    for rounds in FEW {
        check_same(program, own, timed, rounds)?;
    }
    let both = [program, own];
    let rounds = [large_rounds(program, timed)?, large_rounds(own, timed)?];
    check_same(program, own, timed, rounds[0].min(rounds[1]))?;
    let mut small = [f64::MAX; 2];
    let mut large = [f64::MAX; 2];
    for _ in 0..TRIES {
        for i in 0..2 {
            small[i] = small[i].min(timed.run(both[i], SMALL)?.0);
            large[i] = large[i].min(timed.run(both[i], rounds[i])?.0);
        }
    }
    let each = |i: usize| {
        let given = (rounds[i] - SMALL) as f64 * timed.units;
        (large[i] - small[i]) / given * 1e9
    };
    Ok((each(0), each(1)))
}

/// Inputs that are no timing input give no result.
fn check_other_inputs(program: &Program) -> Result<(), String> {
    let tag = tag_quadword(0, 0, 1, 0);
    let whole = input(1, &[tag, tag]);
    let mut longer = whole.clone();
    longer.push(0);
    let others = [
        ("an empty input", Vec::new()),
        ("a cut header", whole[..7].to_vec()),
        ("n 0", input(1, &[])),
        (
            "n above its limit",
            input(1, &vec![tag; MOST_QUADWORDS + 1]),
        ),
        ("a cut quadword", whole[..whole.len() - 1].to_vec()),
        ("a missing quadword", whole[..whole.len() - 16].to_vec()),
        ("a byte too many", longer),
    ];
    for (name, bytes) in others {
        if !program.run(&bytes)?.is_empty() {
            return Err(format!("{name} gives a result"));
        }
    }
    Ok(())
}

/// The timing inputs by name. All their quadwords are legal, and each ends between tags.
fn inputs() -> Vec<(&'static str, Vec<u128>)> {
    let mut random = Random::new(1);
    // All descriptors but B, with ST before RGBAQ.
    let mixed = 0xFEDC_0A98_7654_3012;
    let any_descriptors = |random: &mut Random| {
        (0..16).fold(0, |all, i| {
            all | random.pick(&[0u64, 1, 2, 3, 4, 5, 10, 14, 15]) << (4 * i)
        })
    };
    let mut make = |tag: &mut dyn FnMut(&mut Random) -> u128| {
        let mut data = Vec::new();
        while data.len() < MOST_QUADWORDS {
            let quadword = tag(&mut random);
            let all = Tag::decode(quadword).all_data() as usize;
            if data.len() + 1 + all > MOST_QUADWORDS {
                data.push(tag_quadword(0, 0, 1, 0));
                continue;
            }
            data.push(quadword);
            data.extend((0..all).map(|_| random.quadword()));
        }
        data
    };
    vec![
        ("PACKED A+D", make(&mut |_| tag_quadword(255, 0, 1, 0xE))),
        (
            "PACKED mixed",
            make(&mut |random| tag_quadword(random.within(1..=12), 0, 0, mixed)),
        ),
        (
            "REGLIST",
            make(&mut |random| {
                let nreg = random.within(1..=15);
                tag_quadword(random.within(1..=40), 1, nreg, 0x0123_4567_89AC_D012)
            }),
        ),
        ("IMAGE", make(&mut |_| tag_quadword(255, 2, 1, 0))),
        (
            "all mixed",
            make(&mut |random| {
                let flg = random.below(4);
                let descriptors = any_descriptors(random);
                let pre = (random.below(2) as u128) << 46;
                tag_quadword(random.within(0..=8), flg, random.below(16), descriptors) | pre
            }),
        ),
    ]
}
