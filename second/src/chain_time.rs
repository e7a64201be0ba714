//! The chain timing input.

use crate::chain::{self, Memories, State};
use crate::log::MOST_NUMBERS;
use crate::model::Model;
use crate::words::{put_number, put_word, word, QUADWORD, WORD};

pub const MOST_QUADWORDS: usize = 65_535;
const HEADER_WORDS: usize = 3;

/// A timing input.
pub fn input(rounds: u32, channel: u32, main: &[u32]) -> Vec<u8> {
    let mut out = Vec::new();
    put_word(&mut out, rounds);
    put_word(&mut out, channel);
    put_word(&mut out, (main.len() * WORD / QUADWORD) as u32);
    for &word in main {
        put_word(&mut out, word);
    }
    out
}

/// The channel and the main memory; none for what is no timing input.
fn parts(input: &[u8]) -> Option<(u32, &[u8])> {
    if input.len() < HEADER_WORDS * WORD {
        return None;
    }
    let channel = word(input, 1);
    let count = word(input, 2) as usize;
    let main = &input[HEADER_WORDS * WORD..];
    let fits =
        channel <= 2 && (1..=MOST_QUADWORDS).contains(&count) && main.len() == count * QUADWORD;
    fits.then_some((channel, main))
}

/// The result of a timing input; none for any other input.
pub fn result(input: &[u8]) -> Option<Vec<u8>> {
    let (channel, main) = parts(input)?;
    let rounds = word(input, 0);
    let sizes = Model::of_channel(channel).sizes();
    let mut memories = Memories {
        main,
        data: &mut vec![0; sizes.data_words()],
        code: &mut vec![0; sizes.code_bytes()],
        log: &mut vec![0; MOST_NUMBERS],
    };
    let mut state = State::reset();
    let mut all_steps = 0u64;
    let mut not_done = 0u32;
    for _ in 0..rounds {
        state.used = 0;
        chain::start(&mut state, channel, 0, false).expect("the state is in range");
        let stop = chain::run(&mut state, &mut memories, u64::MAX, |_, _, _| {});
        all_steps = all_steps.wrapping_add(stop.counts.steps);
        not_done = not_done.wrapping_add((stop.answer != chain::DONE) as u32);
    }

    let mut out = Vec::new();
    put_number(&mut out, all_steps);
    put_word(&mut out, not_done);
    put_number(&mut out, sum(&memories));
    Some(out)
}

/// The sum modulo 2^64 of data memory, code memory and log.
fn sum(memories: &Memories) -> u64 {
    let data = memories.data.iter().map(|&word| word as u64);
    let code = memories.code.iter().map(|&byte| byte as u64);
    let log = memories.log.iter().copied();
    data.chain(code).chain(log).fold(0, u64::wrapping_add)
}

#[cfg(test)]
mod tests {
    use super::*;
    use crate::words::number;

    #[test]
    fn start_record_chain() {
        let words = [0x1000_0001, 0, 0, 0, 0, 0, 0, 0x1400_0005, 0x7000_0000];
        let main = [&words[..], &[0; 3]].concat();
        let given = result(&input(3, 1, &main)).unwrap();
        assert_eq!(given.len(), 20);
        assert_eq!((number(&given, 0), word(&given, 2)), (18, 0));
        assert_eq!(number(&given, 3), 256 + 5);
        assert_eq!(result(&input(0, 1, &main)), Some(vec![0; 20]));
    }

    #[test]
    fn memories_of_vif0() {
        // S-32 at quadword 255, two writes.
        let codes = [0x0100_0101, 0x6002_00FF, 1, 2];
        let main = [&[0x7000_0001, 0, 0, 0], &codes[..]].concat();
        for channel in [0, 1] {
            let given = result(&input(1, channel, &main)).unwrap();
            assert_eq!((number(&given, 0), word(&given, 2)), (5, 0));
            assert_eq!(number(&given, 3), 4 + 8);
        }
    }

    #[test]
    fn runs_not_done() {
        // A chain that leaves main memory after one tag.
        let given = result(&input(2, 2, &[0x1000_0000, 0, 0, 0])).unwrap();
        assert_eq!((number(&given, 0), word(&given, 2)), (2, 2));
    }

    #[test]
    fn no_timing_input() {
        let whole = input(1, 1, &[0x7000_0000, 0, 0, 0]);
        assert!(result(&whole).is_some());
        assert_eq!(result(&whole[..whole.len() - 1]), None);
        assert_eq!(result(&[&whole[..], &[0]].concat()), None);
        assert_eq!(result(&input(1, 3, &[0x7000_0000, 0, 0, 0])), None);
        assert_eq!(result(&input(1, 1, &[])), None);
    }
}
