//! The GIF timing input.

use crate::gif::{self, Path, PathNumber, Place};
use crate::log;
use crate::state_block::write_path;
use crate::words::{put_number, put_word, quadwords, word, QUADWORD, WORD};

pub const MOST_QUADWORDS: usize = 16_384;
/// The path that the quadwords are given to.
const NUMBER: PathNumber = PathNumber::Three;
/// With more entries used than this, the count starts again.
const ENTRIES_BEFORE_RESTART: u64 = 65_000;

/// A timing input.
pub fn input(rounds: u32, data: &[u128]) -> Vec<u8> {
    let mut out = Vec::new();
    put_word(&mut out, rounds);
    put_word(&mut out, data.len() as u32);
    for &quadword in data {
        crate::words::put_quadword(&mut out, quadword);
    }
    out
}

/// The result of a timing input; none for any other input.
pub fn result(input: &[u8]) -> Option<Vec<u8>> {
    if input.len() < 2 * WORD {
        return None;
    }
    let rounds = word(input, 0);
    let count = word(input, 1) as usize;
    let data = &input[2 * WORD..];
    if !(1..=MOST_QUADWORDS).contains(&count) || data.len() != count * QUADWORD {
        return None;
    }
    let data = quadwords(data);

    let mut path = Path {
        q: 0,
        place: Place::Idle,
    };
    let mut used = 0;
    let mut log = vec![0u64; log::MOST_NUMBERS];
    let mut refused = 0u32;
    for _ in 0..rounds {
        for &quadword in &data {
            if used > ENTRIES_BEFORE_RESTART {
                used = 0;
            }
            if gif::take(NUMBER, &mut path, &mut used, &mut log, quadword).is_err() {
                refused = refused.wrapping_add(1);
            }
        }
    }

    let mut out = Vec::new();
    put_word(&mut out, refused);
    put_number(&mut out, used);
    for w in write_path(&path) {
        put_word(&mut out, w);
    }
    put_number(
        &mut out,
        log.iter()
            .fold(0, |sum: u64, &number| sum.wrapping_add(number)),
    );
    Some(out)
}
