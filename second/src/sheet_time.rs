//! The sheet timing input.

use crate::sheet;
use crate::sheet_cases::{put_bytes, MOST_SHEET};
use crate::words::{put_number, put_word, word, WORD};

const HEADER_WORDS: usize = 2;
const OUTPUT: usize = 1_048_576;

/// A timing input.
pub fn input(rounds: u32, sheet: &[u8]) -> Vec<u8> {
    let mut out = Vec::new();
    put_word(&mut out, rounds);
    put_word(&mut out, sheet.len() as u32);
    put_bytes(&mut out, sheet);
    out
}

/// The sheet; none for what is no timing input.
fn sheet_of(input: &[u8]) -> Option<&[u8]> {
    if input.len() < HEADER_WORDS * WORD {
        return None;
    }
    let length = word(input, 1);
    let rest = &input[HEADER_WORDS * WORD..];
    let fits = length <= MOST_SHEET && rest.len() == (length as usize).next_multiple_of(WORD);
    fits.then(|| &rest[..length as usize])
}

/// The result of a timing input; none for any other input.
pub fn result(input: &[u8]) -> Option<Vec<u8>> {
    let sheet = sheet_of(input)?;
    let mut output = vec![0; OUTPUT];
    let mut last = 0;
    for _ in 0..word(input, 0) {
        last = sheet::exported_number(sheet, &mut output);
    }
    let mut out = Vec::new();
    put_word(&mut out, last as u32);
    put_number(&mut out, output.iter().map(|&byte| byte as u64).sum());
    Some(out)
}

#[cfg(test)]
mod tests {
    use super::*;
    use crate::words::number;

    const START_AT_5: [u8; 6] = [0x9E, 0x51, 4, 0, 5, 0];

    #[test]
    fn start_record() {
        let given = result(&input(3, &START_AT_5)).unwrap();
        assert_eq!(given.len(), 12);
        assert_eq!(word(&given, 0), 48);
        assert_eq!(number(&given, 1), 1 + 0x10 + 5 + 0x14 + 0x70);
        assert_eq!(result(&input(0, &START_AT_5)), Some(vec![0; 12]));
    }

    #[test]
    fn refused_sheets() {
        let numbers = |sheet: &[u8]| {
            let given = result(&input(1, sheet)).unwrap();
            (word(&given, 0), number(&given, 1))
        };
        assert_eq!(numbers(&START_AT_5[..5]), (44, 0));
        assert_eq!(numbers(&[0; 131_088]), (46, 0));
        assert_eq!(numbers(&[]), (16, 0x70));
    }

    #[test]
    fn no_timing_input() {
        let whole = input(1, &START_AT_5);
        assert!(result(&whole).is_some());
        assert_eq!(result(&whole[..whole.len() - 1]), None);
        assert_eq!(result(&whole[..7]), None);
        assert_eq!(result(&[]), None);
        assert_eq!(result(&[&whole[..], &[0]].concat()), None);
        assert_eq!(result(&[&whole[..], &[0; 4]].concat()), None);
        assert_eq!(result(&input(1, &[0; 131_089])), None);
    }
}
