//! What totals cases reached.

use crate::compare::named_rows;
use crate::totals::SUMS;
use crate::totals_cases::{Added, Case, MOST_ADDITIONS, NAMES};
use std::collections::HashMap;

const OTHERS: &[&str] = &[
    "added",
    "refused 54 by several sums",
    "refused 54 by all sums",
    "refused 54, then added",
    "refused 54 twice in a row",
    "added where the steps pass 2^64 - 1 in all",
    "several sums exactly at 2^64 - 1",
    "all sums at 2^64 - 1, and 0 added",
    "cases of no additions",
    "cases of 65,535 additions",
    "shares without words",
    "shares without words, with NOPs",
    "shares of words without NOPs",
    "shares of 1 over 1",
    "shares of more NOPs than words",
    "shares whose divisor is 1",
    "shares whose divisor is 2 to 2^32",
    "shares whose divisor is above 2^32",
    "shares with words of 2^64 - 1",
];

#[derive(Default)]
pub struct Counts {
    by_name: HashMap<String, u64>,
    cases: u64,
    additions: u64,
}

impl Counts {
    fn add(&mut self, name: &str) {
        self.add_if(name, true);
    }

    fn add_if(&mut self, name: &str, happened: bool) {
        if happened {
            match self.by_name.get_mut(name) {
                Some(count) => *count += 1,
                None => {
                    self.by_name.insert(name.to_string(), 1);
                }
            }
        }
    }

    /// Notes a case and what it gave.
    pub fn note(&mut self, case: &Case, outcome: &[Added]) {
        self.cases += 1;
        self.additions += outcome.len() as u64;
        self.add_if("cases of no additions", outcome.is_empty());
        let most = outcome.len() == MOST_ADDITIONS as usize;
        self.add_if("cases of 65,535 additions", most);
        let mut before = case.totals;
        let (mut refused, mut steps) = (false, 0_u128);
        for (counts, added) in case.added.iter().zip(outcome) {
            let numbers = counts.numbers();
            let passes: Vec<usize> = (0..SUMS)
                .filter(|&i| before[i].checked_add(numbers[i + 1]).is_none())
                .collect();
            steps += numbers[0] as u128;
            self.add_if("refused 54 twice in a row", refused && !passes.is_empty());
            self.add_if("refused 54, then added", refused && passes.is_empty());
            refused = !passes.is_empty();
            match passes.len() {
                0 => self.note_added(&before, &numbers[1..], steps),
                1 => self.add(&refused_name(passes[0])),
                SUMS => self.add("refused 54 by all sums"),
                _ => self.add("refused 54 by several sums"),
            }
            self.note_share(added);
            before = added.totals;
        }
    }

    fn note_added(&mut self, before: &[u64; SUMS], numbers: &[u64], steps: u128) {
        self.add("added");
        self.add_if(
            "added where the steps pass 2^64 - 1 in all",
            steps > u64::MAX as u128,
        );
        let full = |&i: &usize| before[i].checked_add(numbers[i]) == Some(u64::MAX);
        let full: Vec<usize> = (0..SUMS).filter(full).collect();
        match full[..] {
            [at] if numbers[at] > 0 => self.add(&full_name(at)),
            [_, _, ..] => self.add("several sums exactly at 2^64 - 1"),
            _ => {}
        }
        let all = full.len() == SUMS && numbers.iter().all(|&number| number == 0);
        self.add_if("all sums at 2^64 - 1, and 0 added", all);
    }

    fn note_share(&mut self, added: &Added) {
        let [_, words, nops, ..] = added.totals;
        if words == 0 {
            self.add("shares without words");
            self.add_if("shares without words, with NOPs", nops > 0);
            return;
        }
        self.add_if("shares of words without NOPs", nops == 0);
        self.add_if("shares of 1 over 1", added.share == (1, 1));
        self.add_if("shares of more NOPs than words", nops > words);
        self.add_if("shares with words of 2^64 - 1", words == u64::MAX);
        self.add(match words / added.share.1 {
            1 => "shares whose divisor is 1",
            2..=0x1_0000_0000 => "shares whose divisor is 2 to 2^32",
            _ => "shares whose divisor is above 2^32",
        });
    }

    /// Every count by name.
    pub fn rows(&self) -> Vec<(String, u64)> {
        let mut rows = vec![
            ("cases".to_string(), self.cases),
            ("additions".to_string(), self.additions),
        ];
        let mut names: Vec<String> = OTHERS.iter().map(|name| name.to_string()).collect();
        names.extend((0..SUMS).map(refused_name));
        names.extend((0..SUMS).map(full_name));
        rows.extend(named_rows(&self.by_name, names));
        rows
    }
}

fn refused_name(at: usize) -> String {
    format!("refused 54 by {} alone", NAMES[at])
}

fn full_name(at: usize) -> String {
    format!("{} exactly at 2^64 - 1 alone", NAMES[at])
}
