//! Sheets of the second edition at the edges: each refusal at each place, depths, longest chains.

use crate::group_sheets::{
    any_tree, edition, group, nested, random_tree, sheet_of_tree, small_record,
};
use crate::random::Random;
use crate::sheet::{self, record_bytes, HEADER};
use crate::sheet_cases::Case;
use crate::sheet_random::{case_around, good_record, shorten_memories, CODE, DATA, GS, START};
use crate::sheet_tree::{EDITION, MOST_DEPTH};

/// All edge cases with groups; those with the longest chains come first.
pub fn group_edge_cases(random: &mut Random) -> Vec<Case> {
    let mut edges = Edges {
        random,
        cases: Vec::new(),
    };
    edges.add_longest();
    edges.add_too_long();
    edges.add_editions();
    edges.add_kinds();
    edges.add_wrong_groups();
    edges.add_missing();
    edges.add_depths();
    edges.add_wide();
    edges.add_wrong_members();
    edges.add_damage();
    edges.cases
}

struct Edges<'a> {
    random: &'a mut Random,
    cases: Vec<Case>,
}

impl Edges<'_> {
    /// A case for a sheet that is mostly refused; often only the builder and the steps look at it.
    fn add(&mut self, parts: &[&[u8]]) {
        let mut case = case_around(self.random, parts.concat());
        if self.cases.len() % 5 != 0 {
            shorten_memories(self.random, &mut case);
        }
        self.cases.push(case);
    }

    /// A case that is run to its end.
    fn add_whole(&mut self, sheet: Vec<u8>) {
        let case = case_around(self.random, sheet);
        self.cases.push(case);
    }

    fn start(&mut self) -> Vec<u8> {
        good_record(self.random, START, 0)
    }

    /// Accepted members of a second-edition sheet.
    fn some_members(&mut self) -> Vec<u8> {
        let depth = self.random.below(3) as usize;
        let tree = random_tree(self.random, depth, 4);
        sheet_of_tree(&tree)[HEADER..].to_vec()
    }

    /// 65,280 quadwords, eight deep.
    fn many_starts(&mut self) -> Vec<u8> {
        nested(&[2, 2, 2, 2, 2, 2, 2, 255], &self.start())
    }

    /// Chains of 1,048,576 bytes: 65,536 quadwords, the end tag's among them.
    fn add_longest(&mut self) {
        let data = good_record(self.random, DATA, 255);
        // 255 x 257 + 1.
        let wide = nested(&[255], &data);
        // 2 x 2^7 x 255 + 2 x 126 + 3 + 1.
        let starts = (0..126).flat_map(|_| good_record(self.random, START, 0));
        let starts: Vec<u8> = starts.collect();
        let code = good_record(self.random, CODE, 1);
        let deep = [self.many_starts(), starts, code].concat();
        for sheet in [wide, deep] {
            let mut case = case_around(self.random, sheet);
            case.output_length = 1_048_576 - self.random.pick(&[0, 0, 1]);
            case.address = 0;
            case.main_length = 1_048_576;
            self.cases.push(case);
        }
    }

    /// Chains that are longer, by one record and by more than any number holds.
    fn add_too_long(&mut self) {
        let data = good_record(self.random, DATA, 255);
        let longer = good_record(self.random, GS, 255);
        let start = self.start();
        let full = nested(&[255], &data);
        self.add(&[&full, &start]);
        self.add(&[&edition(), &start, &full[HEADER..]]);
        self.add(&[&nested(&[255], &longer)]);
        // One quadword too many: 65,280 + 2 x 128 + 1.
        let many = self.many_starts();
        self.add(&[&many, &start.repeat(128)]);
        for groups in 2..=MOST_DEPTH {
            let sheet = nested(&vec![255; groups], &start);
            self.add(&[&sheet]);
        }
        // Two quadwords each: bytes and quadwords of all but the end tag are 2^32, then 2^64.
        let of_many = |members: u16| {
            let inside = [group(128, members), start.repeat(members as usize)].concat();
            nested(&[128; 7], &inside)
        };
        let sums = [
            nested(&[128, 128, 128, 64], &start),
            nested(&[128, 128, 128, 128, 8], &start),
            of_many(8),
            of_many(128),
        ];
        for sheet in sums {
            self.add(&[&sheet]);
            // A record that is wrong comes first.
            self.add(&[&sheet, &[0x9E]]);
        }
    }

    fn add_editions(&mut self) {
        let start = self.start();
        self.add(&[&edition()]);
        self.add(&[&edition(), &start]);
        for count in [0, 1, 3, 4, 0x82, 255] {
            for address in [0, 1] {
                self.add(&[&record_bytes(EDITION, count, address, &[]), &start]);
            }
        }
        for address in [1, 2, 0x80, 0x100, 0x8000, 0xFFFF] {
            self.add(&[&record_bytes(EDITION, 2, address, &[]), &start]);
        }
        for bytes in 1..HEADER {
            self.add(&[&edition()[..bytes]]);
            self.add(&[&edition(), &start, &edition()[..bytes]]);
        }
        let data = good_record(self.random, DATA, 2);
        self.add(&[&edition(), &data[..data.len() - 1]]);
        let zeros = vec![0; sheet::MOST_SHEET + 1 - HEADER];
        self.add(&[&edition(), &zeros]);
    }

    /// Kinds where they may not stand.
    fn add_kinds(&mut self) {
        let (start, some) = (self.start(), self.some_members());
        for bad in [edition(), record_bytes(EDITION, 1, 7, &[])] {
            self.add(&[&start, &bad, &start]);
            self.add(&[&edition(), &bad, &start]);
            self.add(&[&edition(), &some, &bad, &start]);
            self.add(&[&edition(), &group(2, 1), &bad, &start]);
            self.add(&[&edition(), &group(2, 2), &start, &bad]);
        }
        for bad in [group(2, 1), group(0, 1), group(2, 0)] {
            self.add(&[&bad, &start]);
            self.add(&[&start, &bad, &start]);
        }
        for kind in [6, 7, 0x85, 255] {
            let bad = record_bytes(kind, 1, 1, &[]);
            self.add(&[&edition(), &bad, &start]);
            self.add(&[&edition(), &group(3, 2), &start, &bad]);
        }
    }

    /// Groups with 0 repetitions or none inside, at each depth.
    fn add_wrong_groups(&mut self) {
        let start = self.start();
        for bad in [group(0, 1), group(1, 0), group(0, 0)] {
            for around in 0..=MOST_DEPTH {
                let sheet = nested(&vec![1; around], &bad);
                self.add(&[&sheet, &start]);
            }
        }
    }

    /// Groups that the sheet's end comes in.
    fn add_missing(&mut self) {
        let (start, some) = (self.start(), self.some_members());
        for members in [1, 2, 3, 256, 0xFFFF] {
            self.add(&[&edition(), &group(2, members)]);
            self.add(&[&edition(), &some, &group(255, members)]);
        }
        for members in [2, 3, 257] {
            self.add(&[&edition(), &group(2, members), &start]);
            let inside = [group(1, 1), start.clone()].concat();
            self.add(&[&edition(), &group(2, members), &inside]);
            self.add(&[&edition(), &group(1, 1), &group(2, members), &start]);
        }
        for bytes in 1..HEADER {
            self.add(&[&edition(), &group(2, 2), &start, &start[..bytes]]);
        }
        for kind in [DATA, CODE, GS] {
            let whole = good_record(self.random, kind, 2);
            self.add(&[&edition(), &group(2, 1), &whole[..whole.len() - 1]]);
        }
    }

    /// Each depth to the end, and the ninth.
    fn add_depths(&mut self) {
        for depth in 1..=MOST_DEPTH {
            let record = small_record(self.random);
            self.add_whole(nested(&vec![1; depth], &record));
            let tree = random_tree(self.random, depth, 16);
            self.add_whole(sheet_of_tree(&tree));
        }
        let (eight, start) = ([1; MOST_DEPTH], self.start());
        for repetitions in [1, 255] {
            let ninth = group(repetitions, 1);
            self.add(&[&nested(&eight, &ninth), &start]);
            self.add(&[&nested(&eight, &ninth)]);
            self.add(&[&nested(&eight, &ninth), &[0; 6]]);
            let deeper = [group(1, 2), start.clone(), ninth].concat();
            self.add(&[&nested(&eight[1..], &deeper), &start]);
        }
        // Eight deep, and then eight deep again.
        let again = nested(&eight, &start);
        self.add_whole([&again[..], &again[HEADER..]].concat());
        self.add(&[&nested(&[255; MOST_DEPTH], &group(1, 1)), &start]);
    }

    /// Numbers of members round the low byte's end.
    fn add_wide(&mut self) {
        for members in [10, 255, 256, 257] {
            let starts = (0..members).flat_map(|_| good_record(self.random, START, 0));
            let starts: Vec<u8> = starts.collect();
            let repetitions = self.random.within(1..=2) as u8;
            let last = self.start();
            self.add_whole([edition(), group(repetitions, members), starts, last].concat());
        }
    }

    /// Records inside groups that are wrong by themselves.
    fn add_wrong_members(&mut self) {
        let start = self.start();
        let mut pad = good_record(self.random, GS, 2);
        pad[HEADER + 31] = 1;
        let mut mark = self.start();
        mark[1] ^= 0xFF;
        let count = record_bytes(DATA, 0, 0, &[]);
        let address = record_bytes(START, 0, 2_048, &[]);
        for bad in [pad, mark, count, address] {
            self.add(&[&edition(), &bad]);
            self.add(&[&edition(), &group(2, 2), &start, &bad]);
            self.add(&[&nested(&[1, 2, 3], &bad), &start]);
        }
    }

    /// A small sheet with each of its bytes changed, and cut before each.
    fn add_damage(&mut self) {
        let (start, gs) = (self.start(), good_record(self.random, GS, 1));
        let parts = [edition(), group(2, 3), start.clone(), group(3, 1), gs];
        let whole = [&parts.concat(), &start[..], &start].concat();
        assert!(sheet::records(&whole).is_ok());
        for at in 0..whole.len() {
            let mut damaged = whole.clone();
            let any = self.random.within(1..=255) as u8;
            damaged[at] ^= self.random.pick(&[any, 1, 2, 4, 5]);
            self.add(&[&damaged]);
            self.add(&[&whole[..at]]);
        }
    }
}

/// A case around a tree by chance; where it is not damaged, its run is whole.
pub fn group_case(random: &mut Random) -> Case {
    let tree = any_tree(random);
    let mut sheet = sheet_of_tree(&tree);
    let damaged = random.percent(15);
    if damaged {
        // In the header of a group, or anywhere.
        let groups = |at: &usize| sheet[*at..].starts_with(&[0x9E, 0x51, 5]);
        let headers: Vec<usize> = (0..sheet.len()).filter(groups).collect();
        let any = random.below(sheet.len() as u64) as usize;
        let at = match headers.len() {
            0 => any,
            _ => random.pick(&headers) + random.within(3..=5) as usize,
        };
        sheet[random.pick(&[at, at, any])] = random.pick(&[0, 1, 2, 5, 255]);
    }
    let mut case = case_around(random, sheet);
    if damaged {
        shorten_memories(random, &mut case);
    }
    case
}

#[cfg(test)]
mod tests {
    use super::*;
    use crate::sheet_check::{foretold, End};

    #[test]
    fn each_refusal() {
        let cases = group_edge_cases(&mut Random::new(1));
        for number in [40, 41, 42, 43, 44, 45, 49, 52] {
            let refused = |case: &&Case| sheet::steps(&case.sheet).is_err_and(|r| r.0 == number);
            assert!(cases.iter().filter(refused).count() > 2, "{number}");
        }
        // As many as a file of 2,000 cases has.
        assert!(cases.len() <= 300, "{}", cases.len());
    }

    #[test]
    fn longest_chains() {
        for case in &group_edge_cases(&mut Random::new(2))[..2] {
            assert_eq!(sheet::chain_length(&case.sheet), Ok(1_048_576));
            assert_eq!(foretold(case), Some(End::Whole));
        }
    }

    #[test]
    fn trees_are_whole() {
        let mut random = Random::new(3);
        for _ in 0..200 {
            let tree = any_tree(&mut random);
            let case = case_around(&mut random, sheet_of_tree(&tree));
            assert_eq!(foretold(&case), Some(End::Whole));
            assert!(sheet::chain_length(&case.sheet) < Ok(30_000));
        }
    }
}
