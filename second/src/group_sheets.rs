//! Sheets of the second edition by chance.

use crate::random::Random;
use crate::sheet::record_bytes;
use crate::sheet_random::{good_record, CODE, DATA, GS, START};
use crate::sheet_tree::{EDITION, GROUP, SECOND};

/// A record's bytes, or a group: repetitions and members.
#[derive(Clone)]
pub enum Node {
    Record(Vec<u8>),
    Group(u8, Vec<Node>),
}

/// The record that a second-edition sheet starts with.
pub fn edition() -> Vec<u8> {
    record_bytes(EDITION, SECOND, 0, &[])
}

/// The header of a group.
pub fn group(repetitions: u8, members: u16) -> Vec<u8> {
    record_bytes(GROUP, repetitions, members, &[])
}

/// The sheet of a tree.
pub fn sheet_of_tree(nodes: &[Node]) -> Vec<u8> {
    let mut sheet = edition();
    nodes.iter().for_each(|node| put(node, &mut sheet));
    sheet
}

fn put(node: &Node, sheet: &mut Vec<u8>) {
    match node {
        Node::Record(bytes) => sheet.extend(bytes),
        Node::Group(repetitions, members) => {
            sheet.extend(group(*repetitions, members.len() as u16));
            members.iter().for_each(|member| put(member, sheet));
        }
    }
}

/// So many groups round a record, each the only member of the one around it.
pub fn nested(repetitions: &[u8], inside: &[u8]) -> Vec<u8> {
    let mut sheet = edition();
    repetitions.iter().for_each(|&n| sheet.extend(group(n, 1)));
    sheet.extend(inside);
    sheet
}

/// A short record that is accepted.
pub fn small_record(random: &mut Random) -> Vec<u8> {
    let kind = random.pick(&[DATA, CODE, GS, START, START]);
    let n = random.within(1..=3) as u8;
    good_record(random, kind, if kind == START { 0 } else { n })
}

fn small_records(random: &mut Random, most: u64) -> Vec<Node> {
    let count = random.within(0..=most);
    (0..count)
        .map(|_| Node::Record(small_record(random)))
        .collect()
}

/// A tree with groups to this depth; what its records are repeated in all is at most `most`.
pub fn random_tree(random: &mut Random, depth: usize, most: u64) -> Vec<Node> {
    let mut nodes = small_records(random, 2);
    if depth > 0 {
        let few = random.within(1..=3).min(most);
        let repetitions = random.pick(&[1, few, few]);
        let mut inside = random_tree(random, depth - 1, most / repetitions);
        if inside.is_empty() {
            inside.push(Node::Record(small_record(random)));
        }
        nodes.push(Node::Group(repetitions as u8, inside));
        nodes.extend(small_records(random, 2));
    }
    nodes
}

/// A group of many members.
fn wide_tree(random: &mut Random) -> Vec<Node> {
    let count = random.pick(&[10, 40, 254, 255, 256, 257, 300]);
    let repetitions = random.within(1..=2) as u8;
    let members = (0..count).map(|_| Node::Record(good_record(random, START, 0)));
    let group = Node::Group(repetitions, members.collect());
    vec![Node::Record(small_record(random)), group]
}

/// A short group that is repeated often.
fn long_tree(random: &mut Random) -> Vec<Node> {
    let any = random.within(4..=255) as u8;
    let inside = vec![Node::Record(good_record(random, START, 0))];
    let group = Node::Group(random.pick(&[254, 255, any]), inside);
    vec![group, Node::Record(small_record(random))]
}

/// Any tree that is accepted.
pub fn any_tree(random: &mut Random) -> Vec<Node> {
    match random.below(16) {
        0 => wide_tree(random),
        1 => long_tree(random),
        2..=4 => {
            // Groups beside groups.
            let mut nodes = Vec::new();
            for _ in 0..random.within(2..=3) {
                let depth = random.below(4) as usize;
                nodes.extend(random_tree(random, depth, 6));
            }
            nodes
        }
        _ => {
            let depth = random.below(9) as usize;
            random_tree(random, depth, 12)
        }
    }
}

#[cfg(test)]
mod tests {
    use super::*;
    use crate::sheet;

    /// The records one after another, as a sheet of the first edition.
    fn flat(nodes: &[Node]) -> Vec<u8> {
        let mut all = Vec::new();
        for node in nodes {
            match node {
                Node::Record(bytes) => all.extend(bytes),
                Node::Group(repetitions, members) => {
                    all.extend(flat(members).repeat(*repetitions as usize));
                }
            }
        }
        all
    }

    #[test]
    fn both_editions_say_the_same() {
        let mut random = Random::new(1);
        for _ in 0..300 {
            let nodes = any_tree(&mut random);
            let (groups, flat) = (sheet_of_tree(&nodes), flat(&nodes));
            assert!(sheet::is_first_edition(&flat));
            let chain = sheet::chain_length(&flat).unwrap();
            let (mut built, mut same) = (vec![0xAA; chain], vec![0x55; chain]);
            assert_eq!(sheet::build(&groups, &mut built), Ok(chain));
            assert_eq!(sheet::build(&flat, &mut same), Ok(chain));
            assert!(built == same);
            assert_eq!(sheet::steps(&groups), sheet::steps(&flat));
            assert_eq!(sheet::entries(&groups), sheet::entries(&flat));
        }
    }
}
