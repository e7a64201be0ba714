//! Payload of chains to measure: VIF codes with their payload, or GIF packets. Nothing of it is refused.

use crate::gif::Tag;
use crate::gif_generate::{tag_quadword, EOP, PRE};
use crate::random::Random;
use crate::unpack_counts::all_formats;
use crate::vif::{ADDRESSES, MPG_ADDRESSES};
use crate::vif_generate::{code_word, payload_word, random_mask, skipping_cycle, stcycl};
use crate::vif_unpack::{Cycle, Format};

const NOP: u32 = 0x00;
const STCYCL: u32 = 0x01;
const ITOP: u32 = 0x04;
const STMOD: u32 = 0x05;
const MARK: u32 = 0x07;
const STMASK: u32 = 0x20;
const STROW: u32 = 0x30;
const STCOL: u32 = 0x31;
const MPG: u32 = 0x4A;
const DIRECT: u32 = 0x50;
const DIRECTHL: u32 = 0x51;
const UNPACK: u32 = 0x60;
const MASKED: u32 = 0x10;
pub const S_8: u32 = UNPACK | 0x2;
const V3_16: u32 = UNPACK | 0x9;
pub const V4_32: u32 = UNPACK | 0xC;

/// STMASK's word; rows 0 and 1, the only ones at WL 2, have all four codes.
const MASK: u32 = 0x4EB1_1BE4;
/// All descriptors but B, with ST before RGBAQ.
const DESCRIPTORS: u64 = 0xFEDC_0A98_7654_3012;

/// Words of payload that caches are to hold.
pub const SMALL_WORDS: usize = 8_192;
/// Quadwords of REGLIST payload.
const REGLIST_QUADWORDS: usize = 16_384;

/// NOPs to a whole quadword.
pub fn pad(words: &mut Vec<u32>) {
    words.resize(words.len().next_multiple_of(4), NOP);
}

fn put_quadword(words: &mut Vec<u32>, quadword: u128) {
    words.extend((0..4).map(|i| (quadword >> (32 * i)) as u32));
}

fn put_random(random: &mut Random, words: &mut Vec<u32>, count: usize) {
    words.extend((0..count).map(|_| random.word()));
}

pub fn nops() -> Vec<u32> {
    vec![NOP; SMALL_WORDS]
}

/// Codes without payload, of the kinds that captures have most of.
pub fn small_codes(random: &mut Random) -> Vec<u32> {
    let mut words = Vec::new();
    while words.len() < SMALL_WORDS {
        put_small_code(random, &mut words, &[NOP, STCYCL, STMOD, ITOP, MARK]);
    }
    words
}

/// Exactly so many words: V4-32 of 256 vectors, the last one shorter.
pub fn v4_32(random: &mut Random, count: usize) -> Vec<u32> {
    let mut words = vec![stcycl(1, 1), code_word(STMOD, 0, 0)];
    let mut address = 0;
    while words.len() + 5 <= count {
        let vectors = ((count - words.len() - 1) / 4).min(256);
        words.push(code_word(V4_32, vectors as u32 % 256, address));
        put_random(random, &mut words, 4 * vectors);
        address = (address + 256) % ADDRESSES;
    }
    words.resize(count, NOP);
    words
}

/// UNPACKs of 256 writes under CL, WL and MODE; where WL is above CL some of the writes fill.
pub fn unpacks(random: &mut Random, command: u32, cycle: Cycle, mode: u32) -> Vec<u32> {
    let mut words = modes(cycle, mode);
    put_unpacks(random, &mut words, command, cycle);
    words
}

/// The same in a format by itself: CL 1, WL 1, MODE 0.
pub fn plain(random: &mut Random, format: &Format) -> Vec<u32> {
    unpacks(random, UNPACK | format.number(), Cycle { cl: 1, wl: 1 }, 0)
}

/// V4-32 under a mask of four rows.
pub fn v4_32_masked(random: &mut Random) -> Vec<u32> {
    let cycle = Cycle { cl: 4, wl: 4 };
    let mut words = vec![code_word(STMASK, 0, 0), MASK];
    words.extend(modes(cycle, 0));
    put_unpacks(random, &mut words, V4_32 | MASKED, cycle);
    words
}

pub fn v3_16_masked(random: &mut Random) -> Vec<u32> {
    let cycle = Cycle { cl: 4, wl: 2 };
    let mut words = modes(cycle, 2);
    words.extend([code_word(STMASK, 0, 0), MASK]);
    for command in [STROW, STCOL] {
        words.push(code_word(command, 0, 0));
        put_random(random, &mut words, 4);
    }
    put_unpacks(random, &mut words, V3_16 | MASKED, cycle);
    words
}

/// STCYCL and STMOD.
fn modes(cycle: Cycle, mode: u32) -> Vec<u32> {
    vec![stcycl(cycle.cl, cycle.wl), code_word(STMOD, 0, mode)]
}

fn put_unpacks(random: &mut Random, words: &mut Vec<u32>, command: u32, cycle: Cycle) {
    let format = Format::from_number(command & 0xF).expect("a format of document 01");
    let payload = format.words_of(cycle.vectors(256)) as usize;
    while words.len() < SMALL_WORDS {
        let address = random.below(ADDRESSES as u64) as u32;
        words.push(code_word(command, 0, address));
        put_random(random, words, payload);
    }
}

pub fn mpg(random: &mut Random) -> Vec<u32> {
    let mut words = Vec::new();
    while words.len() < SMALL_WORDS {
        let address = random.below(MPG_ADDRESSES as u64) as u32;
        put_mpg(random, &mut words, 256, address);
    }
    words
}

/// MPG with its payload from word 0 or 2 of a quadword on, as the boards want it.
fn put_mpg(random: &mut Random, words: &mut Vec<u32>, count: u32, imm: u32) {
    if words.len() % 2 == 0 {
        words.push(NOP);
    }
    words.push(code_word(MPG, count % 256, imm));
    put_random(random, words, 2 * count as usize);
}

/// DIRECT with A+D packets.
pub fn direct(random: &mut Random) -> Vec<u32> {
    let mut words = Vec::new();
    while words.len() < SMALL_WORDS {
        let packet = tag_quadword(255, 0, 1, 0xE) | EOP;
        put_direct(random, &mut words, DIRECT, packet);
    }
    words
}

/// DIRECT with short packets in all three formats, with all descriptors but B.
pub fn direct_mixed(random: &mut Random) -> Vec<u32> {
    let mut words = Vec::new();
    while words.len() < SMALL_WORDS {
        let (format, nreg) = (random.below(3), random.below(16));
        let pre = random.pick(&[0, PRE]);
        let packet = tag_quadword(random.within(1..=12), format, nreg, DESCRIPTORS);
        put_direct(random, &mut words, DIRECT, packet | pre | EOP);
    }
    words
}

/// DIRECT or DIRECTHL with a whole GIF packet, at word 0 of a quadword.
fn put_direct(random: &mut Random, words: &mut Vec<u32>, command: u32, packet: u128) {
    let data = Tag::decode(packet).all_data();
    words.resize((words.len() + 1).next_multiple_of(4) - 1, NOP);
    words.push(code_word(command, 0, data as u32 + 1));
    put_packet(random, words, packet);
}

/// A GIF tag with all its data.
fn put_packet(random: &mut Random, words: &mut Vec<u32>, packet: u128) {
    put_quadword(words, packet);
    put_random(random, words, 4 * Tag::decode(packet).all_data() as usize);
}

/// GIF packets of IMAGE data, two log entries for each quadword: 60,000 in all.
pub fn image(random: &mut Random) -> Vec<u32> {
    let mut words = Vec::new();
    for _ in 0..30 {
        put_packet(random, &mut words, tag_quadword(1_000, 2, 1, 0) | EOP);
    }
    words
}

/// GIF packets of REGLIST data, two log entries for each quadword but a packet's odd last.
pub fn reglist(random: &mut Random) -> Vec<u32> {
    let mut words = Vec::new();
    while words.len() < 4 * REGLIST_QUADWORDS {
        let nreg = random.within(1..=15);
        let packet = tag_quadword(random.within(1..=40), 1, nreg, 0x0123_4567_89AC_D012);
        put_packet(random, &mut words, packet | EOP);
    }
    words
}

/// Whole quadwords of VIF codes with their payload.
pub fn mixed_payload(random: &mut Random) -> Vec<u32> {
    let mut words = vec![skipping_cycle(random)];
    for _ in 0..24 {
        match random.below(12) {
            0..=3 => put_small_code(random, &mut words, &SMALL_CODES),
            4 => put_register_words(random, &mut words),
            5 => {
                let count = random.within(1..=32) as u32;
                let imm = random.word() & 0xFFFF;
                put_mpg(random, &mut words, count, imm);
            }
            6 => {
                let command = random.pick(&[DIRECT, DIRECTHL]);
                let packet = mixed_packet(random);
                put_direct(random, &mut words, command, packet);
            }
            _ => put_unpack(random, &mut words),
        }
    }
    pad(&mut words);
    words
}

/// All commands without payload.
const SMALL_CODES: [u32; 14] = [
    0x00, 0x01, 0x02, 0x03, 0x04, 0x05, 0x06, 0x07, 0x10, 0x11, 0x13, 0x14, 0x15, 0x17,
];

/// A code without payload, of one of these commands.
fn put_small_code(random: &mut Random, words: &mut Vec<u32>, commands: &[u32]) {
    words.push(match random.pick(commands) {
        STCYCL => skipping_cycle(random),
        STMOD => code_word(STMOD, 0, random.below(3) as u32),
        command => code_word(command, 0, random.word() & 0xFFFF),
    });
}

/// STMASK, STROW or STCOL.
fn put_register_words(random: &mut Random, words: &mut Vec<u32>) {
    let command = random.pick(&[STMASK, STROW, STCOL]);
    words.push(code_word(command, 0, 0));
    if command == STMASK {
        words.push(random_mask(random));
    } else {
        put_random(random, words, 4);
    }
}

/// UNPACK in any format.
fn put_unpack(random: &mut Random, words: &mut Vec<u32>) {
    let format = random.pick(&all_formats());
    let masked = random.pick(&[0, MASKED]);
    let count = random.within(1..=64) as u32;
    let imm = random.word() & 0xC3FF;
    words.push(code_word(UNPACK | masked | format.number(), count, imm));
    let payload = format.words_of(count);
    words.extend((0..payload).map(|_| payload_word(random)));
}

/// A GIF tag with a little data in any format, without descriptor B.
fn mixed_packet(random: &mut Random) -> u128 {
    let nreg = random.below(16);
    tag_quadword(random.within(0..=4), random.below(4), nreg, DESCRIPTORS) | EOP
}
