//! Chains to measure: every run of them answers 0.

use crate::bench_payloads::{
    self as payloads, mixed_payload, pad, unpacks, SMALL_WORDS, S_8, V4_32,
};
use crate::capture_generate::tag;
use crate::chain::{CALL, CNT, END, NEXT, REF, RET};
use crate::chain_time::MOST_QUADWORDS;
use crate::random::Random;
use crate::unpack_counts::{all_formats, format_name};
use crate::vif_unpack::Cycle;

/// The most quadwords of payload behind one cnt tag: four whole V4-32 with their codes.
const CNT_QUADWORDS: usize = 1_025;

pub struct ChainInput {
    pub name: String,
    pub channel: u32,
    pub main: Vec<u32>,
    /// What the chain's tags hand over in a round.
    pub payload: Vec<u32>,
}

/// The inputs of every bench.
pub fn inputs() -> Vec<ChainInput> {
    let mut made = unit_inputs(&mut Random::new(1));
    made.extend(packet_inputs(&mut Random::new(2)));
    made.extend(cycle_inputs(&mut Random::new(4)));
    made
}

/// More inputs: every format by itself, V4-32 in the other modes and with a mask.
pub fn more_inputs() -> Vec<ChainInput> {
    let random = &mut Random::new(3);
    let mut made = Vec::new();
    for format in all_formats() {
        let name = format!("{} plain", format_name(&format));
        made.push(cnt_chain(&name, 1, payloads::plain(random, &format)));
    }
    for mode in [1, 2] {
        let payload = unpacks(random, V4_32, Cycle { cl: 1, wl: 1 }, mode);
        made.push(cnt_chain(&format!("V4-32 mode {mode}"), 1, payload));
    }
    let masked = payloads::v4_32_masked(random);
    made.push(cnt_chain("V4-32 mask WL 4", 1, masked));
    made
}

/// Payload of each kind, some of it for both units, and all kinds mixed.
fn unit_inputs(random: &mut Random) -> Vec<ChainInput> {
    let most = 4 * most_cnt_payload();
    let vectors = payloads::v4_32(random, SMALL_WORDS);
    let masked = payloads::v3_16_masked(random);
    let bytes = unpacks(random, S_8, Cycle { cl: 1, wl: 1 }, 0);
    let instructions = payloads::mpg(random);
    vec![
        cnt_chain("V4-32", 1, vectors.clone()),
        cnt_chain("V4-32, VIF0", 0, vectors.clone()),
        // Tags cut three of four UNPACKs inside a vector.
        cut_chain("V4-32, tags of 3", 1, 3, vectors.clone()),
        cut_chain("V4-32, tags of 64", 1, 64, vectors),
        cnt_chain("V3-16 mask mode 2", 1, masked),
        cnt_chain("S-8", 1, bytes.clone()),
        cnt_chain("S-8, VIF0", 0, bytes),
        cnt_chain("MPG", 1, instructions.clone()),
        cnt_chain("MPG, VIF0", 0, instructions),
        cnt_chain("DIRECT A+D", 1, payloads::direct(random)),
        cnt_chain("1 MiB V4-32", 1, payloads::v4_32(random, most)),
        mixed(random),
        cnt_chain("channel 2 IMAGE", 2, payloads::image(random)),
    ]
}

/// GIF packets of other kinds.
fn packet_inputs(random: &mut Random) -> Vec<ChainInput> {
    vec![
        cnt_chain("DIRECT mixed", 1, payloads::direct_mixed(random)),
        cnt_chain("channel 2 REGLIST", 2, payloads::reglist(random)),
    ]
}

/// Codes without payload, and UNPACKs that skip or fill.
fn cycle_inputs(random: &mut Random) -> Vec<ChainInput> {
    let mut made = vec![
        cnt_chain("NOPs", 1, payloads::nops()),
        cnt_chain("codes alone", 1, payloads::small_codes(random)),
    ];
    let cycles = [
        ("V4-32", V4_32, 4, 2),
        ("V4-32", V4_32, 3, 4),
        ("S-8", S_8, 2, 3),
        ("S-8", S_8, 1, 4),
    ];
    for (name, command, cl, wl) in cycles {
        let payload = unpacks(random, command, Cycle { cl, wl }, 0);
        made.push(cnt_chain(&format!("{name} CL {cl} WL {wl}"), 1, payload));
    }
    made
}

/// The most quadwords of payload in the longest main memory beside their tags.
fn most_cnt_payload() -> usize {
    let fits = |&quadwords: &usize| quadwords + quadwords.div_ceil(CNT_QUADWORDS) < MOST_QUADWORDS;
    (1..MOST_QUADWORDS).rev().find(fits).unwrap_or(1)
}

/// The payload behind cnt tags, then an end tag.
fn cnt_chain(name: &str, channel: u32, payload: Vec<u32>) -> ChainInput {
    cut_chain(name, channel, CNT_QUADWORDS, payload)
}

/// The same with at most so many quadwords behind each tag.
fn cut_chain(name: &str, channel: u32, quadwords: usize, mut payload: Vec<u32>) -> ChainInput {
    pad(&mut payload);
    let mut main = Vec::new();
    for part in payload.chunks(4 * quadwords) {
        put_tagged(&mut main, CNT, 0, part);
    }
    main.extend(tag(END, 0, 0));
    ChainInput {
        name: name.to_string(),
        channel,
        main,
        payload,
    }
}

/// A tag and the payload behind it.
fn put_tagged(main: &mut Vec<u32>, id: u32, to: usize, payload: &[u32]) {
    main.extend(tag(id, payload.len() as u32 / 4, 4 * to as u32));
    main.extend(payload);
}

/// All tags that do not end the chain but refs, and all VIF codes.
fn mixed(random: &mut Random) -> ChainInput {
    let mut main = Vec::new();
    let mut payload = Vec::new();
    for _ in 0..12 {
        let [a, b, c, d, e, f] = std::array::from_fn(|_| mixed_payload(random));
        let base = main.len();
        let referred = base + 16 + a.len() + c.len() + d.len();
        let called = referred + b.len();
        let end = called + 8 + e.len() + f.len();
        put_tagged(&mut main, CNT, 0, &a);
        main.extend(tag(REF, b.len() as u32 / 4, 4 * referred as u32));
        put_tagged(&mut main, CALL, called, &c);
        put_tagged(&mut main, NEXT, end, &d);
        main.extend(&b);
        put_tagged(&mut main, CNT, 0, &e);
        put_tagged(&mut main, RET, 0, &f);
        payload.extend([a, b, c, e, f, d].concat());
    }
    main.extend(tag(END, 0, 0));
    ChainInput {
        name: "mixed".to_string(),
        channel: 1,
        main,
        payload,
    }
}

#[cfg(test)]
mod tests {
    use super::*;
    use crate::chain::{self, Memories, State};
    use crate::chain_time::{input, result};
    use crate::log;
    use crate::model::Model;
    use crate::vif::Payload;
    use crate::words::{number, word};

    fn all_inputs() -> Vec<ChainInput> {
        inputs().into_iter().chain(more_inputs()).collect()
    }

    #[test]
    fn names_are_unlike() {
        let mut names: Vec<String> = all_inputs().into_iter().map(|chain| chain.name).collect();
        let all = names.len();
        names.sort();
        names.dedup();
        assert_eq!(names.len(), all);
    }

    #[test]
    fn runs_answer_0_and_rounds_are_alike() {
        for chain in all_inputs() {
            let full = chain.main.len() == 4 * MOST_QUADWORDS;
            assert_eq!(full, chain.name == "1 MiB V4-32");
            let run = |rounds| result(&input(rounds, chain.channel, &chain.main)).unwrap();
            let (one, three) = (run(1), run(3));
            assert_eq!(word(&three, 2), 0, "{}", chain.name);
            assert_eq!(number(&three, 0), 3 * number(&one, 0), "{}", chain.name);
            assert_eq!(chain.payload.len() % 4, 0);
        }
    }

    /// The words' numbers at which the payload of each MPG of a chain begins.
    fn first_numbers(chain: &ChainInput) -> Vec<u32> {
        let mut state = State::reset();
        chain::start(&mut state, chain.channel, 0, false).unwrap();
        let main: Vec<u8> = chain.main.iter().flat_map(|w| w.to_le_bytes()).collect();
        let sizes = Model::of_channel(chain.channel).sizes();
        let mut memories = Memories {
            main: &main,
            data: &mut vec![0; sizes.data_words()],
            code: &mut vec![0; sizes.code_bytes()],
            log: &mut vec![0; log::MOST_NUMBERS],
        };
        let mut numbers = Vec::new();
        chain::run(&mut state, &mut memories, u64::MAX, |before, _, _| {
            let first = before.unit().waiting.is_some_and(|waiting| {
                matches!(waiting.payload, Payload::Mpg(mpg) if waiting.due == mpg.all_words())
            });
            if let (true, Some(pending)) = (first, before.payload) {
                numbers.push(pending.address / 4 % 4);
            }
        });
        numbers
    }

    #[test]
    fn code_uploads_are_aligned() {
        for chain in all_inputs() {
            let numbers = first_numbers(&chain);
            let has_mpg = chain.name.starts_with("MPG") || chain.name == "mixed";
            assert_eq!(!numbers.is_empty(), has_mpg, "{}", chain.name);
            let aligned = numbers.iter().all(|number| number % 2 == 0);
            assert!(aligned, "{}: {numbers:?}", chain.name);
        }
    }
}
