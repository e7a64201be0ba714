//! Long captures, cut anywhere: of V4-32 and of what is nearly that, of every kind of UNPACK with other
//! codes between, of packets, and such as end with a refusal.

use crate::capture_cases::{Case, Standing};
use crate::capture_cut_counts;
use crate::capture_cuts::{self, Family};
use crate::capture_generate::{plain_case, run, split, start, NO_LIMIT};
use crate::capture_long_codes::in_instruction;
use crate::capture_long_packets::Packets;
use crate::capture_long_tags::{Chain, Spread};
use crate::capture_long_words::{Maker, Wanted};
use crate::chain::{State, ALLOWANCE_USED, INTERRUPT};
use crate::gif;
use crate::log;
use crate::model::{Model, MODELS};
use crate::random::Random;
use crate::refusals;
use crate::state_block::{unit_word, VIF0, VIF1};
use crate::unpack_counts::all_formats;
use crate::unpack_kind::{Kind, KINDS};
use crate::vif_unpack::Format;
use crate::way::{Way, WAYS};

/// Captures of V4-32 and of what is nearly that by seed.
const CAPTURES: u64 = 48;
/// Captures of some codes that go on from a state block, and such that start again inside a payload.
const FROM_BLOCKS: u64 = 16;
const STARTED_AGAIN: u64 = 16;
/// Captures by seed with siblings.
const FAMILIES: u64 = 32;
/// The most steps of a run with siblings.
const MOST_STEPS: u64 = 20_000;
/// An UNPACK has at least so many writes where it is to be long.
pub const LONG: u32 = 16;

/// What a capture is like.
struct Taste {
    /// Payload words at least.
    payload: usize,
    /// Nearly all codes are V4-32 with M clear and MODE 0.
    plain: bool,
    /// Bit 31 is set on some codes.
    interrupts: bool,
    spread: Spread,
}

impl Taste {
    fn new(random: &mut Random) -> Taste {
        let few = random.within(1..=3);
        let many = random.within(50..=400);
        Taste {
            payload: random.within(300..=3_000) as usize,
            plain: random.percent(60),
            interrupts: random.percent(40),
            spread: Spread {
                tte: random.percent(60),
                quadwords: random.pick(&[(0, few), (0, few), (50, many), (50, many), (0, many)]),
            },
        }
    }

    fn maker<'a>(&self, random: &'a mut Random, model: Model) -> Maker<'a> {
        Maker::new(random, model, self.spread, self.interrupts)
    }
}

/// The refusals of a unit's tags and words.
pub fn refusals_of(model: Model) -> Vec<u32> {
    let words: &[u32] = match model {
        Model::Vif0 => &[20, 21, 22, 23, 25, 26, 31],
        Model::Vif1 => &refusals::WORD_STEP,
    };
    [&refusals::TAG_STEP, words].concat()
}

/// The captures of a seed.
pub fn cases(seed: u64) -> Vec<Case> {
    let mut random = Random::new(seed ^ 0x432);
    let mut cases = near_cases(&mut random);
    for model in MODELS {
        for format in all_formats() {
            cases.push(every_case(&mut random, model, format));
        }
        for refusal in refusals_of(model) {
            for whole in [true, false] {
                cases.push(refused_case(&mut random, model, refusal, whole));
            }
        }
    }
    for turn in 0..FROM_BLOCKS {
        let model = MODELS[turn as usize % 2];
        let (case, _) = some_case(&mut random, model);
        cases.push(from_a_block(&mut random, case, model));
    }
    for turn in 0..STARTED_AGAIN {
        let upload = turn % 4 < 2;
        cases.push(started_again(
            &mut random,
            MODELS[turn as usize % 2],
            upload,
        ));
    }
    for way in WAYS {
        for format in capture_cut_counts::FORMATS {
            cases.extend(packet_cases(&mut random, way, format));
        }
    }
    cases
}

/// Captures of V4-32 and of what is nearly that; every fourth of a unit goes on from a state block.
fn near_cases(random: &mut Random) -> Vec<Case> {
    let all = (0..CAPTURES).map(|turn| {
        let model = MODELS[turn as usize % 2];
        let (case, _) = near_case(random, model);
        match turn / 2 % 4 {
            3 => from_a_block(random, case, model),
            _ => cut_anywhere(random, case, &[9, 90, 90, 900, 3_000]),
        }
    });
    all.collect()
}

/// Captures with siblings whose last run is cut.
pub fn families(seed: u64, counts: &mut capture_cut_counts::Counts) -> Vec<Family> {
    let mut random = Random::new(seed ^ 0x4320);
    let all = (0..FAMILIES).map(|turn| {
        let model = MODELS[turn as usize % 2];
        let (mut case, taste) = match turn / 2 % 2 {
            0 => near_case(&mut random, model),
            _ => some_case(&mut random, model),
        };
        let most = if taste.interrupts { 3 } else { 1 };
        let runs = random.within(1..=most) as usize;
        case.calls.extend(vec![run(NO_LIMIT); runs]);
        capture_cuts::family_within(&mut random, &case, MOST_STEPS, counts).expect("an end")
    });
    all.collect()
}

/// A capture of V4-32 and of what is nearly that; it starts and does not run yet.
fn near_case(random: &mut Random, model: Model) -> (Case, Taste) {
    let taste = Taste::new(random);
    let mut maker = taste.maker(random, model);
    while maker.payload < taste.payload {
        let near = if taste.plain { 10 } else { 70 };
        let kind = match maker.random.percent(near) {
            true => maker.random.pick(&KINDS),
            false => Kind::Plain,
        };
        if maker.random.percent(10) {
            maker.move_tops();
        }
        let wanted = Wanted::of_kind(maker.random, kind);
        maker.add_unpack(&wanted, 1);
    }
    let main = maker.main(None);
    (
        started(random, channel_of(model), &main, &taste, None),
        taste,
    )
}

/// Every UNPACK of a format, with other codes between.
fn every_case(random: &mut Random, model: Model, format: Format) -> Case {
    let taste = Taste::new(random);
    let mut maker = taste.maker(random, model);
    for wanted in Wanted::all(maker.random, format) {
        maker.add_others();
        // More than CL, so that fills and gaps come.
        let cl = wanted.cycle.map_or(0, |cycle| cycle.cl);
        maker.add_unpack(&wanted, LONG.max(cl + 1));
    }
    let main = maker.main(None);
    let case = started(random, channel_of(model), &main, &taste, None);
    cut_anywhere(random, case, &[60, 300, 900, 3_000])
}

/// A capture of some UNPACKs, with other codes between; it starts and does not run yet.
fn some_case(random: &mut Random, model: Model) -> (Case, Taste) {
    let taste = Taste::new(random);
    let mut maker = taste.maker(random, model);
    add_some(&mut maker);
    let main = maker.main(None);
    (
        started(random, channel_of(model), &main, &taste, None),
        taste,
    )
}

fn add_some(maker: &mut Maker) {
    for _ in 0..maker.random.within(2..=4) {
        maker.add_others();
        let wanted = Wanted::some(maker.random);
        maker.add_unpack(&wanted, LONG);
    }
}

/// A capture that ends with a refusal: in one run, or cut anywhere.
fn refused_case(random: &mut Random, model: Model, refusal: u32, whole: bool) -> Case {
    let mut taste = Taste::new(random);
    taste.interrupts &= !whole;
    // A packet with its B must not be cut by tag words.
    taste.spread.tte &= refusal != refusals::DESCRIPTOR;
    let mut maker = taste.maker(random, model);
    add_some(&mut maker);
    maker.add_refused(refusal);
    let main = maker.main(Some(refusal));
    let case = started(random, channel_of(model), &main, &taste, Some(refusal));
    ended(random, case, whole)
}

/// Captures of packets of a format on a way, which end or are refused, in one run or cut anywhere.
fn packet_cases(random: &mut Random, way: Way, format: gif::Format) -> Vec<Case> {
    let mut ends = vec![None, Some(refusals::ROOM)];
    if format != gif::Format::Image {
        ends.push(Some(refusals::DESCRIPTOR));
    }
    let both = [true, false].into_iter();
    let all = both.flat_map(|whole| ends.iter().map(move |&refusal| (whole, refusal)));
    all.map(|(whole, refusal)| packet_case(random, (way, format), refusal, whole))
        .collect()
}

fn packet_case(
    random: &mut Random,
    (way, format): (Way, gif::Format),
    refusal: Option<u32>,
    whole: bool,
) -> Case {
    let mut taste = Taste::new(random);
    taste.spread.tte = false;
    taste.interrupts &= !whole;
    let b = refusal == Some(refusals::DESCRIPTOR);
    let main = match way {
        Way::Channel2 => quadwords_alone(random, &taste, format, b),
        _ => quadwords_in_codes(random, &taste, (way, format), b),
    };
    let case = started(random, way.channel(), &main, &taste, refusal);
    ended(random, case, whole)
}

/// Main memory with packets for channel 2, the last with a B or not.
fn quadwords_alone(random: &mut Random, taste: &Taste, format: gif::Format, b: bool) -> Vec<u32> {
    let mut packets = Packets::of(Some(format));
    let count = random.within(200..=600);
    let mut quadwords: Vec<u128> = (0..count).map(|_| packets.next(random)).collect();
    if b {
        quadwords.extend(packets.with_b(random));
    }
    let mut chain = Chain::new(taste.spread);
    for word in quadwords.into_iter().flat_map(split) {
        chain.add(random, word);
    }
    chain.main(None)
}

/// The same inside DIRECT or DIRECTHL, with other codes between.
fn quadwords_in_codes(
    random: &mut Random,
    taste: &Taste,
    (way, format): (Way, gif::Format),
    b: bool,
) -> Vec<u32> {
    let mut maker = taste.maker(random, Model::Vif1);
    maker.packets = Packets::of(Some(format));
    for _ in 0..10 {
        maker.add_others();
        maker.add_direct(way);
    }
    if b {
        maker.add_b(way);
    }
    maker.main(None)
}

fn channel_of(model: Model) -> u32 {
    match model {
        Model::Vif0 => 0,
        Model::Vif1 => 1,
    }
}

/// A capture that starts and does not run yet, with a log for what it writes, or for less where that is
/// to be refused.
fn started(
    random: &mut Random,
    channel: u32,
    main: &[u32],
    taste: &Taste,
    refusal: Option<u32>,
) -> Case {
    let calls = [start(channel, 0, taste.spread.tte as u32)];
    let mut case = plain_case(&State::reset(), main, log::MOST_ENTRIES, &calls);
    let used = entries_of(&case);
    let entries = match refusal {
        Some(refusals::ROOM) => used - random.within(1..=used.min(9)),
        _ => used + random.below(5),
    };
    case.log_length = log::length(entries);
    case.fill = random.number();
    case
}

/// The entries that a capture writes where there is room.
fn entries_of(case: &Case) -> u64 {
    let mut standing = Standing::new(case);
    case.calls.iter().for_each(|call| {
        standing.make(call);
    });
    while standing.make(&run(NO_LIMIT)) == INTERRUPT {}
    standing.used()
}

/// A capture whose chain starts again where a payload is due, or the second word of an instruction;
/// the words are then taken for others.
fn started_again(random: &mut Random, model: Model, upload: bool) -> Case {
    let mut taste = Taste::new(random);
    taste.interrupts = false;
    let mut maker = taste.maker(random, model);
    maker.add_upload();
    add_some(&mut maker);
    let main = maker.main(None);
    let mut case = started(random, channel_of(model), &main, &taste, None);
    let cut = random.pick(&payload_due(&case, upload));
    case.calls.extend([run(cut), case.calls[0]]);
    cut_anywhere(random, case, &[60, 300, 900, 3_000])
}

/// The counts of steps after which payload is due in a run, or the second word of an instruction.
fn payload_due(case: &Case, upload: bool) -> Vec<u64> {
    let mut standing = Standing::new(case);
    standing.make(&case.calls[0]);
    let (mut steps, mut due) = (0, Vec::new());
    standing.run(NO_LIMIT, |_, new, _| {
        steps += 1;
        let waiting = new.unit().waiting.as_ref();
        if waiting.is_some_and(|waiting| !upload || in_instruction(waiting)) {
            due.push(steps);
        }
    });
    due
}

/// The case with runs to its end: without a limit, or cut anywhere.
fn ended(random: &mut Random, mut case: Case, whole: bool) -> Case {
    if !whole {
        return cut_anywhere(random, case, &[9, 60, 300, 900]);
    }
    case.calls.extend([run(NO_LIMIT), run(1)]);
    case
}

/// The case with runs to the end of its chain, and one more; allowances go up to one of these.
fn cut_anywhere(random: &mut Random, mut case: Case, most: &[u64]) -> Case {
    let mut standing = Standing::new(&case);
    for call in &case.calls {
        standing.make(call);
    }
    let most = random.pick(most);
    loop {
        let call = run(some_allowance(random, most));
        case.calls.push(call);
        let answer = standing.make(&call);
        if ![ALLOWANCE_USED, INTERRUPT].contains(&answer) {
            break;
        }
    }
    case.calls.push(run(1));
    case
}

fn some_allowance(random: &mut Random, most: u64) -> u64 {
    match random.below(20) {
        0 => 0,
        1..=4 => random.within(1..=4),
        5 => random.within(64..=300),
        6 if most > 90 => NO_LIMIT,
        _ => random.within(1..=most),
    }
}

/// The case from where some steps of it lead, over memories as they are filled; at times with
/// another MODE.
fn from_a_block(random: &mut Random, mut case: Case, model: Model) -> Case {
    let mut standing = Standing::new(&case);
    for call in std::mem::take(&mut case.calls) {
        standing.make(&call);
    }
    standing.make(&run(random.within(20..=400)));
    case.state = standing.block();
    if random.percent(30) {
        let unit = match model {
            Model::Vif0 => VIF0,
            Model::Vif1 => VIF1,
        };
        case.state[unit + unit_word::MODE] = random.below(3) as u32;
    }
    cut_anywhere(random, case, &[9, 90, 90, 900, 3_000])
}

#[cfg(test)]
mod tests {
    use super::*;
    use crate::chain::DONE;

    /// The last two answers of a case.
    fn last_answers(case: &Case) -> [u32; 2] {
        let mut standing = Standing::new(case);
        let answers: Vec<u32> = case.calls.iter().map(|c| standing.make(c)).collect();
        [answers[answers.len() - 2], answers[answers.len() - 1]]
    }

    #[test]
    fn captures_end() {
        let (mut done, mut refused) = (0, Vec::new());
        for case in cases(7) {
            match last_answers(&case) {
                [DONE, DONE] => done += 1,
                [first, again] => {
                    assert_eq!(first, again);
                    refused.push(first);
                }
            }
        }
        assert!(done >= CAPTURES + 26 + FROM_BLOCKS + 18);
        for refusal in MODELS.into_iter().flat_map(refusals_of) {
            assert!(refused.contains(&refusal), "{refusal}");
        }
    }

    #[test]
    fn refused_captures_are_refused() {
        let mut random = Random::new(3);
        for model in MODELS {
            for refusal in refusals_of(model) {
                for turn in 0..10 {
                    let case = refused_case(&mut random, model, refusal, turn % 2 == 0);
                    assert_eq!(last_answers(&case), [refusal; 2], "{model:?}, {refusal}");
                }
            }
        }
    }
}
