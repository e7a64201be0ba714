//! Chains whose tags stand anywhere between the words that they hand over.

use crate::capture_generate::tag;
use crate::chain::{CALL, CNT, END, NEXT, REF, STACK};
use crate::memory::MOST_MAIN;
use crate::random::Random;
use crate::refusals;

/// How the words lie behind tags.
#[derive(Clone, Copy)]
pub struct Spread {
    pub tte: bool,
    /// The fewest quadwords behind a tag, and the most.
    pub quadwords: (u64, u64),
}

/// A tag, its words 2 and 3, and its payload.
struct Piece {
    id: u32,
    tag_words: Vec<u32>,
    payload: Vec<u32>,
    /// The payload words that it takes.
    words: usize,
}

impl Piece {
    fn quadwords(&self) -> u32 {
        self.payload.len() as u32 / 4
    }

    /// The quadwords that lie in the chain: the tag, and the payload where it is not elsewhere.
    fn length(&self) -> u32 {
        match self.id {
            REF => 1,
            _ => 1 + self.quadwords(),
        }
    }

    /// The words that it still takes.
    fn room(&self) -> usize {
        2 + self.words - self.tag_words.len() - self.payload.len()
    }

    /// The number that the next word has in its quadword.
    fn number(&self) -> u32 {
        let number = match self.tag_words.len() {
            2 => self.payload.len() % 4,
            some => 2 + some,
        };
        number as u32
    }

    fn add(&mut self, word: u32) {
        match self.tag_words.len() {
            2 => self.payload.push(word),
            _ => self.tag_words.push(word),
        }
    }

    /// NOPs to a whole quadword.
    fn close(&mut self) {
        self.tag_words.resize(2, 0);
        let whole = self.payload.len().next_multiple_of(4);
        self.payload.resize(whole, 0);
    }
}

/// A chain under way.
pub struct Chain {
    spread: Spread,
    pieces: Vec<Piece>,
    calls: usize,
}

impl Chain {
    pub fn new(spread: Spread) -> Chain {
        Chain {
            spread,
            pieces: Vec::new(),
            calls: 0,
        }
    }

    pub fn tte(&self) -> bool {
        self.spread.tte
    }

    fn open(&self) -> Option<&Piece> {
        self.pieces.last().filter(|piece| piece.room() > 0)
    }

    /// The words that the last tag still takes.
    pub fn room(&self) -> usize {
        self.open().map_or(0, Piece::room)
    }

    /// The number that the next word has in its quadword.
    pub fn number(&self) -> u32 {
        match self.open() {
            Some(piece) => piece.number(),
            None if self.spread.tte => 2,
            None => 0,
        }
    }

    pub fn add(&mut self, random: &mut Random, word: u32) {
        if self.open().is_none() {
            let piece = self.new_piece(random);
            self.pieces.push(piece);
        }
        let last = self.pieces.last_mut();
        last.expect("a piece").add(word);
    }

    /// Where tag words are not transferred they are anything.
    fn new_piece(&mut self, random: &mut Random) -> Piece {
        let Spread { tte, quadwords } = self.spread;
        let tag_words = match tte {
            true => Vec::new(),
            false => vec![random.word(), random.word()],
        };
        // A tag without tag words has payload, so that it takes words.
        let (fewest, most) = quadwords;
        let least = if tte { fewest } else { fewest.max(1) };
        let mut id = random.pick(&[CNT, CNT, CNT, NEXT, REF, REF, CALL]);
        if id == CALL && self.calls == STACK {
            id = NEXT;
        }
        self.calls += (id == CALL) as usize;
        Piece {
            id,
            tag_words,
            payload: Vec::new(),
            words: 4 * random.within(least..=most) as usize,
        }
    }

    /// Main memory: the chain, with NOPs after the last word, then END or a tag that is refused.
    pub fn main(mut self, refusal: Option<u32>) -> Vec<u32> {
        self.pieces.iter_mut().for_each(Piece::close);
        let place: u32 = self.pieces.iter().map(Piece::length).sum();
        let last = last_tags(refusal, place, STACK - self.calls);
        let all = place + last.len() as u32;
        let (mut main, mut elsewhere) = (Vec::new(), Vec::new());
        for piece in &self.pieces {
            let place = main.len() as u32 / 4;
            let address = match piece.id {
                REF => all + elsewhere.len() as u32 / 4,
                NEXT | CALL => place + piece.length(),
                _ => 0,
            };
            let [low, high, ..] = tag(piece.id, piece.quadwords(), 16 * address);
            main.extend([low, high]);
            main.extend(&piece.tag_words);
            match piece.id {
                REF => elsewhere.extend(&piece.payload),
                _ => main.extend(&piece.payload),
            }
        }
        [main, last.concat(), elsewhere].concat()
    }
}

/// The last tags of a chain, from a place in quadwords on; there is room for so many calls.
fn last_tags(refusal: Option<u32>, place: u32, calls: usize) -> Vec<[u32; 4]> {
    match refusal {
        Some(refusals::TADR) => vec![tag(NEXT, 0, MOST_MAIN as u32)],
        Some(refusals::ADDR) => vec![tag(REF, 1, 8)],
        Some(refusals::SPR) => vec![tag(REF, 1, 1 << 31)],
        Some(refusals::CALL) => (0..=calls as u32)
            .map(|i| tag(CALL, 0, 16 * (place + i + 1)))
            .collect(),
        Some(refusals::OUTSIDE) => vec![tag(CNT, 65_535, 0)],
        _ => vec![tag(END, 0, 0)],
    }
}

#[cfg(test)]
mod tests {
    use super::*;
    use crate::capture_cases::Standing;
    use crate::capture_generate::{plain_case, start, NO_LIMIT};
    use crate::chain::{word_at, Next, State, DONE};

    /// The words that a unit takes up to the run's end, and its answer.
    fn taken(main: &[u32], tte: bool) -> (Vec<u32>, u32) {
        let case = plain_case(&State::reset(), main, 0, &[start(1, 0, tte as u32)]);
        let mut standing = Standing::new(&case);
        standing.make(&case.calls[0]);
        let main = standing.main.clone();
        let mut words = Vec::new();
        let stop = standing.run(NO_LIMIT, |old, _, _| match old.next() {
            Next::Tag => {}
            Next::TagWord(address) => words.push(word_at(&main, address)),
            Next::Payload(pending) => words.push(word_at(&main, pending.address)),
        });
        (words, stop.answer)
    }

    /// A chain of NOPs that are told apart by their lower bits, each put where the chain said.
    fn numbered(random: &mut Random, spread: Spread, words: u32) -> Chain {
        let mut chain = Chain::new(spread);
        for i in 0..words {
            let (number, room) = (chain.number(), chain.room());
            chain.add(random, i);
            let piece = chain.pieces.last().unwrap();
            let before = match piece.payload.len() {
                0 => 1 + piece.tag_words.len(),
                some => (some + 3) % 4,
            };
            assert_eq!(number as usize, before);
            assert!(room == 0 || piece.room() == room - 1);
        }
        chain
    }

    #[test]
    fn tags_hand_over_the_words() {
        let mut random = Random::new(1);
        for turn in 0..40 {
            let spread = Spread {
                tte: turn % 2 == 0,
                quadwords: random.pick(&[(0, 1), (0, 3), (2, 9)]),
            };
            let chain = numbered(&mut random, spread, 200);
            let (words, answer) = taken(&chain.main(None), spread.tte);
            assert_eq!(words[..200], Vec::from_iter(0..200));
            assert!(words[200..].iter().all(|&word| word == 0));
            assert_eq!(answer, DONE);
        }
    }

    #[test]
    fn last_tags_are_refused() {
        let mut random = Random::new(2);
        for tte in [false, true] {
            for refusal in refusals::TAG_STEP {
                let quadwords = (0, 5);
                let chain = numbered(&mut random, Spread { tte, quadwords }, 100);
                let (words, answer) = taken(&chain.main(Some(refusal)), tte);
                assert_eq!(words[..100], Vec::from_iter(0..100));
                assert_eq!(answer, refusal);
            }
        }
    }
}
