//! The ways on which quadwords come to a path.

use crate::capture_generate::split;
use crate::chain::{Next, State};
use crate::gif::Path;
use crate::packet_counts;
use crate::vif::Payload;
use crate::vif_generate::code_word;

#[derive(Clone, Copy, PartialEq, Eq, Debug)]
pub enum Way {
    Direct,
    Directhl,
    Channel2,
}

pub const WAYS: [Way; 3] = [Way::Direct, Way::Directhl, Way::Channel2];

impl Way {
    pub fn name(self) -> &'static str {
        match self {
            Way::Direct => "DIRECT",
            Way::Directhl => "DIRECTHL",
            Way::Channel2 => "channel 2",
        }
    }

    /// The CMD of the code that takes the quadwords; none on channel 2.
    pub fn command(self) -> Option<u32> {
        match self {
            Way::Direct => Some(0x50),
            Way::Directhl => Some(0x51),
            Way::Channel2 => None,
        }
    }

    /// The way of a code that waits, where it takes quadwords.
    pub fn of_payload(payload: &Payload) -> Option<Way> {
        match payload {
            Payload::Direct => Some(Way::Direct),
            Payload::Directhl => Some(Way::Directhl),
            _ => None,
        }
    }

    pub fn channel(self) -> u32 {
        match self {
            Way::Direct | Way::Directhl => 1,
            Way::Channel2 => 2,
        }
    }

    /// After reset, on the way's channel.
    pub fn state(self) -> State {
        State {
            channel: self.channel(),
            ..State::reset()
        }
    }

    /// The payload that hands over quadwords: behind the code, where there is one.
    pub fn payload(self, quadwords: &[u128]) -> Vec<u32> {
        let count = quadwords.len() as u32;
        let code = self.command().map(|command| code_word(command, 0, count));
        let mut words = code.map_or(Vec::new(), |code| vec![0, 0, 0, code]);
        words.extend(quadwords.iter().flat_map(|&quadword| split(quadword)));
        words
    }

    /// The steps of a run before the first quadword: the tag's, and those of the code's quadword.
    pub fn steps_before(self) -> u64 {
        match self.command() {
            Some(_) => 5,
            None => 1,
        }
    }
}

/// A quadword that the next step gives to a path.
pub struct Given<'a> {
    pub way: Way,
    pub path: &'a Path,
    pub address: u32,
}

impl Given<'_> {
    pub fn new(state: &State) -> Option<Given<'_>> {
        let Next::Payload(pending) = state.next() else {
            return None;
        };
        let waiting = state.vif1.waiting.as_ref();
        let (way, path) = match state.channel {
            1 => (Way::of_payload(&waiting?.payload)?, &state.path2),
            2 => (Way::Channel2, &state.path3),
            _ => return None,
        };
        let address = pending.address;
        (address % 16 == 0).then_some(Given { way, path, address })
    }

    /// Whether the quadword closes a packet where it is taken.
    pub fn closes(&self, quadword: u128) -> bool {
        packet_counts::closes(self.path, quadword)
    }
}
