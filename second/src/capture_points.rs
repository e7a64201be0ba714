//! The points worked by hand as captures: a chain that hands the words of a point to its unit.

use crate::capture_cases::{Call, Case};
use crate::capture_generate::{plain_case, tag};
use crate::chain::{Pending, State, CNT, END};
use crate::model::Model;
use crate::state_block::{put_part, VIF0, VIF1};
use crate::vif_points::Point;

/// A run to the first word that writes, one run for each word from there on, and two to the end.
/// Where the first word is not word 0, the payload is pending at first.
pub fn case(point: &Point) -> Case {
    let of_vif = point.case();
    let (words, skipped) = (of_vif.words, of_vif.number);
    let quadwords = (skipped + words.len() as u32) / 4;
    let before = vec![0; skipped as usize];
    let main = [&tag(CNT, quadwords, 0)[..], &before, &words];
    let main = [&main.concat()[..], &tag(END, 0, 0)].concat();
    let run = |allowance| Call::Run { allowance };
    let quiet = point.quiet_words();
    let mut calls = vec![run(quiet as u64 + (skipped == 0) as u64)];
    calls.extend((quiet..point.words()).map(|_| run(1)));
    calls.extend([run(u64::MAX), run(u64::MAX)]);
    let (channel, unit_at) = match of_vif.model {
        Model::Vif0 => (0, VIF0),
        Model::Vif1 => (1, VIF1),
    };
    let mut state = State {
        channel,
        ..State::reset()
    };
    if skipped > 0 {
        state.tadr = 16 + 16 * quadwords;
        state.payload = Some(Pending {
            address: 16 + 4 * skipped,
            words: words.len() as u32,
        });
    }
    let mut case = plain_case(&state, &main, 0, &calls);
    put_part(&mut case.state, unit_at, &of_vif.unit);
    case
}

#[cfg(test)]
mod tests {
    use super::*;
    use crate::capture_cases::Standing;
    use crate::chain::DONE;
    use crate::vif_cases;
    use crate::vif_points;

    /// The chain leaves in the memories what the words leave, and the other unit's as they were.
    #[test]
    fn same_as_the_words() {
        for point in vif_points::all() {
            let mut case = case(&point);
            if point.case().model == Model::Vif0 {
                // VIF0's memories are filled with this added.
                case.fill -= 5;
            }
            let mut standing = Standing::new(&case);
            let mut answer = DONE;
            for call in &case.calls {
                if let Call::Run { allowance } = *call {
                    answer = standing.run(allowance, |_, _, _| {}).answer;
                }
            }
            let words = point.case();
            let mut plain = vif_cases::Standing::new(&words);
            for at in 0..point.words() {
                plain.take(words.given(at));
            }
            assert_eq!(answer, point.refusal().unwrap_or(DONE));
            let other = words.model.other();
            assert!(standing.memories(other) == Standing::new(&case).memories(other));
            let lent = standing.lent();
            assert!(lent.data == plain.data && lent.code == plain.code);
        }
    }
}
