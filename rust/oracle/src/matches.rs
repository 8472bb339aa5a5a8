//! How many compare points the channels met in an advance: S-4's counts of matches per advance. The Rust has no counts.
//! These are the oracle's own reading of what an advance of the Rust changed in a channel, so equal counts of the
//! proved board are not agreement with the Rust.

use calls::Answer;

use crate::fields::Channel;
use crate::registers::CHANNELS;

/// The counts, channel 0 first, from the channels before and after an advance. A channel that does not run is not
/// changed, and its count is 0.
pub fn met(before: &[Channel; CHANNELS], after: &[Channel; CHANNELS]) -> [u128; CHANNELS] {
    std::array::from_fn(|number| met_by(&before[number], &after[number]))
}

fn met_by(before: &Channel, after: &Channel) -> u128 {
    let switched_off = before.enabled() && !after.enabled();
    match before.mode() {
        // One-shot: a match switches it off.
        0 => u128::from(switched_off),
        // Periodic: the compare goes on by one reload for each point that was met. Where it cannot, because the reload
        // is 0 or the next compare is too large, a match switches the channel off, and the compare stays.
        1 if after.compare != before.compare => u128::from((after.compare - before.compare) / before.reload),
        1 if switched_off && before.reload == 0 => 1,
        1 if switched_off => u128::from((after.counter - before.compare) / before.reload) + 1,
        // Free-running: a match disarms it.
        2 => u128::from(before.armed && !after.armed),
        _ => 0,
    }
}

/// The answer of an advance with the counts between these channels; any other answer unchanged.
pub fn counted(answer: Answer, before: &[Channel; CHANNELS], after: &[Channel; CHANNELS]) -> Answer {
    match answer {
        Answer::Advance { line, .. } => Answer::Advance {
            line,
            matches: met(before, after),
        },
        other => other,
    }
}

/// Replaces the counts in some answers by zeros, as a run that does not count gives them.
pub fn zero_counts(answers: &mut [u8]) {
    let mut at = 0;
    while at < answers.len() {
        let (tag, answer, used) = Answer::decode(&answers[at..]).expect("a run writes whole answers");
        if let Answer::Advance { line, .. } = answer {
            let uncounted = Answer::Advance {
                line,
                matches: [0; CHANNELS],
            };
            uncounted.store(tag, &mut answers[at..at + used]);
        }
        at += used;
    }
}
