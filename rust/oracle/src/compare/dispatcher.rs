//! The dispatcher's turns against the rule of `dispatcher`: after every remembered number, with every two bytes as the
//! low or the high halves of pending and enable, and with random words.

use super::Count;
use crate::dispatcher::{self, Turn};
use crate::generate::Random;

/// Random pairs of pending and enable, beside the pairs of bytes.
const RANDOM: usize = 20_000;

/// Compares a turn with the rule, on each controller after every number that can be remembered. The turns on one
/// controller count as one comparison.
pub fn compare(mut turn: impl FnMut([u16; 3], u8) -> Turn) -> Result<Count, String> {
    let mut count = Count::default();
    for words in controllers() {
        for last in 0..=u8::MAX {
            let expected = dispatcher::turn(words, last);
            let found = turn(words, last);
            if expected != found {
                return Err(format!(
                    "a turn, in hexadecimal, after {last:x} on pending, enable, levels {words:x?}: \
                     the rule {expected:x?}, the proved one {found:x?}"
                ));
            }
        }
        count.comparisons += 1;
    }
    Ok(count)
}

/// Pending, enable and levels: every pair of bytes as the low halves of pending and enable, every pair as their high
/// halves, and random pairs; each with random levels.
fn controllers() -> impl Iterator<Item = [u16; 3]> {
    let bytes = || (0..=0xFF).flat_map(|pending| (0..=0xFF).map(move |enable| [pending, enable]));
    let high = bytes().map(|pair| pair.map(|byte: u16| byte << 8));
    let mut pairs = Random::new(1);
    let random = (0..RANDOM).map(move |_| [(); 2].map(|()| pairs.word() as u16));
    let mut levels = Random::new(2);
    let pairs = bytes().chain(high).chain(random);
    pairs.map(move |[pending, enable]| [pending, enable, levels.word() as u16])
}
