//! Previews of many totals against the originals: on boards by seed, on boards whose deadlines are about 2^64, and on
//! damaged images; in both forms and at each rate; into buffers with room, without and with more.

use calls::{list_of, Refusal};

use super::{clock, hex, parked, skips, Count, OLD};
use crate::board::{AnyBoard, Board};
use crate::deadline;
use crate::fields::Fields;
use crate::generate::{self, Random};
use crate::image::{image_of, Form};
use crate::list;
use crate::preview::preview_parked;

/// Previews the totals of the board of an image, into a buffer.
pub type Previewer<'a> = dyn Fn(&[u8], &[u64], &mut [u8]) -> Result<(), Refusal> + Sync + 'a;

/// Random sound boards of a seed in a form at a rate, beside the one that its list leaves.
const BOARDS: usize = 8;

/// Random totals of a board, beside those about its deadline.
const RANDOM: usize = 12;

/// The board that the list of a seed leaves at a rate, and random sound boards.
pub fn boards(rate: u32, seed: u64) -> Vec<Fields> {
    let generated = generate::list_at(rate, seed);
    let mut board = AnyBoard::from_fields(&Fields::fresh_at(rate));
    // The list may end in a call that is refused, which changes nothing.
    let _ = board.run(&generated.list, &mut vec![0; generated.buffer]);
    let mut boards = vec![board.fields()];
    let mut random = Random::at(rate, seed);
    boards.extend((0..BOARDS).map(|_| random.sound_fields()));
    boards
}

/// The totals of a board: 0, 1 and 2^64 - 1; its deadline, a cycle less and a cycle more, where they are 64-bit
/// numbers; random ones, and some of all these a second time; in any order.
pub fn totals(fields: &Fields, random: &mut Random) -> Vec<u64> {
    let mut totals = vec![0, 1, u64::MAX];
    if let Some(due) = deadline::exact(fields) {
        totals.extend(
            [due - 1, due, due + 1]
                .into_iter()
                .filter_map(|total| u64::try_from(total).ok()),
        );
    }
    totals.extend((0..RANDOM).map(|_| random.number()));
    for _ in 0..random.below(4) {
        let again = random.pick(&totals);
        totals.push(again);
    }
    random.shuffle(&mut totals);
    totals
}

/// The boards of a seed, parked in a form, each with its totals into buffers with just enough room, with more and with
/// less; and with no totals.
pub fn seed(preview: &Previewer, form: Form, rate: u32, seed: u64) -> Result<Count, String> {
    let mut count = Count::default();
    let mut random = Random::at(rate, !seed);
    for fields in boards(rate, seed) {
        let image = image_of(form, &fields);
        let totals = totals(&fields, &mut random);
        let over = 1 + random.below(9) as usize;
        let short = random.below(totals.len() as u64) as usize;
        for buffer in [totals.len(), totals.len() + over, totals.len() - 1, short] {
            count.add(compare(preview, &image, &totals, buffer)?);
        }
        count.add(compare(preview, &image, &[], over)?);
    }
    Ok(count)
}

/// Boards whose deadline is about 2^64 or above, with the line low and high; and buffers of every length up to two
/// bytes more than the totals.
pub fn limits(preview: &Previewer) -> Result<Count, String> {
    let mut count = Count::default();
    let mut random = Random::new(1);
    for start in skips::starts() {
        let mut board = Board::fresh();
        assert_eq!(
            list::run(&mut board, &list_of(&start.calls), &mut OLD.to_vec()).refusal,
            None
        );
        let fields = board.fields();
        let image = image_of(Form::New, &fields);
        let mut totals = totals(&fields, &mut random);
        totals.push(u64::MAX - 1);
        for buffer in 0..=totals.len() + 2 {
            count.add(compare(preview, &image, &totals, buffer)?);
        }
    }
    Ok(count)
}

/// Boards at a rate whose clock counts, parked in a form, with totals about the ends of seconds, the polls and the
/// alarm's deadline; and boards with an alarm due about 2^64.
pub fn clocks(preview: &Previewer, form: Form, rate: u32) -> Result<Count, String> {
    let mut count = Count::default();
    for start in clock::counting(rate).into_iter().chain(clock::far(rate)) {
        let mut board = AnyBoard::from_fields(&Fields::fresh_at(rate));
        assert_eq!(board.run(&list_of(&start.calls), &mut OLD.to_vec()).refusal, None);
        let totals: Vec<u64> = start.advances.into_iter().collect();
        let image = image_of(form, &board.fields());
        count.add(compare(preview, &image, &totals, totals.len())?);
    }
    Ok(count)
}

/// Images in a form of boards at a rate, unchanged, with each byte replaced by another, cut at every place, and with an
/// extra byte; into buffers with room and without, to show that a refusal of the image comes first.
pub fn images(preview: &Previewer, form: Form, rate: u32) -> Result<Count, String> {
    let mut count = Count::default();
    let mut add = |image: &[u8]| -> Result<(), String> {
        for buffer in [2, 3] {
            count.add(compare(preview, image, &[u64::MAX, 0, 1], buffer)?);
        }
        Ok(())
    };
    for (_, fields) in parked::images(rate) {
        let image = image_of(form, &fields);
        add(&image)?;
        for place in 0..image.len() {
            for change in [0x01, 0x80, 0xFF] {
                let mut replaced = image.clone();
                replaced[place] ^= change;
                add(&replaced)?;
            }
            add(&image[..place])?;
        }
        add(&[&image[..], &[0]].concat())?;
    }
    Ok(count)
}

/// One comparison: the refusal, and the whole buffer.
fn compare(preview: &Previewer, image: &[u8], totals: &[u64], buffer: usize) -> Result<Count, String> {
    let mut expected = OLD[..buffer].to_vec();
    let mut found = expected.clone();
    let rust = preview_parked(image, totals, &mut expected);
    let other = preview(image, totals, &mut found);
    if (rust, &expected) == (other, &found) {
        return Ok(Count {
            comparisons: 1,
            calls: 0,
        });
    }
    Err(format!(
        "previews of {totals:?} into {buffer} bytes, of the image {}:\nRust: {rust:?} {}\nproved: {other:?} {}",
        hex(image),
        hex(&expected),
        hex(&found)
    ))
}
