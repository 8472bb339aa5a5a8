//! The library's functions on images that the caller lends. [`Board`](crate::Board), which owns its image, builds on
//! them.

use crate::{outcome_of, refusal_of, written_of, Outcome, Refusal};

/// The bytes of an image in the new form: the field of the rate, and then the fields of the old form.
pub const IMAGE_SIZE: usize = 7 + OLD_IMAGE_SIZE;

/// The bytes of an image in the old form.
pub const OLD_IMAGE_SIZE: usize = 269;

/// The form of an image.
#[derive(Clone, Copy, Debug, PartialEq, Eq, Hash)]
pub enum Form {
    /// Without a rate: the board is at [`DEFAULT_RATE`](crate::DEFAULT_RATE). It has [`OLD_IMAGE_SIZE`] bytes.
    Old,
    /// With the board's rate, any of [`RATES`](crate::RATES). It has [`IMAGE_SIZE`] bytes. Images are written in this
    /// form, except by [`move_back`], by [`Board::old_image`](crate::Board::old_image), and by [`run_parked`] over an
    /// old image.
    New,
}

// A slice is passed as its pointer and its length. No pointer may be null, not even one with length 0. The pointer of a
// Rust slice never is, even of an empty one.
unsafe extern "C" {
    fn pec_fresh(image: *mut u8, image_length: usize, written: *mut usize) -> u8;
    fn pec_fresh_at(rate: u32, image: *mut u8, image_length: usize, written: *mut usize) -> u8;
    fn pec_move_forward(
        image: *const u8,
        image_length: usize,
        moved: *mut u8,
        moved_length: usize,
        written: *mut usize,
    ) -> u8;
    fn pec_move_back(
        image: *const u8,
        image_length: usize,
        moved: *mut u8,
        moved_length: usize,
        written: *mut usize,
    ) -> u8;
    fn pec_image_refusal(image: *const u8, image_length: usize) -> u8;
    fn pec_run_parked(
        image: *mut u8,
        image_length: usize,
        list: *const u8,
        list_length: usize,
        answers: *mut u8,
        answers_length: usize,
        calls: *mut usize,
        used: *mut usize,
        written: *mut usize,
    ) -> u8;
    fn pec_preview(
        image: *const u8,
        image_length: usize,
        totals: *const u64,
        count: usize,
        high: *mut u8,
        high_length: usize,
    ) -> u8;
}

/// Parks a fresh board at [`DEFAULT_RATE`](crate::DEFAULT_RATE): writes its image, in the new form, at the start of a
/// buffer, and leaves the bytes after it. Gives the bytes written, [`IMAGE_SIZE`]. A shorter buffer is refused with
/// [`Refusal::BufferTooSmall`] and left as it is.
pub fn park_fresh(buffer: &mut [u8]) -> Result<usize, Refusal> {
    let (start, room) = (buffer.as_mut_ptr(), buffer.len());
    // SAFETY: the pointers and the length are those of a slice and a number that live through the call, and the two do
    // not overlap.
    written_of(|written| unsafe { pec_fresh(start, room, written) })
}

/// As [`park_fresh`], for a board at a rate. A rate other than [`RATES`](crate::RATES) is refused with
/// [`Refusal::UnsupportedRate`], before a short buffer is, and leaves the buffer.
///
/// ```
/// use pec::{park_fresh_at, Board, Refusal, IMAGE_SIZE};
///
/// let mut image = [0; IMAGE_SIZE];
/// assert_eq!(park_fresh_at(12_000_000, &mut image), Ok(IMAGE_SIZE));
/// assert_eq!(Board::from_image(&image)?.rate(), 12_000_000);
/// assert_eq!(park_fresh_at(24_000_000, &mut []), Err(Refusal::UnsupportedRate));
/// # Ok::<(), Refusal>(())
/// ```
pub fn park_fresh_at(rate: u32, buffer: &mut [u8]) -> Result<usize, Refusal> {
    let (start, room) = (buffer.as_mut_ptr(), buffer.len());
    // SAFETY: as in `park_fresh`.
    written_of(|written| unsafe { pec_fresh_at(rate, start, room, written) })
}

/// Moves an image of the old form to the new one, with the rate [`DEFAULT_RATE`](crate::DEFAULT_RATE): writes it at the
/// start of a buffer, and leaves the bytes after it. Gives the bytes written, [`IMAGE_SIZE`]. The image itself stays.
///
/// A refused move leaves the buffer. It is refused with [`Refusal::MalformedImage`], also where the image has the new
/// form already; else with [`Refusal::UnsoundBoard`]; else with [`Refusal::BufferTooSmall`].
///
/// ```
/// use pec::{image_form, move_back, move_forward, Board, Form, Refusal, IMAGE_SIZE};
///
/// // An image in the old form.
/// let old = Board::fresh().old_image()?;
/// assert_eq!(image_form(&old), Ok(Form::Old));
/// let mut new = [0; IMAGE_SIZE];
/// assert_eq!(move_forward(&old, &mut new), Ok(IMAGE_SIZE));
/// assert_eq!(image_form(&new), Ok(Form::New));
/// // There and back gives the same bytes.
/// let mut back = old;
/// back.fill(0);
/// assert_eq!(move_back(&new, &mut back), Ok(back.len()));
/// assert_eq!(back, old);
/// // It has the new form already.
/// assert_eq!(move_forward(&new, &mut [0; IMAGE_SIZE]), Err(Refusal::MalformedImage));
/// # Ok::<(), Refusal>(())
/// ```
pub fn move_forward(image: &[u8], moved: &mut [u8]) -> Result<usize, Refusal> {
    let (start, room) = (moved.as_mut_ptr(), moved.len());
    // SAFETY: the pointers and lengths are those of slices and a number that live through the call; the image is only
    // read, and none of the others overlaps anything else that is lent.
    written_of(|written| unsafe { pec_move_forward(image.as_ptr(), image.len(), start, room, written) })
}

/// Moves an image of the new form to the old one, for a program that reads only that. Writes it as [`move_forward`]
/// does, and gives the bytes written, [`OLD_IMAGE_SIZE`].
///
/// A refused move leaves the buffer. It is refused with [`Refusal::MalformedImage`], also where the image has the old
/// form already; else with [`Refusal::UnsoundBoard`]; else with [`Refusal::RateNeedsNewForm`], where the board is at a
/// rate other than [`DEFAULT_RATE`](crate::DEFAULT_RATE); else with [`Refusal::BufferTooSmall`].
///
/// ```
/// use pec::{move_back, Board, Refusal, OLD_IMAGE_SIZE};
///
/// let mut old = [0; OLD_IMAGE_SIZE];
/// assert_eq!(move_back(Board::fresh().image(), &mut old), Ok(OLD_IMAGE_SIZE));
/// let slow = Board::fresh_at(1_000_000)?;
/// assert_eq!(move_back(slow.image(), &mut old), Err(Refusal::RateNeedsNewForm));
/// # Ok::<(), Refusal>(())
/// ```
pub fn move_back(image: &[u8], moved: &mut [u8]) -> Result<usize, Refusal> {
    let (start, room) = (moved.as_mut_ptr(), moved.len());
    // SAFETY: as in `move_forward`.
    written_of(|written| unsafe { pec_move_back(image.as_ptr(), image.len(), start, room, written) })
}

/// The form of an image, or the refusal that [`image_refusal`] gives.
///
/// ```
/// use pec::{image_form, Board, Form, Refusal};
///
/// let board = Board::fresh();
/// assert_eq!(image_form(board.image()), Ok(Form::New));
/// assert_eq!(image_form(&board.old_image()?), Ok(Form::Old));
/// assert_eq!(image_form(b"no image"), Err(Refusal::MalformedImage));
/// # Ok::<(), Refusal>(())
/// ```
pub fn image_form(image: &[u8]) -> Result<Form, Refusal> {
    match image_refusal(image) {
        Some(refusal) => Err(refusal),
        // By the library's contract the length of an accepted image shows its form.
        None if image.len() == OLD_IMAGE_SIZE => Ok(Form::Old),
        None => Ok(Form::New),
    }
}

/// The refusal of reading some bytes as an image in either form; none where they are accepted. Malformed bytes are
/// refused with [`Refusal::MalformedImage`], and the well-formed image of a board that is not sound with
/// [`Refusal::UnsoundBoard`]. A board at a rate other than [`RATES`](crate::RATES) is not sound.
#[must_use]
pub fn image_refusal(image: &[u8]) -> Option<Refusal> {
    // SAFETY: the pointer and the length are those of a slice, which is only read.
    refusal_of(unsafe { pec_image_refusal(image.as_ptr(), image.len()) })
}

/// Runs a list over the board of an image in either form, and writes the board that the run leaves into the same bytes,
/// in the form that the image has. Where [`image_refusal`] refuses the image, the outcome has that refusal, nothing is
/// done and nothing is changed.
pub fn run_parked(image: &mut [u8], list: &[u8], answers: &mut [u8]) -> Outcome {
    let (start, length) = (image.as_mut_ptr(), image.len());
    let (from, room) = (answers.as_mut_ptr(), answers.len());
    // SAFETY: the pointers and lengths are those of slices and numbers that live through the call, and none of what is
    // written overlaps anything else that is lent.
    outcome_of(|calls, used, written| unsafe {
        pec_run_parked(
            start,
            length,
            list.as_ptr(),
            list.len(),
            from,
            room,
            calls,
            used,
            written,
        )
    })
}

/// Previews whether the line of the board of an image, in either form, would be high after each of some totals of
/// further cycles. Writes one byte for each, 1 or 0, in the order of the totals, at the start of a buffer. The bytes
/// after them stay.
///
/// A refused preview writes nothing. It is refused where [`image_refusal`] refuses the image, with that refusal; else
/// with [`Refusal::ClockInRealtime`], where the clock is enabled in realtime; else with [`Refusal::BufferTooSmall`],
/// where there are more totals than bytes.
pub fn preview_parked(image: &[u8], totals: &[u64], high: &mut [u8]) -> Result<(), Refusal> {
    let (from, room) = (high.as_mut_ptr(), high.len());
    // SAFETY: the pointers and lengths are those of slices that live through the call; two are only read, and the third
    // overlaps neither.
    let number = unsafe { pec_preview(image.as_ptr(), image.len(), totals.as_ptr(), totals.len(), from, room) };
    refusal_of(number).map_or(Ok(()), Err)
}
