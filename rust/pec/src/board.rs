//! A board that goes on from one list to the next, and can be parked and taken up again.

use std::fmt;

use crate::parked::{
    image_form, move_back, move_forward, park_fresh, park_fresh_at, preview_parked, run_parked, Form, IMAGE_SIZE,
    OLD_IMAGE_SIZE,
};
use crate::{Outcome, Refusal};

/// A board, held as its image in the new form, which has the board's rate. A board has one image in that form, so
/// boards are equal where their images are.
///
/// ```
/// use pec::{list_of, Board, Call, Refusal};
///
/// // One-shot channel 0 with compare 3 counts cycles.
/// let mut board = Board::fresh();
/// let mut answers = [0; 68];
/// let program = [(0x293, 3), (0x283, 12), (0x007, 1)].map(|(address, byte)| Call::Write { address, byte });
/// assert_eq!(board.run(&list_of(&program), &mut answers).refusal, None);
/// let two = list_of(&[Call::Advance { cycles: 2 }]);
/// assert_eq!(board.run(&two, &mut answers).refusal, None);
/// assert_eq!(answers[..4], [4, 0, 65, 0]);
///
/// // Parked, and taken up again: two more cycles raise the line.
/// let image = board.image().to_vec();
/// let mut resumed = Board::from_image(&image)?;
/// assert_eq!(resumed, board);
/// assert_eq!(resumed.run(&two, &mut answers).refusal, None);
/// assert_eq!(answers[..4], [4, 0, 65, 1]);
///
/// assert_eq!(Board::from_image(&image[1..]), Err(Refusal::MalformedImage));
/// # Ok::<(), Refusal>(())
/// ```
#[derive(Clone, PartialEq, Eq)]
pub struct Board {
    // An image of the new form that the library accepts.
    image: [u8; IMAGE_SIZE],
}

impl Default for Board {
    fn default() -> Self {
        Self::fresh()
    }
}

impl Board {
    /// Everything zero except clock control 1, at [`DEFAULT_RATE`](crate::DEFAULT_RATE).
    pub fn fresh() -> Self {
        let mut image = [0; IMAGE_SIZE];
        let parked = park_fresh(&mut image);
        assert_eq!(parked, Ok(IMAGE_SIZE), "an image has {IMAGE_SIZE} bytes");
        Self { image }
    }

    /// A fresh board at a rate, one of [`RATES`](crate::RATES). Another rate is refused with
    /// [`Refusal::UnsupportedRate`].
    ///
    /// ```
    /// use pec::{list_of, Board, Call, Refusal};
    ///
    /// // The lowest byte of the clock's seconds is at address 0x08B.
    /// let mut board = Board::fresh_at(1_000_000)?;
    /// let mut answers = [0; 72];
    /// let second = [Call::Advance { cycles: 1_000_000 }, Call::Read { address: 0x08B }];
    /// assert_eq!(board.run(&list_of(&second), &mut answers).refusal, None);
    /// assert_eq!(answers[68..], [2, 0, 1, 1]);
    ///
    /// // Parked and taken up again, the board has its rate.
    /// let resumed = Board::from_image(board.image())?;
    /// assert_eq!((resumed.rate(), &resumed), (1_000_000, &board));
    ///
    /// assert_eq!(Board::fresh_at(2_000_000), Err(Refusal::UnsupportedRate));
    /// # Ok::<(), Refusal>(())
    /// ```
    pub fn fresh_at(rate: u32) -> Result<Self, Refusal> {
        let mut image = [0; IMAGE_SIZE];
        let written = park_fresh_at(rate, &mut image)?;
        assert_eq!(written, IMAGE_SIZE, "an image has {IMAGE_SIZE} bytes");
        Ok(Self { image })
    }

    /// The board of an image in either form. The old form has no rate, and its board is at
    /// [`DEFAULT_RATE`](crate::DEFAULT_RATE). Bytes that are no image are refused with [`Refusal::MalformedImage`], and
    /// the image of an unsound board with [`Refusal::UnsoundBoard`]. [`image_form`](crate::image_form) gives the form
    /// of an image.
    pub fn from_image(image: &[u8]) -> Result<Self, Refusal> {
        let mut held = [0; IMAGE_SIZE];
        match image_form(image)? {
            Form::Old => {
                let written = move_forward(image, &mut held)?;
                assert_eq!(written, IMAGE_SIZE, "an image has {IMAGE_SIZE} bytes");
            }
            Form::New => held.copy_from_slice(image),
        }
        Ok(Self { image: held })
    }

    /// The image in the new form, to be kept and given to [`Board::from_image`] later.
    pub fn image(&self) -> &[u8; IMAGE_SIZE] {
        &self.image
    }

    /// The image in the old form, for a program that reads only that. It has no rate: a board at a rate other than
    /// [`DEFAULT_RATE`](crate::DEFAULT_RATE) is refused with [`Refusal::RateNeedsNewForm`].
    ///
    /// ```
    /// use pec::{Board, Refusal};
    ///
    /// let board = Board::fresh();
    /// assert_eq!(Board::from_image(&board.old_image()?)?, board);
    /// assert_eq!(Board::fresh_at(12_000_000)?.old_image(), Err(Refusal::RateNeedsNewForm));
    /// # Ok::<(), Refusal>(())
    /// ```
    pub fn old_image(&self) -> Result<[u8; OLD_IMAGE_SIZE], Refusal> {
        let mut image = [0; OLD_IMAGE_SIZE];
        let written = move_back(&self.image, &mut image)?;
        assert_eq!(written, OLD_IMAGE_SIZE, "an old image has {OLD_IMAGE_SIZE} bytes");
        Ok(image)
    }

    /// The rate, in cycles a second: one of [`RATES`](crate::RATES).
    pub fn rate(&self) -> u32 {
        // The rate follows the tag and the length of the first field.
        let [_, _, _, a, b, c, d, ..] = self.image;
        u32::from_be_bytes([a, b, c, d])
    }

    /// Runs a list over the board. The buffer then holds the answers of the calls done, from its first byte, and after
    /// them its old bytes. A refusal stops the run, and the calls before it stand; the refused call changes nothing.
    ///
    /// A skip with the line low and a deadline is refused with [`Refusal::DeadlineTooLarge`] where that deadline is
    /// above 2^64 - 1 cycles; an accepted one ends with the line high. An advance brings a larger deadline nearer:
    ///
    /// ```
    /// use pec::{answers, list_of, Answer, Board, Call, Refusal};
    ///
    /// // Channel 0 free-running with its interrupt enabled: control 0x1E starts it from 0, and it goes round in 2^64.
    /// let mut board = Board::fresh();
    /// let mut buffer = [0; 128];
    /// let start = [(0x283, 0x1E), (0x007, 1)].map(|(address, byte)| Call::Write { address, byte });
    /// assert_eq!(board.run(&list_of(&start), &mut buffer).refusal, None);
    /// let outcome = board.run(&list_of(&[Call::Skip]), &mut buffer);
    /// assert_eq!(outcome.refusal, Some(Refusal::DeadlineTooLarge));
    ///
    /// let outcome = board.run(&list_of(&[Call::Advance { cycles: u64::MAX }, Call::Skip]), &mut buffer);
    /// let last = answers(&buffer[..outcome.answer_bytes]).last();
    /// assert_eq!(last, Some(Ok((0x06, Answer::Skip { passed: 1, line: true }))));
    /// ```
    ///
    /// A list can be cut between two calls and run in two pieces, the second into the remaining buffer. Where the first
    /// piece is not refused, the two leave the same board as one run and give the same answers, one after the other.
    pub fn run(&mut self, list: &[u8], answers: &mut [u8]) -> Outcome {
        run_parked(&mut self.image, list, answers)
    }

    /// Previews whether the line would be high after each of some totals of further cycles, in any order and with
    /// repeats. Writes one byte for each total at the start of a buffer, 1 or 0: the line that one advance of that
    /// total would answer. The board and the bytes after these stay.
    ///
    /// A board whose clock is enabled in realtime is refused with [`Refusal::ClockInRealtime`], else a buffer with
    /// fewer bytes than there are totals with [`Refusal::BufferTooSmall`]. A refused preview writes nothing.
    ///
    /// ```
    /// use pec::{list_of, Board, Call, Refusal};
    ///
    /// // One-shot channel 0 with compare 10 and prescaler 2: its interrupt is due after 30 cycles.
    /// let mut board = Board::fresh();
    /// let program = [(0x293, 10), (0x2A3, 2), (0x283, 12), (0x007, 1)];
    /// let program = program.map(|(address, byte)| Call::Write { address, byte });
    /// assert_eq!(board.run(&list_of(&program), &mut [0; 12]).refusal, None);
    /// let mut high = [7; 6];
    /// board.preview(&[30, 29, 0, u64::MAX, 30], &mut high)?;
    /// assert_eq!(high, [1, 0, 0, 1, 1, 7]);
    ///
    /// assert_eq!(board.preview(&[30, 29], &mut high[..1]), Err(Refusal::BufferTooSmall));
    /// // With the clock in realtime, an alarm may come with any advance.
    /// let realtime = Call::Write { address: 0x083, byte: 5 };
    /// assert_eq!(board.run(&list_of(&[realtime]), &mut [0; 3]).refusal, None);
    /// assert_eq!(board.preview(&[30, 29], &mut high), Err(Refusal::ClockInRealtime));
    /// # Ok::<(), Refusal>(())
    /// ```
    pub fn preview(&self, totals: &[u64], high: &mut [u8]) -> Result<(), Refusal> {
        preview_parked(&self.image, totals, high)
    }
}

impl fmt::Debug for Board {
    fn fmt(&self, f: &mut fmt::Formatter<'_>) -> fmt::Result {
        f.write_str("Board(")?;
        for byte in self.image {
            write!(f, "{byte:02x}")?;
        }
        f.write_str(")")
    }
}
