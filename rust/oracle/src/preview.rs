//! S-6's previews of many totals. The originals have none: each byte is the line that one advance of the originals
//! shows on a copy of the board, made for that total.

use calls::Refusal;

use crate::board::AnyBoard;
use crate::image::read_image;

/// Writes one byte for each total of further cycles at the start of a buffer: 1 where the line of the image's board
/// would be high after them, else 0. Refused, it writes nothing: 12 and 1 of the image come first, then 14, then 11.
pub fn preview_parked(image: &[u8], totals: &[u64], high: &mut [u8]) -> Result<(), Refusal> {
    let (_, fields) = read_image(image)?;
    if fields.runs_from_host_time() {
        return Err(Refusal::ClockInRealtime);
    }
    let bytes = high.get_mut(..totals.len()).ok_or(Refusal::BufferTooSmall)?;
    let board = AnyBoard::from_fields(&fields);
    for (byte, total) in bytes.iter_mut().zip(totals) {
        *byte = board.line_after(*total).into();
    }
    Ok(())
}
