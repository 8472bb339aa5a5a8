/* The C interface of the proved PeC board, libpec.a, for C and C++. The contract of each function is in crates/pec/src.

   A slice is a pointer and a length, which is the number of its elements. Pointers must be valid for their lengths and
   aligned. Memory that a call writes must not overlap any other memory that is passed to it. No pointer may be null,
   not even one with length 0: for an empty slice, which is neither read nor written, give the address of any variable.
   The library keeps nothing between calls and uses no heap. */
#ifndef PEC_H
#define PEC_H

#include <stdbool.h>
#include <stddef.h>
#include <stdint.h>

#ifdef __cplusplus
extern "C" {
#endif

/* The numbers of the refusals. A function that can refuse returns one of them. */
#define PEC_REFUSAL_NONE 0                     /* nothing is refused */
#define PEC_REFUSAL_UNSOUND_BOARD 1            /* the board is not sound */
#define PEC_REFUSAL_TRUNCATED_HEADER 2         /* one or two bytes are left, fewer than a tag and a length */
#define PEC_REFUSAL_UNKNOWN_TAG 3              /* the tag is unknown */
#define PEC_REFUSAL_WRONG_LENGTH 4             /* the length is not that of the tag */
#define PEC_REFUSAL_TRUNCATED_VALUE 5          /* the value is cut */
#define PEC_REFUSAL_ADDRESS_OUT_OF_RANGE 6     /* the address is 0x380 or above */
#define PEC_REFUSAL_NANOSECONDS_OUT_OF_RANGE 7 /* the nanoseconds are 1,000,000,000 or more */
#define PEC_REFUSAL_SOURCE_OUT_OF_RANGE 8      /* the source number is above 15 */
#define PEC_REFUSAL_RESERVED_SOURCE 9          /* source 3 is set from the line only */
#define PEC_REFUSAL_LEVEL_OUT_OF_RANGE 10      /* the level is above 1 */
#define PEC_REFUSAL_BUFFER_TOO_SMALL 11        /* the buffer has no room for the answer, the image or the previews */
#define PEC_REFUSAL_MALFORMED_IMAGE 12         /* the image is malformed, or for a move already in the target form */
#define PEC_REFUSAL_DEADLINE_TOO_LARGE 13      /* the deadline is above 2^64 - 1, too large for one skip */
#define PEC_REFUSAL_CLOCK_IN_REALTIME 14       /* the clock is enabled in realtime */
#define PEC_REFUSAL_UNSUPPORTED_RATE 15        /* the rate is not 1,000,000, 12,000,000 or 48,000,000 */
#define PEC_REFUSAL_RATE_NEEDS_NEW_FORM 16     /* the old form has no rate, and the board is not at 48,000,000 */

/* Runs a list over a fresh board. Gives the calls done in `calls`, the list bytes they used in `used` and the answer
   bytes in `written`; returns the refusal, 0 for none. The first call that is refused stops the run and changes
   nothing; the calls before it stand. A call is refused with 2, 3, 4 or 5 where it is not a whole call of a known tag;
   else with its own refusal, 6 to 10 or 13; else with 11. A skip with the line low is refused with 13 where the
   deadline is above 2^64 - 1; with any other deadline it ends with the line high. The pointers of an empty list and of
   an empty buffer must not be null.

   The value of an advance's answer has 65 bytes: the line in one byte, and then, channel 0 first, how many compare
   points each channel met, overdue ones too, in 16 bytes each, big-endian. Without a match the count is 0. A match
   counts 1; in mode 1 with a reload other than 0 it counts floor((counter - compare) / reload) + 1, with the old
   compare and the new counter, which can be 2^64. */
uint8_t pec_run(const uint8_t *list, size_t list_length, uint8_t *answers, size_t answers_length, size_t *calls,
                size_t *used, size_t *written);

/* Runs `first` over a fresh board and then `list` `times` times, each time over the board that the run before it left.
   The results are those of the last run. The pointers of empty lists and of an empty buffer must not be null. */
uint8_t pec_run_repeated(const uint8_t *first, size_t first_length, const uint8_t *list, size_t list_length,
                         uint64_t times, uint8_t *answers, size_t answers_length, size_t *calls, size_t *used,
                         size_t *written);

/* The rates of boards, in cycles a second. A second of the clock is that many cycles, and two polls of an alarm on host
   time are a thousandth of that apart. A fresh board without a given rate is at PEC_RATE_DEFAULT; a parked board is at
   the rate of its image. */
#define PEC_RATE_1_MHZ 1000000
#define PEC_RATE_12_MHZ 12000000
#define PEC_RATE_48_MHZ 48000000
#define PEC_RATE_DEFAULT PEC_RATE_48_MHZ

/* As `pec_run` and `pec_run_repeated`, over a fresh board at `rate`. A rate other than these three is refused with 15,
   before all else: nothing is done, the answer buffer stays, and the counts are 0. The pointers of empty lists and of
   an empty buffer must not be null. */
uint8_t pec_run_at(uint32_t rate, const uint8_t *list, size_t list_length, uint8_t *answers, size_t answers_length,
                   size_t *calls, size_t *used, size_t *written);
uint8_t pec_run_repeated_at(uint32_t rate, const uint8_t *first, size_t first_length, const uint8_t *list,
                            size_t list_length, uint64_t times, uint8_t *answers, size_t answers_length,
                            size_t *calls, size_t *used, size_t *written);

/* Writes the listing of a run at the start of `text`, as much of it as fits: a line for each answer, its tag and value
   in hexadecimal, and a last line with calls done, refusal and list bytes used in decimal. Returns the length of the
   whole listing, at most 2 * `answers_length` + 67. No zero byte follows the listing. The pointers of empty answers and
   of an empty text must not be null. */
size_t pec_listing(const uint8_t *answers, size_t answers_length, size_t calls, uint8_t refusal, size_t used,
                   uint8_t *text, size_t text_length);

/* The sizes of images in bytes. An image is a parked board: eight fields, each a tag, a two-byte length and its
   members, in order and big-endian. The first field, with tag 24 in hexadecimal, is the board's rate in four bytes. The
   old form has no rate: it is the other seven fields alone, and its board is at PEC_RATE_DEFAULT.

   Functions that read an image take either form; a move takes one form only. The length of an accepted image shows its
   form: it is PEC_IMAGE_SIZE or PEC_OLD_IMAGE_SIZE. Images are written in the new form, except by `pec_move_back`, and
   by `pec_run_parked` over an image of the old form. To park a board in the old form, move its image back. A board has
   at most one accepted image in each form. */
#define PEC_IMAGE_SIZE 276
#define PEC_OLD_IMAGE_SIZE 269

/* Parks a fresh board at PEC_RATE_DEFAULT: writes its image at the start of `image` and leaves the bytes after it.
   Gives the bytes written in `written`; returns the refusal, 0 for none. A buffer shorter than PEC_IMAGE_SIZE is
   refused with 11: it stays, and 0 bytes are written. The pointer of an empty buffer must not be null. */
uint8_t pec_fresh(uint8_t *image, size_t image_length, size_t *written);

/* As `pec_fresh`, for a fresh board at `rate`. A rate other than the three is refused with 15, before 11: the buffer
   stays, and 0 bytes are written. The pointer of an empty buffer must not be null. */
uint8_t pec_fresh_at(uint32_t rate, uint8_t *image, size_t image_length, size_t *written);

/* Returns the refusal of reading an image: 12 where it has neither form, else 1 where its board is not sound, else
   0. A board at a rate other than the three is not sound. An empty image is refused with 12; its pointer must not be
   null. */
uint8_t pec_image_refusal(const uint8_t *image, size_t image_length);

/* Moves an image of the old form to the new one, with the rate PEC_RATE_DEFAULT: writes the new image at the start of
   `moved` and leaves the bytes after it. The old image is only read. Gives the bytes written, PEC_IMAGE_SIZE; returns
   the refusal, 0 for none: 12 where the image has neither form or has the new one already, else 1 where its board is
   not sound, else 11 where `moved_length` is less than PEC_IMAGE_SIZE. A refused move leaves `moved` as it is, and 0
   bytes are written. The pointers of an empty image and of an empty buffer must not be null. */
uint8_t pec_move_forward(const uint8_t *image, size_t image_length, uint8_t *moved, size_t moved_length,
                         size_t *written);

/* Moves an image of the new form to the old one, as `pec_move_forward` does the other. Gives the bytes written,
   PEC_OLD_IMAGE_SIZE; returns the refusal, 0 for none: 12 where the image has neither form or has the old one already,
   else 1 where its board is not sound, else 16 where its rate is not PEC_RATE_DEFAULT, else 11 where `moved_length` is
   less than PEC_OLD_IMAGE_SIZE. A refused move leaves `moved` as it is, and 0 bytes are written. There and back gives
   the same bytes. The pointers of an empty image and of an empty buffer must not be null. */
uint8_t pec_move_back(const uint8_t *image, size_t image_length, uint8_t *moved, size_t moved_length, size_t *written);

/* Runs a list over a parked board and writes the board that the run leaves into the same bytes, in the form that the
   image has. An image that is refused, with 12 or 1 as by `pec_image_refusal`, changes nothing, and the counts are 0.
   Otherwise the results are those of the run, as with `pec_run`. The pointers of an empty image, list or buffer must
   not be null. */
uint8_t pec_run_parked(uint8_t *image, size_t image_length, const uint8_t *list, size_t list_length, uint8_t *answers,
                       size_t answers_length, size_t *calls, size_t *used, size_t *written);

/* Previews whether a parked board's line would be high after each of `count` totals of further cycles, in any order and
   with repeats. Writes one byte for each total at the start of `high`, 1 or 0: the line that one advance of that total
   would answer. Leaves the bytes after them; the image and the totals are only read. Returns the refusal, 0 for none:
   12 or 1 for the image, as by `pec_image_refusal`; else 14 where its clock is enabled in realtime; else 11 where
   `high_length` is less than `count`. A refused call writes nothing. The deadline is worked out once for all totals.
   Without totals nothing is written. The pointers of no totals, of an empty image and of an empty buffer must not be
   null. */
uint8_t pec_preview(const uint8_t *image, size_t image_length, const uint64_t *totals, size_t count, uint8_t *high,
                    size_t high_length);

/* The interrupt controller's operations. Its three words are packed in one number: pending from bit 32 on, enable from
   bit 16 on, levels from bit 0 on. An operation that alters them returns the new number. */
uint64_t pec_irqc_new(void);
uint64_t pec_irqc_reset(uint64_t word);
uint16_t pec_irqc_pending(uint64_t word);
uint16_t pec_irqc_enable_mask(uint64_t word);
uint64_t pec_irqc_set_enable_mask(uint64_t word, uint16_t mask);
uint64_t pec_irqc_set_source(uint64_t word, uint8_t number, bool level);
uint64_t pec_irqc_set_source_levels(uint64_t word, uint16_t mask, uint16_t levels);
uint64_t pec_irqc_clear_pending(uint64_t word, uint16_t mask);
/* Valid in bit 8, the source's number in the bits below. */
uint16_t pec_irqc_output(uint64_t word);
uint8_t pec_irqc_read(uint64_t word, uint32_t address);
uint8_t pec_irqc_debug_read(uint64_t word, uint32_t address);
uint64_t pec_irqc_write(uint64_t word, uint32_t address, uint8_t value);
uint32_t pec_irqc_size(uint64_t word);

/* The number that a fresh dispatcher remembers: 15. */
uint8_t pec_irqc_dispatch_new(void);

/* One turn of the dispatcher above the controller: serves the next enabled pending source after `last`, the remembered
   number, going round from 15 to 0. Clears that source's pending bit and nothing else. The source `last` itself comes
   last; a `last` above 15 is read as 15. Returns the source packed as by `pec_irqc_output`: valid in bit 8, the number
   in the bits below, and 0 where no enabled source is pending. `pec_irqc_output` itself remains lowest first. Gives the
   new controller in `after`, and the number to remember in `remembered`: the source's or, where none is served, `last`,
   read as 15 where it is above 15. The bits of `word` above 47 are ignored, and are 0 in `after`.

   A source that stays enabled and pending is served within 16 turns, each given the remembered number that the turn
   before left, however the other sources behave between them. `after` and `remembered` must not overlap each other.
   `word` and `last` are passed by value, so `after` and `remembered` may point to the variables that hold them. */
uint16_t pec_irqc_dispatch(uint64_t word, uint8_t last, uint64_t *after, uint8_t *remembered);

#ifdef __cplusplus
}
#endif

#endif
