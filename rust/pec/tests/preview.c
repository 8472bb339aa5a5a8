/* Previews many totals of parked boards: about a deadline, with the line high, without a deadline, and refused. Prints
   each refusal and then the buffer, and ends with 1 where an image changes. The text is C and C++: the test compiles it
   as both. */
#include "pec.h"

#include <stdio.h>
#include <string.h>

/* Channel 0 in mode 0: compare 10, prescaler 2, control 12, timer enable 1. Due after 30 cycles. */
static const uint8_t DUE[] = {3, 0, 3, 0x02, 0x93, 10, 3, 0, 3, 0x02, 0xA3, 2,
                              3, 0, 3, 0x02, 0x83, 12, 3, 0, 3, 0x00, 0x07, 1};
/* An advance of 30 cycles. */
static const uint8_t ADVANCE[] = {4, 0, 8, 0, 0, 0, 0, 0, 0, 0, 30};
/* The clock's control: enabled, in realtime. */
static const uint8_t REALTIME[] = {3, 0, 3, 0x00, 0x83, 5};
static const uint64_t TOTALS[] = {30, 29, 0, 31, UINT64_MAX, 30};
enum { COUNT = 6, BUFFER = 8, LENT = 7, FILLING = 7, TIMER_ENABLE_AT = 162 };

static int wrong = 0;

static void preview(const char *name, const uint8_t *image, size_t length, size_t count, size_t room)
{
    uint8_t high[BUFFER], kept[PEC_IMAGE_SIZE];
    memset(high, FILLING, BUFFER);
    memcpy(kept, image, PEC_IMAGE_SIZE);
    printf("%s: %u", name, pec_preview(image, length, TOTALS, count, high, room));
    for (size_t i = 0; i < BUFFER; i++) {
        printf(" %u", high[i]);
    }
    printf("\n");
    if (memcmp(image, kept, PEC_IMAGE_SIZE) != 0) {
        printf("not so: a preview leaves the image\n");
        wrong = 1;
    }
}

static void run(uint8_t *image, const uint8_t *list, size_t length)
{
    uint8_t answers[128];
    size_t calls, used, written;
    if (pec_run_parked(image, PEC_IMAGE_SIZE, list, length, answers, sizeof answers, &calls, &used, &written) !=
        PEC_REFUSAL_NONE) {
        printf("not so: the list is carried out\n");
        wrong = 1;
    }
}

int main(void)
{
    uint8_t fresh[PEC_IMAGE_SIZE], image[PEC_IMAGE_SIZE], high[PEC_IMAGE_SIZE];
    size_t written;
    pec_fresh(fresh, sizeof fresh, &written);
    memcpy(image, fresh, sizeof image);
    run(image, DUE, sizeof DUE);
    preview("due after 30", image, sizeof image, COUNT, LENT);
    preview("no totals", image, sizeof image, 0, LENT);
    preview("short", image, sizeof image, COUNT, COUNT - 1);

    memcpy(high, image, sizeof high);
    run(high, ADVANCE, sizeof ADVANCE);
    preview("high", high, sizeof high, COUNT, LENT);
    preview("fresh", fresh, sizeof fresh, COUNT, LENT);

    run(image, REALTIME, sizeof REALTIME);
    preview("in realtime", image, sizeof image, COUNT, LENT);
    preview("in realtime, short", image, sizeof image, COUNT, COUNT - 1);
    image[TIMER_ENABLE_AT] = 16;
    preview("unsound, short", image, sizeof image, COUNT, COUNT - 1);
    preview("cut, short", image, sizeof image - 1, COUNT, COUNT - 1);
    return wrong;
}
