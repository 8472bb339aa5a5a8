/* Advances a board with two periodic channels, a one-shot and one that is not selected, and prints the line and the
   counts of matches of each advance. The text is C and C++: the test compiles it as both. */
#include "pec.h"

#include <inttypes.h>
#include <stdio.h>
#include <string.h>

/* Channel 0: compare 10, reload 4, control 13. Channel 1: reload 1, control 5. Channel 2: compare 5, control 4. Channel
   3: reload 1, control 5. Timer enable 7. */
static const uint8_t START[] = {3, 0, 3, 0x02, 0x93, 10, 3, 0, 3, 0x02, 0x9B, 4, 3, 0, 3, 0x02, 0x83, 13,
                                3, 0, 3, 0x02, 0xDB, 1,  3, 0, 3, 0x02, 0xC3, 5, 3, 0, 3, 0x03, 0x13, 5,
                                3, 0, 3, 0x03, 0x03, 4,  3, 0, 3, 0x03, 0x5B, 1, 3, 0, 3, 0x03, 0x43, 5,
                                3, 0, 3, 0x00, 0x07, 7};
enum { RECORD = 68, COUNTS = 4, COUNT = 16 };

static uint64_t eight(const uint8_t *bytes)
{
    uint64_t number = 0;
    for (int i = 0; i < 8; i++) {
        number = number << 8 | bytes[i];
    }
    return number;
}

/* Advances a parked board, and prints the answer. */
static int advance(const char *name, uint8_t *image, uint64_t cycles)
{
    uint8_t list[11] = {4, 0, 8}, answer[RECORD];
    size_t calls, used, written;
    for (int i = 0; i < 8; i++) {
        list[3 + i] = (uint8_t)(cycles >> (8 * (7 - i)));
    }
    uint8_t refusal =
        pec_run_parked(image, PEC_IMAGE_SIZE, list, sizeof list, answer, sizeof answer, &calls, &used, &written);
    if (refusal != 0 || calls != 1 || written != RECORD || answer[0] != 4 || answer[1] != 0 || answer[2] != 65) {
        printf("%s: refusal %u, %zu bytes\n", name, refusal, written);
        return 1;
    }
    printf("%s: line %u, matches", name, answer[3]);
    for (int channel = 0; channel < 4; channel++) {
        const uint8_t *count = answer + COUNTS + COUNT * channel;
        uint64_t high = eight(count), low = eight(count + 8);
        if (high == 1 && low == 0) {
            printf(" 2^64");
        } else if (high == 0) {
            printf(" %" PRIu64, low);
        } else {
            printf(" more than 2^64");
        }
    }
    printf("\n");
    return 0;
}

int main(void)
{
    uint8_t image[PEC_IMAGE_SIZE], again[PEC_IMAGE_SIZE], answers[64];
    size_t calls, used, written;
    pec_fresh(image, sizeof image, &written);
    if (pec_run_parked(image, sizeof image, START, sizeof START, answers, sizeof answers, &calls, &used, &written) != 0) {
        printf("the start was refused\n");
        return 1;
    }
    memcpy(again, image, sizeof image);
    int wrong = advance("19 cycles", image, 19);
    wrong |= advance("all that are left", image, UINT64_MAX);
    wrong |= advance("from the start", again, UINT64_MAX);
    return wrong;
}
