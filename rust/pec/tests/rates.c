/* Runs lists over boards at each rate and prints what they show of it; and at rates that no board has: each refusal,
   then the counts, and whether the buffer stayed. The text is C and C++: the test compiles it as both. */
#include "pec.h"

#include <stdio.h>
#include <string.h>

/* The alarm at 2 seconds: its eight bytes, the high word first, and alarm enable 1. */
static const uint8_t ALARM[] = {3, 0, 3, 0x00, 0x98, 0, 3, 0, 3, 0x00, 0x99, 0, 3, 0, 3, 0x00, 0x9A, 0,
                                3, 0, 3, 0x00, 0x9B, 0, 3, 0, 3, 0x00, 0x94, 0, 3, 0, 3, 0x00, 0x95, 0,
                                3, 0, 3, 0x00, 0x96, 0, 3, 0, 3, 0x00, 0x97, 2, 3, 0, 3, 0x00, 0x9F, 1};
static const uint8_t DEADLINE[] = {5, 0, 0};
/* A deadline and a cut call, which is refused with 2. */
static const uint8_t CUT[] = {5, 0, 0, 0xFF};
/* The 64-bit deadline's place in its answer, and the line's in an advance's. */
enum { BUFFER = 80, FILLING = 7, COUNTS = 99, DUE_AT = 20, LINE_AT = 3 };

static void due(uint32_t rate)
{
    uint8_t answers[BUFFER], advance[11] = {4, 0, 8};
    size_t calls, used, written;
    uint64_t cycles = 0;
    pec_run_repeated_at(rate, ALARM, sizeof ALARM, DEADLINE, sizeof DEADLINE, 1, answers, BUFFER, &calls, &used,
                        &written);
    for (int i = 0; i < 8; i++) {
        cycles = cycles << 8 | answers[DUE_AT + i];
    }
    printf("%lu: due after %lu, line after a second and two:", (unsigned long)rate, (unsigned long)cycles);
    for (int i = 0; i < 4; i++) {
        advance[7 + i] = (uint8_t)(rate >> (24 - 8 * i));
    }
    for (uint64_t seconds = 1; seconds <= 2; seconds++) {
        pec_run_repeated_at(rate, ALARM, sizeof ALARM, advance, sizeof advance, seconds, answers, BUFFER, &calls,
                            &used, &written);
        printf(" %u", answers[LINE_AT]);
    }
    printf("\n");
}

static void print(const char *name, unsigned refusal, const size_t *counts, const uint8_t *answers)
{
    uint8_t untouched[BUFFER];
    memset(untouched, FILLING, BUFFER);
    printf(" %s %u %lu %lu %lu %s", name, refusal, (unsigned long)counts[0], (unsigned long)counts[1],
           (unsigned long)counts[2], memcmp(answers, untouched, BUFFER) == 0 ? "stays" : "written");
}

/* With a buffer that has room, and with none. */
static void refused(uint32_t rate, size_t room)
{
    uint8_t answers[BUFFER];
    size_t counts[3] = {COUNTS, COUNTS, COUNTS};
    unsigned refusal;
    memset(answers, FILLING, BUFFER);
    printf("%lu into %lu:", (unsigned long)rate, (unsigned long)room);
    refusal = pec_run_at(rate, CUT, sizeof CUT, answers, room, &counts[0], &counts[1], &counts[2]);
    print("run", refusal, counts, answers);
    counts[0] = counts[1] = counts[2] = COUNTS;
    memset(answers, FILLING, BUFFER);
    refusal = pec_run_repeated_at(rate, DEADLINE, sizeof DEADLINE, CUT, sizeof CUT, 3, answers, room, &counts[0],
                                  &counts[1], &counts[2]);
    print("repeated", refusal, counts, answers);
    printf("\n");
}

int main(void)
{
    static const uint32_t OTHERS[] = {0, 999999, 24000000, 48000001, UINT32_MAX};
    due(PEC_RATE_1_MHZ);
    due(PEC_RATE_12_MHZ);
    due(PEC_RATE_48_MHZ);
    for (size_t i = 0; i < sizeof OTHERS / sizeof OTHERS[0]; i++) {
        refused(OTHERS[i], BUFFER);
        refused(OTHERS[i], 0);
    }
    refused(PEC_RATE_DEFAULT, BUFFER);
    refused(PEC_RATE_DEFAULT, 0);
    return 0;
}
