/* Parks a fresh board, runs a list over it in two pieces, and compares the answers, the counts and the image with those
   of the list in one run. Then a skip that is refused over a parked board, and images and buffers that are refused.
   Prints each result, and ends with 1 where something that must stay or agree does not. The text is C and C++: the test
   compiles it as both. */
#include "pec.h"

#include <stdio.h>
#include <string.h>

/* Channel 0: compare 3, control 12, timer enable 1. Then advances of 2 and 1 cycles, and the deadline before each. */
static const uint8_t LIST[] = {3, 0, 3, 0x02, 0x93, 3, 3, 0, 3, 0x02, 0x83, 12, 3, 0, 3, 0x00, 0x07, 1,
                               5, 0, 0, 4, 0, 8, 0, 0, 0, 0, 0, 0, 0, 2, /* the first piece ends here */
                               5, 0, 0, 4, 0, 8, 0, 0, 0, 0, 0, 0, 0, 1};
enum { FIRST = 32, FILLING = 0xA5, ANSWERS = 256, TIMER_ENABLE_AT = 162 };

static uint8_t image[PEC_IMAGE_SIZE + 1], kept[PEC_IMAGE_SIZE + 1];
static int wrong = 0;

static void must(bool holds, const char *what)
{
    if (!holds) {
        printf("not so: %s\n", what);
        wrong = 1;
    }
}

static void run_in_two_parts(void)
{
    uint8_t answers[ANSWERS], whole[ANSWERS], again[PEC_IMAGE_SIZE];
    size_t calls, used, written, more_calls, more_used, more_written, all_calls, all_used, all_written;
    memset(answers, FILLING, ANSWERS);
    memset(whole, FILLING, ANSWERS);
    uint8_t refusal = pec_run(LIST, sizeof LIST, whole, ANSWERS, &all_calls, &all_used, &all_written);
    printf("whole: %u %zu %zu %zu\n", refusal, all_calls, all_used, all_written);
    must(pec_fresh(again, sizeof again, &written) == PEC_REFUSAL_NONE, "a buffer of the image's size holds it");
    pec_run_parked(again, sizeof again, LIST, sizeof LIST, answers, ANSWERS, &calls, &used, &written);
    must(calls == all_calls && used == all_used && written == all_written, "a parked run has the counts of a run");
    must(memcmp(answers, whole, ANSWERS) == 0, "a parked run has the answers of a run");

    memset(answers, FILLING, ANSWERS);
    refusal = pec_run_parked(image, PEC_IMAGE_SIZE, LIST, FIRST, answers, ANSWERS, &calls, &used, &written);
    printf("first: %u %zu %zu %zu\n", refusal, calls, used, written);
    refusal = pec_run_parked(image, PEC_IMAGE_SIZE, LIST + used, sizeof LIST - used, answers + written,
                             ANSWERS - written, &more_calls, &more_used, &more_written);
    printf("second: %u %zu %zu %zu\n", refusal, more_calls, more_used, more_written);
    must(memcmp(answers, whole, ANSWERS) == 0, "the answers of the parts are those of the whole");
    must(memcmp(image, again, sizeof again) == 0, "the parts leave the board of the whole");
    must(image[PEC_IMAGE_SIZE] == FILLING, "the byte after the image stays");
}

/* Channel 0 free-running from 0, control 0x1E; timer enable 1. Due after 2^64 cycles. Then a skip, and an output. */
static const uint8_t FAR[] = {3, 0, 3, 0x02, 0x83, 0x1E, 3, 0, 3, 0x00, 0x07, 1, 6, 0, 0, 0x0A, 0, 0};
/* An advance of one cycle, and a skip. */
static const uint8_t NEARER[] = {4, 0, 8, 0, 0, 0, 0, 0, 0, 0, 1, 6, 0, 0};
enum { STARTED = 12 };

/* A skip over a parked board whose deadline is too large, into buffers with room for its answer and without; and one
   after an advance of one cycle. */
static void skip_too_far(void)
{
    uint8_t answers[ANSWERS], far[PEC_IMAGE_SIZE], started[PEC_IMAGE_SIZE];
    size_t calls, used, written;
    must(pec_fresh(started, sizeof started, &written) == PEC_REFUSAL_NONE, "a buffer of the image's size holds it");
    pec_run_parked(started, sizeof started, FAR, STARTED, answers, ANSWERS, &calls, &used, &written);
    const size_t lengths[] = {ANSWERS, 6};
    for (size_t i = 0; i < 2; i++) {
        pec_fresh(far, sizeof far, &written);
        memset(answers, FILLING, ANSWERS);
        unsigned refusal =
            pec_run_parked(far, sizeof far, FAR, sizeof FAR, answers, lengths[i], &calls, &used, &written);
        printf("too far: %u %zu %zu %zu\n", refusal, calls, used, written);
        must(refusal == PEC_REFUSAL_DEADLINE_TOO_LARGE, "a deadline that is too large for a skip refuses it");
        must(memcmp(far, started, sizeof far) == 0, "a refused skip leaves the board of the calls before it");
        must(answers[written] == FILLING, "a refused skip leaves the rest of the answers");
        refusal = pec_run(FAR, sizeof FAR, answers, lengths[i], &calls, &used, &written);
        printf("too far, not parked: %u %zu %zu %zu\n", refusal, calls, used, written);
    }
    unsigned refusal =
        pec_run_parked(far, sizeof far, NEARER, sizeof NEARER, answers, ANSWERS, &calls, &used, &written);
    printf("nearer: %u %zu %zu %zu, line %u\n", refusal, calls, used, written, answers[written - 1]);
}

/* The refusals of an image: by `pec_image_refusal`, and of a run over it, which must change nothing. */
static void show_refused(const char *name, size_t length, unsigned refusal)
{
    uint8_t answers[ANSWERS], before[ANSWERS];
    size_t calls = 7, used = 7, written = 7;
    memset(answers, FILLING, ANSWERS);
    memcpy(before, answers, ANSWERS);
    memcpy(kept, image, sizeof image);
    unsigned asked = pec_image_refusal(image, length);
    unsigned run = pec_run_parked(image, length, LIST, sizeof LIST, answers, ANSWERS, &calls, &used, &written);
    printf("%s: %u %u %zu %zu %zu\n", name, asked, run, calls, used, written);
    must(asked == refusal && run == refusal, "the refusal has its name");
    must(memcmp(image, kept, sizeof image) == 0, "a refused image stays");
    must(memcmp(answers, before, ANSWERS) == 0, "a refused image leaves the answers");
}

int main(void)
{
    size_t written = 7;
    memset(image, FILLING, sizeof image);
    memset(kept, FILLING, sizeof kept);
    unsigned refusal = pec_fresh(image, PEC_IMAGE_SIZE - 1, &written);
    printf("short: %u %zu\n", refusal, written);
    must(refusal == PEC_REFUSAL_BUFFER_TOO_SMALL, "a short buffer is refused for that");
    must(memcmp(image, kept, sizeof image) == 0, "a short buffer stays");
    refusal = pec_fresh(image, sizeof image, &written);
    printf("fresh: %u %zu, read %u\n", refusal, written, pec_image_refusal(image, written));
    must(image[PEC_IMAGE_SIZE] == FILLING, "the byte after a fresh image stays");

    run_in_two_parts();
    skip_too_far();

    show_refused("one byte over", PEC_IMAGE_SIZE + 1, PEC_REFUSAL_MALFORMED_IMAGE);
    show_refused("cut", PEC_IMAGE_SIZE - 1, PEC_REFUSAL_MALFORMED_IMAGE);
    image[TIMER_ENABLE_AT] = 16;
    show_refused("unsound", PEC_IMAGE_SIZE, PEC_REFUSAL_UNSOUND_BOARD);
    image[0] = 0x21;
    show_refused("damaged and unsound", PEC_IMAGE_SIZE, PEC_REFUSAL_MALFORMED_IMAGE);
    image[TIMER_ENABLE_AT] = 1;
    show_refused("damaged", PEC_IMAGE_SIZE, PEC_REFUSAL_MALFORMED_IMAGE);
    return wrong;
}
