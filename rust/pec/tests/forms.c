/* Parks fresh boards at each rate and at rates that no board has. Moves images from form to form: boards at each rate,
   damaged and unsound images, and short buffers. Runs and previews an old image beside the new one. Prints each refusal
   and then the bytes written, and ends with 1 where something that must stay or agree does not. The text is C and C++:
   the test compiles it as both. */
#include "pec.h"

#include <stdio.h>
#include <string.h>

enum { BUFFER = PEC_IMAGE_SIZE + 3, FILLING = 0xA5, COUNTS = 99, RATE_AT = 3, TIMER_ENABLE_AT = 162, ANSWERS = 128 };

/* The alarm at 2 seconds: its eight bytes, the high word first, and alarm enable 1; and an advance of 7. */
static const uint8_t LIST[] = {3, 0, 3, 0x00, 0x98, 0, 3, 0, 3, 0x00, 0x99, 0, 3, 0, 3, 0x00, 0x9A, 0,
                               3, 0, 3, 0x00, 0x9B, 0, 3, 0, 3, 0x00, 0x94, 0, 3, 0, 3, 0x00, 0x95, 0,
                               3, 0, 3, 0x00, 0x96, 0, 3, 0, 3, 0x00, 0x97, 2, 3, 0, 3, 0x00, 0x9F, 1,
                               4, 0, 8, 0, 0, 0, 0, 0, 0, 0, 7};

typedef uint8_t (*mover)(const uint8_t *, size_t, uint8_t *, size_t, size_t *);

static int wrong = 0;

static void must(bool holds, const char *what)
{
    if (!holds) {
        printf("not so: %s\n", what);
        wrong = 1;
    }
}

/* Whether the bytes of a buffer from a place on still hold the filling. */
static bool stays(const uint8_t *buffer, size_t from)
{
    for (size_t i = from; i < BUFFER; i++) {
        if (buffer[i] != FILLING) {
            return false;
        }
    }
    return true;
}

static uint32_t rate_of(const uint8_t *image)
{
    uint32_t rate = 0;
    for (int i = 0; i < 4; i++) {
        rate = rate << 8 | image[RATE_AT + i];
    }
    return rate;
}

/* A fresh board at a rate, into a buffer with more room than it needs, with just enough, with less, and with none. */
static void fresh_at(uint32_t rate)
{
    static const size_t ROOM[] = {BUFFER, PEC_IMAGE_SIZE, PEC_IMAGE_SIZE - 1, 0};
    printf("%lu:", (unsigned long)rate);
    for (int i = 0; i < 4; i++) {
        uint8_t buffer[BUFFER];
        size_t written = COUNTS;
        memset(buffer, FILLING, BUFFER);
        unsigned refusal = pec_fresh_at(rate, buffer, ROOM[i], &written);
        printf(" %u %zu", refusal, written);
        must(stays(buffer, written), "the bytes behind those written stay");
        must(refusal != PEC_REFUSAL_NONE || rate_of(buffer) == rate, "an image says its rate");
        must(refusal != PEC_REFUSAL_NONE || pec_image_refusal(buffer, written) == PEC_REFUSAL_NONE,
             "an image is accepted");
    }
    printf("\n");
}

/* An image moved forward and back, into a buffer with more room than it needs, with room for the old form alone, and
   with none. */
static void moves(const char *name, const uint8_t *image, size_t length)
{
    static const struct {
        const char *name;
        mover move;
    } MOVES[] = {{"forward", pec_move_forward}, {"back", pec_move_back}};
    static const size_t ROOM[] = {BUFFER, PEC_OLD_IMAGE_SIZE, 0};
    printf("%s:", name);
    for (int i = 0; i < 2; i++) {
        printf(" %s", MOVES[i].name);
        for (int j = 0; j < 3; j++) {
            uint8_t buffer[BUFFER], kept[BUFFER];
            size_t written = COUNTS;
            memset(buffer, FILLING, BUFFER);
            memcpy(kept, image, length);
            printf(" %u", MOVES[i].move(image, length, buffer, ROOM[j], &written));
            printf(" %zu", written);
            must(stays(buffer, written), "the bytes behind those written stay");
            must(memcmp(image, kept, length) == 0, "a move leaves its image");
        }
    }
    printf("\n");
}

/* Runs the list over an image; gives the calls done. */
static size_t run(uint8_t *image, size_t length, uint8_t *answers)
{
    size_t calls, used, written;
    memset(answers, FILLING, ANSWERS);
    pec_run_parked(image, length, LIST, sizeof LIST, answers, ANSWERS, &calls, &used, &written);
    return calls;
}

/* The same list over a board in each form: the same answers, the same previews, and images that move into each
   other. */
static void both_forms(void)
{
    static const uint64_t TOTALS[] = {95999992, 95999993};
    uint8_t image[PEC_IMAGE_SIZE], old[PEC_OLD_IMAGE_SIZE], moved[PEC_IMAGE_SIZE], back[PEC_OLD_IMAGE_SIZE];
    uint8_t answers[ANSWERS], old_answers[ANSWERS], high[2], old_high[2];
    size_t written;
    pec_fresh(image, sizeof image, &written);
    must(pec_move_back(image, sizeof image, old, sizeof old, &written) == PEC_REFUSAL_NONE,
         "a fresh board is moved back");
    size_t calls = run(image, sizeof image, answers), old_calls = run(old, sizeof old, old_answers);
    printf("calls: %zu %zu\n", calls, old_calls);
    must(memcmp(answers, old_answers, ANSWERS) == 0, "the answers are those of the new form");
    pec_preview(image, sizeof image, TOTALS, 2, high, 2);
    pec_preview(old, sizeof old, TOTALS, 2, old_high, 2);
    printf("previews: %u %u %u %u\n", high[0], high[1], old_high[0], old_high[1]);
    must(pec_move_forward(old, sizeof old, moved, sizeof moved, &written) == PEC_REFUSAL_NONE,
         "an old image is moved forward");
    must(memcmp(moved, image, sizeof image) == 0, "the old image moved forward is the new one");
    must(pec_move_back(moved, sizeof moved, back, sizeof back, &written) == PEC_REFUSAL_NONE,
         "a new image is moved back");
    must(pec_move_back(back, sizeof back, moved, sizeof moved, &written) == PEC_REFUSAL_MALFORMED_IMAGE,
         "an image of the old form is not moved back");
    must(memcmp(back, old, sizeof old) == 0, "there and back gives the same bytes");
    moves("new", image, sizeof image);
    moves("old", old, sizeof old);
    /* Unsound; malformed and unsound. */
    image[TIMER_ENABLE_AT] = 16;
    old[TIMER_ENABLE_AT - 7] = 16;
    moves("new, unsound", image, sizeof image);
    moves("old, unsound", old, sizeof old);
    moves("new, cut", image, sizeof image - 1);
    moves("old, cut", old, sizeof old - 1);
}

/* A board at another rate, sound and not; and one at a rate that no board has. */
static void another_rate(void)
{
    uint8_t image[PEC_IMAGE_SIZE], answers[ANSWERS];
    size_t written;
    pec_fresh_at(PEC_RATE_12_MHZ, image, sizeof image, &written);
    printf("calls: %zu", run(image, sizeof image, answers));
    printf(", rate %lu\n", (unsigned long)rate_of(image));
    moves("12 MHz", image, sizeof image);
    must(pec_move_back(image, sizeof image, answers, 0, &written) == PEC_REFUSAL_RATE_NEEDS_NEW_FORM,
         "a board of another rate has no image of the old form");
    image[TIMER_ENABLE_AT] = 16;
    moves("12 MHz, unsound", image, sizeof image);
    image[TIMER_ENABLE_AT] = 0;
    image[RATE_AT + 3] ^= 1;
    printf("read: %u\n", pec_image_refusal(image, sizeof image));
    moves("another rate", image, sizeof image);
    image[RATE_AT + 3] ^= 1;
    moves("12 MHz, cut", image, sizeof image - 1);
}

int main(void)
{
    static const uint32_t RATES[] = {PEC_RATE_1_MHZ, PEC_RATE_12_MHZ, PEC_RATE_48_MHZ, 0, 24000000, UINT32_MAX};
    for (size_t i = 0; i < sizeof RATES / sizeof RATES[0]; i++) {
        fresh_at(RATES[i]);
    }
    both_forms();
    another_rate();
    return wrong;
}
