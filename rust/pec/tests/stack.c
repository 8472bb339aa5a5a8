/* Prints the bytes of stack that a thread uses: alone, with runs of the list on standard input, with runs of it at a
   given rate, with a run of it over a parked board, with previews of a parked board, and with moves of its image back
   and forward. The stack is filled before; bytes that have lost the filling were used. */
#define _POSIX_C_SOURCE 200809L
#include "pec.h"

#include <pthread.h>
#include <stdio.h>
#include <string.h>

enum { STACK = 1 << 20, FILLING = 0xA5 };

static uint8_t list[1 << 16], answers[1 << 18];
static size_t list_length;
static _Alignas(4096) unsigned char stack[STACK];

static void *nothing(void *unused)
{
    return unused;
}

static void *run(void *unused)
{
    size_t calls, used, written;
    pec_run_repeated(list, 0, list, list_length, 3, answers, sizeof answers, &calls, &used, &written);
    return unused;
}

static void *run_at(void *unused)
{
    size_t calls, used, written;
    pec_run_repeated_at(PEC_RATE_12_MHZ, list, 0, list, list_length, 3, answers, sizeof answers, &calls, &used,
                        &written);
    return unused;
}

static void *run_parked(void *unused)
{
    static uint8_t image[PEC_IMAGE_SIZE];
    size_t calls, used, written;
    pec_fresh(image, sizeof image, &written);
    pec_run_parked(image, sizeof image, list, list_length, answers, sizeof answers, &calls, &used, &written);
    return unused;
}

static uint8_t fresh[PEC_IMAGE_SIZE];

static void *preview(void *unused)
{
    static const uint64_t totals[] = {0, 1, UINT64_MAX};
    pec_preview(fresh, sizeof fresh, totals, 3, answers, sizeof answers);
    return unused;
}

static void *move(void *unused)
{
    static uint8_t old[PEC_OLD_IMAGE_SIZE], again[PEC_IMAGE_SIZE];
    size_t written;
    pec_move_back(fresh, sizeof fresh, old, sizeof old, &written);
    pec_move_forward(old, sizeof old, again, sizeof again, &written);
    return unused;
}

static size_t used_by(void *(*work)(void *))
{
    pthread_t thread;
    pthread_attr_t attributes;
    size_t untouched = 0;
    memset(stack, FILLING, STACK);
    pthread_attr_init(&attributes);
    pthread_attr_setstack(&attributes, stack, STACK);
    if (pthread_create(&thread, &attributes, work, NULL) != 0) {
        return 0;
    }
    pthread_join(thread, NULL);
    while (untouched < STACK && stack[untouched] == FILLING) {
        untouched++;
    }
    return STACK - untouched;
}

int main(void)
{
    list_length = fread(list, 1, sizeof list, stdin);
    size_t written, alone = used_by(nothing), with_run = used_by(run), with_rate = used_by(run_at),
                    with_parked = used_by(run_parked);
    pec_fresh(fresh, sizeof fresh, &written);
    size_t with_preview = used_by(preview), with_move = used_by(move);
    printf("%zu %zu %zu %zu %zu %zu\n", alone, with_run, with_rate, with_parked, with_preview, with_move);
    return 0;
}
