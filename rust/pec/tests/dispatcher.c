/* Serves the sources of a controller in turn, by a fresh dispatcher and after remembered numbers of any size, and
   prints each turn. Ends with 1 where something that must agree does not. The text is C and C++: the test compiles it
   as both. */
#include "pec.h"

#include <inttypes.h>
#include <stdio.h>

static int wrong = 0;

/* One turn, which puts the controller and the remembered number back into the variables that held them. */
static void turn(const char *name, uint64_t *word, uint8_t *last)
{
    unsigned lowest = pec_irqc_output(*word);
    unsigned served = pec_irqc_dispatch(*word, *last, word, last);
    printf("%s: lowest %x, served %x, after %012" PRIx64 ", remembered %u\n", name, lowest, served, *word, *last);
}

/* The same turn, over a number with bits above the controller's, and into variables of its own. */
static void turn_beside(uint64_t word, uint8_t last)
{
    uint64_t after = UINT64_MAX, above_after = UINT64_MAX;
    uint8_t remembered = 0xA5, above_remembered = 0x5A;
    unsigned served = pec_irqc_dispatch(word, last, &after, &remembered);
    unsigned above = pec_irqc_dispatch(word | UINT64_C(0xFFFF) << 48, last, &above_after, &above_remembered);
    if (served != above || after != above_after || remembered != above_remembered) {
        printf("not so: the bits above 47 are not looked at\n");
        wrong = 1;
    }
}

int main(void)
{
    /* Sources 0, 5, 9 and 15 are enabled. Sources 3, 9 and 15 rise once. */
    uint64_t word = pec_irqc_set_enable_mask(pec_irqc_new(), 0x8221);
    word = pec_irqc_set_source_levels(word, 0xFFFF, 0x8208);
    uint8_t last = pec_irqc_dispatch_new();
    printf("fresh: %u\n", last);
    /* Source 0 rises again before each of four turns. */
    for (int i = 0; i < 4; i++) {
        word = pec_irqc_set_source(pec_irqc_set_source(word, 0, false), 0, true);
        turn_beside(word, last);
        turn("source 0 again", &word, &last);
    }
    turn_beside(word, last);
    turn("none", &word, &last);
    last = 5;
    turn("none after 5", &word, &last);
    last = 200;
    turn_beside(word, last);
    turn("none after 200", &word, &last);

    word = pec_irqc_set_source(pec_irqc_set_source(word, 5, true), 0, false);
    last = 5;
    turn_beside(word, last);
    turn("5 itself", &word, &last);
    word = pec_irqc_set_source_levels(word, 0x8021, 0);
    word = pec_irqc_set_source_levels(word, 0x8021, 0x8021);
    turn("0, 5 and 15 after 5", &word, &last);
    last = 16;
    turn_beside(word, last);
    turn("0 and 5 after 16", &word, &last);
    return wrong;
}
