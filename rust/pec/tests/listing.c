/* Runs document 01's worked list, twice by a repeated run, and prints its listing; then setting H on the controller.
   The text is C and C++: the test compiles it as both. */
#include "pec.h"

#include <stdio.h>

static const uint8_t LIST[] = {2, 0, 2, 0, 0x83, 4, 0, 8, 0, 0, 0, 0, 0, 0, 0, 1, 0x0A, 0, 0, 0xFF};

static void show(const uint8_t *answers, size_t written, size_t calls, uint8_t refusal, size_t used)
{
    uint8_t text[256], first[5];
    size_t length = pec_listing(answers, written, calls, refusal, used, text, sizeof text);
    if (length > sizeof text) {
        printf("the listing has %zu bytes\n", length);
        return;
    }
    fwrite(text, 1, length, stdout);
    /* a text that is too short gets the listing's beginning */
    printf("%zu ", pec_listing(answers, written, calls, refusal, used, first, sizeof first));
    fwrite(first, 1, sizeof first, stdout);
    printf("\n");
}

int main(void)
{
    uint8_t answers[128];
    size_t calls, used, written;
    uint8_t refusal = pec_run(LIST, sizeof LIST, answers, sizeof answers, &calls, &used, &written);
    show(answers, written, calls, refusal, used);
    refusal = pec_run_repeated(LIST, sizeof LIST, LIST, sizeof LIST, 1, answers, sizeof answers, &calls, &used, &written);
    show(answers, written, calls, refusal, used);
    uint64_t irqc = pec_irqc_set_source(pec_irqc_set_source(pec_irqc_new(), 5, true), 9, true);
    printf("%x", pec_irqc_output(pec_irqc_set_enable_mask(irqc, 0x0200)));
    printf(" %x\n", pec_irqc_output(pec_irqc_set_enable_mask(irqc, 0x0220)));
    return 0;
}
