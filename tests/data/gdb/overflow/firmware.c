/* For GDB: the clerk's stack of 64 bytes has no room for what `report` wants, so that it writes into what lies below,
 * the meter's stack. When the meter goes on, its pointer is none any more, and the next load through it is an
 * exception. */
#include "board.h"
#include "ids.h"

static struct sample {
    INT number;
    INT weight;
} samples[4] = { { 1, 10 }, { 2, 20 }, { 3, 30 }, { 4, 40 } };

__attribute__((noinline)) INT report(INT byte)
{
    volatile char line[160];
    for (UINT i = 0; i < sizeof line; i++)
        line[i] = (char)byte;
    return line[7];
}

void clerk(VP_INT unused)
{
    (void)unused;
    report('a');
    sig_sem(READY);
}

void meter(VP_INT unused)
{
    (void)unused;
    struct sample *volatile next = &samples[2];
    wai_sem(READY);
    INT weight = next->weight;
    printf("weight %d\n", weight);
    ext_ker();
}
