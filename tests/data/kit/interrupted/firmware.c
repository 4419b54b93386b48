/* A task and the handler of a line, on one processor, add to the same word: the task under loc_cpu, so that no interrupt
 * comes between. With RACE it takes no lock. */
#include "board.h"
#include "ids.h"

static volatile UINT pulses;

void pulse(INHNO line)
{
    (void)line;
    pulses += 1;
    isig_sem(PULSED);
}

/* Takes a pulse of each line, and adds ten of its own after each. */
void count(VP_INT times)
{
    for (INT i = 0; i < times; i++) {
        wai_sem(PULSED);
#ifdef RACE
        pulses += 10;
#else
        loc_cpu();
        pulses += 10;
        unl_cpu();
#endif
    }
    printf("%u\n", pulses);
    ext_ker();
}
