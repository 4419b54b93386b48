/* A water meter. A line is raised by each pulse of the meter, and a task adds up the litres and writes the sum. */
#include "board.h"
#include "ids.h"

static const UINT litres[] = { 7, 25, 118 };

/* The handler of the line. */
void pulse(INHNO line)
{
    (void)line;
    isig_sem(PULSES);
}

/* The task: ends after so many pulses. */
void meter(VP_INT pulses)
{
    UINT sum = 0;
    for (INT i = 0; i < pulses; i++) {
        ER answer = wai_sem(PULSES);
        assert(answer == E_OK);
        sum += litres[i];
        printf("litres %4u\n", sum);
    }
}
