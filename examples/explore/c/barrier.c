/* A barrier of four tasks on four processors, which they come to twice: who comes last gives a unit of a semaphore to
 * each of the others, which wait for it.
 * WRONG: both rounds have the same semaphore, so a task that comes round again takes the unit of a slow one. */
#include "board.h"
#include "ids.h"

#define ROUNDS 2

static volatile UINT arrived, ended;

static ID gate(UINT round)
{
#ifdef WRONG
    (void)round;
    return EVEN;
#else
    return round % 2 == 0 ? EVEN : ODD;
#endif
}

static void wait_for_all(UINT round)
{
    if (atomic_add(&arrived, 1) == TASKS - 1) {
        arrived = 0;
        for (UINT i = 1; i < TASKS; i++)
            sig_sem(gate(round));
    } else {
        wai_sem(gate(round));
    }
}

void work(VP_INT unused)
{
    (void)unused;
    for (UINT round = 0; round < ROUNDS; round++)
        wait_for_all(round);
    if (atomic_add(&ended, 1) == TASKS - 1)
        ext_ker();
}
