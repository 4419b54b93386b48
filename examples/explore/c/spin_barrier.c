/* The same barrier without the kernel: who waits looks again and again whether the word `round` has become that of the
 * round after.
 * WRONG: who comes last lets the others go on before it has made the count 0, so it may forget one that has come round
 * again: then all wait for ever. */
#include "board.h"
#include "ids.h"

#define ROUNDS 2

static struct {
    volatile UINT it;
} __attribute__((aligned(16))) arrived, round, ended;

static void wait_for_all(UINT next)
{
    if (atomic_add(&arrived.it, 1) == TASKS - 1) {
#ifdef WRONG
        round.it = next;
        arrived.it = 0;
#else
        arrived.it = 0;
        round.it = next;
#endif
    } else {
        while (round.it != next)
            ;
    }
}

void work(VP_INT unused)
{
    (void)unused;
    for (UINT next = 1; next <= ROUNDS; next++)
        wait_for_all(next);
    if (atomic_add(&ended.it, 1) == TASKS - 1)
        ext_ker();
}
