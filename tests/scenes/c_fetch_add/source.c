/* Who comes last, by a count that both add to, reads what both have left. */
#include "board.h"
#include <stdatomic.h>

static atomic_uint arrived;
static int left[2], sum;

static void leave(int me)
{
    for (unsigned i = 0; i < 10; i++) {
        left[me] += 1;
        if (atomic_fetch_add_explicit(&arrived, 1, memory_order_acq_rel) % 2 == 1) {
            sum += left[0] + left[1];
            atomic_fetch_add(&arrived, 1);
        } else {
            atomic_fetch_add(&arrived, 1);
        }
        while (atomic_load(&arrived) < 4 * (i + 1))
            ;
    }
}

void one(VP_INT unused)
{
    (void)unused;
    leave(0);
}

void two(VP_INT unused)
{
    (void)unused;
    leave(1);
}
