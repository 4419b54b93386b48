/* The kit's spin lock, atomic_add and compare_and_swap. */
#include "board.h"

static SPIN_LOCK lock;
static volatile UINT added, swapped;
static UINT word;

static void adder(void)
{
    for (UINT i = 0; i < 10; i++) {
        loc_cpu();
        spin_lock(&lock);
        word += 1;
        spin_unlock(&lock);
        unl_cpu();
        while (!compare_and_swap(&swapped, 0, 1))
            ;
        while (!compare_and_swap(&swapped, 1, 0))
            ;
        atomic_add(&added, 1);
    }
}

void one(VP_INT unused)
{
    (void)unused;
    adder();
}

void two(VP_INT unused)
{
    (void)unused;
    adder();
}
