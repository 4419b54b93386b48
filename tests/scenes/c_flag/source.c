/* A lock that is an atomic_flag. */
#include "board.h"
#include <stdatomic.h>

static atomic_flag lock = ATOMIC_FLAG_INIT;
static int word;

static void adder(void)
{
    for (int i = 0; i < 10; i++) {
        while (atomic_flag_test_and_set_explicit(&lock, memory_order_acquire))
            ;
        word += 1;
        atomic_flag_clear_explicit(&lock, memory_order_release);
    }
}

void one(VP_INT unused)
{
    (void)unused;
    adder();
}

void two(VP_INT unused)
{
    (void)unused;
    adder();
}
