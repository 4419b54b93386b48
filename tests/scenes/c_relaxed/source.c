/* The same by relaxed stores and loads, which are ordinary instructions. */
#include "board.h"
#include <stdatomic.h>

static atomic_int flag;
static int word;

static void turns(int turn)
{
    for (; turn < 20; turn += 2) {
        while (atomic_load_explicit(&flag, memory_order_relaxed) != turn)
            ;
        word += 1;
        atomic_store_explicit(&flag, turn + 1, memory_order_relaxed);
    }
}

void one(VP_INT unused)
{
    (void)unused;
    turns(0);
}

void two(VP_INT unused)
{
    (void)unused;
    turns(1);
}
