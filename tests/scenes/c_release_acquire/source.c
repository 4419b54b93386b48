/* A word that two tasks hand to and fro by a flag: release stores and acquire loads. */
#include "board.h"
#include <stdatomic.h>

static atomic_int flag;
static int word;

static void turns(int turn)
{
    for (; turn < 20; turn += 2) {
        while (atomic_load_explicit(&flag, memory_order_acquire) != turn)
            ;
        word += 1;
        atomic_store_explicit(&flag, turn + 1, memory_order_release);
    }
}

void one(VP_INT unused)
{
    (void)unused;
    turns(0);
}

void two(VP_INT unused)
{
    (void)unused;
    turns(1);
}
