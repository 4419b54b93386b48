/* Relaxed stores and loads beside fences. At -O0 the compilers store what was loaded, and load the address of what is to
 * be stored, between the fence and the access. */
#include "board.h"
#include <stdatomic.h>

static atomic_int flag;
static int word;

static void turns(int turn)
{
    for (; turn < 20; turn += 2) {
        int found;
        do {
            found = atomic_load_explicit(&flag, memory_order_relaxed);
            atomic_thread_fence(memory_order_acquire);
        } while (found != turn);
        word += 1;
        atomic_thread_fence(memory_order_release);
        atomic_store_explicit(&flag, turn + 1, memory_order_relaxed);
    }
}

void one(VP_INT unused)
{
    (void)unused;
    turns(0);
}

void two(VP_INT unused)
{
    (void)unused;
    turns(1);
}
