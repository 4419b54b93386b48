/* A lock that names its owner, and a stack to which both push: atomic_compare_exchange, weak and strong. */
#include "board.h"
#include <stdatomic.h>

struct item {
    struct item *next;
    int value;
};

static atomic_int owner;
static int word, sum;
static _Atomic(struct item *) top;
static struct item items[2][10];

static void push(struct item *item, int value)
{
    item->value = value;
    item->next = atomic_load_explicit(&top, memory_order_acquire);
    while (!atomic_compare_exchange_weak_explicit(&top, &item->next, item, memory_order_acq_rel, memory_order_acquire))
        ;
}

static void work(int me)
{
    for (int i = 0; i < 10; i++) {
        int expected = 0;
        while (!atomic_compare_exchange_strong(&owner, &expected, me))
            expected = 0;
        word += 1;
        atomic_store_explicit(&owner, 0, memory_order_release);
        push(&items[me - 1][i], i);
    }
}

void one(VP_INT me)
{
    work(me);
}

void two(VP_INT me)
{
    work(me);
    for (struct item *it = atomic_load_explicit(&top, memory_order_acquire); it != NULL; it = it->next)
        sum += it->value;
}
