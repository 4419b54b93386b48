/* Michael and Scott's queue (M. M. Michael and M. L. Scott, Simple, Fast, and Practical Non-Blocking and Blocking
 * Concurrent Queue Algorithms, PODC 1996): a list whose first node has no value any more. One task takes a value. The
 * other one puts a value, takes one, and puts another one in the node that is free then.
 * WRONG: the value is read after the head has moved on, when its node may have been taken and put again. */
#include "board.h"
#include "ids.h"

/* A place is the number of a node, or NONE, and above it how often the place was changed: so a node that has come back
 * isn't taken for one that stayed. */
#define NONE 0
#define NODE(place) ((place) & 0xff)
#define CHANGED(place, node) ((((place) | 0xff) + 1) | (node))

static struct {
    volatile UINT next;
    volatile UINT value;
} __attribute__((aligned(16))) nodes[4] = { [1] = { 2, 0 }, [2] = { NONE, 'A' } };

static struct {
    volatile UINT place;
} __attribute__((aligned(16))) head = { 1 }, tail = { 2 };

static volatile UINT got[2], ended;

static void put(UINT node, UINT value)
{
    nodes[node].value = value;
    nodes[node].next = CHANGED(nodes[node].next, NONE);
    for (;;) {
        UINT last = tail.place;
        UINT next = nodes[NODE(last)].next;
        if (last != tail.place)
            continue;
        if (NODE(next) != NONE) {
            compare_and_swap(&tail.place, last, CHANGED(last, NODE(next)));
        } else if (compare_and_swap(&nodes[NODE(last)].next, next, CHANGED(next, node))) {
            compare_and_swap(&tail.place, last, CHANGED(last, node));
            return;
        }
    }
}

/* Takes a value, and answers the node that is free then: NONE if the queue is empty. */
static UINT take(volatile UINT *value)
{
    for (;;) {
        UINT first = head.place;
        UINT last = tail.place;
        UINT next = nodes[NODE(first)].next;
        if (first != head.place)
            continue;
        if (NODE(first) == NODE(last)) {
            if (NODE(next) == NONE)
                return NONE;
            compare_and_swap(&tail.place, last, CHANGED(last, NODE(next)));
            continue;
        }
        UINT found = nodes[NODE(next)].value;
        if (compare_and_swap(&head.place, first, CHANGED(first, NODE(next)))) {
#ifdef WRONG
            found = nodes[NODE(next)].value;
#endif
            *value = found;
            return NODE(first);
        }
    }
}

/* Whoever ends last shows what was taken, in the order of the alphabet. */
static void end(void)
{
    if (atomic_add(&ended, 1) == 1) {
        put_chr(got[0] < got[1] ? got[0] : got[1]);
        put_chr(got[0] < got[1] ? got[1] : got[0]);
        put_chr('\n');
        ext_ker();
    }
}

void taker(VP_INT unused)
{
    (void)unused;
    take(&got[0]);
    end();
}

void both(VP_INT node)
{
    put(node, 'B');
    put(take(&got[1]), 'C');
    end();
}
