/* Chase and Lev's deque (D. Chase and Y. Lev, Dynamic Circular Work-Stealing Deque, SPAA 2005), without growth: its owner
 * pushes and takes items at the bottom, another task steals at the top. The owner pushes two items and takes one; the
 * other one steals twice.
 * WRONG: the owner loads the top before it stores the bottom. (On a machine with store buffers it would, unless there is
 * a fence between the two.) */
#include "board.h"
#include "ids.h"

#define SIZE 4
#define NOTHING 0

static struct {
    volatile UINT place;
} __attribute__((aligned(16))) top, bottom;

static volatile UINT items[SIZE], taken[3], ended;

static void push(UINT item)
{
    UINT last = bottom.place;
    items[last % SIZE] = item;
    bottom.place = last + 1;
}

static UINT take(void)
{
    UINT last = bottom.place - 1;
#ifdef WRONG
    UINT first = top.place;
    bottom.place = last;
#else
    bottom.place = last;
    UINT first = top.place;
#endif
    if ((INT)(last - first) < 0) {
        bottom.place = first;
        return NOTHING;
    }
    UINT item = items[last % SIZE];
    if (last == first) {
        if (!compare_and_swap(&top.place, first, first + 1))
            item = NOTHING;
        bottom.place = first + 1;
    }
    return item;
}

static UINT steal(void)
{
    UINT first = top.place;
    if ((INT)(bottom.place - first) <= 0)
        return NOTHING;
    UINT item = items[first % SIZE];
    return compare_and_swap(&top.place, first, first + 1) ? item : NOTHING;
}

/* No item is taken twice. */
static void count(UINT item)
{
    if (item != NOTHING)
        assert(atomic_add(&taken[item], 1) == 0);
}

/* Whoever ends last shows how many items were taken or are left. */
static void end(void)
{
    if (atomic_add(&ended, 1) == 1) {
        put_chr('0' + taken[1] + taken[2] + bottom.place - top.place);
        put_chr('\n');
        ext_ker();
    }
}

void owner(VP_INT unused)
{
    (void)unused;
    push(1);
    push(2);
    count(take());
    end();
}

void thief(VP_INT times)
{
    while (times-- > 0)
        count(steal());
    end();
}
