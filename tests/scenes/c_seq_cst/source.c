/* Peterson's lock, whose words are loaded and stored in the order memory_order_seq_cst. */
#include "board.h"
#include <stdatomic.h>

static atomic_int wants[2];
static atomic_int turn;
static int word;

static void adder(int me)
{
    for (int i = 0; i < 10; i++) {
        wants[me] = 1;
        turn = 1 - me;
        while (wants[1 - me] && turn == 1 - me)
            ;
        word += 1;
        wants[me] = 0;
    }
}

void one(VP_INT unused)
{
    (void)unused;
    adder(0);
}

void two(VP_INT unused)
{
    (void)unused;
    adder(1);
}
