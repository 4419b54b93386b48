/* The same by a volatile flag. */
#include "board.h"

static volatile int flag;
static int word;

static void turns(int turn)
{
    for (; turn < 20; turn += 2) {
        while (flag != turn)
            ;
        word += 1;
        flag = turn + 1;
    }
}

void one(VP_INT unused)
{
    (void)unused;
    turns(0);
}

void two(VP_INT unused)
{
    (void)unused;
    turns(1);
}
