/* For GDB: eight processors count without an end, each in a word of its own. The first that begins says so, once. */
#include "board.h"

static volatile UINT counts[9];
static UINT first;

void count(VP_INT number)
{
    compare_and_swap(&first, 0, (UINT)number);
    for (;;)
        counts[number] += (UINT)number;
}
