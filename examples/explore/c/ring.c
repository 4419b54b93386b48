/* A ring between a task and the handler of a line: the handler puts a byte and wakes the task, which shows bytes until
 * there is none, and sleeps. When the board starts a byte is in the ring; the line brings another one.
 * WRONG: how many bytes there are is a word of its own, which both change by a load, an addition and a store. Else each
 * word has one who stores to it. */
#include "board.h"
#include "ids.h"

#define SIZE 4

static volatile UB bytes[SIZE] = { 'A' };
static volatile UINT first, next = 1;
#ifdef WRONG
static volatile UINT count = 1;
#endif

void receive(INHNO line)
{
    (void)line;
    bytes[next % SIZE] = 'B';
    next++;
#ifdef WRONG
    count++;
#endif
    iwup_tsk(FIRST);
}

static BOOL is_empty(void)
{
#ifdef WRONG
    return count == 0;
#else
    return first == next;
#endif
}

void show(VP_INT times)
{
    while (times-- > 0) {
        while (is_empty())
            slp_tsk();
        put_chr(bytes[first % SIZE]);
        first++;
#ifdef WRONG
        count--;
#endif
    }
    put_chr('\n');
    ext_ker();
}
