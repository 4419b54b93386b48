/* Two tasks and two handlers on two processors add to the same words, in each way that board.h has. With RACE, one of
 * the words is added to without any. tests/programs/kit.sh makes the journal. */
#include "board.h"
#include "ids.h"

#define TIMES 20

static volatile UINT added;
static volatile UINT swapped;
static SPIN_LOCK lock;
static volatile UINT locked;
static volatile UINT interrupts;
static volatile UINT word = 5;

static void add(volatile UINT *to)
{
#ifdef RACE
    *to += 1;
#else
    atomic_add(to, 1);
#endif
}

static void swap(volatile UINT *to)
{
    UINT before;
    do
        before = *to;
    while (!compare_and_swap(to, before, before + 1));
}

void interrupt(INHNO line)
{
    (void)line;
    spin_lock(&lock);
    locked += 1;
    interrupts += 1;
    spin_unlock(&lock);
}

void adder(VP_INT processor)
{
    for (INT i = 0; i < TIMES; i++) {
        add(&added);
        swap(&swapped);
        loc_cpu();
        spin_lock(&lock);
        locked += 1;
        spin_unlock(&lock);
        unl_cpu();
    }
    if (processor == 2) {
        sig_sem(DONE);
        ext_tsk();
    }
    wai_sem(DONE);
    assert(atomic_add(&word, 2) == 5 && word == 7);
    assert(!compare_and_swap(&word, 5, 9) && word == 7 && compare_and_swap(&word, 7, 9) && word == 9);
    loc_cpu();
    spin_lock(&lock);
    BOOL taken = !try_spin_lock(&lock);
    UINT left = locked - interrupts;
    spin_unlock(&lock);
    unl_cpu();
    printf("added %u, swapped %u, locked %u, taken %d\n", added, swapped, left, taken);
    ext_ker();
}
