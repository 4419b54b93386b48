/* Two tasks on two processors add to a word; the one that ends last writes the sum. With RACE the addition is a load, an
 * addition and a store, between which the other one's may come. */
#include "board.h"
#include "ids.h"

static volatile UINT sum, ended;

void add(VP_INT number)
{
#ifdef RACE
    sum += number;
#else
    atomic_add(&sum, number);
#endif
    if (atomic_add(&ended, 1) == 1) {
        put_chr('0' + sum % 10);
        put_chr('\n');
        ext_ker();
    }
}
