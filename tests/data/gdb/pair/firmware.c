/* For GDB: functions with locals, on two processors. The clerk's list of rates has one place too few, so that he spoils
 * the meter's limit; much later the meter finds that. */
#include "board.h"
#include "ids.h"

struct sample {
    INT number;
    INT weight;
};

static volatile struct {
    INT rates[3];
    INT limit;
} kept = { { 0, 0, 0 }, 100 };
static volatile INT total;

__attribute__((noinline)) INT weigh(INT number, struct sample *sample)
{
    volatile INT parts[3] = { number, 2 * number, 3 * number };
    sample->number = number;
    sample->weight = parts[0] + parts[1] + parts[2];
    return sample->weight;
}

void pulse(INHNO line)
{
    (void)line;
    isig_sem(SAMPLED);
}

__attribute__((noinline)) void set_rate(INT place, INT rate)
{
    kept.rates[place] = rate;
}

void clerk(VP_INT rate)
{
    for (INT place = 0; place <= 3; place++)
        set_rate(place, rate + place);
}

void meter(VP_INT count)
{
    struct sample last = { 0, 0 };
    for (INT i = 1; i <= count; i++) {
        ER answer = wai_sem(SAMPLED);
        assert(answer == E_OK);
        total += weigh(i, &last);
    }
    assert(total < kept.limit);
    printf("total %d\n", total);
    ext_ker();
}
