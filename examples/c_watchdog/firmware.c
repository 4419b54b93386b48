/* A tank with a pump. A cyclic handler on processor 2 takes its level every two ticks, and a task there handles each
 * level. On processor 1 a watchdog, which is an alarm handler, sees that it does so in time. */
#include "board.h"
#include "ids.h"

#define FULL 90

static const INT levels[] = { 52, 55, 61, 99 };

/* The cyclic handler: sends the next level. (Of a tank that isn't there: they come again and again.) */
void sample(VP_INT queue)
{
    static UINT next;
    ipsnd_dtq(queue, levels[next]);
    next = (next + 1) % (sizeof levels / sizeof levels[0]);
}

/* Asks for the watchdog anew at each level. With a full tank it waits for the valve, which is a mistake: nobody gives
 * that semaphore. */
void control(VP_INT patience)
{
    for (;;) {
        VP_INT level;
        ER answer = rcv_dtq(LEVELS, &level);
        assert(answer == E_OK);
        answer = sta_alm(WATCHDOG, patience);
        assert(answer == E_OK);
        if (level > FULL)
            wai_sem(VALVE);
        printf("level %d\n", level);
    }
}

/* The alarm handler: nobody has asked for it anew in time. */
void bark(VP_INT semaphore)
{
    ER answer = isig_sem(semaphore);
    assert(answer == E_OK);
}

/* Waits for the watchdog, says what `control` waits for, and stops everything. */
void rescue(VP_INT unused)
{
    T_RTSK task;
    ER answer = wai_sem(BARKED);
    (void)unused;
    assert(answer == E_OK);
    stp_cyc(SAMPLER);
    ref_tsk(CONTROL, &task);
    ter_tsk(CONTROL);
    if (task.tskwait == TTW_SEM)
        printf("no level for %d ticks, since the control waits for semaphore %d: the pump is off\n", PATIENCE,
               task.wobjid);
    ext_ker();
}
