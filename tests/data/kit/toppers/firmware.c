/* A source as it is written for TOPPERS/FMP: its headers, its types, syslog. What it has to say was worked out from
   docs/KERNEL.md. */
#include <kernel.h>
#include <t_syslog.h>
#include "kernel_cfg.h"

typedef struct letter {
    T_MSG_PRI head;
    uint8_t text[6];
} LETTER;

MPF_T letters[3 * COUNT_MPF_T(sizeof(LETTER))];

static volatile uint32_t timer_count;

Inline ER check(ER ercd, const char *call)
{
    if (MERCD(ercd) < 0)
        syslog(LOG_ERROR, "%s: error %d", call, MERCD(ercd));
    return ercd;
}

#define SVC(call) check((call), #call)

void timer_handler(void)
{
    timer_count += 1u;
    iwup_tsk(MAIN_TASK);
}

void sub_task(intptr_t exinf)
{
    ID prcid, running;
    bool_t locked;
    uint_t count = 0;
    SVC(get_pid(&prcid));
    SVC(mget_tid(&running, 1));
    SVC(loc_spn(SPN_LOCK));
    locked = sns_loc();
    SVC(unl_spn(SPN_LOCK));
    syslog(LOG_NOTICE, "sub_task on processor %d, argument %d, locked %d", prcid, (int_t)exinf, locked == true);
    for (PRI priority = 3; priority >= 1; priority--) {
        LETTER *letter = NULL;
        SVC(get_mpf(MPF_LETTERS, (void **)&letter));
        letter->head.msgpri = priority;
        letter->text[0] = (uint8_t)('a' + count++);
        SVC(snd_mbx(MBX_POST, &letter->head.msgque));
    }
    SVC(snd_dtq(DTQ_WORDS, (intptr_t)&timer_count));
}

void main_task(intptr_t exinf)
{
    intptr_t data = 0;
    T_MSG *message;
    T_RMPF rmpf;
    T_RMTX rmtx;
    PRI priority;
    SYSTIM now;
    (void)exinf;
    SVC(loc_mtx(MTX_BUS));
    SVC(get_pri(TSK_SELF, &priority));
    SVC(ref_mtx(MTX_BUS, &rmtx));
    syslog(LOG_INFO, "priority %d with the mutex of task %d", priority, rmtx.htskid);
    SVC(unl_mtx(MTX_BUS));
    SVC(unl_mtx(MTX_BUS));
    SVC(mact_tsk(SUB_TASK, 2));
    SVC(rcv_dtq(DTQ_WORDS, &data));
    SVC(ref_mpf(MPF_LETTERS, &rmpf));
    syslog(LOG_INFO, "%d blocks are there", rmpf.fblkcnt);
    while (prcv_mbx(MBX_POST, &message) == E_OK) {
        LETTER *letter = (LETTER *)message;
        syslog_2(LOG_NOTICE, "%c of priority %d", letter->text[0], letter->head.msgpri);
        SVC(rel_mpf(MPF_LETTERS, letter));
    }
    SVC(slp_tsk());
    SVC(get_tim(&now));
    syslog(LOG_NOTICE, "%u interrupts, time %u", *(volatile uint32_t *)data, (uint_t)now);
    ext_ker();
}
