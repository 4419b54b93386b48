/* Each function of kernel.h that is there with the profile alone, at least once. What each has to answer was worked out
   from docs/KERNEL.md. */
#include "board.h"
#include "ids.h"

#define SAY(call) printf("%s = %d\n", #call, (INT)(call))
#define SAY_RESULT(call)                                                                                               \
    do {                                                                                                               \
        result = 0;                                                                                                    \
        ER answer = call;                                                                                              \
        printf("%s = %d, %d\n", #call, answer, (INT)result);                                                           \
    } while (0)

static struct {
    const char *call;
    INT answer;
} handled[24];
static INT calls;
static INT said;

#define HANDLED(it) (handled[calls].call = #it, handled[calls].answer = (INT)(it), calls++)

static T_MSG_PRI high = { .msgpri = 1 };
static T_MSG_PRI low = { .msgpri = 4 };
static T_MSG_PRI below_all = { .msgpri = 5 };

void handler(INHNO line)
{
    ID processor = 99;
    SYSTIM time = 99;
    (void)line;
    HANDLED(iget_pid(&processor));
    HANDLED(processor);
    HANDLED(sns_ctx());
    HANDLED(sns_loc());
    HANDLED(sns_dpn());
    HANDLED(get_tim(&time));
    HANDLED(isig_tim());
    HANDLED(isnd_mbx(ONE, &low.msgque));
    HANDLED(iloc_cpu());
    HANDLED(sns_loc());
    HANDLED(isig_sem(ONE));
    HANDLED(iunl_cpu());
    HANDLED(iloc_spn(ONE));
    HANDLED(iunl_cpu());
    HANDLED(itry_spn(ONE));
    HANDLED(iunl_spn(ONE));
    HANDLED(itry_spn(ONE));
    HANDLED(iunl_spn(ONE));
    HANDLED(sns_loc());
    HANDLED(iwup_tsk(MAIN));
}

void cycle(VP_INT exinf)
{
    HANDLED(exinf);
}

void alarm(VP_INT exinf)
{
    HANDLED(exinf);
    HANDLED(ista_alm(ONE, 3));
    HANDLED(istp_alm(ONE));
}

void waiter(VP_INT unused)
{
    (void)unused;
    twai_sem(ONE, 9);
}

void other(VP_INT unused)
{
    (void)unused;
    for (;;)
        ;
}

static void times(void)
{
    SYSTIM result;
    SYSTIM set = 1000;
    SAY_RESULT(get_tim(&result));
    SAY(set_tim(&set));
    SAY_RESULT(get_tim(&result));
}

static void marks(void)
{
    SYSTIM time;
    BOOL locked;
    ER refused;
    SAY(sns_ctx());
    SAY(sns_loc());
    SAY(sns_dsp());
    SAY(sns_dpn());
    dis_dsp();
    SAY(sns_dsp());
    SAY(sns_dpn());
    ena_dsp();
    loc_cpu();
    locked = sns_loc();
    refused = get_tim(&time);
    unl_cpu();
    SAY(locked);
    SAY(refused);
    SAY(iloc_cpu());
    SAY(iunl_cpu());
    SAY(iloc_spn(ONE));
    SAY(itry_spn(ONE));
    SAY(iunl_spn(ONE));
}

static void processors(void)
{
    ID result;
    SAY_RESULT(mget_tid(&result, 2));
    SAY_RESULT(mget_tid(&result, 3));
    SAY(mrot_rdq(5, 2));
    SAY(mrot_rdq(TPRI_SELF, 2));
    SAY(mrot_rdq(17, 2));
    SAY(mrot_rdq(5, 3));
}

static void task(ID id)
{
    T_RTSK it;
    ER answer = ref_tsk(id, &it);
    printf("task %d: %d; state %d, priority %d of %d, ", id, answer, it.tskstat, it.tskpri, it.tskbpri);
    printf("waits for %d %d, %d more; %d %d %d\n", it.tskwait, it.wobjid, it.lefttmo, it.actcnt, it.wupcnt, it.suscnt);
}

static void references(void)
{
    T_RTSK nobody;
    T_RSEM semaphore;
    T_RFLG flag;
    T_RDTQ queue;
    wup_tsk(TSK_SELF);
    task(TSK_SELF);
    can_wup(TSK_SELF);
    act_tsk(WAITER);
    sus_tsk(WAITER);
    task(WAITER);
    SAY(frsm_tsk(WAITER));
    SAY(frsm_tsk(WAITER));
    task(WAITER);
    can_act(WAITER);
    task(OTHER);
    SAY(ref_tsk(99, &nobody));
    SAY(ref_sem(ONE, &semaphore));
    printf("%d waits, %d are there\n", semaphore.wtskid, semaphore.semcnt);
    SAY(ref_flg(ONE, &flag));
    printf("%d waits, the bits are %d\n", flag.wtskid, flag.flgptn);
    snd_dtq(ONE, 11);
    SAY(ref_dtq(ONE, &queue));
    printf("%d and %d wait, %d are there\n", queue.stskid, queue.rtskid, queue.sdtqcnt);
}

static void mutexes(void)
{
    T_RMTX mutex;
    SAY(ploc_mtx(ONE));
    SAY(loc_mtx(ONE));
    SAY(ref_mtx(ONE, &mutex));
    printf("%d has it, %d waits\n", mutex.htskid, mutex.wtskid);
    SAY(unl_mtx(ONE));
    SAY(unl_mtx(ONE));
    SAY(tloc_mtx(99, 5));
    SAY(tloc_mtx(TWO, 5));
    task(TSK_SELF);
    SAY(chg_pri(TSK_SELF, 2));
    SAY(chg_pri(TSK_SELF, 4));
    task(TSK_SELF);
    SAY(unl_mtx(TWO));
    task(TSK_SELF);
}

static void pools(void)
{
    VP first = NULL;
    VP second = NULL;
    VP none = NULL;
    T_RMPF pool;
    SAY(get_mpf(ONE, &first));
    SAY(pget_mpf(ONE, &second));
    SAY((UB *)second - (UB *)first);
    SAY(tget_mpf(ONE, &none, TMO_POL));
    SAY(rel_mpf(ONE, first));
    SAY(rel_mpf(ONE, first));
    SAY(ref_mpf(ONE, &pool));
    printf("%d waits, %d are there\n", pool.wtskid, pool.fblkcnt);
}

static void mailboxes(void)
{
    T_MSG *got;
    T_RMBX mailbox = { .wtskid = -1 };
    SAY(snd_mbx(ONE, &low.msgque));
    SAY(snd_mbx(ONE, &high.msgque));
    SAY(snd_mbx(ONE, &below_all.msgque));
    SAY(ref_mbx(ONE, &mailbox));
    SAY(mailbox.pk_msg == &high.msgque);
    SAY(rcv_mbx(ONE, &got));
    SAY(got == &high.msgque);
    SAY(prcv_mbx(ONE, &got));
    SAY(got == &low.msgque);
    SAY(trcv_mbx(ONE, &got, TMO_POL));
    SAY(ref_mbx(ONE, &mailbox));
    SAY(mailbox.pk_msg == NULL);
}

static void time_handlers(void)
{
    T_RCYC cyclic;
    T_RALM once;
    SAY(sta_cyc(ONE));
    SAY(ref_cyc(ONE, &cyclic));
    printf("state %d, %d more\n", cyclic.cycstat, cyclic.lefttim);
    SAY(stp_cyc(ONE));
    SAY(ref_cyc(ONE, &cyclic));
    printf("state %d, %d more\n", cyclic.cycstat, cyclic.lefttim);
    SAY(sta_cyc(TWO));
    SAY(sta_alm(ONE, 5));
    SAY(ref_alm(ONE, &once));
    printf("state %d, %d more\n", once.almstat, once.lefttim);
    SAY(stp_alm(ONE));
    SAY(ref_alm(ONE, &once));
    printf("state %d, %d more\n", once.almstat, once.lefttim);
    SAY(sta_alm(ONE, 0x80000000));
    SAY(sta_alm(ONE, 0));
    SAY(sta_cyc(ONE));
}

static void say_handled(void)
{
    for (; said < calls; said++)
        printf("in the handler: %s = %d\n", handled[said].call, handled[said].answer);
}

void all_calls(VP_INT unused)
{
    SYSTIM result;
    T_MSG *got;
    (void)unused;
    times();
    marks();
    processors();
    references();
    mutexes();
    pools();
    mailboxes();
    time_handlers();
    slp_tsk();
    say_handled();
    SAY(prcv_mbx(ONE, &got));
    dly_tsk(1);
    say_handled();
    SAY_RESULT(get_tim(&result));
    ext_ker();
}
