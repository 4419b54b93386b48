/* Each function of kernel.h that every board has, at least once. What each has to answer was worked out from
   docs/KERNEL.md. */
#include "board.h"
#include "ids.h"

#define SAY(call) printf("%s = %d\n", #call, (INT)(call))
#define SAY_RESULT(call)                                                                                               \
    do {                                                                                                               \
        result = 0;                                                                                                    \
        ER answer = call;                                                                                              \
        printf("%s = %d, %d\n", #call, answer, (INT)result);                                                           \
    } while (0)

static struct {
    const char *call;
    INT answer;
} handled[17];
static INT calls;
static ID other_processor;
static VP_INT other_argument;

#define HANDLED(it) (handled[calls].call = #it, handled[calls].answer = (INT)(it), calls++)

void handler(INHNO line)
{
    ID running = 99;
    HANDLED(line);
    HANDLED(iact_tsk(LOW));
    HANDLED(imact_tsk(LOW, 1));
    HANDLED(irel_wai(LOW));
    HANDLED(iwup_tsk(MAIN));
    HANDLED(isig_sem(ONE));
    HANDLED(iset_flg(ONE, 8));
    HANDLED(ipsnd_dtq(ONE, 21));
    HANDLED(ifsnd_dtq(ONE, 22));
    HANDLED(irot_rdq(17));
    HANDLED(iget_tid(&running));
    HANDLED(running);
    HANDLED(wup_tsk(MAIN));
    HANDLED(try_spn(ONE));
    HANDLED(put_chr('x'));
    HANDLED(printf("not from a handler\n"));
    ret_int();
    HANDLED(ret_int());
}

void nothing(VP_INT unused)
{
    (void)unused;
}

void sleeper(VP_INT unused)
{
    (void)unused;
    SAY(slp_tsk());
    SAY(tslp_tsk(TMO_FEVR));
    ext_tsk();
}

void other(VP_INT argument)
{
    get_pid(&other_processor);
    other_argument = argument;
    sig_sem(DONE);
}

static void tasks(void)
{
    INT result;
    SAY_RESULT(get_tid(&result));
    SAY_RESULT(get_pid(&result));
    SAY_RESULT(get_pri(TSK_SELF, &result));
    SAY(act_tsk(LOW));
    SAY(act_tsk(LOW));
    SAY(act_tsk(LOW));
    SAY(can_act(LOW));
    SAY(can_act(LOW));
    SAY(chg_pri(LOW, 8));
    SAY_RESULT(get_pri(LOW, &result));
    SAY(chg_pri(LOW, 17));
    SAY(chg_pri(99, 1));
    SAY(chg_pri(256, 1));
    SAY(sus_tsk(LOW));
    SAY(sus_tsk(LOW));
    SAY(rsm_tsk(LOW));
    SAY(rsm_tsk(LOW));
    SAY(rot_rdq(TPRI_SELF));
    SAY(rot_rdq(17));
    SAY(ter_tsk(LOW));
    SAY(ter_tsk(LOW));
    SAY(ter_tsk(MAIN));
    SAY_RESULT(get_pri(LOW, &result));
}

static void waits(void)
{
    SAY(wup_tsk(TSK_SELF));
    SAY(wup_tsk(TSK_SELF));
    SAY(can_wup(TSK_SELF));
    SAY(can_wup(TSK_SELF));
    SAY(wup_tsk(TSK_SELF));
    SAY(slp_tsk());
    SAY(tslp_tsk(TMO_POL));
    SAY(tslp_tsk(-2));
    SAY(act_tsk(HIGH));
    SAY(rel_wai(HIGH));
    SAY(wup_tsk(HIGH));
    SAY(rel_wai(HIGH));
    SAY(dly_tsk(0x80000000));
}

static void objects(void)
{
    FLGPTN result;
    SAY(sig_sem(ONE));
    SAY(sig_sem(ONE));
    SAY(sig_sem(ONE));
    SAY(wai_sem(ONE));
    SAY(twai_sem(ONE, 5));
    SAY(pol_sem(ONE));
    SAY(twai_sem(ONE, TMO_POL));
    SAY(twai_sem(ONE, -2));
    SAY(set_flg(ONE, 6));
    SAY_RESULT(wai_flg(ONE, 2, TWF_ANDW, &result));
    SAY_RESULT(pol_flg(ONE, 9, TWF_ORW, &result));
    SAY_RESULT(pol_flg(ONE, 6, 2, &result));
    SAY(clr_flg(ONE, 4));
    SAY_RESULT(twai_flg(ONE, 12, TWF_ORW, &result, 3));
    SAY_RESULT(twai_flg(ONE, 12, TWF_ANDW, &result, TMO_POL));
    SAY_RESULT(twai_flg(ONE, 4, TWF_ANDW, &result, -2));
}

static void queue(void)
{
    VP_INT result;
    SAY(snd_dtq(ONE, -11));
    SAY(psnd_dtq(ONE, 12));
    SAY(psnd_dtq(ONE, 13));
    SAY(tsnd_dtq(ONE, 14, TMO_POL));
    SAY(tsnd_dtq(ONE, 14, -2));
    SAY_RESULT(rcv_dtq(ONE, &result));
    SAY(tsnd_dtq(ONE, 15, 3));
    SAY(fsnd_dtq(ONE, 16));
    SAY_RESULT(prcv_dtq(ONE, &result));
    SAY_RESULT(trcv_dtq(ONE, &result, 3));
    SAY_RESULT(trcv_dtq(ONE, &result, TMO_POL));
    SAY_RESULT(trcv_dtq(2, &result, TMO_POL));
}

static void spin_locks(void)
{
    ER locked = loc_spn(ONE);
    ER again = try_spn(ONE);
    ER unlocked = unl_cpu();
    ER refused = printf("not while the spin lock is held\n");
    SAY((unl_spn(ONE), locked));
    SAY(again);
    SAY(unlocked);
    SAY(refused);
    locked = try_spn(ONE);
    SAY((unl_spn(ONE), locked));
    SAY(unl_spn(ONE));
    SAY(loc_spn(2));
    SAY(try_spn(256));
}

static void marks(void)
{
    ER locked;
    ER again;
    ER refused;
    SAY(dis_dsp());
    SAY(slp_tsk());
    SAY(ena_dsp());
    locked = loc_cpu();
    again = loc_cpu();
    refused = printf("not while CPU-locked\n");
    SAY((unl_cpu(), locked));
    SAY(again);
    SAY(refused);
    SAY(isig_sem(ONE));
    SAY(ret_int());
}

void all_calls(VP_INT unused)
{
    FLGPTN result;
    (void)unused;
    tasks();
    waits();
    objects();
    queue();
    spin_locks();
    marks();
    SAY(slp_tsk());
    for (INT i = 0; i < calls; i++)
        printf("in the handler: %s = %d\n", handled[i].call, handled[i].answer);
    assert(lost_output == sizeof "not while the spin lock is held" + sizeof "not while CPU-locked" + sizeof "x" - 1 +
                              sizeof "not from a handler");
    lost_output = 0;                    /* all of these were refused on purpose */
    SAY_RESULT(pol_flg(ONE, 8, TWF_ORW, &result));
    SAY(dly_tsk(1));
    SAY(mact_tsk(OTHER, 1));
    SAY(mig_tsk(OTHER, 2));
    SAY(mig_tsk(OTHER, 2));
    SAY(mact_tsk(OTHER, 3));
    SAY(wai_sem(DONE));
    printf("the other task had argument %d, on processor %d\n", other_argument, other_processor);
    SAY(ext_ker());
}
