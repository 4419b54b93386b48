/* The kernel's service calls as functions. docs/KERNEL.md says what each does, from where it may be called and what it
 * answers. A second result is stored where the last pointer points, if the answer is E_OK.
 *
 * A call is one SYSCALL: its number in $v0 (register 2), its arguments in $a0 to $a3 (4 to 7), the answer in $v0, the
 * second result in $v1 (3). The kernel leaves all other registers as they are, but before the call goes on others may
 * have written to memory. */
#ifndef KERNEL_H
#define KERNEL_H

#include "itron.h"

#ifndef __ASSEMBLER__

#define KERNEL_CALL static inline __attribute__((always_inline, unused, no_instrument_function))

struct kernel_answer {
    INT first;
    UINT second;
};

#define KERNEL_SYSCALL(...)                                                                                            \
    register UINT v1 __asm__("$3");                                                                                    \
    register UINT v0 __asm__("$2") = number;                                                                           \
    __asm__ volatile("syscall" : "+r"(v0), "=r"(v1) : __VA_ARGS__ : "memory");                                         \
    return (struct kernel_answer){ (INT)v0, v1 }

KERNEL_CALL struct kernel_answer kernel_0(UINT number)
{
    KERNEL_SYSCALL();
}

KERNEL_CALL struct kernel_answer kernel_1(UINT number, UINT a)
{
    register UINT a0 __asm__("$4") = a;
    KERNEL_SYSCALL("r"(a0));
}

KERNEL_CALL struct kernel_answer kernel_2(UINT number, UINT a, UINT b)
{
    register UINT a0 __asm__("$4") = a;
    register UINT a1 __asm__("$5") = b;
    KERNEL_SYSCALL("r"(a0), "r"(a1));
}

KERNEL_CALL struct kernel_answer kernel_3(UINT number, UINT a, UINT b, UINT c)
{
    register UINT a0 __asm__("$4") = a;
    register UINT a1 __asm__("$5") = b;
    register UINT a2 __asm__("$6") = c;
    KERNEL_SYSCALL("r"(a0), "r"(a1), "r"(a2));
}

KERNEL_CALL struct kernel_answer kernel_4(UINT number, UINT a, UINT b, UINT c, UINT d)
{
    register UINT a0 __asm__("$4") = a;
    register UINT a1 __asm__("$5") = b;
    register UINT a2 __asm__("$6") = c;
    register UINT a3 __asm__("$7") = d;
    KERNEL_SYSCALL("r"(a0), "r"(a1), "r"(a2), "r"(a3));
}

/* A word of any type, as a pointer that a call answers. */
typedef UINT __attribute__((may_alias)) KERNEL_WORD;

KERNEL_CALL ER kernel_second(struct kernel_answer answer, KERNEL_WORD *place)
{
    if (answer.first == E_OK)
        *place = answer.second;
    return answer.first;
}

/* Tasks. Those of other processors too: mact_tsk, mig_tsk and get_pid are calls of TOPPERS/FMP. */
KERNEL_CALL ER act_tsk(ID tskid) { return kernel_1(1, tskid).first; }
KERNEL_CALL ER_UINT can_act(ID tskid) { return kernel_1(2, tskid).first; }
KERNEL_CALL __attribute__((noreturn)) void ext_tsk(void) { kernel_0(3); __builtin_trap(); }
KERNEL_CALL ER ter_tsk(ID tskid) { return kernel_1(4, tskid).first; }
KERNEL_CALL ER chg_pri(ID tskid, PRI tskpri) { return kernel_2(5, tskid, tskpri).first; }
KERNEL_CALL ER get_pri(ID tskid, PRI *p_tskpri) { return kernel_second(kernel_1(6, tskid), (UINT *)p_tskpri); }
KERNEL_CALL ER mact_tsk(ID tskid, ID prcid) { return kernel_2(7, tskid, prcid).first; }
KERNEL_CALL ER mig_tsk(ID tskid, ID prcid) { return kernel_2(8, tskid, prcid).first; }
KERNEL_CALL ER get_pid(ID *p_prcid) { return kernel_second(kernel_0(9), (UINT *)p_prcid); }
KERNEL_CALL ER rot_rdq(PRI tskpri) { return kernel_1(10, tskpri).first; }
KERNEL_CALL ER get_tid(ID *p_tskid) { return kernel_second(kernel_0(11), (UINT *)p_tskid); }
KERNEL_CALL ER dis_dsp(void) { return kernel_0(12).first; }
KERNEL_CALL ER ena_dsp(void) { return kernel_0(13).first; }
KERNEL_CALL ER loc_cpu(void) { return kernel_0(14).first; }
KERNEL_CALL ER unl_cpu(void) { return kernel_0(15).first; }

/* Waits of a task by itself, and their ends. */
KERNEL_CALL ER slp_tsk(void) { return kernel_0(16).first; }
KERNEL_CALL ER tslp_tsk(TMO tmout) { return kernel_1(17, tmout).first; }
KERNEL_CALL ER wup_tsk(ID tskid) { return kernel_1(18, tskid).first; }
KERNEL_CALL ER_UINT can_wup(ID tskid) { return kernel_1(19, tskid).first; }
KERNEL_CALL ER rel_wai(ID tskid) { return kernel_1(20, tskid).first; }
KERNEL_CALL ER sus_tsk(ID tskid) { return kernel_1(21, tskid).first; }
KERNEL_CALL ER rsm_tsk(ID tskid) { return kernel_1(22, tskid).first; }
KERNEL_CALL ER dly_tsk(RELTIM dlytim) { return kernel_1(23, dlytim).first; }

/* Semaphores, event flags and data queues. */
KERNEL_CALL ER sig_sem(ID semid) { return kernel_1(24, semid).first; }
KERNEL_CALL ER wai_sem(ID semid) { return kernel_1(25, semid).first; }
KERNEL_CALL ER pol_sem(ID semid) { return kernel_1(26, semid).first; }
KERNEL_CALL ER twai_sem(ID semid, TMO tmout) { return kernel_2(27, semid, tmout).first; }
KERNEL_CALL ER set_flg(ID flgid, FLGPTN setptn) { return kernel_2(28, flgid, setptn).first; }
KERNEL_CALL ER clr_flg(ID flgid, FLGPTN clrptn) { return kernel_2(29, flgid, clrptn).first; }
KERNEL_CALL ER wai_flg(ID flgid, FLGPTN waiptn, MODE wfmode, FLGPTN *p_flgptn)
{ return kernel_second(kernel_3(30, flgid, waiptn, wfmode), p_flgptn); }
KERNEL_CALL ER pol_flg(ID flgid, FLGPTN waiptn, MODE wfmode, FLGPTN *p_flgptn)
{ return kernel_second(kernel_3(31, flgid, waiptn, wfmode), p_flgptn); }
KERNEL_CALL ER twai_flg(ID flgid, FLGPTN waiptn, MODE wfmode, FLGPTN *p_flgptn, TMO tmout)
{ return kernel_second(kernel_4(32, flgid, waiptn, wfmode, tmout), p_flgptn); }
KERNEL_CALL ER snd_dtq(ID dtqid, VP_INT data) { return kernel_2(33, dtqid, data).first; }
KERNEL_CALL ER psnd_dtq(ID dtqid, VP_INT data) { return kernel_2(34, dtqid, data).first; }
KERNEL_CALL ER tsnd_dtq(ID dtqid, VP_INT data, TMO tmout) { return kernel_3(35, dtqid, data, tmout).first; }
KERNEL_CALL ER fsnd_dtq(ID dtqid, VP_INT data) { return kernel_2(36, dtqid, data).first; }
KERNEL_CALL ER rcv_dtq(ID dtqid, VP_INT *p_data) { return kernel_second(kernel_1(37, dtqid), (UINT *)p_data); }
KERNEL_CALL ER prcv_dtq(ID dtqid, VP_INT *p_data) { return kernel_second(kernel_1(38, dtqid), (UINT *)p_data); }
KERNEL_CALL ER trcv_dtq(ID dtqid, VP_INT *p_data, TMO tmout)
{ return kernel_second(kernel_2(39, dtqid, tmout), (UINT *)p_data); }

/* Spin locks between processors: the calls are those of TOPPERS/FMP, how they behave is the board's own. Who holds one
   is CPU-locked until unl_spn. (Those of handlers stand with the other calls of handlers.) */
KERNEL_CALL ER loc_spn(ID spnid) { return kernel_1(60, spnid).first; }
KERNEL_CALL ER try_spn(ID spnid) { return kernel_1(61, spnid).first; }
KERNEL_CALL ER unl_spn(ID spnid) { return kernel_1(62, spnid).first; }

/* The profile: each is E_RSFN where the configuration doesn't begin with PROFILE(STANDARD);. */
KERNEL_CALL ER get_tim(SYSTIM *p_systim) { return kernel_second(kernel_0(64), p_systim); }
KERNEL_CALL ER set_tim(SYSTIM *p_systim) { return kernel_1(65, *p_systim).first; }
KERNEL_CALL BOOL sns_ctx(void) { return kernel_0(66).first; }
KERNEL_CALL BOOL sns_loc(void) { return kernel_0(67).first; }
KERNEL_CALL BOOL sns_dsp(void) { return kernel_0(68).first; }
KERNEL_CALL BOOL sns_dpn(void) { return kernel_0(69).first; }
KERNEL_CALL ER frsm_tsk(ID tskid) { return kernel_1(70, tskid).first; }
KERNEL_CALL ER mget_tid(ID *p_tskid, ID prcid) { return kernel_second(kernel_1(71, prcid), (UINT *)p_tskid); }
KERNEL_CALL ER mrot_rdq(PRI tskpri, ID prcid) { return kernel_2(72, tskpri, prcid).first; }

/* A word a call: so a structure is of one state only where nobody changes it meanwhile. */
KERNEL_CALL ER kernel_words(UINT number, ID id, KERNEL_WORD *words, UINT count)
{
    ER error = E_OK;
    for (UINT word = 0; word < count && error == E_OK; word++)
        error = kernel_second(kernel_2(number, id, word), words + word);
    return error;
}

KERNEL_CALL ER ref_tsk(ID tskid, T_RTSK *pk_rtsk) { return kernel_words(73, tskid, (UINT *)pk_rtsk, 9); }
KERNEL_CALL ER ref_sem(ID semid, T_RSEM *pk_rsem) { return kernel_words(74, semid, (UINT *)pk_rsem, 2); }
KERNEL_CALL ER ref_flg(ID flgid, T_RFLG *pk_rflg) { return kernel_words(75, flgid, (UINT *)pk_rflg, 2); }
KERNEL_CALL ER ref_dtq(ID dtqid, T_RDTQ *pk_rdtq) { return kernel_words(76, dtqid, (UINT *)pk_rdtq, 3); }

/* Mutexes. */
KERNEL_CALL ER loc_mtx(ID mtxid) { return kernel_1(77, mtxid).first; }
KERNEL_CALL ER ploc_mtx(ID mtxid) { return kernel_1(78, mtxid).first; }
KERNEL_CALL ER tloc_mtx(ID mtxid, TMO tmout) { return kernel_2(79, mtxid, tmout).first; }
KERNEL_CALL ER unl_mtx(ID mtxid) { return kernel_1(80, mtxid).first; }
KERNEL_CALL ER ref_mtx(ID mtxid, T_RMTX *pk_rmtx) { return kernel_words(81, mtxid, (UINT *)pk_rmtx, 2); }

/* Fixed memory pools and mailboxes. The priority of a message is read from it, whether or not the mailbox has TA_MPRI:
   the word behind a T_MSG has to be in RAM. */
KERNEL_CALL UINT kernel_priority(T_MSG *pk_msg)
{
    __asm__("" : "+r"(pk_msg));         /* (it may be no longer than a T_MSG) */
    return ((T_MSG_PRI *)pk_msg)->msgpri;
}

KERNEL_CALL ER get_mpf(ID mpfid, VP *p_blk) { return kernel_second(kernel_1(82, mpfid), (UINT *)p_blk); }
KERNEL_CALL ER pget_mpf(ID mpfid, VP *p_blk) { return kernel_second(kernel_1(83, mpfid), (UINT *)p_blk); }
KERNEL_CALL ER tget_mpf(ID mpfid, VP *p_blk, TMO tmout)
{ return kernel_second(kernel_2(84, mpfid, tmout), (UINT *)p_blk); }
KERNEL_CALL ER rel_mpf(ID mpfid, VP blk) { return kernel_2(85, mpfid, (UINT)blk).first; }
KERNEL_CALL ER snd_mbx(ID mbxid, T_MSG *pk_msg)
{ return kernel_3(86, mbxid, (UINT)pk_msg, kernel_priority(pk_msg)).first; }
KERNEL_CALL ER rcv_mbx(ID mbxid, T_MSG **ppk_msg) { return kernel_second(kernel_1(88, mbxid), (UINT *)ppk_msg); }
KERNEL_CALL ER prcv_mbx(ID mbxid, T_MSG **ppk_msg) { return kernel_second(kernel_1(89, mbxid), (UINT *)ppk_msg); }
KERNEL_CALL ER trcv_mbx(ID mbxid, T_MSG **ppk_msg, TMO tmout)
{ return kernel_second(kernel_2(90, mbxid, tmout), (UINT *)ppk_msg); }
KERNEL_CALL ER ref_mpf(ID mpfid, T_RMPF *pk_rmpf) { return kernel_words(91, mpfid, (UINT *)pk_rmpf, 2); }
KERNEL_CALL ER ref_mbx(ID mbxid, T_RMBX *pk_rmbx) { return kernel_words(92, mbxid, (UINT *)pk_rmbx, 2); }

/* Cyclic handlers and alarm handlers. */
KERNEL_CALL ER sta_cyc(ID cycid) { return kernel_1(93, cycid).first; }
KERNEL_CALL ER stp_cyc(ID cycid) { return kernel_1(94, cycid).first; }
KERNEL_CALL ER sta_alm(ID almid, RELTIM almtim) { return kernel_2(95, almid, almtim).first; }
KERNEL_CALL ER stp_alm(ID almid) { return kernel_1(97, almid).first; }
KERNEL_CALL ER ref_cyc(ID cycid, T_RCYC *pk_rcyc) { return kernel_words(99, cycid, (UINT *)pk_rcyc, 2); }
KERNEL_CALL ER ref_alm(ID almid, T_RALM *pk_ralm) { return kernel_words(100, almid, (UINT *)pk_ralm, 2); }

/* The board's own: a byte to the console, and the end. */
KERNEL_CALL ER put_chr(char byte) { return kernel_1(40, (UB)byte).first; }
KERNEL_CALL ER ext_ker(void) { return kernel_0(41).first; }

/* From handlers of interrupts, and from nowhere else. A handler that returns has called ret_int. */
KERNEL_CALL ER iact_tsk(ID tskid) { return kernel_1(48, tskid).first; }
KERNEL_CALL ER iwup_tsk(ID tskid) { return kernel_1(49, tskid).first; }
KERNEL_CALL ER irel_wai(ID tskid) { return kernel_1(50, tskid).first; }
KERNEL_CALL ER isig_sem(ID semid) { return kernel_1(51, semid).first; }
KERNEL_CALL ER iset_flg(ID flgid, FLGPTN setptn) { return kernel_2(52, flgid, setptn).first; }
KERNEL_CALL ER ipsnd_dtq(ID dtqid, VP_INT data) { return kernel_2(53, dtqid, data).first; }
KERNEL_CALL ER ifsnd_dtq(ID dtqid, VP_INT data) { return kernel_2(54, dtqid, data).first; }
KERNEL_CALL ER irot_rdq(PRI tskpri) { return kernel_1(55, tskpri).first; }
KERNEL_CALL ER iget_tid(ID *p_tskid) { return kernel_second(kernel_0(56), (UINT *)p_tskid); }
KERNEL_CALL ER imact_tsk(ID tskid, ID prcid) { return kernel_2(57, tskid, prcid).first; }
KERNEL_CALL ER isig_tim(void) { return kernel_0(115).first; }     /* always E_RSFN: ticks come from outside */
KERNEL_CALL ER isnd_mbx(ID mbxid, T_MSG *pk_msg)
{ return kernel_3(87, mbxid, (UINT)pk_msg, kernel_priority(pk_msg)).first; }
KERNEL_CALL ER ista_alm(ID almid, RELTIM almtim) { return kernel_2(96, almid, almtim).first; }
KERNEL_CALL ER istp_alm(ID almid) { return kernel_1(98, almid).first; }
KERNEL_CALL ER iloc_cpu(void) { return kernel_0(101).first; }
KERNEL_CALL ER iunl_cpu(void) { return kernel_0(102).first; }
KERNEL_CALL ER iloc_spn(ID spnid) { return kernel_1(103, spnid).first; }
KERNEL_CALL ER itry_spn(ID spnid) { return kernel_1(104, spnid).first; }
KERNEL_CALL ER iunl_spn(ID spnid) { return kernel_1(105, spnid).first; }
KERNEL_CALL ER iget_pid(ID *p_prcid) { return kernel_second(kernel_0(112), (UINT *)p_prcid); }
KERNEL_CALL ER ret_int(void) { return kernel_0(58).first; }

#endif
#endif
