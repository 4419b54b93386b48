/* Types and constants of the uITRON 4.0 specification, as far as the board's kernel has a use for them. */
#ifndef ITRON_H
#define ITRON_H

#ifndef __ASSEMBLER__

typedef signed char B;                  /* integers of 8, 16, 32 and 64 bits */
typedef short H;
typedef int W;
typedef long long D;
typedef unsigned char UB;
typedef unsigned short UH;
typedef unsigned int UW;
typedef unsigned long long UD;
typedef signed char VB;                 /* bits of any type */
typedef short VH;
typedef int VW;
typedef long long VD;
typedef void *VP;                       /* a pointer to anything */
typedef void (*FP)(void);               /* where a program starts */
typedef int INT;
typedef unsigned int UINT;
typedef INT BOOL;
typedef INT FN;
typedef INT ER;                         /* E_OK, or why a call was refused */
typedef INT ID;
typedef UINT ATR;
typedef UINT STAT;
typedef UINT MODE;
typedef INT PRI;                        /* 1, the highest, to 16 */
typedef UINT SIZE;
typedef W TMO;                          /* a timeout in ticks, TMO_POL or TMO_FEVR */
typedef UW RELTIM;                      /* ticks */
typedef UW SYSTIM;                      /* the system time, in ticks */
typedef UW FLGPTN;                      /* the bits of an event flag */
typedef INT VP_INT;                     /* an integer, or a pointer that was made one: an argument, a datum */
typedef INT ER_ID;                      /* an error, or an ID */
typedef INT ER_UINT;                    /* an error, or a count */
typedef INT ER_BOOL;                    /* an error, or TRUE or FALSE */
typedef UINT INHNO;                     /* an interrupt line, 0 to 31 */

/* What the ref_ calls of the profile tell. */
typedef struct t_rtsk {
    STAT tskstat;                       /* TTS_RUN .. */
    PRI tskpri;                         /* the priority */
    PRI tskbpri;                        /* the base priority */
    STAT tskwait;                       /* what it waits for: TTW_SLP .., 0 where it doesn't wait */
    ID wobjid;                          /* the object that it waits for */
    TMO lefttmo;                        /* ticks that pass before the one that ends its wait */
    UINT actcnt;                        /* queued requests to start it */
    UINT wupcnt;                        /* queued wake-ups */
    UINT suscnt;                        /* suspensions */
} T_RTSK;
typedef struct t_rsem {
    ID wtskid;                          /* who waits first */
    UINT semcnt;
} T_RSEM;
typedef struct t_rflg {
    ID wtskid;
    FLGPTN flgptn;
} T_RFLG;
typedef struct t_rdtq {
    ID stskid;                          /* who waits first to send */
    ID rtskid;                          /* and to receive */
    UINT sdtqcnt;                       /* how many data are stored */
} T_RDTQ;
typedef struct t_rmtx {
    ID htskid;                          /* who has it */
    ID wtskid;                          /* who waits first */
} T_RMTX;
typedef struct t_rmpf {
    ID wtskid;
    UINT fblkcnt;                       /* how many blocks are there */
} T_RMPF;

/* What a message of a mailbox begins with; the second one with TA_MPRI. */
typedef struct t_msg {
    struct t_msg *pk_next;              /* the kernel here leaves it alone */
} T_MSG;
typedef struct t_msg_pri {
    T_MSG msgque;
    PRI msgpri;                         /* 1, the highest, to the mailbox's lowest */
} T_MSG_PRI;
typedef struct t_rmbx {
    ID wtskid;
    T_MSG *pk_msg;                      /* the message that is received next, NULL where none is there */
} T_RMBX;

typedef struct t_rcyc {
    STAT cycstat;                       /* TCYC_STP, TCYC_STA */
    RELTIM lefttim;                     /* how many ticks pass before the one at which it is due */
} T_RCYC;
typedef struct t_ralm {
    STAT almstat;                       /* TALM_STP, TALM_STA */
    RELTIM lefttim;
} T_RALM;

#ifndef NULL
#define NULL ((void *)0)
#endif
#endif

/* What follows is there for assembler sources and for the configuration too. */
#define TRUE 1
#define FALSE 0

/* What a call answers. The kernel of the board answers those that docs/KERNEL.md lists. */
#define E_OK 0
#define E_SYS (-5)
#define E_NOSPT (-9)
#define E_RSFN (-10)
#define E_RSATR (-11)
#define E_PAR (-17)
#define E_ID (-18)
#define E_CTX (-25)
#define E_MACV (-26)
#define E_OACV (-27)
#define E_ILUSE (-28)
#define E_NOMEM (-33)
#define E_NOID (-34)
#define E_OBJ (-41)
#define E_NOEXS (-42)
#define E_QOVR (-43)
#define E_RLWAI (-49)
#define E_TMOUT (-50)
#define E_DLT (-51)
#define E_CLS (-52)
#define E_WBLK (-57)
#define E_BOVR (-58)

#define TMO_POL 0
#define TMO_FEVR (-1)

#define TSK_SELF 0
#define TSK_NONE 0
#define TPRI_SELF 0
#define TPRI_INI 0
#define TMIN_TPRI 1
#define TMAX_TPRI 16
#define TMIN_MPRI 1
#define TMAX_MPRI 16
#define TMAX_ACTCNT 1
#define TMAX_WUPCNT 1
#define TMAX_SUSCNT 1
#define TMAX_MAXSEM 65535
#define TBIT_FLGPTN 32
#define TIC_NUME 1                      /* a tick is 1 / 1 millisecond */
#define TIC_DENO 1

/* How many bytes the blocks of a memory pool have, for CRE_MPF with an area in the program:
 * `UW blocks[TSZ_MPF(5, 20) / 4]`. */
#define TSZ_MPF(blkcnt, blksz) ((blkcnt) * (((blksz) + 3) / 4 * 4))

#ifndef __ASSEMBLER__
#define MERCD(ercd) ((ER)(B)(ercd))     /* the main code of an error; there are no sub-codes here */
#define SERCD(ercd) ((ER)((ercd) >> 8))

#define TTS_RUN 0x01u                    /* ref_tsk: the state of a task */
#define TTS_RDY 0x02u
#define TTS_WAI 0x04u
#define TTS_SUS 0x08u
#define TTS_WAS 0x0cu
#define TTS_DMT 0x10u
#define TTW_SLP 0x01u                    /* and what it waits for */
#define TTW_DLY 0x02u
#define TTW_SEM 0x04u
#define TTW_FLG 0x08u
#define TTW_SDTQ 0x10u
#define TTW_RDTQ 0x20u
#define TTW_MBX 0x40u
#define TTW_MTX 0x80u
#define TTW_MPF 0x2000u

#define TWF_ANDW 0u                     /* wai_flg: all of the bits, or any */
#define TWF_ORW 1u

/* The attributes of objects, which the configuration gives; it knows these names by itself. */
#define TA_NULL 0u
#define TA_HLNG 0x00u
#define TA_ASM 0x01u
#define TA_ACT 0x02u
#define TA_TFIFO 0x00u
#define TA_TPRI 0x01u
#define TA_WSGL 0x00u
#define TA_WMUL 0x02u
#define TA_CLR 0x04u
#define TA_INHERIT 0x02u
#define TA_CEILING 0x03u
#define TA_MFIFO 0x00u
#define TA_MPRI 0x02u
#define TA_STA 0x02u
#define TA_PHS 0x04u
#define TCYC_STP 0x00u
#define TCYC_STA 0x01u
#define TALM_STP 0x00u
#define TALM_STA 0x01u

#endif
#endif
