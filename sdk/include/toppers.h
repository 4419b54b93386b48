/* The types, constants and macros of TOPPERS (t_stddef.h, t_syslog.h and kernel.h of TOPPERS/ASP and FMP), as far as
 * the board has what they are for, so that sources that are written for TOPPERS compile; with CFLAGS = -include
 * toppers.h in the Makefile they stay as they are. Which calls there are: docs/C.md, "What of uITRON 4.0 and
 * TOPPERS/FMP is there". */
#ifndef TOPPERS_H
#define TOPPERS_H

#include "kernel.h"

#ifndef __ASSEMBLER__

#include <stdbool.h>
#include <stddef.h>
#include <stdint.h>
#include "board.h"

typedef int int_t;
typedef unsigned int uint_t;
typedef long long_t;
typedef unsigned long ulong_t;
typedef int_t bool_t;

typedef intptr_t EXINF;                 /* the argument of a task, as VP_INT here */
typedef uint_t INTNO;                   /* an interrupt line, as INHNO */
typedef uint_t STK_T;                   /* what an area for a stack or for a memory pool is made of */
typedef uint_t MPF_T;
typedef void (*TASK)(intptr_t exinf);
typedef void (*INTHDR)(void);

/* Areas: `MPF_T blocks[5 * COUNT_MPF_T(sizeof(struct block))];`, and `blocks` stands in CRE_MPF. */
#define COUNT_STK_T(sz) (((sz) + sizeof(STK_T) - 1) / sizeof(STK_T))
#define ROUND_STK_T(sz) (((sz) + sizeof(STK_T) - 1) & ~(sizeof(STK_T) - 1))
#define COUNT_MPF_T(blksz) (((blksz) + sizeof(MPF_T) - 1) / sizeof(MPF_T))
#define ROUND_MPF_T(blksz) (((blksz) + sizeof(MPF_T) - 1) & ~(sizeof(MPF_T) - 1))

/* (A datum is an intptr_t there, which some compilers for MIPS take for a long.) */
#define rcv_dtq(dtqid, p_data) rcv_dtq(dtqid, (VP_INT *)(intptr_t *){ p_data })
#define prcv_dtq(dtqid, p_data) prcv_dtq(dtqid, (VP_INT *)(intptr_t *){ p_data })
#define trcv_dtq(dtqid, p_data, tmout) trcv_dtq(dtqid, (VP_INT *)(intptr_t *){ p_data }, tmout)

#define Inline static inline __attribute__((unused))
#define NoReturn __attribute__((noreturn))
#define TOPPERS_LABEL(x, y) x##y

#define ERCD(mercd, sercd) ((ER)((UINT)(sercd) << 8 | ((UINT)(mercd) & 0xff)))

/* A line on the console, whatever its level. From handlers, and while the CPU is locked, nothing can be written: the
 * kit's commands say what is lost so. */
#define LOG_EMERG 0u
#define LOG_ALERT 1u
#define LOG_CRIT 2u
#define LOG_ERROR 3u
#define LOG_WARNING 4u
#define LOG_NOTICE 5u
#define LOG_INFO 6u
#define LOG_DEBUG 7u
#define syslog(level, ...) ((void)(level), (void)printf(__VA_ARGS__), (void)printf("\n"))
#define syslog_0(level, format) syslog(level, format)
#define syslog_1(level, format, ...) syslog(level, format, __VA_ARGS__)
#define syslog_2(level, format, ...) syslog(level, format, __VA_ARGS__)
#define syslog_3(level, format, ...) syslog(level, format, __VA_ARGS__)
#define syslog_4(level, format, ...) syslog(level, format, __VA_ARGS__)
#define syslog_5(level, format, ...) syslog(level, format, __VA_ARGS__)

#endif
#endif
