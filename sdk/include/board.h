/* What a program for the board has besides the kernel's calls: a console, assertions, words that processors share. */
#ifndef BOARD_H
#define BOARD_H

#include "kernel.h"

#ifndef __ASSEMBLER__

#ifdef BOARD_LIBC
#include <assert.h>
#include <stdio.h>
#include <string.h>
#else
#include <stdarg.h>

/* Writes to the console: all conversions of integers, texts and pointers that the C standard has (d i u o x X c s p %),
 * with flags, widths, precisions and `*`, and with the sizes hh h l ll j z t. It answers how many bytes it has written,
 * or why put_chr was refused: in an interrupt handler, or while the processor is CPU-locked (E_CTX), or where the console
 * is full (E_QOVR). Where it has no such conversion (%f, %n) the board ends, with a line that says so. */
int printf(const char *format, ...) __attribute__((format(printf, 1, 2)));
int vprintf(const char *format, va_list arguments) __attribute__((format(printf, 1, 0)));

/* The same into a text of `size` bytes, from handlers too. It answers how many bytes the whole text has. */
int snprintf(char *text, SIZE size, const char *format, ...) __attribute__((format(printf, 3, 4)));
int vsnprintf(char *text, SIZE size, const char *format, va_list arguments) __attribute__((format(printf, 3, 0)));

/* An argument of floating point is refused where it is compiled. */
#define printf(...) (BOARD_WHOLE(__VA_ARGS__) (printf)(__VA_ARGS__))
#define snprintf(text, ...) (BOARD_WHOLE(__VA_ARGS__) (snprintf)(text, __VA_ARGS__))
#define BOARD_WHOLE(...) BOARD_THRICE(BOARD_EACH(__VA_ARGS__))
#define BOARD_EACH(it, ...)                                                                                            \
    (void)sizeof(struct {                                                                                              \
        _Static_assert(_Generic((it), float: 0, double: 0, long double: 0, default: 1),                                \
                       "the kit's printf has no floating point; the C library's has (LIBC = 1)");                      \
        int it_is_whole;                                                                                               \
    }), __VA_OPT__(BOARD_EACH_AGAIN BOARD_LATER ()(__VA_ARGS__))
#define BOARD_EACH_AGAIN() BOARD_EACH
#define BOARD_LATER
#define BOARD_THRICE(...) BOARD_TWICE(BOARD_TWICE(BOARD_TWICE(__VA_ARGS__)))
#define BOARD_TWICE(...) BOARD_ONCE(BOARD_ONCE(BOARD_ONCE(__VA_ARGS__)))
#define BOARD_ONCE(...) BOARD_SAME(BOARD_SAME(BOARD_SAME(__VA_ARGS__)))
#define BOARD_SAME(...) __VA_ARGS__

/* If the condition doesn't hold, an exception ends the task at once, or stops the processor of the handler; nothing is
 * written. `make test` and its relatives fail then, and say which condition it was, whose and where. */
#define assert(condition) ((condition) ? (void)0 : board_stop(__FILE__, __LINE__, #condition))

void *memcpy(void *to, const void *from, SIZE size);
void *memmove(void *to, const void *from, SIZE size);
void *memset(void *to, int byte, SIZE size);
int memcmp(const void *one, const void *other, SIZE size);
SIZE strlen(const char *text);
#endif

void board_stop(const char *file, INT line, const char *condition) __attribute__((noreturn));

#define BOARD_INLINE static inline __attribute__((always_inline, unused, no_instrument_function))

/* Adds to a word in one step, and answers what it was before. (All processors see one memory, in one order, so nothing
 * here needs a SYNC. Only spin_unlock has one: by it `make races` knows that its store hands on what was done before.) */
BOARD_INLINE UINT atomic_add(volatile UINT *word, UINT addend)
{
    UINT before;
    UINT after;
    __asm__ volatile(".set push\n\t"
                     ".set noreorder\n"
                     "1:\tll %0, %2\n\t"
                     "addu %1, %0, %3\n\t"
                     "sc %1, %2\n\t"
                     "beqz %1, 1b\n\t"
                     "nop\n\t"
                     ".set pop"
                     : "=&r"(before), "=&r"(after), "+ZC"(*word)
                     : "r"(addend)
                     : "memory");
    return before;
}

/* Where the word is `expected`, stores `wanted`, in one step: TRUE if it was. */
BOARD_INLINE BOOL compare_and_swap(volatile UINT *word, UINT expected, UINT wanted)
{
    UINT before;
    UINT stored;
    __asm__ volatile(".set push\n\t"
                     ".set noreorder\n"
                     "1:\tll %0, %2\n\t"
                     "bne %0, %3, 2f\n\t"
                     "move %1, $0\n\t"
                     "move %1, %4\n\t"
                     "sc %1, %2\n\t"
                     "beqz %1, 1b\n\t"
                     "nop\n"
                     "2:\n\t"
                     ".set pop"
                     : "=&r"(before), "=&r"(stored), "+ZC"(*word)
                     : "r"(expected), "r"(wanted)
                     : "memory");
    return (BOOL)stored;
}

/* How many characters the console has refused, from handlers, while the processor was CPU-locked, or since it is full:
 * `make test` and its relatives fail where it isn't 0 (docs/C.md, "Lost output"). */
extern volatile UINT lost_output;

/* A byte for a program that sees by itself to one that is refused: it isn't counted. */
BOARD_INLINE ER try_put_chr(char byte)
{
    return put_chr(byte);
}

BOARD_INLINE ER board_put_chr(char byte)
{
    ER answer = put_chr(byte);
    if (answer != E_OK)
        atomic_add(&lost_output, 1);
    return answer;
}
#define put_chr(byte) board_put_chr(byte)

/* A lock between processors. While somebody has it, nobody on the same processor may come between who wants it too: a
 * task calls loc_cpu() before spin_lock() and unl_cpu() after spin_unlock(); a handler can't be interrupted and calls
 * them as they are. A lock has 16 bytes to itself, since a store into these takes a try of another processor back. */
typedef struct {
    volatile UINT taken;
} __attribute__((aligned(16))) SPIN_LOCK;

BOARD_INLINE BOOL try_spin_lock(SPIN_LOCK *lock)
{
    return compare_and_swap(&lock->taken, 0, 1);
}

BOARD_INLINE void spin_lock(SPIN_LOCK *lock)
{
    while (!try_spin_lock(lock))
        ;
    /* (GCC fills the delay slot of the loop's branch, which is executed after each try, with no load from below this) */
    __asm__ volatile("" : : : "memory");
}

/* SYNC, and the store right after it. */
BOARD_INLINE void spin_unlock(SPIN_LOCK *lock)
{
    __atomic_store_n(&lock->taken, 0, __ATOMIC_RELEASE);
}

#endif
#endif
