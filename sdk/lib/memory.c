/* What a C compiler calls in every program, and strlen: by words where the bytes are many. They are weak: those of a
 * library that the program is linked with come first. */
#include "board.h"

#define WEAK __attribute__((weak))

/* GCC would make calls of these functions of their own loops. */
#ifndef __clang__
#pragma GCC optimize("no-tree-loop-distribute-patterns")
#endif

/* A word of whatever is there: aligned, and at any address (of which two instructions load a part each). */
typedef UW __attribute__((may_alias)) WORD;
struct __attribute__((packed, may_alias)) anywhere {
    UW word;
};

#define BYTES sizeof(WORD)
#define BLOCK (4 * BYTES)
#define FEW 12                          /* bytes that are sooner done one by one */

BOARD_INLINE BOOL is_aligned(const UB *at)
{
    return (UW)at % BYTES == 0;
}

/* A copy of whole words. Each is loaded before anything is stored above it, so `out` may lie anywhere below `in`. */
BOARD_INLINE void copy_aligned(UB **out, const UB **in, SIZE size)
{
    WORD *to = (WORD *)*out;
    const WORD *from = (const WORD *)*in;
    WORD *blocks = to + size / BLOCK * 4;
    WORD *words = to + size / BYTES;
    while (to != blocks) {
        UW first = from[0], second = from[1], third = from[2], fourth = from[3];
        from += 4;
        to += 4;
        to[-4] = first;
        to[-3] = second;
        to[-2] = third;
        to[-1] = fourth;
    }
    while (to != words)
        *to++ = *from++;
    *out = (UB *)to;
    *in = (const UB *)from;
}

/* The same where only `out` is aligned. */
BOARD_INLINE void copy_unaligned(UB **out, const UB **in, SIZE size)
{
    WORD *to = (WORD *)*out;
    const struct anywhere *from = (const struct anywhere *)*in;
    WORD *words = to + size / BYTES;
    while (to != words)
        *to++ = from++->word;
    *out = (UB *)to;
    *in = (const UB *)from;
}

BOARD_INLINE void copy_up(UB *out, const UB *in, SIZE size)
{
    UB *end = out + size;
    if (size >= FEW) {
        while (!is_aligned(out))
            *out++ = *in++;
        if (is_aligned(in))
            copy_aligned(&out, &in, end - out);
        else
            copy_unaligned(&out, &in, end - out);
    }
    while (out != end)
        *out++ = *in++;
}

/* From the last byte on: `out` and `in` are the ends. */
BOARD_INLINE void copy_down(UB *out, const UB *in, SIZE size)
{
    UB *start = out - size;
    if (size >= FEW) {
        while (!is_aligned(out))
            *--out = *--in;
        while ((SIZE)(out - start) >= BYTES) {
            out -= BYTES;
            in -= BYTES;
            *(WORD *)out = ((const struct anywhere *)in)->word;
        }
    }
    while (out != start)
        *--out = *--in;
}

WEAK void *memmove(void *to, const void *from, SIZE size)
{
    if ((UW)to - (UW)from >= size)
        copy_up(to, from, size);
    else
        copy_down((UB *)to + size, (const UB *)from + size, size);
    return to;
}

WEAK void *memcpy(void *to, const void *from, SIZE size)
{
    return memmove(to, from, size);
}

WEAK void *memset(void *to, int byte, SIZE size)
{
    UB *out = to;
    UB *end = out + size;
    if (size >= FEW) {
        UW word = (UB)byte * 0x01010101u;
        while (!is_aligned(out))
            *out++ = (UB)byte;
        for (UB *blocks = out + (end - out) / BLOCK * BLOCK; out != blocks; out += BLOCK) {
            WORD *words = (WORD *)out;
            words[0] = word;
            words[1] = word;
            words[2] = word;
            words[3] = word;
        }
        for (UB *words = out + (end - out) / BYTES * BYTES; out != words; out += BYTES)
            *(WORD *)out = word;
    }
    while (out != end)
        *out++ = (UB)byte;
    return to;
}

WEAK int memcmp(const void *one, const void *other, SIZE size)
{
    const UB *left = one;
    const UB *right = other;
    const UB *end = left + size;
    if (size >= FEW) {
        while (!is_aligned(left) && *left == *right)
            left++, right++;
        const UB *words = left + (is_aligned(left) ? (end - left) / BYTES * BYTES : 0);
        if (is_aligned(right))
            while (left != words && *(const WORD *)left == *(const WORD *)right)
                left += BYTES, right += BYTES;
        else
            while (left != words && *(const WORD *)left == ((const struct anywhere *)right)->word)
                left += BYTES, right += BYTES;
    }
    for (; left != end; left++, right++)
        if (*left != *right)
            return *left - *right;
    return 0;
}

/* Whole words are loaded, which never reach beyond RAM: a word has a zero byte where taking 1 from each byte borrows
 * for the highest bit of one that hasn't that bit. */
WEAK SIZE strlen(const char *text)
{
    const UB *at = (const UB *)text;
    while (!is_aligned(at) && *at != 0)
        at++;
    if (is_aligned(at)) {
        const WORD *words = (const WORD *)at;
        while (((*words - 0x01010101u) & ~*words & 0x80808080u) == 0)
            words++;
        at = (const UB *)words;
    }
    while (*at != 0)
        at++;
    return at - (const UB *)text;
}
