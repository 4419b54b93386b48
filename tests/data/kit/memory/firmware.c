/* memcpy, memmove, memset, memcmp and strlen beside loops of bytes: at each alignment, of all small lengths, and some
 * that are large. What lies around has to stay as it is, or isn't to be looked at. */
#include "board.h"
#include "ids.h"

#define SMALL 41                        /* lengths, up to two blocks of words and some bytes */
#define ALIGNMENTS 5
#define AROUND 8                        /* bytes on both sides of what is written */
#define ROOM (AROUND + ALIGNMENTS + SMALL + 24 + AROUND)
#define LARGE 600

/* Volatile, so that no compiler makes calls of the loops. */
static volatile UB got[ROOM] __attribute__((aligned(8)));
static volatile UB wanted[ROOM] __attribute__((aligned(8)));
static volatile UB other[ROOM] __attribute__((aligned(8)));
static UB large[2][LARGE + 16] __attribute__((aligned(8)));
static UINT cases;

static void *at(volatile UB *byte)
{
    return (void *)byte;
}

static void fill(volatile UB *bytes, INT count, UINT seed)
{
    for (INT i = 0; i < count; i++)
        bytes[i] = (UB)((seed + i) * 37 + 11);
}

/* Whether all bytes are those that are wanted. */
static BOOL is_right(void)
{
    INT i = 0;
    while (i < ROOM && got[i] == wanted[i])
        i++;
    cases++;
    return i == ROOM;
}

static void told(const char *name)
{
    printf("%s: %u cases\n", name, cases);
    cases = 0;
}

static void check_memcpy(void)
{
    for (INT to = AROUND; to < AROUND + ALIGNMENTS; to++)
        for (INT from = 0; from < ALIGNMENTS; from++)
            for (INT size = 0; size < SMALL; size++) {
                fill(got, ROOM, 1);
                fill(wanted, ROOM, 1);
                fill(other, ROOM, 100);
                for (INT i = 0; i < size; i++)
                    wanted[to + i] = other[from + i];
                assert(memcpy(at(got + to), at(other + from), size) == at(got + to));
                assert(is_right());
            }
    told("memcpy");
}

/* From places up to 20 bytes above and 12 below. */
static void check_memmove(void)
{
    for (INT from = AROUND + 20; from < AROUND + 20 + 4; from++)
        for (INT to = from - 20; to <= from + 12; to++)
            for (INT size = 0; size < SMALL - 12; size++) {
                fill(got, ROOM, 1);
                fill(wanted, ROOM, 1);
                for (INT i = 0; i < size; i++)
                    wanted[to + i] = got[from + i];
                assert(memmove(at(got + to), at(got + from), size) == at(got + to));
                assert(is_right());
            }
    told("memmove");
}

static void check_memset(void)
{
    static const INT bytes[] = { 0, 0xa5, 0x180, -1 };
    for (INT it = 0; it < 4; it++)
        for (INT to = AROUND; to < AROUND + ALIGNMENTS; to++)
            for (INT size = 0; size < SMALL; size++) {
                fill(got, ROOM, 1);
                fill(wanted, ROOM, 1);
                for (INT i = 0; i < size; i++)
                    wanted[to + i] = (UB)bytes[it];
                assert(memset(at(got + to), bytes[it], size) == at(got + to));
                assert(is_right());
            }
    told("memset");
}

static INT sign(INT number)
{
    return number < 0 ? -1 : number > 0;
}

/* Texts that differ in one byte, or in none, and after the end. */
static void check_memcmp(void)
{
    fill(got, ROOM, 7);
    for (INT one = 0; one < ALIGNMENTS; one++)
        for (INT two = 0; two < ALIGNMENTS; two++)
            for (INT size = 0; size < SMALL; size++) {
                for (INT i = 0; i < size + AROUND; i++)
                    other[two + i] = got[one + i];
                other[two + size + AROUND] = (UB)~got[one + size + AROUND];
                assert(memcmp(at(got + one), at(other + two), size) == 0);
                other[two + size] ^= 0x80;
                assert(memcmp(at(got + one), at(other + two), size) == 0);
                cases++;
                for (INT i = 0; i < size; i++) {
                    UB byte = other[two + i];
                    other[two + i] = (UB)(byte ^ 0x80);
                    INT answer = byte < 0x80 ? -1 : 1;
                    assert(sign(memcmp(at(got + one), at(other + two), size)) == answer);
                    assert(sign(memcmp(at(other + two), at(got + one), size)) == -answer);
                    assert(i + 1 >= size || sign(memcmp(at(got + one), at(other + two), i + 1)) == answer);
                    other[two + i] = byte;
                    cases++;
                }
            }
    told("memcmp");
}

/* Of bytes by which a search of zeros in whole words may be misled. */
static void check_strlen(void)
{
    static const UB bytes[] = { 1, 0x80, 0x81, 0x7f, 0xff, 'a' };
    for (UINT first = 0; first < sizeof bytes; first++)
        for (UINT second = 0; second < sizeof bytes; second++)
            for (INT from = 0; from < 2 * ALIGNMENTS; from++)
                for (INT size = 0; size < SMALL; size++) {
                    for (INT i = 0; i < ROOM; i++)
                        got[i] = i % 2 == 0 ? bytes[first] : bytes[second];
                    if (from > 0)
                        got[from - 1] = 0;
                    got[from + size] = 0;
                    assert(strlen(at(got + from)) == (SIZE)size);
                    cases++;
                }
    told("strlen");
}

static void check_large(void)
{
    for (INT to = 0; to < 8; to++)
        for (INT from = 0; from < 8; from++) {
            INT size = LARGE - 8 * from - to;
            fill(large[0], sizeof large[0], from);
            assert(memset(large[1], 0x5a, sizeof large[1]) == large[1]);
            assert(memcpy(large[1] + to, large[0] + from, size) == large[1] + to);
            for (INT i = 0; i < LARGE + 16; i++)
                assert(large[1][i] == (i < to || i >= to + size ? 0x5a : large[0][i - to + from]));
            assert(memcmp(large[1] + to, large[0] + from, size) == 0);
            large[1][to + size - 1] ^= 1;
            assert(memcmp(large[1] + to, large[0] + from, size) != 0);
            assert(memmove(large[0] + to, large[0] + from, size) == large[0] + to);
            for (INT i = 0; i < size; i++)
                assert(large[0][to + i] == (UB)((from + from + i) * 37 + 11));
            cases++;
        }
    told("large");
}

void check(VP_INT unused)
{
    (void)unused;
    check_memcpy();
    check_memmove();
    check_memset();
    check_memcmp();
    check_strlen();
    check_large();
    ext_ker();
}
