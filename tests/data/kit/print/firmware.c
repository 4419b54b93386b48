/* Every conversion of printf, with sizes, widths, precisions and flags, and the functions of memory. firmware.console has what the printf
 * of the GNU C library writes. */
#include "board.h"
#include "ids.h"

/* Flags that have no effect are tried too. */
#pragma GCC diagnostic ignored "-Wformat"

static void conversions(void)
{
    printf("[%d] [%i] [%u] [%x] [%X] [%c] [%s] [%%]\n", -5, 6, 7u, 0xbeefu, 0xbeefu, 'c', "text");
    printf("[%d] [%d] [%u] [%x]\n", 2147483647, -2147483647 - 1, 4294967295u, 4294967295u);
    printf("[%d] [%u] [%x] [%s]\n", 0, 0u, 0u, "");
    printf("[%5d] [%-5d] [%05d] [%0d]\n", 42, 42, 42, 42);
    printf("[%5d] [%-5d] [%05d] [%2d] [%02d]\n", -42, -42, -42, -123, -123);
    printf("[%8x] [%-8x] [%08x] [%8X] [%12u] [%-12u] [%012u]\n", 0xabcu, 0xabcu, 0xabcu, 0xabcu, 99u, 99u, 99u);
    printf("[%3c] [%-3c] [%6s] [%-6s] [%2s] [%12s]\n", 'a', 'b', "abc", "abc", "abc", "");
    printf("[%1d] [%10d] [%-10d]\n", 1234567890, 1234567890, 1234567890);
    printf("\n");
    printf("no newline");
}

static void sizes(void)
{
    printf("[%ld] [%lu] [%lx] [%li]\n", -5l, 6ul, 0xabcul, 7l);
    printf("[%lld] [%llu] [%llx] [%llX] [%llo]\n", -1234567890123456789ll, 18446744073709551615ull,
           0x123456789abcdefull, 0xfedcba9876543210ull, 01777777777777777777777ull);
    printf("[%lld] [%lld] [%llu] [%20lld] [%-20lld]\n", -9223372036854775807ll - 1, 0ll, 4294967296ull, -1ll, 5ll);
    printf("[%hhd] [%hhu] [%hd] [%hu] [%hhx]\n", 300, 300, 70000, 70000, -1);
    printf("[%zu] [%zx] [%td]\n", sizeof(UINT), sizeof(UD), (char *)12 - (char *)5);
    printf("[%llu] [%llu]\n", 99999999999999999ull, 10000000000000000000ull);
}

static void precisions(void)
{
    printf("[%.3d] [%.0d] [%.0d] [%8.3d] [%-8.3d] [%08.3d] [%.3d]\n", 7, 0, 5, 7, 7, 7, -7);
    printf("[%.5x] [%.12llu] [%.1u] [%.d]\n", 0xabcu, 42ull, 123u, 0);
    printf("[%.2s] [%.*s] [%.0s] [%.9s] [%8.2s] [%-8.2s] [%.*s]\n", "text", 1, "text", "text", "text", "text", "text", -1,
           "text");
    printf("[%*d] [%-*d] [%*d] [%0*d] [%*.*d]\n", 5, 42, 5, 42, -5, 42, 5, 42, 6, 3, 42);
    printf("[%+d] [%+d] [% d] [% d] [%+ d] [%+5d] [%+05d] [%-+5d] [%+d]\n", 5, -5, 5, -5, 5, 5, 5, 5, 0);
    printf("[%#x] [%#X] [%#o] [%#x] [%#o] [%#8x] [%#08x] [%-#8x] [%#.3o] [%#.2o] [%o]\n", 0xabcu, 0xabcu, 8u, 0u, 0u,
           0xabcu, 0xabcu, 0xabcu, 8u, 8u, 8u);
    printf("[%p] [%14p] [%-14p]\n", (void *)0x1234abcd, (void *)0x1234abcd, (void *)16);
    printf("[%%] [%5c] [%-5c]\n", 'a', 'b');
}

static void texts(void)
{
    char text[8] = "???????";
    INT length = snprintf(text, sizeof text, "%d-%s", 42, "abcdefgh");
    printf("[%s] %d\n", text, length);
    length = snprintf(text, 0, "%d", 12345);
    printf("[%s] %d\n", text, length);
    length = snprintf(text, sizeof text, "%s", "");
    printf("[%s] %d\n", text, length);
}

static void counts(void)
{
    INT count = printf("\n%s %3d\n", "five", 12);
    printf("%d %d\n", count, printf("%s", ""));
}

static void memory(void)
{
    char bytes[12] = "0123456789";
    static UINT words[16];
    struct { UINT first[8]; } copy;
    assert(memmove(bytes + 2, bytes, 8) == bytes + 2 && memcmp(bytes, "0101234567", 11) == 0);
    assert(memmove(bytes, bytes + 1, 9) == bytes && memcmp(bytes, "1012345677", 11) == 0);
    assert(memcpy(bytes, "ab", 2) == bytes && memcmp(bytes, "ab12345677", 11) == 0);
    assert(memset(bytes, 'z', 3) == bytes && memcmp(bytes, "zzz2345677", 11) == 0);
    assert(memcmp("a\xff", "a\x01", 2) > 0 && memcmp("a", "b", 1) < 0 && memcmp("a", "b", 0) == 0);
    assert(strlen(bytes) == 10 && strlen("") == 0);
    memset(words, 0xff, sizeof words);
    memcpy(&copy, words, sizeof copy);
    assert(copy.first[7] == 0xffffffff);
    printf("memory\n");
}

void print(VP_INT unused)
{
    (void)unused;
    conversions();
    printf("\n");
    sizes();
    precisions();
    texts();
    counts();
    memory();
    ext_ker();
}
