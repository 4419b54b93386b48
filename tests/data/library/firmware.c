/* The C library: floating point, texts, files, errno, and a malloc that tasks of two processors and a handler share.
 * What has to be on the console was worked out by hand. */
#include "board.h"
#include "ids.h"
#include <ctype.h>
#include <errno.h>
#include <math.h>
#include <setjmp.h>
#include <stdlib.h>

#define PIECES 12
#define TIMES 60

static jmp_buf place;
static volatile UINT handled;

/* Takes a piece in the handler, where nothing else may be called. */
void touch(INHNO line)
{
    unsigned char *bytes = malloc(24);
    assert(bytes != NULL);
    memset(bytes, (int)line, 24);
    for (INT i = 0; i < 24; i++)
        assert(bytes[i] == line);
    free(bytes);
    handled += 1;
}

/* Takes pieces of many sizes, fills each, and sees that nobody else has written into it. */
static void allocate(unsigned mark)
{
    static const size_t sizes[] = { 1, 8, 24, 100, 33, 400, 7, 64 };
    unsigned char *pieces[PIECES] = { NULL };
    size_t lengths[PIECES] = { 0 };
    for (unsigned i = 0; i < TIMES; i++) {
        unsigned at = i * 7 % PIECES;
        for (size_t k = 0; k < lengths[at]; k++)
            assert(pieces[at][k] == (unsigned char)(mark + at));
        lengths[at] = sizes[(i + mark) % 8];
        pieces[at] = realloc(pieces[at], lengths[at]);
        assert(pieces[at] != NULL);
        memset(pieces[at], (int)(mark + at), lengths[at]);
    }
    for (unsigned at = 0; at < PIECES; at++)
        free(pieces[at]);
}

void other(VP_INT mark)
{
    allocate((unsigned)mark);
    errno = 77;
    sig_sem(DONE);
}

static void numbers(void)
{
    volatile double third = 1.0 / 3.0;
    volatile float half = 0.5f;
    volatile long long big = 1000000000000000000LL;
    printf("%.4f %.3e %g %g\n", third, third * 1e10, (double)half, sqrt(2.25));
    printf("%lld %lld %llu\n", big / 7, big % 7, 18446744073709551615ull / (unsigned long long)(big / 10));
    printf("%.3f %.3f %d\n", strtod("2.5e3", NULL), atan2(0.0, -1.0), (int)(third * 100));
}

static void texts(void)
{
    char text[40];
    int number = 0;
    strcpy(text, "board ");
    strcat(text, "of MIPS32");
    printf("%s %zu %s %d\n", text, strlen(text), strstr(text, "MIPS"), toupper('a'));
    sscanf("id 42", "id %d", &number);
    printf("%d %d %d\n", number, atoi("-17"), abs(-3));
}

static void files(void)
{
    char line[20] = "";
    FILE *file = fopen("notes", "w");
    assert(file != NULL && fprintf(file, "first %d\nsecond\n", 1) == 15 && fclose(file) == 0);
    file = fopen("notes", "a+");
    assert(file != NULL && fputs("third\n", file) >= 0 && fseek(file, 8, SEEK_SET) == 0);
    assert(fgets(line, sizeof line, file) == line && fclose(file) == 0);
    printf("%s", line);
    printf("%d %d\n", remove("notes"), fopen("notes", "r") == NULL && errno == ENOENT);
}

static int compare(const void *one, const void *two)
{
    return *(const int *)one - *(const int *)two;
}

void all(VP_INT mark)
{
    int order[] = { 5, 3, 9, 1 };
    errno = 5;
    allocate((unsigned)mark);
    wai_sem(DONE);
    printf("errno %d\n", errno);
    numbers();
    texts();
    files();
    qsort(order, 4, sizeof order[0], compare);
    printf("%d %d %d %d\n", order[0], order[1], order[2], order[3]);
    if (setjmp(place) == 0)
        longjmp(place, 1);
    printf("no room: %d\n", malloc(0x1000000) == NULL);
    printf("handled %u\n", handled);
    exit(0);
}
