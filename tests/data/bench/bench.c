/* A benchmark of what programs in C do: checksums, sorting, searching in a text, matrices, lists, calls, numbers as text.
 * Each round does the same amount of each, on data of its own. In the end a task writes its checksum; the last one turns
 * the board off. bench.elf is this file as GCC 12 makes it at -O2 (`make keep`), and program.py makes configurations. */
#include "board.h"
#include "ids.h"

#define BYTES 256
#define KEYS 64
#define ROWS 8
#define NODES 32
#define PROCESSORS 4

struct node {
    struct node *next;
    UW key;
};

/* All that the rounds of a processor work on. */
struct work {
    UW seed, sum;
    UW table[256];
    UB bytes[BYTES];
    W keys[KEYS];
    UH left[ROWS][ROWS], right[ROWS][ROWS];
    UW product[ROWS][ROWS];
    struct node nodes[NODES];
    struct node *first;
    char text[16];
};

/* On pages without code: QEMU translates anew what lies on a page that is written. */
struct work works[PROCESSORS] __attribute__((aligned(4096)));
static volatile UINT ended;

static UW drawn(struct work *it)
{
    it->seed = it->seed * 1664525 + 1013904223;
    return it->seed >> 8;
}

/* CRC-32, by a table that it makes first. */
static void make_table(UW *table)
{
    for (UW byte = 0; byte < 256; byte++) {
        UW sum = byte;
        for (INT bit = 0; bit < 8; bit++)
            sum = sum >> 1 ^ (sum & 1 ? 0xedb88320 : 0);
        table[byte] = sum;
    }
}

static UW crc(const UW *table, UW sum, const void *bytes, SIZE count)
{
    const UB *at = bytes;
    sum = ~sum;
    while (count-- > 0)
        sum = sum >> 8 ^ table[(sum ^ *at++) & 255];
    return ~sum;
}

static void fill(struct work *it)
{
    for (INT i = 0; i < BYTES; i++)
        it->bytes[i] = 'a' + drawn(it) % 3;
    for (INT i = 0; i < KEYS; i++)
        it->keys[i] = (W)(drawn(it) << 8);
    for (INT i = 0; i < ROWS * ROWS; i++) {
        it->left[i / ROWS][i % ROWS] = drawn(it);
        it->right[i % ROWS][i / ROWS] = drawn(it);
    }
}

/* Quicksort, with an insertion of each where few are left. */
static void sort(W *first, W *last)
{
    while (last - first > 6) {
        W middle = first[(last - first) / 2];
        W *low = first, *high = last;
        while (low <= high) {
            while (*low < middle)
                low++;
            while (*high > middle)
                high--;
            if (low <= high) {
                W key = *low;
                *low++ = *high;
                *high-- = key;
            }
        }
        sort(first, high);
        first = low;
    }
    for (W *next = first + 1; next <= last; next++) {
        W key = *next, *to = next;
        for (; to > first && to[-1] > key; to--)
            *to = to[-1];
        *to = key;
    }
}

/* How often a word is in a text, by a table of how far to go on (Horspool). */
static UW found(const UB *text, SIZE size, const char *word)
{
    UB step[32];
    UW count = 0;
    SIZE length = strlen(word);
    memset(step, length, sizeof step);
    for (SIZE i = 0; i + 1 < length; i++)
        step[word[i] % 32] = length - 1 - i;
    for (SIZE at = 0; at + length <= size; at += step[text[at + length - 1] % 32]) {
        SIZE i = length;
        while (i > 0 && text[at + i - 1] == (UB)word[i - 1])
            i--;
        count += i == 0;
    }
    return count;
}

static void multiply(struct work *it)
{
    for (INT row = 0; row < ROWS; row++)
        for (INT column = 0; column < ROWS; column++) {
            UW sum = 0;
            for (INT i = 0; i < ROWS; i++)
                sum += (UW)it->left[row][i] * it->right[i][column];
            it->product[row][column] = sum;
        }
}

/* A list in order, into which each node is put, and which is turned round then. */
static UW list(struct work *it)
{
    UW sum = 0;
    it->first = NULL;
    for (INT i = 0; i < NODES; i++) {
        struct node *node = &it->nodes[i], **place = &it->first;
        node->key = drawn(it) & 0xffff;
        while (*place != NULL && (*place)->key < node->key)
            place = &(*place)->next;
        node->next = *place;
        *place = node;
    }
    struct node *turned = NULL;
    while (it->first != NULL) {
        struct node *node = it->first;
        it->first = node->next;
        node->next = turned;
        turned = node;
    }
    for (; turned != NULL; turned = turned->next)
        sum = sum * 31 + turned->key;
    return sum;
}

/* Calls of functions by themselves, and by their addresses. */
static __attribute__((noinline)) UW ways(UW right, UW down)
{
    return right == 0 || down == 0 ? 1 : ways(right - 1, down) + ways(right, down - 1);
}

static UW doubled(UW it) { return it << 1 | it >> 31; }
static UW mixed(UW it) { return it ^ it >> 15; }
static UW moved(UW it) { return it + 0x9e3779b9; }

static UW called(UW it)
{
    static UW (*const functions[])(UW) = { doubled, mixed, moved, mixed };
    for (INT i = 0; i < 40; i++)
        it = functions[(it >> 3 ^ i) & 3](it);
    return it;
}

static SIZE written(char *to, UW number)
{
    char digits[12];
    SIZE count = 0, size;
    do
        digits[count++] = '0' + number % 10;
    while ((number /= 10) != 0);
    size = count;
    while (count > 0)
        *to++ = digits[--count];
    return size;
}

static __attribute__((noinline)) void round_of(struct work *it)
{
    fill(it);
    UW sum = crc(it->table, it->sum, it->bytes, sizeof it->bytes);
    sort(it->keys, it->keys + KEYS - 1);
    sum = sum * 31 + (UW)it->keys[KEYS / 2];
    sum = sum * 31 + found(it->bytes, BYTES, "abca") + found(it->bytes, BYTES, "cabbac");
    multiply(it);
    for (INT i = 0; i < ROWS; i++)
        sum = sum * 31 + it->product[i][ROWS - 1 - i];
    sum = sum * 31 + list(it);
    sum = called(sum) + ways(6, 3);
    for (INT i = 0; i < 8; i++)
        sum = crc(it->table, sum, it->text, written(it->text, sum));
    it->sum = sum;
}

/* So many rounds, and their checksum. */
UW rounds_of(struct work *it, UW count)
{
    memset(it, 0, sizeof *it);
    it->seed = 1;
    make_table(it->table);
    while (count-- > 0)
        round_of(it);
    return it->sum;
}

void bench(VP_INT argument)
{
    UINT processors = (UINT)argument >> 24;
    UINT rounds = (UINT)argument & 0xffffff;
    ID processor = 0;
    get_pid(&processor);
    UW sum = rounds_of(&works[processor - 1], rounds);
    wai_sem(PRINTER);
    printf("%u rounds: %08x\n", rounds, (UINT)sum);
    sig_sem(PRINTER);
    if (atomic_add(&ended, 1) + 1 == processors)
        ext_ker();
}
