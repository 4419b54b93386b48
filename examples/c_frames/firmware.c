/* Frames that come over a line, a byte at each interrupt: a length from 1 to 15, as many bytes, and their sum modulo 256.
 * The bytes are those of `input`, into which `board --data` puts a file: good.data and cut.data say which. */
#include "board.h"
#include "ids.h"

#define MOST 64
#define LONGEST 15

/* What the line brings: how many bytes there are, and the bytes. */
volatile UB input[1 + MOST];

static volatile UB received;            /* the byte that came last */
static INT taken;                       /* how many bytes came */

/* The handler of the line: one more byte is there. */
void arrive(INHNO line)
{
    assert(line == LINE);
    if (taken < input[0]) {
        received = input[1 + taken++];
        isig_sem(ARRIVED);
    }
}

static UB next_byte(void)
{
    ER answer = wai_sem(ARRIVED);
    assert(answer == E_OK);
    return received;
}

/* Reads a frame, and says what is in it; FALSE at the empty one, which is the last. */
static BOOL read_frame(void)
{
    char text[LONGEST + 1];
    INT length = next_byte();
    UB sum = 0;
    if (length > LONGEST) {
        printf("a frame of %d bytes is too long\n", length);
        return FALSE;
    }
    for (INT i = 0; i < length; i++) {
        UB byte = next_byte();
        text[i] = (char)byte;
        sum += byte;
    }
    text[length] = '\0';
    if (length > 0)
        printf("%s: %s\n", next_byte() == sum ? "right" : "wrong", text);
    return length > 0;
}

void read_frames(VP_INT unused)
{
    while (read_frame())
        ;
    ext_ker();
    (void)unused;
}
