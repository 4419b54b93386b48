/* A boiler. Processor 1 measures temperatures and sends them, each in a block of a memory pool; processor 2 shows them,
 * the urgent ones first. */
#include "board.h"
#include "ids.h"

#define LIMIT 100

struct reading {
    T_MSG_PRI head;                     /* what each message begins with: 1 is the most urgent */
    INT degrees;
    INT number;
};
_Static_assert(sizeof(struct reading) <= BLOCK_SIZE, "a reading doesn't fit into a block");

static const INT measured[] = { 71, 74, 130, 76, 128, 73 };

/* Sends each reading, and in the end one without a number. Who takes a block has it alone until it is sent. */
void measure(VP_INT unused)
{
    const INT count = sizeof measured / sizeof measured[0];
    (void)unused;
    for (INT i = 0; i <= count; i++) {
        VP block;
        ER answer = get_mpf(BLOCKS, &block);
        assert(answer == E_OK);
        struct reading *reading = block;
        reading->number = i < count ? i + 1 : 0;
        reading->degrees = i < count ? measured[i] : 0;
        reading->head.msgpri = reading->degrees > LIMIT ? 1 : PRIORITIES;
        answer = snd_mbx(MESSAGES, &reading->head.msgque);
        assert(answer == E_OK);
    }
}

/* Shows what comes, and gives each block back. */
void show(VP_INT unused)
{
    (void)unused;
    for (;;) {
        T_MSG *message;
        ER answer = rcv_mbx(MESSAGES, &message);
        assert(answer == E_OK);
        struct reading reading = *(struct reading *)message;
        answer = rel_mpf(BLOCKS, message);
        assert(answer == E_OK);
        if (reading.number == 0)
            break;
        loc_mtx(CONSOLE);
        printf("%d. %d degrees%s\n", reading.number, reading.degrees, reading.degrees > LIMIT ? ": too hot" : "");
        unl_mtx(CONSOLE);
    }
    ext_ker();
}

/* Writes now and then how many blocks are there. It is the least urgent task, but while `show` waits for the console, it
 * is as urgent as `show`. */
void watch(VP_INT times)
{
    for (INT i = 0; i < times; i++) {
        T_RMPF pool;
        ER answer = ref_mpf(BLOCKS, &pool);
        assert(answer == E_OK);
        loc_mtx(CONSOLE);
        printf("(%d blocks are there)\n", pool.fblkcnt);
        unl_mtx(CONSOLE);
        dly_tsk(1);
    }
}
