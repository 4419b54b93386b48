/* A scale on two processors. Processor 1 reads a sensor, processor 2 shows what it read, and a button stops it all. */
#include "board.h"
#include "ids.h"

static const UINT samples[] = { 412, 98, 1530, 7, 60000 };

/* What the handlers of both processors write: how many interrupts there were, and the sum of their lines. The two belong
 * together, so a lock guards them. */
static struct {
    SPIN_LOCK lock;
    UINT count;
    UINT lines;
} interrupts;

static void count_interrupt(INHNO line)
{
    spin_lock(&interrupts.lock);
    interrupts.count += 1;
    interrupts.lines += line;
    spin_unlock(&interrupts.lock);
}

/* The handler of the sensor's line, on processor 1. */
void sensor(INHNO line)
{
    count_interrupt(line);
    isig_sem(SAMPLES);
}

/* The handler of the button's line, on processor 2. */
void button(INHNO line)
{
    count_interrupt(line);
    iset_flg(STATE, STOPPED);
}

/* On processor 1: sends a reading for each sample. */
void measure(VP_INT first)
{
    for (UINT i = (UINT)first; i < sizeof samples / sizeof samples[0]; i++) {
        ER answer = wai_sem(SAMPLES);
        assert(answer == E_OK);
        answer = snd_dtq(READINGS, (VP_INT)(samples[i] * 5 / 2));
        assert(answer == E_OK);
    }
}

/* On processor 2: shows readings, and ends once none came for some ticks and the button was pressed. */
void show(VP_INT patience)
{
    FLGPTN state;
    VP_INT reading;
    INT number = 0;
    ER answer;
    do {
        answer = trcv_dtq(READINGS, &reading, patience);
        if (answer == E_OK)
            printf("%2d. %6d g\n", ++number, reading);
        else
            printf("nothing for %d ticks\n", patience);
    } while (answer == E_OK || pol_flg(STATE, STOPPED, TWF_ORW, &state) != E_OK);
    set_flg(STATE, SHOWN);
}

/* On processor 1: waits for the end, and turns the board off. */
void finish(VP_INT unused)
{
    FLGPTN state;
    (void)unused;
    ER answer = wai_flg(STATE, STOPPED | SHOWN, TWF_ANDW, &state);
    assert(answer == E_OK);
    printf("state %02x, %u interrupts of lines with the sum %u\n", state, interrupts.count, interrupts.lines);
    ext_ker();
}
