#include "board.h"
#include "ids.h"

/* The handler of the line: a button was pressed. */
void press(INHNO line)
{
    assert(line == BUTTON);
    isig_sem(PRESSED);
}

/* The task: greets as often as its argument in firmware.cfg says, once for each press, and turns the board off. */
void greet(VP_INT times)
{
    for (INT i = 1; i <= times; i++) {
        ER answer = wai_sem(PRESSED);
        assert(answer == E_OK);
        printf("Hello, number %d of %d\n", i, times);
    }
    ext_ker();
}
