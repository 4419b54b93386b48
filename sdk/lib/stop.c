/* What is done if an assertion doesn't hold, a stack has no room, or a format is wrong. */
#include "format.h"

/* Why the program was stopped, and by whom. It is kept in RAM, since a handler can't write to the console, and a full
 * console takes nothing; sdk/test and its relatives read it there. Who comes first keeps it. */
struct stopped {
    volatile UINT taken;
    const char *why;                    /* what is wrong */
    const void *place;                  /* the function without room, or who called printf */
    ID task;                            /* 0: a handler */
    ID processor;
    const void *stack;                  /* the lowest address of its stack */
};

struct stopped board_stopped;

/* sdk/lib/lost.py reads in a trace what is added here, and by whom: to `board_lost_by` the place of who wrote. */
volatile UINT lost_output;
volatile UINT board_lost_by;

void board_lose(const void *caller, UINT count)
{
    if (caller != NULL)
        atomic_add(&board_lost_by, (UINT)caller);
    atomic_add(&lost_output, count);
}

/* Whether a task calls, which then has given up the CPU lock and the spin lock that it held: under them nothing can be
 * written. */
static BOOL is_task(ID *task, ID *processor)
{
    ID running;
    ID lock = 1;
    if (iget_tid(&running) == E_OK)
        return FALSE;
    if (unl_cpu() != E_OK)
        while (lock <= 255 && unl_spn(lock) != E_OK)
            lock++;
    dis_dsp();
    return get_tid(task) == E_OK && get_pid(processor) == E_OK;
}

__attribute__((format(printf, 1, 2))) static void say(const char *format, ...)
{
    struct sink console = { board_put, 0, E_OK, NULL, 0, NULL };
    va_list arguments;
    va_start(arguments, format);
    board_format(&console, format, &arguments);
    va_end(arguments);
}

/* $k0, where start.S keeps the lowest address of the stack. */
static const void *stack_of_caller(void)
{
    const void *stack;
    __asm__ volatile("move %0, $26" : "=r"(stack));
    return stack;
}

/* A handler can neither write nor turn the board off: an exception stops its processor for good. */
static void stop(const struct stopped *why) __attribute__((noreturn));
static void stop(const struct stopped *why)
{
    ID task = 0;
    ID processor = 0;
    if (compare_and_swap(&board_stopped.taken, 0, 1)) {
        board_stopped.why = why->why;
        board_stopped.place = why->place;
        board_stopped.stack = why->stack;
    }
    if (!is_task(&task, &processor))
        board_trap();
    if (board_stopped.why == why->why) {
        board_stopped.task = task;
        board_stopped.processor = processor;
    }
    say("%s %08x (task %d, processor %d)\n", why->why, (UINT)why->place, task, processor);
    ext_ker();
    board_trap();
}

/* An exception at once, so that neither a search nor another processor goes on with steps of a report. sdk/test and its
 * relatives find the registers as they are here, and print what they say. */
__attribute__((no_instrument_function)) void board_stop(const char *file, INT line, const char *condition)
{
    register const char *a0 __asm__("$4") = file;
    register INT a1 __asm__("$5") = line;
    register const char *a2 __asm__("$6") = condition;
    __asm__ volatile("break" : : "r"(a0), "r"(a1), "r"(a2) : "memory");
    __builtin_unreachable();
}

/* Called by stack.S, on another stack. */
void board_overflow(const void *function, const void *stack) __attribute__((noreturn));
void board_overflow(const void *function, const void *stack)
{
    struct stopped why = { 1, "the stack has no room for the function at", function, 0, 0, stack };
    stop(&why);
}

void board_no_conversion(char letter, const void *caller)
{
    static char text[] = "the kit's printf has no conversion % , called before";
    struct stopped why = { 1, text, caller, 0, 0, stack_of_caller() };
    for (INT i = 0; text[i] != '\0'; i++)
        if (text[i] == '%')
            text[i + 1] = letter;
    stop(&why);
}
