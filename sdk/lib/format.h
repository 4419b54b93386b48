/* Formats and what writes them, within the kit. */
#ifndef BOARD_FORMAT_H
#define BOARD_FORMAT_H

#include <stdarg.h>
#include "board.h"

/* Where bytes go: `put` takes one, and answers E_OK or why it doesn't. */
struct sink {
    ER (*put)(struct sink *sink, char byte);
    INT count;                          /* how many bytes were taken */
    ER error;                           /* why no more are, or E_OK */
    char *text;                         /* for snprintf: where the next one goes, and how many there is room for */
    SIZE room;
    const void *caller;                 /* for the console: who writes */
};

/* Writes a format with its arguments. It answers the letter of a conversion that isn't there, at which it stops, else
 * 0. */
char board_format(struct sink *sink, const char *format, va_list *arguments);

/* A sink's `put`: the console. */
ER board_put(struct sink *sink, char byte);

/* Ends the board since `format` has a conversion that isn't there; `caller` is where it was to be written. */
void board_no_conversion(char letter, const void *caller) __attribute__((noreturn));

/* So many characters are lost, since the console has refused one. Who wrote them is kept before that, if it is known, so
 * it can be seen as soon as `lost_output` isn't 0. */
void board_lose(const void *caller, UINT count);

/* In start.S: an exception, which stops a handler's processor for good. */
void board_trap(void) __attribute__((noreturn));

#endif
