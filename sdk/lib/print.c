/* printf and its relatives. They are weak: those of a library that the program is linked with come first. */
#include "format.h"

#undef printf
#undef vprintf
#undef snprintf
#undef vsnprintf
#define WEAK __attribute__((weak))

static INT print(const char *format, va_list *arguments, const void *caller)
{
    struct sink console = { board_put, 0, E_OK, NULL, 0, caller };
    char unknown = board_format(&console, format, arguments);
    if (unknown != 0)
        board_no_conversion(unknown, caller);
    return console.error == E_OK ? console.count : console.error;
}

WEAK int vprintf(const char *format, va_list arguments)
{
    va_list copy;
    va_copy(copy, arguments);
    INT written = print(format, &copy, __builtin_return_address(0));
    va_end(copy);
    return written;
}

WEAK int printf(const char *format, ...)
{
    va_list arguments;
    va_start(arguments, format);
    INT written = print(format, &arguments, __builtin_return_address(0));
    va_end(arguments);
    return written;
}

/* Bytes for which there is no room count all the same. */
static ER put_text(struct sink *sink, char byte)
{
    if (sink->room > 1) {
        *sink->text++ = byte;
        sink->room--;
    }
    return E_OK;
}

static INT print_text(char *text, SIZE size, const char *format, va_list *arguments, const void *caller)
{
    struct sink sink = { put_text, 0, E_OK, text, size, NULL };
    char unknown = board_format(&sink, format, arguments);
    if (unknown != 0)
        board_no_conversion(unknown, caller);
    if (size > 0)
        *sink.text = '\0';
    return sink.count;
}

WEAK int vsnprintf(char *text, SIZE size, const char *format, va_list arguments)
{
    va_list copy;
    va_copy(copy, arguments);
    INT length = print_text(text, size, format, &copy, __builtin_return_address(0));
    va_end(copy);
    return length;
}

WEAK int snprintf(char *text, SIZE size, const char *format, ...)
{
    va_list arguments;
    va_start(arguments, format);
    INT length = print_text(text, size, format, &arguments, __builtin_return_address(0));
    va_end(arguments);
    return length;
}
