/* What printf and its relatives share: a format with its arguments becomes bytes, one after the other. */
#include "format.h"

/* How a number or a text is written. */
struct form {
    BOOL left;
    BOOL zeros;
    BOOL alternative;
    char sign;                          /* before a number that isn't negative: '+', ' ' or 0 */
    INT width;
    INT precision;                      /* NONE where there is none */
    INT bits;                           /* of the argument: 8, 16, 32 or 64 */
    char letter;
};

#define NONE (-1)
#define MOST_DIGITS 22                  /* of 64 bits in octal */

/* After an error nothing more is written, so it is lost. */
static void put(struct sink *sink, char byte)
{
    if (sink->error != E_OK)
        board_lose(NULL, 1);
    else if ((sink->error = sink->put(sink, byte)) == E_OK)
        sink->count++;
}

static void put_times(struct sink *sink, char byte, INT count)
{
    while (count-- > 0)
        put(sink, byte);
}

static void put_bytes(struct sink *sink, const char *bytes, INT count)
{
    while (count-- > 0)
        put(sink, *bytes++);
}

static INT length_of(const char *text, INT most)
{
    INT length = 0;
    while (length != most && text[length] != '\0')
        length++;
    return length;
}

/* The quotient, and what is left over, by 16 bits at a time. GCC would call functions of libgcc for 64 bits. */
static UINT divide(UD *number, UINT base)
{
    UINT high = (UINT)(*number >> 32);
    UINT low = (UINT)*number;
    UINT part = high % base << 16 | low >> 16;
    UINT rest = part % base << 16 | (low & 0xffff);
    *number = (UD)(high / base) << 32 | ((part / base << 16) + rest / base);
    return rest % base;
}

static void put_text(struct sink *sink, const struct form *form, const char *bytes, INT count)
{
    INT rest = form->width - count;
    put_times(sink, ' ', form->left ? 0 : rest);
    put_bytes(sink, bytes, count);
    put_times(sink, ' ', form->left ? rest : 0);
}

/* A sign or `0x`, zeros up to the precision or the width, and digits. */
static void put_number(struct sink *sink, const struct form *form, const char *sign, const char *digits, INT count)
{
    INT signs = length_of(sign, NONE);
    INT zeros = form->precision > count ? form->precision - count : 0;
    INT rest = form->width - signs - zeros - count;
    if (form->zeros && !form->left && form->precision == NONE && rest > 0) {
        zeros += rest;
        rest = 0;
    }
    put_times(sink, ' ', form->left ? 0 : rest);
    put_bytes(sink, sign, signs);
    put_times(sink, '0', zeros);
    put_bytes(sink, digits, count);
    put_times(sink, ' ', form->left ? rest : 0);
}

static void put_unsigned(struct sink *sink, struct form form, const char *sign, UD number)
{
    UINT base = form.letter == 'o' ? 8 : form.letter == 'x' || form.letter == 'X' ? 16 : 10;
    const char *digits = form.letter == 'X' ? "0123456789ABCDEF" : "0123456789abcdef";
    char bytes[MOST_DIGITS];
    INT first = MOST_DIGITS;
    BOOL is_zero = number == 0;
    while (number != 0)
        bytes[--first] = digits[divide(&number, base)];
    if (is_zero && form.precision != 0)
        bytes[--first] = '0';
    if (form.alternative && base == 16 && !is_zero)
        sign = form.letter == 'x' ? "0x" : "0X";
    if (form.alternative && base == 8 && (first == MOST_DIGITS || bytes[first] != '0') &&
        form.precision <= MOST_DIGITS - first)
        form.precision = MOST_DIGITS - first + 1;
    put_number(sink, &form, sign, bytes + first, MOST_DIGITS - first);
}

static void put_signed(struct sink *sink, const struct form *form, D number)
{
    char sign[2] = { number < 0 ? '-' : form->sign, '\0' };
    put_unsigned(sink, *form, sign, number < 0 ? 0u - (UD)number : (UD)number);
}

static D signed_argument(const struct form *form, va_list *arguments)
{
    if (form->bits == 64)
        return va_arg(*arguments, D);
    INT number = va_arg(*arguments, INT);
    return form->bits == 8 ? (B)number : form->bits == 16 ? (H)number : number;
}

static UD unsigned_argument(const struct form *form, va_list *arguments)
{
    if (form->bits == 64)
        return va_arg(*arguments, UD);
    UINT number = va_arg(*arguments, UINT);
    return form->bits == 8 ? (UB)number : form->bits == 16 ? (UH)number : number;
}

/* One argument, by the letter of its conversion: FALSE where there is no such conversion. */
static BOOL put_argument(struct sink *sink, struct form *form, va_list *arguments)
{
    const char *text;
    char byte;
    switch (form->letter) {
    case 'd':
    case 'i':
        put_signed(sink, form, signed_argument(form, arguments));
        return TRUE;
    case 'p':
        form->letter = 'x';
        form->alternative = TRUE;
        put_unsigned(sink, *form, "", va_arg(*arguments, UINT));
        return TRUE;
    case 'u':
    case 'x':
    case 'X':
    case 'o':
        put_unsigned(sink, *form, "", unsigned_argument(form, arguments));
        return TRUE;
    case 'c':
        byte = (char)va_arg(*arguments, INT);
        put_text(sink, form, &byte, 1);
        return TRUE;
    case 's':
        text = va_arg(*arguments, const char *);
        if (text == NULL)
            text = "(null)";
        put_text(sink, form, text, length_of(text, form->precision));
        return TRUE;
    case '%':
        put(sink, '%');
        return TRUE;
    default:
        return FALSE;
    }
}

static const char *read_flags(const char *format, struct form *form)
{
    for (;; format++) {
        switch (*format) {
        case '-': form->left = TRUE; break;
        case '0': form->zeros = TRUE; break;
        case '#': form->alternative = TRUE; break;
        case '+': form->sign = '+'; break;
        case ' ': form->sign = form->sign == '+' ? '+' : ' '; break;
        default: return format;
        }
    }
}

static const char *read_count(const char *format, INT *count, va_list *arguments)
{
    if (*format == '*') {
        *count = va_arg(*arguments, INT);
        return format + 1;
    }
    for (*count = 0; *format >= '0' && *format <= '9'; format++)
        *count = 10 * *count + (*format - '0');
    return format;
}

/* The letters before the conversion: how large its argument is. */
static const char *read_size(const char *format, struct form *form)
{
    for (;; format++) {
        switch (*format) {
        case 'h': form->bits = form->bits == 16 ? 8 : 16; break;
        case 'l': form->bits = form->bits == 33 ? 64 : 33; break;
        case 'j': form->bits = 64; break;
        case 'z':
        case 't': break;
        default: return format;
        }
    }
}

/* A conversion up to its letter. */
static const char *read_form(const char *format, struct form *form, va_list *arguments)
{
    *form = (struct form){ FALSE, FALSE, FALSE, 0, 0, NONE, 32, 0 };
    format = read_flags(format, form);
    format = read_count(format, &form->width, arguments);
    if (form->width < 0) {
        form->left = TRUE;
        form->width = -form->width;
    }
    if (*format == '.') {
        format = read_count(format + 1, &form->precision, arguments);
        if (form->precision < 0)
            form->precision = NONE;
    }
    format = read_size(format, form);
    form->letter = *format;
    return format;
}

char board_format(struct sink *sink, const char *format, va_list *arguments)
{
    while (*format != '\0') {
        struct form form;
        if (*format != '%') {
            put(sink, *format++);
            continue;
        }
        format = read_form(format + 1, &form, arguments);
        if (!put_argument(sink, &form, arguments))
            return form.letter == '\0' ? '%' : form.letter;
        format++;
    }
    return 0;
}

ER board_put(struct sink *sink, char byte)
{
    ER answer = try_put_chr(byte);
    if (answer != E_OK)
        board_lose(sink->caller, 1);
    return answer;
}
