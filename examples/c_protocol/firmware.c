/* What a GPS receiver sends (NMEA 0183): sentences as `$GPGGA,..*75`, whose two digits are the exclusive or of all bytes
 * between `$` and `*`. A task on processor 1 takes the place of a serial line: it sends the bytes of positions.nmea, one
 * after the other. A task on processor 2 reads them, and writes the time and the place of each fix. */
#include "board.h"
#include "ids.h"

#define LONGEST 82                      /* bytes of a sentence, by the standard */
#define FIELDS 8
#define END (-1)

/* The bytes of positions.nmea, which the linker puts there (DATA in the Makefile). */
extern const char _binary_positions_nmea_start[];
extern const char _binary_positions_nmea_end[];

void receive(VP_INT unused)
{
    for (const char *at = _binary_positions_nmea_start; at < _binary_positions_nmea_end; at++) {
        ER answer = snd_dtq(BYTES, (UB)*at);
        assert(answer == E_OK);
    }
    ER answer = snd_dtq(BYTES, END);
    assert(answer == E_OK);
    (void)unused;
}

static INT next_byte(void)
{
    VP_INT byte = END;
    ER answer = rcv_dtq(BYTES, &byte);
    assert(answer == E_OK);
    return byte;
}

/* What stands from `$` to the end of the line; FALSE if the bytes end before. What is too long is cut. */
static BOOL read_sentence(char *text)
{
    INT byte;
    SIZE length = 0;
    do
        byte = next_byte();
    while (byte != '$' && byte != END);
    while ((byte = next_byte()) != '\r' && byte != END)
        if (length < LONGEST)
            text[length++] = (char)byte;
    text[length] = '\0';
    return byte != END;
}

static INT digit(char it)
{
    return it >= '0' && it <= '9' ? it - '0' : it >= 'A' && it <= 'F' ? it - 'A' + 10 : -1;
}

/* Whether the sum stands behind `*`, and nothing behind it. */
static BOOL has_its_sum(const char *text)
{
    INT sum = 0;
    while (*text != '*' && *text != '\0')
        sum ^= *text++;
    return *text == '*' && digit(text[1]) == sum >> 4 && digit(text[2]) == (sum & 15) && text[3] == '\0';
}

/* Where each of the fields begins, which commas end. */
static INT split(char *text, const char **fields)
{
    INT count = 1;
    fields[0] = text;
    for (; *text != '\0' && count < FIELDS; text++)
        if (*text == ',') {
            *text = '\0';
            fields[count++] = text + 1;
        }
    return count;
}

/* A fix: time, latitude, N or S, longitude, E or W, quality. */
static void show_fix(char *text)
{
    const char *fields[FIELDS];
    if (memcmp(text, "GPGGA,", 6) == 0 && split(text, fields) == FIELDS)
        printf("%.2s:%.2s:%.2s  %s %s  %s %s\n", fields[1], fields[1] + 2, fields[1] + 4, fields[2], fields[3], fields[4],
               fields[5]);
}

void read_sentences(VP_INT unused)
{
    char text[LONGEST + 1];
    INT right = 0;
    INT wrong = 0;
    while (read_sentence(text))
        if (has_its_sum(text)) {
            right++;
            show_fix(text);
        } else {
            wrong++;
        }
    printf("%d sentences, and %d with a wrong sum\n", right, wrong);
    ext_ker();
    (void)unused;
}
