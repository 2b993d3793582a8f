/* A plain C baseline of the program texts.
   Build: gcc -O2 -Wall -Wextra -o texts texts.c
   Use:   texts < file    prints what texts prints: what each line of the file reads as */

#include <stdlib.h>
#include <unistd.h>

#include "texts.h"

/* Output waits here. There is room for the longest line before each: seven lists of eight numbers, and a burst. */
enum { LONGEST = 1024 };
static char out[1 << 16];
static char *put_at = out;

static void flush(void)
{
    const char *p = out;

    while (p < put_at) {
        ssize_t n = write(1, p, (size_t)(put_at - p));
        if (n <= 0)
            exit(1);
        p += n;
    }
    put_at = out;
}

static void put(const char *s)
{
    while (*s)
        *put_at++ = *s++;
}

static void put_number(uint32_t n)
{
    char digits[10], *d = digits + sizeof digits;

    do
        *--d = (char)('0' + n % 10);
    while (n /= 10);
    while (d < digits + sizeof digits)
        *put_at++ = *d++;
}

static void put_pair(const char *word, uint32_t a, uint32_t b)
{
    put(word);
    put_number(a);
    put(" ");
    put_number(b);
}

static void put_list(const struct value *v)
{
    const char *before = " [";
    size_t i;

    if (v->count > KEPT) {
        put(" [long]");
        return;
    }
    for (i = 0; i < v->count; i++) {
        put(before);
        put_number(v->numbers[i]);
        before = ",";
    }
    put("]");
}

static void put_tariff(const struct signal *em, const struct signal *phsm)
{
    unsigned i;

    if (em->given) {
        uint32_t pri = item_number(em, 0, 0), pc = item_number(em, 1, 0);

        if (!em->keep) {
            put_pair("em ", pc, pri);
        } else if (pc > 0) {
            put("keep");
        } else {
            put("rate ");
            put_number(pri);
        }
    } else if (!phsm->given) {
        put("none");
    } else if (phsm->keep) {
        put("keep");
    } else {
        put("ph");
        for (i = 0; i < kinds[AMET_PHSM].items; i++)
            put_list(&phsm->values[i]);
    }
}

static void put_burst(const struct signal *mpb)
{
    if (!mpb->given)
        put(" none");
    else if (mpb->keep)
        put(" keep");
    else
        put_pair(" burst ", item_number(mpb, 0, 1), item_number(mpb, 1, 1));
}

/* Reads the text from `at` to `end`, where a line feed stands, and puts what it reads as. */
static void answer(const char *at, const char *end)
{
    static struct text t;
    uint32_t refused = read_text(&t, at, end);

    if (refused > 0) {
        put_number(refused);
    } else {
        put_tariff(&t.signals[AMET_EM], &t.signals[AMET_PHSM]);
        put_burst(&t.signals[AMET_MPB]);
    }
}

static void put_line(const char *at, const char *end, bool whole)
{
    if (put_at > out + sizeof out - LONGEST)
        flush();
    if (whole)
        answer(at, end);
    else
        put("too long");
    put("\n");
}

/* A line that fills the buffer before its line feed has come is too long, and dropped. The last byte is for the line
   feed of a last line that has none. */
static char in[(1 << 16) + 1];

int main(void)
{
    size_t held = 0;
    bool whole = true;
    ssize_t got;

    while ((got = read(0, in + held, sizeof in - 1 - held)) > 0) {
        char *at = in, *end = in + held + got, *feed;

        while ((feed = memchr(at, '\n', (size_t)(end - at)))) {
            put_line(at, feed, whole);
            whole = true;
            at = feed + 1;
        }
        flush();
        held = (size_t)(end - at);
        memmove(in, at, held);
        if (held == sizeof in - 1) {
            whole = false;
            held = 0;
        }
    }
    if (held > 0 || !whole) {
        in[held] = '\n';
        put_line(in, in + held, whole);
        flush();
    }
    return 0;
}
