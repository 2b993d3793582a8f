/* What the baselines of meter and of card share: the buffer of what they print, the reader of
   their lines, and the commands on one line. */

#include <stdio.h>
#include <stdlib.h>
#include <string.h>

#include "line.h"

/* Output waits here until it is nearly full. */
static char buffer[1 << 16];
static size_t used;

static void flush_text(void)
{
    if (fwrite(buffer, 1, used, stdout) != used || fflush(stdout) != 0)
        exit(1);
    used = 0;
}

/* Puts a text of at most 20 bytes. */
static void put_text(const char *s)
{
    if (used > sizeof buffer - 20)
        flush_text();
    while (*s)
        buffer[used++] = *s++;
}

static void put(const char *before, uint64_t n, const char *after)
{
    char digits[21], *d = digits + 20;

    *d = 0;
    do
        *--d = (char)('0' + n % 10);
    while (n /= 10);
    put_text(before);
    put_text(d);
    put_text(after);
}

/* A place in a script. A script that is not empty ends with a line feed. */
struct script {
    const char *at, *end;
};

static void next_line(struct script *in)
{
    if (in->at < in->end)
        in->at = (const char *)memchr(in->at, '\n', (size_t)(in->end - in->at)) + 1;
}

static void skip_blanks(struct script *in)
{
    while (*in->at == ' ')
        in->at++;
}

static bool line_ends(struct script *in)
{
    skip_blanks(in);
    return *in->at == '\n';
}

/* Takes this word if it is next. */
static bool word(struct script *in, const char *w)
{
    size_t n = strlen(w);

    skip_blanks(in);
    if (strncmp(in->at, w, n) != 0 || (in->at[n] != ' ' && in->at[n] != '\n'))
        return false;
    in->at += n;
    return true;
}

/* Takes a number if one is next, and otherwise the rest of the line. */
static bool number(struct script *in, uint32_t *v)
{
    const char *first;
    uint64_t n = 0;

    skip_blanks(in);
    for (first = in->at; *in->at >= '0' && *in->at <= '9' && n <= UINT32_MAX; in->at++)
        n = 10 * n + (uint64_t)(*in->at - '0');
    *v = (uint32_t)n;
    if (in->at > first && n <= UINT32_MAX && (*in->at == ' ' || *in->at == '\n'))
        return true;
    next_line(in);
    in->at--;
    return false;
}

static bool read_descriptor(struct script *in, struct descriptor *d)
{
    if (word(in, "none"))
        d->tariff = TARIFF_NONE;
    else if (word(in, "keep"))
        d->tariff = TARIFF_KEEP;
    else if (word(in, "rate") && number(in, &d->period))
        d->tariff = TARIFF_RATE;
    else if (word(in, "em") && number(in, &d->count) && number(in, &d->period))
        d->tariff = TARIFF_EM;
    else if (word(in, "ph") && number(in, &d->phase_count) && d->phase_count <= 9)
        d->tariff = TARIFF_PHASED;
    else
        return false;
    if (word(in, "none"))
        d->burst = BURST_NONE;
    else if (word(in, "keep"))
        d->burst = BURST_KEEP;
    else if (word(in, "burst") && number(in, &d->owed) && number(in, &d->interval))
        d->burst = BURST_START;
    else
        return false;
    return line_ends(in);
}

static bool read_phase(struct script *in, struct phase *p)
{
    return in->at < in->end && number(in, &p->pri) && number(in, &p->pcx)
        && number(in, &p->repx) && number(in, &p->pcn) && number(in, &p->repn)
        && number(in, &p->ci) && number(in, &p->pd) && line_ends(in);
}

/* A descriptor with its phase lines. */
static bool read_sig(struct script *in, struct descriptor *d)
{
    uint32_t sound = 0;

    if (!read_descriptor(in, d))
        return false;
    for (uint32_t i = 0; i < d->phase_count; i++) {
        next_line(in);
        sound += read_phase(in, &d->phases[i]);
    }
    return sound == d->phase_count;
}

/* Gives a descriptor to a line, and puts the answer. */
static void put_answer(struct line *l, const struct descriptor *d)
{
    uint32_t cause = refusal(l, d);

    if (cause > 0)
        put("no ", cause, "\n");
    else
        put("ok ", describe(l, d), "\n");
}

/* Each command answers false where its line is bad. */
static bool sig(struct script *in, struct line *l)
{
    struct descriptor d = { 0 };

    if (!read_sig(in, &d))
        return false;
    put_answer(l, &d);
    return true;
}

static bool cfg(struct script *in, struct line *l)
{
    uint32_t d, g, clock;

    if (!number(in, &d) || !number(in, &g) || !number(in, &clock) || !line_ends(in))
        return false;
    if (d < 1 || d > 500 || g < 1 || g > 500) {
        put_text("no 1\n");
    } else {
        *l = fresh_line(d, g, clock);
        put_text("ok 0\n");
    }
    return true;
}

static bool rp(struct script *in, struct line *l)
{
    bool off = word(in, "off");
    uint32_t n = 0;

    if ((!off && !number(in, &n)) || !line_ends(in))
        return false;
    if (off || n > 0) {
        l->report_period = n;
        add_serial(l);
    }
    put_text(off || n > 0 ? "ok 0\n" : "no 2\n");
    return true;
}

static bool hook(struct script *in, struct line *l)
{
    struct descriptor stop = { .tariff = TARIFF_NONE, .burst = BURST_NONE };
    bool keep = word(in, "keep");

    if ((!keep && !word(in, "stop")) || !line_ends(in))
        return false;
    if (keep)
        add_serial(l);
    put("ok ", keep ? 0 : describe(l, &stop), "\n");
    return true;
}

static struct script read_input(void)
{
    size_t size = 1 << 16, n = 0, got;
    char *s = malloc(size);

    while (s && (got = fread(s + n, 1, size - n, stdin)) > 0) {
        n += got;
        if (n == size)
            s = realloc(s, size *= 2);
    }
    if (!s || ferror(stdin))
        exit(1);
    if (n > 0 && s[n - 1] != '\n')
        s[n++] = '\n';
    return (struct script){ s, s + n };
}
