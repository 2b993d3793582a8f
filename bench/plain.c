/* A plain C baseline of the program meter.
   Build: gcc -O2 -Wall -Wextra -o plain plain.c
          with -DSTEPPED, every count is stepped at each tick (stepped.h)
   Use:   plain < script    prints what meter prints
          plain bench       times the tick alone; the cases are at the end */

#include <inttypes.h>
#include <time.h>

#include "script.h"

static void put_events(const struct line *l, unsigned events)
{
    if (events & TARIFF_COMPLETE)
        put("c ", l->clock, " b\n");
    if (events & BURST_COMPLETE)
        put("c ", l->clock, " m\n");
    if (events & FRONT) {
        put("f ", l->clock, events & TARIFF_FRONT ? " b " : " m ");
        put("", l->cpc, "\n");
    }
    if (events & REPORT)
        put("r ", l->clock, "\n");
}

static bool run(struct script *in, struct line *l)
{
    struct tick out;
    uint32_t ticks;

    if (!number(in, &ticks) || ticks > 1000000 || !line_ends(in))
        return false;
    while (ticks-- > 0) {
        line_tick(l, &out);
        if (out.events)
            put_events(l, out.events);
    }
    return true;
}

/* Obeys a script. A line of spacing 0 is not configured, and knows cfg alone. */
static void obey(struct script in, struct line *l)
{
    static const struct {
        const char *name;
        bool (*obey)(struct script *, struct line *);
    } commands[] = {
        { "cfg", cfg }, { "sig", sig }, { "rp", rp }, { "hook", hook }, { "run", run }
    };

    for (; in.at < in.end; next_line(&in)) {
        size_t known = l->spacing > 0 ? 5 : 1, i = 0;
        while (i < known && !word(&in, commands[i].name))
            i++;
        if (i == known || !commands[i].obey(&in, l))
            put_text("bad\n");
    }
}

#define PHASED "sig ph 3 none\n1000 3 37 2 63 5 2400\n500 5 3 4 7 5 2400\n250 3 2 2 5 1 0\n"
#define BURST "sig em 0 1000 burst 65535 1\n"

/* Timing. Each case is 20 rounds. A round makes its lines afresh, each by
   "cfg 50 50 0" and its sig, and then ticks them: every line one tick in order
   of place, then every line the next tick.

   em      1 line, 7,200,000 ticks a round: sig em 0 400 none
   phased  1 line, 7,200,000 ticks a round: sig ph 3 none, with the phases
           1000 3 37 2 63 5 2400, 500 5 3 4 7 5 2400 and 250 3 2 2 5 1 0
   burst   1 line, 7,200,000 ticks a round: sig em 0 1000 burst 65535 1
           (the burst runs to the end of the round)
   lines   64 lines, 112,500 ticks a round: sig em 0 P none, with P = 400 + 10 i
           for place i, 0 to 63
   row-em, row-phased, row-burst
           64 lines, 112,500 ticks a round: each with the sig of em, phased or burst

   A case prints its name, the ticks of all lines and rounds, the fronts, the
   nanoseconds of processor time a tick and a checksum. The checksum starts at 0
   and goes through all rounds of the case. Each front makes it
   (31 * checksum + 2 * clock + kind) mod 4294967291, where kind is 0 for a tariff
   pulse and 1 for a burst pulse. */
static const struct bench_case {
    const char *name;
    uint32_t lines, ticks;
    const char *sig;              /* NULL for em 0 (400 + 10 * place) */
} cases[] = {
    { "em", 1, 7200000, NULL },
    { "phased", 1, 7200000, PHASED },
    { "burst", 1, 7200000, BURST },
    { "lines", 64, 112500, NULL },
    { "row-em", 64, 112500, "sig em 0 400 none\n" },
    { "row-phased", 64, 112500, PHASED },
    { "row-burst", 64, 112500, BURST },
};

static void make_line(const struct bench_case *c, uint32_t place, struct line *l)
{
    char em[64], s[256];
    int n;

    snprintf(em, sizeof em, "sig em 0 %u none\n", (unsigned)(400 + 10 * place));
    n = snprintf(s, sizeof s, "cfg 50 50 0\n%s", c->sig ? c->sig : em);
    obey((struct script){ s, s + n }, l);
    used = 0;                     /* the answers are not wanted */
}

static void bench(const struct bench_case *c)
{
    static struct line lines[64];
    uint64_t fronts = 0, checksum = 0, ticks = 20 * (uint64_t)c->ticks * c->lines;
    clock_t spent = 0;
    struct tick out;

    for (int round = 0; round < 20; round++) {
        for (uint32_t i = 0; i < c->lines; i++)
            make_line(c, i, &lines[i]);
        clock_t start = clock();
        for (uint32_t t = 0; t < c->ticks; t++)
            for (uint32_t i = 0; i < c->lines; i++) {
                line_tick(&lines[i], &out);
                if (out.events & FRONT) {
                    uint64_t kind = out.events & BURST_FRONT ? 1 : 0;
                    checksum = (31 * checksum + 2 * (uint64_t)lines[i].clock + kind) % 4294967291;
                    fronts++;
                }
            }
        spent += clock() - start;
    }
    printf("%s %" PRIu64 " %" PRIu64 " %.2f %" PRIu64 "\n", c->name, ticks, fronts,
           1e9 * (double)spent / CLOCKS_PER_SEC / (double)ticks, checksum);
}

int main(int argc, char **argv)
{
    static struct line l;

    if (argc > 1 && strcmp(argv[1], "bench") == 0) {
        for (size_t i = 0; i < sizeof cases / sizeof cases[0]; i++)
            bench(&cases[i]);
        return 0;
    }
    struct script in = read_input();
    obey(in, &l);
    flush_text();
    free((char *)in.at);
    return 0;
}
