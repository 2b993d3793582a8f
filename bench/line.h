/* The line of the C baseline: its tick, updated in place, and its descriptors.
   Times are in ticks unless seconds are named. */

#include <stdbool.h>
#include <stdint.h>

/* A phase, and its map: element i is bit i mod 64 of word i / 64, 1 for X. */
struct phase {
    uint32_t pri, pcx, repx, pcn, repn, ci, pd;
    uint64_t map[2];
};

/* More ticks than any wait. */
#define FAR UINT32_MAX

/* ENDING is a tariff with no slot left and its completion to come. */
enum tariff { IDLE, ENDING, EM, PHASED };

/* The span stands between clock and quiet: side by side, gcc moves both on by one
   wide load and store, which takes twice the time. */
struct line {
    uint32_t clock;
    uint32_t span;                /* quiet as it was set; the four counts below are of then */
    uint32_t quiet;               /* ticks to the next one at which something may be due */
    uint32_t since;               /* ticks since the last front, held at S */
    uint32_t burst_since;         /* ticks since this burst's last front, held at B */
    uint32_t wait;                /* ticks to the tariff's next slot or completion */
    uint32_t burst_wait;          /* ticks to the burst's next front or completion */
    uint32_t pulse, spacing;      /* D and S */
    enum tariff tariff;
    bool burst_runs;
    uint32_t owed;                /* burst pulses not yet begun */
    uint32_t interval;            /* B of the burst */
    uint32_t report_period;       /* 0 for none */
    uint32_t cpc, pcslr;
    uint32_t count, period, slot; /* em: C, P and the number of the next slot */
    uint32_t phase, element, j;   /* phased: phase, map element and pulse of the next slot */
    uint32_t left;                /* seconds left of the phase at that interval's start;
                                     0 if endless */
    uint32_t phase_count;
    uint32_t serial;              /* accepted descriptors, hook events and periods, held */
    struct phase phases[8];
};

/* What a tick tells. */
enum { TARIFF_COMPLETE = 1, BURST_COMPLETE = 2, TARIFF_FRONT = 4, BURST_FRONT = 8, REPORT = 16,
       FRONT = TARIFF_FRONT | BURST_FRONT };

struct tick {
    unsigned events;
};

/* Takes the slot of a phased tariff, which is empty where there are no pulses. */
static unsigned phased_slot(struct line *l)
{
    const struct phase *p = &l->phases[l->phase];
    bool x = p->map[l->element / 64] >> l->element % 64 & 1;
    uint32_t pulses = x ? p->pcx : p->pcn;
    uint32_t into = l->j * p->pri;

    if (++l->j < pulses) {
        l->wait = p->pri;
        return TARIFF_FRONT;
    }
    l->j = 0;
    if (l->left == 0 || l->left > p->ci) {    /* the next charge interval */
        l->wait = 1000 * p->ci - into;
        l->left -= l->left ? p->ci : 0;
        if (++l->element == p->repx + p->repn)
            l->element = 0;
    } else {                                  /* the end of the phase */
        l->wait = 1000 * l->left - into;
        l->element = 0;
        if (++l->phase < l->phase_count)
            l->left = l->phases[l->phase].pd;
        else
            l->tariff = ENDING;
    }
    return pulses ? TARIFF_FRONT : 0;
}

/* The tariff's wait is over: a slot or the completion is now. */
static unsigned tariff_due(struct line *l)
{
    uint64_t k = l->slot, p = l->period;

    if (l->tariff == PHASED)
        return phased_slot(l);
    if (l->tariff == ENDING) {
        l->tariff = IDLE;
        return TARIFF_COMPLETE;
    }
    if (l->count == 0) {
        l->wait = l->period;
    } else if (++l->slot < l->count) {
        l->wait = (uint32_t)((k + 1) * p / l->count - k * p / l->count);
    } else {
        l->tariff = ENDING;
        l->wait = l->pulse;
    }
    return TARIFF_FRONT;
}

/* The burst's wait is over: a front or the completion is now. */
static unsigned burst_due(struct line *l)
{
    if (l->owed == 0) {
        l->burst_runs = false;
        return BURST_COMPLETE;
    }
    l->owed--;
    l->burst_since = 0;
    return BURST_FRONT;
}

/* The ticks to the burst's next front or completion; FAR where the next slot is
   too near for a burst pulse before it. */
static uint32_t burst_wait(const struct line *l)
{
    uint32_t s = l->spacing - l->since, b = l->interval - l->burst_since;
    uint32_t wait = s > b ? s : b;

    if (l->owed == 0)
        return l->pulse - l->burst_since;
    if (wait == 0)
        wait = 1;
    return l->tariff >= EM && wait + l->spacing > l->wait ? FAR : wait;
}

static unsigned count_front(struct line *l)
{
    l->since = 0;
    l->cpc += l->cpc < UINT32_MAX;
    l->pcslr += l->pcslr < UINT32_MAX;
    if (l->report_period == 0 || l->pcslr < l->report_period)
        return 0;
    l->pcslr = 0;
    return REPORT;
}

static uint32_t held(uint32_t count, uint32_t more, uint32_t top)
{
    return more < top - count ? count + more : top;
}

/* Brings the counts up to now. */
static void settle(struct line *l)
{
    uint32_t passed = l->span - l->quiet;

    l->since = held(l->since, passed, l->spacing);
    l->burst_since = held(l->burst_since, passed, l->interval);
    l->wait -= passed;
    l->burst_wait -= passed;
    l->span = l->quiet;
}

/* Sets the quiet ticks anew, after something was due or a command came. */
static void look_ahead(struct line *l)
{
    uint32_t wait = l->tariff == IDLE ? FAR : l->wait;

    l->burst_wait = l->burst_runs ? burst_wait(l) : FAR;
    l->span = l->quiet = wait < l->burst_wait ? wait : l->burst_wait;
}

#ifdef STEPPED
#include "stepped.h"
#else

/* The quiet ticks are over. */
static unsigned line_due(struct line *l)
{
    unsigned events = 0;

    settle(l);
    if (l->tariff != IDLE && l->wait == 0)
        events |= tariff_due(l);
    if (l->burst_runs && l->burst_wait == 0)
        events |= burst_due(l);
    if (events & FRONT)
        events |= count_front(l);
    look_ahead(l);
    return events;
}

/* One tick. The clock goes from 4,294,967,295 to 0. */
static void line_tick(struct line *l, struct tick *out)
{
    l->clock++;
    l->quiet--;
    out->events = l->quiet == 0 ? line_due(l) : 0;
}

#endif

struct descriptor {
    enum { TARIFF_NONE, TARIFF_KEEP, TARIFF_RATE, TARIFF_EM, TARIFF_PHASED } tariff;
    enum { BURST_NONE, BURST_KEEP, BURST_START } burst;
    uint32_t count, period, owed, interval, phase_count;
    struct phase phases[9];       /* nine are read, and refused */
};

static bool sound_em(uint32_t spacing, uint32_t count, uint32_t period)
{
    return count <= 65535 && period <= 86400000 && period / (count ? count : 1) >= 2 * spacing;
}

static bool sound_phase(uint32_t spacing, const struct phase *p, bool last)
{
    uint64_t elements = (uint64_t)p->repx + p->repn;
    uint64_t charged = (uint64_t)(p->pcx ? p->pcx : 1) * p->pri;

    return p->pri >= 2 * spacing && p->pri <= 86400000 && p->pcn <= p->pcx && p->pcx <= 65535
        && elements >= 1 && elements <= 100 && p->ci >= 1 && p->ci <= 86400
        && p->pd <= 86400000 && (p->pd > 0 || last) && charged <= 1000 * p->ci
        && (p->pd % p->ci == 0 || charged <= 1000 * (p->pd % p->ci));
}

/* The lowest number that applies, or 0. */
static uint32_t refusal(const struct line *l, const struct descriptor *d)
{
    if (d->tariff == TARIFF_RATE && (l->tariff != EM || l->count > 0))
        return 3;
    if ((d->tariff == TARIFF_RATE || d->tariff == TARIFF_EM)
        && !sound_em(l->spacing, d->count, d->period))
        return 4;
    if (d->tariff == TARIFF_PHASED && (d->phase_count < 1 || d->phase_count > 8))
        return 5;
    for (uint32_t i = 0; i < d->phase_count; i++)
        if (!sound_phase(l->spacing, &d->phases[i], i + 1 == d->phase_count))
            return 6;
    if (d->burst != BURST_START)
        return 0;
    if (d->owed < 1 || d->owed > 65535 || d->interval < 1 || d->interval > 60000)
        return 7;
    return l->burst_runs ? 8 : 0;
}

/* Repeats xs X's and ns N's until both kinds are used up. */
static void work_out_map(struct phase *p)
{
    uint32_t x = p->repx, n = p->repn, at = 0;
    uint32_t xs = x >= n && n > 0 ? (2 * x + n) / (2 * n) : 1;
    uint32_t ns = n > x && x > 0 ? n / x : 1;

    p->map[0] = p->map[1] = 0;
    while (x + n > 0) {
        for (uint32_t k = 0; k < xs && x > 0; k++, x--, at++)
            p->map[at / 64] |= (uint64_t)1 << at % 64;
        for (uint32_t k = 0; k < ns && n > 0; k++, n--)
            at++;
    }
}

static void fresh_tariff(struct line *l, const struct descriptor *d)
{
    l->wait = l->since < l->spacing ? l->spacing - l->since : 1;
    l->slot = l->phase = l->element = l->j = 0;
    if (d->tariff == TARIFF_EM) {
        l->tariff = EM;
        l->count = d->count;
        l->period = d->period;
        l->cpc = l->pcslr = 0;
        return;
    }
    l->tariff = PHASED;
    l->left = d->phases[0].pd;
    l->phase_count = d->phase_count;
    for (uint32_t i = 0; i < d->phase_count; i++) {
        l->phases[i] = d->phases[i];
        work_out_map(&l->phases[i]);
    }
}

/* The burst pulses that a descriptor cancels. */
static uint32_t cancelled(const struct line *l, const struct descriptor *d)
{
    return d->burst == BURST_NONE && l->burst_runs ? l->owed : 0;
}

/* A call was accepted, and the tickets of before are void. */
static void add_serial(struct line *l)
{
    l->serial += l->serial < UINT32_MAX;
}

/* Takes an accepted descriptor and answers the burst pulses cancelled. */
static uint32_t describe(struct line *l, const struct descriptor *d)
{
    uint32_t count = cancelled(l, d);

    add_serial(l);
    settle(l);
    if (d->tariff == TARIFF_NONE)
        l->tariff = IDLE;
    else if (d->tariff == TARIFF_RATE)
        l->period = d->period;
    else if (d->tariff != TARIFF_KEEP)
        fresh_tariff(l, d);
    if (d->burst != BURST_KEEP)
        l->burst_runs = d->burst == BURST_START;
    if (d->burst == BURST_START) {
        l->owed = d->owed;
        l->interval = d->interval > l->spacing ? d->interval : l->spacing;
        l->burst_since = l->interval;
    }
    look_ahead(l);
    return count;
}

/* Makes a line of a sound pulse length and gap. */
static struct line fresh_line(uint32_t pulse, uint32_t gap, uint32_t clock)
{
    uint32_t spacing = pulse + gap;
    struct line l = { .clock = clock, .pulse = pulse, .spacing = spacing, .since = spacing };

    look_ahead(&l);
    return l;
}
