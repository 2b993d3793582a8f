/* A plain C baseline of the program card.
   Build: gcc -O2 -Wall -Wextra -o card card.c
   Use:   card < script    prints what card prints */

#include "script.h"
#include "texts.h"

enum { ROOM = 65, LONGEST = 64, MOST_NAMED = 64 };

/* What fell on a line since its last notice. */
struct news {
    unsigned events;
    uint32_t reports;
};

/* A row of lines and its dispatcher. */
struct card {
    struct line lines[ROOM];
    uint32_t count;
    uint32_t length;              /* of the row at the first tick; 0 before it */
    uint32_t next;                /* the place after the one last served */
    uint64_t ticks;
    uint64_t waiting;             /* bit i is set if line i has something to tell */
    struct news news[LONGEST];
};

static bool sound_length(const struct card *c)
{
    return c->count >= 1 && c->count <= LONGEST;
}

static bool sound_row(const struct card *c)
{
    return sound_length(c) && (c->length == 0 || c->count == c->length);
}

/* One tick of each line, in order of place. */
static void tick_lines(struct card *c)
{
    struct tick out;

    for (uint32_t i = 0; i < c->count; i++) {
        line_tick(&c->lines[i], &out);
        if (out.events & (TARIFF_COMPLETE | BURST_COMPLETE | REPORT)) {
            c->news[i].events |= out.events;
            c->news[i].reports += out.events & REPORT ? 1 : 0;
            c->waiting |= (uint64_t)1 << i;
        }
    }
}

static void put_notice(uint64_t ticks, uint32_t place, const struct news *n)
{
    put("n ", ticks, " ");
    put("", place, n->events & TARIFF_COMPLETE ? " 1" : " 0");
    put_text(n->events & BURST_COMPLETE ? " 1 " : " 0 ");
    put("", n->reports, "\n");
}

/* Sends the notice of the first line with something to tell, from the next place round. */
static void serve(struct card *c)
{
    uint64_t later = c->waiting >> c->next << c->next;
    uint32_t place = (uint32_t)__builtin_ctzll(later ? later : c->waiting);

    put_notice(c->ticks, place, &c->news[place]);
    c->news[place] = (struct news){ 0, 0 };
    c->waiting &= ~((uint64_t)1 << place);
    c->next = place + 1 == c->count ? 0 : place + 1;
}

/* One tick of the dispatcher; false where the row is refused. */
static bool card_tick(struct card *c)
{
    if (!sound_row(c))
        return false;
    c->length = c->count;
    c->ticks++;
    tick_lines(c);
    if (c->waiting)
        serve(c);
    return true;
}

/* The seven lists as phases. Lists that are unequal or too long become nine phases, which are refused alike. */
static void set_phases(const struct value *lists, struct descriptor *d)
{
    d->phase_count = lists[0].count <= 8 ? (uint32_t)lists[0].count : 9;
    for (unsigned i = 1; i < MOST_ITEMS; i++)
        if (lists[i].count != lists[0].count)
            d->phase_count = 9;
    for (uint32_t i = 0; i < d->phase_count && d->phase_count < 9; i++) {
        struct phase *p = &d->phases[i];
        uint32_t *fields[MOST_ITEMS] = {
            &p->pri, &p->pcx, &p->repx, &p->pcn, &p->repn, &p->ci, &p->pd
        };

        for (unsigned k = 0; k < MOST_ITEMS; k++)
            *fields[k] = lists[k].numbers[i];
    }
}

static void set_tariff(const struct signal *em, const struct signal *phsm, struct descriptor *d)
{
    uint32_t pc = item_number(em, 1, 0);

    if (em->given) {
        d->tariff = !em->keep ? TARIFF_EM : pc > 0 ? TARIFF_KEEP : TARIFF_RATE;
        d->count = pc;
        d->period = item_number(em, 0, 0);
    } else if (phsm->given) {
        d->tariff = phsm->keep ? TARIFF_KEEP : TARIFF_PHASED;
        if (!phsm->keep)
            set_phases(phsm->values, d);
    }
}

static void set_burst(const struct signal *mpb, struct descriptor *d)
{
    if (mpb->given) {
        d->burst = mpb->keep ? BURST_KEEP : BURST_START;
        d->owed = item_number(mpb, 0, 1);
        d->interval = item_number(mpb, 1, 1);
    }
}

static bool text_is_next(struct script *in)
{
    skip_blanks(in);
    return strncmp(in->at, "SG", 2) == 0;
}

/* Reads a text, from here to the end of the line. Gives the number of its refusal, or 0. */
static uint32_t descriptor_of_text(struct script *in, struct descriptor *d)
{
    static struct text t;
    const char *end = memchr(in->at, '\n', (size_t)(in->end - in->at));
    uint32_t refused = read_text(&t, in->at, end);

    *d = (struct descriptor){ .tariff = TARIFF_NONE, .burst = BURST_NONE };
    if (refused > 0)
        return refused;
    set_tariff(&t.signals[AMET_EM], &t.signals[AMET_PHSM], d);
    set_burst(&t.signals[AMET_MPB], d);
    return 0;
}

static void obey_text(struct script *in, struct line *l)
{
    struct descriptor d;
    uint32_t refused = descriptor_of_text(in, &d);

    if (refused > 0)
        put("no ", refused, "\n");
    else
        put_answer(l, &d);
}

/* A descriptor that is asked about or committed, and the number that its text is refused with,
   or 0. */
struct offer {
    struct descriptor d;
    uint32_t refused;
};

static bool read_offer(struct script *in, struct offer *o)
{
    *o = (struct offer){ .refused = 0 };
    if (text_is_next(in)) {
        o->refused = descriptor_of_text(in, &o->d);
        return true;
    }
    return word(in, "sig") && read_sig(in, &o->d);
}

/* The number that an offer is refused with, its ticket aside, or 0. */
static uint32_t offer_refusal(const struct line *l, const struct offer *o)
{
    if (l->serial == UINT32_MAX)
        return 17;
    return o->refused > 0 ? o->refused : refusal(l, &o->d);
}

/* Answers what a descriptor would get, and the ticket. */
static bool ask(struct script *in, struct line *l)
{
    struct offer o;
    uint32_t cause;

    if (!read_offer(in, &o))
        return false;
    cause = offer_refusal(l, &o);
    put(cause > 0 ? "no " : "ok ", cause > 0 ? cause : cancelled(l, &o.d), " ");
    put("", l->serial, "\n");
    return true;
}

/* Gives a descriptor to the line if its ticket still holds. */
static bool commit(struct script *in, struct line *l)
{
    struct offer o;
    uint32_t ticket, cause;

    if (!number(in, &ticket) || !read_offer(in, &o))
        return false;
    cause = ticket != l->serial ? 16 : offer_refusal(l, &o);
    put(cause > 0 ? "no " : "ok ", cause > 0 ? cause : describe(l, &o.d), "\n");
    return true;
}

static bool audit(struct script *in, struct line *l)
{
    if (!line_ends(in))
        return false;
    put("a ", l->cpc, " ");
    put("", l->pcslr, "\n");
    return true;
}

/* A command on the line at a place. */
static bool at(struct script *in, struct card *c)
{
    static const struct {
        const char *name;
        bool (*obey)(struct script *, struct line *);
    } commands[] = { { "sig", sig }, { "rp", rp }, { "hook", hook }, { "audit", audit },
                     { "ask", ask }, { "commit", commit } };
    uint32_t place;

    if (!number(in, &place) || place >= c->count)
        return false;
    if (text_is_next(in)) {
        obey_text(in, &c->lines[place]);
        return true;
    }
    for (size_t i = 0; i < sizeof commands / sizeof commands[0]; i++)
        if (word(in, commands[i].name))
            return commands[i].obey(in, &c->lines[place]);
    return false;
}

/* One more line, where there is room. A line of spacing 0 is not configured. */
static bool add(struct script *in, struct card *c)
{
    if (c->count == ROOM || !cfg(in, &c->lines[c->count]))
        return false;
    c->count += c->lines[c->count].spacing > 0;
    return true;
}

static bool tick(struct script *in, struct card *c)
{
    uint32_t ticks;

    if (!number(in, &ticks) || ticks > 1000000 || !line_ends(in))
        return false;
    while (ticks > 0 && card_tick(c))
        ticks--;
    if (ticks > 0)
        put_text("no 14\n");
    return true;
}

/* The places that a group's rate is for, in list order. */
struct group {
    uint32_t count;
    uint32_t places[MOST_NAMED];
};

static bool read_group(struct script *in, struct group *g)
{
    for (g->count = 0; !line_ends(in); g->count++)
        if (g->count == MOST_NAMED || !number(in, &g->places[g->count]))
            return false;
    return true;
}

/* The number that a group's rate is refused with, or 0. */
static uint32_t group_refusal(const struct card *c, const struct group *g,
                              const struct descriptor *rate)
{
    uint32_t cause = 0;

    if (!sound_length(c))
        return 14;
    for (uint32_t i = 0; i < g->count; i++)
        if (g->places[i] >= c->count)
            return 15;
    for (uint32_t i = 0; i < g->count && cause == 0; i++)
        cause = refusal(&c->lines[g->places[i]], rate);
    return cause;
}

/* Gives the rate to each line named, once. */
static void give_rate(struct card *c, const struct group *g, const struct descriptor *rate)
{
    bool given[LONGEST] = { false };

    for (uint32_t i = 0; i < g->count; i++) {
        uint32_t place = g->places[i];

        if (!given[place])
            describe(&c->lines[place], rate);
        given[place] = true;
    }
}

/* A rate that all places named take, or none. */
static bool group(struct script *in, struct card *c)
{
    struct descriptor rate = { .tariff = TARIFF_RATE, .burst = BURST_KEEP };
    struct group g;
    uint32_t cause;

    if (!number(in, &rate.period) || !read_group(in, &g))
        return false;
    cause = group_refusal(c, &g, &rate);
    if (cause == 0)
        give_rate(c, &g, &rate);
    put(cause > 0 ? "no " : "ok ", cause, "\n");
    return true;
}

static void obey(struct script in, struct card *c)
{
    static const struct {
        const char *name;
        bool (*obey)(struct script *, struct card *);
    } commands[] = { { "cfg", add }, { "at", at }, { "tick", tick }, { "group", group } };
    size_t known = sizeof commands / sizeof commands[0];

    for (; in.at < in.end; next_line(&in)) {
        size_t i = 0;
        while (i < known && !word(&in, commands[i].name))
            i++;
        if (i == known || !commands[i].obey(&in, c))
            put_text("bad\n");
    }
}

int main(void)
{
    static struct card c;
    struct script in = read_input();

    obey(in, &c);
    flush_text();
    free((char *)in.at);
    return 0;
}
