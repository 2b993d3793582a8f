/* The tick of the second baseline: every count moves on at each tick, as in the proved
   line, and there is no countdown. Built by gcc -O2 -DSTEPPED plain.c; the rest is line.h's,
   where quiet and span then stay equal, so that settle changes nothing. */

/* A burst pulse may start: its own distance and the spacing have passed, and the next slot
   is far enough away. */
static bool may_start(const struct line *l)
{
    return l->burst_since >= l->interval && l->since >= l->spacing
        && (l->tariff < EM || l->wait >= l->spacing);
}

/* The burst one tick on, where slot says whether a slot, an empty one too, is now. */
static unsigned burst_step(struct line *l, bool slot)
{
    l->burst_since += l->burst_since < l->interval;
    if (l->owed == 0)
        return l->burst_since == l->pulse ? burst_due(l) : 0;
    return !slot && may_start(l) ? burst_due(l) : 0;
}

/* One tick. The clock goes from 4,294,967,295 to 0. */
static void line_tick(struct line *l, struct tick *out)
{
    unsigned events = 0;
    bool slot = false;

    l->clock++;
    l->since += l->since < l->spacing;
    if (l->tariff != IDLE && --l->wait == 0) {
        slot = l->tariff != ENDING;
        events |= tariff_due(l);
    }
    if (l->burst_runs)
        events |= burst_step(l, slot);
    if (events & FRONT)
        events |= count_front(l);
    out->events = events;
}
