/* The reader of descriptors as texts: what a text says, and whether it is refused. */

#include <stdbool.h>
#include <stddef.h>
#include <stdint.h>
#include <string.h>

enum { AMET_EM, AMET_MPB, AMET_PHSM, SIGNALS };
enum { MOST_ITEMS = 7, KEPT = 8 };

/* The known signals, the names of their items, and whether the values of these are lists. */
static const struct kind {
    const char *name;
    bool lists;
    unsigned items;
    const char *item[MOST_ITEMS];
} kinds[SIGNALS] = {
    [AMET_EM] = {"em", false, 2, {"pri", "pc"}},
    [AMET_MPB] = {"mpb", false, 2, {"bpc", "pri"}},
    [AMET_PHSM] = {"phsm", true, 7, {"pri", "pcx", "repx", "pcn", "repn", "ci", "pd"}},
};

/* A value: a number is a list of one. All of a list's numbers are counted, and the first eight are kept. */
struct value {
    bool list;
    size_t count;
    uint32_t numbers[KEPT];
};

/* What a text says of a signal. Bit i of `named` is set if item i is given; only then `values[i]` means something. */
struct signal {
    bool given, keep;
    unsigned named;
    struct value values[MOST_ITEMS];
};

/* A text that is being read. A line feed ends it, and no piece of a text has one. */
struct text {
    const char *at;
    bool wrong; /* a fault of content */
    struct signal signals[SIGNALS];
};

static void pass_blanks(struct text *t)
{
    while (*t->at == ' ')
        t->at++;
}

/* Takes a mark. */
static bool take(struct text *t, const char *mark)
{
    const char *p = t->at;

    while (*mark)
        if (*p++ != *mark++)
            return false;
    t->at = p;
    return true;
}

/* Takes a mark with blanks around it. */
static bool take_mark(struct text *t, const char *mark)
{
    pass_blanks(t);
    if (!take(t, mark))
        return false;
    pass_blanks(t);
    return true;
}

/* Takes a name, and gives its length: 0 if there is none. */
static size_t take_name(struct text *t)
{
    const char *start = t->at;

    while (*t->at >= 'a' && *t->at <= 'z')
        t->at++;
    return (size_t)(t->at - start);
}

static bool take_number(struct text *t, struct value *v)
{
    const char *start = t->at;
    uint64_t n = 0;

    while (*t->at >= '0' && *t->at <= '9') {
        if (t->at - start == 10)
            return false;
        n = 10 * n + (uint64_t)(*t->at++ - '0');
    }
    if (t->at == start)
        return false;
    if (n > UINT32_MAX)
        t->wrong = true;
    if (v->count < KEPT)
        v->numbers[v->count] = (uint32_t)n;
    v->count++;
    return true;
}

static bool take_value(struct text *t, struct value *v)
{
    v->count = 0;
    v->list = take(t, "[");
    if (!v->list)
        return take_number(t, v);
    do {
        pass_blanks(t);
        if (!take_number(t, v))
            return false;
    } while (take_mark(t, ","));
    return take(t, "]");
}

static bool is(const char *known, const char *name, size_t length)
{
    return strncmp(known, name, length) == 0 && known[length] == 0;
}

/* The number of a known signal, or SIGNALS. */
static unsigned signal_named(const char *name, size_t length)
{
    unsigned i = 0;

    while (i < SIGNALS && !is(kinds[i].name, name, length))
        i++;
    return i;
}

/* The number of an item of a known signal, or how many items that has. */
static unsigned item_named(const struct kind *k, const char *name, size_t length)
{
    unsigned i = 0;

    while (i < k->items && !is(k->item[i], name, length))
        i++;
    return i;
}

/* An item of a known signal. */
static bool take_item(struct text *t, unsigned which)
{
    const struct kind *k = &kinds[which];
    struct signal *s = &t->signals[which];
    struct value other, *v = &other;
    const char *name = t->at;
    size_t length;
    unsigned i;

    if (take(t, "KA")) {
        t->wrong |= s->keep;
        s->keep = true;
        return true;
    }
    length = take_name(t);
    if (length == 0 || !take_mark(t, "="))
        return false;
    i = item_named(k, name, length);
    if (i == k->items || (s->named >> i & 1)) {
        t->wrong = true;
    } else {
        s->named |= 1u << i;
        v = &s->values[i];
    }
    if (!take_value(t, v))
        return false;
    t->wrong |= v->list != k->lists;
    return true;
}

/* An item of a signal that is not known. */
static bool take_unknown_item(struct text *t)
{
    struct value other;

    if (take(t, "KA"))
        return true;
    return take_name(t) > 0 && take_mark(t, "=") && take_value(t, &other);
}

static bool take_items(struct text *t, unsigned which)
{
    do {
        pass_blanks(t);
        if (!(which < SIGNALS ? take_item(t, which) : take_unknown_item(t)))
            return false;
    } while (take_mark(t, ","));
    return take(t, "}");
}

static bool take_signal(struct text *t)
{
    const char *name;
    size_t length;
    unsigned which;

    if (!take(t, "amet/"))
        return false;
    pass_blanks(t);
    name = t->at;
    length = take_name(t);
    if (length == 0)
        return false;
    which = signal_named(name, length);
    if (which == SIGNALS || t->signals[which].given)
        t->wrong = true;
    else
        t->signals[which].given = true;
    return !take_mark(t, "{") || take_items(t, which);
}

/* Whether the bytes up to `end`, where a line feed stands, are a text. Blanks stand neither before it nor after it. */
static bool take_text(struct text *t, const char *end)
{
    if (!take(t, "SG") || !take_mark(t, "{"))
        return false;
    if (*t->at != '}')
        do {
            pass_blanks(t);
            if (!take_signal(t))
                return false;
        } while (take_mark(t, ","));
    return take(t, "}") && t->at == end;
}

/* Whether what a text says is wrong, or not all that it has to say. */
static bool is_wrong(const struct text *t)
{
    const struct signal *em = &t->signals[AMET_EM], *phsm = &t->signals[AMET_PHSM];

    return t->wrong || (em->given && phsm->given) || (em->given && !(em->named & 1)) ||
           (phsm->given && phsm->named != (1u << kinds[AMET_PHSM].items) - 1);
}

/* The number of an item, or its default. */
static uint32_t item_number(const struct signal *s, unsigned item, uint32_t otherwise)
{
    return s->named >> item & 1 ? s->values[item].numbers[0] : otherwise;
}

/* Reads the text from `at` to `end`, where a line feed stands. Gives the number of its refusal, or 0. */
static uint32_t read_text(struct text *t, const char *at, const char *end)
{
    int i;

    t->at = at;
    t->wrong = false;
    for (i = 0; i < SIGNALS; i++) {
        t->signals[i].given = t->signals[i].keep = false;
        t->signals[i].named = 0;
    }
    if (!take_text(t, end))
        return 12;
    return is_wrong(t) ? 13 : 0;
}
