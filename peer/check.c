/* check.c: what a folder of tapes covers, and whether its results hold up. */
#include "check.h"

#include "build.h"

#include <stdio.h>
#include <stdlib.h>
#include <string.h>

int read_file(const char *name, unsigned char *out, size_t *n)
{
    FILE *f = fopen(name, "rb");
    int ok;

    if (f == NULL)
        return 0;
    *n = fread(out, 1, PEER_TAPE_MAX + 1, f);
    ok = !ferror(f);
    fclose(f);
    return ok;
}

static int read_tape_file(const char *dir, long i, unsigned char *out, size_t *n)
{
    char name[1024];

    if (snprintf(name, sizeof name, "%s/%05ld.tape", dir, i) >= (int)sizeof name)
        return 0;
    return read_file(name, out, n);
}

/* ------------------------------------------------------------------ */
/* What the records and their answers tell                            */

/* Prices as of a buy, so that lower is better for the order. */
static uint32_t as_buy(const struct peer_auction *a, uint32_t p) { return a->sell ? PEER_MIRROR - p : p; }

/* The event records of a tape. */
struct records {
    const unsigned char *first;
    size_t form;
    int n;
};

static const unsigned char *bytes_of(const struct records *events, int i)
{
    return events->first + events->form * (size_t)i;
}

static struct peer_event record(const struct records *events, int i)
{
    struct peer_event e;

    peer_read_event(bytes_of(events, i), events->form, &e);
    return e;
}

static struct records records_of(const unsigned char *tape, const struct peer_layout *l)
{
    struct records events = { tape + l->at + PEER_ORDER_BYTES, l->form, (int)l->events };

    return events;
}

static int applied(int answer) { return answer == PEER_TAKEN || answer == PEER_ENDED; }

/* Size and price, where the kind has them. */
static uint32_t size_of(const struct peer_event *e) { return e->field[e->kind == PEER_AMEND ? 1 : 0]; }
static uint32_t price_of(const struct peer_event *e) { return e->field[e->kind == PEER_AMEND ? 2 : 1]; }

/* The place on the tape of the record applied under a sequence, or -1. */
static int place_of(const struct peer_run *r, uint32_t seq)
{
    int i;

    for (i = 0; i < r->n_events; i++)
        if (r->event[i].seq == seq && applied(r->event[i].answer))
            return i;
    return -1;
}

/* The live responses, as a fold of the records: 1 and 3 add one, 2 takes one
 * away, 6 takes one away and adds one. */
struct fold {
    struct peer_response live[PEER_PLACES];
    int place[PEER_PLACES];                 /* the place that each has */
    int n;
};

/* Where the GTX of that name stands, or -1. */
static int named(const struct fold *f, uint32_t seq)
{
    int i;

    for (i = 0; i < f->n; i++)
        if (f->live[i].seq == seq && f->live[i].gtx)
            return i;
    return -1;
}

/* Is it on the side that responds? */
static int is_opposite(const struct peer_auction *start, const struct peer_event *e)
{
    return e->side == (start->sell ? PEER_BUY : PEER_SELL);
}

/* Does it have to be placed, if it is applied? */
static int needs_place(const struct peer_auction *start, const struct peer_event *e)
{
    return (e->kind == PEER_GTX || e->kind == PEER_LIMIT) && is_opposite(start, e) &&
           as_buy(start, price_of(e)) <= start->init;
}

/* The lowest place that no live one has. */
static int free_place(const struct fold *f)
{
    int taken[PEER_PLACES + 1] = { 0 }, k;

    for (k = 0; k < f->n; k++)
        taken[f->place[k]] = 1;
    for (k = 0; taken[k]; k++)
        ;
    return k;
}

static void fold_record(struct fold *f, const struct peer_auction *start, const struct peer_event *e, int answer)
{
    int customer = (e->marks & PEER_CUSTOMER) != 0, place = 0;
    struct peer_response *r;

    if (!applied(answer))
        return;
    if (e->kind == PEER_CANCEL || e->kind == PEER_AMEND) {
        int k = named(f, e->field[0]);

        if (k < 0)
            return;
        customer = f->live[k].customer;
        place = f->place[k];
        f->n--;
        memmove(&f->live[k], &f->live[k + 1], (size_t)(f->n - k) * sizeof f->live[0]);
        memmove(&f->place[k], &f->place[k + 1], (size_t)(f->n - k) * sizeof f->place[0]);
    }
    if ((e->kind != PEER_AMEND && !needs_place(start, e)) || f->n == PEER_PLACES)
        return;
    f->place[f->n] = e->kind == PEER_AMEND ? place : free_place(f);
    r = &f->live[f->n++];
    r->seq = e->seq;
    r->size = size_of(e);
    r->price = as_buy(start, price_of(e));
    r->customer = customer;
    r->participant = e->participant;
    r->gtx = e->kind != PEER_LIMIT;
    if (r->gtx && r->size > start->order.size)
        r->size = start->order.size;
}

/* The sizes of the fold, added up: what is on offer. */
static uint64_t fold_total(const struct fold *f)
{
    uint64_t total = 0;
    int i;

    for (i = 0; i < f->n; i++)
        total += f->live[i].size;
    return total;
}

static uint32_t working(const struct peer_response *r, uint32_t bound) { return r->price > bound ? r->price : bound; }

/* The others at one price: how they share R contracts over their sizes, T in
 * all. R is what they have by the fills, and is below T where they share. */
struct shares {
    uint32_t price;
    struct peer_response of[PEER_PLACES];
    int place[PEER_PLACES];
    uint64_t got[PEER_PLACES];
    int n;
    uint64_t r, t, over;                    /* over: the leftovers */
    int customers;                          /* how many stand there too */
};

static uint64_t whole_part(const struct shares *s, int i) { return s->r * s->of[i].size / s->t; }
static uint64_t fraction(const struct shares *s, int i) { return s->r * s->of[i].size % s->t; }

static struct shares shares_at(const struct peer_run *r, const struct fold *f, uint32_t price)
{
    struct shares s = { .price = price };
    int i, k;

    for (k = 0; k < f->n; k++) {
        if (working(&f->live[k], peer_bound(&r->end)) != price)
            continue;
        if (f->live[k].customer) {
            s.customers++;
            continue;
        }
        s.of[s.n] = f->live[k];
        s.place[s.n] = f->place[k];
        s.t += f->live[k].size;
        for (i = 0; i < r->n_fills; i++)
            if (r->fill[i].party == f->live[k].seq)
                s.got[s.n] += r->fill[i].quantity;
        s.r += s.got[s.n++];
    }
    s.over = s.r;
    for (i = 0; i < s.n; i++)
        s.over -= whole_part(&s, i);
    return s;
}

/* The next price of some response after a price, or 0. */
static uint32_t next_price(const struct peer_run *r, const struct fold *f, uint32_t after)
{
    uint32_t next = 0;
    int k;

    for (k = 0; k < f->n; k++) {
        uint32_t w = working(&f->live[k], peer_bound(&r->end));

        if (w > after && (next == 0 || w < next))
            next = w;
    }
    return next;
}

/* How many have a larger part than one of them, or an equal one and a lower sequence. */
static uint64_t ahead_of(const struct shares *s, int i)
{
    uint64_t own = fraction(s, i), n = 0;
    int j;

    for (j = 0; j < s->n; j++)
        n += fraction(s, j) > own || (fraction(s, j) == own && s->of[j].seq < s->of[i].seq);
    return n;
}

/* What Contra has at prices below one. */
static uint64_t contra_below(const struct peer_run *r, uint32_t price)
{
    uint64_t sum = 0;
    int i;

    for (i = 0; i < r->n_fills; i++)
        if (r->fill[i].party == 0 && as_buy(&r->end, r->fill[i].price) < price)
            sum += r->fill[i].quantity;
    return sum;
}

/* G, apart from the engine's. */
static uint32_t guarantee_of(uint32_t size, int n_live)
{
    uint32_t g = size * (n_live == 1 ? 5 : 4) / 10;

    return g > 0 ? g : 1;
}

/* ------------------------------------------------------------------ */
/* What an order's words make, in signed prices                       */

/* A sell's prices are taken with a minus here, not from 1,000,000. So less is
 * better for it too, its offers are bids, and a collar is taken off. */
struct terms {
    struct peer_order raw;
    int64_t sign;
    int small;
    int64_t limit, stop;
    int64_t nbb, nbo, bb, bo;
    int customer;                           /* at BB */
    int collared;
    int64_t offer;                          /* displayed price less collar; BO if there is none */
    int64_t bound;
    int64_t init, plain;                    /* plain: what the initiating price is without the collar */
};

static int64_t least(int64_t a, int64_t b) { return a < b ? a : b; }
static int64_t most(int64_t a, int64_t b) { return a > b ? a : b; }

static int64_t word_at(const unsigned char *p)
{
    return p[0] + 256 * (p[1] + 256 * (p[2] + 256 * (int64_t)p[3]));
}

/* Are the collar's words in form? Nothing wraps here. */
static int collar_in_form(const unsigned char *order)
{
    int64_t displayed = word_at(order + 48), collar = word_at(order + 52);
    int64_t result = order[0] == PEER_SELL ? displayed + collar : displayed - collar;

    if (displayed == 0 && collar == 0)
        return 1;
    return displayed >= 1 && displayed <= 999999 && collar >= 1 && collar <= 999999 && result >= 1 && result <= 999999;
}

static int any_set(const unsigned char *p, int n)
{
    int i;

    for (i = 0; i < n && p[i] == 0; i++)
        ;
    return i < n;
}

/* The bound that a BB and its mark make. */
static int64_t bound_at(const struct terms *t, int64_t bb, int customer)
{
    return most(t->nbb, bb + (t->small || customer));
}

/* Of an order in form. */
static struct terms terms_of(const unsigned char *order)
{
    struct terms t;
    struct peer_order *o = &t.raw;
    int sell = order[0] == PEER_SELL;

    peer_read_order(order, o);
    t.sign = sell ? -1 : 1;
    t.small = o->size < 50;
    t.limit = t.sign * o->limit;
    t.stop = t.sign * o->stop;
    t.nbb = t.sign * (sell ? o->nbo : o->nbb);
    t.nbo = t.sign * (sell ? o->nbb : o->nbo);
    t.bb = t.sign * (sell ? o->bo : o->bb);
    t.bo = t.sign * (sell ? o->bb : o->bo);
    t.customer = (o->marks & (sell ? PEER_CUST_BO : PEER_CUST_BB)) != 0;
    t.collared = any_set(order + 48, 8);
    t.offer = t.collared ? t.sign * word_at(order + 48) - word_at(order + 52) : t.bo;
    t.bound = bound_at(&t, t.bb, t.customer);
    t.init = t.plain = least(t.limit, t.nbo);
    if (t.small) {
        t.init = least(t.init, t.offer - 1);
        t.plain = least(t.plain, t.bo - 1);
    }
    return t;
}

static int is_11(const struct terms *t) { return t->raw.mode != PEER_MATCH && t->stop > t->init; }

static int is_12(const struct terms *t)
{
    int64_t guaranteed = t->raw.mode == PEER_MATCH ? t->init : most(t->stop, t->bound);

    return t->small && t->nbo - t->nbb == 1 && guaranteed != t->nbo - 1;
}

/* The number 2 to 13 that an order in form has to get, or 0. */
static int order_due(const struct terms *t)
{
    const struct peer_order *o = &t->raw;

    if (t->bb > t->nbb || t->bo < t->nbo)
        return 2;
    if (o->size == 0)
        return 3;
    if (o->time < o->open)
        return 4;
    if (o->close <= o->time || o->close - o->time <= 1000)
        return 5;
    if (o->marks & PEER_HALTED)
        return 6;
    if (o->marks & PEER_OTHER_OPEN)
        return 7;
    if (t->nbb >= t->nbo)
        return 8;
    if (t->small && t->bo - t->bb == 1)
        return 9;
    if (t->limit < t->bound)
        return 10;
    if (t->init < t->bound)
        return 13;
    return is_11(t) ? 11 : is_12(t) ? 12 : 0;
}

/* The same without the collar. */
static int order_due_without(const struct terms *t)
{
    struct terms plain = *t;

    plain.init = t->plain;
    return order_due(&plain);
}

/* The quotes as the records leave them. */
struct quotes {
    int64_t nbb, nbo, bb, bo;
    int customer;                           /* at BB */
};

static struct quotes first_quotes(const struct terms *t)
{
    struct quotes q = { t->nbb, t->nbo, t->bb, t->bo, t->customer };

    return q;
}

static struct quotes quotes_of(const struct terms *t, const struct peer_event *e)
{
    int sell = t->sign < 0;
    struct quotes q;

    q.nbb = t->sign * e->field[sell ? 1 : 0];
    q.nbo = t->sign * e->field[sell ? 0 : 1];
    q.bb = t->sign * e->field[sell ? 3 : 2];
    q.bo = t->sign * e->field[sell ? 2 : 3];
    q.customer = (e->marks & (sell ? PEER_CUST_BO : PEER_CUST_BB)) != 0;
    return q;
}

static int is_own(const struct terms *t, const struct peer_event *e) { return e->side == t->raw.side; }
static int64_t signed_price(const struct terms *t, const struct peer_event *e) { return t->sign * price_of(e); }

/* How the auction has to stand after a record that was applied; the quotes
 * move if it goes on. Nothing here looks at the collar but for the initiating
 * price. */
static int ending_due(const struct terms *t, struct quotes *q, const struct peer_event *e)
{
    int hidden = (e->marks & PEER_NON_ROUTABLE) != 0, customer = (e->marks & PEER_CUSTOMER) != 0;
    int64_t price = signed_price(t, e);
    struct quotes then = *q;

    switch (e->kind) {
    case PEER_MARKET:
        return is_own(t, e) ? PEER_BY_SAME : PEER_BY_OPPOSITE;
    case PEER_LIMIT:
        if (!is_own(t, e))
            return price <= (hidden ? q->bb : q->nbb) ? PEER_BY_OPPOSITE : PEER_OPEN;
        if (price >= (hidden ? q->bo : q->nbo))
            return PEER_BY_SAME;
        if (price >= q->bb)
            then.customer = customer || (price == q->bb && q->customer);
        then.bb = most(q->bb, price);
        then.nbb = most(q->nbb, price);
        break;
    case PEER_QUOTES:
        then = quotes_of(t, e);
        break;
    default:
        return PEER_OPEN;
    }
    if (bound_at(t, then.bb, then.customer) > t->init)
        return PEER_BY_IMPROVE;
    *q = then;
    return PEER_OPEN;
}

/* ------------------------------------------------------------------ */
/* stats                                                              */

#define NUMBERS 39
#define COLUMNS 6                           /* buy and sell, each in modes 1, 2, 3 */

enum cause {
    TIME_LATE, TIME_CLOSE, SAME_LIMIT, SAME_MARKET, OPP_LIMIT, OPP_MARKET, IMPROVE_BID, IMPROVE_QUOTES, CAUSES
};

static const char *const cause_name[CAUSES] = {
    "time, late event", "time, closed", "same, limit", "same, market",
    "opposite, limit", "opposite, market", "improve, bid", "improve, quotes"
};

/* What comes up with amends. */
enum amend {
    AMEND_TAKEN, AMEND_32, AMEND_33, AMEND_36, AMEND_36_OF_NONE, AMEND_37, AMEND_LATE, AMEND_FULL, AMEND_CUSTOMER,
    AMEND_CHAIN, AMEND_CAPPED, AMEND_TOP, AMEND_UNDER, AMEND_OLD_NAME, AMEND_TRADES, AMENDS
};

static const char *const amend_name[AMENDS] = {
    "amend taken", "amend 32", "amend 33", "amend 36", "amend 36, no such GTX", "amend 37", "amend late",
    "amend, 64 live", "amend of a Customer", "amend of an amend", "amend capped", "amend at the top",
    "amend under the bound", "amend of an old name", "amended one trades"
};

/* Counts one record of kind 6; the fold is of those before it. */
static void count_amend(long cell[AMENDS][COLUMNS], int column, const struct peer_run *r, const struct records *events,
                        const struct fold *f, int i)
{
    struct peer_event e = record(events, i);
    int answer = r->event[i].answer, k = named(f, e.field[0]), made = place_of(r, e.field[0]);
    uint32_t price = as_buy(&r->start, price_of(&e)), old = made >= 0 && made < i ? record(events, made).kind : 0;

    cell[AMEND_32][column] += answer == 32;
    cell[AMEND_33][column] += answer == 33;
    cell[AMEND_36][column] += answer == 36;
    cell[AMEND_36_OF_NONE][column] += answer == 36 && k < 0;
    cell[AMEND_37][column] += answer == 37;
    cell[AMEND_OLD_NAME][column] += answer == 37 && (old == PEER_GTX || old == PEER_AMEND);
    cell[AMEND_LATE][column] += answer == PEER_LATE;
    if (answer != PEER_TAKEN || k < 0)
        return;
    cell[AMEND_TAKEN][column]++;
    cell[AMEND_FULL][column] += f->n == PEER_PLACES;
    cell[AMEND_CUSTOMER][column] += f->live[k].customer;
    cell[AMEND_CHAIN][column] += old == PEER_AMEND;
    cell[AMEND_CAPPED][column] += size_of(&e) > r->start.order.size;
    cell[AMEND_TOP][column] += price == r->start.init;
    cell[AMEND_UNDER][column] += price < peer_bound(&r->start);
}

static void count_amends(long cell[AMENDS][COLUMNS], int column, const struct peer_run *r, const struct records *events)
{
    struct fold f = { .n = 0 };
    int i;

    for (i = 0; i < r->n_events; i++) {
        struct peer_event e = record(events, i);

        if (e.kind == PEER_AMEND)
            count_amend(cell, column, r, events, &f, i);
        fold_record(&f, &r->start, &e, r->event[i].answer);
    }
    for (i = 0; i < r->n_fills; i++) {
        int made = place_of(r, r->fill[i].party);

        cell[AMEND_TRADES][column] += made >= 0 && record(events, made).kind == PEER_AMEND;
    }
}

/* What comes up with the contracts on offer; the eight refusals are in a row. */
enum watch {
    WATCH_CAPPED, WATCH_CAPPED_GONE, WATCH_CAPPED_DOWN, WATCH_CAPPED_AGAIN, WATCH_AMENDED_GONE, WATCH_ALL_GONE,
    WATCH_DOWN, WATCH_DOWN_ONE, WATCH_UP, WATCH_UP_ONE, WATCH_TO_CAP, WATCH_PAST_CAP,
    WATCH_WHOLE, WATCH_LARGE, WATCH_GREATEST, WATCH_GREATEST_38, WATCH_GREATEST_LEFT, WATCH_RESEND, WATCH_RESEND_GONE,
    WATCH_AT_31, WATCH_LATE = WATCH_AT_31 + 8, WATCH_ENDS_PLACED, WATCH_ENDS_WHOLE, WATCH_ENDS_ABOVE, WATCH_ABOVE,
    WATCH_ENDS_MARKET, WATCHES
};

static const char *const watch_name[WATCHES] = {
    "GTX capped", "capped one cancelled", "capped one down", "capped one capped", "amended one cancelled",
    "the last one cancelled", "amend down", "amend down by one", "amend up", "amend up by one", "amend up to the cap",
    "amend up past the cap", "limit above CUBE size", "20 of 99,990 and more", "6,400,000 on offer",
    "6,400,000 and 38", "6,400,000 and less", "resend of a live one", "resend of one gone",
    "31, some on offer", "32, some on offer", "33, some on offer", "34, some on offer",
    "35, some on offer", "36, some on offer", "37, some on offer", "38, some on offer", "late, some on offer",
    "opposite, placed", "opposite, above size", "opposite, no place", "taken, no place", "market, some on offer"
};

#define MOST_ON_OFFER ((uint64_t)PEER_PLACES * PEER_SIZE_MAX)

/* Kinds that can move what is on offer. */
static int can_move(uint32_t kind)
{
    return kind == PEER_GTX || kind == PEER_CANCEL || kind == PEER_LIMIT || kind == PEER_AMEND;
}

/* A limit order above the initiating price takes no place. */
static int is_above(const struct peer_auction *start, const struct peer_event *e)
{
    return e->kind == PEER_LIMIT && is_opposite(start, e) && !needs_place(start, e);
}

/* Is it the very record of a GTX that was taken before? */
static int is_resend(const struct peer_run *r, const struct records *events, int i)
{
    struct peer_event e = record(events, i);
    int made = place_of(r, e.seq);

    return e.kind == PEER_GTX && made >= 0 && made < i &&
           memcmp(bytes_of(events, made), bytes_of(events, i), events->form) == 0;
}

/* How many live ones are of about the greatest size. */
static int count_large(const struct fold *f)
{
    int i, n = 0;

    for (i = 0; i < f->n; i++)
        n += f->live[i].size >= PEER_SIZE_MAX - 10;
    return n;
}

/* Counts a cancel or an amend that was taken; the fold is of those before it. */
static void count_move(long cell[WATCHES][COLUMNS], int column, const struct peer_run *r, const struct records *events,
                       const struct fold *f, const struct peer_event *e)
{
    uint32_t cap = r->start.order.size, size = size_of(e), old;
    int k = named(f, e->field[0]), made = place_of(r, e->field[0]), capped;
    struct peer_event before;

    if (k < 0 || made < 0)
        return;
    before = record(events, made);
    capped = size_of(&before) > cap;
    old = f->live[k].size;
    cell[WATCH_GREATEST_LEFT][column] += fold_total(f) == MOST_ON_OFFER && (e->kind == PEER_CANCEL || size < old);
    if (e->kind == PEER_CANCEL) {
        cell[WATCH_CAPPED_GONE][column] += capped;
        cell[WATCH_AMENDED_GONE][column] += before.kind == PEER_AMEND;
        cell[WATCH_ALL_GONE][column] += f->n == 1;
        return;
    }
    cell[WATCH_CAPPED_DOWN][column] += capped && size < cap;
    cell[WATCH_CAPPED_AGAIN][column] += capped && size > cap;
    cell[WATCH_DOWN][column] += size < old;
    cell[WATCH_DOWN_ONE][column] += size + 1 == old;
    cell[WATCH_UP][column] += size > old && size < cap;
    cell[WATCH_UP_ONE][column] += size == old + 1 && size <= cap;
    cell[WATCH_TO_CAP][column] += size > old && size == cap;
    cell[WATCH_PAST_CAP][column] += size > cap && old < cap;
}

/* Counts one record; the fold is of those before it. */
static void count_watch(long cell[WATCHES][COLUMNS], int column, const struct peer_run *r, const struct records *events,
                        const struct fold *f, int i)
{
    struct peer_event e = record(events, i);
    int answer = r->event[i].answer, ended = answer == PEER_ENDED;
    int placed = applied(answer) && needs_place(&r->start, &e), large = size_of(&e) > r->start.order.size;

    if (f->n > 0 && can_move(e.kind) && answer >= 31)
        cell[WATCH_AT_31 + answer - 31][column]++;
    cell[WATCH_LATE][column] += f->n > 0 && can_move(e.kind) && answer == PEER_LATE;
    cell[WATCH_GREATEST_38][column] += answer == 38 && fold_total(f) == MOST_ON_OFFER;
    if (answer == 33 && f->n > 0 && is_resend(r, events, i))
        cell[named(f, e.seq) >= 0 ? WATCH_RESEND : WATCH_RESEND_GONE][column]++;
    if (!applied(answer))
        return;
    if (e.kind == PEER_CANCEL || e.kind == PEER_AMEND)
        count_move(cell, column, r, events, f, &e);
    cell[WATCH_CAPPED][column] += placed && e.kind == PEER_GTX && large;
    cell[WATCH_WHOLE][column] += placed && e.kind == PEER_LIMIT && large;
    cell[WATCH_ENDS_PLACED][column] += placed && ended;
    cell[WATCH_ENDS_WHOLE][column] += placed && ended && large;
    cell[WATCH_ENDS_ABOVE][column] += ended && is_above(&r->start, &e);
    cell[WATCH_ABOVE][column] += !ended && is_above(&r->start, &e);
    cell[WATCH_ENDS_MARKET][column] += ended && e.kind == PEER_MARKET && f->n > 0;
}

static void count_watches(long cell[WATCHES][COLUMNS], int column, const struct peer_run *r, const struct records *events)
{
    struct fold f = { .n = 0 };
    int i, large = 0, greatest = 0;

    for (i = 0; i < r->n_events; i++) {
        struct peer_event e = record(events, i);

        count_watch(cell, column, r, events, &f, i);
        fold_record(&f, &r->start, &e, r->event[i].answer);
        large |= count_large(&f) >= 20;
        greatest |= fold_total(&f) == MOST_ON_OFFER;
    }
    cell[WATCH_LARGE][column] += large;     /* these two by the tape */
    cell[WATCH_GREATEST][column] += greatest;
}

/* What comes up where others share fewer contracts than their sizes. The last
 * two can't come up in every mode. */
enum share {
    SHARE_LEFT, SHARE_EVEN, SHARE_ALONE, SHARE_LATER, SHARE_SMALLER, SHARE_CUT, SHARE_CUT_SIZES, SHARE_CUT_AMENDED,
    SHARE_CUT_AGAIN, SHARE_ZERO, SHARE_ZERO_FIRST, SHARE_SHORT, SHARE_FEW, SHARE_MANY, SHARE_WHOLE, SHARE_CUSTOMERS,
    SHARE_PAST, SHARE_UNDER, SHARE_MARKET, SHARE_ENDS, SHARE_CONTRA, SHARE_BELOW, SHARE_HELD, SHARES
};

static const char *const share_name[SHARES] = {
    "leftovers", "shares, no leftovers", "one shares alone", "leftover, later one", "leftover, smaller size",
    "equal parts cut", "cut, unequal sizes", "cut, amended in place", "cut, place taken again", "part of 0",
    "part of 0, earlier", "T is R + 1", "R below the members", "40 members or more", "member above CUBE size",
    "Customers beside", "R x s past 32 bits", "member under the bound", "after a market order", "member that ends it",
    "leftovers with Contra", "leftovers below stop", "leftovers, G held"
};

/* Counts two members of whom only the first has a leftover. The equal parts
 * are cut between them if theirs are equal; then the second may stand before
 * the first, since it was amended or came to a place that was free again. */
static void see_pair(int *seen, const struct peer_run *r, const struct records *events, const struct shares *s,
                     int i, int j)
{
    const struct peer_response *with = &s->of[i], *without = &s->of[j];
    uint64_t earlier = 0;
    int k;

    seen[SHARE_LATER] |= with->seq > without->seq;
    seen[SHARE_SMALLER] |= with->size < without->size;
    if (fraction(s, j) == 0) {
        for (k = 0; k < s->n; k++)
            earlier += s->of[k].seq < without->seq;
        seen[SHARE_ZERO] = 1;
        seen[SHARE_ZERO_FIRST] |= earlier < s->over;
    }
    if (fraction(s, i) != fraction(s, j))
        return;
    seen[SHARE_CUT] = 1;
    seen[SHARE_CUT_SIZES] |= with->size != without->size;
    if (s->place[j] < s->place[i]) {
        int amended = record(events, place_of(r, without->seq)).kind == PEER_AMEND;

        seen[amended ? SHARE_CUT_AMENDED : SHARE_CUT_AGAIN] = 1;
    }
}

static void see_member(int *seen, const struct peer_run *r, const struct shares *s, int i)
{
    const struct peer_response *m = &s->of[i];

    seen[SHARE_WHOLE] |= m->size > r->end.order.size;
    seen[SHARE_PAST] |= s->r * m->size > UINT32_MAX;
    seen[SHARE_UNDER] |= m->price < s->price;
    seen[SHARE_ENDS] |= r->event[place_of(r, m->seq)].answer == PEER_ENDED;
}

static void see_share(int *seen, const struct peer_run *r, const struct records *events, const struct shares *s,
                      int n_live)
{
    uint64_t held = contra_below(r, s->price);
    int more[PEER_PLACES], i, j;

    seen[SHARE_ALONE] = s->n == 1;
    seen[SHARE_EVEN] = s->n > 1 && s->over == 0;
    if (s->over == 0)
        return;
    for (i = 0; i < s->n; i++)
        more[i] = s->got[i] > whole_part(s, i);
    for (i = 0; i < s->n; i++) {
        see_member(seen, r, s, i);
        for (j = 0; j < s->n; j++)
            if (more[i] && !more[j])
                see_pair(seen, r, events, s, i, j);
    }
    seen[SHARE_LEFT] = 1;
    seen[SHARE_SHORT] = s->r + 1 == s->t;
    seen[SHARE_FEW] = s->r < (uint64_t)s->n;
    seen[SHARE_MANY] = s->n >= 40;
    seen[SHARE_CUSTOMERS] = s->customers > 0;
    seen[SHARE_MARKET] = r->end.market_size > 0;
    seen[SHARE_CONTRA] = contra_below(r, s->price + 1) > held;
    seen[SHARE_BELOW] = s->price < r->end.order.stop;
    seen[SHARE_HELD] = held >= guarantee_of(r->end.order.size, n_live);
}

static void count_shares(long cell[SHARES][COLUMNS], int column, const struct peer_run *r, const struct records *events)
{
    struct fold f = { .n = 0 };
    uint32_t price = 0;
    int i;

    for (i = 0; i < r->n_events; i++) {
        struct peer_event e = record(events, i);

        fold_record(&f, &r->start, &e, r->event[i].answer);
    }
    while ((price = next_price(r, &f, price)) != 0) {
        struct shares s = shares_at(r, &f, price);
        int seen[SHARES] = { 0 };

        if (s.r > 0 && s.r < s.t)
            see_share(seen, r, events, &s, f.n);
        for (i = 0; i < SHARES; i++)
            cell[i][column] += seen[i];
    }
}

/* What comes up with a collar, said as of a buy; the numbers 2 to 10 are in a
 * row, and so are the endings. "Moved" is said of the initiating price. The last
 * three can't come up in mode 2. */
enum collar {
    COLLAR_1_DISPLAYED, COLLAR_1_COLLAR, COLLAR_1_HIGH, COLLAR_1_WIDE, COLLAR_1_MILLION, COLLAR_1_ZERO, COLLAR_1_BELOW,
    COLLAR_1_WRAPS, COLLAR_1_LARGE, COLLAR_1_BEHIND, COLLAR_LEAST, COLLAR_GREATEST,
    COLLAR_SMALL, COLLAR_49, COLLAR_50, COLLAR_LARGE, COLLAR_LARGE_EMPTY, COLLAR_ABOVE, COLLAR_AT, COLLAR_BELOW,
    COLLAR_NO_BO, COLLAR_DOWN, COLLAR_UP, COLLAR_LIMIT, COLLAR_ONE_PRICE, COLLAR_TWO_PRICES,
    COLLAR_13_BY_ONE, COLLAR_13_BY_MORE, COLLAR_13_AT_49, COLLAR_13_LIMIT, COLLAR_13_NOT_9, COLLAR_13_ALONE,
    COLLAR_13_AND_12, COLLAR_10_AND_13, COLLAR_10_ALONE, COLLAR_9_FAR, COLLAR_2_FAR,
    COLLAR_AT_2, COLLAR_12_NEW = COLLAR_AT_2 + 9, COLLAR_12_GONE,
    COLLAR_LATE, COLLAR_36 = COLLAR_LATE + CAUSES, COLLAR_NOT_36, COLLAR_NO_PLACE, COLLAR_BID, COLLAR_BID_LARGE,
    COLLAR_SAME, COLLAR_QUOTES, COLLAR_MARKET, COLLAR_TOP, COLLAR_PRICES,
    COLLAR_13_AND_11, COLLAR_11_NEW, COLLAR_11_GONE, COLLARS
};

static const char *const collar_name[COLLARS] = {
    "1, displayed alone", "1, collar alone", "1, displayed too high", "1, collar too high", "1, field 1,000,000",
    "1, result 0", "1, result past 0", "1, words that wrap", "1 by it, 50 and up", "1, bytes 56 to 63",
    "the least result", "the greatest result",
    "collar, under 50", "collar, size 49", "collar, size 50", "collar, 50 and up", "50 up, empty below 50",
    "offer above BO", "offer at BO", "offer below BO", "offer, no BO quoted", "range let down", "range let up",
    "offer at limit + 1", "range of one price", "range of two prices",
    "13 by one cent", "13 by more", "13, size 49", "13, limit at the bound", "13, offer is BB + 1", "13, no 11 or 12",
    "13, 12 holds too", "10, offer gives 13 too", "10, offer wouldn't", "9, offer wouldn't", "2, offer wouldn't",
    "2 with a collar", "3 with a collar", "4 with a collar", "5 with a collar", "6 with a collar", "7 with a collar",
    "8 with a collar", "9 with a collar", "10 with a collar", "12 by the collar", "12 gone by it",
    "moved, late event", "moved, closed", "moved, same, limit", "moved, same, market", "moved, opp., limit",
    "moved, opp., market", "moved, improve, bid", "moved, improve, quotes",
    "36 by the collar", "36 gone by it", "no place by it", "bid at offer, not same", "50 up, bid at offer",
    "same at BO below offer", "moved, quotes taken", "moved, market alone", "moved, fill at the top",
    "moved, more prices",
    "13, 11 holds too", "11 by the collar", "11 gone by it"
};

/* Counts the words from 48 on of an order with number 1, where all else is in form. */
static void count_collar_form(long cell[COLLARS][COLUMNS], int column, const unsigned char *order)
{
    unsigned char plain[PEER_ORDER_BYTES];
    struct peer_order o;
    int64_t displayed = word_at(order + 48), collar = word_at(order + 52);
    int64_t result = order[0] == PEER_SELL ? 1000000 - displayed - collar : displayed - collar;
    uint32_t low = (uint32_t)(order[0] == PEER_SELL ? displayed + collar : displayed - collar);
    int priced = displayed >= 1 && displayed <= 999999, collar_priced = collar >= 1 && collar <= 999999;

    memcpy(plain, order, PEER_ORDER_BYTES);
    memset(plain + 48, 0, 16);
    peer_read_order(plain, &o);
    if (!peer_order_form(&o))
        return;
    cell[COLLAR_1_BEHIND][column] += any_set(order + 56, 8) && collar_in_form(order);
    if (collar_in_form(order))
        return;
    cell[COLLAR_1_DISPLAYED][column] += priced && collar == 0;
    cell[COLLAR_1_COLLAR][column] += displayed == 0 && collar_priced;
    cell[COLLAR_1_HIGH][column] += displayed > 999999 && collar_priced;
    cell[COLLAR_1_WIDE][column] += priced && collar > 999999;
    cell[COLLAR_1_MILLION][column] += (displayed == 1000000 && collar_priced) || (priced && collar == 1000000);
    cell[COLLAR_1_ZERO][column] += priced && collar_priced && result == 0;
    cell[COLLAR_1_BELOW][column] += priced && collar_priced && result < 0;
    cell[COLLAR_1_WRAPS][column] += displayed > 0 && collar > 0 && !(priced && collar_priced) && low >= 1 &&
                                    low <= 999999;
    cell[COLLAR_1_LARGE][column] += o.size >= 50;
}

/* Counts a collared order in form by its number. */
static void count_collar_number(long cell[COLLARS][COLUMNS], int column, const struct terms *t, int number)
{
    int without = order_due_without(t), empty = t->offer - 1 < t->bound;

    cell[COLLAR_LEAST][column] += t->offer == (t->sign > 0 ? 1 : -999999);
    cell[COLLAR_GREATEST][column] += t->offer == (t->sign > 0 ? 999998 : -2);
    if (number >= 2 && number <= 10)
        cell[COLLAR_AT_2 + number - 2][column]++;
    cell[COLLAR_2_FAR][column] += number == 2 && t->bo < t->nbo && t->offer >= t->nbo;
    cell[COLLAR_9_FAR][column] += number == 9 && t->offer - t->bb != 1;
    cell[COLLAR_10_AND_13][column] += number == 10 && t->small && empty;
    cell[COLLAR_10_ALONE][column] += number == 10 && t->small && !empty;
    cell[COLLAR_11_NEW][column] += number == 11 && without == 0;
    cell[COLLAR_11_GONE][column] += number == 0 && without == 11;
    cell[COLLAR_12_NEW][column] += number == 12 && without != 12;
    cell[COLLAR_12_GONE][column] += number != 12 && number != 13 && without == 12;
    if (number == 13) {
        cell[COLLAR_13_BY_ONE][column] += t->init + 1 == t->bound;
        cell[COLLAR_13_BY_MORE][column] += t->init + 1 < t->bound;
        cell[COLLAR_13_AT_49][column] += t->raw.size == 49;
        cell[COLLAR_13_LIMIT][column] += t->limit == t->bound;
        cell[COLLAR_13_NOT_9][column] += t->offer - t->bb == 1;
        cell[COLLAR_13_ALONE][column] += !is_11(t) && !is_12(t);
        cell[COLLAR_13_AND_11][column] += is_11(t);
        cell[COLLAR_13_AND_12][column] += is_12(t);
    }
    if (number != 0)
        return;
    cell[COLLAR_50][column] += t->raw.size == 50;
    cell[COLLAR_LARGE][column] += !t->small;
    cell[COLLAR_LARGE_EMPTY][column] += !t->small && empty;
    if (!t->small)
        return;
    cell[COLLAR_SMALL][column]++;
    cell[COLLAR_49][column] += t->raw.size == 49;
    cell[COLLAR_ABOVE][column] += t->offer > t->bo;
    cell[COLLAR_AT][column] += t->offer == t->bo;
    cell[COLLAR_BELOW][column] += t->offer < t->bo;
    cell[COLLAR_NO_BO][column] += t->bo == (t->sign > 0 ? 1000000 : 0);
    cell[COLLAR_DOWN][column] += t->init < t->plain;
    cell[COLLAR_UP][column] += t->init > t->plain;
    cell[COLLAR_LIMIT][column] += t->offer - 1 == t->limit;
    cell[COLLAR_ONE_PRICE][column] += t->init < t->plain && t->init == t->bound;
    cell[COLLAR_TWO_PRICES][column] += t->init < t->plain && t->init == t->bound + 1;
}

/* Counts one record of an auction with a collar, under the quotes before it. */
static void count_collar_event(long cell[COLLARS][COLUMNS], int column, const struct terms *t, const struct quotes *q,
                               const struct peer_event *e, int answer)
{
    int64_t price = signed_price(t, e);
    int hidden_bid = e->kind == PEER_LIMIT && is_own(t, e) && (e->marks & PEER_NON_ROUTABLE);
    int response = e->kind == PEER_AMEND || (e->kind == PEER_GTX && !is_own(t, e));

    if (hidden_bid && applied(answer) && price >= t->offer && price < q->bo)
        cell[t->small ? COLLAR_BID : COLLAR_BID_LARGE][column]++;
    cell[COLLAR_SAME][column] += hidden_bid && answer == PEER_ENDED && price < t->offer && price >= q->bo;
    cell[COLLAR_36][column] += response && answer == 36 && price <= t->plain;
    cell[COLLAR_NOT_36][column] += response && answer == PEER_TAKEN && price > t->plain;
    cell[COLLAR_NO_PLACE][column] += e->kind == PEER_LIMIT && !is_own(t, e) && applied(answer) && price > t->init &&
                                     price <= t->plain;
    cell[COLLAR_QUOTES][column] += e->kind == PEER_QUOTES && answer == PEER_TAKEN && t->init != t->plain;
}

/* Counts the events and fills of an auction with a collar. */
static void count_collared(long cell[COLLARS][COLUMNS], int column, const struct peer_run *r,
                           const struct records *events, const struct terms *t, int cause)
{
    struct quotes q = first_quotes(t);
    int i, top = 0, prices = 1;

    for (i = 0; i < r->n_events; i++) {
        struct peer_event e = record(events, i);

        count_collar_event(cell, column, t, &q, &e, r->event[i].answer);
        if (applied(r->event[i].answer))
            ending_due(t, &q, &e);
    }
    if (t->init == t->plain)
        return;
    for (i = 0; i < r->n_fills; i++) {
        top |= t->sign * r->fill[i].price == t->init;
        prices += i > 0 && r->fill[i].price != r->fill[i - 1].price;
    }
    cell[COLLAR_LATE + cause][column]++;
    cell[COLLAR_MARKET][column] += cause == OPP_MARKET && r->end.n_live == 0;
    cell[COLLAR_TOP][column] += top;
    cell[COLLAR_PRICES][column] += prices > 1;
}

/* What comes up with participants, on new tapes; the six kinds are in a row.
 * "Told" is said of a participant that stands by a fill. */
enum firm {
    FIRM_ACCEPTED, FIRM_32, FIRM_32_FIRM, FIRM_KIND, FIRM_GTX = FIRM_KIND + 6, FIRM_LIMIT, FIRM_ENDS, FIRM_ZERO,
    FIRM_GREATEST, FIRM_EQUAL, FIRM_AMENDED, FIRM_AMENDED_ZERO, FIRM_AMENDED_TWICE, FIRM_OTHER_CANCEL, FIRM_OTHER_REFUSED,
    FIRM_OTHER_RESEND, FIRM_OTHER_LATE, FIRM_MARKET, FIRMS
};

static const char *const firm_name[FIRMS] = {
    "new form, accepted", "32 by the last word", "the same, participant",
    "participant, GTX", "participant, cancel", "participant, limit", "participant, market", "participant, quotes",
    "participant, amend", "told, GTX", "told, limit order", "told, it ended it", "told, 0", "told, 4294967295",
    "told, two are equal", "told, amended", "told, amended to 0", "told, amended twice", "cancelled by another",
    "told, other's amend 36", "told, other's resend", "told, other's late", "participant of market"
};

/* Is nothing wrong with a new record but its last word? */
static int only_last_word(const struct records *events, int i)
{
    struct peer_event e;

    peer_read_event(bytes_of(events, i), PEER_OLD, &e);
    return events->form == PEER_NEW && peer_event_form(&e) && any_set(bytes_of(events, i) + 36, 4);
}

/* Counts a response that trades, made by the record at a place. */
static void count_told(long cell[FIRMS][COLUMNS], int column, const struct peer_run *r, const struct records *events,
                       int made)
{
    struct peer_event e = record(events, made), old;
    int i, k;

    cell[FIRM_GTX][column] += e.kind == PEER_GTX && e.participant != 0;
    cell[FIRM_LIMIT][column] += e.kind == PEER_LIMIT && e.participant != 0;
    cell[FIRM_ENDS][column] += e.kind == PEER_LIMIT && e.participant != 0 && r->event[made].answer == PEER_ENDED;
    cell[FIRM_ZERO][column] += e.participant == 0;
    cell[FIRM_GREATEST][column] += e.participant == UINT32_MAX;
    if (e.kind == PEER_AMEND && (k = place_of(r, e.field[0])) >= 0) {
        old = record(events, k);
        cell[FIRM_AMENDED][column] += old.participant != e.participant;
        cell[FIRM_AMENDED_ZERO][column] += old.participant != 0 && e.participant == 0;
        cell[FIRM_AMENDED_TWICE][column] += old.kind == PEER_AMEND && old.participant != e.participant;
    }
    for (i = made + 1; i < events->n; i++) {        /* others that would have it, and don't */
        int answer = r->event[i].answer;
        struct peer_event other = record(events, i);

        if (other.participant == e.participant)
            continue;
        cell[FIRM_OTHER_REFUSED][column] += other.kind == PEER_AMEND && other.field[0] == e.seq && answer == 36;
        cell[FIRM_OTHER_LATE][column] += other.kind == PEER_AMEND && other.field[0] == e.seq && answer == PEER_LATE;
        cell[FIRM_OTHER_RESEND][column] += other.kind == e.kind && other.seq == e.seq && answer == 33;
    }
}

static void count_firms(long cell[FIRMS][COLUMNS], int column, const struct peer_run *r, const struct records *events)
{
    int i, j;

    if (events->form != PEER_NEW)
        return;
    cell[FIRM_ACCEPTED][column]++;
    for (i = 0; i < r->n_events; i++) {
        struct peer_event e = record(events, i);

        cell[FIRM_32][column] += r->event[i].answer == 32 && only_last_word(events, i);
        cell[FIRM_32_FIRM][column] += r->event[i].answer == 32 && only_last_word(events, i) && e.participant != 0;
        if (!applied(r->event[i].answer))
            continue;
        cell[FIRM_KIND + e.kind - PEER_GTX][column] += e.participant != 0;
        j = place_of(r, e.field[0]);
        cell[FIRM_OTHER_CANCEL][column] += e.kind == PEER_CANCEL && record(events, j).participant != e.participant;
    }
    for (i = 0; i < r->n_fills; i++) {
        int made = place_of(r, r->fill[i].party);
        struct peer_event e;

        if (made < 0)
            continue;
        e = record(events, made);
        if (e.kind == PEER_MARKET) {
            cell[FIRM_MARKET][column] += e.participant != 0;
            continue;
        }
        count_told(cell, column, r, events, made);
        for (j = 0; j < i; j++) {
            int before = place_of(r, r->fill[j].party);

            if (before >= 0 && e.participant != 0 && record(events, before).participant == e.participant)
                break;
        }
        cell[FIRM_EQUAL][column] += j < i;
    }
}

/* What comes up with the words of the forms, and with the moves between them. */
enum moves {
    FORM_NEW, FORM_OLD, FORM_22_NEAR, FORM_22_LAST_WORD, FORM_23_NEW, FORM_23_NEW_OF_OLD, FORM_23_OLD_OF_NEW,
    FORM_23_WRAPS, FORM_MISREAD,
    TO_NEW, TO_NEW_PREFIX, TO_NEW_ODD, TO_NEW_ODD_ORDER, TO_NEW_EMPTY, TO_NEW_UNDER, TO_NEW_FULL, TO_NEW_EMPTY_FULL,
    TO_NEW_21, TO_NEW_21_LONG, TO_NEW_22, TO_NEW_22_NOT_23, TO_NEW_22_BAD, TO_NEW_23, TO_NEW_26, TO_NEW_26_LEAST,
    TO_NEW_26_MANY,
    TO_OLD, TO_OLD_PREFIX, TO_OLD_ODD, TO_OLD_EMPTY, TO_OLD_FULL, TO_OLD_21, TO_OLD_22, TO_OLD_22_NOT_23,
    TO_OLD_22_BAD, TO_OLD_23, TO_OLD_25_FIRST, TO_OLD_25_LAST, TO_OLD_25_FIRM, TO_OLD_25_WORD, TO_OLD_25_FIRST_WORD,
    TO_OLD_25_LAST_WORD, TO_OLD_25_ONE_BYTE, MOVES
};

static const char *const moves_name[MOVES] = {
    "new form, opened", "old form, opened", "22, three letters of CUB2", "22, CUB2 and the last word", "23, CUB2",
    "23, CUB2, adds up for CUBT", "23, CUBT, adds up for CUB2", "23, CUB2, adds up if it wraps", "misread, but adds up",
    "move new", "move new, prefix", "move new, 32 on it", "move new, order is 1", "move new, no events",
    "move new, to 65,528 and up", "move new, to 65,536", "move new, 65,536, no events",
    "move new 21, too short", "move new 21, too long", "move new 22, is new", "move new 22, is new, lengths wrong",
    "move new 22, neither", "move new 23", "move new 26", "move new 26, to 65,544 at most", "move new 26, no prefix",
    "move old", "move old, prefix", "move old, 32 on it", "move old, no events", "move old, of 65,536", "move old 21",
    "move old 22, is old", "move old 22, is old, lengths wrong", "move old 22, neither", "move old 23",
    "move old 25, first alone", "move old 25, last alone", "move old 25, participants alone",
    "move old 25, last words alone", "move old 25, first's last word", "move old 25, last's last word",
    "move old 25, one byte alone"
};

/* Counts what a tape's last two words stop from moving back. */
static void count_25(long *cell, const struct records *events)
{
    long firms = 0, words = 0, records = 0, bytes = 0;
    int i, k, first = 0, last = 0;

    for (i = 0; i < events->n; i++) {
        const unsigned char *p = bytes_of(events, i);

        firms += any_set(p + 32, 4);
        words += any_set(p + 36, 4);
        records += any_set(p + 32, 8);
        for (k = 32; k < 40; k++)
            bytes += p[k] != 0;
        if (i == 0)
            first = any_set(p + 32, 8);
        if (i == events->n - 1)
            last = any_set(p + 32, 8);
    }
    first = first && records == 1 && events->n > 1;
    last = last && records == 1 && events->n > 1;
    cell[TO_OLD_25_FIRST] += first && firms;
    cell[TO_OLD_25_LAST] += last && firms;
    cell[TO_OLD_25_FIRST_WORD] += first && words;
    cell[TO_OLD_25_LAST_WORD] += last && words;
    cell[TO_OLD_25_FIRM] += words == 0;
    cell[TO_OLD_25_WORD] += firms == 0;
    cell[TO_OLD_25_ONE_BYTE] += bytes == 1;
}

/* Counts a tape that isn't in one of the two forms, or whose lengths are wrong. */
static void count_form(long *cell, const unsigned char *tape, size_t n, int number)
{
    const unsigned char *trailer = tape + n - PEER_TRAILER_BYTES;
    int is_new = memcmp(trailer, "CUB2", 4) == 0, is_old = memcmp(trailer, "CUBT", 4) == 0, same = 0, i;
    int64_t s = word_at(trailer + 4), count = word_at(trailer + 8), rest = (int64_t)n - 80;

    for (i = 0; i < 4; i++)
        same += trailer[i] == "CUB2"[i];
    cell[FORM_22_NEAR] += number == 22 && same == 3 && !is_old;
    cell[FORM_22_LAST_WORD] += number == 22 && is_new;
    if (number != 23)
        return;
    cell[FORM_23_NEW] += is_new;
    cell[FORM_23_NEW_OF_OLD] += is_new && s + 32 * count == rest;
    cell[FORM_23_OLD_OF_NEW] += is_old && s + 40 * count == rest;
    cell[FORM_23_WRAPS] += is_new && rest >= 0 && (uint32_t)(s + 40 * count) == (uint32_t)rest;
}

/* Counts the moves of one tape; the run is its own. */
static void count_moves(long *cell, const struct peer_run *r, const unsigned char *tape, size_t n)
{
    static unsigned char out[PEER_TAPE_MAX];
    size_t length = 0;
    int to_new = peer_move(tape, n, 1, out, sizeof out, &length), to_old, odd = 0, i;
    struct records events = { NULL, 0, 0 };
    struct peer_layout l;

    to_old = peer_move(tape, n, 0, out, sizeof out, &length);
    cell[TO_NEW_21] += to_new == 21 && n < 16;
    cell[TO_NEW_21_LONG] += to_new == 21 && n > 16;
    cell[TO_OLD_21] += to_old == 21;
    if (to_new == 21)
        return;
    count_form(cell, tape, n, r->refused);
    cell[TO_NEW_22] += to_new == 22 && to_old != 22;
    cell[TO_OLD_22] += to_old == 22 && to_new != 22;
    cell[TO_NEW_22_NOT_23] += to_new == 22 && to_old == 23;
    cell[TO_OLD_22_NOT_23] += to_old == 22 && to_new == 23;
    cell[TO_NEW_22_BAD] += to_new == 22 && to_old == 22;
    cell[TO_OLD_22_BAD] += to_new == 22 && to_old == 22;
    cell[TO_NEW_23] += to_new == 23;
    cell[TO_OLD_23] += to_old == 23;
    if (peer_read_tape(tape, n, &l) != 0)
        return;
    events = records_of(tape, &l);
    for (i = 0; i < events.n; i++) {
        struct peer_event e = record(&events, i);

        odd += !peer_event_form(&e);
    }
    cell[l.form == PEER_NEW ? FORM_NEW : FORM_OLD]++;
    cell[FORM_MISREAD] += events.n > 2 && odd == events.n;
    cell[TO_NEW] += to_new == 0;
    cell[TO_NEW_PREFIX] += to_new == 0 && l.at > 0;
    cell[TO_NEW_ODD] += to_new == 0 && odd > 0;
    cell[TO_NEW_ODD_ORDER] += to_new == 0 && r->refused == 1;
    cell[TO_NEW_EMPTY] += to_new == 0 && events.n == 0;
    cell[TO_NEW_UNDER] += to_new == 0 && n + 8 * l.events >= PEER_TAPE_MAX - 8 && n + 8 * l.events < PEER_TAPE_MAX;
    cell[TO_NEW_FULL] += to_new == 0 && n + 8 * l.events == PEER_TAPE_MAX && events.n > 0;
    cell[TO_NEW_EMPTY_FULL] += to_new == 0 && n == PEER_TAPE_MAX;
    cell[TO_NEW_26] += to_new == 26;
    cell[TO_NEW_26_LEAST] += to_new == 26 && n + 8 * l.events <= PEER_TAPE_MAX + 8;
    cell[TO_NEW_26_MANY] += to_new == 26 && l.at == 0;
    cell[TO_OLD] += to_old == 0;
    cell[TO_OLD_PREFIX] += to_old == 0 && l.at > 0;
    cell[TO_OLD_ODD] += to_old == 0 && odd > 0;
    cell[TO_OLD_EMPTY] += to_old == 0 && events.n == 0;
    cell[TO_OLD_FULL] += to_old == 0 && n == PEER_TAPE_MAX && events.n > 0;
    if (to_old == 25)
        count_25(cell, &events);
}

/* Which kind of ending a run had. */
static int cause_of(const struct peer_run *r, const struct records *events)
{
    int i;

    for (i = 0; i < r->n_events; i++) {
        struct peer_event e = record(events, i);

        if (r->event[i].answer == PEER_LATE)
            return TIME_LATE;
        if (r->event[i].answer != PEER_ENDED)
            continue;
        if (r->end.ending == PEER_BY_SAME)
            return e.kind == PEER_MARKET ? SAME_MARKET : SAME_LIMIT;
        if (r->end.ending == PEER_BY_OPPOSITE)
            return e.kind == PEER_MARKET ? OPP_MARKET : OPP_LIMIT;
        return e.kind == PEER_QUOTES ? IMPROVE_QUOTES : IMPROVE_BID;
    }
    return TIME_CLOSE;
}

static void print_row(const char *name, const long *cell)
{
    int k;
    long sum = 0;

    for (k = 0; k < COLUMNS; k++)
        sum += cell[k];
    printf("%-22s %7ld |", name, sum);
    for (k = 0; k < COLUMNS; k++)
        printf(" %6ld", cell[k]);
    printf("\n");
}

/* Names the columns of a row that are empty and gives their count; one mode may be left out. */
static long print_missing(const char *name, const long *cell, int but_mode)
{
    int k;
    long missing = 0;

    for (k = 0; k < COLUMNS; k++)
        if (cell[k] == 0 && k % 3 + 1 != but_mode && ++missing)
            printf("MISSING %s on %s in mode %d\n", name, k < 3 ? "buy" : "sell", k % 3 + 1);
    return missing;
}

/* A table of rows with its names, and a blank line. */
static void print_rows(const char *const *name, long cell[][COLUMNS], int n)
{
    int i;

    for (i = 0; i < n; i++)
        print_row(name[i], cell[i]);
    printf("\n");
}

static long print_rows_missing(const char *const *name, long cell[][COLUMNS], int n)
{
    int i;
    long missing = 0;

    for (i = 0; i < n; i++)
        missing += print_missing(name[i], cell[i], 0);
    return missing;
}

int stats(const char *dir)
{
    static unsigned char tape[PEER_TAPE_MAX + 1];
    static struct peer_run r;
    static long number[NUMBERS][COLUMNS], ending[CAUSES][COLUMNS], amend[AMENDS][COLUMNS],
                watch[WATCHES][COLUMNS], share[SHARES][COLUMNS], collar[COLLARS][COLUMNS], firm[FIRMS][COLUMNS];
    static long moves[MOVES];
    static long full_end[COLUMNS], only_one[COLUMNS], none[COLUMNS], many_prices[COLUMNS];
    static const int bucket_low[] = { 1, 2, 3, 4, 6, 10, 20, 40, 64, 100, 129, 130 };
    enum { BUCKETS = sizeof bucket_low / sizeof bucket_low[0] };
    static long bucket[BUCKETS][COLUMNS];
    long tapes, accepted = 0, refused_tape[NUMBERS] = { 0 }, missing = 0, some_refused = 0;
    struct peer_layout l;
    size_t n;
    int i, k;
    char name[40];

    for (tapes = 0; read_tape_file(dir, tapes, tape, &n); tapes++) {
        struct peer_order o;
        struct records events;
        struct terms t;
        int column, cause, seen = 0;

        peer_run(tape, n, 0, &r);
        count_moves(moves, &r, tape, n);
        if (r.refused >= 21) {
            refused_tape[r.refused]++;
            continue;
        }
        peer_read_tape(tape, n, &l);
        events = records_of(tape, &l);
        peer_read_order(tape + l.at, &o);
        column = (o.side == PEER_SELL ? 3 : 0) + (int)(o.mode >= 1 && o.mode <= 3 ? o.mode - 1 : 0);
        if (r.refused == 1)
            count_collar_form(collar, column, tape + l.at);
        else
            t = terms_of(tape + l.at);
        if (r.refused != 1 && t.collared)
            count_collar_number(collar, column, &t, r.refused);
        if (r.refused) {
            number[r.refused][column]++;
            continue;
        }
        accepted++;
        for (i = 0; i < r.n_events; i++) {
            if (r.event[i].answer > 0) {
                number[r.event[i].answer][column]++;
                seen = 1;
            }
        }
        some_refused += seen;
        cause = cause_of(&r, &events);
        ending[cause][column]++;
        if (t.collared)
            count_collared(collar, column, &r, &events, &t, cause);
        count_amends(amend, column, &r, &events);
        count_watches(watch, column, &r, &events);
        count_shares(share, column, &r, &events);
        count_firms(firm, column, &r, &events);
        full_end[column] += r.end.n_live == PEER_PLACES;
        only_one[column] += r.end.n_live == 1;
        none[column] += r.end.n_live == 0;
        for (i = BUCKETS - 1; bucket_low[i] > r.n_fills; i--)
            ;
        bucket[i][column]++;
        k = 0;
        for (i = 1; i < r.n_fills; i++)
            k += r.fill[i].price != r.fill[i - 1].price;
        many_prices[column] += k >= 2;
    }

    printf("tapes %ld, accepted %ld, of these with some refused event %ld\n", tapes, accepted, some_refused);
    printf("tapes refused: 21 %ld, 22 %ld, 23 %ld\n\n", refused_tape[21], refused_tape[22], refused_tape[23]);
    printf("%-22s %7s | %6s %6s %6s %6s %6s %6s\n", "", "all", "buy 1", "buy 2", "buy 3", "sell 1", "sell 2", "sell 3");
    for (i = 1; i < NUMBERS; i++) {
        if (i > 13 && i < 31)
            continue;
        sprintf(name, "number %d", i);
        print_row(name, number[i]);
    }
    printf("\n");
    print_rows(cause_name, ending, CAUSES);
    print_rows(amend_name, amend, AMENDS);
    print_rows(watch_name, watch, WATCHES);
    print_rows(share_name, share, SHARES);
    print_rows(collar_name, collar, COLLARS);
    print_rows(firm_name, firm, FIRMS);
    print_row("64 live at the end", full_end);
    print_row("one live at the end", only_one);
    print_row("none live at the end", none);
    print_row("3 or more prices", many_prices);
    for (i = 0; i < BUCKETS; i++) {
        if (i + 1 < BUCKETS && bucket_low[i + 1] > bucket_low[i] + 1)
            sprintf(name, "fills %d to %d", bucket_low[i], bucket_low[i + 1] - 1);
        else
            sprintf(name, "fills %d", bucket_low[i]);
        print_row(name, bucket[i]);
    }

    printf("\n");
    for (i = 0; i < MOVES; i++)
        printf("%-34s %7ld\n", moves_name[i], moves[i]);

    for (i = 21; i <= 23; i++)
        if (refused_tape[i] == 0 && ++missing)
            printf("MISSING number %d\n", i);
    for (i = 1; i < NUMBERS; i++) {
        if (i > 13 && i < 31)
            continue;
        sprintf(name, "number %d", i);
        missing += print_missing(name, number[i], i == 11 ? PEER_MATCH : 0);
    }
    missing += print_rows_missing(cause_name, ending, CAUSES);
    missing += print_rows_missing(amend_name, amend, AMENDS);
    missing += print_rows_missing(watch_name, watch, WATCHES);
    missing += print_rows_missing(share_name, share, SHARE_BELOW);
    missing += print_missing(share_name[SHARE_BELOW], share[SHARE_BELOW], PEER_MATCH);
    missing += print_missing(share_name[SHARE_HELD], share[SHARE_HELD], PEER_STOP);
    missing += print_rows_missing(collar_name, collar, COLLAR_13_AND_11);
    for (i = COLLAR_13_AND_11; i < COLLARS; i++)
        missing += print_missing(collar_name[i], collar[i], PEER_MATCH);
    missing += print_rows_missing(firm_name, firm, FIRMS);
    for (i = 0; i < MOVES; i++)
        if (moves[i] == 0 && ++missing)
            printf("MISSING %s\n", moves_name[i]);
    missing += print_missing("64 live at the end", full_end, 0);
    printf(missing ? "%ld cells missing\n" : "nothing missing\n", missing);
    return missing != 0;
}

/* ------------------------------------------------------------------ */
/* check                                                              */

static long current, faults;

static void fault(const char *what)
{
    faults++;
    printf("tape %05ld: %s\n", current, what);
}

/* What must hold of the fills, said without walking the prices; the live
 * responses are those that the records tell. */
static void check_fills(const struct peer_run *r, const struct fold *told)
{
    const struct peer_auction *a = &r->end;
    const struct peer_response *live = told->live;
    int n_live = told->n;
    uint32_t bound = peer_bound(a), stop = a->order.stop > bound ? a->order.stop : bound;
    uint32_t got[PEER_PLACES] = { 0 }, contra = 0, market = 0, top = 0;
    uint32_t guarantee = guarantee_of(a->order.size, n_live);
    uint64_t total = 0;
    int customer_of[PEER_FILLS_MAX], walked_others_at_top = 0;
    int i, j, k;

    if (r->n_fills > PEER_FILLS_MAX || r->n_fills < 1) {
        fault("count of fills");
        return;
    }
    if (bound > a->init)
        fault("bound above the initiating price");

    for (i = 0; i < r->n_fills; i++) {
        const struct peer_fill *f = &r->fill[i];
        uint32_t price = as_buy(a, f->price);

        total += f->quantity;
        customer_of[i] = 0;
        if (f->quantity == 0)
            fault("a fill of zero");
        if (price < bound || price > a->init)
            fault("price out of the range");
        for (j = 0; j < i; j++)
            if (r->fill[j].party == f->party && r->fill[j].price == f->price)
                fault("one party twice at a price");
        if (f->party == 0) {
            contra += f->quantity;
            if (a->order.mode == PEER_STOP && price != stop)
                fault("contra away from the stop");
            if (a->order.mode == PEER_MATCH_LIMIT && price < stop)
                fault("contra below its limit");
            if (price > top)
                top = price;
            continue;
        }
        if (a->market_size > 0 && f->party == a->market_seq) {
            market += f->quantity;
            if (i != 0)
                fault("the market order is not first");
            continue;
        }
        for (k = 0; k < n_live && live[k].seq != f->party; k++)
            ;
        if (k == n_live) {
            fault("a party that is not live");
            continue;
        }
        got[k] += f->quantity;
        customer_of[i] = live[k].customer;
        if (price != working(&live[k], bound))
            fault("a response away from its working price");
        if (price > top)
            top = price;
    }

    if (total != a->order.size)
        fault("fills don't add up");
    if (market > a->market_size || (a->market_size > 0 && market < a->market_size && market != a->order.size))
        fault("the market order's quantity");
    for (k = 0; k < n_live; k++) {
        uint32_t w = working(&live[k], bound);

        if (got[k] > live[k].size)
            fault("more than its size");
        if (live[k].gtx && live[k].size > a->order.size)
            fault("a GTX not capped");
        if (got[k] < live[k].size && w < top)
            fault("a better response is not filled");
        for (j = 0; j < n_live; j++) {
            if (working(&live[j], bound) != w)
                continue;
            if (!live[k].customer && got[k] > 0 && live[j].customer && got[j] < live[j].size)
                fault("a Customer is behind another");
            if (live[k].customer && live[j].customer && live[k].seq < live[j].seq && got[j] > 0 &&
                got[k] < live[k].size)
                fault("Customers out of sequence");
        }
        if (!live[k].customer && got[k] > 0 && w == top)
            walked_others_at_top = 1;
    }

    /* Where others trade at the guarantee price, Contra has its guarantee. */
    if (walked_others_at_top && contra < guarantee &&
        (a->order.mode == PEER_MATCH || top >= stop))
        fault("contra short of its guarantee");

    /* The order of the fills: price up; Customers, Contra, others; sequence up. */
    for (i = market > 0 ? 1 : 0; i + 1 < r->n_fills; i++) {
        const struct peer_fill *f = &r->fill[i], *g = &r->fill[i + 1];
        uint32_t p = as_buy(a, f->price), q = as_buy(a, g->price);
        int x = f->party == 0 ? 1 : customer_of[i] ? 0 : 2;
        int y = g->party == 0 ? 1 : customer_of[i + 1] ? 0 : 2;

        if (p > q || (p == q && (x > y || (x == y && f->party >= g->party))))
            fault("fills out of order");
    }
}

/* Pro rata, told by rank: each has its whole part, and one more where fewer
 * are ahead of it than there are leftovers. */
static void check_shares(const struct peer_run *r, const struct fold *told)
{
    uint32_t price = 0;
    int i;

    while ((price = next_price(r, told, price)) != 0) {
        struct shares s = shares_at(r, told, price);
        uint64_t held = contra_below(r, price + 1);

        if (s.r == s.t)
            continue;
        for (i = 0; i < s.n; i++)
            if (s.got[i] != whole_part(&s, i) + (ahead_of(&s, i) < s.over))
                fault("not its share");
        if (held > contra_below(r, price) && held > guarantee_of(r->end.order.size, told->n))
            fault("Contra has more than its guarantee, and others go short");
    }
}

/* The tape turned to the other side gives the run turned to the other side. */
static void check_mirror(const struct peer_run *r, const unsigned char *tape, size_t at, const struct records *events)
{
    static unsigned char turned[PEER_TAPE_MAX];
    static struct peer_run t;
    struct peer_order o;
    struct peer_event e;
    size_t n = 0;
    int i;

    peer_read_order(tape + at, &o);
    o = build_turn_order(o);
    build_order(turned, &o);
    n += PEER_ORDER_BYTES;
    for (i = 0; i < r->n_events; i++, n += events->form) {
        e = record(events, i);
        if (peer_event_form(&e)) {
            e = build_turn_event(e);
            build_event(turned + n, events->form, &e);
        } else {
            memcpy(turned + n, bytes_of(events, i), events->form);
        }
    }
    build_trailer(turned + n, events->form, 0, (uint32_t)r->n_events);
    n += PEER_TRAILER_BYTES;
    peer_run(turned, n, r->watch, &t);
    if (t.refused) {
        fault("the mirror is refused");
        return;
    }
    if (t.end.ending != r->end.ending || t.n_fills != r->n_fills || peer_bound(&t.end) != peer_bound(&r->end) ||
        t.end.init != r->end.init || t.end.sell == r->end.sell)
        fault("the mirror ends otherwise");
    for (i = 0; i < r->n_events; i++)
        if (t.event[i].answer != r->event[i].answer || t.event[i].on_offer != r->event[i].on_offer)
            fault("the mirror answers otherwise");
    for (i = 0; i < r->end.n_live && i < t.end.n_live; i++)
        if (t.end.live[i].seq != r->end.live[i].seq || t.end.live[i].participant != r->end.live[i].participant)
            fault("the mirror has another participant");
    for (i = 0; i < r->n_fills && i < t.n_fills; i++)
        if (t.fill[i].party != r->fill[i].party || t.fill[i].quantity != r->fill[i].quantity ||
            t.fill[i].price + r->fill[i].price != PEER_MIRROR)
            fault("the mirror fills otherwise");
}

/* The number 35 to 38 that a record in time has to get, or 0. */
static int number_due(const struct fold *f, const struct peer_auction *start, const struct peer_event *e)
{
    uint32_t own = start->sell ? PEER_SELL : PEER_BUY;

    if (e->kind == PEER_GTX && e->side == own)
        return 35;
    if ((e->kind == PEER_GTX || e->kind == PEER_AMEND) && as_buy(start, price_of(e)) > start->init)
        return 36;
    if ((e->kind == PEER_CANCEL || e->kind == PEER_AMEND) && named(f, e->field[0]) < 0)
        return 37;
    return needs_place(start, e) && f->n == PEER_PLACES ? 38 : 0;
}

/* Answers that must agree with each other along a tape; gives the live
 * responses that the records tell. */
static struct fold check_answers(const struct peer_run *r, const struct records *events)
{
    struct fold f = { .n = 0 };
    uint32_t top = 0, clock = 0;
    int i, over = 0;

    for (i = 0; i < r->n_events; i++) {
        struct peer_event e = record(events, i);
        int answer = r->event[i].answer;

        if (over != (answer == 31))
            fault("31 before the ending, or not after it");
        if (over)
            continue;
        if ((answer == 32) == peer_event_form(&e))
            fault("form and 32 differ");
        if (answer == 32)
            continue;
        if ((answer == 33) != (e.seq <= top))
            fault("33 and the sequence differ");
        if (answer == 33)
            continue;
        if ((answer == 34) != (e.time < clock))
            fault("34 and the clock differ");
        if (answer == 34)
            continue;
        if ((answer == PEER_LATE) != (e.time >= r->start.order.interval))
            fault("late and the interval differ");
        if (answer == PEER_LATE || answer == PEER_ENDED)
            over = 1;
        if (answer == PEER_LATE)
            continue;
        if ((applied(answer) ? 0 : answer) != number_due(&f, &r->start, &e))
            fault("not the number of 35 to 38 that is due");
        if (answer == PEER_ENDED && (e.kind == PEER_GTX || e.kind == PEER_CANCEL || e.kind == PEER_AMEND))
            fault("ended by a kind that ends nothing");
        fold_record(&f, &r->start, &e, answer);
        if (applied(answer)) {
            top = e.seq;
            clock = e.time;
        }
    }
    if (!over && r->end.ending != PEER_BY_TIME)
        fault("closed by hand, but not by time");
    return f;
}

/* After each record the watch tells the sum over the live responses; one that
 * is refused or late leaves it, and after the ending it stands. */
static void check_watch(const struct peer_run *r, const struct records *events)
{
    struct fold f = { .n = 0 };
    uint32_t before = 0;
    int i, over = 0;

    for (i = 0; i < r->n_events; i++) {
        struct peer_event e = record(events, i);
        int answer = r->event[i].answer;
        uint32_t now = r->event[i].on_offer;

        fold_record(&f, &r->start, &e, answer);
        if (now != fold_total(&f))
            fault("on offer is not the sum over the live responses");
        if (!applied(answer) && now != before)
            fault("a refused or late record moves what is on offer");
        if (over && now != before)
            fault("what is on offer moves after the ending");
        if (answer == PEER_ENDED || answer == PEER_LATE)
            over = 1;
        before = now;
    }
}

/* The watch is the listing, but for the numbers at the ends of EVENT lines. */
static void check_text(const struct peer_run *r, const unsigned char *tape, size_t n)
{
    static char plain[PEER_LISTING_MAX + 1], watch[PEER_LISTING_MAX + 1], want[PEER_LISTING_MAX + 1];
    char *from = plain, *to = want;
    int i = 0;

    plain[peer_listing(tape, n, plain)] = 0;
    watch[peer_print(r, watch)] = 0;
    if (strlen(watch) > PEER_LISTING_MAX)
        fault("listing too long");
    while (*from) {
        size_t line = strcspn(from, "\n");

        memcpy(to, from, line);
        to += line;
        if (strncmp(from, "EVENT ", 6) == 0)
            to += sprintf(to, " on offer %lu", (unsigned long)r->event[i++].on_offer);
        *to++ = '\n';
        from += line + 1;
    }
    *to = 0;
    if (strcmp(watch, want) != 0)
        fault("the watch is not the listing with its numbers");
}

/* The engine's live responses are those that the records tell. */
static void check_live(const struct peer_auction *a, const struct fold *f)
{
    int i, k;

    if (a->n_live != f->n)
        fault("the count of live responses");
    for (i = 0; i < a->n_live; i++) {
        const struct peer_response *x = &a->live[i];

        for (k = 0; k < f->n && f->live[k].seq != x->seq; k++)
            ;
        if (k == f->n || f->live[k].size != x->size || f->live[k].price != x->price ||
            f->live[k].customer != x->customer || f->live[k].gtx != x->gtx ||
            f->live[k].participant != x->participant)
            fault("a live response that the records don't tell");
    }
}

/* Each party's own record, without the fold: it was applied, nothing took it
 * away or amended it later, and it trades within its size and price. */
static void check_parties(const struct peer_run *r, const struct records *events)
{
    int i, j;

    for (i = 0; i < r->n_fills; i++) {
        const struct peer_fill *f = &r->fill[i];
        int made = place_of(r, f->party);
        uint64_t sum = 0;
        struct peer_event e;

        if (f->party == 0)
            continue;
        if (made < 0) {
            fault("a party without a record");
            continue;
        }
        e = record(events, made);
        if (e.kind == PEER_CANCEL || e.kind == PEER_QUOTES)
            fault("a party of a kind that can't trade");
        for (j = 0; j < r->n_fills; j++)
            if (r->fill[j].party == f->party)
                sum += r->fill[j].quantity;
        if (sum > size_of(&e) || sum > r->start.order.size)
            fault("more than its record's size");
        if (e.kind != PEER_MARKET && as_buy(&r->start, f->price) < as_buy(&r->start, price_of(&e)))
            fault("beyond its record's price");
        for (j = made + 1; j < r->n_events; j++) {
            if (!applied(r->event[j].answer))
                continue;
            e = record(events, j);
            if ((e.kind == PEER_CANCEL || e.kind == PEER_AMEND) && e.field[0] == f->party)
                fault("an old name trades");
        }
    }
}

/* The listing of a tape, but with another order. */
static void list_with(const unsigned char *tape, size_t n, size_t at, const unsigned char *order, char *out)
{
    static unsigned char other[PEER_TAPE_MAX];

    memcpy(other, tape, n);
    memcpy(other + at, order, PEER_ORDER_BYTES);
    out[peer_listing(other, n, out)] = 0;
}

/* Says what is wrong if a tape with another order isn't listed as it should be. */
static void lists_as(const unsigned char *tape, size_t n, size_t at, const unsigned char *order, const char *want,
                     const char *what)
{
    static char got[PEER_LISTING_MAX + 1];

    list_with(tape, n, at, order, got);
    if (strcmp(got, want) != 0)
        fault(what);
}

static int number_in(const char *listing)
{
    int number = 0;

    sscanf(listing, "REFUSED %d", &number);
    return number;
}

/* The range as it has to be printed, after whatever stands before it. */
static int print_range(char *out, const struct terms *t, int64_t bound)
{
    int64_t low = t->sign > 0 ? bound : -t->init, high = t->sign > 0 ? t->init : -bound;

    return sprintf(out, " range %ld to %ld\n", (long)low, (long)high);
}

/* Puts a collar into an order's bytes by which some offer counts; 0 if the
 * words would be out of form. */
static int put_collar(unsigned char *order, const struct terms *t, int64_t offer, int64_t collar)
{
    int64_t displayed = t->sign * (offer + collar);

    if (displayed < 1 || displayed > 999999)
        return 0;
    build_word(order + 48, (uint32_t)displayed);
    build_word(order + 52, (uint32_t)collar);
    return collar_in_form(order);
}

/* The order with its collar taken out: what must be the same, and what can't be
 * seen where the initiating price is the same. Where it is lower, the lower one
 * as the limit does what the collar did, but for 10 in place of 13. */
static void check_without(const unsigned char *tape, size_t n, size_t at, const struct terms *t, int number,
                          const char *listing)
{
    static char plain[PEER_LISTING_MAX + 1];
    unsigned char order[PEER_ORDER_BYTES];
    int without;

    memcpy(order, tape + at, PEER_ORDER_BYTES);
    memset(order + 48, 0, 8);
    list_with(tape, n, at, order, plain);
    without = number_in(plain);
    if (without == 13)
        fault("13 without a collar");
    if (number != without && ((number >= 2 && number <= 10) || (without >= 2 && without <= 10)))
        fault("a collar moves a number of 2 to 10");
    if ((number == 13) != ((without == 0 || without > 10) && t->init < t->bound && t->bound <= t->limit))
        fault("13 and the range differ");
    if ((!t->small || t->init == t->plain) && strcmp(plain, listing) != 0)
        fault("a collar is seen though the initiating price is the same");
    if (t->init < t->bo && t->sign * t->init >= 1 && t->sign * t->init <= 999999) {
        build_word(order + 8, (uint32_t)(t->sign * t->init));
        lists_as(tape, n, at, order, number == 13 ? "REFUSED 10\n" : listing, "a collar does more than a lower limit");
    }
}

/* An order without a collar, given one: of the quoted BO nothing is seen, and
 * from 50 on of none; under 50 one at the bound empties the range. */
static void check_with(const unsigned char *tape, size_t n, size_t at, const struct terms *t, int number,
                       const char *listing)
{
    unsigned char order[PEER_ORDER_BYTES];
    int64_t collar = 1 + current % 50;
    int empties = t->small && (number == 0 || number > 10);

    memcpy(order, tape + at, PEER_ORDER_BYTES);
    if (put_collar(order, t, t->bo, collar))
        lists_as(tape, n, at, order, listing, "a collar that makes the quoted BO is seen");
    if (put_collar(order, t, t->bound, collar))
        lists_as(tape, n, at, order, empties ? "REFUSED 13\n" : listing, "a collar that makes the bound");
    if (put_collar(order, t, t->sign > 0 ? 1 : -999999, collar) && !t->small)
        lists_as(tape, n, at, order, listing, "a collar is seen from 50 on");
}

/* The order's number, and its range as it is printed. */
static void check_order(const struct peer_run *r, const unsigned char *tape, size_t n, size_t at)
{
    static char listing[PEER_LISTING_MAX + 1];
    unsigned char order[PEER_ORDER_BYTES];
    char line[200];
    struct terms t;
    int k;

    memcpy(order, tape + at, PEER_ORDER_BYTES);
    memset(order + 48, 0, 16);
    list_with(tape, n, at, order, listing);
    if ((r->refused == 1) != (number_in(listing) == 1 || !collar_in_form(tape + at) || any_set(tape + at + 56, 8)))
        fault("1 and the words from 48 on differ");
    if (r->refused == 1)
        return;

    t = terms_of(tape + at);
    listing[peer_listing(tape, n, listing)] = 0;
    if (r->refused != order_due(&t))
        fault("not the number of 2 to 13 that is due");
    if (t.collared)
        check_without(tape, n, at, &t, r->refused, listing);
    else
        check_with(tape, n, at, &t, r->refused, listing);
    if (r->refused)
        return;
    if (t.init < t.bound || t.limit < t.bound)
        fault("accepted with an empty range");
    k = sprintf(line, "AUCTION %s size %lu", t.sign > 0 ? "buy" : "sell", (unsigned long)t.raw.size);
    print_range(line + k, &t, t.bound);
    if (strncmp(listing, line, strlen(line)) != 0)
        fault("not the range that is due");
}

/* The endings by the quotes that the records leave, and the last range as it
 * is printed. */
static void check_endings(const struct peer_run *r, const unsigned char *tape, size_t n, size_t at,
                          const struct records *events)
{
    static const char *const ending[] = { "open", "time", "same", "opposite", "improve" };
    static char listing[PEER_LISTING_MAX + 1];
    struct terms t = terms_of(tape + at);
    struct quotes q = first_quotes(&t);
    int i, k, stands = PEER_OPEN;
    char line[200], *end;

    for (i = 0; i < r->n_events && stands == PEER_OPEN; i++) {
        struct peer_event e = record(events, i);
        int answer = r->event[i].answer;

        if (answer == PEER_LATE)
            stands = PEER_BY_TIME;
        if (!applied(answer))
            continue;
        stands = ending_due(&t, &q, &e);
        if ((answer == PEER_ENDED) != (stands != PEER_OPEN))
            fault("the quotes end it otherwise");
    }
    listing[peer_listing(tape, n, listing)] = 0;
    k = sprintf(line, "END %s", ending[stands == PEER_OPEN ? PEER_BY_TIME : stands]);
    print_range(line + k, &t, bound_at(&t, q.bb, q.customer));
    end = strstr(listing, "END ");
    if (end == NULL || strncmp(end, line, strlen(line)) != 0)
        fault("not the ending and the last range that are due");
}

/* An order refused with 2 to 13, turned to the other side, is refused so too. */
static void check_refused_mirror(int number, const unsigned char *tape, size_t at)
{
    unsigned char turned[PEER_ORDER_BYTES + PEER_TRAILER_BYTES];
    char got[PEER_LISTING_MAX + 1];
    struct peer_order o;

    peer_read_order(tape + at, &o);
    o = build_turn_order(o);
    got[peer_listing(turned, build_tape(turned, PEER_OLD, &o, NULL, 0), got)] = 0;
    if (number_in(got) != number)
        fault("the mirror is refused otherwise");
}

/* The participant of the record that made a party what it is, read straight from
 * the bytes, or -1: the last one taken of a kind 1, 3 or 6 under its sequence. */
static int64_t participant_due(const struct peer_run *r, const struct records *events, int64_t party)
{
    int i;

    for (i = events->n - 1; i >= 0; i--) {
        const unsigned char *p = bytes_of(events, i);

        if (word_at(p) == party && (p[8] == 1 || p[8] == 3 || p[8] == 6) && applied(r->event[i].answer))
            return events->form == 40 ? word_at(p + 32) : 0;
    }
    return -1;
}

/* The listing with participants is the listing, but for those that are due at
 * the ends of its FILL lines. */
static void check_firms(const struct peer_run *r, const unsigned char *tape, size_t n, const struct records *events)
{
    static char plain[PEER_LISTING_MAX + 1], firms[PEER_LISTING_MAX + 1], want[PEER_LISTING_MAX + 1];
    char *from = plain, *to = want;

    plain[peer_listing(tape, n, plain)] = 0;
    firms[peer_firms(tape, n, firms)] = 0;
    if (strstr(plain, "participant") != NULL)
        fault("the listing tells a participant");
    while (*from) {
        size_t line = strcspn(from, "\n");

        memcpy(to, from, line);
        to += line;
        if (strncmp(from, "FILL ", 5) == 0 && strncmp(from, "FILL contra ", 12) != 0) {
            int64_t who = participant_due(r, events, (int64_t)strtoul(from + 5, NULL, 10));

            if (who >= 0)
                to += sprintf(to, " participant %lu", (unsigned long)who);
        }
        *to++ = '\n';
        from += line + 1;
    }
    *to = 0;
    if (strcmp(firms, want) != 0)
        fault("not the listing with the participants that are due");
}

/* What a move is worked from, and its number or 0; all from the bytes alone. */
struct plan {
    int number;
    int64_t s, count, from, to, length;
};

static struct plan plan_of(const unsigned char *tape, size_t n, int to_new)
{
    const unsigned char *last;
    struct plan p = { .number = 21 };
    int64_t i;

    if (n < 16 || n > 65536)
        return p;
    last = tape + n - 16;
    p.number = 22;
    if (last[0] != 'C' || last[1] != 'U' || last[2] != 'B' || last[3] != (to_new ? 'T' : '2') || any_set(last + 12, 4))
        return p;
    p.from = to_new ? 32 : 40;
    p.to = to_new ? 40 : 32;
    p.s = word_at(last + 4);
    p.count = word_at(last + 8);
    p.number = 23;
    if ((int64_t)n - 80 - p.s != p.from * p.count)
        return p;
    p.number = 25;
    for (i = 0; i < p.count && !to_new; i++)
        if (any_set(last - 8 - 40 * i, 8))
            return p;
    p.length = (int64_t)n + (to_new ? 8 : -8) * p.count;
    p.number = p.length > 65536 ? 26 : 0;
    return p;
}

/* The byte that a moved tape has at a place. */
static unsigned char moved_byte(const unsigned char *tape, const struct plan *p, int64_t i)
{
    int64_t k = i - p->s - 64, end = p->to * p->count;      /* from the first record on */

    if (k < 0)
        return tape[i];
    if (k >= end)
        return k == end + 3 ? (p->to == 40 ? '2' : 'T') : tape[p->s + 64 + p->from * p->count + k - end];
    return k % p->to >= 32 ? 0 : tape[p->s + 64 + k / p->to * p->from + k % p->to];
}

enum { BEYOND = 80, UNTOUCHED = 0xA7 };

/* Moves a tape into some room: the answer and each byte, also those past the
 * moved tape and past the room. */
static void check_move(const unsigned char *tape, size_t n, int to_new, const struct plan *p, int64_t room)
{
    static unsigned char out[PEER_TAPE_MAX + BEYOND];
    int64_t look = least(2 * (int64_t)n, PEER_TAPE_MAX) + BEYOND, done, i;
    int number = p->number == 0 && room < p->length ? 24 : p->number;
    size_t length = UNTOUCHED;

    memset(out, UNTOUCHED, (size_t)look);
    if (peer_move(tape, n, to_new, out, (size_t)room, &length) != number)
        fault("not the number of the move that is due");
    if ((int64_t)length != (number ? UNTOUCHED : p->length))
        fault("the moved length");
    done = number ? 0 : p->length;
    for (i = 0; i < done && out[i] == moved_byte(tape, p, i); i++)
        ;
    if (i < done)
        fault("a moved byte");
    for (i = done; i < look && out[i] == UNTOUCHED; i++)
        ;
    if (i < look)
        fault(number ? "a refused move changes a byte" : "a byte past the moved tape is changed");
}

typedef size_t printer(const unsigned char *tape, size_t n, char *out);

/* Are two tapes printed the same? */
static int printed_same(printer *print, const unsigned char *a, size_t n, const unsigned char *b, size_t m)
{
    static char one[PEER_LISTING_MAX], other[PEER_LISTING_MAX];
    size_t length = print(a, n, one);

    return print(b, m, other) == length && memcmp(one, other, length) == 0;
}

/* A tape that can be moved: there and back, what is printed of it there, and
 * what other participants change there. */
static void check_there(const unsigned char *tape, size_t n, int to_new, const struct plan *p)
{
    static unsigned char there[PEER_TAPE_MAX], back[PEER_TAPE_MAX];
    static char firms[PEER_LISTING_MAX + 1];
    size_t length = 0, m = 0;
    char *line, *next;
    int64_t i;

    if (peer_move(tape, n, to_new, there, sizeof there, &length) != 0)
        return;                             /* said already */
    if (peer_move(there, length, to_new, back, sizeof back, &m) != 22)
        fault("a moved tape is not in the form that was wanted");
    if (peer_move(there, length, !to_new, back, sizeof back, &m) != 0 || m != n || memcmp(back, tape, n) != 0)
        fault("there and back gives other bytes");
    if (!printed_same(peer_listing, tape, n, there, length))
        fault("the moved tape is listed otherwise");
    if (!printed_same(peer_watch, tape, n, there, length))
        fault("the moved tape is watched otherwise");
    if (!printed_same(peer_firms, tape, n, there, length))
        fault("the moved tape has other participants");
    firms[peer_firms(there, length, firms)] = 0;
    for (line = firms; (next = strchr(line, '\n')) != NULL; line = next + 1) {
        char *who = strstr(line, " participant ");

        if (who != NULL && who < next && strncmp(who, " participant 0\n", 15) != 0)
            fault("a moved tape with a participant");
    }
    if (!to_new)
        return;
    for (i = 0; i < p->count; i++)          /* no two alike */
        build_word(there + p->s + 64 + 40 * i + 32, (uint32_t)(2654435769u * (uint64_t)(i + 1 + current)));
    if (!printed_same(peer_listing, tape, n, there, length) || !printed_same(peer_watch, tape, n, there, length))
        fault("a participant is seen in the listing or the watch");
}

static void check_moves(const unsigned char *tape, size_t n)
{
    int to_new;

    for (to_new = 0; to_new <= 1; to_new++) {
        struct plan p = plan_of(tape, n, to_new);

        check_move(tape, n, to_new, &p, 0);
        check_move(tape, n, to_new, &p, PEER_TAPE_MAX);
        if (p.number != 0)
            continue;
        check_move(tape, n, to_new, &p, p.length);
        check_move(tape, n, to_new, &p, p.length - 1);
        check_move(tape, n, to_new, &p, current % p.length);
        check_there(tape, n, to_new, &p);
    }
}

/* A new tape with every participant another: the same is printed. With a byte
 * of some record's last word set: that one is 32 if the auction hasn't ended. */
static void check_words(const struct peer_run *r, const unsigned char *tape, size_t n, const struct records *events)
{
    static unsigned char other[PEER_TAPE_MAX];
    static struct peer_run run;
    unsigned char *first = other + (events->first - tape), *p;
    int i, k, at;

    if (events->form != PEER_NEW || events->n == 0)
        return;
    memcpy(other, tape, n);
    for (i = 0; i < events->n; i++)
        for (k = 32; k < 36; k++)
            first[40 * i + k] ^= 255;
    if (!printed_same(peer_listing, tape, n, other, n) || !printed_same(peer_watch, tape, n, other, n))
        fault("a participant is seen in the listing or the watch");

    at = (int)(current % events->n);
    p = first + 40 * at + 36 + current % 4;
    *p = (unsigned char)(*p | 1u << current % 8);
    peer_run(other, n, 1, &run);
    for (i = 0; i < at; i++)
        if (run.event[i].answer != r->event[i].answer)
            fault("a later record's last word is seen");
    if (run.event[at].answer != (r->event[at].answer == 31 ? 31 : 32))
        fault("a last word that isn't zero, and no 32");
}

int check(const char *dir)
{
    static unsigned char tape[PEER_TAPE_MAX + 1];
    static struct peer_run r;
    struct records events;
    struct peer_layout l;
    struct fold told;
    size_t n;
    long accepted = 0;
    int most_fills = 0;

    for (current = 0; read_tape_file(dir, current, tape, &n); current++) {
        peer_run(tape, n, 1, &r);
        check_text(&r, tape, n);
        check_moves(tape, n);
        if (r.refused)
            check_firms(&r, tape, n, NULL); /* there is no FILL to look up */
        if (r.refused >= 21)
            continue;
        peer_read_tape(tape, n, &l);
        events = records_of(tape, &l);
        check_order(&r, tape, n, l.at);
        if (r.refused > 1)
            check_refused_mirror(r.refused, tape, l.at);
        if (r.refused)
            continue;
        accepted++;
        if (r.n_fills > most_fills)
            most_fills = r.n_fills;
        told = check_answers(&r, &events);
        check_watch(&r, &events);
        check_endings(&r, tape, n, l.at, &events);
        check_live(&r.end, &told);
        check_fills(&r, &told);
        check_shares(&r, &told);
        check_parties(&r, &events);
        check_firms(&r, tape, n, &events);
        check_words(&r, tape, n, &events);
        check_mirror(&r, tape, l.at, &events);
    }
    printf("checked %ld tapes, %ld accepted, most fills %d, faults %ld\n", current, accepted, most_fills, faults);
    return faults != 0;
}
