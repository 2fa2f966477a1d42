/* gen.c: random tapes aimed at the edges of the rules.
 *
 * A tape is drafted as a buy, and mirrored record by record for a sell, so
 * that every edge is as common on either side. While drafting, the engine
 * is run along as a guide to where the edges are. Records are drafted in the
 * old form; a new tape's get their participants when all are there. No expression
 * draws two random numbers, since C leaves the order of the draws open. */
#include "gen.h"

#include "build.h"

#include <string.h>

/* ------------------------------------------------------------------ */
/* Random numbers                                                     */

struct rng {
    uint64_t state;
};

static uint64_t next(struct rng *g)
{
    uint64_t z = g->state += 0x9E3779B97F4A7C15u;

    z = (z ^ z >> 30) * 0xBF58476D1CE4E5B9u;
    z = (z ^ z >> 27) * 0x94D049BB133111EBu;
    return z ^ z >> 31;
}

/* 0 to n - 1 */
static uint32_t below(struct rng *g, uint32_t n) { return (uint32_t)((next(g) >> 32) * n >> 32); }

static uint32_t between(struct rng *g, uint32_t low, uint32_t high)
{
    return high <= low ? low : low + below(g, high - low + 1);
}

static int chance(struct rng *g, uint32_t percent) { return below(g, 100) < percent; }

static int32_t pick_of(struct rng *g, const int32_t *list, size_t n) { return list[below(g, (uint32_t)n)]; }

#define PICK(g, ...) \
    pick_of(g, (const int32_t[]){ __VA_ARGS__ }, sizeof((const int32_t[]){ __VA_ARGS__ }) / sizeof(int32_t))

static uint32_t clamp(int64_t n, int64_t low, int64_t high)
{
    return (uint32_t)(n < low ? low : n > high ? high : n);
}

static uint32_t as_price(int64_t n) { return clamp(n, 1, PEER_PRICE_MAX); }
static uint32_t as_size(int64_t n) { return clamp(n, 1, PEER_SIZE_MAX); }

/* A step away from an edge, most often none. */
static int32_t step_off(struct rng *g) { return PICK(g, 0, 0, 0, 0, 0, -1, -1, -1, 1, 1, 1, 2, -2, 3, -5); }

/* ------------------------------------------------------------------ */
/* Orders, drafted as buys                                            */

static uint32_t order_size(struct rng *g)
{
    switch (below(g, 8)) {
    case 0: return between(g, 1, 9);
    case 1: return between(g, 1, 49);
    case 2: return (uint32_t)PICK(g, 1, 2, 3, 48, 49, 49);
    case 3: return (uint32_t)PICK(g, 50, 50, 51, 52, 53, 99, 100);
    case 4: return between(g, 50, 200);
    case 5: return between(g, 200, 5000);
    case 6: return (uint32_t)PICK(g, 100000, 99999, 50000, 65536, 99998);
    default: return between(g, 5, 120);
    }
}

/* What the order's words make, needed to place limit and stop near them. */
static uint32_t bound_of(const struct peer_order *o)
{
    uint32_t b = o->bb + (o->size < 50 || (o->marks & PEER_CUST_BB) ? 1 : 0);

    return b > o->nbb ? b : o->nbb;
}

/* What counts as BO in the initiating price. */
static uint32_t offer_of(const struct peer_order *o) { return o->displayed ? o->displayed - o->collar : o->bo; }

/* The initiating price that an offer makes. */
static uint32_t init_by(const struct peer_order *o, uint32_t offer)
{
    uint32_t p = o->limit < o->nbo ? o->limit : o->nbo;

    return o->size < 50 && offer - 1 < p ? offer - 1 : p;
}

static uint32_t init_of(const struct peer_order *o) { return init_by(o, offer_of(o)); }

/* How much room an order's range has. */
enum room { ANY_ROOM, SOME_ROOM, WIDE_ROOM };

static void draft_quotes_of_order(struct rng *g, struct peer_order *o, int room)
{
    uint32_t spread, kind = below(g, 12);

    if (room == WIDE_ROOM)
        spread = between(g, 66, 300);
    else if (room == SOME_ROOM)
        spread = between(g, 4, 30);
    else
        spread = (uint32_t)PICK(g, 1, 1, 2, 2, 3, 4, 5, 6, 8, 10, 10, 10, 20, 40);
    if (kind == 0)
        o->nbb = between(g, 1, 3);
    else if (kind == 1)
        o->nbb = PEER_PRICE_MAX - spread - below(g, 3);
    else if (kind == 2)
        o->nbb = between(g, 1, PEER_PRICE_MAX - spread);
    else
        o->nbb = between(g, 95, 105);
    o->nbo = o->nbb + spread;
    o->bb = clamp((int64_t)o->nbb - PICK(g, 0, 0, 0, 0, 0, 0, 1, 1, 2, 5, 10), 0, PEER_PRICE_MAX);
    o->bo = clamp((int64_t)o->nbo + PICK(g, 0, 0, 0, 0, 0, 0, 1, 1, 2, 5, 10), 1, PEER_MIRROR);
    if (chance(g, 7))
        o->bb = 0;
    if (chance(g, 7))
        o->bo = PEER_MIRROR;
}

/* Gives the order a collar by which an offer counts, if it can be had. */
static void put_offer(struct rng *g, struct peer_order *o, int64_t offer)
{
    uint32_t p = clamp(offer, 1, PEER_PRICE_MAX - 1), room = PEER_PRICE_MAX - p;
    int64_t collar;

    switch (below(g, 7)) {
    case 0: collar = 1; break;
    case 1: collar = room; break;           /* displayed at 999,999 */
    case 2: collar = between(g, 1, room); break;
    case 3: collar = (int64_t)o->bo - p + PICK(g, 0, 0, -1, 1); break;   /* displayed about BO */
    default: collar = between(g, 1, 10); break;
    }
    o->collar = clamp(collar, 1, room);
    o->displayed = p + o->collar;
}

/* An offer about the edges of an order's range. */
static int64_t edge_offer(struct rng *g, const struct peer_order *o)
{
    uint32_t bound = bound_of(o);

    switch (below(g, 12)) {
    case 0: case 1: return (int64_t)bound + PICK(g, -1, 0, 0, 1, 1, 1, 2, 2, 3);
    case 2: return (int64_t)o->bo + PICK(g, -2, -1, 0, 0, 1, 1);
    case 3: return (int64_t)o->nbo + PICK(g, -2, -1, 0, 0, 1, 1);
    case 4: return (int64_t)o->limit + PICK(g, -1, 0, 1, 1, 2);
    case 5: return (int64_t)o->bb + PICK(g, 0, 1, 1, 2);
    case 6: case 7: return (int64_t)o->bo + between(g, 1, 30);
    case 8: return chance(g, 50) ? 1 : PEER_PRICE_MAX - 1;
    default: return between(g, bound + 1, o->nbo);
    }
}

static void draft_limit(struct rng *g, struct peer_order *o)
{
    uint32_t bound = bound_of(o);
    int64_t p;

    switch (below(g, 8)) {
    case 0: p = bound; break;
    case 1: p = (int64_t)bound + 1; break;
    case 2: p = between(g, bound, o->nbo); break;
    case 3: p = (int64_t)o->nbo - 1; break;
    case 4: p = (int64_t)o->nbo + below(g, 6); break;
    case 5: p = (int64_t)o->bo + PICK(g, -2, -1, 0, 1); break;
    case 6: p = chance(g, 20) ? PEER_PRICE_MAX : o->nbo; break;
    default: p = o->nbo; break;
    }
    o->limit = as_price(p);
}

static void draft_stop(struct rng *g, struct peer_order *o)
{
    uint32_t bound = bound_of(o), init = init_of(o);
    int64_t p;

    o->stop = 0;
    if (o->mode == PEER_MATCH)
        return;
    switch (below(g, 8)) {
    case 0: p = bound; break;
    case 1: p = (int64_t)bound - between(g, 1, 5); break;
    case 2: p = init; break;
    case 3: p = (int64_t)init - 1; break;
    case 4: p = (int64_t)bound + 1; break;
    case 5: p = chance(g, 30) ? 1 : bound; break;
    default: p = between(g, bound, init); break;
    }
    o->stop = as_price(p);
}

static void draft_times(struct rng *g, struct peer_order *o)
{
    switch (below(g, 6)) {
    case 0:                                 /* at the open */
        o->time = o->open = below(g, 1000000);
        o->close = o->time + 20000;
        break;
    case 1:                                 /* the last time that passes */
        o->open = below(g, 1000000);
        o->time = o->open + below(g, 1000000);
        o->close = o->time + 1001;
        break;
    case 2:                                 /* the end of the day */
        o->close = PEER_TIME_MAX;
        o->time = PEER_TIME_MAX - 1001 - below(g, 3);
        o->open = chance(g, 50) ? 0 : o->time;
        break;
    case 3:                                 /* the start of the day */
        o->open = o->time = 0;
        o->close = between(g, 1001, 5000);
        break;
    default:
        o->open = 34200000;
        o->close = 57600000;
        o->time = between(g, o->open, o->close - 1001);
        break;
    }
    switch (below(g, 4)) {
    case 0: o->interval = 100; break;
    case 1: o->interval = 1000; break;
    case 2: o->interval = (uint32_t)PICK(g, 101, 200, 500, 999); break;
    default: o->interval = between(g, 100, 1000); break;
    }
}

/* The per cent of the orders that have a collar. */
enum collars { FEW_COLLARS = 12, SOME_COLLARS = 40, ALL_COLLARS = 100 };

static struct peer_order draft_order(struct rng *g, uint32_t mode, int room, uint32_t collars)
{
    struct peer_order o;

    memset(&o, 0, sizeof o);
    o.side = PEER_BUY;
    o.mode = mode;
    o.size = order_size(g);
    if (room == WIDE_ROOM)
        o.size = (uint32_t)PICK(g, 1000, 2000, 10000, 100000, 300, 130, 128);
    draft_quotes_of_order(g, &o, room);
    if (chance(g, 25))
        o.marks |= PEER_CUST_BB;
    if (chance(g, 25))
        o.marks |= PEER_CUST_BO;
    draft_limit(g, &o);
    if (chance(g, collars))
        put_offer(g, &o, edge_offer(g, &o));
    draft_stop(g, &o);
    if (room != ANY_ROOM) {
        o.limit = o.nbo - (room == SOME_ROOM ? below(g, 2) : 0);
        if (mode != PEER_MATCH && chance(g, 60)) {
            uint32_t off = room == SOME_ROOM ? below(g, 4) : 0;

            o.stop = as_price(mode == PEER_STOP ? (int64_t)init_of(&o) - off : (int64_t)bound_of(&o) + off);
        }
    }
    draft_times(g, &o);
    return o;
}

static struct peer_order good_order(struct rng *g, uint32_t mode, int room, uint32_t collars)
{
    struct peer_order o;
    struct peer_auction a;

    do
        o = draft_order(g, mode, room, collars);
    while (peer_accept(&o, &a) != 0);
    return o;
}

static uint32_t small_size(struct rng *g) { return (uint32_t)PICK(g, 1, 10, 48, 49, 49); }

/* Makes one number of 2 to 13 come true of an order, or nearly. */
static void spoil_order(struct rng *g, struct peer_order *o, int number)
{
    switch (number) {
    case 2:
        if (chance(g, 50))
            o->bb = o->nbb + (uint32_t)PICK(g, 1, 1, 1, 2);
        else
            o->bo = o->nbo - (uint32_t)PICK(g, 1, 1, 1, 2);
        if (o->bb > PEER_PRICE_MAX)
            o->bb = PEER_PRICE_MAX;
        if (o->bo < 1 || o->bo > PEER_MIRROR)
            o->bo = 1;
        break;
    case 3:
        o->size = 0;
        break;
    case 4:
        o->open = o->time + (uint32_t)PICK(g, 1, 1, 1, 2, 100);
        if (o->close <= o->open)
            o->close = o->open + 5000;
        break;
    case 5:
        o->close = o->time + (uint32_t)PICK(g, 1000, 1000, 1000, 999, 500, 1);
        if (chance(g, 15))
            o->close = o->time;
        break;
    case 6:
        o->marks |= PEER_HALTED;
        break;
    case 7:
        o->marks |= PEER_OTHER_OPEN;
        break;
    case 8:
        o->nbb = o->nbo + (uint32_t)PICK(g, 0, 0, 0, 1, 2);
        if (o->bb > o->nbb || chance(g, 50))
            o->bb = o->nbb;
        break;
    case 9:
        o->size = small_size(g);
        o->nbo = o->bo = o->nbb + 1;
        o->bb = o->nbb;
        break;
    case 10:
        o->limit = as_price((int64_t)bound_of(o) - PICK(g, 1, 1, 1, 1, 2, 10));
        break;
    case 11:
        if (o->mode != PEER_MATCH)
            o->stop = as_price((int64_t)init_of(o) + PICK(g, 1, 1, 1, 1, 2, 10));
        break;
    case 12:
        o->size = small_size(g);
        o->nbo = o->nbb + 1;
        o->bb = clamp((int64_t)o->nbb - PICK(g, 0, 1, 1, 10), 0, PEER_PRICE_MAX);
        o->bo = clamp((int64_t)o->nbo + PICK(g, 1, 1, 2, 10), 1, PEER_MIRROR);
        o->limit = as_price((int64_t)o->nbo + PICK(g, 0, 0, 1, 5));
        if (o->mode != PEER_MATCH)
            o->stop = o->nbo;
        break;
    case 13:
        o->size = small_size(g);
        put_offer(g, o, (int64_t)bound_of(o) - PICK(g, 0, 0, 0, 0, 1, 2, 50));
        if (o->limit < bound_of(o))
            o->limit = as_price((int64_t)bound_of(o) + PICK(g, 0, 0, 1, 5));
        break;
    }
}

/* The order's numbers as they are tested. */
static const int tested[] = { 1, 2, 3, 4, 5, 6, 7, 8, 9, 10, 13, 11, 12 };

enum { TESTED = sizeof tested / sizeof tested[0] };

/* An order refused by a number, told by its place among those tested; often
 * others are true of it also. */
static struct peer_order refused_order(struct rng *g, uint32_t mode, uint32_t place, uint32_t collars)
{
    struct peer_order o;
    struct peer_auction a;
    int tries = 0;

    do {
        o = draft_order(g, mode, ANY_ROOM, collars);
        if (place + 1 < TESTED && chance(g, 50))
            spoil_order(g, &o, tested[place + 1]);  /* the very next is true as well */
        else if (place + 1 < TESTED && chance(g, 40))
            spoil_order(g, &o, tested[between(g, place + 1, TESTED - 1)]);
        spoil_order(g, &o, tested[place]);
    } while (peer_accept(&o, &a) != tested[place] && ++tries < 1000);
    return o;
}

/* Order fields at their bounds and just past them: place, bytes, value. */
static const struct {
    unsigned char at, bytes;
    uint32_t value;
} order_edge[] = {
    { 0, 1, 0 }, { 0, 1, 3 }, { 0, 1, 129 }, { 1, 1, 0 }, { 1, 1, 4 }, { 1, 1, 255 },
    { 2, 1, 16 }, { 2, 1, 32 }, { 2, 1, 64 }, { 2, 1, 128 }, { 2, 1, 12 }, { 3, 1, 1 }, { 3, 1, 128 },
    { 4, 4, 1 }, { 4, 4, 49 }, { 4, 4, 50 }, { 4, 4, 100000 }, { 4, 4, 100001 }, { 4, 4, UINT32_MAX },
    { 8, 4, 0 }, { 8, 4, 1 }, { 8, 4, 999999 }, { 8, 4, 1000000 }, { 8, 4, UINT32_MAX },
    { 12, 4, 0 }, { 12, 4, 1 }, { 12, 4, 999999 }, { 12, 4, 1000000 }, { 12, 4, UINT32_MAX },
    { 16, 4, 0 }, { 16, 4, 1 }, { 16, 4, 999999 }, { 16, 4, 1000000 },
    { 20, 4, 0 }, { 20, 4, 1 }, { 20, 4, 999999 }, { 20, 4, 1000000 },
    { 24, 4, 0 }, { 24, 4, 999999 }, { 24, 4, 1000000 }, { 24, 4, UINT32_MAX },
    { 28, 4, 0 }, { 28, 4, 1 }, { 28, 4, 1000000 }, { 28, 4, 1000001 }, { 28, 4, UINT32_MAX },
    { 32, 4, 0 }, { 32, 4, 86400000 }, { 32, 4, 86400001 }, { 32, 4, UINT32_MAX },
    { 36, 4, 0 }, { 36, 4, 86400000 }, { 36, 4, 86400001 },
    { 40, 4, 0 }, { 40, 4, 86400000 }, { 40, 4, 86400001 }, { 40, 4, UINT32_MAX },
    { 44, 4, 99 }, { 44, 4, 100 }, { 44, 4, 1000 }, { 44, 4, 1001 }, { 44, 4, 0 }, { 44, 4, UINT32_MAX },
    { 48, 4, 0 }, { 48, 4, 1 }, { 48, 4, 999999 }, { 48, 4, 1000000 }, { 48, 4, UINT32_MAX }, { 49, 1, 128 },
    { 52, 4, 0 }, { 52, 4, 1 }, { 52, 4, 999999 }, { 52, 4, 1000000 }, { 52, 4, UINT32_MAX }, { 55, 1, 1 },
    { 56, 1, 1 }, { 56, 1, 255 }, { 59, 1, 128 }, { 60, 1, 1 }, { 62, 1, 1 }, { 63, 1, 1 }, { 63, 1, 128 }
};

enum { ORDER_EDGES = sizeof order_edge / sizeof order_edge[0] };

/* Takes one field of an order's bytes to its bounds or just past them. */
static void damage_order(unsigned char *p, uint32_t k)
{
    k %= ORDER_EDGES + 1;
    if (k == ORDER_EDGES)
        memcpy(p + 36, p + 40, 4);          /* open and close the same */
    else if (order_edge[k].bytes == 1)
        p[order_edge[k].at] = (unsigned char)order_edge[k].value;
    else
        build_word(p + order_edge[k].at, order_edge[k].value);
}

/* ------------------------------------------------------------------ */
/* Orders aimed at the collar, drafted as buys                        */

/* What an order with a collar is to come to. */
enum aim {
    AIM_DOWN, AIM_ONE_PRICE, AIM_TWO_PRICES, AIM_UP, AIM_UP_TO_STOP, AIM_AT_BO, AIM_LIMIT, AIM_NO_BO, AIM_LARGE,
    AIM_LEAST, AIM_GREATEST,                /* as the results go */
    AIM_13, AIM_13_FAR, AIM_13_AND_11, AIM_13_AND_12, AIM_13_NOT_9, AIM_10, AIM_10_AND_13, AIM_11, AIM_12, AIM_12_GONE,
    AIM_9, AIM_2,
    AIM_WORDS,                              /* from here on the words are damaged */
    AIM_DISPLAYED = AIM_WORDS, AIM_COLLAR, AIM_HIGH, AIM_WIDE, AIM_MILLION, AIM_ZERO, AIM_BELOW, AIM_WRAPS, AIM_BEHIND,
    AIM_CROSS
};

/* The number that the aim wants, or -1 for any. */
static int aim_number(int aim, uint32_t mode)
{
    switch (aim) {
    case AIM_LEAST: case AIM_GREATEST: return -1;
    case AIM_13: case AIM_13_FAR: case AIM_13_AND_11: case AIM_13_AND_12: case AIM_13_NOT_9: return 13;
    case AIM_10: case AIM_10_AND_13: return 10;
    case AIM_11: return mode == PEER_MATCH ? 0 : 11;
    case AIM_12: return 12;
    case AIM_12_GONE: return mode == PEER_MATCH ? 0 : 11;
    case AIM_9: return 9;
    case AIM_2: return 2;
    default: return 0;
    }
}

/* National quotes a cent apart, and the exchange's own about them. */
static void thin_quotes(struct rng *g, struct peer_order *o, int wide_bo)
{
    o->nbo = o->nbb + 1;
    o->bb = clamp((int64_t)o->nbb - PICK(g, 1, 1, 2, 10), 0, PEER_PRICE_MAX);
    o->bo = clamp((int64_t)o->nbo + (wide_bo ? PICK(g, 1, 1, 2, 10) : 0), 1, PEER_MIRROR);
    o->limit = as_price((int64_t)o->nbo + PICK(g, 0, 0, 1, 5));
    if (o->mode != PEER_MATCH)
        o->stop = o->nbo;
}

/* Gives a drafted order a collar for an aim; it may miss. */
static void aim_collar(struct rng *g, struct peer_order *o, int aim)
{
    int64_t past = PICK(g, 0, 0, 1, 5), off = PICK(g, 1, 1, 1, 2, 10, 500);
    uint32_t bound, best;

    o->size = (uint32_t)PICK(g, 49, 49, 49, 48, 47, 25, 10, 5, 2, 1);
    if (aim == AIM_13)
        o->size = 49;
    if (aim == AIM_LARGE || ((aim == AIM_LEAST || aim == AIM_GREATEST || aim >= AIM_WORDS) && chance(g, 50)))
        o->size = (uint32_t)PICK(g, 50, 50, 50, 50, 50, 50, 51, 52, 100, 1000, 100000);
    if (aim == AIM_UP || aim == AIM_UP_TO_STOP)
        o->bo = o->nbo;
    if (aim == AIM_NO_BO)
        o->bo = PEER_MIRROR;
    if (aim == AIM_9)
        spoil_order(g, o, 9);
    if (aim == AIM_2)
        o->bo = clamp((int64_t)o->nbo - PICK(g, 1, 1, 2), 1, PEER_MIRROR);
    if (aim == AIM_12 || aim == AIM_12_GONE || aim == AIM_13_AND_12)
        thin_quotes(g, o, aim == AIM_12_GONE || (aim == AIM_13_AND_12 && chance(g, 30)));
    bound = bound_of(o);
    best = o->bo < o->nbo ? o->bo : o->nbo;
    if (o->limit < o->nbo && (aim == AIM_UP || aim == AIM_UP_TO_STOP || aim == AIM_11 || chance(g, 60)))
        o->limit = as_price(o->nbo + past);

    switch (aim) {
    case AIM_ONE_PRICE: put_offer(g, o, (int64_t)bound + 1); break;
    case AIM_TWO_PRICES: put_offer(g, o, (int64_t)bound + 2); break;
    case AIM_UP: case AIM_UP_TO_STOP: case AIM_12: put_offer(g, o, o->nbo + off); break;
    case AIM_AT_BO: put_offer(g, o, o->bo); break;
    case AIM_LIMIT: put_offer(g, o, (int64_t)o->limit + PICK(g, 0, 1, 1, 1, 2)); break;
    case AIM_NO_BO: put_offer(g, o, between(g, bound + 1, o->nbo + 2)); break;
    case AIM_LARGE: put_offer(g, o, chance(g, 50) ? edge_offer(g, o) : (int64_t)bound + 1 - off); break;
    case AIM_LEAST: put_offer(g, o, 1); break;
    case AIM_GREATEST: put_offer(g, o, PEER_PRICE_MAX - 1); break;
    case AIM_13: case AIM_13_AND_11: put_offer(g, o, bound); break;
    case AIM_13_FAR: put_offer(g, o, bound - off); break;
    case AIM_13_AND_12: case AIM_10_AND_13: put_offer(g, o, bound - below(g, 2) * off); break;
    case AIM_13_NOT_9: put_offer(g, o, (int64_t)o->bb + 1); break;
    case AIM_10: put_offer(g, o, bound + off); break;
    case AIM_12_GONE: put_offer(g, o, o->nbo); break;
    case AIM_9: put_offer(g, o, chance(g, 50) ? edge_offer(g, o) : o->bo + off); break;
    case AIM_2: put_offer(g, o, o->nbo + past); break;
    default: put_offer(g, o, between(g, bound + 1, best)); break;
    }

    if (aim == AIM_10 || aim == AIM_10_AND_13)
        o->limit = as_price((int64_t)bound - PICK(g, 1, 1, 1, 2, 10));
    if (aim == AIM_13_FAR || (aim == AIM_13_AND_11 && chance(g, 50)))
        o->limit = bound;
    if (aim == AIM_12 || aim == AIM_12_GONE || aim == AIM_13_AND_12)
        return;
    draft_stop(g, o);
    if (o->mode == PEER_MATCH)
        return;
    if (aim == AIM_13)                      /* neither 11 nor 12 */
        o->stop = as_price((int64_t)init_of(o) - below(g, 3));
    if (aim == AIM_UP_TO_STOP)
        o->stop = o->nbo;
    if (aim == AIM_13_AND_11)
        o->stop = as_price((int64_t)init_of(o) + PICK(g, 1, 1, 1, 2, 10));
    if (aim == AIM_11)
        o->stop = between(g, init_of(o) + 1, init_by(o, o->bo));
}

/* An order with a collar for an aim. */
static struct peer_order collared_order(struct rng *g, uint32_t mode, int room, int aim)
{
    int want = aim_number(aim, mode), got, tries = 0;
    struct peer_order o;
    struct peer_auction a;

    do {
        o = draft_order(g, mode, room, 0);
        aim_collar(g, &o, aim);
        got = peer_accept(&o, &a);
        if ((aim == AIM_DOWN || aim == AIM_11) && init_of(&o) == init_by(&o, o.bo))
            got = 1;                        /* nothing is moved */
    } while ((want < 0 ? got == 1 : got != want) && ++tries < 1000);
    return o;
}

/* Words at the bounds of a collar's fields and past them. */
static uint32_t edge_word(struct rng *g)
{
    return (uint32_t)PICK(g, 0, 1, 1, 2, 100, 500000, 999998, 999999, 999999, 1000000, 1000000, 1000001, 16777216,
                          INT32_MAX, -1000000, -2, -1);
}

static uint32_t word_past(struct rng *g) { return (uint32_t)PICK(g, 1000000, 1000000, 1000001, 16777325, INT32_MAX, -1); }

/* Damages the words of a collar that is in form, in the prices of its side. */
static void damage_collar(struct rng *g, unsigned char *p, const struct peer_order *o, int aim)
{
    uint32_t displayed = o->displayed, collar = o->collar, off = (uint32_t)PICK(g, 1, 1, 2, 100), at;
    int sell = o->side == PEER_SELL;

    switch (aim) {
    case AIM_DISPLAYED:
        if (chance(g, 30))
            displayed = (uint32_t)PICK(g, 1, 999999);
        collar = 0;
        break;
    case AIM_COLLAR:
        if (chance(g, 30))
            collar = (uint32_t)PICK(g, 1, 999999);
        displayed = 0;
        break;
    case AIM_HIGH:
        displayed = word_past(g);
        break;
    case AIM_WIDE:
        collar = word_past(g);
        break;
    case AIM_MILLION:
        *(chance(g, 50) ? &displayed : &collar) = PEER_MIRROR;
        break;
    case AIM_ZERO:                          /* the result of a sell is 1,000,000 */
        collar = sell ? PEER_MIRROR - displayed : displayed;
        break;
    case AIM_BELOW:
        displayed = between(g, sell ? 1 + off : 1, sell ? PEER_PRICE_MAX : PEER_PRICE_MAX - off);
        collar = (sell ? PEER_MIRROR - displayed : displayed) + off;
        break;
    case AIM_WRAPS:                         /* one word or both out of range, their sum or difference not */
        if (chance(g, 50)) {
            displayed = between(g, 2, 900000);
            collar = sell ? 0u - displayed / 2 : 0u - off;
        } else if (sell) {
            displayed = 0u - off;
            collar = off + between(g, 1, 200);
        } else {
            displayed = (uint32_t)PICK(g, 1000200, 16777325, INT32_MAX, -1);
            collar = displayed - between(g, 1, 200);
        }
        break;
    case AIM_CROSS:                         /* whatever comes of it */
        displayed = edge_word(g);
        collar = edge_word(g);
        break;
    default:                                /* a byte behind it, and now and then with no collar */
        if (chance(g, 30))
            displayed = collar = 0;
        at = between(g, 56, 63);
        p[at] = (unsigned char)PICK(g, 1, 128, 255);
        break;
    }
    build_word(p + 48, displayed);
    build_word(p + 52, collar);
}

/* ------------------------------------------------------------------ */
/* Events, drafted as of a buy                                        */

/* What a tape is to look like. */
enum plan_body {
    BODY_NONE, BODY_ONE, BODY_SHARE, BODY_LEVELS, BODY_FULL, BODY_BOUND, BODY_MIX, BODY_DAMAGED, BODY_LONG,
    BODY_EQUAL, BODY_BY_ONE, BODY_SHORT, BODY_HALVES, BODY_ZERO, BODY_MANY, BODY_WHOLE,
    BODY_BIG,                               /* these eight for the leftovers of a share */
    BODY_CAPPED, BODY_LARGE, BODY_GREATEST  /* these three for the contracts on offer */
};

enum { LEFTOVER_BODIES = BODY_BIG - BODY_EQUAL + 1, OFFER_BODIES = BODY_GREATEST - BODY_CAPPED + 1 };

enum plan_ending {
    END_LATE, END_CLOSE, END_SAME_LIMIT, END_SAME_MARKET, END_OPP_LIMIT, END_OPP_MARKET,
    END_IMPROVE_BID, END_IMPROVE_QUOTES,
    END_DRAWN,                              /* those before are for any tape */
    END_OPP_ABOVE = END_DRAWN, END_KINDS
};

struct draft {
    struct rng g;
    int sell;
    struct peer_auction a;                  /* the guide */
    unsigned char bytes[PEER_EVENTS_MAX * PEER_OLD];
    int n;
    uint32_t last_seq;                      /* the highest sent, taken or not */
    uint32_t customers;                     /* per cent of responses */
    uint32_t market;                        /* size planned for the market order that ends it */
    int firms;                              /* are there to be participants? */
};

static void send_bytes(struct draft *d, const unsigned char *p)
{
    struct peer_event e;

    if (d->n == PEER_EVENTS_MAX)
        return;
    memcpy(d->bytes + PEER_OLD * d->n++, p, PEER_OLD);
    peer_read_event(p, PEER_OLD, &e);
    peer_step(&d->a, &e);
    if (e.seq > d->last_seq)
        d->last_seq = e.seq;
}

/* The bytes of an event drafted as of a buy. */
static void to_bytes(const struct draft *d, const struct peer_event *e, unsigned char *p)
{
    struct peer_event m = d->sell && peer_event_form(e) ? build_turn_event(*e) : *e;

    build_event(p, PEER_OLD, &m);
}

static void send_event(struct draft *d, const struct peer_event *e)
{
    unsigned char p[PEER_OLD];

    to_bytes(d, e, p);
    send_bytes(d, p);
}

/* What the bytes would be answered; the auction would stand as in after. */
static int answer_to(const struct draft *d, const unsigned char *p, struct peer_auction *after)
{
    struct peer_event e;

    *after = d->a;
    peer_read_event(p, PEER_OLD, &e);
    return peer_step(after, &e);
}

static int ending_after(const struct draft *d, const unsigned char *p)
{
    struct peer_auction after;

    answer_to(d, p, &after);
    return after.ending;
}

/* The next sequence and time, written into an event. */
static struct peer_event stamp(struct draft *d, struct peer_event e)
{
    uint32_t last_ms = d->a.order.interval - 1;
    uint32_t t = d->a.clock;

    e.seq = d->last_seq + (uint32_t)PICK(&d->g, 1, 1, 1, 1, 1, 2, 3);
    if (d->last_seq < 1000 && below(&d->g, 500) == 0)
        e.seq += 0x80000000u + below(&d->g, 1000);      /* half way round */
    switch (below(&d->g, 10)) {
    case 0:
        t += below(&d->g, 40);
        break;
    case 1:
        t = chance(&d->g, 10) ? last_ms : t + 1;
        break;
    case 2: case 3: case 4:
        t += below(&d->g, 4);
        break;
    }
    e.time = t > last_ms ? last_ms : t;
    return e;
}

/* A price at or close to an edge of the auction. */
static uint32_t edge_price(struct draft *d)
{
    const struct peer_auction *a = &d->a;
    uint32_t p;

    switch (below(&d->g, 14)) {
    case 0: case 1: p = a->bb; break;
    case 2: case 3: p = a->nbb; break;
    case 4: case 5: p = a->nbo; break;
    case 6: p = a->bo; break;
    case 7: p = peer_bound(a); break;
    case 8: case 9: p = a->init; break;
    case 10: p = a->order.stop ? a->order.stop : a->init; break;
    case 11: p = a->nbb_start; break;
    case 12: p = offer_of(&a->order); break;
    default: p = chance(&d->g, 50) ? 1 : PEER_PRICE_MAX; break;
    }
    return as_price((int64_t)p + step_off(&d->g));
}

/* The stop or limit as it works now; in mode 2 the bound. */
static uint32_t working_stop(const struct draft *d)
{
    uint32_t bound = peer_bound(&d->a), stop = d->a.order.stop;

    return stop > bound ? stop : bound;
}

/* A price at which a response can stand, often one already taken. */
static uint32_t response_price(struct draft *d)
{
    const struct peer_auction *a = &d->a;
    uint32_t bound = peer_bound(a);
    int64_t p;

    if (a->n_live > 0 && chance(&d->g, 40))
        return a->live[below(&d->g, (uint32_t)a->n_live)].price;
    switch (below(&d->g, 9)) {
    case 0: p = a->init; break;
    case 1: p = (int64_t)a->init - 1; break;
    case 2: p = bound; break;
    case 3: p = (int64_t)bound - below(&d->g, 3); break;
    case 4: p = (int64_t)a->order.stop + PICK(&d->g, 0, 0, 0, -1, 1); break;
    case 5: p = chance(&d->g, 20) ? 1 : bound + 1; break;
    default: p = between(&d->g, bound, a->init); break;
    }
    return clamp(p, 1, a->init);
}

static uint32_t response_size(struct draft *d)
{
    uint32_t size = d->a.order.size;

    switch (below(&d->g, 12)) {
    case 0: return 1;
    case 1: return size;
    case 2: return as_size((int64_t)size + PICK(&d->g, -1, 1));
    case 3: return as_size(size / 2);
    case 4: return as_size(size / 3);
    case 5: return as_size((int64_t)(size * 40 / 100) + PICK(&d->g, -1, 0, 1));
    case 6: return (uint32_t)PICK(&d->g, 100000, 99999, 49, 50);
    case 7: return between(&d->g, 10, 60);
    case 8: return between(&d->g, 1, as_size(size));
    default: return between(&d->g, 1, 9);
    }
}

static uint32_t response_mark(struct draft *d) { return chance(&d->g, d->customers) ? PEER_CUSTOMER : 0; }

/* A response of a size and price: a GTX, or now and then a limit order. */
static struct peer_event response(struct draft *d, uint32_t size, uint32_t price)
{
    uint32_t marks = response_mark(d);
    uint32_t best = d->a.nbb;

    if (chance(&d->g, 15)) {
        if (chance(&d->g, 40)) {
            marks |= PEER_NON_ROUTABLE;
            best = d->a.bb;
        }
        if (price > best)
            return stamp(d, build_limit(0, 0, PEER_SELL, size, price, marks));
    }
    return stamp(d, build_gtx(0, 0, PEER_SELL, size, price, marks & PEER_CUSTOMER));
}

static struct peer_event any_response(struct draft *d)
{
    uint32_t size = response_size(d);
    uint32_t price = response_price(d);

    return response(d, size, price);
}

static struct peer_event any_limit(struct draft *d, uint32_t side)
{
    uint32_t price = edge_price(d);
    uint32_t size = response_size(d);
    uint32_t marks = below(&d->g, 4);

    return stamp(d, build_limit(0, 0, side, size, price, marks));
}

static struct peer_event any_market(struct draft *d, uint32_t side)
{
    uint32_t size = response_size(d);
    uint32_t marks = below(&d->g, 2);

    if (side == PEER_SELL && d->market > 0 && chance(&d->g, 90))
        size = d->market;
    return stamp(d, build_market(0, 0, side, size, marks));
}

static struct peer_event any_quotes(struct draft *d)
{
    const struct peer_auction *a = &d->a;
    uint32_t nbb = a->nbb, nbo = a->nbo, bb = a->bb, bo = a->bo;
    uint32_t marks = below(&d->g, 4) << 2;

    switch (below(&d->g, 8)) {
    case 0:                                 /* all four near edges; they may cross */
        nbb = edge_price(d);
        nbo = edge_price(d);
        bb = edge_price(d);
        bo = edge_price(d);
        break;
    case 1:                                 /* the exchange bid about the initiating price */
    case 2:
        bb = clamp((int64_t)a->init + PICK(&d->g, -2, -1, -1, -1, 0, 0, 0, 1), 0, PEER_PRICE_MAX);
        if (chance(&d->g, 50))
            nbb = as_price(bb);
        break;
    case 3:                                 /* the national bid above the initiating price */
        nbb = as_price((int64_t)a->init + PICK(&d->g, 0, 1, 1, 2, 3));
        break;
    case 4:                                 /* room above the initiating price */
        nbo = as_price((int64_t)a->init + PICK(&d->g, 0, 1, 2, 3, 10));
        bo = clamp((int64_t)nbo + PICK(&d->g, 0, 0, 1, 5), 1, PEER_MIRROR);
        break;
    case 5:                                 /* no exchange bid, no exchange offer */
        if (chance(&d->g, 60))
            bb = 0;
        if (chance(&d->g, 60))
            bo = PEER_MIRROR;
        break;
    case 6:                                 /* the exchange bid about the present bound */
        bb = clamp((int64_t)peer_bound(a) + step_off(&d->g), 0, PEER_PRICE_MAX);
        break;
    default:                                /* only the marks change */
        break;
    }
    return stamp(d, build_quotes(0, 0, nbb, nbo, bb, bo, marks));
}

static uint32_t seq_of_sent(const struct draft *d, int i)
{
    struct peer_event e;

    peer_read_event(d->bytes + PEER_OLD * i, PEER_OLD, &e);
    return e.seq;
}

/* What some cancel or amend that was sent names: most often gone now. */
static uint32_t named_before(struct draft *d)
{
    struct peer_event e;
    int i, from = (int)below(&d->g, (uint32_t)d->n + 1);

    for (i = 0; i < d->n; i++) {
        peer_read_event(d->bytes + PEER_OLD * ((from + i) % d->n), PEER_OLD, &e);
        if (e.kind == PEER_CANCEL || e.kind == PEER_AMEND)
            return e.field[0];
    }
    return 0;
}

/* What a cancel or an amend of a sequence names. */
static uint32_t any_name(struct draft *d, uint32_t own)
{
    const struct peer_auction *a = &d->a;
    uint32_t which = 0;
    int i;

    switch (below(&d->g, 12)) {
    case 0:                                 /* any sent: live, dead or never a response */
    case 1:
        if (d->n > 0)
            which = seq_of_sent(d, (int)below(&d->g, (uint32_t)d->n));
        break;
    case 2:                                 /* never seen */
        which = d->last_seq + between(&d->g, 1, 5);
        break;
    case 3:                                 /* odd numbers, and its own */
        which = chance(&d->g, 50) ? own : chance(&d->g, 50) ? 0 : UINT32_MAX;
        break;
    case 4:                                 /* a limit order that took a place */
        for (i = 0; i < a->n_live; i++)
            if (!a->live[i].gtx)
                which = a->live[i].seq;
        break;
    case 5:                                 /* an old name */
        which = named_before(d);
        break;
    default:                                /* a live one */
        if (a->n_live > 0)
            which = a->live[below(&d->g, (uint32_t)a->n_live)].seq;
        break;
    }
    return which;
}

static struct peer_event any_cancel(struct draft *d)
{
    struct peer_event e = stamp(d, build_cancel(0, 0, 0));

    e.field[0] = any_name(d, e.seq);
    return e;
}

/* Prices that a response can have, and those about the initiating price. */
static uint32_t amend_price(struct draft *d)
{
    switch (below(&d->g, 10)) {
    case 0: case 1: return as_price((int64_t)d->a.init + PICK(&d->g, -1, 0, 0, 1, 1, 1, 2, 100));
    case 2: return as_price((int64_t)peer_bound(&d->a) - PICK(&d->g, 0, 1, 2));
    case 3: return edge_price(d);
    default: return response_price(d);
    }
}

static struct peer_event any_amend(struct draft *d)
{
    struct peer_event e = stamp(d, build_amend(0, 0, 0, 1, 1));

    e.field[0] = any_name(d, e.seq);
    e.field[1] = response_size(d);
    e.field[2] = amend_price(d);
    return e;
}

/* An amend of a live one that moves it among its equals: the rank changes,
 * and of size and price little or nothing. */
static struct peer_event rank_amend(struct draft *d)
{
    const struct peer_auction *a = &d->a;
    const struct peer_response *r, *other;
    struct peer_event e = any_amend(d);

    if (a->n_live == 0)
        return e;
    r = &a->live[below(&d->g, (uint32_t)a->n_live)];
    other = &a->live[below(&d->g, (uint32_t)a->n_live)];
    e.field[0] = r->seq;
    switch (below(&d->g, 10)) {
    case 0: case 1: e.field[1] = other->size; break;
    case 2: e.field[1] = as_size((int64_t)a->order.size + PICK(&d->g, 0, 1, 1, 100000)); break;
    default: e.field[1] = as_size((int64_t)r->size + PICK(&d->g, 0, 0, 0, 1, -1)); break;
    }
    e.field[2] = chance(&d->g, 30) ? other->price : r->price;
    return e;
}

static struct peer_event aimed_amend(struct draft *d) { return chance(&d->g, 50) ? rank_amend(d) : any_amend(d); }

static struct peer_event any_event(struct draft *d)
{
    switch (below(&d->g, 18)) {
    case 0: case 1: case 2: case 3: case 4:
        return any_response(d);
    case 5: case 6:
        return any_cancel(d);
    case 7: case 8:
        return any_limit(d, PEER_SELL);
    case 9: case 10: case 11:
        return any_limit(d, PEER_BUY);
    case 12:
        return any_market(d, chance(&d->g, 50) ? PEER_BUY : PEER_SELL);
    case 13: case 14:
        return aimed_amend(d);
    default:
        return any_quotes(d);
    }
}

static struct peer_event event_of_kind(struct draft *d, uint32_t kind)
{
    uint32_t side = between(&d->g, 1, 2);

    switch (kind) {
    case PEER_GTX: return any_response(d);
    case PEER_CANCEL: return any_cancel(d);
    case PEER_LIMIT: return any_limit(d, side);
    case PEER_MARKET: return any_market(d, side);
    case PEER_AMEND: return any_amend(d);
    default: return any_quotes(d);
    }
}

/* Takes one field of an event's bytes to its bounds or just past them. */
static void damage_event(struct rng *g, unsigned char *p)
{
    uint32_t kind = p[8];
    int priced = kind == PEER_GTX || kind == PEER_LIMIT || kind == PEER_AMEND;
    int size_at = kind == PEER_AMEND ? 16 : 12;     /* the price, if there is one, is next to it */
    int k;

    switch (below(g, 11)) {
    case 0:                                 /* no kind, or another one */
        p[8] = (unsigned char)PICK(g, 0, 7, 7, 7, 8, 255, 1, 2, 6);
        break;
    case 1:
        p[9] = (unsigned char)(p[9] | PICK(g, 1, 1, 1, 2, 4, 8, 16, 32, 64, 128));
        break;
    case 2:
        p[10] = (unsigned char)PICK(g, 0, 1, 2, 3, 3, 255);
        break;
    case 3:
        p[11] = (unsigned char)PICK(g, 1, 128, 255);
        break;
    case 4:
        k = (int)between(g, 28, 31);
        p[k] = (unsigned char)PICK(g, 1, 128, 255);
        break;
    case 5:
        build_word(p + 4, (uint32_t)PICK(g, 86400001, 86400001, -1, 86400000));
        break;
    case 6:                                 /* quotes, size or price */
    case 7:
        if (kind == PEER_QUOTES) {
            k = (int)below(g, 4);
            build_word(p + 12 + 4 * k, (uint32_t)PICK(g, 0, 0, 1, 999999, 1000000, 1000000, 1000001, -1));
        } else if (priced && chance(g, 50)) {
            build_word(p + size_at + 4, (uint32_t)PICK(g, 0, 0, 1, 999999, 1000000, 1000000, -1));
        } else {
            build_word(p + size_at, (uint32_t)PICK(g, 0, 0, 1, 100000, 100001, 100001, -1));
        }
        break;
    case 8:
    case 9:                                 /* a field that is not used */
        k = (int)between(g, (uint32_t)(size_at + (priced ? 8 : 4)), 27);
        if (kind != PEER_QUOTES)
            p[k] = (unsigned char)PICK(g, 1, 128, 255);
        else
            p[10] = (unsigned char)PICK(g, 1, 2);
        break;
    default:
        k = (int)between(g, 4, 31);
        p[k] = (unsigned char)(p[k] ^ 1 << below(g, 8));
        break;
    }
}

/* One event that should be refused, or is odd in some way. */
static void odd_bytes(struct draft *d, unsigned char *p)
{
    struct peer_auction *a = &d->a;
    struct peer_event e;

    switch (below(&d->g, 14)) {
    case 0:                                 /* the same record again */
    case 1:
        if (d->n > 0) {
            uint32_t i = below(&d->g, (uint32_t)d->n);

            memcpy(p, d->bytes + PEER_OLD * i, PEER_OLD);
            return;
        }
        e = any_event(d);
        break;
    case 2:                                 /* the last record again */
        if (d->n > 0) {
            memcpy(p, d->bytes + PEER_OLD * (d->n - 1), PEER_OLD);
            return;
        }
        e = any_event(d);
        break;
    case 3:                                 /* an old sequence, at times with an old time too */
        e = any_event(d);
        e.seq = chance(&d->g, 50) ? a->top_seq : below(&d->g, a->top_seq + 1);
        if (chance(&d->g, 20) && a->clock > 0)
            e.time = a->clock - 1;
        else if (chance(&d->g, 30))
            e.time = a->order.interval;     /* late, but refused before that */
        break;
    case 4:                                 /* time going back, by one or more */
        e = any_event(d);
        if (a->clock > 0)
            e.time = chance(&d->g, 60) ? a->clock - 1 : below(&d->g, a->clock);
        break;
    case 5:                                 /* a GTX on the order's own side */
        e = any_response(d);
        e = stamp(d, build_gtx(0, 0, PEER_BUY, e.field[0], edge_price(d), e.marks & PEER_CUSTOMER));
        break;
    case 6:                                 /* a GTX about the initiating price */
        e = stamp(d, build_gtx(0, 0, PEER_SELL, response_size(d), 1, 0));
        e.marks = response_mark(d);
        e.field[1] = as_price((int64_t)a->init + PICK(&d->g, 1, 1, 1, 0, 2, 100));
        break;
    case 7:                                 /* a cancel, then perhaps the record again */
        e = any_cancel(d);
        break;
    case 8:                                 /* just above the highest taken */
        e = any_event(d);
        e.seq = a->top_seq + 1;
        break;
    case 9:                                 /* an amend of any name, about the initiating price or not */
        e = any_amend(d);
        break;
    default:                                /* a field at or past its bounds */
        e = event_of_kind(d, between(&d->g, PEER_GTX, PEER_AMEND));
        if (chance(&d->g, 15))
            e.time = a->order.interval;
        if (chance(&d->g, 15))
            e.seq = a->top_seq;
        to_bytes(d, &e, p);
        damage_event(&d->g, p);
        return;
    }
    to_bytes(d, &e, p);
}

/* Sends an odd record; it seldom ends the auction. */
static void send_odd(struct draft *d)
{
    unsigned char p[PEER_OLD];
    int tries;

    for (tries = 0; tries < 20; tries++) {
        odd_bytes(d, p);
        if (ending_after(d, p) == d->a.ending || chance(&d->g, 2))
            break;
    }
    send_bytes(d, p);
}

/* Sends the event unless it would end the auction. */
static int send_quiet(struct draft *d, const struct peer_event *e)
{
    unsigned char p[PEER_OLD];

    to_bytes(d, e, p);
    if (ending_after(d, p) != d->a.ending)
        return 0;
    send_bytes(d, p);
    return 1;
}

/* Sends a response quietly. Now and then a GTX stands at another size and
 * price first, and comes by an amend to what it is meant to be. */
static void send_response(struct draft *d, struct peer_event e)
{
    if (e.kind == PEER_GTX && chance(&d->g, 12)) {
        struct peer_event first = e;

        first.field[0] = response_size(d);
        first.field[1] = response_price(d);
        send_quiet(d, &first);
        e = stamp(d, build_amend(0, 0, first.seq, e.field[0], e.field[1]));
    }
    send_quiet(d, &e);
}

/* Tries of one kind until one goes through quietly. */
static void send_some(struct draft *d, struct peer_event (*make)(struct draft *))
{
    struct peer_event e;
    int tries;

    for (tries = 0; tries < 20; tries++) {
        e = make(d);
        if (send_quiet(d, &e))
            return;
    }
}

static struct peer_event any_bid(struct draft *d) { return any_limit(d, PEER_BUY); }
static struct peer_event any_offer(struct draft *d) { return any_limit(d, PEER_SELL); }

/* ------------------------------------------------------------------ */
/* Bodies: what comes before the ending                               */

static void body_one(struct draft *d)
{
    send_some(d, any_response);
    if (chance(&d->g, 30)) {                /* a second one, taken back */
        struct peer_event e = stamp(d, build_gtx(0, 0, PEER_SELL, 5, response_price(d), 0));
        uint32_t seq = e.seq;

        send_event(d, &e);
        e = stamp(d, build_cancel(0, 0, seq));
        send_event(d, &e);
    }
    if (chance(&d->g, 20))
        send_some(d, aimed_amend);          /* still one */
}

/* Small sizes at few prices, so that shares have leftovers. */
static void body_share(struct draft *d)
{
    uint32_t price[2];
    uint32_t k, count = between(&d->g, 2, 14);
    uint32_t most = (uint32_t)PICK(&d->g, 1, 2, 3, 7, 20, 60);

    price[0] = response_price(d);
    price[1] = response_price(d);
    if (d->a.order.mode != PEER_MATCH && chance(&d->g, 60))
        price[0] = clamp(d->a.order.stop, 1, d->a.init);
    for (k = 0; k < count; k++) {
        uint32_t which = chance(&d->g, 75) ? 0 : 1;
        uint32_t size = between(&d->g, 1, most);

        if (chance(&d->g, 20))
            size = as_size(d->a.order.size / count + below(&d->g, 3));
        send_response(d, response(d, size, price[which]));
        if (chance(&d->g, 12))
            send_some(d, any_cancel);       /* a freed place is taken again out of order */
        if (chance(&d->g, 8))
            send_some(d, rank_amend);
        if (chance(&d->g, 8))
            send_odd(d);
    }
    if (chance(&d->g, 25))                  /* leftovers and Customers in another order */
        send_some(d, rank_amend);
}

/* The sizes at each price are set close to where the rule of the walk
 * changes: left = 2A, left = A, and what Contra lacks of G. */
static void body_levels(struct draft *d)
{
    const struct peer_auction *a = &d->a;
    uint32_t size = a->order.size, mode = a->order.mode;
    uint32_t bound = peer_bound(a), stop = working_stop(d);
    uint32_t price = bound, guarantee = as_size(size * 40 / 100);
    int64_t left = (int64_t)size - (d->market < size ? d->market : size), held = 0;
    struct peer_event list[40];
    int n = 0, i, level, levels = (int)between(&d->g, 1, 7);

    for (level = 0; level < levels && price <= a->init && n < 30; level++) {
        int64_t total;
        int parts = PICK(&d->g, 1, 1, 2, 3, 4), part;
        int matching = mode == PEER_MATCH || (mode == PEER_MATCH_LIMIT && price >= stop);

        switch (level + 1 < levels && chance(&d->g, 65) ? between(&d->g, 7, 11) : below(&d->g, 8)) {
        case 0: total = left / 2; break;
        case 1: total = (left + 1) / 2; break;
        case 2: total = left / 2 + PICK(&d->g, -1, 1); break;
        case 3: total = left + PICK(&d->g, -1, -1, 0, 0, 1); break;
        case 4: case 7: total = (int64_t)guarantee - held + PICK(&d->g, -1, 0, 0, 1); break;
        case 5: total = left / 3; break;
        case 6: total = left - guarantee + PICK(&d->g, -1, 0, 1); break;
        case 8: total = left / 5; break;
        case 9: total = left / 8; break;
        default: total = between(&d->g, 1, 5); break;
        }
        if (matching && left > 1 && left * 5 < (int64_t)size * 4 && chance(&d->g, 25))
            total = (left + PICK(&d->g, -1, 0, 0, 0, 1)) / 2;   /* Contra lacks more than A */
        if (mode != PEER_MATCH && price < stop && chance(&d->g, 40))
            total = left / between(&d->g, 3, 9);                /* leave some for later */
        if (total < 1)
            total = 1;
        if (parts > total)
            parts = 1;
        for (part = 0; part < parts; part++) {
            int64_t own = part == parts - 1 ? total : (int64_t)between(&d->g, 1, (uint32_t)(total - (parts - 1 - part)));

            if (n < 40) {
                uint32_t at = price;

                if (at == bound && at > 1 && chance(&d->g, 30))
                    at = as_price((int64_t)at - between(&d->g, 1, 3));  /* works at the bound */
                list[n++] = response(d, as_size(own), at);
            }
            total -= own;
            left -= own;
            if (matching && (held < guarantee || mode == PEER_MATCH)) {
                held += own;
                left -= own;
            }
        }
        if (left < 1)
            left = 1;
        switch (below(&d->g, 5)) {
        case 0: price = price < stop ? stop : price + 1; break;
        case 1: price = price < a->init ? a->init : price + 1; break;
        case 2: price += between(&d->g, 1, 4); break;
        default: price += 1; break;
        }
    }
    while (n > 0) {                         /* sent in any order of price */
        i = (int)below(&d->g, (uint32_t)n);
        send_response(d, stamp(d, list[i]));
        list[i] = list[--n];
        if (chance(&d->g, 5))
            send_odd(d);
    }
}

/* 64 live and more tries. */
static void body_full(struct draft *d, int wide)
{
    const struct peer_auction *a = &d->a;
    struct peer_event e;
    int k, goal = PICK(&d->g, 63, 64, 64, 64, 64, 64, 64, 64);
    int spread = wide || chance(&d->g, 50);
    uint32_t most = (uint32_t)PICK(&d->g, 1, 1, 2, 5, 50);
    uint32_t start = peer_bound(a);

    for (k = 0; k < 120 && a->n_live < goal && a->ending == PEER_OPEN; k++) {
        uint32_t price = spread ? clamp((int64_t)start + k, 1, a->init) : response_price(d);
        uint32_t size = between(&d->g, 1, most);

        send_response(d, response(d, size, price));
        if (!wide && chance(&d->g, 4))
            send_some(d, any_cancel);
        if (!wide && chance(&d->g, 4))
            send_some(d, aimed_amend);
        if (!wide && chance(&d->g, 3))
            send_odd(d);
    }
    if (a->n_live == PEER_PLACES)           /* an amend on a full board, once in any case */
        send_some(d, rank_amend);
    for (k = (int)below(&d->g, wide ? 3 : 9); k > 0; k--) {
        switch (below(&d->g, 11)) {
        case 0:                             /* marketable, but it has to be placed */
            e = stamp(d, build_limit(0, 0, PEER_SELL, response_size(d), 1, 0));
            e.field[1] = clamp((int64_t)a->nbb + PICK(&d->g, 0, 0, -1), 1, a->init);
            break;
        case 1:                             /* a limit order in or just out of the range */
            e = stamp(d, build_limit(0, 0, PEER_SELL, response_size(d), 1, 0));
            e.field[1] = as_price((int64_t)a->init + PICK(&d->g, 0, 0, 1, -1));
            break;
        case 2:                             /* a place freed, and the same tried again */
            e = any_cancel(d);
            send_quiet(d, &e);
            if (chance(&d->g, 40))          /* just after: one place free, or none */
                send_some(d, aimed_amend);
            e = any_response(d);
            break;
        case 3:
            e = any_limit(d, PEER_BUY);
            break;
        case 5:                             /* an amend needs no place, and frees none */
            send_some(d, wide ? rank_amend : aimed_amend);
            e = any_response(d);
            break;
        case 6: case 7:
            e = wide ? rank_amend(d) : aimed_amend(d);
            break;
        case 4:
            if (chance(&d->g, 50)) {        /* a national bid above the range */
                e = stamp(d, build_quotes(0, 0, as_price((int64_t)a->init + 2), a->nbo, a->bb, a->bo,
                                          a->cust_bb ? PEER_CUST_BB : 0));
                break;
            }
            send_odd(d);
            e = any_response(d);
            break;
        default:
            e = any_response(d);
            break;
        }
        send_quiet(d, &e);
    }
}

/* Bids and quotes that move the bound, with responses around it. */
static void body_bound(struct draft *d)
{
    int k;

    for (k = (int)between(&d->g, 3, 14); k > 0; k--) {
        switch (below(&d->g, 9)) {
        case 0: case 1: case 2:
            send_some(d, any_response);
            break;
        case 3: case 4:
            send_some(d, any_bid);
            break;
        case 5: case 6:
            send_some(d, any_quotes);
            break;
        case 7:
            send_some(d, aimed_amend);
            break;
        default:
            send_some(d, any_offer);
            break;
        }
    }
}

static void body_mix(struct draft *d, int count)
{
    int k;

    for (k = 0; k < count; k++) {
        if (chance(&d->g, 25))
            send_odd(d);
        else
            send_some(d, any_event);
    }
}

/* ------------------------------------------------------------------ */
/* Short runs of events aimed at one edge                             */

static int try_limit(struct draft *d, uint32_t side, int64_t price, uint32_t marks)
{
    struct peer_event e = stamp(d, build_limit(0, 0, side, response_size(d), as_price(price), marks));

    return send_quiet(d, &e);
}

static int try_quotes(struct draft *d, int64_t nbb, int64_t nbo, int64_t bb, int64_t bo, uint32_t marks)
{
    struct peer_event e = stamp(d, build_quotes(0, 0, as_price(nbb), as_price(nbo), clamp(bb, 0, PEER_PRICE_MAX),
                                                clamp(bo, 1, PEER_MIRROR), marks));

    return send_quiet(d, &e);
}

static uint32_t mark_bb(const struct draft *d) { return d->a.cust_bb ? PEER_CUST_BB : 0; }

/* Events that come as close to an ending as they can. */
static void near_miss(struct draft *d)
{
    const struct peer_auction *a = &d->a;
    uint32_t customer = below(&d->g, 2);

    switch (below(&d->g, 6)) {
    case 0: try_limit(d, PEER_SELL, (int64_t)a->nbb + 1, customer); break;
    case 1: try_limit(d, PEER_SELL, (int64_t)a->bb + 1, customer | PEER_NON_ROUTABLE); break;
    case 2: try_limit(d, PEER_BUY, (int64_t)a->nbo - 1, customer); break;
    case 3: try_limit(d, PEER_BUY, (int64_t)a->bo - 1, customer | PEER_NON_ROUTABLE); break;
    case 4: try_limit(d, PEER_BUY, (int64_t)a->init - 1, customer | PEER_NON_ROUTABLE); break;
    default: try_limit(d, PEER_BUY, a->init, PEER_NON_ROUTABLE); break;
    }
}

/* Sends an amend of a name, and gives the amend's sequence. */
static uint32_t amend_named(struct draft *d, uint32_t which)
{
    struct peer_event e = rank_amend(d);

    e.field[0] = which;
    send_event(d, &e);
    return e.seq;
}

static void cancel_named(struct draft *d, uint32_t which)
{
    struct peer_event e = stamp(d, build_cancel(0, 0, which));

    send_event(d, &e);
}

/* A GTX amended once or more; then its names, old and new, are tried, and its
 * records sent again. */
static void amend_script(struct draft *d)
{
    struct peer_event e = stamp(d, build_gtx(0, 0, PEER_SELL, response_size(d), 1, 0));
    uint32_t first = e.seq, old, name;
    int sent_at = d->n, k;

    e.field[1] = response_price(d);
    e.marks = response_mark(d);
    send_event(d, &e);
    old = name = first;
    for (k = PICK(&d->g, 1, 1, 1, 2, 2, 3); k > 0; k--) {
        old = name;
        name = amend_named(d, old);
    }
    for (k = (int)below(&d->g, 4); k > 0; k--) {
        switch (below(&d->g, 9)) {
        case 0: cancel_named(d, old); break;
        case 1: cancel_named(d, first); break;
        case 2: cancel_named(d, name); break;
        case 3: amend_named(d, old); break;
        case 4: name = amend_named(d, name); break;
        case 5: send_bytes(d, d->bytes + PEER_OLD * sent_at); break;
        case 6: case 7:                     /* time going back, to before the amend */
            e = stamp(d, build_gtx(0, 0, PEER_SELL, 1, d->a.init, 0));
            e.time = clamp((int64_t)d->a.clock - 1, 0, PEER_TIME_MAX);
            send_event(d, &e);
            break;
        default: send_bytes(d, d->bytes + PEER_OLD * (d->n - 1)); break;
        }
    }
}

/* Records about what a collar has moved: the offer that counts, the quoted BO,
 * and the initiating price that BO would make. */
static void collar_script(struct draft *d)
{
    const struct peer_auction *a = &d->a;
    const struct peer_order *o = &a->order;
    uint32_t init = a->init, plain = init_by(o, o->bo), marks = below(&d->g, 4);
    uint32_t price = plain > init ? between(&d->g, init + 1, plain) : init;     /* in the one range alone */
    int64_t bo = (int64_t)a->bo + PICK(&d->g, -1, 1, 5);
    struct peer_event e;

    if (chance(&d->g, 75)) {
        e = stamp(d, build_gtx(0, 0, PEER_SELL, response_size(d), price, marks & PEER_CUSTOMER));
        send_quiet(d, &e);
    }
    if (chance(&d->g, 25)) {
        e = any_amend(d);
        e.field[2] = price;
        send_quiet(d, &e);
    }
    if (chance(&d->g, 40))
        try_limit(d, PEER_SELL, price, marks);
    if (chance(&d->g, 25))                  /* another BO, which moves no initiating price */
        try_quotes(d, a->nbb, (int64_t)a->nbo + PICK(&d->g, 0, 1, 5), a->bb, bo, mark_bb(d));
    if (chance(&d->g, o->size < 50 ? 25 : 60))  /* a bid about the offer, where it ends nothing */
        try_limit(d, PEER_BUY, (int64_t)offer_of(o) + PICK(&d->g, 0, 0, 0, -1, 1), PEER_NON_ROUTABLE | marks);
    if (offer_of(o) < a->bo && chance(&d->g, 10)) { /* and wherever it is no "same" */
        e = stamp(d, build_limit(0, 0, PEER_BUY, response_size(d), offer_of(o), PEER_NON_ROUTABLE | marks));
        send_event(d, &e);
    }
}

static void script(struct draft *d)
{
    const struct peer_auction *a = &d->a;
    struct peer_event e;
    unsigned char p[PEER_OLD];
    uint32_t seq, marks;

    switch (below(&d->g, 9)) {
    case 0:                                 /* a bid that raises NBB, then offers about it */
        marks = below(&d->g, 4);
        if (!try_limit(d, PEER_BUY, (int64_t)a->nbb + PICK(&d->g, 1, 1, 2, 3), marks))
            break;
        try_limit(d, PEER_SELL, (int64_t)a->nbb + 1, 0);
        if (chance(&d->g, 40)) {
            e = stamp(d, build_limit(0, 0, PEER_SELL, response_size(d), as_price(a->nbb), 0));
            send_event(d, &e);
        }
        break;
    case 1:                                 /* crossed: a bid below BB and above NBB */
        try_quotes(d, (int64_t)a->init - 5, a->nbo, (int64_t)a->init - 1, a->bo, 0);
        if (!try_limit(d, PEER_BUY, (int64_t)a->init - PICK(&d->g, 2, 3, 4), 0))
            break;
        if (chance(&d->g, 60)) {
            e = stamp(d, build_limit(0, 0, PEER_SELL, response_size(d), as_price((int64_t)a->init - 3), 0));
            send_event(d, &e);
        }
        break;
    case 2:                                 /* NBB above the range, and an offer between */
        if (!try_quotes(d, (int64_t)a->init + 2, a->nbo, a->bb, a->bo, mark_bb(d)))
            break;
        try_limit(d, PEER_SELL, (int64_t)a->init + 1, PEER_NON_ROUTABLE);
        if (chance(&d->g, 60)) {
            e = stamp(d, build_limit(0, 0, PEER_SELL, response_size(d), 1, 0));
            e.field[1] = as_price((int64_t)a->init + PICK(&d->g, 0, 1, 1, 2, 3));
            send_event(d, &e);
        }
        break;
    case 3:                                 /* the mark at an equal price, at the very top */
        if (!try_quotes(d, a->nbb, (int64_t)a->init + 2, a->init, (int64_t)a->init + 2, 0))
            try_quotes(d, a->nbb, (int64_t)a->init + 2, (int64_t)a->init - 1, (int64_t)a->init + 2, 0);
        try_limit(d, PEER_BUY, a->bb, 0);
        try_limit(d, PEER_BUY, (int64_t)a->bb - 1, PEER_CUSTOMER);
        if (chance(&d->g, 50)) {
            e = stamp(d, build_limit(0, 0, PEER_BUY, response_size(d), as_price(a->bb), PEER_CUSTOMER));
            send_event(d, &e);
        }
        break;
    case 4:                                 /* a mark set by an equal bid, or lost by a higher one */
        if (chance(&d->g, 50))
            try_quotes(d, a->nbb, a->nbo, a->bb, a->bo, PEER_CUST_BB);
        if (chance(&d->g, 50))
            try_limit(d, PEER_BUY, a->bb, below(&d->g, 2));
        try_limit(d, PEER_BUY, (int64_t)a->bb + 1, below(&d->g, 4));
        break;
    case 5:                                 /* placed, cancelled, the same bytes again, then anew */
        e = stamp(d, build_gtx(0, 0, PEER_SELL, response_size(d), 1, 0));
        e.field[1] = response_price(d);
        seq = e.seq;
        to_bytes(d, &e, p);
        send_bytes(d, p);
        if (chance(&d->g, 40))
            amend_named(d, seq);            /* or gone by an amend before */
        cancel_named(d, seq);
        send_bytes(d, p);
        if (chance(&d->g, 50)) {
            peer_read_event(p, PEER_OLD, &e);
            e.seq = d->last_seq + 1;
            e.time = a->clock;
            build_event(p, PEER_OLD, &e);
            send_bytes(d, p);
        }
        if (chance(&d->g, 30))
            cancel_named(d, seq);
        break;
    case 6:                                 /* a limit order that took a place can't be cancelled or amended */
        seq = (uint32_t)d->n;
        marks = below(&d->g, 4);
        try_limit(d, PEER_SELL, (int64_t)a->init - PICK(&d->g, 0, 0, 1), marks);
        if ((uint32_t)d->n > seq) {
            seq = d->last_seq;
            if (chance(&d->g, 50))
                amend_named(d, seq);
            cancel_named(d, seq);
        }
        break;
    case 7:                                 /* the bound raised above responses that stand */
        send_some(d, any_response);
        try_limit(d, PEER_BUY, (int64_t)a->init - PICK(&d->g, 1, 1, 2), PEER_NON_ROUTABLE);
        send_some(d, any_response);
        break;
    default:                                /* the bound let down again by quotes */
        send_some(d, any_response);
        try_quotes(d, a->nbb, a->nbo, (int64_t)a->init - PICK(&d->g, 1, 2), a->bo, 0);
        if (chance(&d->g, 50))
            try_quotes(d, a->nbb, a->nbo, 0, a->bo, below(&d->g, 2) ? PEER_CUST_BB : 0);
        break;
    }
}

/* Many records at and past the bounds of their fields. */
static void body_damaged(struct draft *d)
{
    unsigned char p[PEER_OLD];
    int k;

    for (k = (int)between(&d->g, 10, 60); k > 0; k--) {
        struct peer_event e = event_of_kind(d, between(&d->g, PEER_GTX, PEER_AMEND));

        to_bytes(d, &e, p);
        damage_event(&d->g, p);
        if (ending_after(d, p) == d->a.ending)
            send_bytes(d, p);
        if (chance(&d->g, 10))
            send_some(d, any_response);
    }
}

/* ------------------------------------------------------------------ */
/* Bodies aimed at the contracts on offer                             */

/* A size about the CUBE size, most often above it. */
static uint32_t size_about_cap(struct draft *d)
{
    uint32_t cap = d->a.order.size;

    switch (below(&d->g, 8)) {
    case 0: case 1: return as_size((int64_t)cap + 1);
    case 2: return as_size((int64_t)cap + between(&d->g, 2, 1000));
    case 3: return PEER_SIZE_MAX;
    case 4: case 5: return between(&d->g, cap, PEER_SIZE_MAX);
    case 6: return cap;
    default: return as_size((int64_t)cap - 1);
    }
}

/* The size of an amend: by one, down, up, to the cap, past it, the same. */
static uint32_t moved_size(struct draft *d, uint32_t old)
{
    uint32_t cap = d->a.order.size;

    switch (below(&d->g, 8)) {
    case 0: return as_size((int64_t)old - 1);
    case 1: return as_size((int64_t)old + 1);
    case 2: return between(&d->g, 1, old);
    case 3: return between(&d->g, old, cap);
    case 4: return cap;
    case 5: return old;
    default: return size_about_cap(d);
    }
}

/* Some live GTX, or NULL. */
static const struct peer_response *some_gtx(struct draft *d)
{
    const struct peer_auction *a = &d->a;
    int i, from = (int)below(&d->g, PEER_PLACES);

    for (i = 0; i < a->n_live; i++) {
        const struct peer_response *r = &a->live[(from + i) % a->n_live];

        if (r->gtx)
            return r;
    }
    return NULL;
}

/* A cancel or an amend of a live GTX. */
static struct peer_event move_of(struct draft *d, const struct peer_response *r)
{
    struct peer_event e = build_cancel(0, 0, r->seq);

    if (chance(&d->g, 65)) {
        uint32_t size = moved_size(d, r->size);

        e = build_amend(0, 0, r->seq, size, chance(&d->g, 70) ? r->price : response_price(d));
    }
    return stamp(d, e);
}

/* A GTX about its cap, or a move of one that is live. */
static struct peer_event offer_event(struct draft *d)
{
    const struct peer_response *r = some_gtx(d);
    struct peer_event e;

    if (r != NULL && chance(&d->g, 55))
        return move_of(d, r);
    e = stamp(d, build_gtx(0, 0, PEER_SELL, size_about_cap(d), 1, 0));
    e.field[1] = response_price(d);
    e.marks = response_mark(d);
    return e;
}

/* The bytes of a record sent before: of a name that is gone, or any. */
static const unsigned char *sent_before(struct draft *d)
{
    uint32_t gone = named_before(d);
    int i = (int)below(&d->g, (uint32_t)d->n), k;

    if (chance(&d->g, 50))
        for (k = 0; k < d->n; k++)
            if (seq_of_sent(d, k) == gone)
                i = k;
    return d->bytes + PEER_OLD * i;
}

/* Sends a record that the number refuses, if it is found; without that number
 * most would move what is on offer. */
static void send_refused(struct draft *d, uint32_t number)
{
    const struct peer_auction *a = &d->a;
    struct peer_event e = offer_event(d);
    struct peer_auction after;
    unsigned char p[PEER_OLD];
    int again = 0;

    switch (number) {
    case 32:
        if (e.kind == PEER_GTX && chance(&d->g, 50))
            e.field[0] = (uint32_t)PICK(&d->g, 0, 100001, -1);
        else
            e.marks = (uint32_t)PICK(&d->g, 2, 4, 128);
        break;
    case 33:
        again = d->n > 0 && chance(&d->g, 60);
        e.seq = chance(&d->g, 50) ? a->top_seq : below(&d->g, a->top_seq);
        break;
    case 34:
        e.time = clamp((int64_t)a->clock - PICK(&d->g, 1, 1, 5), 0, PEER_TIME_MAX);
        break;
    case 35:
        e = stamp(d, build_gtx(0, 0, PEER_BUY, size_about_cap(d), a->init, 0));
        break;
    case 36:
        if (e.kind == PEER_CANCEL)
            e = stamp(d, build_gtx(0, 0, PEER_SELL, size_about_cap(d), 1, 0));
        e.field[e.kind == PEER_AMEND ? 2 : 1] = as_price((int64_t)a->init + PICK(&d->g, 1, 1, 2, 100));
        break;
    case 37:
        if (e.kind == PEER_GTX)
            e = stamp(d, build_cancel(0, 0, 0));
        e.field[0] = any_name(d, e.seq);
        break;
    default:                                /* 38: any that needs a place, on a full board */
        if (chance(&d->g, 50))
            e = stamp(d, build_limit(0, 0, PEER_SELL, PEER_SIZE_MAX, a->init, 0));
        break;
    }
    if (again)
        memcpy(p, sent_before(d), PEER_OLD);
    else
        to_bytes(d, &e, p);
    if (answer_to(d, p, &after) == (int)number)
        send_bytes(d, p);
}

static void send_any_refused(struct draft *d) { send_refused(d, between(&d->g, 32, 38)); }

/* A response that counts with its whole size, where it ends nothing: a limit
 * order, or a GTX of no more than the CUBE size. */
static void send_whole(struct draft *d, uint32_t size)
{
    uint32_t price = between(&d->g, d->a.nbb + 1, d->a.init);
    uint32_t marks = response_mark(d);
    struct peer_event e;

    if (size <= d->a.order.size && chance(&d->g, 50)) {
        e = build_gtx(0, 0, PEER_SELL, size, price, marks);
    } else {
        if (chance(&d->g, 30))
            marks |= PEER_NON_ROUTABLE;
        e = build_limit(0, 0, PEER_SELL, size, price, marks);
    }
    e = stamp(d, e);
    send_quiet(d, &e);
}

/* GTX about their cap, moved again and again; limit orders past it. */
static void body_capped(struct draft *d)
{
    int k;

    for (k = (int)between(&d->g, 6, 24); k > 0; k--) {
        switch (below(&d->g, 8)) {
        case 0:
            send_whole(d, size_about_cap(d));
            break;
        case 1:                             /* above the initiating price it takes no place */
            try_limit(d, PEER_SELL, (int64_t)d->a.init + PICK(&d->g, 0, 1, 1, 2), 0);
            break;
        case 2: case 3:
            send_any_refused(d);
            break;
        default:
            send_some(d, offer_event);
            break;
        }
    }
}

/* Fills places up to a goal, with the greatest size or a few less. */
static void fill_large(struct draft *d, int goal, uint32_t off)
{
    const struct peer_auction *a = &d->a;
    int k;

    for (k = a->n_live; k < goal + 5 && a->n_live < goal && a->nbb < a->init; k++) {
        send_whole(d, PEER_SIZE_MAX - between(&d->g, 0, off));
        if (chance(&d->g, 15))
            send_any_refused(d);
    }
}

static void body_large(struct draft *d)
{
    int k, goal = (int)between(&d->g, 20, 50);

    fill_large(d, goal, chance(&d->g, 50) ? 1 : 10);
    for (k = (int)below(&d->g, 8); k > 0; k--)
        send_some(d, offer_event);
}

/* 64 places of the greatest size, all but the last if the ending takes it;
 * where one can go or shrink, it does, and comes back. */
static void body_greatest(struct draft *d, int goal)
{
    const struct peer_response *r;
    struct peer_event e;
    int k;

    fill_large(d, goal, 0);
    for (k = (int)between(&d->g, 2, 5); k > 0; k--)
        send_refused(d, chance(&d->g, 50) ? 38 : between(&d->g, 32, 37));
    for (k = (int)between(&d->g, 1, 4); k > 0 && (r = some_gtx(d)) != NULL; k--) {
        if (chance(&d->g, 50)) {
            cancel_named(d, r->seq);
        } else {
            e = stamp(d, build_amend(0, 0, r->seq, PEER_SIZE_MAX - 1, r->price));
            send_event(d, &e);
            e = stamp(d, build_amend(0, 0, e.seq, PEER_SIZE_MAX, e.field[2]));
            send_event(d, &e);
        }
        if (chance(&d->g, 80))
            fill_large(d, goal, 0);
        send_any_refused(d);
    }
}

/* ------------------------------------------------------------------ */
/* Bodies aimed at the leftovers of a share                           */

/* A price at which others can share: below the stop or limit, or with Contra. */
static uint32_t share_price(struct draft *d)
{
    uint32_t bound = peer_bound(&d->a), stop = working_stop(d), init = d->a.init;

    if (stop > bound && chance(&d->g, 40))
        return between(&d->g, bound, stop - 1);
    if (d->a.order.mode == PEER_STOP)
        return stop;
    switch (below(&d->g, 4)) {
    case 0: return stop;
    case 1: return init;
    default: return between(&d->g, stop, init);
    }
}

/* A response of just that size and price: a GTX, or a limit order if it has to
 * be one, and now and then if it can be. */
static void send_just(struct draft *d, uint32_t size, uint32_t price, uint32_t marks)
{
    struct peer_event e = build_gtx(0, 0, PEER_SELL, size, price, marks);

    if (price > d->a.nbb && (size > d->a.order.size || chance(&d->g, 15)))
        e = build_limit(0, 0, PEER_SELL, size, price, marks);
    send_response(d, stamp(d, e));
}

/* Some that trade before the others at a price: one at a better price, after
 * which Contra may hold G, and Customers. */
static void send_before(struct draft *d, uint32_t price)
{
    uint32_t size = d->a.order.size, bound = peer_bound(&d->a), stop = working_stop(d);
    int k;

    if (d->a.order.mode != PEER_STOP && price > stop && chance(&d->g, 50)) {
        send_just(d, as_size(size * 40 / 100), between(&d->g, stop, price - 1), 0);
    } else if (price > bound && chance(&d->g, 30)) {
        uint32_t better = between(&d->g, bound, price - 1);

        send_just(d, between(&d->g, 1, size / 5 + 1), better, 0);
    }
    if (chance(&d->g, 40))
        for (k = PICK(&d->g, 1, 1, 2, 3); k > 0; k--)
            send_just(d, between(&d->g, 1, size / 8 + 1), price, PEER_CUSTOMER);
}

/* R at a price as things stand, if two come there with plenty on offer. */
static uint32_t shared_at(const struct draft *d, uint32_t price)
{
    struct peer_auction a = d->a;
    struct peer_fill fill[PEER_FILLS_MAX];
    struct peer_response member = { .size = a.order.size, .price = price, .gtx = 1 };
    uint32_t r = 0;
    int i, n;

    for (i = 0; i < 2; i++) {
        member.seq = UINT32_MAX - (uint32_t)i;
        a.live[a.n_live++] = member;
    }
    a.market_seq = 1;
    a.market_size = d->market;
    peer_close(&a);
    n = peer_fills(&a, fill);
    for (i = 0; i < n; i++)
        if (fill[i].party >= UINT32_MAX - 1)
            r += fill[i].quantity;
    return r;
}

/* A total in n parts or fewer, none of them 0: even ones, or any. */
static int split(struct draft *d, uint32_t total, uint32_t *part, uint32_t n, int even)
{
    int k = 0;

    for (; n > 0 && total > 0; n--) {
        uint32_t own = total / n;

        if (!even || own == 0)
            own = between(&d->g, 1, 2 * own);
        if (n == 1 || own > total)
            own = total;
        part[k++] = own;
        total -= own;
    }
    return k;
}

/* A total of q times R, so that R x s / T is s / q: first some whose part is
 * 0, then any, or one more of that kind. */
static int zero_sizes(struct draft *d, uint32_t r, uint32_t *size)
{
    uint32_t q = (uint32_t)PICK(&d->g, 2, 2, 3, 3, 4, 5), left = r;
    int n, zeros = PICK(&d->g, 1, 1, 2, 3);

    for (n = 0; n < zeros && left > 1; n++) {
        uint32_t whole = between(&d->g, 1, left / 3);

        size[n] = q * whole;
        left -= whole;
    }
    return n + split(d, q * left, size + n, chance(&d->g, 20) ? 1 : between(&d->g, q, q + 4), 0);
}

/* Sizes of members that share r contracts, more than r in all; gives their count. */
static int member_sizes(struct draft *d, int body, uint32_t r, uint32_t *size)
{
    uint32_t cap = d->a.order.size, n = between(&d->g, 2, 12), base, spread = 1;
    int i, k;

    switch (body) {
    case BODY_SHORT:                        /* by one contract or a few; now and then one alone */
        r += (uint32_t)PICK(&d->g, 1, 1, 1, 1, 1, 1, 2, 3);
        if (chance(&d->g, 10))
            n = 1;
        return split(d, r, size, n, chance(&d->g, 30));
    case BODY_HALVES:                       /* R x s / T is s / 2 or close: equal parts of unequal sizes */
        return split(d, 2 * r + (uint32_t)PICK(&d->g, 0, 0, 0, 1), size, n, 0);
    case BODY_ZERO:
        return zero_sizes(d, r, size);
    case BODY_WHOLE:                        /* the last has to be a limit order */
        k = split(d, between(&d->g, 1, cap), size, n, 0);
        size[k] = between(&d->g, cap + 1, 4 * cap);
        return k + 1;
    case BODY_BIG:
        for (i = 0; i < (int)n; i++)
            size[i] = chance(&d->g, 50) ? between(&d->g, 1, cap) : cap - below(&d->g, 5);
        return i;
    case BODY_MANY:
        n = between(&d->g, 40, PEER_PLACES - (uint32_t)d->a.n_live);
        spread = (uint32_t)PICK(&d->g, 0, 1, 1, 2, 5, 50);
        break;
    case BODY_EQUAL:
        spread = 0;
        break;
    }
    base = r / n + (uint32_t)PICK(&d->g, 1, 1, 2, 3);
    for (i = 0; i < (int)n; i++)
        size[i] = base + between(&d->g, 0, spread);
    return i;
}

/* Puts some live GTX at the back, all else as it was: by an amend, or by a
 * cancel and a new one, between which another may come to the place. */
static void send_to_back(struct draft *d)
{
    const struct peer_response *r = some_gtx(d);
    struct peer_event e;

    if (r == NULL)
        return;
    e = build_amend(0, 0, r->seq, r->size, r->price);
    if (chance(&d->g, 50)) {
        e = build_gtx(0, 0, PEER_SELL, r->size, r->price, r->customer ? PEER_CUSTOMER : 0);
        cancel_named(d, r->seq);
        if (chance(&d->g, 60))
            send_to_back(d);
    }
    e = stamp(d, e);
    send_quiet(d, &e);
}

/* The list in any order. */
static void shuffle(struct rng *g, uint32_t *list, int n)
{
    for (; n > 1; n--) {
        uint32_t k = below(g, (uint32_t)n), last = list[n - 1];

        list[n - 1] = list[k];
        list[k] = last;
    }
}

/* Members at one price that share fewer contracts than their sizes. */
static void body_leftovers(struct draft *d, int body)
{
    uint32_t price = share_price(d), size[PEER_PLACES];
    int i, n, moves;

    if (body == BODY_WHOLE && price <= d->a.nbb)
        price = clamp((int64_t)d->a.nbb + 1, 1, d->a.init);
    if (body != BODY_BIG || chance(&d->g, 50))
        send_before(d, price);
    n = member_sizes(d, body, shared_at(d, price), size);
    moves = (int)between(&d->g, 2, 8);
    if (body == BODY_ZERO)                  /* the parts of 0 stay in front, most often */
        moves = (int)below(&d->g, 2);
    else
        shuffle(&d->g, size, n);
    for (i = 0; i < n; i++) {
        uint32_t at = price;

        if (price == peer_bound(&d->a) && chance(&d->g, 20))
            at = as_price((int64_t)price - between(&d->g, 1, 3));   /* works at the bound */
        send_just(d, as_size(size[i]), at, 0);
    }
    for (; moves > 0; moves--)
        send_to_back(d);
}

/* ------------------------------------------------------------------ */
/* Endings                                                            */

static struct peer_event ending_event(struct draft *d, int ending)
{
    const struct peer_auction *a = &d->a;
    struct peer_event e;
    uint32_t marks;

    switch (ending) {
    case END_LATE:
        e = chance(&d->g, 30) ? aimed_amend(d) : any_event(d);
        e.time = a->order.interval + (uint32_t)PICK(&d->g, 0, 0, 0, 0, 1, 1, 1000);
        if (chance(&d->g, 5))
            e.time = PEER_TIME_MAX;
        return e;
    case END_SAME_LIMIT:
        e = any_limit(d, PEER_BUY);
        if (a->order.displayed != 0 && chance(&d->g, 50))       /* at the quoted BO */
            e = stamp(d, build_limit(0, 0, PEER_BUY, e.field[0], as_price(a->bo), PEER_NON_ROUTABLE));
        else if (chance(&d->g, 60))
            e.field[1] = as_price(e.marks & PEER_NON_ROUTABLE ? a->bo : a->nbo);
        return e;
    case END_SAME_MARKET:
        return any_market(d, PEER_BUY);
    case END_OPP_LIMIT:
        e = any_limit(d, PEER_SELL);
        if (chance(&d->g, 60))
            e.field[1] = as_price(e.marks & PEER_NON_ROUTABLE ? a->bb : a->nbb);
        if (d->market > 0 && chance(&d->g, 50))
            e.field[0] = d->market;
        return e;
    case END_OPP_MARKET:
        return any_market(d, PEER_SELL);
    case END_OPP_ABOVE:                     /* marketable, and above the initiating price */
        e = any_limit(d, PEER_SELL);
        e.marks &= PEER_CUSTOMER;
        e.field[1] = as_price(between(&d->g, a->init + 1, a->nbb));
        return e;
    case END_IMPROVE_BID:
        marks = below(&d->g, 4);
        e = stamp(d, build_limit(0, 0, PEER_BUY, response_size(d), 1, marks));
        e.field[1] = as_price((int64_t)a->init + PICK(&d->g, -1, 0, 0, 0, 0, 1, 1, 2));
        if (a->order.displayed != 0 && chance(&d->g, 70)) {     /* at the offer that counts */
            e.marks |= PEER_NON_ROUTABLE;
            e.field[1] = as_price(offer_of(&a->order));
        }
        return e;
    default:
        return any_quotes(d);
    }
}

static void send_ending(struct draft *d, int ending)
{
    static const int stands[END_KINDS] = {
        PEER_BY_TIME, PEER_BY_TIME, PEER_BY_SAME, PEER_BY_SAME, PEER_BY_OPPOSITE, PEER_BY_OPPOSITE,
        PEER_BY_IMPROVE, PEER_BY_IMPROVE, PEER_BY_OPPOSITE
    };
    unsigned char p[PEER_OLD];
    struct peer_event e;
    int tries;

    if (ending == END_CLOSE || d->a.ending != PEER_OPEN)
        return;
    if (ending == END_OPP_ABOVE)            /* a national bid above the initiating price */
        try_quotes(d, (int64_t)d->a.init + PICK(&d->g, 1, 1, 2, 3), d->a.nbo, d->a.bb, d->a.bo, mark_bb(d));
    for (tries = 0; tries < 80; tries++) {
        e = ending_event(d, ending);
        to_bytes(d, &e, p);
        if (ending_after(d, p) == stands[ending]) {
            send_bytes(d, p);
            return;
        }
        if (ending == END_IMPROVE_BID && tries == 20) {     /* offers out of the way of a bid */
            e = stamp(d, build_quotes(0, 0, d->a.nbb, as_price((int64_t)d->a.init + 3), d->a.bb,
                                      as_price((int64_t)d->a.init + PICK(&d->g, 3, 4)),
                                      d->a.cust_bb ? PEER_CUST_BB : 0));
            send_quiet(d, &e);
        }
    }
}

/* Records that would change who is behind the lowest GTX, and don't: the record
 * that made it again, an amend above the initiating price, a late amend. */
static void firm_script(struct draft *d, int ending)
{
    const struct peer_response *r = NULL;
    struct peer_event e;
    uint32_t seq;
    int i;

    for (i = 0; i < d->a.n_live; i++)
        if (d->a.live[i].gtx && (r == NULL || d->a.live[i].price < r->price))
            r = &d->a.live[i];
    if (r == NULL)
        return;
    seq = r->seq;
    e = build_amend(0, 0, seq, r->size, as_price((int64_t)d->a.init + PICK(&d->g, 1, 1, 2, 50)));
    for (i = d->n - 1; i >= 0 && seq_of_sent(d, i) != seq; i--)
        ;
    if (i >= 0 && chance(&d->g, 60))
        send_bytes(d, d->bytes + PEER_OLD * i);
    if (chance(&d->g, 60)) {
        e = stamp(d, e);
        send_quiet(d, &e);
    }
    if ((ending == END_LATE || ending == END_CLOSE) && chance(&d->g, 60)) {
        e = stamp(d, build_amend(0, 0, seq, 1, d->a.init));
        e.time = d->a.order.interval;
        send_event(d, &e);
    }
}

/* Records after the ending, good and bad. */
static void send_tail(struct draft *d)
{
    int k;

    for (k = (int)between(&d->g, 1, 4); k > 0; k--) {
        if (chance(&d->g, 50)) {
            send_odd(d);
        } else {
            struct peer_event e = any_event(d);

            if (chance(&d->g, 30))
                e.time = d->a.order.interval + 5;
            send_event(d, &e);
        }
    }
}

/* ------------------------------------------------------------------ */
/* The whole tape                                                     */

static void draft_events(struct draft *d, int body, int ending, int wide)
{
    uint32_t size = d->a.order.size;
    int leftovers = body >= BODY_EQUAL && body <= BODY_BIG;
    int calm = wide || (leftovers && chance(&d->g, 80));

    d->customers = (uint32_t)PICK(&d->g, 0, 0, 20, 40, 60, 100);
    d->market = 0;
    if (ending == END_OPP_MARKET || ending == END_OPP_LIMIT) {
        switch (below(&d->g, 6)) {
        case 0: d->market = 1; break;
        case 1: d->market = as_size((int64_t)size + PICK(&d->g, -1, 0, 1)); break;
        case 2: d->market = as_size(size / 2); break;
        case 3: d->market = as_size(size * 60 / 100 + below(&d->g, 3)); break;
        default: d->market = between(&d->g, 1, as_size(size / 3)); break;
        }
        if (wide)
            d->market = between(&d->g, 1, 3);
        if (leftovers)
            d->market = between(&d->g, 1, as_size(size / 3));
        if (body >= BODY_CAPPED)            /* it counts whole, or not at all */
            d->market = body == BODY_GREATEST ? PEER_SIZE_MAX : size_about_cap(d);
    }
    if (body != BODY_NONE && !calm && chance(&d->g, 12))
        send_odd(d);
    switch (body) {
    case BODY_ONE: body_one(d); break;
    case BODY_SHARE: body_share(d); break;
    case BODY_LEVELS: body_levels(d); break;
    case BODY_FULL: body_full(d, wide); break;
    case BODY_BOUND: body_bound(d); break;
    case BODY_MIX: body_mix(d, (int)between(&d->g, 1, 25)); break;
    case BODY_DAMAGED: body_damaged(d); break;
    case BODY_LONG: body_mix(d, PEER_EVENTS_MAX - 30); break;
    case BODY_CAPPED: body_capped(d); break;
    case BODY_LARGE: body_large(d); break;
    case BODY_GREATEST: body_greatest(d, ending == END_OPP_LIMIT ? PEER_PLACES - 1 : PEER_PLACES); break;
    default:
        if (leftovers)
            body_leftovers(d, body);
        break;
    }
    if (!calm && body != BODY_NONE && d->a.order.displayed != 0 && chance(&d->g, 80))
        collar_script(d);
    if (!calm && body != BODY_NONE && chance(&d->g, 20))
        script(d);
    if (!calm && body != BODY_NONE && chance(&d->g, 10))
        amend_script(d);
    if (!calm && chance(&d->g, 10))
        send_some(d, chance(&d->g, 50) ? any_bid : any_quotes);
    if (!calm && chance(&d->g, 15))
        near_miss(d);
    if (!calm && chance(&d->g, 20))
        send_odd(d);
    if (chance(&d->g, 8))                   /* the last word before the ending */
        send_some(d, aimed_amend);
    if (d->firms && chance(&d->g, 30))
        firm_script(d, ending);
    send_ending(d, ending);
    if (ending != END_CLOSE && chance(&d->g, body >= BODY_CAPPED ? 60 : 25))
        send_tail(d);
    if (body == BODY_LONG)                  /* as many events as a tape can hold */
        while (d->n < PEER_EVENTS_MAX)
            send_odd(d);
}

/* ------------------------------------------------------------------ */
/* The two forms of a tape                                            */

/* What a tape aimed at the moves between the forms is to be. */
enum move_aim {
    MOVE_NO_AIM,
    MOVE_ZERO, MOVE_ZERO_ODD, MOVE_NEW_EMPTY, MOVE_NEW_FULL,                    /* new, and can go back */
    MOVE_FIRST, MOVE_LAST, MOVE_FIRST_WORD, MOVE_LAST_WORD, MOVE_ONE_BYTE, MOVE_ALL,    /* new, and can't */
    MOVE_NEW_FITS, MOVE_NEW_DAMAGED,
    MOVE_LAST_NEW = MOVE_NEW_DAMAGED,
    MOVE_ODD, MOVE_ODD_ORDER, MOVE_OLD_EMPTY, MOVE_TO_FULL, MOVE_TO_UNDER,      /* old, and can be made new */
    MOVE_TO_OVER, MOVE_OLD_FULL, MOVE_MANY,                                     /* about the greatest length */
    MOVE_OLD_FITS, MOVE_OLD_DAMAGED, MOVE_AIMS
};

/* Who is behind an event: few numbers, so that many are equal. */
static uint32_t participant(struct rng *h)
{
    return (uint32_t)PICK(h, 0, 0, 0, 1, 1, 2, 2, 3, 7, 77, 256, 65536, 16777216, INT32_MAX, INT32_MIN, -1, -1, -1);
}

/* The last record before one with this sequence, of a kind that can make a response; or -1. */
static int sent_as(const struct draft *d, int i, uint32_t seq)
{
    struct peer_event e;

    while (--i >= 0) {
        peer_read_event(d->bytes + PEER_OLD * i, PEER_OLD, &e);
        if (e.seq == seq && (e.kind == PEER_GTX || e.kind == PEER_LIMIT || e.kind == PEER_AMEND))
            return i;
    }
    return -1;
}

/* The drafted records in the new form, each with a participant. An amend has
 * most often another one than what it names, a resend another one or the same. */
static void put_participants(struct rng *h, const struct draft *d, int n, unsigned char *out)
{
    uint32_t style = below(h, 8), same = participant(h), who[PEER_EVENTS_MAX_NEW];
    struct peer_event e;
    int i, k;

    for (i = 0; i < n; i++, out += PEER_NEW) {
        peer_read_event(d->bytes + PEER_OLD * i, PEER_OLD, &e);
        switch (style) {
        case 0: who[i] = same; break;
        case 1: case 2: who[i] = (uint32_t)i + 1; break;
        case 3: who[i] = between(h, 1, 3); break;
        default: who[i] = participant(h); break;
        }
        k = sent_as(d, i, e.kind == PEER_AMEND ? e.field[0] : e.seq);
        if (k >= 0 && style != 0) {
            uint32_t differs = below(h, 100);

            if (e.kind == PEER_AMEND && differs < 80 && who[i] == who[k])
                who[i] = who[k] + (uint32_t)PICK(h, 1, -1, 1000);
            else if (differs >= 90 || (e.kind != PEER_AMEND && differs < 30))
                who[i] = who[k];
        }
        memcpy(out, d->bytes + PEER_OLD * i, PEER_OLD);
        build_word(out + 32, who[i]);
        build_word(out + 36, 0);
    }
}

/* Puts something into the last word of some new records, or changes a byte of
 * their last two. */
static void spoil_words(struct rng *h, unsigned char *records, int n)
{
    uint32_t k, i, at;

    for (k = between(h, 1, 3); k > 0; k--) {
        i = below(h, (uint32_t)n);
        if (chance(h, 70)) {
            at = between(h, 36, 39);
            records[PEER_NEW * i + at] = (unsigned char)PICK(h, 1, 1, 128, 255);
        } else {
            at = between(h, 32, 39);
            records[PEER_NEW * i + at] ^= (unsigned char)(1u << below(h, 8));
        }
    }
}

/* The last two words of all new records as an aim has them. */
static void aim_words(struct rng *h, int aim, unsigned char *records, int n)
{
    uint32_t last = (uint32_t)n - 1, i, at;

    if (aim == MOVE_ALL || aim == MOVE_NEW_DAMAGED || n == 0)
        return;
    for (i = 0; i <= last; i++)
        memset(records + PEER_NEW * i + 32, 0, 8);
    switch (aim) {
    case MOVE_FIRST:
    case MOVE_LAST:
        i = aim == MOVE_FIRST ? 0 : last;
        build_word(records + PEER_NEW * i + 32, (uint32_t)PICK(h, 1, 77, 256, INT32_MIN, -1));
        break;
    case MOVE_FIRST_WORD:
    case MOVE_LAST_WORD:
        i = aim == MOVE_FIRST_WORD ? 0 : last;
        build_word(records + PEER_NEW * i + 36, (uint32_t)PICK(h, 1, 77, 256, INT32_MIN, -1));
        break;
    case MOVE_ONE_BYTE:
        i = below(h, (uint32_t)n);
        at = between(h, 32, 39);
        records[PEER_NEW * i + at] = (unsigned char)PICK(h, 1, 128, 255);
        break;
    }
}

/* Makes the drafted records what an aim needs: their count, and some out of form. */
static void aim_events(struct rng *h, struct draft *d, int aim)
{
    uint32_t want = 0, k, i;

    if (aim == MOVE_NEW_EMPTY || aim == MOVE_OLD_EMPTY)
        d->n = 0;
    else if (aim == MOVE_MANY)
        want = (uint32_t)PICK(h, 1635, 1636, 1636, 1637, 1638, PEER_EVENTS_MAX);
    else
        want = 3;
    while ((uint32_t)d->n < want) {
        if (d->n < 3)
            send_odd(d);
        else
            send_bytes(d, d->bytes + PEER_OLD * below(h, (uint32_t)d->n));
    }
    if (aim == MOVE_MANY)
        d->n = (int)want;
    if ((aim == MOVE_NEW_FITS || aim == MOVE_OLD_FITS) && d->n >= 20)
        d->n -= d->n % 20;                  /* then whole records of the other length fit their bytes */
    if (aim == MOVE_ZERO_ODD || aim == MOVE_ODD) {
        for (k = between(h, 1, 3); k > 0; k--) {
            i = below(h, (uint32_t)d->n);
            damage_event(h, d->bytes + PEER_OLD * i);
        }
    }
}

/* The recorder's own bytes that an aim needs, if the tape is n bytes without them; or -1. */
static int64_t aim_prefix(struct rng *h, int aim, int64_t n, int events)
{
    int64_t most = PEER_TAPE_MAX - (n + (PEER_NEW - PEER_OLD) * (int64_t)events);

    switch (aim) {
    case MOVE_NEW_FULL:
    case MOVE_OLD_FULL: return PEER_TAPE_MAX - n;
    case MOVE_OLD_EMPTY: return chance(h, 30) ? PEER_TAPE_MAX - n : -1;
    case MOVE_TO_FULL: return most;
    case MOVE_TO_UNDER: return most - PICK(h, 1, 1, 2, 4, 7, 8, 8);
    case MOVE_TO_OVER: return most + PICK(h, 1, 1, 2, 4, 7, 8, 8);
    case MOVE_MANY: return PICK(h, 0, 0, 15, 16, 16);
    case MOVE_ZERO_ODD:
    case MOVE_ODD: return between(h, 1, 100);
    default: return -1;
    }
}

/* What a count may be raised by without a change of the length sum in 32 bits. */
static uint32_t count_that_wraps(struct rng *g, size_t form)
{
    return form == PEER_NEW ? (1u << 29) * between(g, 1, 7) : (1u << 27) * between(g, 1, 31);
}

/* The other form's word, and lengths that add up so: the order and the records,
 * or the records alone, are read from the wrong bytes. */
static void fit_other(unsigned char *p, size_t n, size_t form, uint32_t s)
{
    unsigned char *trailer = p + n - PEER_TRAILER_BYTES;
    size_t other = PEER_OLD + PEER_NEW - form, bytes = n - s - PEER_ORDER_BYTES - PEER_TRAILER_BYTES;

    build_trailer(trailer, other, s + (uint32_t)(bytes % other), (uint32_t)(bytes / other));
}

/* Damage that has to do with the form. */
static size_t damage_form(struct rng *h, unsigned char *p, size_t n, size_t form, uint32_t s, uint32_t events)
{
    static const char word[][5] = {
        "CUB1", "CUB3", "CUBU", "CUBt", "cub2", "2BUC", "CUB ", "CUB\262", "DUB2", "CVB2", "CUC2", "CUCT"
    };
    unsigned char *trailer = p + n - PEER_TRAILER_BYTES;
    uint32_t k;

    switch (below(h, 9)) {
    case 0: case 1: case 2:                 /* the other form's word */
        memcpy(trailer, form == PEER_NEW ? "CUBT" : "CUB2", 4);
        return n;
    case 3: case 4:
        k = below(h, sizeof word / sizeof word[0]);
        memcpy(trailer, word[k], 4);
        return n;
    case 5:
        k = between(h, 12, 15);
        trailer[k] = (unsigned char)PICK(h, 1, 128, 255);
        return n;
    case 6:
        build_word(trailer + 8, events + count_that_wraps(h, form));
        return n;
    case 7:                                 /* one record of the other length */
        memmove(form == PEER_NEW ? trailer - 8 : trailer + 8, trailer, PEER_TRAILER_BYTES);
        if (form != PEER_NEW)
            memset(trailer, 0, 8);
        return form == PEER_NEW ? n - 8 : n + 8;
    default:
        fit_other(p, n, form, s);
        return n;
    }
}

/* Damage to the tape as a whole: the trailer, the lengths, the ends. */
static size_t damage_tape(struct rng *g, unsigned char *p, size_t n, size_t form, uint32_t s, uint32_t events)
{
    unsigned char *trailer = p + n - PEER_TRAILER_BYTES;
    uint32_t k;
    size_t i;

    switch (below(g, 17)) {
    case 0:
        return 0;
    case 1:
        return between(g, 1, 15);
    case 2:                                 /* cut short */
        k = (uint32_t)PICK(g, 1, 1, 2, 16, 32, 48);
        return n > k ? n - k : 0;
    case 3:                                 /* bytes after the end */
        k = (uint32_t)PICK(g, 1, 4, 16, 32);
        memset(p + n, chance(g, 50) ? 0 : 0x5A, k);
        return n + k;
    case 4:                                 /* the first word */
        k = below(g, 4);
        trailer[k] ^= (unsigned char)PICK(g, 1, 32, 128);
        return n;
    case 5:
        memcpy(trailer, chance(g, 50) ? "TBUC" : "cubt", 4);
        return n;
    case 6:                                 /* the last word */
        k = between(g, 12, 15);
        trailer[k] = (unsigned char)PICK(g, 1, 128, 255);
        return n;
    case 7:                                 /* the offset */
        build_word(trailer + 4, s + (uint32_t)PICK(g, 1, -1, 32, -32, 16, 65536));
        return n;
    case 8:                                 /* the count */
        build_word(trailer + 8, events + (uint32_t)PICK(g, 1, -1, 2, -2, 65536));
        return n;
    case 9:                                 /* right only if the sum may wrap */
        if (chance(g, 50)) {
            build_word(trailer + 8, events + count_that_wraps(g, form));
        } else {
            k = s / (uint32_t)form + between(g, 1, 5);
            build_word(trailer + 4, s - (uint32_t)form * k);
            build_word(trailer + 8, events + k);
        }
        return n;
    case 10:                                /* one byte too long, all else right */
        i = PEER_TAPE_MAX + (size_t)PICK(g, 1, 1, 32) - n;
        memmove(p + i, p, n);
        memset(p, 0x33, i);
        build_word(p + i + n - 12, s + (uint32_t)i);
        return n + i;
    case 11:                                /* bytes before the recorder's own, offset unmoved */
        k = (uint32_t)PICK(g, 1, 16, 32);
        memmove(p + k, p, n);
        memset(p, 0, k);
        return n + k;
    case 12:                                /* a trailer alone, or less than an order before it */
        k = (uint32_t)PICK(g, 0, 0, 1, 63, 32);
        memset(p, 0, k);
        build_trailer(p + k, form, 0, 0);
        return k + PEER_TRAILER_BYTES;
    case 13:                                /* noise */
        k = between(g, 1, 400);
        for (i = 0; i < k; i++)
            p[i] = (unsigned char)below(g, 256);
        return k;
    case 14:                                /* lengths add up, but the order is read from the wrong bytes */
        build_word(trailer + 4, s + (uint32_t)form);
        build_word(trailer + 8, events - 1);
        return n;
    case 15:                                /* two words wrong */
        build_word(trailer + 4, s + 1);
        trailer[between(g, 12, 15)] = 1;
        return n;
    default:                                /* the greatest words */
        build_word(trailer + (chance(g, 50) ? 4 : 8), UINT32_MAX);
        return n;
    }
}

/* The recorder's own bytes before the order. */
static uint32_t prefix_length(struct rng *g, size_t rest)
{
    uint32_t room = (uint32_t)(PEER_TAPE_MAX - rest);
    uint32_t k;

    switch (below(g, 10)) {
    case 0: k = (uint32_t)PICK(g, 1, 3, 7); break;
    case 1: k = (uint32_t)PICK(g, 16, 32, 64, 80); break;
    case 2: k = below(g, 500); break;
    case 3: k = chance(g, 4) ? room : 0; break;     /* the longest tape there is */
    default: k = 0; break;
    }
    return k > room ? room : k;
}

size_t gen_tape(uint64_t seed, uint32_t index, unsigned char *out)
{
    static const int offer_ending[] = {
        END_OPP_LIMIT, END_OPP_ABOVE, END_LATE, END_OPP_MARKET, END_OPP_LIMIT, END_OPP_ABOVE, END_LATE, END_CLOSE,
        END_OPP_MARKET, END_OPP_LIMIT, END_OPP_ABOVE, END_SAME_MARKET, END_IMPROVE_BID
    };
    /* The aims at a collar, with a body and an ending or -1 for any. */
    static const struct {
        int aim, body, ending;
    } collar_turn[] = {
        { AIM_DOWN, -1, END_LATE }, { AIM_LEAST, -1, -1 }, { AIM_13, -1, -1 }, { AIM_DISPLAYED, -1, -1 },
        { AIM_DOWN, -1, END_CLOSE }, { AIM_UP, -1, END_SAME_LIMIT }, { AIM_13_AND_11, -1, -1 }, { AIM_COLLAR, -1, -1 },
        { AIM_DOWN, -1, END_SAME_LIMIT }, { AIM_AT_BO, -1, -1 }, { AIM_10_AND_13, -1, -1 }, { AIM_HIGH, -1, -1 },
        { AIM_DOWN, -1, END_SAME_MARKET }, { AIM_LARGE, -1, -1 }, { AIM_13_AND_12, -1, -1 }, { AIM_WIDE, -1, -1 },
        { AIM_DOWN, -1, END_OPP_LIMIT }, { AIM_ONE_PRICE, -1, -1 }, { AIM_9, -1, -1 }, { AIM_ZERO, -1, -1 },
        { AIM_DOWN, -1, END_OPP_MARKET }, { AIM_NO_BO, -1, -1 }, { AIM_11, -1, -1 }, { AIM_BELOW, -1, -1 },
        { AIM_DOWN, -1, END_IMPROVE_BID }, { AIM_UP_TO_STOP, -1, END_SAME_LIMIT }, { AIM_12, -1, -1 },
        { AIM_WRAPS, -1, -1 }, { AIM_DOWN, -1, END_IMPROVE_QUOTES }, { AIM_TWO_PRICES, -1, END_IMPROVE_BID },
        { AIM_12_GONE, -1, -1 }, { AIM_BEHIND, -1, -1 }, { AIM_DOWN, BODY_NONE, END_OPP_MARKET }, { AIM_LIMIT, -1, -1 },
        { AIM_13_NOT_9, -1, -1 }, { AIM_CROSS, -1, -1 }, { AIM_LARGE, BODY_BOUND, -1 }, { AIM_2, -1, -1 },
        { AIM_13_FAR, -1, -1 }, { AIM_MILLION, -1, -1 }, { AIM_UP, BODY_NONE, END_OPP_MARKET }, { AIM_GREATEST, -1, -1 },
        { AIM_10, -1, -1 }, { AIM_UP, BODY_LEVELS, -1 }
    };
    struct draft d;
    struct rng *g = &d.g, forms, *h = &forms;
    unsigned char order_bytes[PEER_ORDER_BYTES];
    struct peer_order o, m;
    uint32_t kind = index % 12, turn = index / 12;
    uint32_t mode, s, i;
    int number = 0, aim = -1, move = MOVE_NO_AIM, room, body, ending;
    int64_t own;
    size_t n, form;

    memset(&d, 0, sizeof d);
    g->state = seed * 0xD1342543DE82EF95u + index;
    next(g);
    g->state ^= next(g);
    h->state = g->state ^ 0x5DEECE66D2B79F31u;     /* draws of its own for all that has to do with the form */
    next(h);

    /* Every twelfth tape is refused for its order; numbers, sides and modes
     * take turns, so that each comes up. So do bodies, sides and modes of the
     * twelfth that is aimed at the leftovers of a share, and of the one aimed at
     * the contracts on offer, where endings take turns too; and sides, modes and
     * aims of the one aimed at the collar; and the aims of the one aimed at the
     * moves between the forms. The rest are drawn, and the form of all others. */
    d.sell = (int)below(g, 2);
    mode = between(g, 1, 3);
    if (kind == 5) {
        number = tested[turn % TESTED];
        d.sell = (int)(turn / TESTED % 2);
        mode = 1 + turn / (2 * TESTED) % 3;
        if (number == 11 && mode == PEER_MATCH)
            mode = PEER_STOP;
    }
    body = (int)PICK(g, BODY_NONE, BODY_ONE, BODY_SHARE, BODY_SHARE, BODY_SHARE, BODY_SHARE, BODY_LEVELS, BODY_LEVELS,
                     BODY_LEVELS, BODY_LEVELS, BODY_LEVELS, BODY_LEVELS, BODY_LEVELS, BODY_FULL, BODY_BOUND, BODY_BOUND,
                     BODY_BOUND, BODY_MIX, BODY_MIX, BODY_MIX);
    ending = (int)below(g, END_DRAWN);
    if (ending == END_OPP_MARKET && mode == PEER_MATCH && chance(g, 20))
        body = BODY_NONE;                   /* the midpoint */
    if (kind == 2 && chance(g, 30))
        body = BODY_DAMAGED;
    if (kind == 1 || kind == 3 || kind == 11) {
        d.sell = (int)(turn % 2);
        mode = 1 + turn / 2 % 3;
    }
    if (kind == 3) {
        body = BODY_EQUAL + (int)(turn / 6 % LEFTOVER_BODIES);
        if (chance(g, 20))
            ending = END_OPP_MARKET;
    }
    if (kind == 11) {
        body = BODY_CAPPED + (int)(turn / 6 % OFFER_BODIES);
        ending = offer_ending[turn / 18 % (sizeof offer_ending / sizeof offer_ending[0])];
    }
    if (kind == 1) {
        uint32_t k = turn / 6 % (sizeof collar_turn / sizeof collar_turn[0]);

        aim = collar_turn[k].aim;
        if (collar_turn[k].body >= 0)
            body = collar_turn[k].body;
        if (collar_turn[k].ending >= 0)
            ending = collar_turn[k].ending;
    }
    if (index % 500 == 498)
        body = BODY_LONG;
    room = ANY_ROOM;
    if (body == BODY_FULL && chance(g, 50)) {
        room = WIDE_ROOM;
        if (chance(g, 40))
            ending = END_OPP_MARKET;        /* with it come the most fills there can be */
    } else if (body >= BODY_EQUAL || (body == BODY_LEVELS && chance(g, 60)) || (aim == AIM_DOWN && chance(g, 70)))
        room = SOME_ROOM;

    if (aim >= 0)
        o = collared_order(g, mode, room, aim);
    else if (number > 1)
        o = refused_order(g, mode, turn % TESTED, turn / (6 * TESTED) % 2 == 0 ? ALL_COLLARS : FEW_COLLARS);
    else
        o = good_order(g, mode, room, number == 1 || kind == 7 ? SOME_COLLARS : FEW_COLLARS);
    if (body == BODY_GREATEST && chance(g, 70))
        o.size = PEER_SIZE_MAX;             /* then a GTX can be of that size too */
    if (body == BODY_BIG)                   /* then R x s passes 32 bits */
        o.size = PEER_SIZE_MAX - (uint32_t)PICK(g, 0, 0, 1, 9, 1696, 20000);
    if ((body == BODY_HALVES || body == BODY_ZERO) && o.size < 10)
        o.size += 10;                       /* enough to share */
    m = d.sell && peer_order_form(&o) ? build_turn_order(o) : o;
    build_order(order_bytes, &m);
    if (number == 1) {
        struct peer_order damaged;

        for (i = 0; i < 50; i++) {
            build_order(order_bytes, &m);
            damage_order(order_bytes, below(g, ORDER_EDGES + 1));
            peer_read_order(order_bytes, &damaged);
            if (!peer_order_form(&damaged))
                break;
        }
    } else if (kind == 7 && chance(g, 60)) {
        damage_order(order_bytes, turn);    /* whatever comes of it */
    } else if (aim >= AIM_WORDS) {
        damage_collar(g, order_bytes, &m, aim);
    }

    /* The guide starts from the order as it was before any damage. */
    if (peer_accept(&m, &d.a) != 0) {
        o = good_order(g, mode, ANY_ROOM, FEW_COLLARS);
        m = d.sell ? build_turn_order(o) : o;
        peer_accept(&m, &d.a);
        body = BODY_MIX;
        room = ANY_ROOM;
    }
    if (chance(g, 4))
        d.last_seq = UINT32_MAX - below(g, 40);
    else if (chance(g, 5))
        d.last_seq = between(g, 1, 1000000);
    form = chance(h, 34) ? PEER_NEW : PEER_OLD;
    if (kind == 6) {
        move = 1 + (int)(turn % (MOVE_AIMS - 1));
        form = move <= MOVE_LAST_NEW ? PEER_NEW : PEER_OLD;
    }
    d.firms = form == PEER_NEW;
    if (chance(g, 90) || number == 0)
        draft_events(&d, body, ending, room == WIDE_ROOM);

    if (move != MOVE_NO_AIM)
        aim_events(h, &d, move);
    if (move == MOVE_ODD_ORDER)
        damage_order(order_bytes, below(h, ORDER_EDGES + 1));
    if ((form == PEER_NEW || (move >= MOVE_TO_FULL && move <= MOVE_TO_OVER)) && d.n > PEER_EVENTS_MAX_NEW)
        d.n = PEER_EVENTS_MAX_NEW;
    n = PEER_ORDER_BYTES + (size_t)d.n * form + PEER_TRAILER_BYTES;
    s = prefix_length(g, n);
    own = aim_prefix(h, move, (int64_t)n, d.n);
    if (own >= 0)
        s = (uint32_t)own;
    for (i = 0; i < s; i++)
        out[i] = (unsigned char)below(g, 256);
    if (s >= 16 && chance(g, 30))
        build_trailer(out, chance(h, 50) ? PEER_NEW : PEER_OLD, 0, 0);
    memcpy(out + s, order_bytes, PEER_ORDER_BYTES);
    if (form == PEER_NEW) {
        put_participants(h, &d, d.n, out + s + PEER_ORDER_BYTES);
        if (move != MOVE_NO_AIM)
            aim_words(h, move, out + s + PEER_ORDER_BYTES, d.n);
        else if (kind % 2 == 0 && d.n > 0 && chance(h, 30))
            spoil_words(h, out + s + PEER_ORDER_BYTES, d.n);
    } else {
        memcpy(out + s + PEER_ORDER_BYTES, d.bytes, (size_t)d.n * PEER_OLD);
    }
    build_trailer(out + s + n - PEER_TRAILER_BYTES, form, s, (uint32_t)d.n);
    n += s;
    if (kind == 9 && chance(g, 60))
        n = damage_tape(g, out, n, form, s, (uint32_t)d.n);
    else if ((kind == 9 && chance(h, 60)) || move == MOVE_NEW_DAMAGED || move == MOVE_OLD_DAMAGED)
        n = damage_form(h, out, n, form, s, (uint32_t)d.n);
    else if (move == MOVE_NEW_FITS || move == MOVE_OLD_FITS)
        fit_other(out, n, form, s);
    return n;
}
