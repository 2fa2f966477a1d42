/* peer.c: one single-leg CUBE auction, from a tape to its listing.
 *
 * The parts follow the headings of document 01; the amend is document 02's
 * W-201, the contracts on offer are its W-202, the leftovers of a pro rata its
 * W-203, the collar its W-205, the participants and the moves between the two
 * forms of a tape its W-206. All is worked as a buy; a sell is mirrored on the
 * way in and its fills are mirrored back. */
#include "peer.h"

#include <stdlib.h>
#include <string.h>

static uint32_t lower(uint32_t a, uint32_t b) { return a < b ? a : b; }
static uint32_t higher(uint32_t a, uint32_t b) { return a > b ? a : b; }

/* ------------------------------------------------------------------ */
/* The tape                                                           */

static uint32_t word(const unsigned char *p)
{
    return (uint32_t)p[0] | (uint32_t)p[1] << 8 | (uint32_t)p[2] << 16 | (uint32_t)p[3] << 24;
}

void peer_read_order(const unsigned char *p, struct peer_order *o)
{
    int i;

    o->side = p[0];
    o->mode = p[1];
    o->marks = p[2];
    o->size = word(p + 4);
    o->limit = word(p + 8);
    o->stop = word(p + 12);
    o->nbb = word(p + 16);
    o->nbo = word(p + 20);
    o->bb = word(p + 24);
    o->bo = word(p + 28);
    o->time = word(p + 32);
    o->open = word(p + 36);
    o->close = word(p + 40);
    o->interval = word(p + 44);
    o->displayed = word(p + 48);
    o->collar = word(p + 52);
    o->spare = p[3];
    for (i = 56; i < 64; i++)
        o->spare |= p[i];
}

void peer_read_event(const unsigned char *p, size_t form, struct peer_event *e)
{
    int i;

    e->seq = word(p);
    e->time = word(p + 4);
    e->kind = p[8];
    e->marks = p[9];
    e->side = p[10];
    for (i = 0; i < 4; i++)
        e->field[i] = word(p + 12 + 4 * i);
    e->participant = 0;
    e->spare = p[11] | word(p + 28);
    if (form == PEER_NEW) {
        e->participant = word(p + 32);
        e->spare |= word(p + 36);
    }
}

/* Number 21 or 22, or 0 with the form set. */
static int read_form(const unsigned char *tape, size_t n, size_t *form)
{
    const unsigned char *trailer;

    if (n < PEER_TAPE_MIN || n > PEER_TAPE_MAX)
        return 21;
    trailer = tape + n - PEER_TRAILER_BYTES;
    if (memcmp(trailer, "CUBT", 4) == 0)
        *form = PEER_OLD;
    else if (memcmp(trailer, "CUB2", 4) == 0)
        *form = PEER_NEW;
    else
        return 22;
    return word(trailer + 12) != 0 ? 22 : 0;
}

/* Number 23, or 0, of a tape whose form is set. */
static int read_lengths(const unsigned char *tape, size_t n, struct peer_layout *l)
{
    const unsigned char *trailer = tape + n - PEER_TRAILER_BYTES;
    uint64_t s = word(trailer + 4), count = word(trailer + 8);

    if (s + PEER_ORDER_BYTES + l->form * count + PEER_TRAILER_BYTES != n)
        return 23;
    l->at = (size_t)s;
    l->events = (size_t)count;
    return 0;
}

int peer_read_tape(const unsigned char *tape, size_t n, struct peer_layout *l)
{
    int number = read_form(tape, n, &l->form);

    return number ? number : read_lengths(tape, n, l);
}

static int is_price(uint32_t p) { return p >= 1 && p <= PEER_PRICE_MAX; }
static int is_size(uint32_t s) { return s >= 1 && s <= PEER_SIZE_MAX; }
static int is_side(uint32_t s) { return s == PEER_BUY || s == PEER_SELL; }

/* The four quotes: BB may be 0 (no bid), BO may be 1,000,000 (no offer). */
static int are_quotes(uint32_t nbb, uint32_t nbo, uint32_t bb, uint32_t bo)
{
    return is_price(nbb) && is_price(nbo) && bb <= PEER_PRICE_MAX && bo >= 1 && bo <= PEER_MIRROR;
}

/* The collar's two fields: both zero, or both prices, and the result a price
 * too. As both are below 2^20 by then, the sum doesn't wrap. */
static int is_collar(uint32_t side, uint32_t displayed, uint32_t collar)
{
    if (displayed == 0 && collar == 0)
        return 1;
    if (!is_price(displayed) || !is_price(collar))
        return 0;
    return side == PEER_BUY ? displayed > collar : is_price(displayed + collar);
}

int peer_order_form(const struct peer_order *o)
{
    if (!is_side(o->side))
        return 0;
    if (o->mode < PEER_STOP || o->mode > PEER_MATCH_LIMIT)
        return 0;
    if (o->marks > 15)
        return 0;
    if (o->size > PEER_SIZE_MAX)            /* size 0 has a number of its own */
        return 0;
    if (!is_price(o->limit))
        return 0;
    if (o->mode == PEER_MATCH ? o->stop != 0 : !is_price(o->stop))
        return 0;
    if (!are_quotes(o->nbb, o->nbo, o->bb, o->bo))
        return 0;
    if (o->time > PEER_TIME_MAX || o->open > PEER_TIME_MAX || o->close > PEER_TIME_MAX)
        return 0;
    if (o->open >= o->close)
        return 0;
    if (o->interval < 100 || o->interval > 1000)
        return 0;
    if (!is_collar(o->side, o->displayed, o->collar))
        return 0;
    return o->spare == 0;
}

int peer_event_form(const struct peer_event *e)
{
    const uint32_t *f = e->field;
    uint32_t allowed;
    int side_ok, fields_ok;

    switch (e->kind) {
    case PEER_GTX:
        allowed = PEER_CUSTOMER;
        side_ok = is_side(e->side);
        fields_ok = is_size(f[0]) && is_price(f[1]) && f[2] == 0 && f[3] == 0;
        break;
    case PEER_CANCEL:
        allowed = 0;
        side_ok = e->side == 0;
        fields_ok = f[1] == 0 && f[2] == 0 && f[3] == 0;
        break;
    case PEER_LIMIT:
        allowed = PEER_CUSTOMER | PEER_NON_ROUTABLE;
        side_ok = is_side(e->side);
        fields_ok = is_size(f[0]) && is_price(f[1]) && f[2] == 0 && f[3] == 0;
        break;
    case PEER_MARKET:
        allowed = PEER_CUSTOMER;
        side_ok = is_side(e->side);
        fields_ok = is_size(f[0]) && f[1] == 0 && f[2] == 0 && f[3] == 0;
        break;
    case PEER_QUOTES:
        allowed = PEER_CUST_BB | PEER_CUST_BO;
        side_ok = e->side == 0;
        fields_ok = are_quotes(f[0], f[1], f[2], f[3]);
        break;
    case PEER_AMEND:
        allowed = 0;
        side_ok = e->side == 0;
        fields_ok = is_size(f[1]) && is_price(f[2]) && f[3] == 0;
        break;
    default:
        return 0;
    }
    return e->time <= PEER_TIME_MAX && (e->marks & ~allowed) == 0 && side_ok && fields_ok && e->spare == 0;
}

/* ------------------------------------------------------------------ */
/* The mirror of a sell                                               */

static uint32_t mirror(uint32_t p) { return PEER_MIRROR - p; }

/* Bids and offers change places. */
static void mirror_pair(uint32_t *bid, uint32_t *offer)
{
    uint32_t b = *bid;

    *bid = mirror(*offer);
    *offer = mirror(b);
}

/* So do the Customer marks at BB and BO; other marks stay. */
static uint32_t mirror_marks(uint32_t marks)
{
    uint32_t m = marks & ~(uint32_t)(PEER_CUST_BB | PEER_CUST_BO);

    if (marks & PEER_CUST_BB)
        m |= PEER_CUST_BO;
    if (marks & PEER_CUST_BO)
        m |= PEER_CUST_BB;
    return m;
}

static uint32_t other_side(uint32_t side) { return side == PEER_BUY ? PEER_SELL : PEER_BUY; }

static struct peer_order mirror_order(struct peer_order o)
{
    o.side = other_side(o.side);
    o.marks = mirror_marks(o.marks);
    o.limit = mirror(o.limit);
    if (o.mode != PEER_MATCH)
        o.stop = mirror(o.stop);
    mirror_pair(&o.nbb, &o.nbo);
    mirror_pair(&o.bb, &o.bo);
    if (o.displayed != 0)                   /* the collar is a difference, and stays */
        o.displayed = mirror(o.displayed);
    return o;
}

static struct peer_event mirror_event(struct peer_event e)
{
    switch (e.kind) {
    case PEER_GTX:
    case PEER_LIMIT:
        e.side = other_side(e.side);
        e.field[1] = mirror(e.field[1]);
        break;
    case PEER_MARKET:
        e.side = other_side(e.side);
        break;
    case PEER_QUOTES:
        e.marks = mirror_marks(e.marks);
        mirror_pair(&e.field[0], &e.field[1]);
        mirror_pair(&e.field[2], &e.field[3]);
        break;
    case PEER_AMEND:
        e.field[2] = mirror(e.field[2]);
        break;
    }
    return e;
}

/* ------------------------------------------------------------------ */
/* Range and guarantee                                                */

static int is_small(const struct peer_order *o) { return o->size < 50; }

/* What counts as BO in the initiating price, and nowhere else: the displayed
 * price of a collared order less its collar, be it below the quoted BO or above. */
static uint32_t offer_counted(const struct peer_order *o)
{
    return o->displayed != 0 ? o->displayed - o->collar : o->bo;
}

/* An offer of 1 makes it 0, which is below any bound. */
static uint32_t initiating_price(const struct peer_order *o)
{
    uint32_t p = lower(o->limit, o->nbo);

    return is_small(o) ? lower(p, offer_counted(o) - 1) : p;
}

/* The bound that a BB and its Customer mark make. */
static uint32_t bound_of(const struct peer_auction *a, uint32_t bb, int cust_bb)
{
    uint32_t t = is_small(&a->order) || cust_bb ? 1 : 0;

    return higher(a->nbb_start, bb + t);
}

uint32_t peer_bound(const struct peer_auction *a)
{
    return bound_of(a, a->bb, a->cust_bb);
}

uint32_t peer_guarantee(const struct peer_auction *a)
{
    uint32_t percent = a->n_live == 1 ? 50 : 40;

    return higher(1, a->order.size * percent / 100);
}

/* ------------------------------------------------------------------ */
/* Numbers for "no": the order                                        */

int peer_accept(const struct peer_order *raw, struct peer_auction *out)
{
    struct peer_auction a;
    struct peer_order o;
    uint32_t bound, guaranteed;

    if (!peer_order_form(raw))
        return 1;
    o = raw->side == PEER_SELL ? mirror_order(*raw) : *raw;

    memset(&a, 0, sizeof a);
    a.order = o;
    a.sell = raw->side == PEER_SELL;
    a.nbb_start = o.nbb;
    a.nbb = o.nbb;
    a.nbo = o.nbo;
    a.bb = o.bb;
    a.bo = o.bo;
    a.cust_bb = (o.marks & PEER_CUST_BB) != 0;
    a.cust_bo = (o.marks & PEER_CUST_BO) != 0;
    a.init = initiating_price(&o);
    bound = peer_bound(&a);

    if (o.bb > o.nbb || o.bo < o.nbo)
        return 2;
    if (o.size == 0)
        return 3;
    if (o.time < o.open)
        return 4;
    if (o.time + 1000 >= o.close)
        return 5;
    if (o.marks & PEER_HALTED)
        return 6;
    if (o.marks & PEER_OTHER_OPEN)
        return 7;
    if (o.nbb >= o.nbo)
        return 8;
    if (is_small(&o) && o.bo - o.bb == 1)
        return 9;
    if (o.limit < bound)
        return 10;
    if (a.init < bound)                     /* only a collar can bring it there */
        return 13;
    if (o.mode != PEER_MATCH && o.stop > a.init)
        return 11;
    guaranteed = o.mode == PEER_MATCH ? a.init : higher(o.stop, bound);
    if (is_small(&o) && o.nbo - o.nbb == 1 && guaranteed != o.nbo - 1)
        return 12;
    *out = a;
    return 0;
}

/* ------------------------------------------------------------------ */
/* What an event does                                                 */

/* Summed anew each time; nothing in the auction keeps it. */
uint32_t peer_on_offer(const struct peer_auction *a)
{
    uint32_t total = 0;
    int i;

    for (i = 0; i < a->n_live; i++)
        total += a->live[i].size;
    return total;
}

static int end_by(struct peer_auction *a, int ending)
{
    a->ending = ending;
    return PEER_ENDED;
}

/* Adds a response to the live ones; 38 if none may be added. */
static int place(struct peer_auction *a, const struct peer_event *e, uint32_t size)
{
    struct peer_response *r;

    if (a->n_live == PEER_PLACES)
        return 38;
    r = &a->live[a->n_live++];
    r->seq = e->seq;
    r->size = size;
    r->price = e->field[1];
    r->customer = (e->marks & PEER_CUSTOMER) != 0;
    r->gtx = e->kind == PEER_GTX;
    r->participant = e->participant;
    r->working = 0;
    return PEER_TAKEN;
}

static int gtx_response(struct peer_auction *a, const struct peer_event *e)
{
    if (e->side == PEER_BUY)
        return 35;
    if (e->field[1] > a->init)
        return 36;
    return place(a, e, lower(e->field[0], a->order.size));
}

/* The live GTX of that name, or NULL. */
static struct peer_response *live_gtx(struct peer_auction *a, uint32_t seq)
{
    int i;

    for (i = 0; i < a->n_live; i++)
        if (a->live[i].gtx && a->live[i].seq == seq)
            return &a->live[i];
    return NULL;
}

static int cancel_gtx(struct peer_auction *a, const struct peer_event *e)
{
    struct peer_response *r = live_gtx(a, e->field[0]);

    if (r == NULL)
        return 37;
    *r = a->live[--a->n_live];
    return PEER_TAKEN;
}

/* The new response stands where the old one stood, with its Customer mark; the
 * participant is the event's. */
static int amend_gtx(struct peer_auction *a, const struct peer_event *e)
{
    struct peer_response *r = live_gtx(a, e->field[0]);

    if (e->field[2] > a->init)
        return 36;
    if (r == NULL)
        return 37;
    r->seq = e->seq;
    r->size = lower(e->field[1], a->order.size);
    r->price = e->field[2];
    r->participant = e->participant;
    return PEER_TAKEN;
}

static int limit_sell(struct peer_auction *a, const struct peer_event *e)
{
    uint32_t price = e->field[1];
    uint32_t best = e->marks & PEER_NON_ROUTABLE ? a->bb : a->nbb;

    if (price <= a->init && place(a, e, e->field[0]) == 38)
        return 38;
    if (price <= best)
        return end_by(a, PEER_BY_OPPOSITE);
    return PEER_TAKEN;
}

static int limit_buy(struct peer_auction *a, const struct peer_event *e)
{
    uint32_t price = e->field[1];
    uint32_t best = e->marks & PEER_NON_ROUTABLE ? a->bo : a->nbo;
    int customer = (e->marks & PEER_CUSTOMER) != 0;
    uint32_t bb = a->bb;
    int cust_bb = a->cust_bb;

    if (price >= best)
        return end_by(a, PEER_BY_SAME);

    if (price > bb) {
        bb = price;
        cust_bb = customer;
    } else if (price == bb && customer) {
        cust_bb = 1;
    }
    if (bound_of(a, bb, cust_bb) > a->init)
        return end_by(a, PEER_BY_IMPROVE);
    a->bb = bb;
    a->cust_bb = cust_bb;
    a->nbb = higher(a->nbb, price);
    return PEER_TAKEN;
}

static int market_order(struct peer_auction *a, const struct peer_event *e)
{
    if (e->side == PEER_BUY)
        return end_by(a, PEER_BY_SAME);
    a->market_seq = e->seq;
    a->market_size = e->field[0];
    return end_by(a, PEER_BY_OPPOSITE);
}

static int new_quotes(struct peer_auction *a, const struct peer_event *e)
{
    int cust_bb = (e->marks & PEER_CUST_BB) != 0;

    if (bound_of(a, e->field[2], cust_bb) > a->init)
        return end_by(a, PEER_BY_IMPROVE);
    a->nbb = e->field[0];
    a->nbo = e->field[1];
    a->bb = e->field[2];
    a->bo = e->field[3];
    a->cust_bb = cust_bb;
    a->cust_bo = (e->marks & PEER_CUST_BO) != 0;
    return PEER_TAKEN;
}

int peer_step(struct peer_auction *a, const struct peer_event *raw)
{
    struct peer_event e;
    int answer;

    if (a->ending != PEER_OPEN)
        return 31;
    if (!peer_event_form(raw))
        return 32;
    if (raw->seq <= a->top_seq)
        return 33;
    if (raw->time < a->clock)
        return 34;
    if (raw->time >= a->order.interval) {
        a->ending = PEER_BY_TIME;
        return PEER_LATE;
    }

    e = a->sell ? mirror_event(*raw) : *raw;
    switch (e.kind) {
    case PEER_GTX:
        answer = gtx_response(a, &e);
        break;
    case PEER_CANCEL:
        answer = cancel_gtx(a, &e);
        break;
    case PEER_LIMIT:
        answer = e.side == PEER_SELL ? limit_sell(a, &e) : limit_buy(a, &e);
        break;
    case PEER_MARKET:
        answer = market_order(a, &e);
        break;
    case PEER_AMEND:
        answer = amend_gtx(a, &e);
        break;
    default:
        answer = new_quotes(a, &e);
        break;
    }
    if (answer == PEER_TAKEN || answer == PEER_ENDED) {
        a->top_seq = e.seq;
        a->clock = e.time;
    }
    return answer;
}

int peer_close(struct peer_auction *a)
{
    if (a->ending != PEER_OPEN)
        return 31;
    a->ending = PEER_BY_TIME;
    return 0;
}

/* ------------------------------------------------------------------ */
/* Who trades                                                         */

/* The walk over the prices: what is left, what Contra holds, the fills. */
struct walk {
    uint32_t left, held;
    struct peer_fill *fill;
    int n_fills;
};

static void give(struct walk *w, uint32_t party, uint32_t price, uint32_t quantity)
{
    struct peer_fill *f;

    if (quantity == 0)
        return;
    f = &w->fill[w->n_fills++];
    f->party = party;
    f->price = price;
    f->quantity = quantity;
    w->left -= quantity;
    if (party == 0)
        w->held += quantity;
}

/* The fractional part of a member's R x s / T, told as (R x s) mod T. */
struct part {
    uint64_t of_total;
    int member;
};

static int by_larger_then_sequence(const void *x, const void *y)
{
    const struct part *a = x, *b = y;

    if (a->of_total != b->of_total)
        return a->of_total > b->of_total ? -1 : 1;
    return a->member < b->member ? -1 : a->member > b->member;
}

/* Pro rata: R contracts over the sizes, which are by sequence; gives what was
 * shared out. Each gets its whole part, and the leftovers go one each to the
 * larger fractional parts. Those add up to the leftovers times T, so there are
 * more of them above 0 than leftovers. */
static uint32_t pro_rata(uint32_t r, const uint32_t *size, uint32_t *got, int n)
{
    struct part part[PEER_PLACES];
    uint64_t total = 0;
    uint32_t over = r;
    int i;

    for (i = 0; i < n; i++)
        total += size[i];
    if (r >= total) {
        memcpy(got, size, (size_t)n * sizeof size[0]);
        return (uint32_t)total;
    }
    for (i = 0; i < n; i++) {
        uint64_t product = (uint64_t)r * size[i];

        got[i] = (uint32_t)(product / total);
        over -= got[i];
        part[i].of_total = product % total;
        part[i].member = i;
    }
    if (over > 0)
        qsort(part, (size_t)n, sizeof part[0], by_larger_then_sequence);
    for (i = 0; over > 0; i++, over--)
        got[part[i].member]++;
    return r;
}

/* One price: Customers by sequence; Contra what it wants; others pro rata;
 * the rest to Contra at the last price of a walk. */
static void trade_at(struct walk *w, uint32_t price, const struct peer_response *r, int n,
                     uint32_t contra_wants, int rest_to_contra)
{
    uint32_t seq[PEER_PLACES], size[PEER_PLACES], got[PEER_PLACES];
    uint32_t contra, room, used;
    int i, others = 0;

    for (i = 0; i < n; i++) {
        if (r[i].customer) {
            give(w, r[i].seq, price, lower(r[i].size, w->left));
        } else {
            seq[others] = r[i].seq;
            size[others] = r[i].size;
            others++;
        }
    }
    contra = lower(contra_wants, w->left);
    room = w->left - contra;
    used = pro_rata(room, size, got, others);
    if (rest_to_contra)
        contra += room - used;
    give(w, 0, price, contra);
    for (i = 0; i < others; i++)
        give(w, seq[i], price, got[i]);
}

/* Each mode's rule at one price. They answer whether the walk ends there. */

static int mode_stop(struct walk *w, uint32_t price, const struct peer_response *r, int n,
                     uint32_t stop, uint32_t guarantee)
{
    if (price < stop) {
        trade_at(w, price, r, n, 0, 0);
        return 0;
    }
    trade_at(w, price, r, n, guarantee, 1);
    return 1;
}

static int mode_match(struct walk *w, uint32_t price, const struct peer_response *r, int n,
                      uint32_t init, uint32_t guarantee)
{
    uint32_t a = 0;
    int i;

    for (i = 0; i < n; i++)
        a += r[i].size;
    if (w->left > 2 * a && price != init) {
        trade_at(w, price, r, n, a, 0);
        return 0;
    }
    trade_at(w, price, r, n, guarantee > w->held ? guarantee - w->held : 0, 1);
    return 1;
}

static int mode_match_limit(struct walk *w, uint32_t price, const struct peer_response *r, int n,
                            uint32_t limit, uint32_t init, uint32_t guarantee)
{
    uint32_t a = 0;
    int i;

    if (price < limit) {
        trade_at(w, price, r, n, 0, 0);
        return 0;
    }
    if (w->held < guarantee)
        return mode_match(w, price, r, n, init, guarantee);

    for (i = 0; i < n; i++)
        a += r[i].size;
    if (w->left > a && price != init) {
        trade_at(w, price, r, n, 0, 0);
        return 0;
    }
    trade_at(w, price, r, n, 0, 1);
    return 1;
}

static int by_price_then_sequence(const void *x, const void *y)
{
    const struct peer_response *a = x, *b = y;

    if (a->working != b->working)
        return a->working < b->working ? -1 : 1;
    return a->seq < b->seq ? -1 : a->seq > b->seq;
}

/* The price of a market sell that ended the auction. */
static uint32_t market_price(const struct peer_auction *a, uint32_t bound, uint32_t stop,
                             const struct peer_response *sorted)
{
    if (a->order.mode == PEER_MATCH) {
        if (a->n_live > 0)
            return sorted[0].working;
        return (a->init + bound + 1) / 2;
    }
    return a->n_live > 0 ? lower(sorted[0].working, stop) : stop;
}

int peer_fills(const struct peer_auction *a, struct peer_fill *fill)
{
    struct peer_response r[PEER_PLACES];
    struct walk w;
    uint32_t bound = peer_bound(a);
    uint32_t stop = higher(a->order.stop, bound);       /* the working one */
    uint32_t guarantee = peer_guarantee(a);
    uint32_t last = a->order.mode == PEER_STOP ? stop : a->init;
    int i, j, done;

    for (i = 0; i < a->n_live; i++) {
        r[i] = a->live[i];
        r[i].working = higher(r[i].price, bound);
    }
    qsort(r, (size_t)a->n_live, sizeof r[0], by_price_then_sequence);

    w.left = a->order.size;
    w.held = 0;
    w.fill = fill;
    w.n_fills = 0;

    if (a->market_size > 0)
        give(&w, a->market_seq, market_price(a, bound, stop, r), lower(a->market_size, w.left));

    i = 0;
    do {
        uint32_t price = i < a->n_live ? lower(r[i].working, last) : last;

        for (j = i; j < a->n_live && r[j].working == price; j++)
            ;
        if (a->order.mode == PEER_STOP)
            done = mode_stop(&w, price, r + i, j - i, stop, guarantee);
        else if (a->order.mode == PEER_MATCH)
            done = mode_match(&w, price, r + i, j - i, a->init, guarantee);
        else
            done = mode_match_limit(&w, price, r + i, j - i, stop, a->init, guarantee);
        i = j;
    } while (!done);

    if (a->sell)
        for (i = 0; i < w.n_fills; i++)
            fill[i].price = mirror(fill[i].price);
    return w.n_fills;
}

/* ------------------------------------------------------------------ */
/* The runner                                                         */

void peer_run(const unsigned char *tape, size_t n, int watch, struct peer_run *r)
{
    struct peer_order o;
    struct peer_event e;
    struct peer_layout l;
    size_t i;

    r->watch = watch;
    r->n_events = 0;
    r->n_fills = 0;
    r->refused = peer_read_tape(tape, n, &l);
    if (r->refused)
        return;
    peer_read_order(tape + l.at, &o);
    r->refused = peer_accept(&o, &r->start);
    if (r->refused)
        return;

    r->end = r->start;
    for (i = 0; i < l.events; i++) {
        peer_read_event(tape + l.at + PEER_ORDER_BYTES + l.form * i, l.form, &e);
        r->event[i].seq = e.seq;
        r->event[i].answer = peer_step(&r->end, &e);
        if (watch)
            r->event[i].on_offer = peer_on_offer(&r->end);
    }
    r->n_events = (int)l.events;
    peer_close(&r->end);
    r->n_fills = peer_fills(&r->end, r->fill);
}

/* ------------------------------------------------------------------ */
/* The runner's listing                                               */

static char *put(char *p, const char *text)
{
    while (*text)
        *p++ = *text++;
    return p;
}

static char *put_number(char *p, uint32_t n)
{
    char digit[10];
    int k = 0;

    do {
        digit[k++] = (char)('0' + n % 10);
        n /= 10;
    } while (n > 0);
    while (k > 0)
        *p++ = digit[--k];
    return p;
}

/* " range LOW to HIGH", low to high in the prices of the tape. */
static char *put_range(char *p, const struct peer_auction *a)
{
    uint32_t low = peer_bound(a), high = a->init;

    if (a->sell)
        mirror_pair(&low, &high);
    p = put(p, " range ");
    p = put_number(p, low);
    p = put(p, " to ");
    p = put_number(p, high);
    return put(p, "\n");
}

/* " taken", " ended", " late", or " refused" and its number. */
static char *put_answer(char *p, int answer)
{
    switch (answer) {
    case PEER_TAKEN:
        return put(p, " taken");
    case PEER_ENDED:
        return put(p, " ended");
    case PEER_LATE:
        return put(p, " late");
    default:
        return put_number(put(p, " refused "), (uint32_t)answer);
    }
}

/* The live response that a party is, or NULL for the Contra Order and a market order. */
static const struct peer_response *response_of(const struct peer_auction *a, uint32_t party)
{
    int i;

    for (i = 0; i < a->n_live; i++)
        if (a->live[i].seq == party)
            return &a->live[i];
    return NULL;
}

static size_t print(const struct peer_run *r, int firms, char *out)
{
    static const char *const ending[] = { "open", "time", "same", "opposite", "improve" };
    char *p = out;
    uint32_t total = 0;
    int i;

    if (r->refused) {
        p = put(p, "REFUSED ");
        p = put_number(p, (uint32_t)r->refused);
        p = put(p, "\n");
        return (size_t)(p - out);
    }

    p = put(p, r->start.sell ? "AUCTION sell size " : "AUCTION buy size ");
    p = put_number(p, r->start.order.size);
    p = put_range(p, &r->start);

    for (i = 0; i < r->n_events; i++) {
        p = put(p, "EVENT ");
        p = put_number(p, r->event[i].seq);
        p = put_answer(p, r->event[i].answer);
        if (r->watch)
            p = put_number(put(p, " on offer "), r->event[i].on_offer);
        p = put(p, "\n");
    }

    p = put(p, "END ");
    p = put(p, ending[r->end.ending]);
    p = put_range(p, &r->end);

    for (i = 0; i < r->n_fills; i++) {
        const struct peer_fill *f = &r->fill[i];

        p = put(p, "FILL ");
        p = f->party == 0 ? put(p, "contra") : put_number(p, f->party);
        p = put(p, " ");
        p = put_number(p, f->price);
        p = put(p, " ");
        p = put_number(p, f->quantity);
        if (firms) {
            const struct peer_response *who = response_of(&r->end, f->party);

            if (who != NULL)
                p = put_number(put(p, " participant "), who->participant);
        }
        p = put(p, "\n");
        total += f->quantity;
    }
    p = put(p, "TOTAL ");
    p = put_number(p, total);
    p = put(p, "\n");
    return (size_t)(p - out);
}

size_t peer_print(const struct peer_run *r, char *out) { return print(r, 0, out); }

static size_t run_and_print(const unsigned char *tape, size_t n, int watch, int firms, char *out)
{
    struct peer_run r;

    peer_run(tape, n, watch, &r);
    return print(&r, firms, out);
}

size_t peer_listing(const unsigned char *tape, size_t n, char *out) { return run_and_print(tape, n, 0, 0, out); }

size_t peer_watch(const unsigned char *tape, size_t n, char *out) { return run_and_print(tape, n, 1, 0, out); }

size_t peer_firms(const unsigned char *tape, size_t n, char *out) { return run_and_print(tape, n, 0, 1, out); }

/* ------------------------------------------------------------------ */
/* Moving a tape between its forms                                    */

int peer_move(const unsigned char *tape, size_t n, int to_new, unsigned char *out, size_t room, size_t *length)
{
    size_t to = to_new ? PEER_NEW : PEER_OLD, head, moved, i;
    const unsigned char *from;
    struct peer_layout l;
    int number = read_form(tape, n, &l.form);

    if (number)
        return number;
    if (l.form == to)
        return 22;
    if (read_lengths(tape, n, &l))
        return 23;
    head = l.at + PEER_ORDER_BYTES;         /* the prefix and the order record */
    from = tape + head;
    if (!to_new)
        for (i = 0; i < l.events; i++)
            if (word(from + PEER_NEW * i + 32) != 0 || word(from + PEER_NEW * i + 36) != 0)
                return 25;
    moved = head + to * l.events + PEER_TRAILER_BYTES;
    if (moved > PEER_TAPE_MAX)
        return 26;
    if (moved > room)
        return 24;

    memcpy(out, tape, head);
    out += head;
    for (i = 0; i < l.events; i++, from += l.form, out += to) {
        memcpy(out, from, PEER_OLD);
        memset(out + PEER_OLD, 0, to - PEER_OLD);
    }
    memcpy(out, from, PEER_TRAILER_BYTES);  /* from has come to the trailer */
    memcpy(out, to_new ? "CUB2" : "CUBT", 4);
    *length = moved;
    return 0;
}
