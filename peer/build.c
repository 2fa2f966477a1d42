/* build.c: writes records and tapes. The spare bytes are written as zero. */
#include "build.h"

#include <string.h>

void build_word(unsigned char *p, uint32_t n)
{
    p[0] = (unsigned char)(n & 255);
    p[1] = (unsigned char)(n >> 8 & 255);
    p[2] = (unsigned char)(n >> 16 & 255);
    p[3] = (unsigned char)(n >> 24 & 255);
}

void build_order(unsigned char *p, const struct peer_order *o)
{
    memset(p, 0, PEER_ORDER_BYTES);
    p[0] = (unsigned char)o->side;
    p[1] = (unsigned char)o->mode;
    p[2] = (unsigned char)o->marks;
    build_word(p + 4, o->size);
    build_word(p + 8, o->limit);
    build_word(p + 12, o->stop);
    build_word(p + 16, o->nbb);
    build_word(p + 20, o->nbo);
    build_word(p + 24, o->bb);
    build_word(p + 28, o->bo);
    build_word(p + 32, o->time);
    build_word(p + 36, o->open);
    build_word(p + 40, o->close);
    build_word(p + 44, o->interval);
    build_word(p + 48, o->displayed);
    build_word(p + 52, o->collar);
}

void build_event(unsigned char *p, size_t form, const struct peer_event *e)
{
    int i;

    memset(p, 0, form);
    build_word(p, e->seq);
    build_word(p + 4, e->time);
    p[8] = (unsigned char)e->kind;
    p[9] = (unsigned char)e->marks;
    p[10] = (unsigned char)e->side;
    for (i = 0; i < 4; i++)
        build_word(p + 12 + 4 * i, e->field[i]);
    if (form == PEER_NEW)
        build_word(p + 32, e->participant);
}

void build_trailer(unsigned char *p, size_t form, uint32_t s, uint32_t n)
{
    memcpy(p, form == PEER_NEW ? "CUB2" : "CUBT", 4);
    build_word(p + 4, s);
    build_word(p + 8, n);
    build_word(p + 12, 0);
}

static struct peer_event event(uint32_t seq, uint32_t time, uint32_t kind, uint32_t side, uint32_t marks)
{
    struct peer_event e;

    memset(&e, 0, sizeof e);
    e.seq = seq;
    e.time = time;
    e.kind = kind;
    e.side = side;
    e.marks = marks;
    return e;
}

struct peer_event build_gtx(uint32_t seq, uint32_t time, uint32_t side, uint32_t size, uint32_t price, uint32_t marks)
{
    struct peer_event e = event(seq, time, PEER_GTX, side, marks);

    e.field[0] = size;
    e.field[1] = price;
    return e;
}

struct peer_event build_cancel(uint32_t seq, uint32_t time, uint32_t which)
{
    struct peer_event e = event(seq, time, PEER_CANCEL, 0, 0);

    e.field[0] = which;
    return e;
}

struct peer_event build_limit(uint32_t seq, uint32_t time, uint32_t side, uint32_t size, uint32_t price, uint32_t marks)
{
    struct peer_event e = event(seq, time, PEER_LIMIT, side, marks);

    e.field[0] = size;
    e.field[1] = price;
    return e;
}

struct peer_event build_market(uint32_t seq, uint32_t time, uint32_t side, uint32_t size, uint32_t marks)
{
    struct peer_event e = event(seq, time, PEER_MARKET, side, marks);

    e.field[0] = size;
    return e;
}

struct peer_event build_quotes(uint32_t seq, uint32_t time, uint32_t nbb, uint32_t nbo, uint32_t bb, uint32_t bo, uint32_t marks)
{
    struct peer_event e = event(seq, time, PEER_QUOTES, 0, marks);

    e.field[0] = nbb;
    e.field[1] = nbo;
    e.field[2] = bb;
    e.field[3] = bo;
    return e;
}

struct peer_event build_amend(uint32_t seq, uint32_t time, uint32_t which, uint32_t size, uint32_t price)
{
    struct peer_event e = event(seq, time, PEER_AMEND, 0, 0);

    e.field[0] = which;
    e.field[1] = size;
    e.field[2] = price;
    return e;
}

struct peer_event build_by(uint32_t participant, struct peer_event e)
{
    e.participant = participant;
    return e;
}

static uint32_t turn(uint32_t p) { return 1000000 - p; }

struct peer_order build_turn_order(struct peer_order o)
{
    struct peer_order m = o;

    m.side = 3 - o.side;
    m.limit = turn(o.limit);
    m.stop = o.mode == 2 ? 0 : turn(o.stop);
    m.nbb = turn(o.nbo);
    m.nbo = turn(o.nbb);
    m.bb = turn(o.bo);
    m.bo = turn(o.bb);
    m.displayed = o.displayed == 0 ? 0 : turn(o.displayed);
    m.collar = o.collar;
    m.marks = (o.marks & 3) | (o.marks & 4 ? 8 : 0) | (o.marks & 8 ? 4 : 0);
    return m;
}

struct peer_event build_turn_event(struct peer_event e)
{
    struct peer_event m = e;

    if (e.side != 0)
        m.side = 3 - e.side;
    if (e.kind == 1 || e.kind == 3)
        m.field[1] = turn(e.field[1]);
    if (e.kind == 6)
        m.field[2] = turn(e.field[2]);
    if (e.kind == 5) {
        m.field[0] = turn(e.field[1]);
        m.field[1] = turn(e.field[0]);
        m.field[2] = turn(e.field[3]);
        m.field[3] = turn(e.field[2]);
        m.marks = (e.marks & 4 ? 8 : 0) | (e.marks & 8 ? 4 : 0);
    }
    return m;
}

size_t build_tape(unsigned char *out, size_t form, const struct peer_order *o, const struct peer_event *e, int n)
{
    unsigned char *p = out;
    int i;

    build_order(p, o);
    p += PEER_ORDER_BYTES;
    for (i = 0; i < n; i++, p += form)
        build_event(p, form, &e[i]);
    build_trailer(p, form, 0, (uint32_t)n);
    return (size_t)(p - out) + PEER_TRAILER_BYTES;
}
