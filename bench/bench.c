/* bench.c: the engine and the peer on the same tapes.
 *
 *   bench check            compares the two listings of every case; 1 if any differs
 *   bench cases            a line for each case: its name and how many tapes it has
 *   bench run CASE WHO N   lists the case's tapes N times; WHO is engine or peer
 *   bench time CASE WHO    nanoseconds for the case's tapes, the least of many tries
 *   bench stack CASE WHO   the deepest stack, in bytes, of the case's tapes
 *
 * A case is one tape, or a batch of small ones. bench/run counts the instructions of `run` and subtracts cases. */
#define _GNU_SOURCE
#include "../peer/build.h"
#include "../peer/gen.h"
#include "../peer/peer.h"

#include <stdio.h>
#include <stdlib.h>
#include <string.h>
#include <time.h>
#include <ucontext.h>

/* The engine: document 01's listing of a tape, as `crates/engine_c` exports it. */
extern size_t cube_listing(const unsigned char *tape, size_t n, unsigned char *out, size_t room);

#define ROOM   131072           /* listing::ROOM */
#define SMALL  1024             /* the longest of the small tapes, in bytes */
#define BATCH  500

#define FIRST  1000             /* sequences have four digits */
#define EVENTS 2000

static unsigned char tapes[BATCH][PEER_TAPE_MAX];
static size_t length[BATCH];
static int n_tapes;

static unsigned char engine_out[ROOM], peer_out[ROOM];

static size_t by_engine(int i) { return cube_listing(tapes[i], length[i], engine_out, ROOM); }
static size_t by_peer(int i) { return peer_listing(tapes[i], length[i], (char *)peer_out); }

/* ------------------------------------------------------------------ */
/* The cases                                                          */

static struct peer_event event[EVENTS + 64];
static int n_events;
static uint32_t sequence;

/* A buy of 10,000 whose range is 900 to 1000: every price between is open to a response. */
static struct peer_order order_of(uint32_t mode)
{
    struct peer_order o;

    memset(&o, 0, sizeof o);
    o.side = PEER_BUY;
    o.mode = mode;
    o.size = 10000;
    o.limit = 1000;
    o.stop = mode == PEER_MATCH ? 0 : 1000;
    o.nbb = o.bb = 900;
    o.nbo = o.bo = 1100;
    o.time = 36000000;
    o.open = 34200000;
    o.close = 57600000;
    o.interval = 1000;
    return o;
}

static void add(struct peer_event e) { event[n_events++] = e; }

static void respond(uint32_t size, uint32_t price) { add(build_gtx(++sequence, 1, PEER_SELL, size, price, 0)); }

static void quote(void) { add(build_quotes(++sequence, 1, 900, 1100, 900, 1100, 0)); }

/* n responses, at one price or each at its own; together they are more than the order, or less. */
static void responses(int n, int prices, uint32_t size)
{
    int i;

    for (i = 0; i < n; i++)
        respond(size + (uint32_t)i % 7, prices ? 910 + (uint32_t)i : 950);
}

/* The first response is cancelled and comes again: it takes the first place with the last sequence. */
static void out_of_order(uint32_t size)
{
    add(build_cancel(++sequence, 1, FIRST + 1));
    respond(size, 950);
}

static size_t form;             /* of the tape that is made */

static void tape_of(struct peer_order o)
{
    length[0] = build_tape(tapes[0], form, &o, event, n_events);
    n_tapes = 1;
}

static void tape(uint32_t mode) { tape_of(order_of(mode)); }

/* An order of 49, for which a collared order on the other side makes the initiating price 989. */
static struct peer_order collared(void)
{
    struct peer_order o = order_of(PEER_MATCH);

    o.size = 49;
    o.displayed = 1040;
    o.collar = 50;
    return o;
}

/* The market order that takes all that the order buys. */
static void all_to_market(void) { add(build_market(++sequence, 1, PEER_SELL, 10000, 0)); }

static void mixed(void)
{
    uint32_t state = 1, live[PEER_PLACES];
    int n = 0;

    while (n_events < EVENTS) {
        state = state * 1664525u + 1013904223u;
        switch (state >> 24 & 7) {
        case 0: case 1: case 2:
            if (n < PEER_PLACES) {
                respond(100 + (state >> 16) % 300, 905 + (state >> 8) % 90);
                live[n++] = sequence;
            } else {
                quote();
            }
            break;
        case 3: case 4:
            if (n > 0) {
                n--;
                add(build_cancel(++sequence, 1, live[n]));
            } else {
                quote();
            }
            break;
        case 5:
            quote();
            break;
        case 6:
            add(build_limit(++sequence, 1, PEER_SELL, 10, 1050, 0));
            break;
        default:
            add(build_cancel(sequence, 1, 1));      /* a sequence that was taken: refused by 33 */
            break;
        }
    }
}

static void batch(void)
{
    static unsigned char buffer[GEN_TAPE_MAX];
    uint32_t index = 0;

    for (n_tapes = 0; n_tapes < BATCH; index++) {
        size_t n = gen_tape(1, index, buffer);

        if (n > SMALL)
            continue;
        memcpy(tapes[n_tapes], buffer, n);
        length[n_tapes++] = n;
    }
}

/* n responses at one price that come to the total, each of the size or one more than the last; the last makes it up. */
static void adding_up(int n, uint32_t total, uint32_t size, uint32_t more)
{
    int i;

    for (i = 0; i < n; i++) {
        uint32_t s = i < n - 1 ? size + (uint32_t)i * more : total;

        respond(s, 950);
        total -= s;
    }
}

/* The auction's tape in mode 2, with the market order that takes all or without: 6,000 are left for the others where they are more. */
static void shared_out(int market)
{
    if (market)
        all_to_market();
    tape(PEER_MATCH);
}

/* Cases by name: KIND-COUNT, where COUNT is how many responses stand; new_KIND-COUNT is the same on a tape of the new form. */
static int make(const char *name)
{
    char kind[32];
    int n = 0, i;

    form = strncmp(name, "new_", 4) == 0 ? PEER_NEW : PEER_OLD;
    if (sscanf(name + (form == PEER_NEW ? 4 : 0), "%31[a-z_]-%d", kind, &n) < 1)
        return 0;
    n_events = 0;
    sequence = FIRST;
#define IS(k) (strcmp(kind, k) == 0)
    if (IS("order")) {
        tape(PEER_STOP);
    } else if (IS("collared")) {
        tape_of(collared());
    } else if (IS("standing")) {
        responses(n, 0, 100);
        tape(PEER_STOP);
    } else if (IS("quotes")) {
        responses(n, 0, 100);
        for (i = 0; i < 1000; i++)
            quote();
        tape(PEER_STOP);
    } else if (IS("pairs")) {
        responses(n, 0, 100);
        for (i = 0; i < 500; i++) {
            respond(100, 950);
            add(build_cancel(sequence + 1, 1, sequence));
            sequence++;
        }
        tape(PEER_STOP);
    } else if (IS("amended")) {                             /* the last of them, again and again: as it was but for its sequence */
        responses(n, 0, 100);
        for (i = 0; i < 1000; i++, sequence++)
            add(build_amend(sequence + 1, 1, sequence, 100 + (uint32_t)(n - 1) % 7, 950));
        tape(PEER_STOP);
    } else if (IS("limits")) {
        responses(n, 0, 100);
        for (i = 0; i < 1000; i++)
            add(build_limit(++sequence, 1, PEER_SELL, 10, 1050, 0));
        tape(PEER_STOP);
    } else if (IS("resent")) {
        responses(n, 0, 100);
        for (i = 0; i < 1000; i++)
            add(build_gtx(FIRST + 1, 1, PEER_SELL, 100, 950, 0));
        tape(PEER_STOP);
    } else if (IS("shared") || IS("shared_market")) {       /* at one price, more than the order: pro rata */
        responses(n, 0, 10000 / (uint32_t)(n ? n : 1) + 50);
        shared_out(IS("shared_market"));
    } else if (IS("crossed") || IS("crossed_market")) {    /* the same, and the first place has the last sequence */
        responses(n, 0, 10000 / (uint32_t)(n ? n : 1) + 50);
        if (n)
            out_of_order(10000 / (uint32_t)n + 50);
        shared_out(IS("crossed_market"));
    } else if (IS("whole") || IS("whole_market")) {         /* no leftovers: even sizes, twice what they share */
        adding_up(n, 12000, 12000 / (uint32_t)(n ? n : 1) / 2 * 2, 0);
        shared_out(IS("whole_market"));
    } else if (IS("apart") || IS("apart_market")) {         /* leftovers, and no two fractions alike */
        for (i = 0; i < n; i++)
            respond(10000 / (uint32_t)n + 51 + (uint32_t)i, 950);
        shared_out(IS("apart_market"));
    } else if (IS("short") || IS("short_market")) {         /* one contract more than they share: all but one get a leftover, no two fractions alike */
        adding_up(n, 6001, n ? 6001 / (uint32_t)n - (uint32_t)n / 2 : 0, 1);
        shared_out(IS("short_market"));
    } else if (IS("priced") || IS("priced_market")) {       /* each at its own price, less than the order: every price trades */
        responses(n, 1, 60);
        shared_out(IS("priced_market"));
    } else if (IS("refused")) {
        length[0] = 0;
        n_tapes = 1;
    } else if (IS("no_responses")) {
        tape(PEER_MATCH);
    } else if (IS("mixed")) {
        mixed();
        tape(PEER_MATCH);
    } else if (IS("batch")) {
        batch();
    } else {
        return 0;
    }
    return 1;
}

static const char *const cases[] = {
    "refused", "order", "collared", "standing-0", "standing-1", "standing-8", "standing-63", "quotes-0", "quotes-8", "quotes-63", "pairs-0", "pairs-8", "pairs-63",
    "amended-1", "amended-8", "amended-63",
    "new_order", "new_standing-8", "new_quotes-8", "new_pairs-8",
    "limits-8", "resent-8", "shared-1", "shared-8", "shared-40", "shared-64", "shared_market-0", "shared_market-1", "shared_market-8", "shared_market-40",
    "shared_market-64", "whole-40", "whole-64", "whole_market-0", "whole_market-40", "whole_market-64", "apart-40", "apart-64", "apart_market-0",
    "apart_market-40", "apart_market-64", "short-40", "short-64", "short_market-0", "short_market-40", "short_market-64",
    "crossed-8", "crossed-64", "crossed_market-0", "crossed_market-8", "crossed_market-64",
    "priced-1", "priced-8", "priced-64", "priced_market-0", "priced_market-1", "priced_market-8", "priced_market-64", "no_responses", "mixed", "batch",
};
#define N_CASES (sizeof cases / sizeof cases[0])

/* ------------------------------------------------------------------ */
/* What is done with a case                                           */

static void list_all(size_t (*who)(int))
{
    int i;

    for (i = 0; i < n_tapes; i++)
        who(i);
}

static int check(void)
{
    size_t k;
    int i, wrong = 0;

    for (k = 0; k < N_CASES; k++) {
        if (!make(cases[k])) {
            printf("%s: no such case\n", cases[k]);
            return 1;
        }
        for (i = 0; i < n_tapes; i++) {
            size_t n = by_engine(i), m = by_peer(i);

            if (n != m || memcmp(engine_out, peer_out, n) != 0) {
                printf("%s: the listings of tape %d differ\n", cases[k], i);
                wrong = 1;
            }
        }
    }
    return wrong;
}

static uint64_t now(void)
{
    struct timespec t;

    clock_gettime(CLOCK_MONOTONIC, &t);
    return (uint64_t)t.tv_sec * 1000000000u + (uint64_t)t.tv_nsec;
}

static uint64_t least_time(size_t (*who)(int))
{
    uint64_t least = UINT64_MAX, start = now();

    while (now() - start < 200000000u) {
        uint64_t t = now(), d;

        list_all(who);
        d = now() - t;
        if (d < least)
            least = d;
    }
    return least;
}

/* The stack of a call is painted first; what is not paint afterwards was used. */
#define STACK (1 << 20)
#define PAINT 0xA5
static unsigned char stack[STACK];
static ucontext_t home, away;
static size_t (*stack_who)(int);

static void on_stack(void) { list_all(stack_who); }
static void nothing(void) { }

static size_t deepest_of(void (*f)(void))
{
    size_t i;

    memset(stack, PAINT, STACK);
    getcontext(&away);
    away.uc_stack.ss_sp = stack;
    away.uc_stack.ss_size = STACK;
    away.uc_link = &home;
    makecontext(&away, f, 0);
    swapcontext(&home, &away);
    for (i = 0; i < STACK && stack[i] == PAINT; i++)
        ;
    return STACK - i;
}

int main(int argc, char **argv)
{
    const char *verb = argc > 1 ? argv[1] : "";
    size_t (*who)(int);
    size_t k;
    long i;

    if (strcmp(verb, "check") == 0)
        return check();
    if (strcmp(verb, "cases") == 0) {
        for (k = 0; k < N_CASES; k++) {
            make(cases[k]);
            printf("%s %d\n", cases[k], n_tapes);
        }
        return 0;
    }
    if (argc < 4 || !make(argv[2])) {
        fprintf(stderr, "bench: check, cases, or run, time or stack with a case and engine or peer\n");
        return 2;
    }
    who = strcmp(argv[3], "engine") == 0 ? by_engine : by_peer;
    if (strcmp(verb, "time") == 0) {
        printf("%llu\n", (unsigned long long)least_time(who));
    } else if (strcmp(verb, "stack") == 0) {
        stack_who = who;
        printf("%zu\n", deepest_of(on_stack) - deepest_of(nothing));
    } else {
        for (i = 0; i < (argc > 4 ? atol(argv[4]) : 1); i++)
            list_all(who);
    }
    return 0;
}
