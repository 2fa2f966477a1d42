/* figures.c: the document's figures a to k and its listing, on both sides,
 * with case b as W-203 has it; other listings worked out by hand from its
 * sentences, from W-201, from W-203 and from W-205; for W-202 tables of records
 * with what is on offer after each; and for W-206 listings with participants,
 * and tapes moved byte by byte.
 *
 * Each case is one tape, and the listing that the document's words give it.
 * Its mirror is made here, apart from the engine, and checked as well.
 * "figures tape" writes the tape of the document's own listing, "figures firms" a
 * new one of it with participants 77 and 5. */
#include "build.h"

#include <stdio.h>
#include <stdlib.h>
#include <string.h>

static int failed, passed;

/* Quotes 100/110 on both markets, the middle of a day. */
static struct peer_order buy(uint32_t size, uint32_t mode, uint32_t limit, uint32_t stop)
{
    struct peer_order o;

    memset(&o, 0, sizeof o);
    o.side = PEER_BUY;
    o.mode = mode;
    o.size = size;
    o.limit = limit;
    o.stop = stop;
    o.nbb = o.bb = 100;
    o.nbo = o.bo = 110;
    o.time = 2000;
    o.open = 1000;
    o.close = 50000;
    o.interval = 100;
    return o;
}

static uint32_t turn(uint32_t p) { return 1000000 - p; }

/* The wanted text turned to the other side, line by line. */
static void turn_text(const char *text, char *out)
{
    char line[200], word1[40], word2[40];
    unsigned a, b, c;
    int end;

    *out = 0;
    while (*text) {
        size_t n = strcspn(text, "\n");

        memcpy(line, text, n);
        line[n] = 0;
        text += n + (text[n] == '\n');
        if (sscanf(line, "AUCTION %39s size %u range %u to %u", word1, &a, &b, &c) == 4)
            sprintf(line, "AUCTION %s size %u range %u to %u", strcmp(word1, "buy") ? "buy" : "sell", a, turn(c), turn(b));
        else if (sscanf(line, "END %39s range %u to %u", word1, &a, &b) == 3)
            sprintf(line, "END %s range %u to %u", word1, turn(b), turn(a));
        else if (sscanf(line, "FILL %39s %u %u%n", word2, &a, &b, &end) == 3) {
            out += sprintf(out, "FILL %s %u %u%s\n", word2, turn(a), b, line + end);
            continue;
        }
        out += sprintf(out, "%s\n", line);
    }
}

static void same_text(const char *name, const char *side, const char *want, const char *got)
{
    if (strcmp(got, want) == 0) {
        passed++;
        return;
    }
    failed++;
    printf("FAILED %s (%s)\nwanted:\n%sgot:\n%s", name, side, want, got);
}

static void compare(const char *name, const char *side, const struct peer_order *o,
                    const struct peer_event *e, int n, const char *want)
{
    unsigned char tape[4096];
    char got[PEER_LISTING_MAX + 1];
    size_t len = build_tape(tape, PEER_OLD, o, e, n);

    got[peer_listing(tape, len, got)] = 0;
    same_text(name, side, want, got);
}

static void figure(const char *name, struct peer_order o, const struct peer_event *e, int n, const char *want)
{
    struct peer_event turned[100];
    char text[4096];
    int i;

    compare(name, "as written", &o, e, n, want);
    o = build_turn_order(o);
    for (i = 0; i < n; i++)
        turned[i] = build_turn_event(e[i]);
    turn_text(want, text);
    compare(name, "mirror", &o, turned, n, text);
}

#define SELL_GTX(seq, size, price) build_gtx(seq, 20, PEER_SELL, size, price, 0)
#define BID(seq, size, price) build_limit(seq, 20, PEER_BUY, size, price, 0)
#define AMEND(seq, which, size, price) build_amend(seq, 20, which, size, price)
#define SELL(seq, size, price) build_limit(seq, 20, PEER_SELL, size, price, 0)
#define CANCEL(seq, which) build_cancel(seq, 20, which)

/* The document's figures. */
static void figures(void)
{
    struct peer_event e[8];
    struct peer_order o;

    e[0] = SELL_GTX(1, 30, 105);
    e[1] = SELL_GTX(2, 60, 108);
    e[2] = SELL_GTX(3, 40, 108);
    figure("a", buy(100, 1, 110, 108), e, 3,
           "AUCTION buy size 100 range 100 to 110\n"
           "EVENT 1 taken\nEVENT 2 taken\nEVENT 3 taken\n"
           "END time range 100 to 110\n"
           "FILL 1 105 30\nFILL contra 108 40\nFILL 2 108 18\nFILL 3 108 12\nTOTAL 100\n");

    /* 60 over 91: 1,860 is 20 times 91 and 40, 1,800 is 19 times 91 and 71. */
    e[0] = SELL_GTX(1, 31, 108);
    e[1] = SELL_GTX(2, 30, 108);
    e[2] = SELL_GTX(3, 30, 108);
    figure("b", buy(100, 1, 110, 108), e, 3,
           "AUCTION buy size 100 range 100 to 110\n"
           "EVENT 1 taken\nEVENT 2 taken\nEVENT 3 taken\n"
           "END time range 100 to 110\n"
           "FILL contra 108 40\nFILL 1 108 20\nFILL 2 108 20\nFILL 3 108 20\nTOTAL 100\n");

    e[0] = SELL_GTX(1, 3, 105);
    e[1] = SELL_GTX(1, 3, 105);
    figure("c", buy(10, 2, 110, 0), e, 2,
           "AUCTION buy size 10 range 101 to 109\n"
           "EVENT 1 taken\n"
           "EVENT 1 refused 33\n"
           "END time range 101 to 109\n"
           "FILL contra 105 3\n"
           "FILL 1 105 3\n"
           "FILL contra 109 4\n"
           "TOTAL 10\n");

    e[0] = build_market(1, 20, PEER_SELL, 4, 0);
    figure("d", buy(10, 2, 108, 0), e, 1,
           "AUCTION buy size 10 range 101 to 108\n"
           "EVENT 1 ended\n"
           "END opposite range 101 to 108\n"
           "FILL 1 105 4\nFILL contra 108 6\nTOTAL 10\n");

    o = buy(10, 2, 102, 0);
    o.side = PEER_SELL;
    e[0] = build_market(1, 20, PEER_BUY, 4, 0);
    figure("e", o, e, 1,
           "AUCTION sell size 10 range 102 to 109\n"
           "EVENT 1 ended\n"
           "END opposite range 102 to 109\n"
           "FILL 1 105 4\nFILL contra 102 6\nTOTAL 10\n");

    e[0] = SELL_GTX(1, 1, 105);
    figure("f", buy(1, 1, 110, 105), e, 1,
           "AUCTION buy size 1 range 101 to 109\n"
           "EVENT 1 taken\n"
           "END time range 101 to 109\n"
           "FILL contra 105 1\nTOTAL 1\n");

    e[0] = BID(1, 5, 108);
    figure("g, bid 108", buy(10, 2, 110, 0), e, 1,
           "AUCTION buy size 10 range 101 to 109\n"
           "EVENT 1 taken\n"
           "END time range 109 to 109\n"
           "FILL contra 109 10\nTOTAL 10\n");
    e[0] = BID(1, 5, 109);
    figure("g, bid 109", buy(10, 2, 110, 0), e, 1,
           "AUCTION buy size 10 range 101 to 109\n"
           "EVENT 1 ended\n"
           "END improve range 101 to 109\n"
           "FILL contra 109 10\nTOTAL 10\n");

    e[0] = SELL_GTX(1, 20, 101);
    e[1] = SELL_GTX(2, 80, 104);
    e[2] = SELL_GTX(3, 30, 106);
    figure("h", buy(200, 3, 110, 103), e, 3,
           "AUCTION buy size 200 range 100 to 110\n"
           "EVENT 1 taken\nEVENT 2 taken\nEVENT 3 taken\n"
           "END time range 100 to 110\n"
           "FILL 1 101 20\nFILL contra 104 80\nFILL 2 104 80\nFILL 3 106 20\nTOTAL 200\n");

    o = buy(10, 1, 101, 100);
    o.nbb = 100;
    o.nbo = 101;
    o.bb = 90;
    o.bo = 110;
    figure("i, stop 100", o, e, 0,
           "AUCTION buy size 10 range 100 to 101\n"
           "END time range 100 to 101\n"
           "FILL contra 100 10\nTOTAL 10\n");
    o.stop = 101;
    figure("i, stop 101", o, e, 0, "REFUSED 12\n");

    o = buy(49, 2, 101, 0);
    o.nbb = o.bb = 100;
    o.nbo = o.bo = 101;
    figure("j, size 49", o, e, 0, "REFUSED 9\n");
    o.size = 50;
    figure("j, size 50", o, e, 0,
           "AUCTION buy size 50 range 100 to 101\n"
           "END time range 100 to 101\n"
           "FILL contra 101 50\nTOTAL 50\n");

    o = buy(10, 2, 110, 0);
    o.close = 5000;
    o.time = 3999;
    figure("k, time 3,999", o, e, 0,
           "AUCTION buy size 10 range 101 to 109\n"
           "END time range 101 to 109\n"
           "FILL contra 109 10\nTOTAL 10\n");
    o.time = 4000;
    figure("k, time 4,000", o, e, 0, "REFUSED 5\n");
}

/* An auction of 100 and 64 GTX of 1 at 109, sequences 1 to 64: gives the text's end. */
static char *full_board(struct peer_event *e, char *text)
{
    int i;

    text += sprintf(text, "AUCTION buy size 100 range 100 to 110\n");
    for (i = 0; i < PEER_PLACES; i++) {
        e[i] = SELL_GTX((uint32_t)i + 1, 1, 109);
        text += sprintf(text, "EVENT %d taken\n", i + 1);
    }
    return text;
}

/* Sentences of the document, worked out by hand. */
static void readings(void)
{
    struct peer_event e[100];
    struct peer_order o;
    char text[4096], *p;

    e[0] = SELL_GTX(1, 10, 95);
    figure("a response below the bound works at the bound", buy(100, 1, 110, 108), e, 1,
           "AUCTION buy size 100 range 100 to 110\n"
           "EVENT 1 taken\n"
           "END time range 100 to 110\n"
           "FILL 1 100 10\nFILL contra 108 90\nTOTAL 100\n");

    e[0] = SELL_GTX(1, 10, 105);
    e[1] = build_cancel(2, 20, 1);
    e[2] = e[0];
    e[3] = build_cancel(3, 20, 1);
    figure("a cancelled response's resend stays out", buy(100, 2, 110, 0), e, 4,
           "AUCTION buy size 100 range 100 to 110\n"
           "EVENT 1 taken\nEVENT 2 taken\nEVENT 1 refused 33\nEVENT 3 refused 37\n"
           "END time range 100 to 110\n"
           "FILL contra 110 100\nTOTAL 100\n");

    e[0] = SELL_GTX(1, 100, 105);
    e[1] = build_limit(2, 20, PEER_SELL, 100, 105, 0);
    figure("a GTX is capped, a limit order isn't", buy(10, 1, 110, 105), e, 2,
           "AUCTION buy size 10 range 101 to 109\n"
           "EVENT 1 taken\nEVENT 2 taken\n"
           "END time range 101 to 109\n"
           "FILL contra 105 4\nFILL 1 105 1\nFILL 2 105 5\nTOTAL 10\n");

    e[0] = SELL_GTX(1, 100, 108);
    figure("half for Contra against one response", buy(100, 1, 110, 108), e, 1,
           "AUCTION buy size 100 range 100 to 110\n"
           "EVENT 1 taken\n"
           "END time range 100 to 110\n"
           "FILL contra 108 50\nFILL 1 108 50\nTOTAL 100\n");

    e[0] = build_limit(1, 20, PEER_SELL, 30, 100, 0);
    figure("a marketable limit order takes a place and ends it", buy(100, 1, 110, 108), e, 1,
           "AUCTION buy size 100 range 100 to 110\n"
           "EVENT 1 ended\n"
           "END opposite range 100 to 110\n"
           "FILL 1 100 30\nFILL contra 108 70\nTOTAL 100\n");

    e[0] = build_market(1, 20, PEER_SELL, 30, 0);
    figure("a market order at the stop", buy(100, 1, 110, 108), e, 1,
           "AUCTION buy size 100 range 100 to 110\n"
           "EVENT 1 ended\n"
           "END opposite range 100 to 110\n"
           "FILL 1 108 30\nFILL contra 108 70\nTOTAL 100\n");

    e[0] = SELL_GTX(1, 20, 101);
    e[1] = build_market(2, 20, PEER_SELL, 50, 0);
    figure("a market order below the auto-match limit", buy(200, 3, 110, 103), e, 2,
           "AUCTION buy size 200 range 100 to 110\n"
           "EVENT 1 taken\nEVENT 2 ended\n"
           "END opposite range 100 to 110\n"
           "FILL 2 101 50\nFILL 1 101 20\nFILL contra 110 130\nTOTAL 200\n");

    e[0] = build_gtx(1, 99, PEER_SELL, 10, 105, 0);
    e[1] = build_gtx(2, 100, PEER_SELL, 10, 105, 0);
    e[2] = build_gtx(3, 100, PEER_SELL, 10, 105, 0);
    e[3] = build_gtx(4, 100, PEER_SELL, 0, 105, 0);
    figure("the interval's end, and 31 before 32", buy(100, 1, 110, 108), e, 4,
           "AUCTION buy size 100 range 100 to 110\n"
           "EVENT 1 taken\nEVENT 2 late\nEVENT 3 refused 31\nEVENT 4 refused 31\n"
           "END time range 100 to 110\n"
           "FILL 1 105 10\nFILL contra 108 90\nTOTAL 100\n");

    e[0] = build_quotes(1, 20, 105, 110, 105, 110, 0);
    e[1] = BID(2, 5, 105);
    e[2] = build_limit(3, 20, PEER_BUY, 5, 104, PEER_CUSTOMER);
    e[3] = build_limit(4, 20, PEER_BUY, 5, 105, PEER_CUSTOMER);
    figure("improve by a mark at an equal price", buy(100, 2, 105, 0), e, 4,
           "AUCTION buy size 100 range 100 to 105\n"
           "EVENT 1 taken\nEVENT 2 taken\nEVENT 3 taken\nEVENT 4 ended\n"
           "END improve range 105 to 105\n"
           "FILL contra 105 100\nTOTAL 100\n");

    e[0] = build_quotes(1, 20, 105, 110, 105, 110, PEER_CUST_BB);
    figure("improve by quotes leaves the old bound", buy(100, 2, 105, 0), e, 1,
           "AUCTION buy size 100 range 100 to 105\n"
           "EVENT 1 ended\n"
           "END improve range 100 to 105\n"
           "FILL contra 105 100\nTOTAL 100\n");

    p = full_board(e, text);
    e[64] = SELL_GTX(65, 1, 109);
    e[65] = build_limit(66, 20, PEER_SELL, 1, 100, 0);
    e[66] = build_limit(67, 20, PEER_SELL, 1, 111, 0);
    e[67] = build_cancel(68, 20, 7);
    e[68] = SELL_GTX(69, 1, 109);
    p += sprintf(p, "EVENT 65 refused 38\nEVENT 66 refused 38\nEVENT 67 taken\nEVENT 68 taken\nEVENT 69 taken\n");
    p += sprintf(p, "END time range 100 to 110\nFILL contra 108 100\nTOTAL 100\n");
    figure("a full board", buy(100, 1, 110, 108), e, 69, text);

    e[0] = build_limit(1, 20, PEER_SELL, 10, 105, 0);
    e[1] = build_cancel(2, 20, 1);
    e[2] = SELL_GTX(3, 1, 110);
    e[3] = SELL_GTX(4, 1, 111);
    e[4] = build_gtx(5, 20, PEER_BUY, 1, 111, 0);
    e[5] = build_gtx(6, 19, PEER_SELL, 1, 105, 0);
    e[6] = build_gtx(0, 20, PEER_SELL, 1, 105, 0);
    figure("refused events", buy(100, 1, 110, 108), e, 7,
           "AUCTION buy size 100 range 100 to 110\n"
           "EVENT 1 taken\nEVENT 2 refused 37\nEVENT 3 taken\nEVENT 4 refused 36\nEVENT 5 refused 35\n"
           "EVENT 6 refused 34\nEVENT 0 refused 33\n"
           "END time range 100 to 110\n"
           "FILL 1 105 10\nFILL contra 108 90\nTOTAL 100\n");

    o = buy(100, 2, 110, 0);
    o.bb = 95;
    o.bo = 115;
    e[0] = build_limit(1, 20, PEER_SELL, 10, 100, PEER_NON_ROUTABLE);
    e[1] = build_limit(2, 20, PEER_BUY, 5, 110, PEER_NON_ROUTABLE);
    e[2] = build_limit(3, 20, PEER_SELL, 7, 110, 0);
    figure("non-routable orders look at the exchange's own quotes", o, e, 3,
           "AUCTION buy size 100 range 100 to 110\n"
           "EVENT 1 taken\nEVENT 2 taken\nEVENT 3 ended\n"
           "END opposite range 110 to 110\n"
           "FILL contra 110 83\nFILL 1 110 10\nFILL 3 110 7\nTOTAL 100\n");

    e[0] = SELL_GTX(1, 30, 105);
    e[1] = build_gtx(2, 20, PEER_SELL, 30, 105, PEER_CUSTOMER);
    figure("Customers, Contra, others", buy(100, 2, 110, 0), e, 2,
           "AUCTION buy size 100 range 100 to 110\n"
           "EVENT 1 taken\nEVENT 2 taken\n"
           "END time range 100 to 110\n"
           "FILL 2 105 30\nFILL contra 105 40\nFILL 1 105 30\nTOTAL 100\n");

    e[0] = SELL_GTX(1, 30, 105);
    e[1] = build_market(2, 20, PEER_SELL, 40, 0);
    figure("left is 2A", buy(100, 2, 110, 0), e, 2,
           "AUCTION buy size 100 range 100 to 110\n"
           "EVENT 1 taken\nEVENT 2 ended\n"
           "END opposite range 100 to 110\n"
           "FILL 2 105 40\nFILL contra 105 50\nFILL 1 105 10\nTOTAL 100\n");
    e[0] = SELL_GTX(1, 29, 105);
    figure("left is above 2A", buy(100, 2, 110, 0), e, 2,
           "AUCTION buy size 100 range 100 to 110\n"
           "EVENT 1 taken\nEVENT 2 ended\n"
           "END opposite range 100 to 110\n"
           "FILL 2 105 40\nFILL contra 105 29\nFILL 1 105 29\nFILL contra 110 2\nTOTAL 100\n");

    e[0] = SELL_GTX(1, 80, 104);
    e[1] = SELL_GTX(2, 10, 106);
    e[2] = SELL_GTX(3, 30, 107);
    figure("Contra holds G, and left is A", buy(200, 3, 110, 103), e, 3,
           "AUCTION buy size 200 range 100 to 110\n"
           "EVENT 1 taken\nEVENT 2 taken\nEVENT 3 taken\n"
           "END time range 100 to 110\n"
           "FILL contra 104 80\nFILL 1 104 80\nFILL 2 106 10\nFILL 3 107 30\nTOTAL 200\n");
    e[1] = SELL_GTX(2, 10, 110);
    figure("Contra holds G, the rest at the initiating price", buy(200, 3, 110, 103), e, 2,
           "AUCTION buy size 200 range 100 to 110\n"
           "EVENT 1 taken\nEVENT 2 taken\n"
           "END time range 100 to 110\n"
           "FILL contra 104 80\nFILL 1 104 80\nFILL contra 110 30\nFILL 2 110 10\nTOTAL 200\n");

    o = buy(100, 2, 110, 0);
    o.marks = PEER_CUST_BB;
    figure("a Customer at BB", o, e, 0,
           "AUCTION buy size 100 range 101 to 110\n"
           "END time range 101 to 110\n"
           "FILL contra 110 100\nTOTAL 100\n");
    e[0] = BID(1, 5, 101);
    figure("a higher bid without the mark", o, e, 1,
           "AUCTION buy size 100 range 101 to 110\n"
           "EVENT 1 taken\n"
           "END time range 101 to 110\n"
           "FILL contra 110 100\nTOTAL 100\n");
    e[1] = build_limit(2, 20, PEER_BUY, 5, 102, PEER_CUSTOMER);
    figure("a higher bid with the mark", o, e, 2,
           "AUCTION buy size 100 range 101 to 110\n"
           "EVENT 1 taken\nEVENT 2 taken\n"
           "END time range 103 to 110\n"
           "FILL contra 110 100\nTOTAL 100\n");
}

/* W-201, worked out by hand. In a buy of 100 with quotes 100/110 the range is
 * 100 to 110, and G is 40, or 50 against one response. */
static void amends(void)
{
    struct peer_event e[100];
    char text[4096], *p;
    int i;

    /* 30 at 105 is gone; only 20 at 106 trades, and under the new name. */
    e[0] = SELL_GTX(1, 30, 105);
    e[1] = AMEND(2, 1, 20, 106);
    figure("an amended GTX trades once, at its latest size and price", buy(100, 1, 110, 108), e, 2,
           "AUCTION buy size 100 range 100 to 110\n"
           "EVENT 1 taken\nEVENT 2 taken\n"
           "END time range 100 to 110\n"
           "FILL 2 106 20\nFILL contra 108 80\nTOTAL 100\n");

    /* Three amends in a row leave one response, so G is 50: 50 and 50. */
    e[0] = SELL_GTX(1, 10, 105);
    e[1] = AMEND(2, 1, 20, 106);
    e[2] = AMEND(3, 2, 30, 107);
    e[3] = AMEND(4, 3, 100, 108);
    figure("an amend of an amend is one live response", buy(100, 1, 110, 108), e, 4,
           "AUCTION buy size 100 range 100 to 110\n"
           "EVENT 1 taken\nEVENT 2 taken\nEVENT 3 taken\nEVENT 4 taken\n"
           "END time range 100 to 110\n"
           "FILL contra 108 50\nFILL 4 108 50\nTOTAL 100\n");

    /* A is 10, and 100 exceeds 20: 10 and 10, the rest at 110. With the old
     * 60 counted too, 105 would be clean-up. */
    e[0] = SELL_GTX(1, 60, 105);
    e[1] = AMEND(2, 1, 10, 105);
    figure("the size at a price counts an amended response once", buy(100, 2, 110, 0), e, 2,
           "AUCTION buy size 100 range 100 to 110\n"
           "EVENT 1 taken\nEVENT 2 taken\n"
           "END time range 100 to 110\n"
           "FILL contra 105 10\nFILL 2 105 10\nFILL contra 110 80\nTOTAL 100\n");

    /* The Customer's 70 come first, Contra gets the 30 left of its 40. */
    e[0] = build_gtx(1, 20, PEER_SELL, 30, 105, PEER_CUSTOMER);
    e[1] = SELL_GTX(2, 30, 108);
    e[2] = AMEND(3, 1, 70, 108);
    figure("a Customer's amend keeps the mark", buy(100, 1, 110, 108), e, 3,
           "AUCTION buy size 100 range 100 to 110\n"
           "EVENT 1 taken\nEVENT 2 taken\nEVENT 3 taken\n"
           "END time range 100 to 110\n"
           "FILL 3 108 70\nFILL contra 108 30\nTOTAL 100\n");

    /* The Customer's 30, Contra's 40, and the 30 left for the other. */
    e[0] = SELL_GTX(1, 30, 105);
    e[1] = build_gtx(2, 20, PEER_SELL, 30, 108, PEER_CUSTOMER);
    figure("an amend of another gets no mark", buy(100, 1, 110, 108), e, 3,
           "AUCTION buy size 100 range 100 to 110\n"
           "EVENT 1 taken\nEVENT 2 taken\nEVENT 3 taken\n"
           "END time range 100 to 110\n"
           "FILL 2 108 30\nFILL contra 108 40\nFILL 3 108 30\nTOTAL 100\n");

    /* 61 over three of 30, 90 in all: 1,830 is 20 times 90 and 30, so there is
     * one leftover and the parts are equal. It goes to sequence 2; with the old
     * rank it would be the amended one's. */
    e[0] = SELL_GTX(1, 30, 108);
    e[1] = SELL_GTX(2, 30, 108);
    e[2] = SELL_GTX(3, 30, 108);
    e[3] = AMEND(4, 1, 30, 108);
    figure("leftovers go by the amend's sequence", buy(101, 1, 110, 108), e, 4,
           "AUCTION buy size 101 range 100 to 110\n"
           "EVENT 1 taken\nEVENT 2 taken\nEVENT 3 taken\nEVENT 4 taken\n"
           "END time range 100 to 110\n"
           "FILL contra 108 40\nFILL 2 108 21\nFILL 3 108 20\nFILL 4 108 20\nTOTAL 101\n");

    /* 61 over 40 and 40: 30 and 30, equal parts, and the leftover goes to
     * sequence 2. With the old rank it would be 30 and 31. */
    e[0] = SELL_GTX(1, 50, 108);
    e[1] = SELL_GTX(2, 40, 108);
    e[2] = AMEND(3, 1, 40, 108);
    figure("a smaller size loses its rank too", buy(101, 1, 110, 108), e, 3,
           "AUCTION buy size 101 range 100 to 110\n"
           "EVENT 1 taken\nEVENT 2 taken\nEVENT 3 taken\n"
           "END time range 100 to 110\n"
           "FILL contra 108 40\nFILL 2 108 31\nFILL 3 108 30\nTOTAL 101\n");

    /* Customers by sequence: 60 to 2, and the 40 left to 3, once 1. */
    e[0] = build_gtx(1, 20, PEER_SELL, 60, 105, PEER_CUSTOMER);
    e[1] = build_gtx(2, 20, PEER_SELL, 60, 105, PEER_CUSTOMER);
    e[2] = AMEND(3, 1, 60, 105);
    figure("Customers go by the amend's sequence", buy(100, 1, 110, 108), e, 3,
           "AUCTION buy size 100 range 100 to 110\n"
           "EVENT 1 taken\nEVENT 2 taken\nEVENT 3 taken\n"
           "END time range 100 to 110\n"
           "FILL 2 105 60\nFILL 3 105 40\nTOTAL 100\n");

    /* 111 is 36, whether the name is live or not; 110 is taken. There the 10
     * fit beside Contra's 50, and the rest is Contra's too. */
    e[0] = SELL_GTX(1, 10, 105);
    e[1] = AMEND(2, 1, 10, 111);
    e[2] = AMEND(3, 9, 10, 111);
    e[3] = AMEND(4, 9, 10, 110);
    e[4] = AMEND(5, 1, 10, 110);
    figure("36 above the initiating price, before 37", buy(100, 2, 110, 0), e, 5,
           "AUCTION buy size 100 range 100 to 110\n"
           "EVENT 1 taken\nEVENT 2 refused 36\nEVENT 3 refused 36\nEVENT 4 refused 37\nEVENT 5 taken\n"
           "END time range 100 to 110\n"
           "FILL contra 110 90\nFILL 5 110 10\nTOTAL 100\n");

    /* Under 50 the initiating price is BO - 1 = 109; G is 5 against one
     * response, and Contra gets the 2 left over. */
    e[0] = SELL_GTX(1, 3, 105);
    e[1] = AMEND(2, 1, 3, 110);
    e[2] = AMEND(3, 1, 3, 109);
    figure("36 above a small order's initiating price", buy(10, 2, 110, 0), e, 3,
           "AUCTION buy size 10 range 101 to 109\n"
           "EVENT 1 taken\nEVENT 2 refused 36\nEVENT 3 taken\n"
           "END time range 101 to 109\n"
           "FILL contra 109 7\nFILL 3 109 3\nTOTAL 10\n");

    /* 95 is below the NBB, and the auction goes on; it works at the bound, 100. */
    e[0] = SELL_GTX(1, 10, 105);
    e[1] = AMEND(2, 1, 10, 95);
    e[2] = SELL_GTX(3, 10, 107);
    figure("an amend below the bound ends nothing", buy(100, 1, 110, 108), e, 3,
           "AUCTION buy size 100 range 100 to 110\n"
           "EVENT 1 taken\nEVENT 2 taken\nEVENT 3 taken\n"
           "END time range 100 to 110\n"
           "FILL 2 100 10\nFILL 3 107 10\nFILL contra 108 80\nTOTAL 100\n");

    /* 1 is no name after event 2, and 2 none after event 6. */
    e[0] = SELL_GTX(1, 10, 105);
    e[1] = AMEND(2, 1, 10, 106);
    e[2] = build_cancel(3, 20, 1);
    e[3] = AMEND(4, 1, 10, 106);
    e[4] = AMEND(5, 5, 10, 106);
    e[5] = build_cancel(6, 20, 2);
    e[6] = AMEND(7, 2, 10, 106);
    figure("old names and its own are 37, the new name is live", buy(100, 1, 110, 108), e, 7,
           "AUCTION buy size 100 range 100 to 110\n"
           "EVENT 1 taken\nEVENT 2 taken\nEVENT 3 refused 37\nEVENT 4 refused 37\nEVENT 5 refused 37\n"
           "EVENT 6 taken\nEVENT 7 refused 37\n"
           "END time range 100 to 110\n"
           "FILL contra 108 100\nTOTAL 100\n");

    /* Neither comes back: both sequences are at most 2, the highest taken. */
    e[2] = e[0];
    e[3] = e[1];
    figure("a resend of the original or the amend", buy(100, 1, 110, 108), e, 4,
           "AUCTION buy size 100 range 100 to 110\n"
           "EVENT 1 taken\nEVENT 2 taken\nEVENT 1 refused 33\nEVENT 2 refused 33\n"
           "END time range 100 to 110\n"
           "FILL 2 106 10\nFILL contra 108 90\nTOTAL 100\n");

    /* The limit order stays at 105; field 12 may hold any number. */
    e[0] = build_limit(1, 20, PEER_SELL, 10, 105, 0);
    e[1] = AMEND(2, 1, 20, 106);
    e[2] = AMEND(3, 0, 20, 106);
    e[3] = AMEND(4, UINT32_MAX, 20, 106);
    figure("no amend of a limit order, nor of any odd number", buy(100, 1, 110, 108), e, 4,
           "AUCTION buy size 100 range 100 to 110\n"
           "EVENT 1 taken\nEVENT 2 refused 37\nEVENT 3 refused 37\nEVENT 4 refused 37\n"
           "END time range 100 to 110\n"
           "FILL 1 105 10\nFILL contra 108 90\nTOTAL 100\n");

    /* The count stays 64, so a GTX is still 38 after any amend; only a cancel
     * makes room. Those at 109 are above the stop. */
    p = full_board(e, text);
    e[64] = AMEND(65, 7, 2, 105);
    e[65] = SELL_GTX(66, 1, 109);
    e[66] = AMEND(67, 7, 2, 105);
    e[67] = AMEND(68, 65, 3, 106);
    e[68] = SELL_GTX(69, 1, 109);
    e[69] = build_cancel(70, 20, 68);
    e[70] = SELL_GTX(71, 4, 107);
    e[71] = AMEND(72, 71, 5, 107);
    e[72] = SELL_GTX(73, 1, 109);
    p += sprintf(p, "EVENT 65 taken\nEVENT 66 refused 38\nEVENT 67 refused 37\nEVENT 68 taken\nEVENT 69 refused 38\n");
    p += sprintf(p, "EVENT 70 taken\nEVENT 71 taken\nEVENT 72 taken\nEVENT 73 refused 38\n");
    p += sprintf(p, "END time range 100 to 110\nFILL 72 107 5\nFILL contra 108 95\nTOTAL 100\n");
    figure("amends on a full board", buy(100, 1, 110, 108), e, 73, text);

    /* L is 100: at 99 it is taken, at 100 the old response stands. */
    e[0] = SELL_GTX(1, 30, 105);
    e[1] = build_amend(2, 99, 1, 50, 104);
    figure("an amend at the last millisecond", buy(100, 1, 110, 108), e, 2,
           "AUCTION buy size 100 range 100 to 110\n"
           "EVENT 1 taken\nEVENT 2 taken\n"
           "END time range 100 to 110\n"
           "FILL 2 104 50\nFILL contra 108 50\nTOTAL 100\n");
    e[1] = build_amend(2, 100, 1, 50, 104);
    e[2] = build_amend(3, 100, 1, 50, 104);
    figure("a late amend leaves the old response", buy(100, 1, 110, 108), e, 3,
           "AUCTION buy size 100 range 100 to 110\n"
           "EVENT 1 taken\nEVENT 2 late\nEVENT 3 refused 31\n"
           "END time range 100 to 110\n"
           "FILL 1 105 30\nFILL contra 108 70\nTOTAL 100\n");
    e[1] = build_amend(2, 100, 9, 50, 111);
    figure("late before 36 and 37", buy(100, 1, 110, 108), e, 2,
           "AUCTION buy size 100 range 100 to 110\n"
           "EVENT 1 taken\nEVENT 2 late\n"
           "END time range 100 to 110\n"
           "FILL 1 105 30\nFILL contra 108 70\nTOTAL 100\n");

    /* Capped at 10: 6 over 10 and 10 is 3 and 3. Over 10 and 100 it would be 1 and 5. */
    e[0] = SELL_GTX(1, 1, 105);
    e[1] = build_limit(2, 20, PEER_SELL, 10, 105, 0);
    e[2] = AMEND(3, 1, 100, 105);
    figure("an amend is capped", buy(10, 1, 110, 105), e, 3,
           "AUCTION buy size 10 range 101 to 109\n"
           "EVENT 1 taken\nEVENT 2 taken\nEVENT 3 taken\n"
           "END time range 101 to 109\n"
           "FILL contra 105 4\nFILL 2 105 3\nFILL 3 105 3\nTOTAL 10\n");

    /* The lowest working price is 106 now. Of 150 left 20 and 20 are matched. */
    e[0] = SELL_GTX(1, 20, 101);
    e[1] = AMEND(2, 1, 20, 106);
    e[2] = build_market(3, 20, PEER_SELL, 50, 0);
    figure("a market order after an amend", buy(200, 2, 110, 0), e, 3,
           "AUCTION buy size 200 range 100 to 110\n"
           "EVENT 1 taken\nEVENT 2 taken\nEVENT 3 ended\n"
           "END opposite range 100 to 110\n"
           "FILL 3 106 50\nFILL contra 106 20\nFILL 2 106 20\nFILL contra 110 110\nTOTAL 200\n");

    /* A taken amend moves the highest sequence and the clock, a refused one neither. */
    e[0] = SELL_GTX(1, 10, 105);
    e[1] = build_amend(9, 60, 2, 10, 106);
    e[2] = build_amend(5, 50, 1, 10, 106);
    e[3] = build_gtx(4, 50, PEER_SELL, 10, 105, 0);
    e[4] = build_gtx(6, 49, PEER_SELL, 10, 105, 0);
    e[5] = build_amend(5, 50, 5, 10, 107);
    e[6] = build_amend(6, 49, 5, 10, 107);
    figure("an amend's sequence and time", buy(100, 1, 110, 108), e, 7,
           "AUCTION buy size 100 range 100 to 110\n"
           "EVENT 1 taken\nEVENT 9 refused 37\nEVENT 5 taken\nEVENT 4 refused 33\nEVENT 6 refused 34\n"
           "EVENT 5 refused 33\nEVENT 6 refused 34\n"
           "END time range 100 to 110\n"
           "FILL 5 106 10\nFILL contra 108 90\nTOTAL 100\n");

    /* Out of form, each in one thing: marks, side, field 24, size, price, kind.
     * Then the least and the greatest size and price. */
    e[0] = SELL_GTX(1, 10, 105);
    for (i = 1; i < 11; i++)
        e[i] = AMEND((uint32_t)i + 1, 1, 10, 106);
    e[1].marks = PEER_CUSTOMER;
    e[2].marks = 128;
    e[3].side = PEER_SELL;
    e[4].side = PEER_BUY;
    e[5].field[3] = 1;
    e[6].field[1] = 0;
    e[7].field[1] = PEER_SIZE_MAX + 1;
    e[8].field[2] = 0;
    e[9].field[2] = PEER_MIRROR;
    e[10].kind = 7;
    e[11] = AMEND(12, 1, 1, 1);
    e[12] = AMEND(13, 12, PEER_SIZE_MAX, 107);
    e[13] = AMEND(14, 13, 10, PEER_PRICE_MAX);
    p = text + sprintf(text, "AUCTION buy size 100 range 100 to 110\nEVENT 1 taken\n");
    for (i = 1; i < 11; i++)
        p += sprintf(p, "EVENT %d refused 32\n", i + 1);
    p += sprintf(p, "EVENT 12 taken\nEVENT 13 taken\nEVENT 14 refused 36\n");
    p += sprintf(p, "END time range 100 to 110\nFILL 13 107 100\nTOTAL 100\n");
    figure("the form of an amend", buy(100, 1, 110, 108), e, 14, text);
}

/* A figure whose events are all taken, and that ends by time in the range of
 * the start: the wanted fills. */
static void shares(const char *name, struct peer_order o, const char *fills, const struct peer_event *e, size_t n)
{
    const char *range = o.size < 50 ? "range 101 to 109" : "range 100 to 110";
    char text[4096], *p = text;
    size_t i;

    p += sprintf(p, "AUCTION buy size %lu %s\n", (unsigned long)o.size, range);
    for (i = 0; i < n; i++)
        p += sprintf(p, "EVENT %lu taken\n", (unsigned long)e[i].seq);
    sprintf(p, "END time %s\n%sTOTAL %lu\n", range, fills, (unsigned long)o.size);
    figure(name, o, e, (int)n, text);
}

#define SHARES(name, order, fills, ...) \
    shares(name, order, fills, (const struct peer_event[]){ __VA_ARGS__ }, \
           sizeof((const struct peer_event[]){ __VA_ARGS__ }) / sizeof(struct peer_event))
#define CUSTOMER_GTX(seq, size, price) build_gtx(seq, 20, PEER_SELL, size, price, PEER_CUSTOMER)

/* W-203, worked out by hand: R x s = whole x T + part is told for each size.
 * Where all responses to a buy of 100 stand at one price with Contra, R is 60. */
static void leftovers_by_part(void)
{
    /* 60 x 25 = 20 x 73 + 40, twice; 60 x 23 = 18 x 73 + 66. Two leftovers: one
     * to the last, one to the first. */
    SHARES("the larger part, then the first of two equals", buy(100, 1, 110, 108),
           "FILL contra 108 40\nFILL 1 108 21\nFILL 2 108 20\nFILL 3 108 19\n",
           SELL_GTX(1, 25, 108), SELL_GTX(2, 25, 108), SELL_GTX(3, 23, 108));

    /* 60 x 44 = 41 x 64 + 16; 60 x 20 = 18 x 64 + 48. */
    SHARES("the larger part at the smaller size", buy(100, 1, 110, 108),
           "FILL contra 108 40\nFILL 1 108 41\nFILL 2 108 19\n",
           SELL_GTX(1, 44, 108), SELL_GTX(2, 20, 108));

    /* R is 60,000 and T 119,999. 60,000 x 39,999 = 19,999 x T + 79,999, twice;
     * 60,000 x 40,001 = 20,000 x T + 80,000. */
    SHARES("parts that are close to each other", buy(PEER_SIZE_MAX, 1, 110, 108),
           "FILL contra 108 40000\nFILL 1 108 20000\nFILL 2 108 19999\nFILL 3 108 20001\n",
           SELL_GTX(1, 39999, 108), SELL_GTX(2, 39999, 108), SELL_GTX(3, 40001, 108));

    /* 60 x 40 = 20 x 120; 60 x 39 = 19 x 120 + 60; 60 x 41 = 20 x 120 + 60. One
     * leftover, and the first has a part of 0; of the equal parts the lower
     * sequence has the smaller size. */
    SHARES("a part of 0 first, then equal parts of unequal sizes", buy(100, 1, 110, 108),
           "FILL contra 108 40\nFILL 1 108 20\nFILL 2 108 20\nFILL 3 108 20\n",
           SELL_GTX(1, 40, 108), SELL_GTX(2, 39, 108), SELL_GTX(3, 41, 108));

    /* 60 x 20 = 10 x 120, twice; 60 x 41 and 60 x 39 as before. */
    SHARES("two parts of 0", buy(100, 1, 110, 108),
           "FILL contra 108 40\nFILL 1 108 10\nFILL 2 108 10\nFILL 3 108 21\nFILL 4 108 19\n",
           SELL_GTX(1, 20, 108), SELL_GTX(2, 20, 108), SELL_GTX(3, 41, 108), SELL_GTX(4, 39, 108));

    /* Of T = R + 1 all but one have their size. 60 x 30 = 29 x 61 + 31;
     * 60 x 20 = 19 x 61 + 41; 60 x 11 = 10 x 61 + 50. */
    SHARES("one contract short", buy(100, 1, 110, 108),
           "FILL contra 108 40\nFILL 1 108 29\nFILL 2 108 20\nFILL 3 108 11\n",
           SELL_GTX(1, 30, 108), SELL_GTX(2, 20, 108), SELL_GTX(3, 11, 108));
    /* 60 x 25 = 24 x 61 + 36, twice. */
    SHARES("one contract short of two equals", buy(100, 1, 110, 108),
           "FILL contra 108 40\nFILL 1 108 25\nFILL 2 108 24\nFILL 3 108 11\n",
           SELL_GTX(1, 25, 108), SELL_GTX(2, 25, 108), SELL_GTX(3, 11, 108));

    /* It has all of R, whatever its size: two live, so Contra has 40. */
    SHARES("one alone", buy(100, 1, 110, 108),
           "FILL contra 108 40\nFILL 1 108 60\n",
           SELL_GTX(1, 61, 108), SELL_GTX(2, 5, 109));

    /* G is 2 and R is 3: 3 x 1 = 0 x 7 + 3, twice; 3 x 2 = 0 x 7 + 6;
     * 3 x 3 = 1 x 7 + 2. Two leftovers. */
    SHARES("fewer contracts than members", buy(5, 1, 110, 105),
           "FILL contra 105 2\nFILL 1 105 1\nFILL 3 105 1\nFILL 4 105 1\n",
           SELL_GTX(1, 1, 105), SELL_GTX(2, 1, 105), SELL_GTX(3, 2, 105), SELL_GTX(4, 3, 105));
    /* G is 1 and R is 1: the parts are 1, 2 and 2 of 5. */
    SHARES("one contract to share", buy(2, 1, 110, 105),
           "FILL contra 105 1\nFILL 2 105 1\n",
           SELL_GTX(1, 1, 105), SELL_GTX(2, 2, 105), SELL_GTX(3, 2, 105));

    /* G is 4 and R is 6: 6 x 10 = 1 x 45 + 15; 6 x 35 = 4 x 45 + 30. Capped at
     * 10 the limit order would have 3 of the 6. */
    SHARES("a limit order shares by its whole size", buy(10, 1, 110, 105),
           "FILL contra 105 4\nFILL 1 105 1\nFILL 2 105 5\n",
           SELL_GTX(1, 10, 105), SELL(2, 35, 105));

    /* The Customer's 20, Contra's 40, and R is 40: 40 x 25 = 18 x 55 + 10;
     * 40 x 30 = 21 x 55 + 45. With the Customer in T they would be 13 and 16. */
    SHARES("Customers are not counted in T", buy(100, 1, 110, 108),
           "FILL 1 108 20\nFILL contra 108 40\nFILL 2 108 18\nFILL 3 108 22\n",
           CUSTOMER_GTX(1, 20, 108), SELL_GTX(2, 25, 108), SELL_GTX(3, 30, 108));
    SHARES("nor is a later Customer", buy(100, 1, 110, 108),
           "FILL 3 108 20\nFILL contra 108 40\nFILL 1 108 22\nFILL 2 108 18\n",
           SELL_GTX(1, 30, 108), SELL_GTX(2, 25, 108), CUSTOMER_GTX(3, 20, 108));

    /* R is 60,000 and T 299,997. 6,000,000,000 = 20,000 x T + 60,000;
     * 5,999,940,000 = 20,000 x T; 5,999,880,000 = 19,999 x T + 239,997. */
    SHARES("products past 32 bits", buy(PEER_SIZE_MAX, 1, 110, 108),
           "FILL contra 108 40000\nFILL 1 108 20000\nFILL 2 108 20000\nFILL 3 108 20000\n",
           SELL_GTX(1, 100000, 108), SELL_GTX(2, 99999, 108), SELL_GTX(3, 99998, 108));
}

/* W-203: equal parts go by sequence. Of 60 over seven of 10 each has 8, since
 * 60 x 10 = 8 x 70 + 40, and there are four leftovers. */
static void leftovers_of_equals(void)
{
#define SEVEN SELL_GTX(1, 10, 108), SELL_GTX(2, 10, 108), SELL_GTX(3, 10, 108), SELL_GTX(4, 10, 108), \
              SELL_GTX(5, 10, 108), SELL_GTX(6, 10, 108), SELL_GTX(7, 10, 108)
    struct peer_event e[100];
    char text[4096], *p;
    int i;

    SHARES("four of seven equals", buy(100, 1, 110, 108),
           "FILL contra 108 40\nFILL 1 108 9\nFILL 2 108 9\nFILL 3 108 9\nFILL 4 108 9\n"
           "FILL 5 108 8\nFILL 6 108 8\nFILL 7 108 8\n",
           SEVEN);
    /* 8 and 9 stand where 1 and 3 stood, and are last. */
    SHARES("equals, two of them amended", buy(100, 1, 110, 108),
           "FILL contra 108 40\nFILL 2 108 9\nFILL 4 108 9\nFILL 5 108 9\nFILL 6 108 9\n"
           "FILL 7 108 8\nFILL 8 108 8\nFILL 9 108 8\n",
           SEVEN, AMEND(8, 1, 10, 108), AMEND(9, 3, 10, 108));
    /* 9 takes the place of 2, and is last. */
    SHARES("equals, a place taken again", buy(100, 1, 110, 108),
           "FILL contra 108 40\nFILL 1 108 9\nFILL 3 108 9\nFILL 4 108 9\nFILL 5 108 9\n"
           "FILL 6 108 8\nFILL 7 108 8\nFILL 9 108 8\n",
           SEVEN, CANCEL(8, 2), SELL_GTX(9, 10, 108));
#undef SEVEN

    /* R is 61: 61 x 30 = 20 x 90 + 30, three times. */
    SHARES("equals of the greatest sequences", buy(101, 1, 110, 108),
           "FILL contra 108 40\nFILL 5 108 21\nFILL 4294967294 108 20\nFILL 4294967295 108 20\n",
           SELL_GTX(5, 30, 108), SELL_GTX(UINT32_MAX - 1, 30, 108), SELL_GTX(UINT32_MAX, 30, 108));

    /* 60 over 64 of 1: the parts are all 60 of 64, and the last four by
     * sequence get none: 63, 64, and those in the places of 1 and 2. */
    p = full_board(e, text);
    e[64] = AMEND(65, 1, 1, 109);
    e[65] = CANCEL(66, 2);
    e[66] = SELL_GTX(67, 1, 109);
    p += sprintf(p, "EVENT 65 taken\nEVENT 66 taken\nEVENT 67 taken\nEND time range 100 to 110\nFILL contra 109 40\n");
    for (i = 3; i <= 62; i++)
        p += sprintf(p, "FILL %d 109 1\n", i);
    sprintf(p, "TOTAL 100\n");
    figure("64 equals", buy(100, 1, 110, 109), e, 67, text);
}

/* W-203 wherever others share. */
static void leftovers_by_mode(void)
{
    struct peer_event e[3];

    /* R is 100: 100 x 50 = 33 x 151 + 17; 100 x 41 = 27 x 151 + 23;
     * 100 x 60 = 39 x 151 + 111. */
    SHARES("below the stop", buy(100, 1, 110, 108),
           "FILL 1 105 33\nFILL 2 105 27\nFILL 3 105 40\n",
           SELL_GTX(1, 50, 105), SELL_GTX(2, 41, 105), SELL_GTX(3, 60, 105));
    SHARES("at the bound, from prices below it", buy(100, 1, 110, 108),
           "FILL 1 100 33\nFILL 2 100 27\nFILL 3 100 40\n",
           SELL_GTX(1, 50, 100), SELL_GTX(2, 41, 95), SELL_GTX(3, 60, 98));

    /* 10 and 10 at 103. Of 80 left Contra lacks 30, and R is 50:
     * 50 x 33 = 24 x 67 + 42; 50 x 25 = 18 x 67 + 44; 50 x 9 = 6 x 67 + 48. */
    SHARES("clean-up in mode 2", buy(100, 2, 110, 0),
           "FILL contra 103 10\nFILL 1 103 10\nFILL contra 105 30\nFILL 2 105 24\nFILL 3 105 19\nFILL 4 105 7\n",
           SELL_GTX(1, 10, 103), SELL_GTX(2, 33, 105), SELL_GTX(3, 25, 105), SELL_GTX(4, 9, 105));
    /* 40 and 40 at 103. Of 20 left Contra lacks nothing: 20 x 12 = 10 x 24;
     * 20 x 7 = 5 x 24 + 20; 20 x 5 = 4 x 24 + 4. */
    SHARES("clean-up in mode 2, Contra holding G", buy(100, 2, 110, 0),
           "FILL contra 103 40\nFILL 1 103 40\nFILL 2 105 10\nFILL 3 105 6\nFILL 4 105 4\n",
           SELL_GTX(1, 40, 103), SELL_GTX(2, 12, 105), SELL_GTX(3, 7, 105), SELL_GTX(4, 5, 105));
    /* G is 4 and R is 6: 6 x 4 = 2 x 11 + 2, twice; 6 x 3 = 1 x 11 + 7. */
    SHARES("clean-up at the initiating price in mode 2", buy(10, 2, 110, 0),
           "FILL contra 109 4\nFILL 1 109 2\nFILL 2 109 2\nFILL 3 109 2\n",
           SELL_GTX(1, 4, 109), SELL_GTX(2, 4, 109), SELL_GTX(3, 3, 109));

    /* R is 100: 100 x 60 = 46 x 130 + 20; 100 x 70 = 53 x 130 + 110. */
    SHARES("below the auto-match limit", buy(100, 3, 110, 105),
           "FILL 1 103 46\nFILL 2 103 54\n",
           SELL_GTX(1, 60, 103), SELL_GTX(2, 70, 103));
    /* 10 at 101. Of 90 left Contra has 40: 50 x 26 = 16 x 78 + 52, three times. */
    SHARES("clean-up in mode 3, Contra short of G", buy(100, 3, 110, 103),
           "FILL 1 101 10\nFILL contra 104 40\nFILL 2 104 17\nFILL 3 104 17\nFILL 4 104 16\n",
           SELL_GTX(1, 10, 101), SELL_GTX(2, 26, 104), SELL_GTX(3, 26, 104), SELL_GTX(4, 26, 104));
    /* 80 and 80 at 104, and 40 left: 40 x 21 = 13 x 64 + 8; 40 x 13 = 8 x 64 + 8;
     * 40 x 30 = 18 x 64 + 48. */
    SHARES("clean-up in mode 3, Contra holding G", buy(200, 3, 110, 103),
           "FILL contra 104 80\nFILL 1 104 80\nFILL 2 106 13\nFILL 3 106 8\nFILL 4 106 19\n",
           SELL_GTX(1, 80, 104), SELL_GTX(2, 21, 106), SELL_GTX(3, 13, 106), SELL_GTX(4, 30, 106));

    /* The market order's 13, Contra's 40, and R is 47: 47 x 30 = 20 x 70 + 10;
     * 47 x 40 = 26 x 70 + 60. */
    e[0] = SELL_GTX(1, 30, 108);
    e[1] = SELL_GTX(2, 40, 108);
    e[2] = build_market(3, 20, PEER_SELL, 13, 0);
    figure("after a market order", buy(100, 1, 110, 108), e, 3,
           "AUCTION buy size 100 range 100 to 110\n"
           "EVENT 1 taken\nEVENT 2 taken\nEVENT 3 ended\n"
           "END opposite range 100 to 110\n"
           "FILL 3 108 13\nFILL contra 108 40\nFILL 1 108 20\nFILL 2 108 27\nTOTAL 100\n");

    /* 60 x 31 = 24 x 76 + 36; 60 x 45 = 35 x 76 + 40. */
    e[0] = SELL_GTX(1, 31, 100);
    e[1] = SELL(2, 45, 100);
    figure("with the limit order that ends it", buy(100, 1, 110, 100), e, 2,
           "AUCTION buy size 100 range 100 to 110\n"
           "EVENT 1 taken\nEVENT 2 ended\n"
           "END opposite range 100 to 110\n"
           "FILL contra 100 40\nFILL 1 100 24\nFILL 2 100 36\nTOTAL 100\n");
}

/* W-205, worked out by hand. Each is written for a buy and for a sell, in the
 * prices of the tape: with quotes 100/110 the sell's are 210 less the buy's. */

/* The order of that size on the other side; quotes 100/110. */
static struct peer_order sell(uint32_t size, uint32_t mode, uint32_t limit, uint32_t stop)
{
    struct peer_order o = buy(size, mode, limit, stop);

    o.side = PEER_SELL;
    return o;
}

static struct peer_order collared(struct peer_order o, uint32_t displayed, uint32_t collar)
{
    o.displayed = displayed;
    o.collar = collar;
    return o;
}

static struct peer_order quoted(struct peer_order o, uint32_t nbb, uint32_t nbo, uint32_t bb, uint32_t bo)
{
    o.nbb = nbb;
    o.nbo = nbo;
    o.bb = bb;
    o.bo = bo;
    return o;
}

static void refused(const char *name, struct peer_order o, int number)
{
    char text[40];

    sprintf(text, "REFUSED %d\n", number);
    figure(name, o, NULL, 0, text);
}

/* An order in mode 2 without events: Contra has all of it at the initiating
 * price, which is the range's high end for a buy and its low end for a sell. */
static void opens(const char *name, struct peer_order o, unsigned low, unsigned high)
{
    unsigned size = (unsigned)o.size, price = o.side == PEER_BUY ? high : low;
    char text[200];

    sprintf(text, "AUCTION %s size %u range %u to %u\nEND time range %u to %u\nFILL contra %u %u\nTOTAL %u\n",
            o.side == PEER_BUY ? "buy" : "sell", size, low, high, low, high, price, size, size);
    figure(name, o, NULL, 0, text);
}

static void collars(void)
{
    struct peer_order thin = quoted(buy(10, 2, 101, 0), 100, 101, 90, 110);
    struct peer_order thin_sell = quoted(sell(10, 2, 100, 0), 100, 101, 91, 111);

    /* 109 less 3 is 106: one cent below it is 105. 101 and 3 is 104. */
    opens("an offer of 106", collared(buy(10, 2, 110, 0), 109, 3), 101, 105);
    opens("a bid of 104", collared(sell(10, 2, 100, 0), 101, 3), 105, 109);
    opens("an offer of 106, size 49", collared(buy(49, 2, 110, 0), 109, 3), 101, 105);
    opens("a bid of 104, size 49", collared(sell(49, 2, 100, 0), 101, 3), 105, 109);
    opens("an offer of 106, size 50", collared(buy(50, 2, 110, 0), 109, 3), 100, 110);
    opens("a bid of 104, size 50", collared(sell(50, 2, 100, 0), 101, 3), 100, 110);
    opens("an offer of 106, limit 103", collared(buy(10, 2, 103, 0), 109, 3), 101, 103);
    opens("a bid of 104, limit 107", collared(sell(10, 2, 107, 0), 101, 3), 107, 109);
    opens("an offer of 106, BO 1,000,000", collared(quoted(buy(10, 2, 110, 0), 100, 110, 100, 1000000), 109, 3), 101, 105);
    opens("a bid of 104, BB 0", collared(quoted(sell(10, 2, 100, 0), 100, 110, 0, 110), 101, 3), 105, 109);
    opens("a collar of 1", collared(buy(1, 2, 110, 0), 107, 1), 101, 105);
    opens("a collar of 1, sell", collared(sell(1, 2, 100, 0), 103, 1), 105, 109);

    /* The lowest of 110, 110 and 114; with the quoted BO it would be 109. */
    opens("an offer of 115", collared(buy(10, 2, 110, 0), 120, 5), 101, 110);
    opens("a bid of 95", collared(sell(10, 2, 100, 0), 90, 5), 100, 109);
    opens("an offer of 111", collared(buy(10, 2, 120, 0), 112, 1), 101, 110);
    opens("a bid of 99", collared(sell(10, 2, 90, 0), 98, 1), 100, 109);
    opens("an offer of 110, as quoted", collared(buy(10, 2, 110, 0), 112, 2), 101, 109);
    opens("a bid of 100, as quoted", collared(sell(10, 2, 100, 0), 98, 2), 101, 109);
    opens("an offer of 115, limit 105", collared(buy(10, 2, 105, 0), 120, 5), 101, 105);
    opens("a bid of 95, limit 105", collared(sell(10, 2, 105, 0), 90, 5), 105, 109);
    /* The lowest of 118, 118 and 114, BO being 118. */
    opens("an offer of 115, BO 118", collared(quoted(buy(10, 2, 118, 0), 100, 118, 100, 118), 120, 5), 101, 114);
    opens("a bid of 95, BB 92", collared(quoted(sell(10, 2, 92, 0), 92, 110, 92, 110), 90, 5), 96, 109);

    /* The bound is 101, for a sell 109: at it, and a cent past it. */
    opens("an offer of 102", collared(buy(10, 2, 110, 0), 104, 2), 101, 101);
    opens("a bid of 108", collared(sell(10, 2, 100, 0), 106, 2), 109, 109);
    refused("an offer of 101", collared(buy(10, 2, 110, 0), 104, 3), 13);
    refused("a bid of 109", collared(sell(10, 2, 100, 0), 106, 3), 13);
    refused("an offer of 101, size 49", collared(buy(49, 2, 110, 0), 104, 3), 13);
    refused("a bid of 109, size 49", collared(sell(49, 2, 100, 0), 106, 3), 13);
    opens("an offer of 101, size 50", collared(buy(50, 2, 110, 0), 104, 3), 100, 110);
    opens("a bid of 109, size 50", collared(sell(50, 2, 100, 0), 106, 3), 100, 110);
    /* The bound is the NBB where BB is well below: 101 makes 100, and 100 makes 99. */
    opens("an offer of 101, BB 90", collared(quoted(buy(10, 2, 110, 0), 100, 110, 90, 110), 104, 3), 100, 100);
    opens("a bid of 109, BO 120", collared(quoted(sell(10, 2, 100, 0), 100, 110, 100, 120), 106, 3), 110, 110);
    refused("an offer of 100, BB 90", collared(quoted(buy(10, 2, 110, 0), 100, 110, 90, 110), 104, 4), 13);
    refused("a bid of 110, BO 120", collared(quoted(sell(10, 2, 100, 0), 100, 110, 100, 120), 106, 4), 13);

    /* 10 before 13: 100 is below the bound, 101 is not. */
    refused("limit 100", collared(buy(10, 2, 100, 0), 104, 3), 10);
    refused("limit 110, sell", collared(sell(10, 2, 110, 0), 106, 3), 10);
    refused("limit 101", collared(buy(10, 2, 101, 0), 104, 3), 13);
    refused("limit 109, sell", collared(sell(10, 2, 109, 0), 106, 3), 13);
    refused("limit 100, a good offer", collared(buy(10, 2, 100, 0), 109, 3), 10);
    refused("limit 110, a good bid", collared(sell(10, 2, 110, 0), 101, 3), 10);

    /* 13 before 11, and 11 from the collar alone: 105 is the initiating price. */
    refused("13, a stop of 105 too", collared(buy(10, 1, 110, 105), 104, 3), 13);
    refused("13, a stop of 105 too, sell", collared(sell(10, 1, 100, 105), 106, 3), 13);
    refused("13, a limit of 105 too", collared(buy(10, 3, 110, 105), 104, 3), 13);
    refused("13, a limit of 105 too, sell", collared(sell(10, 3, 100, 105), 106, 3), 13);
    refused("13, a stop in the range too", collared(buy(10, 1, 110, 101), 104, 3), 13);
    refused("13, a stop in the range too, sell", collared(sell(10, 1, 100, 109), 106, 3), 13);
    refused("a stop of 106", collared(buy(10, 1, 110, 106), 109, 3), 11);
    refused("a stop of 104, sell", collared(sell(10, 1, 100, 104), 101, 3), 11);
    refused("a limit of 109", collared(buy(10, 3, 110, 109), 109, 3), 11);
    refused("a limit of 101, sell", collared(sell(10, 3, 100, 101), 101, 3), 11);
    /* With an offer of 115 the initiating price is 110, and 110 is no 11. */
    refused("a stop of 110", buy(10, 1, 110, 110), 11);
    figure("a stop of 110, an offer of 115", collared(buy(10, 1, 110, 110), 120, 5), NULL, 0,
           "AUCTION buy size 10 range 101 to 110\nEND time range 101 to 110\nFILL contra 110 10\nTOTAL 10\n");
    figure("a stop of 100, a bid of 95", collared(sell(10, 1, 100, 100), 90, 5), NULL, 0,
           "AUCTION sell size 10 range 100 to 109\nEND time range 100 to 109\nFILL contra 100 10\nTOTAL 10\n");

    /* 9 by the quoted BBO alone; an offer of BB + 1 is 13, as above. */
    refused("both 100/101, an offer of 103", collared(quoted(buy(10, 2, 101, 0), 100, 101, 100, 101), 104, 1), 9);
    refused("both 100/101, a bid of 98", collared(quoted(sell(10, 2, 100, 0), 100, 101, 100, 101), 97, 1), 9);
    refused("both 100/101, an offer of 999,998", collared(quoted(buy(49, 2, 101, 0), 100, 101, 100, 101), 999999, 1), 9);
    refused("both 100/101, a bid of 2", collared(quoted(sell(49, 2, 100, 0), 100, 101, 100, 101), 1, 1), 9);
    refused("both 100/101, an offer of 50", collared(quoted(buy(10, 2, 101, 0), 100, 101, 100, 101), 60, 10), 9);
    refused("both 100/101, a bid of 150", collared(quoted(sell(10, 2, 100, 0), 100, 101, 100, 101), 140, 10), 9);
    opens("both 100/101, size 50", collared(quoted(buy(50, 2, 101, 0), 100, 101, 100, 101), 60, 10), 100, 101);
    opens("both 100/101, size 50, sell", collared(quoted(sell(50, 2, 100, 0), 100, 101, 100, 101), 140, 10), 100, 101);

    /* 12: the initiating price has to be 100. BO 110 makes it 101; offers of
     * 101 and 102 make it 100 and 101. For a sell it has to be 101. */
    refused("thin", thin, 12);
    opens("thin, an offer of 101", collared(thin, 104, 3), 100, 100);
    opens("thin, a bid of 100", collared(thin_sell, 97, 3), 101, 101);
    refused("thin, an offer of 102", collared(thin, 104, 2), 12);
    refused("thin, a bid of 99", collared(thin_sell, 97, 2), 12);
    refused("thin, an offer of 100", collared(thin, 104, 4), 13);
    refused("thin, a bid of 101", collared(thin_sell, 97, 4), 13);
    /* With BO 101 it is 100 to begin with, and an offer of 105 makes it 101. */
    opens("thin, BO 101", quoted(buy(10, 2, 101, 0), 100, 101, 90, 101), 100, 100);
    refused("thin, BO 101, an offer of 105", collared(quoted(buy(10, 2, 101, 0), 100, 101, 90, 101), 110, 5), 12);
    refused("thin, BB 100, a bid of 96", collared(quoted(sell(10, 2, 100, 0), 100, 101, 100, 111), 91, 5), 12);
    /* A stop of 101 is 11 at an initiating price of 100, 12 at 101, and 13 comes first. */
    thin.mode = thin_sell.mode = PEER_STOP;
    thin.stop = 101;
    thin_sell.stop = 100;
    refused("thin, a stop of 101", collared(thin, 104, 3), 11);
    refused("thin, a stop of 100, sell", collared(thin_sell, 97, 3), 11);
    refused("thin, a stop of 101, an offer of 102", collared(thin, 104, 2), 12);
    refused("thin, a stop of 100, a bid of 99", collared(thin_sell, 97, 2), 12);
    refused("thin, a stop of 101, an offer of 100", collared(thin, 104, 4), 13);
    refused("thin, a stop of 100, a bid of 101", collared(thin_sell, 97, 4), 13);
}

/* Numbers 2 to 8 of an order that would be 13: each comes first. */
static void collars_after(void)
{
    struct peer_order o = collared(buy(10, 2, 110, 0), 104, 3), s = collared(sell(10, 2, 100, 0), 106, 3);

    /* BO is below the NBO by one, whatever counts as BO; for a sell BB is above the NBB. */
    refused("2", quoted(o, 100, 110, 100, 109), 2);
    refused("2, sell", quoted(s, 100, 110, 101, 110), 2);
    refused("2, an offer of 115", collared(quoted(o, 100, 110, 100, 109), 120, 5), 2);
    refused("2, a bid of 95", collared(quoted(s, 100, 110, 101, 110), 90, 5), 2);
    refused("8", quoted(o, 110, 110, 100, 110), 8);
    refused("8, sell", quoted(s, 100, 100, 100, 110), 8);
    o.marks = s.marks = PEER_OTHER_OPEN;
    refused("7", o, 7);
    refused("7, sell", s, 7);
    o.marks = s.marks = PEER_HALTED;
    refused("6", o, 6);
    refused("6, sell", s, 6);
    o.close = s.close = 3000;
    refused("5", o, 5);
    refused("5, sell", s, 5);
    o.open = s.open = 2001;
    refused("4", o, 4);
    refused("4, sell", s, 4);
    o.size = s.size = 0;
    refused("3", o, 3);
    refused("3, sell", s, 3);
    refused("1 before all of them", collared(o, 104, 0), 1);
    refused("1 before all of them, sell", collared(s, 0, 3), 1);
}

/* The form of the two fields, at every size. */
static void collar_form(void)
{
    static const uint32_t size[] = { 10, 49, 50, PEER_SIZE_MAX };
    size_t i;

    for (i = 0; i < sizeof size / sizeof size[0]; i++) {
        struct peer_order o = buy(size[i], 2, 110, 0), s = sell(size[i], 2, 100, 0);
        int small = size[i] < 50;

        refused("displayed alone", collared(o, 109, 0), 1);
        refused("displayed alone, sell", collared(s, 101, 0), 1);
        refused("collar alone", collared(o, 0, 3), 1);
        refused("collar alone, sell", collared(s, 0, 3), 1);
        refused("displayed 1,000,000", collared(o, 1000000, 3), 1);
        refused("displayed 1,000,000, sell", collared(s, 1000000, 3), 1);
        refused("collar 1,000,000", collared(o, 109, 1000000), 1);
        refused("collar 1,000,000, sell", collared(s, 101, 1000000), 1);
        refused("both 1,000,000 and more", collared(o, 1000106, 1000000), 1);
        refused("both 1,000,000, sell", collared(s, 1000000, 1000000), 1);

        /* Words that would wrap to 6, to 105, and for a sell to 104 and 105. */
        refused("collar the greatest word", collared(o, 5, UINT32_MAX), 1);
        refused("two great words", collared(o, UINT32_MAX, UINT32_MAX - 105), 1);
        refused("collar the greatest word, sell", collared(s, 105, UINT32_MAX), 1);
        refused("displayed the greatest word, sell", collared(s, UINT32_MAX, 106), 1);

        /* The result is 0, below it, or 1,000,000 and above. */
        refused("displayed is the collar", collared(o, 50, 50), 1);
        refused("displayed is below the collar", collared(o, 50, 51), 1);
        refused("displayed 1, collar 999,999", collared(o, 1, 999999), 1);
        refused("999,998 and 2", collared(s, 999998, 2), 1);
        refused("999,998 and 3", collared(s, 999998, 3), 1);
        refused("999,999 and 999,999", collared(s, 999999, 999999), 1);

        /* The least result, and for a sell the greatest: in form, and under 50
         * the initiating price is 0 or 1,000,000. */
        if (small) {
            refused("999,999 less 999,998", collared(o, 999999, 999998), 13);
            refused("2 less 1", collared(o, 2, 1), 13);
            refused("999,998 and 1", collared(s, 999998, 1), 13);
            refused("1 and 999,998", collared(s, 1, 999998), 13);
        } else {
            opens("999,999 less 999,998", collared(o, 999999, 999998), 100, 110);
            opens("2 less 1", collared(o, 2, 1), 100, 110);
            opens("999,998 and 1", collared(s, 999998, 1), 100, 110);
            opens("1 and 999,998", collared(s, 1, 999998), 100, 110);
        }
        /* The greatest result, and for a sell the least. */
        opens("999,999 less 1", collared(o, 999999, 1), small ? 101 : 100, 110);
        opens("1 and 1", collared(s, 1, 1), 100, small ? 109 : 110);
    }
}

#define BUY_GTX(seq, size, price) build_gtx(seq, 20, PEER_BUY, size, price, 0)
#define HIDDEN(seq, side, price) build_limit(seq, 20, side, 5, price, PEER_NON_ROUTABLE)

/* Auctions with a collared range, played to their fills: an offer of 106, so
 * that the initiating price is 105, and for a sell a bid of 104 and 105 too. */
static void collar_fills(void)
{
    struct peer_event e[4];

    /* 10 exceeds 6: 3 and 3 at 103, and 4 at 105. 106 is above, for a GTX and
     * for a limit order, which takes no place. */
    e[0] = SELL_GTX(1, 3, 106);
    e[1] = SELL_GTX(2, 3, 103);
    e[2] = SELL(3, 30, 106);
    figure("an offer of 106, mode 2", collared(buy(10, 2, 110, 0), 109, 3), e, 3,
           "AUCTION buy size 10 range 101 to 105\n"
           "EVENT 1 refused 36\nEVENT 2 taken\nEVENT 3 taken\n"
           "END time range 101 to 105\n"
           "FILL contra 103 3\nFILL 2 103 3\nFILL contra 105 4\nTOTAL 10\n");
    e[0] = BUY_GTX(1, 3, 104);
    e[1] = BUY_GTX(2, 3, 107);
    e[2] = build_limit(3, 20, PEER_BUY, 30, 104, 0);
    figure("a bid of 104, mode 2", collared(sell(10, 2, 100, 0), 101, 3), e, 3,
           "AUCTION sell size 10 range 105 to 109\n"
           "EVENT 1 refused 36\nEVENT 2 taken\nEVENT 3 taken\n"
           "END time range 105 to 109\n"
           "FILL contra 107 3\nFILL 2 107 3\nFILL contra 105 4\nTOTAL 10\n");

    /* 4 below the stop; of the 6 left Contra has its 4. The stop may be 105. */
    e[0] = SELL_GTX(1, 4, 103);
    e[1] = SELL_GTX(2, 8, 105);
    figure("an offer of 106, mode 1", collared(buy(10, 1, 110, 105), 109, 3), e, 2,
           "AUCTION buy size 10 range 101 to 105\n"
           "EVENT 1 taken\nEVENT 2 taken\n"
           "END time range 101 to 105\n"
           "FILL 1 103 4\nFILL contra 105 4\nFILL 2 105 2\nTOTAL 10\n");
    e[0] = BUY_GTX(1, 4, 107);
    e[1] = BUY_GTX(2, 8, 105);
    figure("a bid of 104, mode 1", collared(sell(10, 1, 100, 105), 101, 3), e, 2,
           "AUCTION sell size 10 range 105 to 109\n"
           "EVENT 1 taken\nEVENT 2 taken\n"
           "END time range 105 to 109\n"
           "FILL 1 107 4\nFILL contra 105 4\nFILL 2 105 2\nTOTAL 10\n");

    /* 2 below the limit of 103. 18 exceeds 6: 3 and 3 at 104. At 105 Contra
     * lacks 5 of its 8, 1 goes to the other, and the 6 left to Contra. */
    e[0] = SELL_GTX(1, 2, 102);
    e[1] = SELL_GTX(2, 3, 104);
    e[2] = SELL_GTX(3, 1, 105);
    figure("an offer of 106, mode 3", collared(buy(20, 3, 110, 103), 109, 3), e, 3,
           "AUCTION buy size 20 range 101 to 105\n"
           "EVENT 1 taken\nEVENT 2 taken\nEVENT 3 taken\n"
           "END time range 101 to 105\n"
           "FILL 1 102 2\nFILL contra 104 3\nFILL 2 104 3\nFILL contra 105 11\nFILL 3 105 1\nTOTAL 20\n");
    e[0] = BUY_GTX(1, 2, 108);
    e[1] = BUY_GTX(2, 3, 106);
    e[2] = BUY_GTX(3, 1, 105);
    figure("a bid of 104, mode 3", collared(sell(20, 3, 100, 107), 101, 3), e, 3,
           "AUCTION sell size 20 range 105 to 109\n"
           "EVENT 1 taken\nEVENT 2 taken\nEVENT 3 taken\n"
           "END time range 105 to 109\n"
           "FILL 1 108 2\nFILL contra 106 3\nFILL 2 106 3\nFILL contra 105 11\nFILL 3 105 1\nTOTAL 20\n");

    /* Halfway between 105 and 101. With an offer of 105 it is 102 and a half,
     * and goes up; for a sell it is 107 and a half, and goes down. */
    e[0] = build_market(1, 20, PEER_SELL, 4, 0);
    figure("an offer of 106, a market order", collared(buy(10, 2, 110, 0), 109, 3), e, 1,
           "AUCTION buy size 10 range 101 to 105\nEVENT 1 ended\nEND opposite range 101 to 105\n"
           "FILL 1 103 4\nFILL contra 105 6\nTOTAL 10\n");
    figure("an offer of 105, a market order", collared(buy(10, 2, 110, 0), 109, 4), e, 1,
           "AUCTION buy size 10 range 101 to 104\nEVENT 1 ended\nEND opposite range 101 to 104\n"
           "FILL 1 103 4\nFILL contra 104 6\nTOTAL 10\n");
    e[0] = build_market(1, 20, PEER_BUY, 4, 0);
    figure("a bid of 104, a market order", collared(sell(10, 2, 100, 0), 101, 3), e, 1,
           "AUCTION sell size 10 range 105 to 109\nEVENT 1 ended\nEND opposite range 105 to 109\n"
           "FILL 1 107 4\nFILL contra 105 6\nTOTAL 10\n");
    figure("a bid of 105, a market order", collared(sell(10, 2, 100, 0), 101, 4), e, 1,
           "AUCTION sell size 10 range 106 to 109\nEVENT 1 ended\nEND opposite range 106 to 109\n"
           "FILL 1 107 4\nFILL contra 106 6\nTOTAL 10\n");

    /* One price: 99 works at 101. G is 5 against one response, and 1 is left. */
    e[0] = SELL_GTX(1, 4, 99);
    e[1] = SELL_GTX(2, 4, 102);
    figure("a range of one price", collared(buy(10, 2, 110, 0), 104, 2), e, 2,
           "AUCTION buy size 10 range 101 to 101\nEVENT 1 taken\nEVENT 2 refused 36\nEND time range 101 to 101\n"
           "FILL contra 101 6\nFILL 1 101 4\nTOTAL 10\n");
    e[0] = BUY_GTX(1, 4, 111);
    e[1] = BUY_GTX(2, 4, 108);
    figure("a range of one price, sell", collared(sell(10, 2, 100, 0), 106, 2), e, 2,
           "AUCTION sell size 10 range 109 to 109\nEVENT 1 taken\nEVENT 2 refused 36\nEND time range 109 to 109\n"
           "FILL contra 109 6\nFILL 1 109 4\nTOTAL 10\n");

    /* An offer of 115 lets 110 in, where BO - 1 would not: 5 and the 2 left for
     * Contra. An amend to 110 as well. */
    e[0] = SELL_GTX(1, 5, 110);
    e[1] = SELL_GTX(2, 5, 111);
    e[2] = AMEND(3, 1, 3, 110);
    figure("an offer of 115, filled", collared(buy(10, 2, 110, 0), 120, 5), e, 3,
           "AUCTION buy size 10 range 101 to 110\nEVENT 1 taken\nEVENT 2 refused 36\nEVENT 3 taken\n"
           "END time range 101 to 110\n"
           "FILL contra 110 7\nFILL 3 110 3\nTOTAL 10\n");
    e[0] = BUY_GTX(1, 5, 100);
    e[1] = BUY_GTX(2, 5, 99);
    e[2] = AMEND(3, 1, 3, 100);
    figure("a bid of 95, filled", collared(sell(10, 2, 100, 0), 90, 5), e, 3,
           "AUCTION sell size 10 range 100 to 109\nEVENT 1 taken\nEVENT 2 refused 36\nEVENT 3 taken\n"
           "END time range 100 to 109\n"
           "FILL contra 100 7\nFILL 3 100 3\nTOTAL 10\n");

    /* From 50 on nothing of it is seen: 106 and 110 are in the range. At 106
     * 50 exceeds 20: 10 and 10, and at 110 Contra lacks 10, and 20 are left. */
    e[0] = SELL_GTX(1, 10, 106);
    e[1] = SELL_GTX(2, 10, 110);
    figure("an offer of 106, size 50, filled", collared(buy(50, 2, 110, 0), 109, 3), e, 2,
           "AUCTION buy size 50 range 100 to 110\nEVENT 1 taken\nEVENT 2 taken\nEND time range 100 to 110\n"
           "FILL contra 106 10\nFILL 1 106 10\nFILL contra 110 20\nFILL 2 110 10\nTOTAL 50\n");
    e[0] = BUY_GTX(1, 10, 104);
    e[1] = BUY_GTX(2, 10, 100);
    figure("a bid of 104, size 50, filled", collared(sell(50, 2, 100, 0), 101, 3), e, 2,
           "AUCTION sell size 50 range 100 to 110\nEVENT 1 taken\nEVENT 2 taken\nEND time range 100 to 110\n"
           "FILL contra 104 10\nFILL 1 104 10\nFILL contra 100 20\nFILL 2 100 10\nTOTAL 50\n");
}

/* Later events look at the quoted BBO, and the initiating price stays. */
static void collar_events(void)
{
    struct peer_event e[4];

    /* A bid at 106 is below BO, so it is not "same": its bound would be 107. */
    e[0] = HIDDEN(1, PEER_BUY, 106);
    figure("a non-routable bid at the offer", collared(buy(10, 2, 110, 0), 109, 3), e, 1,
           "AUCTION buy size 10 range 101 to 105\nEVENT 1 ended\nEND improve range 101 to 105\n"
           "FILL contra 105 10\nTOTAL 10\n");
    figure("a non-routable bid at the offer, size 50", collared(buy(50, 2, 110, 0), 109, 3), e, 1,
           "AUCTION buy size 50 range 100 to 110\nEVENT 1 taken\nEND time range 106 to 110\n"
           "FILL contra 110 50\nTOTAL 50\n");
    e[0] = HIDDEN(1, PEER_SELL, 104);
    figure("a non-routable offer at the bid", collared(sell(10, 2, 100, 0), 101, 3), e, 1,
           "AUCTION sell size 10 range 105 to 109\nEVENT 1 ended\nEND improve range 105 to 109\n"
           "FILL contra 105 10\nTOTAL 10\n");
    figure("a non-routable offer at the bid, size 50", collared(sell(50, 2, 100, 0), 101, 3), e, 1,
           "AUCTION sell size 50 range 100 to 110\nEVENT 1 taken\nEND time range 100 to 104\n"
           "FILL contra 100 50\nTOTAL 50\n");

    /* A routable bid at 106 is below the NBO, which stays as well. */
    e[0] = BID(1, 5, 106);
    figure("a bid at the offer", collared(buy(10, 2, 110, 0), 109, 3), e, 1,
           "AUCTION buy size 10 range 101 to 105\nEVENT 1 ended\nEND improve range 101 to 105\n"
           "FILL contra 105 10\nTOTAL 10\n");
    figure("a bid at the offer, size 50", collared(buy(50, 2, 110, 0), 109, 3), e, 1,
           "AUCTION buy size 50 range 100 to 110\nEVENT 1 taken\nEND time range 106 to 110\n"
           "FILL contra 110 50\nTOTAL 50\n");
    e[0] = SELL(1, 5, 104);
    figure("an offer at the bid", collared(sell(10, 2, 100, 0), 101, 3), e, 1,
           "AUCTION sell size 10 range 105 to 109\nEVENT 1 ended\nEND improve range 105 to 109\n"
           "FILL contra 105 10\nTOTAL 10\n");
    figure("an offer at the bid, size 50", collared(sell(50, 2, 100, 0), 101, 3), e, 1,
           "AUCTION sell size 50 range 100 to 110\nEVENT 1 taken\nEND time range 100 to 104\n"
           "FILL contra 100 50\nTOTAL 50\n");

    /* 104 makes a bound of 105; then 105 would make 106. At 110 it is "same". */
    e[0] = HIDDEN(1, PEER_BUY, 104);
    e[1] = HIDDEN(2, PEER_BUY, 105);
    figure("bids up to the initiating price", collared(buy(10, 2, 110, 0), 109, 3), e, 2,
           "AUCTION buy size 10 range 101 to 105\nEVENT 1 taken\nEVENT 2 ended\nEND improve range 105 to 105\n"
           "FILL contra 105 10\nTOTAL 10\n");
    e[1] = HIDDEN(2, PEER_BUY, 110);
    figure("a non-routable bid at BO", collared(buy(10, 2, 110, 0), 109, 3), e, 2,
           "AUCTION buy size 10 range 101 to 105\nEVENT 1 taken\nEVENT 2 ended\nEND same range 105 to 105\n"
           "FILL contra 105 10\nTOTAL 10\n");
    e[0] = HIDDEN(1, PEER_SELL, 106);
    e[1] = HIDDEN(2, PEER_SELL, 105);
    figure("offers down to the initiating price", collared(sell(10, 2, 100, 0), 101, 3), e, 2,
           "AUCTION sell size 10 range 105 to 109\nEVENT 1 taken\nEVENT 2 ended\nEND improve range 105 to 105\n"
           "FILL contra 105 10\nTOTAL 10\n");
    e[1] = HIDDEN(2, PEER_SELL, 100);
    figure("a non-routable offer at BB", collared(sell(10, 2, 100, 0), 101, 3), e, 2,
           "AUCTION sell size 10 range 105 to 109\nEVENT 1 taken\nEVENT 2 ended\nEND same range 105 to 105\n"
           "FILL contra 105 10\nTOTAL 10\n");

    /* With an offer of 115: 109 makes a bound of 110 and is taken, 110 is "same"
     * though it is below 115. */
    e[0] = HIDDEN(1, PEER_BUY, 109);
    e[1] = HIDDEN(2, PEER_BUY, 110);
    figure("a non-routable bid at BO, below the offer", collared(buy(10, 2, 110, 0), 120, 5), e, 2,
           "AUCTION buy size 10 range 101 to 110\nEVENT 1 taken\nEVENT 2 ended\nEND same range 110 to 110\n"
           "FILL contra 110 10\nTOTAL 10\n");
    e[0] = HIDDEN(1, PEER_SELL, 101);
    e[1] = HIDDEN(2, PEER_SELL, 100);
    figure("a non-routable offer at BB, above the bid", collared(sell(10, 2, 100, 0), 90, 5), e, 2,
           "AUCTION sell size 10 range 100 to 109\nEVENT 1 taken\nEVENT 2 ended\nEND same range 100 to 100\n"
           "FILL contra 100 10\nTOTAL 10\n");

    /* New quotes move BO to 112, then to 104, and the initiating price not at
     * all: 106 is 36, 110 would be "same" no more, 104 is. */
    e[0] = build_quotes(1, 20, 100, 112, 100, 112, 0);
    e[1] = SELL_GTX(2, 3, 106);
    e[2] = SELL_GTX(3, 3, 105);
    e[3] = HIDDEN(4, PEER_BUY, 110);
    figure("quotes, then a bid at the old BO", collared(buy(10, 2, 110, 0), 109, 3), e, 4,
           "AUCTION buy size 10 range 101 to 105\nEVENT 1 taken\nEVENT 2 refused 36\nEVENT 3 taken\nEVENT 4 ended\n"
           "END improve range 101 to 105\nFILL contra 105 7\nFILL 3 105 3\nTOTAL 10\n");
    e[0] = build_quotes(1, 20, 100, 104, 100, 104, 0);
    e[3] = HIDDEN(4, PEER_BUY, 104);
    figure("quotes, then a bid at the new BO", collared(buy(10, 2, 110, 0), 109, 3), e, 4,
           "AUCTION buy size 10 range 101 to 105\nEVENT 1 taken\nEVENT 2 refused 36\nEVENT 3 taken\nEVENT 4 ended\n"
           "END same range 101 to 105\nFILL contra 105 7\nFILL 3 105 3\nTOTAL 10\n");
    e[0] = build_quotes(1, 20, 98, 110, 98, 110, 0);
    e[1] = BUY_GTX(2, 3, 104);
    e[2] = BUY_GTX(3, 3, 105);
    e[3] = HIDDEN(4, PEER_SELL, 100);
    figure("quotes, then an offer at the old BB", collared(sell(10, 2, 100, 0), 101, 3), e, 4,
           "AUCTION sell size 10 range 105 to 109\nEVENT 1 taken\nEVENT 2 refused 36\nEVENT 3 taken\nEVENT 4 ended\n"
           "END improve range 105 to 109\nFILL contra 105 7\nFILL 3 105 3\nTOTAL 10\n");
    e[0] = build_quotes(1, 20, 106, 110, 106, 110, 0);
    e[3] = HIDDEN(4, PEER_SELL, 106);
    figure("quotes, then an offer at the new BB", collared(sell(10, 2, 100, 0), 101, 3), e, 4,
           "AUCTION sell size 10 range 105 to 109\nEVENT 1 taken\nEVENT 2 refused 36\nEVENT 3 taken\nEVENT 4 ended\n"
           "END same range 105 to 109\nFILL contra 105 7\nFILL 3 105 3\nTOTAL 10\n");

    /* A bound of 105 by quotes is in the range, one of 106 ends it. */
    e[0] = build_quotes(1, 20, 104, 110, 104, 110, 0);
    e[1] = build_quotes(2, 20, 105, 110, 105, 110, 0);
    figure("quotes up to the initiating price", collared(buy(10, 2, 110, 0), 109, 3), e, 2,
           "AUCTION buy size 10 range 101 to 105\nEVENT 1 taken\nEVENT 2 ended\nEND improve range 105 to 105\n"
           "FILL contra 105 10\nTOTAL 10\n");
    e[0] = build_quotes(1, 20, 100, 106, 100, 106, 0);
    e[1] = build_quotes(2, 20, 100, 105, 100, 105, 0);
    figure("quotes down to the initiating price", collared(sell(10, 2, 100, 0), 101, 3), e, 2,
           "AUCTION sell size 10 range 105 to 109\nEVENT 1 taken\nEVENT 2 ended\nEND improve range 105 to 105\n"
           "FILL contra 105 10\nTOTAL 10\n");
}

/* One record, what is said of it, and what is on offer after it. */
struct step {
    struct peer_event e;
    const char *says;
    uint32_t on_offer;
};

/* The watch has the wanted EVENT lines; its other lines are the listing's. */
static void compare_watch(const char *name, const char *side, const struct peer_order *o, const struct step *s, int n,
                          int turned)
{
    static unsigned char tape[PEER_TAPE_MAX];
    static struct peer_event e[PEER_EVENTS_MAX];
    static char plain[PEER_LISTING_MAX + 1], got[PEER_LISTING_MAX + 1], want[PEER_LISTING_MAX + 1];
    char *p = want, *end;
    size_t len;
    int i;

    for (i = 0; i < n; i++)
        e[i] = turned ? build_turn_event(s[i].e) : s[i].e;
    len = build_tape(tape, PEER_OLD, o, e, n);
    plain[peer_listing(tape, len, plain)] = 0;
    got[peer_watch(tape, len, got)] = 0;
    p += sprintf(p, "%.*s\n", (int)strcspn(plain, "\n"), plain);
    for (i = 0; i < n; i++)
        p += sprintf(p, "EVENT %lu %s on offer %lu\n", (unsigned long)e[i].seq, s[i].says, (unsigned long)s[i].on_offer);
    end = strstr(plain, "END ");
    strcpy(p, end ? end : "no END\n");
    same_text(name, side, want, got);
}

static void watch(const char *name, struct peer_order o, const struct step *s, size_t n)
{
    compare_watch(name, "watch", &o, s, (int)n, 0);
    o = build_turn_order(o);
    compare_watch(name, "watch, mirror", &o, s, (int)n, 1);
}

#define WATCH(name, order, ...) \
    watch(name, order, (const struct step[]){ __VA_ARGS__ }, \
          sizeof((const struct step[]){ __VA_ARGS__ }) / sizeof(struct step))

/* The document's figures that have events, with what is on offer. */
static void watched_figures(void)
{
    struct peer_order e = buy(10, 2, 102, 0);

    WATCH("a", buy(100, 1, 110, 108),
          { SELL_GTX(1, 30, 105), "taken", 30 },
          { SELL_GTX(2, 60, 108), "taken", 90 },
          { SELL_GTX(3, 40, 108), "taken", 130 });
    WATCH("b", buy(100, 1, 110, 108),
          { SELL_GTX(1, 31, 108), "taken", 31 },
          { SELL_GTX(2, 30, 108), "taken", 61 },
          { SELL_GTX(3, 30, 108), "taken", 91 });
    WATCH("c", buy(10, 2, 110, 0),
          { SELL_GTX(1, 3, 105), "taken", 3 },
          { SELL_GTX(1, 3, 105), "refused 33", 3 });
    WATCH("d", buy(10, 2, 108, 0),
          { build_market(1, 20, PEER_SELL, 4, 0), "ended", 0 });
    e.side = PEER_SELL;
    WATCH("e", e,
          { build_market(1, 20, PEER_BUY, 4, 0), "ended", 0 });
    WATCH("f", buy(1, 1, 110, 105),
          { SELL_GTX(1, 1, 105), "taken", 1 });
    WATCH("g, bid 108", buy(10, 2, 110, 0),
          { BID(1, 5, 108), "taken", 0 });
    WATCH("g, bid 109", buy(10, 2, 110, 0),
          { BID(1, 5, 109), "ended", 0 });
    WATCH("h", buy(200, 3, 110, 103),
          { SELL_GTX(1, 20, 101), "taken", 20 },
          { SELL_GTX(2, 80, 104), "taken", 100 },
          { SELL_GTX(3, 30, 106), "taken", 130 });
}

/* W-202, worked out by hand: what moves the total, and by how much. */
static void watched_moves(void)
{
    WATCH("a GTX counts as capped", buy(10, 2, 110, 0),
          { SELL_GTX(1, 100, 105), "taken", 10 },
          { SELL_GTX(2, 11, 105), "taken", 20 },
          { SELL_GTX(3, 10, 105), "taken", 30 },
          { SELL_GTX(4, 9, 105), "taken", 39 },
          { SELL_GTX(5, PEER_SIZE_MAX, 105), "taken", 49 },
          { SELL_GTX(6, 1, 105), "taken", 50 });

    /* 40 stand beside the one that is amended. */
    WATCH("an amend counts once, with its latest size", buy(100, 1, 110, 108),
          { SELL_GTX(1, 40, 108), "taken", 40 },
          { SELL_GTX(2, 30, 105), "taken", 70 },
          { AMEND(3, 2, 20, 105), "taken", 60 },
          { AMEND(4, 3, 19, 105), "taken", 59 },
          { AMEND(5, 4, 50, 105), "taken", 90 },
          { AMEND(6, 5, 51, 105), "taken", 91 },
          { AMEND(7, 6, 51, 104), "taken", 91 },
          { AMEND(8, 7, 99, 104), "taken", 139 },
          { AMEND(9, 8, 100, 104), "taken", 140 },
          { AMEND(10, 9, 101, 104), "taken", 140 },
          { AMEND(11, 10, PEER_SIZE_MAX, 104), "taken", 140 },
          { AMEND(12, 11, 99, 104), "taken", 139 },
          { AMEND(13, 12, 101, 104), "taken", 140 },
          { AMEND(14, 13, 1, 104), "taken", 41 });

    /* A capped GTX goes down from its cap, not from what its record says. */
    WATCH("an amend of a capped GTX", buy(10, 2, 110, 0),
          { SELL_GTX(1, 100, 105), "taken", 10 },
          { AMEND(2, 1, 9, 105), "taken", 9 },
          { AMEND(3, 2, 99, 105), "taken", 10 },
          { AMEND(4, 3, 98, 105), "taken", 10 },
          { AMEND(5, 4, 1, 105), "taken", 1 });

    WATCH("a cancel", buy(100, 1, 110, 108),
          { SELL_GTX(1, 30, 105), "taken", 30 },
          { SELL_GTX(2, 20, 106), "taken", 50 },
          { CANCEL(3, 1), "taken", 20 },
          { SELL_GTX(1, 30, 105), "refused 33", 20 },
          { CANCEL(4, 1), "refused 37", 20 },
          { SELL_GTX(5, 7, 109), "taken", 27 },
          { CANCEL(6, 2), "taken", 7 },
          { CANCEL(7, 5), "taken", 0 },
          { CANCEL(8, 5), "refused 37", 0 });

    WATCH("a cancel of a capped GTX", buy(10, 2, 110, 0),
          { SELL_GTX(1, 100, 105), "taken", 10 },
          { SELL_GTX(2, 4, 105), "taken", 14 },
          { CANCEL(3, 1), "taken", 4 },
          { CANCEL(4, 2), "taken", 0 });

    WATCH("a cancel of an amended one", buy(100, 1, 110, 108),
          { SELL_GTX(1, 30, 105), "taken", 30 },
          { SELL_GTX(2, 5, 105), "taken", 35 },
          { AMEND(3, 1, 50, 106), "taken", 55 },
          { CANCEL(4, 1), "refused 37", 55 },
          { CANCEL(5, 3), "taken", 5 },
          { AMEND(6, 2, 200, 106), "taken", 100 },
          { CANCEL(7, 6), "taken", 0 },
          { AMEND(8, 6, 1, 106), "refused 37", 0 });

    /* The initiating price is 109: at 110 a limit order takes no place. */
    WATCH("a limit order counts with its whole size", buy(10, 2, 110, 0),
          { SELL(1, 100, 105), "taken", 100 },
          { SELL(2, PEER_SIZE_MAX, 109), "taken", 100100 },
          { SELL_GTX(3, PEER_SIZE_MAX, 109), "taken", 100110 },
          { SELL(4, 50, 110), "taken", 100110 },
          { CANCEL(5, 1), "refused 37", 100110 },
          { AMEND(6, 2, 1, 105), "refused 37", 100110 },
          { CANCEL(7, 3), "taken", 100100 });

    WATCH("bids and quotes move nothing", buy(100, 1, 110, 108),
          { SELL_GTX(1, 30, 105), "taken", 30 },
          { BID(2, 70, 103), "taken", 30 },
          { build_quotes(3, 20, 100, 110, 100, 110, 0), "taken", 30 },
          { build_limit(4, 20, PEER_BUY, 70, 100, PEER_CUSTOMER), "taken", 30 });
}

/* W-202 at the ending and after it. */
static void watched_endings(void)
{
    WATCH("a marketable limit order takes a place and counts", buy(100, 1, 110, 108),
          { SELL_GTX(1, 30, 105), "taken", 30 },
          { SELL(2, 500, 100), "ended", 530 },
          { SELL_GTX(3, 5, 105), "refused 31", 530 },
          { CANCEL(4, 1), "refused 31", 530 },
          { AMEND(5, 1, 5, 105), "refused 31", 530 },
          { SELL(6, 5, 100), "refused 31", 530 });
    WATCH("so does one that is not routable", buy(100, 1, 110, 108),
          { build_limit(1, 20, PEER_SELL, PEER_SIZE_MAX, 100, PEER_NON_ROUTABLE), "ended", 100000 });

    /* With the NBB at 108 an offer at 107 is marketable; 105 is the initiating price. */
    WATCH("one above the initiating price takes no place", buy(100, 1, 105, 105),
          { SELL_GTX(1, 30, 105), "taken", 30 },
          { build_quotes(2, 20, 108, 110, 100, 110, 0), "taken", 30 },
          { SELL(3, 40, 107), "ended", 30 },
          { SELL(4, 40, 107), "refused 31", 30 });

    WATCH("a market sell doesn't count", buy(100, 1, 110, 108),
          { SELL_GTX(1, 30, 105), "taken", 30 },
          { build_market(2, 20, PEER_SELL, 50, 0), "ended", 30 },
          { CANCEL(3, 1), "refused 31", 30 });
    WATCH("nor a market buy", buy(100, 1, 110, 108),
          { SELL_GTX(1, 30, 105), "taken", 30 },
          { build_market(2, 20, PEER_BUY, 50, 0), "ended", 30 },
          { SELL_GTX(3, 5, 105), "refused 31", 30 });
    WATCH("nor a bid at the NBO", buy(100, 1, 110, 108),
          { SELL_GTX(1, 30, 105), "taken", 30 },
          { BID(2, 50, 110), "ended", 30 },
          { SELL_GTX(3, 5, 105), "refused 31", 30 });
    WATCH("nor quotes that end it", buy(100, 1, 105, 105),
          { SELL_GTX(1, 30, 105), "taken", 30 },
          { build_quotes(2, 20, 106, 110, 106, 110, 0), "ended", 30 },
          { CANCEL(3, 1), "refused 31", 30 });

    WATCH("a late GTX doesn't count", buy(100, 1, 110, 108),
          { SELL_GTX(1, 30, 105), "taken", 30 },
          { build_gtx(2, 99, PEER_SELL, 10, 105, 0), "taken", 40 },
          { build_gtx(3, 100, PEER_SELL, 10, 105, 0), "late", 40 },
          { build_gtx(4, 100, PEER_SELL, 0, 105, 0), "refused 31", 40 });
    WATCH("a late cancel takes nothing away", buy(100, 1, 110, 108),
          { SELL_GTX(1, 30, 105), "taken", 30 },
          { build_cancel(2, 100, 1), "late", 30 },
          { build_cancel(3, 100, 1), "refused 31", 30 });
    WATCH("a late amend leaves the old size", buy(100, 1, 110, 108),
          { SELL_GTX(1, 30, 105), "taken", 30 },
          { build_amend(2, 101, 1, 50, 105), "late", 30 },
          { build_amend(3, 101, 1, 10, 105), "refused 31", 30 });
    WATCH("a late limit order, marketable, doesn't count", buy(100, 1, 110, 108),
          { build_limit(1, 100, PEER_SELL, 10, 100, 0), "late", 0 },
          { SELL_GTX(2, 10, 105), "refused 31", 0 });
}

/* W-202 and each number 31 to 37; 38 is on full boards. */
static void watched_refusals(void)
{
    struct peer_event bad = SELL_GTX(2, 10, 105);

    bad.marks = 128;
    WATCH("refused with nothing on offer", buy(100, 1, 110, 108),
          { SELL_GTX(1, 0, 105), "refused 32", 0 },
          { SELL_GTX(0, 10, 105), "refused 33", 0 },
          { build_gtx(1, 20, PEER_BUY, 10, 105, 0), "refused 35", 0 },
          { SELL_GTX(1, 10, 111), "refused 36", 0 },
          { CANCEL(1, 1), "refused 37", 0 },
          { AMEND(1, 1, 10, 105), "refused 37", 0 });
    WATCH("each refusal leaves it", buy(100, 1, 110, 108),
          { SELL_GTX(1, 30, 105), "taken", 30 },
          { bad, "refused 32", 30 },
          { SELL_GTX(2, PEER_SIZE_MAX + 1, 105), "refused 32", 30 },
          { AMEND(2, 1, 0, 105), "refused 32", 30 },
          { SELL_GTX(1, 30, 105), "refused 33", 30 },
          { CANCEL(1, 1), "refused 33", 30 },
          { AMEND(1, 1, 10, 105), "refused 33", 30 },
          { build_gtx(2, 19, PEER_SELL, 10, 105, 0), "refused 34", 30 },
          { build_cancel(2, 19, 1), "refused 34", 30 },
          { build_amend(2, 19, 1, 10, 105), "refused 34", 30 },
          { build_limit(2, 19, PEER_SELL, 10, 105, 0), "refused 34", 30 },
          { build_gtx(2, 20, PEER_BUY, 10, 105, 0), "refused 35", 30 },
          { SELL_GTX(2, 10, 111), "refused 36", 30 },
          { AMEND(2, 1, 10, 111), "refused 36", 30 },
          { CANCEL(2, 9), "refused 37", 30 },
          { AMEND(2, 9, 10, 105), "refused 37", 30 },
          { AMEND(2, 2, 10, 105), "refused 37", 30 },
          { SELL_GTX(2, 10, 105), "taken", 40 },
          { build_market(3, 20, PEER_BUY, 1, 0), "ended", 40 },
          { SELL_GTX(4, 10, 105), "refused 31", 40 },
          { bad, "refused 31", 40 });
}

/* The next step of a table made by a loop. */
static void add(struct step *s, int *n, struct peer_event e, const char *says, uint32_t on_offer)
{
    s[*n].e = e;
    s[*n].says = says;
    s[(*n)++].on_offer = on_offer;
}

/* W-202 on full boards. */
static void watched_boards(void)
{
    static struct step s[PEER_EVENTS_MAX];
    uint32_t i, first = UINT32_MAX - PEER_EVENTS_MAX;
    int n = 0;

    for (i = 1; i <= PEER_PLACES; i++)
        add(s, &n, SELL_GTX(i, 1, 109), "taken", i);
    add(s, &n, SELL_GTX(65, 5, 109), "refused 38", 64);
    add(s, &n, SELL(66, 5, 100), "refused 38", 64);
    add(s, &n, SELL(67, 5, 111), "taken", 64);
    add(s, &n, AMEND(68, 7, 3, 109), "taken", 66);
    add(s, &n, SELL_GTX(69, 5, 109), "refused 38", 66);
    add(s, &n, CANCEL(70, 68), "taken", 63);
    add(s, &n, SELL_GTX(71, 500, 109), "taken", 163);
    add(s, &n, SELL_GTX(72, 5, 109), "refused 38", 163);
    add(s, &n, CANCEL(73, 64), "taken", 162);
    add(s, &n, SELL(74, 500, 100), "ended", 662);
    add(s, &n, SELL(75, 500, 100), "refused 31", 662);
    watch("a full board", buy(100, 1, 110, 108), s, (size_t)n);

    for (i = 1, n = 0; i <= PEER_PLACES; i++)
        add(s, &n, SELL_GTX(i, PEER_SIZE_MAX, 109), "taken", PEER_SIZE_MAX * i);
    add(s, &n, SELL_GTX(65, PEER_SIZE_MAX, 109), "refused 38", 6400000);
    add(s, &n, AMEND(66, 1, 99999, 109), "taken", 6399999);
    add(s, &n, CANCEL(67, 2), "taken", 6299999);
    add(s, &n, AMEND(68, 66, PEER_SIZE_MAX, 109), "taken", 6300000);
    add(s, &n, SELL(69, PEER_SIZE_MAX, 100), "ended", 6400000);
    add(s, &n, CANCEL(70, 3), "refused 31", 6400000);
    watch("a full board of the greatest size", buy(PEER_SIZE_MAX, 1, 110, 108), s, (size_t)n);

    /* As many records as a tape can hold, and the longest lines. */
    for (i = 1, n = 0; i <= PEER_PLACES; i++)
        add(s, &n, SELL(first + i, PEER_SIZE_MAX, 109), "taken", PEER_SIZE_MAX * i);
    for (; i <= PEER_EVENTS_MAX; i++)
        add(s, &n, SELL(first + i, PEER_SIZE_MAX, 109), "refused 38", 6400000);
    watch("the longest tape", buy(10, 1, 110, 108), s, (size_t)n);
}

/* The wanted text with every participant 0, or with none told. */
static void plain_text(const char *text, const char *instead, char *out)
{
    const char *who;

    while ((who = strstr(text, " participant ")) != NULL) {
        out += sprintf(out, "%.*s%s", (int)(who - text), text, instead);
        text = who + strcspn(who, "\n");
    }
    strcpy(out, text);
}

/* A new tape, with participants told, and listed; and an old one of the same events. */
static void compare_firms(const char *name, const char *side, const struct peer_order *o, const struct peer_event *e,
                          int n, const char *want)
{
    static char got[PEER_LISTING_MAX + 1], text[PEER_LISTING_MAX + 1];
    unsigned char tape[4096];
    size_t len = build_tape(tape, PEER_NEW, o, e, n);

    got[peer_firms(tape, len, got)] = 0;
    same_text(name, side, want, got);
    got[peer_listing(tape, len, got)] = 0;
    plain_text(want, "", text);
    same_text(name, side, text, got);
    len = build_tape(tape, PEER_OLD, o, e, n);
    got[peer_listing(tape, len, got)] = 0;
    same_text(name, side, text, got);
    got[peer_firms(tape, len, got)] = 0;
    plain_text(want, " participant 0", text);
    same_text(name, side, text, got);
}

static void firms(const char *name, struct peer_order o, const struct peer_event *e, int n, const char *want)
{
    struct peer_event turned[100];
    char text[4096];
    int i;

    compare_firms(name, "participants", &o, e, n, want);
    o = build_turn_order(o);
    for (i = 0; i < n; i++)
        turned[i] = build_turn_event(e[i]);
    turn_text(want, text);
    compare_firms(name, "participants, mirror", &o, turned, n, text);
}

#define FIRMS(name, order, want, ...) \
    firms(name, order, (const struct peer_event[]){ __VA_ARGS__ }, \
          sizeof((const struct peer_event[]){ __VA_ARGS__ }) / sizeof(struct peer_event), want)

/* W-206, worked out by hand: whose participant stands with a response. */
static void participants(void)
{
    FIRMS("the document's listing, with participants", buy(10, 2, 110, 0),
          "AUCTION buy size 10 range 101 to 109\n"
          "EVENT 1 taken\nEVENT 1 refused 33\n"
          "END time range 101 to 109\n"
          "FILL contra 105 3\nFILL 1 105 3 participant 77\nFILL contra 109 4\nTOTAL 10\n",
          build_by(77, SELL_GTX(1, 3, 105)), build_by(5, SELL_GTX(1, 3, 105)));

    FIRMS("each has its own, and they may be equal", buy(100, 1, 110, 108),
          "AUCTION buy size 100 range 100 to 110\n"
          "EVENT 1 taken\nEVENT 2 taken\nEVENT 3 taken\nEVENT 4 taken\nEVENT 5 taken\n"
          "END time range 100 to 110\n"
          "FILL 5 103 1 participant 7\nFILL 4 104 2 participant 0\nFILL 3 105 3 participant 4294967295\n"
          "FILL 2 106 4 participant 7\nFILL 1 107 5 participant 1\nFILL contra 108 85\nTOTAL 100\n",
          build_by(1, SELL_GTX(1, 5, 107)), build_by(7, SELL_GTX(2, 4, 106)), build_by(UINT32_MAX, SELL_GTX(3, 3, 105)),
          build_by(0, SELL_GTX(4, 2, 104)), build_by(7, SELL_GTX(5, 1, 103)));

    FIRMS("a limit order that takes a place", buy(100, 1, 110, 108),
          "AUCTION buy size 100 range 100 to 110\n"
          "EVENT 1 taken\nEVENT 2 taken\n"
          "END time range 100 to 110\n"
          "FILL 2 104 20 participant 4\nFILL 1 105 30 participant 9\nFILL contra 108 50\nTOTAL 100\n",
          build_by(9, SELL(1, 30, 105)), build_by(4, SELL(2, 20, 104)));

    FIRMS("a marketable one, that ends the auction", buy(100, 1, 110, 108),
          "AUCTION buy size 100 range 100 to 110\n"
          "EVENT 1 taken\nEVENT 2 ended\nEVENT 3 refused 31\n"
          "END opposite range 100 to 110\n"
          "FILL 2 100 50 participant 8\nFILL 1 105 30 participant 7\nFILL contra 108 20\nTOTAL 100\n",
          build_by(7, SELL_GTX(1, 30, 105)), build_by(8, SELL(2, 50, 100)), build_by(9, AMEND(3, 1, 30, 105)));

    FIRMS("a market order's is not kept", buy(100, 1, 110, 108),
          "AUCTION buy size 100 range 100 to 110\n"
          "EVENT 1 taken\nEVENT 2 ended\n"
          "END opposite range 100 to 110\n"
          "FILL 2 105 20\nFILL 1 105 30 participant 7\nFILL contra 108 50\nTOTAL 100\n",
          build_by(7, SELL_GTX(1, 30, 105)), build_by(8, build_market(2, 20, PEER_SELL, 20, 0)));

    FIRMS("kept with a Customer's", buy(100, 1, 110, 108),
          "AUCTION buy size 100 range 100 to 110\n"
          "EVENT 1 taken\nEVENT 2 taken\nEVENT 3 taken\n"
          "END time range 100 to 110\n"
          "FILL 2 108 10 participant 2\nFILL 3 108 20 participant 6\nFILL contra 108 40\nFILL 1 108 30 participant 3\n"
          "TOTAL 100\n",
          build_by(3, SELL_GTX(1, 100, 108)), build_by(2, build_gtx(2, 20, PEER_SELL, 10, 108, PEER_CUSTOMER)),
          build_by(6, build_limit(3, 20, PEER_SELL, 20, 108, PEER_CUSTOMER)));

    FIRMS("bids, quotes and cancels may have one", buy(100, 1, 110, 108),
          "AUCTION buy size 100 range 100 to 110\n"
          "EVENT 1 taken\nEVENT 2 taken\nEVENT 3 taken\nEVENT 4 taken\nEVENT 5 taken\nEVENT 6 ended\n"
          "END same range 102 to 110\n"
          "FILL 1 105 30 participant 7\nFILL contra 108 70\nTOTAL 100\n",
          build_by(7, SELL_GTX(1, 30, 105)), build_by(8, BID(2, 5, 101)),
          build_by(9, build_quotes(3, 20, 102, 110, 102, 110, 0)), build_by(10, SELL_GTX(4, 30, 105)),
          build_by(11, CANCEL(5, 4)), build_by(12, build_market(6, 20, PEER_BUY, 5, 0)));
}

/* W-206 and amends, cancels and refusals. */
static void participants_move(void)
{
    struct peer_event low = AMEND(2, 1, 20, 105), high = AMEND(2, 1, 20, 111), late = AMEND(2, 1, 20, 105);

    FIRMS("an amend brings the event's", buy(100, 1, 110, 108),
          "AUCTION buy size 100 range 100 to 110\n"
          "EVENT 1 taken\nEVENT 2 taken\n"
          "END time range 100 to 110\n"
          "FILL 2 106 20 participant 8\nFILL contra 108 80\nTOTAL 100\n",
          build_by(7, SELL_GTX(1, 30, 105)), build_by(8, AMEND(2, 1, 20, 106)));
    FIRMS("also where it is 0", buy(100, 1, 110, 108),
          "AUCTION buy size 100 range 100 to 110\n"
          "EVENT 1 taken\nEVENT 2 taken\n"
          "END time range 100 to 110\n"
          "FILL 2 106 20 participant 0\nFILL contra 108 80\nTOTAL 100\n",
          build_by(7, SELL_GTX(1, 30, 105)), build_by(0, AMEND(2, 1, 20, 106)));
    FIRMS("and the last of three", buy(100, 1, 110, 108),
          "AUCTION buy size 100 range 100 to 110\n"
          "EVENT 1 taken\nEVENT 2 taken\nEVENT 3 taken\nEVENT 4 taken\nEVENT 5 taken\n"
          "END time range 100 to 110\n"
          "FILL 5 104 10 participant 3\nFILL 2 107 5 participant 6\nFILL contra 108 85\nTOTAL 100\n",
          build_by(7, SELL_GTX(1, 30, 105)), build_by(6, SELL_GTX(2, 5, 107)), build_by(8, AMEND(3, 1, 20, 106)),
          build_by(9, AMEND(4, 3, 20, 105)), build_by(3, AMEND(5, 4, 10, 104)));

    /* 7's is cancelled by 9; 8's comes to its place. */
    FIRMS("a cancel by another", buy(100, 1, 110, 108),
          "AUCTION buy size 100 range 100 to 110\n"
          "EVENT 1 taken\nEVENT 2 taken\nEVENT 3 taken\nEVENT 4 taken\n"
          "END time range 100 to 110\n"
          "FILL 2 105 20 participant 6\nFILL 4 106 10 participant 8\nFILL contra 108 70\nTOTAL 100\n",
          build_by(7, SELL_GTX(1, 30, 105)), build_by(6, SELL_GTX(2, 20, 105)), build_by(9, CANCEL(3, 1)),
          build_by(8, SELL_GTX(4, 10, 106)));

    low.time = 19;
    late.time = 100;
    FIRMS("refused and late ones leave it", buy(100, 1, 110, 108),
          "AUCTION buy size 100 range 100 to 110\n"
          "EVENT 1 taken\nEVENT 1 refused 33\nEVENT 1 refused 33\nEVENT 2 refused 34\nEVENT 2 refused 36\n"
          "EVENT 2 refused 37\nEVENT 2 refused 32\nEVENT 2 late\nEVENT 3 refused 31\n"
          "END time range 100 to 110\n"
          "FILL 1 105 30 participant 7\nFILL contra 108 70\nTOTAL 100\n",
          build_by(7, SELL_GTX(1, 30, 105)), build_by(8, SELL_GTX(1, 30, 105)), build_by(8, AMEND(1, 1, 30, 105)),
          build_by(8, low), build_by(8, high), build_by(8, AMEND(2, 9, 20, 105)), build_by(8, AMEND(2, 1, 0, 105)),
          build_by(8, late), build_by(8, AMEND(3, 1, 20, 105)));
}

/* One tape whose bytes are given, and its whole listing. */
static void bytes_give(const char *name, const unsigned char *tape, size_t n, const char *want)
{
    char got[PEER_LISTING_MAX + 1];

    got[peer_listing(tape, n, got)] = 0;
    same_text(name, "bytes", want, got);
}

/* The bytes of an amend, each field put at its place by hand. */
static void amend_bytes(void)
{
    unsigned char t[64 + 2 * 32 + 16], *p = t + 96;
    struct peer_order o = buy(100, 1, 110, 108);
    struct peer_event e[2];
    const char *fine = "AUCTION buy size 100 range 100 to 110\nEVENT 1 taken\nEVENT 2 taken\n"
                       "END time range 100 to 110\nFILL 2 106 20\nFILL contra 108 80\nTOTAL 100\n";
    const char *not_in_form = "AUCTION buy size 100 range 100 to 110\nEVENT 1 taken\nEVENT 2 refused 32\n"
                              "END time range 100 to 110\nFILL 1 105 30\nFILL contra 108 70\nTOTAL 100\n";
    static const int zero_at[] = { 9, 10, 11, 24, 27, 28, 31 };
    size_t i, n;

    e[0] = e[1] = SELL_GTX(1, 30, 105);
    n = build_tape(t, PEER_OLD, &o, e, 2);
    memset(p, 0, 32);
    p[0] = 2;
    p[4] = 20;
    p[8] = 6;
    p[12] = 1;
    p[16] = 20;
    p[20] = 106;
    bytes_give("an amend's bytes", t, n, fine);
    for (i = 0; i < sizeof zero_at / sizeof zero_at[0]; i++) {
        p[zero_at[i]] = 1;
        bytes_give("a byte of an amend that must be zero", t, n, not_in_form);
        p[zero_at[i]] = 0;
    }
}

/* The bytes of a collar, each field put at its place by hand. */
static void collar_bytes(void)
{
    unsigned char t[64 + 16];
    struct peer_order o = buy(10, 2, 110, 0), s = sell(10, 2, 100, 0);
    const char *none = "AUCTION buy size 10 range 101 to 109\nEND time range 101 to 109\nFILL contra 109 10\nTOTAL 10\n";
    const char *fine = "AUCTION buy size 10 range 101 to 105\nEND time range 101 to 105\nFILL contra 105 10\nTOTAL 10\n";
    const char *high = "AUCTION buy size 10 range 101 to 110\nEND time range 101 to 110\nFILL contra 110 10\nTOTAL 10\n";
    const char *sold = "AUCTION sell size 10 range 105 to 109\nEND time range 105 to 109\nFILL contra 105 10\nTOTAL 10\n";
    size_t i, n;

    n = build_tape(t, PEER_OLD, &o, NULL, 0);
    bytes_give("no collar", t, n, none);
    for (i = 48; i < 64; i++) {
        t[i] = 1;
        bytes_give("one byte of 48 to 63", t, n, "REFUSED 1\n");
        t[i] = 0;
    }
    t[48] = 109;
    t[52] = 3;
    bytes_give("a collar's bytes", t, n, fine);
    for (i = 56; i < 64; i++) {
        t[i] = 128;
        bytes_give("a byte behind a collar", t, n, "REFUSED 1\n");
        t[i] = 0;
    }
    t[49] = 1;                              /* 365 less 3: all of 110 */
    bytes_give("displayed 365", t, n, high);
    t[53] = 1;                              /* 365 less 259 is 106 again */
    bytes_give("collar 259", t, n, fine);
    t[50] = t[54] = 3;                      /* 196,608 more in each */
    bytes_give("the third bytes", t, n, fine);
    t[51] = t[55] = 1;                      /* 16,777,216 more in each */
    bytes_give("the fourth bytes", t, n, "REFUSED 1\n");

    n = build_tape(t, PEER_OLD, &s, NULL, 0);
    t[48] = 101;
    t[52] = 3;
    bytes_give("a collar's bytes, sell", t, n, sold);
    t[48] = 3;
    t[52] = 101;
    bytes_give("a collar's bytes, sell, changed about", t, n, sold);
}

/* The last eight bytes of a new record, each put at its place by hand. */
static void new_bytes(void)
{
    unsigned char t[64 + 2 * 40 + 16], *p = t + 64 + 40;
    struct peer_order o = buy(100, 1, 110, 108);
    struct peer_event e[2];
    const char *fine = "AUCTION buy size 100 range 100 to 110\nEVENT 1 taken\nEVENT 2 taken\n"
                       "END time range 100 to 110\nFILL 1 105 30 participant 7\nFILL 2 106 20 participant 67305985\n"
                       "FILL contra 108 50\nTOTAL 100\n";
    const char *plain = "AUCTION buy size 100 range 100 to 110\nEVENT 1 taken\nEVENT 2 taken\n"
                        "END time range 100 to 110\nFILL 1 105 30\nFILL 2 106 20\nFILL contra 108 50\nTOTAL 100\n";
    const char *not_in_form = "AUCTION buy size 100 range 100 to 110\nEVENT 1 taken\nEVENT 2 refused 32\n"
                              "END time range 100 to 110\nFILL 1 105 30\nFILL contra 108 70\nTOTAL 100\n";
    char got[PEER_LISTING_MAX + 1];
    size_t i, n;

    e[0] = build_by(7, SELL_GTX(1, 30, 105));
    e[1] = SELL_GTX(2, 20, 106);
    n = build_tape(t, PEER_NEW, &o, e, 2);
    for (i = 0; i < 4; i++)                 /* 1 + 2 x 256 + 3 x 65,536 + 4 x 16,777,216 */
        p[32 + i] = (unsigned char)(i + 1);
    got[peer_firms(t, n, got)] = 0;
    same_text("a participant's bytes", "bytes", fine, got);
    bytes_give("a participant's bytes", t, n, plain);
    for (i = 36; i < 40; i++) {
        p[i] = 1;
        bytes_give("a byte of the last word", t, n, not_in_form);
        p[i] = 0;
    }
    for (i = 28; i < 32; i++) {
        p[i] = 128;
        bytes_give("a byte before the participant", t, n, not_in_form);
        p[i] = 0;
    }
    memset(p, 255, 40);
    bytes_give("a record out of form", t, n,
               "AUCTION buy size 100 range 100 to 110\nEVENT 1 taken\nEVENT 4294967295 refused 32\n"
               "END time range 100 to 110\nFILL 1 105 30\nFILL contra 108 70\nTOTAL 100\n");
}

enum { UNTOUCHED = 0x5A, BEYOND = 64 };

/* One move: its number, or the moved bytes, and not one byte more. */
static void moves_to(const char *name, const unsigned char *tape, size_t n, int to_new, size_t room, int number,
                     const unsigned char *want, size_t length)
{
    static unsigned char out[PEER_TAPE_MAX + BEYOND], whole[PEER_TAPE_MAX + BEYOND];
    size_t got = UNTOUCHED;
    int answer;

    memset(out, UNTOUCHED, sizeof out);
    memset(whole, UNTOUCHED, sizeof whole);
    if (number == 0)
        memcpy(whole, want, length);
    answer = peer_move(tape, n, to_new, out, room, &got);
    if (answer == number && got == (number ? UNTOUCHED : length) && memcmp(out, whole, sizeof out) == 0) {
        passed++;
        return;
    }
    failed++;
    printf("FAILED %s (move %s): answer %d, length %lu\n", name, to_new ? "new" : "old", answer, (unsigned long)got);
}

static void move_refused(const char *name, const unsigned char *tape, size_t n, int to_new, int number)
{
    moves_to(name, tape, n, to_new, PEER_TAPE_MAX, number, NULL, 0);
    moves_to(name, tape, n, to_new, 0, number, NULL, 0);
}

/* Both ways, into enough room, just enough, and one byte less. */
static void moves_both(const char *name, const unsigned char *old, size_t n, const unsigned char *new, size_t m)
{
    moves_to(name, old, n, 1, PEER_TAPE_MAX, 0, new, m);
    moves_to(name, old, n, 1, m, 0, new, m);
    moves_to(name, old, n, 1, m - 1, 24, NULL, 0);
    moves_to(name, old, n, 1, 0, 24, NULL, 0);
    moves_to(name, new, m, 0, PEER_TAPE_MAX, 0, old, n);
    moves_to(name, new, m, 0, n, 0, old, n);
    moves_to(name, new, m, 0, n - 1, 24, NULL, 0);
    moves_to(name, new, m, 0, 0, 24, NULL, 0);
    move_refused(name, old, n, 0, 22);
    move_refused(name, new, m, 1, 22);
}

/* W-206: a prefix, an order and records that are out of form are moved as they are. */
static void moves(void)
{
    unsigned char old[5 + 64 + 3 * 32 + 16], new[5 + 64 + 3 * 40 + 16], *p = new + 5 + 64;
    struct peer_order o = buy(100, 1, 110, 108);
    struct peer_event e[3];
    size_t n = sizeof old, m = sizeof new, i;

    e[0] = SELL_GTX(1, 30, 105);
    e[1] = AMEND(2, 1, 20, 106);
    e[2] = CANCEL(3, 9);
    build_tape(old + 5, PEER_OLD, &o, e, 3);
    build_tape(new + 5, PEER_NEW, &o, e, 3);
    memcpy(old, "CUB2!", 5);
    memcpy(new, "CUB2!", 5);
    old[n - 12] = new[m - 12] = 5;          /* the offset */
    moves_both("a prefix of five bytes", old, n, new, m);
    memset(old + 5, 254, 64);
    memset(new + 5, 254, 64);
    moves_both("an order out of form", old, n, new, m);
    memset(old + 5 + 64 + 32, 255, 32);
    memset(p + 40, 255, 32);
    moves_both("a record out of form", old, n, new, m);

    for (i = 0; i < 3 * 40; i++) {          /* any byte of any record's last two words */
        if (i % 40 < 32)
            continue;
        p[i] = 1;
        move_refused("a last word or a participant that isn't 0", new, m, 0, 25);
        move_refused("already new, whatever is in it", new, m, 1, 22);
        p[i] = 0;
    }
    moves_both("all zero again", old, n, new, m);

    old[n - 1] = new[m - 1] = 1;
    p[32] = 1;
    move_refused("the last word of the trailer", old, n, 1, 22);
    move_refused("the last word of the trailer", new, m, 0, 22);
    old[n - 1] = new[m - 1] = 0;
    old[n - 12] = new[m - 12] = 6;
    move_refused("the offset", old, n, 1, 23);
    move_refused("the offset, before 25", new, m, 0, 23);
    move_refused("already old, and the offset", old, n, 0, 22);
    move_refused("already new, and the offset", new, m, 1, 22);
    old[n - 12] = new[m - 12] = 5;
    old[n - 13] = '2';
    new[m - 13] = 'T';
    move_refused("the other word", old, n, 0, 23);
    move_refused("the other word", new, m, 1, 23);
    move_refused("the other word, wanted", old, n, 1, 22);
    move_refused("the other word, wanted", new, m, 0, 22);
    old[n - 13] = new[m - 13] = '3';
    move_refused("neither word", old, n, 0, 22);
    move_refused("neither word", new, m, 1, 22);
    for (i = 0; i < 2; i++) {
        move_refused("no bytes", old, 0, (int)i, 21);
        move_refused("15 bytes", old, 15, (int)i, 21);
        move_refused("16 bytes of no trailer", old, 16, (int)i, 22);
    }
}

/* W-206 about the greatest length. */
static void long_moves(void)
{
    static unsigned char old[PEER_TAPE_MAX + 64], new[PEER_TAPE_MAX + 64];
    static struct peer_event e[PEER_EVENTS_MAX];
    static const size_t count[] = { 0, 1, 3, 1635, 1636 };
    struct peer_order o = buy(100, 1, 110, 108);
    size_t i, n, m, s;

    for (i = 0; i < PEER_EVENTS_MAX; i++)
        e[i] = SELL_GTX((uint32_t)i + 1, 30, 105);
    for (i = 0; i < sizeof count / sizeof count[0]; i++) {
        s = 65536 - 80 - 40 * count[i];     /* 16 for 1,636 events */
        memset(old, 0xC3, s);
        memset(new, 0xC3, s);
        n = s + build_tape(old + s, PEER_OLD, &o, e, (int)count[i]);
        m = s + build_tape(new + s, PEER_NEW, &o, e, (int)count[i]);
        build_word(old + n - 12, (uint32_t)s);
        build_word(new + m - 12, (uint32_t)s);
        moves_both("to 65,536 bytes", old, n, new, m);
        if (count[i] == 0)
            continue;                       /* the next one is 21 */
        n = s + 1 + build_tape(old + s + 1, PEER_OLD, &o, e, (int)count[i]);
        old[s] = 0xC3;
        build_word(old + n - 12, (uint32_t)s + 1);
        move_refused("to 65,537 bytes", old, n, 1, 26);
        move_refused("is old", old, n, 0, 22);
        new[m - 24 + 7] = 1;                /* the last record's last byte */
        move_refused("65,536 bytes, the last record's last byte", new, m, 0, 25);
    }
    n = build_tape(old, PEER_OLD, &o, e, 1636);
    m = build_tape(new, PEER_NEW, &o, e, 1636);
    moves_both("1,636 events alone", old, n, new, m);
    n = build_tape(old, PEER_OLD, &o, e, 1637);
    move_refused("1,637 events", old, n, 1, 26);
    n = build_tape(old, PEER_OLD, &o, e, PEER_EVENTS_MAX);
    move_refused("2,045 events", old, n, 1, 26);
    memset(old, 0, sizeof old);
    move_refused("65,536 bytes of zero", old, PEER_TAPE_MAX, 1, 22);
    move_refused("65,537 bytes", old, PEER_TAPE_MAX + 1, 1, 21);
    move_refused("65,537 bytes", old, PEER_TAPE_MAX + 1, 0, 21);
}

/* The numbers 21, 22, 23 of a new tape. */
static void new_tapes(void)
{
    static unsigned char t[PEER_TAPE_MAX + 64];
    struct peer_order o = buy(10, 2, 110, 0);
    struct peer_event e = SELL_GTX(1, 3, 105);
    const char *none = "AUCTION buy size 10 range 101 to 109\nEND time range 101 to 109\nFILL contra 109 10\nTOTAL 10\n";
    const char *fine = "AUCTION buy size 10 range 101 to 109\nEVENT 1 taken\nEND time range 101 to 109\n"
                       "FILL contra 105 3\nFILL 1 105 3\nFILL contra 109 4\nTOTAL 10\n";
    size_t n;

    n = build_tape(t, PEER_NEW, &o, NULL, 0);
    bytes_give("80 new bytes", t, n, none);
    bytes_give("a new trailer alone", t + 64, 16, "REFUSED 23\n");
    n = build_tape(t, PEER_NEW, &o, &e, 1);
    bytes_give("120 new bytes", t, n, fine);
    build_trailer(t + 104, PEER_OLD, 0, 1);
    bytes_give("CUBT and 40 bytes", t, n, "REFUSED 23\n");
    build_trailer(t + 104, PEER_NEW, 0, 1 + (1u << 29));
    bytes_give("a new sum that would wrap", t, n, "REFUSED 23\n");
    build_trailer(t + 104, PEER_NEW, 0u - 40, 2);
    bytes_give("a new offset that would wrap", t, n, "REFUSED 23\n");
    build_trailer(t + 104, PEER_NEW, 0, 1);
    t[n - 1] = 1;
    bytes_give("a new tape's last word", t, n, "REFUSED 22\n");
    t[n - 1] = 0;
    t[n - 13] = '3';
    bytes_give("CUB3", t, n, "REFUSED 22\n");
    t[n - 13] = 2;
    bytes_give("CUB and a 2 that is no letter", t, n, "REFUSED 22\n");
    n = build_tape(t, PEER_OLD, &o, &e, 1);
    build_trailer(t + 96, PEER_NEW, 0, 1);
    bytes_give("CUB2 and 32 bytes", t, n, "REFUSED 23\n");

    memset(t, 0xEE, sizeof t);
    build_tape(t + PEER_TAPE_MAX - 120, PEER_NEW, &o, &e, 1);
    build_trailer(t + PEER_TAPE_MAX - 16, PEER_NEW, PEER_TAPE_MAX - 120, 1);
    bytes_give("the greatest length, new", t, PEER_TAPE_MAX, fine);
    build_tape(t + PEER_TAPE_MAX - 119, PEER_NEW, &o, &e, 1);
    build_trailer(t + PEER_TAPE_MAX - 15, PEER_NEW, PEER_TAPE_MAX - 119, 1);
    bytes_give("one byte over, new", t, PEER_TAPE_MAX + 1, "REFUSED 21\n");
}

/* The numbers 21, 22, 23 and the recorder's bytes. */
static void tapes(void)
{
    static unsigned char t[PEER_TAPE_MAX + 64];
    struct peer_order o = buy(10, 2, 110, 0);
    const char *fine = "AUCTION buy size 10 range 101 to 109\nEND time range 101 to 109\nFILL contra 109 10\nTOTAL 10\n";
    size_t n;

    n = build_tape(t, PEER_OLD, &o, NULL, 0);
    bytes_give("80 bytes", t, n, fine);
    bytes_give("no bytes", t, 0, "REFUSED 21\n");
    bytes_give("15 bytes", t, 15, "REFUSED 21\n");
    bytes_give("16 bytes of an order", t, 16, "REFUSED 22\n");
    bytes_give("a trailer alone", t + 64, 16, "REFUSED 23\n");
    bytes_give("one byte short in front", t + 1, n - 1, "REFUSED 23\n");
    build_trailer(t + 64, PEER_OLD, 1, 0);
    bytes_give("the offset one too high", t, n, "REFUSED 23\n");
    build_trailer(t + 64, PEER_OLD, 0, 1u << 27);
    bytes_give("a sum that would wrap", t, n, "REFUSED 23\n");
    build_trailer(t + 64, PEER_OLD, 0u - 32, 1);
    bytes_give("an offset that would wrap", t, n, "REFUSED 23\n");
    build_trailer(t + 64, PEER_OLD, 0, 0);
    t[79] = 1;
    bytes_give("the last word", t, n, "REFUSED 22\n");
    t[79] = 0;
    t[64] = 'c';
    bytes_give("the first word", t, n, "REFUSED 22\n");

    memset(t, 0xEE, sizeof t);
    build_tape(t + PEER_TAPE_MAX - 80, PEER_OLD, &o, NULL, 0);
    build_trailer(t + PEER_TAPE_MAX - 16, PEER_OLD, PEER_TAPE_MAX - 80, 0);
    bytes_give("the greatest length", t, PEER_TAPE_MAX, fine);
    build_tape(t + PEER_TAPE_MAX - 79, PEER_OLD, &o, NULL, 0);
    build_trailer(t + PEER_TAPE_MAX - 15, PEER_OLD, PEER_TAPE_MAX - 79, 0);
    bytes_give("one byte over", t, PEER_TAPE_MAX + 1, "REFUSED 21\n");
}

int main(int argc, char **argv)
{
    if (argc == 2) {
        unsigned char t[200];
        struct peer_order o = buy(10, 2, 110, 0);
        struct peer_event e[2];
        size_t n;

        e[0] = build_by(77, SELL_GTX(1, 3, 105));
        e[1] = build_by(5, SELL_GTX(1, 3, 105));
        n = build_tape(t, strcmp(argv[1], "firms") == 0 ? PEER_NEW : PEER_OLD, &o, e, 2);
        return fwrite(t, 1, n, stdout) == n ? EXIT_SUCCESS : EXIT_FAILURE;
    }
    figures();
    readings();
    amends();
    amend_bytes();
    leftovers_by_part();
    leftovers_of_equals();
    leftovers_by_mode();
    collars();
    collars_after();
    collar_form();
    collar_fills();
    collar_events();
    collar_bytes();
    watched_figures();
    watched_moves();
    watched_endings();
    watched_refusals();
    watched_boards();
    participants();
    participants_move();
    new_bytes();
    moves();
    long_moves();
    tapes();
    new_tapes();
    printf("figures: %d passed, %d failed\n", passed, failed);
    return failed ? EXIT_FAILURE : EXIT_SUCCESS;
}
