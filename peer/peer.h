/* peer.h: the engine. From the bytes of a tape to the bytes of its listing, or to
 * those of the tape in its other form. */
#ifndef PEER_H
#define PEER_H

#include <stddef.h>
#include <stdint.h>

#define PEER_TAPE_MIN     16
#define PEER_TAPE_MAX     65536
#define PEER_ORDER_BYTES  64
#define PEER_TRAILER_BYTES 16
#define PEER_EVENTS_MAX   2045      /* what fits an old tape of the greatest length */
#define PEER_EVENTS_MAX_NEW 1636    /* and a new one */
#define PEER_PLACES       64
#define PEER_FILLS_MAX    130

/* No listing is longer: EVENT lines of at most 48 bytes, FILL lines of at most 53, and 97 for the other three. */
#define PEER_LISTING_MAX  (PEER_EVENTS_MAX * 48 + PEER_FILLS_MAX * 53 + 97)

#define PEER_MIRROR       1000000u  /* a sell's price p is worked as this less p */
#define PEER_PRICE_MAX    999999u
#define PEER_SIZE_MAX     100000u
#define PEER_TIME_MAX     86400000u

/* The forms of a tape, "CUBT" and "CUB2": each is the length of its event records. */
enum peer_form { PEER_OLD = 32, PEER_NEW = 40 };

enum peer_side { PEER_BUY = 1, PEER_SELL = 2 };

enum peer_mode { PEER_STOP = 1, PEER_MATCH = 2, PEER_MATCH_LIMIT = 3 };

enum peer_order_mark {
    PEER_HALTED = 1, PEER_OTHER_OPEN = 2, PEER_CUST_BB = 4, PEER_CUST_BO = 8
};

enum peer_event_mark { PEER_CUSTOMER = 1, PEER_NON_ROUTABLE = 2 };

enum peer_kind {
    PEER_GTX = 1, PEER_CANCEL = 2, PEER_LIMIT = 3, PEER_MARKET = 4, PEER_QUOTES = 5, PEER_AMEND = 6
};

/* How an auction stands. */
enum peer_ending {
    PEER_OPEN, PEER_BY_TIME, PEER_BY_SAME, PEER_BY_OPPOSITE, PEER_BY_IMPROVE
};

/* What an event is answered; above zero it is the number of a refusal. */
enum peer_answer { PEER_TAKEN = 0, PEER_ENDED = -1, PEER_LATE = -2 };

/* An order record as it stands on the tape. */
struct peer_order {
    uint32_t side, mode, marks;
    uint32_t size, limit, stop;         /* stop: or the auto-match limit */
    uint32_t nbb, nbo, bb, bo;
    uint32_t time, open, close, interval;
    uint32_t displayed, collar;         /* of a collared order on the other side; both 0: none */
    uint32_t spare;                     /* all bytes that must be zero, or-ed */
};

/* An event record as it stands on the tape. */
struct peer_event {
    uint32_t seq, time, kind, marks, side;
    uint32_t field[4];
    uint32_t participant;               /* 0 in an old record */
    uint32_t spare;                     /* all bytes that must be zero, or-ed */
};

/* A response that is live: a GTX, or a limit order that took a place. */
struct peer_response {
    uint32_t seq, size, price;
    int customer;
    int gtx;                            /* only a GTX can be cancelled or amended */
    uint32_t participant;               /* that of the event which made it what it is */
    uint32_t working;                   /* set at the ending */
};

/* One auction, always worked as a buy. */
struct peer_auction {
    struct peer_order order;            /* mirrored when the tape's is a sell */
    int sell;
    uint32_t init;                      /* the initiating price */
    uint32_t nbb_start;                 /* the NBB at initiation */
    uint32_t nbb, nbo, bb, bo;
    int cust_bb, cust_bo;
    uint32_t top_seq, clock;
    struct peer_response live[PEER_PLACES];
    int n_live;
    int ending;                         /* enum peer_ending */
    uint32_t market_seq, market_size;   /* the market sell that ended it, or 0 */
};

struct peer_fill {
    uint32_t party, price, quantity;    /* party 0 is the Contra Order */
};

/* All that a listing says of a tape. */
struct peer_run {
    int watch;                          /* are the contracts on offer told? */
    int refused;                        /* number for tape or order, else 0 */
    struct peer_auction start, end;     /* at acceptance, and after the ending */
    int n_events;
    struct {
        uint32_t seq;
        int answer;
        uint32_t on_offer;              /* in a watch: after it, also where it was refused */
    } event[PEER_EVENTS_MAX];
    int n_fills;
    struct peer_fill fill[PEER_FILLS_MAX];
};

/* What a trailer tells of its tape. */
struct peer_layout {
    size_t form;                        /* enum peer_form */
    size_t at;                          /* the order's place */
    size_t events;                      /* their count */
};

/* Records from bytes. */
void peer_read_order(const unsigned char *p, struct peer_order *o);
void peer_read_event(const unsigned char *p, size_t form, struct peer_event *e);

/* Number 21, 22 or 23, or 0 with the layout set. */
int peer_read_tape(const unsigned char *tape, size_t n, struct peer_layout *l);

/* Is the record in its stated form? */
int peer_order_form(const struct peer_order *o);
int peer_event_form(const struct peer_event *e);

/* Starts an auction: 0, or the order's number 1 to 13. */
int peer_accept(const struct peer_order *raw, struct peer_auction *out);

/* The lower bound that holds now. */
uint32_t peer_bound(const struct peer_auction *a);

/* G, once the auction has ended. */
uint32_t peer_guarantee(const struct peer_auction *a);

/* The contracts on offer: the total size of the live responses. */
uint32_t peer_on_offer(const struct peer_auction *a);

/* One event: an answer or a number 31 to 38. */
int peer_step(struct peer_auction *a, const struct peer_event *raw);

/* Closing by hand: 0, or 31 if it has ended. */
int peer_close(struct peer_auction *a);

/* The fills of an ended auction, in the prices of the tape; gives their count. */
int peer_fills(const struct peer_auction *a, struct peer_fill *fill);

/* Runs a whole tape, and closes an auction still open after it. A watch also
 * tells the contracts on offer after each event; a listing needs no sums. */
void peer_run(const unsigned char *tape, size_t n, int watch, struct peer_run *r);

/* The listing of a run; out has room for PEER_LISTING_MAX bytes. */
size_t peer_print(const struct peer_run *r, char *out);

/* Both together: tape bytes to listing bytes, giving the listing's length. */
size_t peer_listing(const unsigned char *tape, size_t n, char *out);

/* The listing with the contracts on offer at the end of each EVENT line. */
size_t peer_watch(const unsigned char *tape, size_t n, char *out);

/* The listing with the participant at the end of each FILL line of a response. */
size_t peer_firms(const unsigned char *tape, size_t n, char *out);

/* Moves a tape to the new form, or back to the old one: 0 with the moved length
 * set, or 21, 22, 23, 25, 26 or 24, tested in this order. Then no byte of out is
 * changed, nor is length; and never a byte past the moved tape. */
int peer_move(const unsigned char *tape, size_t n, int to_new, unsigned char *out, size_t room, size_t *length);

#endif
